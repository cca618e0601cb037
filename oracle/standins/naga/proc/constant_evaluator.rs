//! Stands for constant_evaluator: names only.

pub struct ConstantEvaluator;
pub struct ConstantEvaluatorError;
pub struct ExpressionKind;
pub struct ExpressionKindTracker;
