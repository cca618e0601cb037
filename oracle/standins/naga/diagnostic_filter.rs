//! Stands for diagnostic_filter.

#[derive(Clone, Debug)]
pub struct DiagnosticFilterNode;
