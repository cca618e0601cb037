//! The source is asked here: `ResolveContext::resolve`, `validate_compose` and `compare_types`.
//!
//! It can't be asked past a newer thing. There it is stopped, by unwinding: at the read of a newer or
//! refused row, and at a look into a type of unknown kind.

use super::{
    file::{two, Fault, File, Frame},
    module::{handle, inner, parts, verdict_of, Read},
};
use crate::{
    arena::ClosedLook,
    proc::{compare_types, ResolveContext, ResolveError, TypeResolution},
    valid::{validate_compose, ComposeError},
};
use core::cell::Cell;
use std::{
    panic::{catch_unwind, resume_unwind, AssertUnwindSafe},
    prelude::v1::*,
};

#[derive(Debug)]
pub enum Answer {
    Type(TypeResolution),
    Refused(ResolveError),
    /// The row where it was met.
    Newer(usize),
}

#[derive(Debug)]
pub enum Stop {
    /// Math, or a row of unknown kind: there is no expression to ask for.
    NoRow,
    /// A newer row was read; the row where it was met.
    Newer(usize),
    /// A type of unknown kind was looked into.
    Look,
    /// In a verdict: the composed type is of unknown kind.
    Composed,
    /// In a verdict: the component's type was looked into.
    PartLook(usize),
    /// In a verdict: the component row is newer.
    PartNewer(usize),
    /// In a verdict: the component row is refused.
    PartRefused(usize),
}

impl Stop {
    /// The verdict of compose row `at` that stands for the stop.
    pub fn frame(&self, at: usize) -> Frame {
        match *self {
            Stop::Composed => verdict_of(at, 22, u32::MAX, 0),
            Stop::PartLook(part) | Stop::PartNewer(part) => verdict_of(at, 22, part as u32, 0),
            Stop::PartRefused(part) => verdict_of(at, 33, part as u32, 0),
            Stop::NoRow | Stop::Newer(_) | Stop::Look => panic!("not of a verdict"),
        }
    }
}

/// Runs the source to its answer or to a stop.
fn stopped<T>(read: &Read, watch: bool, call: impl FnOnce() -> T) -> Result<T, Stop> {
    read.module.types.watch(watch);
    let result = catch_unwind(AssertUnwindSafe(call));
    read.module.types.watch(false);
    result.map_err(|thrown| match thrown.downcast::<Stop>() {
        Ok(stop) => *stop,
        Err(thrown) => match thrown.downcast::<ClosedLook>() {
            Ok(_) => Stop::Look,
            Err(thrown) => resume_unwind(thrown),
        },
    })
}

pub fn row(read: &Read, answers: &[Answer], at: usize) -> Result<Answer, Stop> {
    let Some(ref expression) = read.rows[at] else {
        return Err(Stop::NoRow);
    };
    let context = ResolveContext::with_locals(&read.module, &read.locals, &read.arguments);
    let result = stopped(read, true, || {
        context.resolve(expression, |operand| match answers[operand.index()] {
            Answer::Type(ref ty) => Ok(ty),
            Answer::Refused(ref refusal) => Err(refusal.clone()),
            Answer::Newer(met) => resume_unwind(Box::new(Stop::Newer(met))),
        })
    })?;
    Ok(match result {
        Ok(ty) => Answer::Type(ty),
        Err(refusal) => Answer::Refused(refusal),
    })
}

/// A compose's components, given out as the source comes to them.
struct Parts<'a> {
    file: &'a File,
    read: &'a Read,
    answers: &'a [Answer],
    ty: &'a Frame,
    rows: &'a [Frame],
    come: &'a Cell<usize>,
}

impl Parts<'_> {
    /// The type number that the component is compared with, if it is.
    fn against(&self, part: usize) -> Option<usize> {
        match self.ty[1] {
            8 => Some(two(self.ty, 2)),
            9 => Some(two(&self.file.members[two(self.ty, 2) + part], 2)),
            _ => None,
        }
    }
}

impl Iterator for Parts<'_> {
    type Item = TypeResolution;

    fn next(&mut self) -> Option<TypeResolution> {
        let part = self.come.get();
        let row = self.rows.get(part)?;
        self.come.set(part + 1);
        let answer = match self.answers[two(row, 2)] {
            Answer::Type(ref ty) => ty.clone(),
            Answer::Refused(_) => resume_unwind(Box::new(Stop::PartRefused(part))),
            Answer::Newer(_) => resume_unwind(Box::new(Stop::PartNewer(part))),
        };
        // A comparison that looks into nothing: see `compare`.
        let watch = match (self.against(part), answer.handle()) {
            (Some(left), right) => {
                let right = right.map(|ty| ty.index());
                let types = &self.file.types;
                let structs = types[left][1] == 9 || right.is_some_and(|right| types[right][1] == 9);
                right != Some(left) && !structs
            }
            (None, _) => true,
        };
        self.read.module.types.watch(watch);
        Some(answer)
    }

    fn size_hint(&self) -> (usize, Option<usize>) {
        let left = self.rows.len() - self.come.get();
        (left, Some(left))
    }
}

impl ExactSizeIterator for Parts<'_> {}

pub fn verdict(
    file: &File,
    read: &Read,
    answers: &[Answer],
    at: usize,
) -> Result<Result<(), ComposeError>, Stop> {
    let row = &file.rows[at];
    let come = Cell::new(0);
    let given = Parts {
        file,
        read,
        answers,
        ty: &file.types[two(row, 2)],
        rows: parts(file, row).unwrap(),
        come: &come,
    };
    let result = stopped(read, true, || {
        validate_compose(handle(two(row, 2)), read.module.to_ctx(), given)
    });
    result.map_err(|stop| match (stop, come.get()) {
        (Stop::Look, 0) => Stop::Composed,
        (Stop::Look, come) => Stop::PartLook(come - 1),
        (stop, _) => stop,
    })
}

/// A sound frame of family 8 or 9 as the source has it.
fn resolution(file: &File, frame: &Frame) -> Result<TypeResolution, Fault> {
    Ok(match frame[0] {
        8 => TypeResolution::Handle(handle(two(frame, 2))),
        _ => match inner(file, frame, file.types.len())? {
            Some(inner) => TypeResolution::Value(inner),
            None => return Err(Fault::bad(String::from("a value of unknown kind"))),
        },
    })
}

pub fn compare(
    file: &File,
    read: &Read,
    left: &Frame,
    right: &Frame,
    watch: bool,
) -> Result<Result<bool, Stop>, Fault> {
    let (left, right) = (resolution(file, left)?, resolution(file, right)?);
    Ok(stopped(read, watch, || {
        compare_types(&left, &right, &read.module.types)
    }))
}
