//! The oracle. It stands inside the crate, where the crate has its front ends, to reach what is not public.

mod ask;
mod file;
mod marks;
mod module;

use file::{Fault, File, Frame};
use std::{
    io::{Read, Write},
    prelude::v1::*,
};

/// Both say where a newer thing is met. If they differ, one of them is wrong.
fn differ(what: &str, by_file: &dyn core::fmt::Debug, by_source: &dyn core::fmt::Debug) -> Fault {
    Fault {
        code: 3,
        text: format!("{what}: by the file {by_file:?}, by the source {by_source:?}"),
    }
}

/// The lines of the rows and composes; a marked line begins with `!`.
fn type_rows(file: &File) -> Result<String, Fault> {
    let read = module::read(file)?;
    let mut answers: Vec<ask::Answer> = Vec::new();
    let mut frames: Vec<Frame> = Vec::new();
    let mut lines = String::new();
    let mut line = |mark: bool, frame: &Frame| {
        lines.push_str(if mark { "!" } else { "" });
        lines.push_str(&file::digits(frame));
        lines.push('\n');
    };
    for at in 0..file.rows.len() {
        let mark = marks::row(file, &frames, at);
        let asked = ask::row(&read, &answers, at);
        let answer = match (&mark, asked) {
            (None, Ok(answer)) => answer,
            (Some(marks::Newer::Own), Err(ask::Stop::NoRow)) => ask::Answer::Newer(at),
            (Some(marks::Newer::Look), Err(ask::Stop::Look)) => ask::Answer::Newer(at),
            (Some(marks::Newer::Passed(a)), Err(ask::Stop::Newer(b))) if *a == b => {
                ask::Answer::Newer(b)
            }
            (_, asked) => return Err(differ(&format!("row {at}"), &mark, &asked)),
        };
        let frame = module::answer_frame(&answer);
        line(mark.is_some(), &frame);
        answers.push(answer);
        frames.push(frame);

        if file.rows[at][1] == 5 {
            let mark = marks::verdict(file, &frames, at);
            let asked = ask::verdict(file, &read, &answers, at);
            match (mark, asked) {
                (None, Ok(verdict)) => line(false, &module::verdict_frame(at, &verdict)),
                (Some(mark), Err(ref stop)) if stop.frame(at) == mark => line(true, &mark),
                (mark, asked) => {
                    return Err(differ(&format!("verdict of row {at}"), &mark, &asked))
                }
            }
        }
    }
    Ok(lines)
}

/// `yes`, `no`, or a marked number.
fn compare(file: &File, read: &module::Read, left: &Frame, right: &Frame) -> Result<&'static str, Fault> {
    let mark = marks::compare(file, left, right);
    match mark {
        marks::Compared::Field => return Ok("!5"),
        marks::Compared::Index => return Ok("!6"),
        _ => {}
    }
    // A number against itself, or a struct's number against another: the source's answer is the same
    // whatever the unknown type is, so its look into the dummy is let pass.
    let watch = !matches!(mark, marks::Compared::NoLook);
    let asked = ask::compare(file, read, left, right, watch)?;
    match (&mark, asked) {
        (marks::Compared::Newer, Err(ask::Stop::Look)) => Ok("!22"),
        (marks::Compared::NoLook | marks::Compared::Known, Ok(same)) => {
            Ok(if same { "yes" } else { "no" })
        }
        (_, asked) => Err(differ("comparison", &mark, &asked)),
    }
}

fn compare_pairs(file: &File, pairs: &str) -> Result<String, Fault> {
    let read = module::read(file)?;
    let mut lines = String::new();
    for pair in pairs.lines() {
        let mut words = pair.split_whitespace();
        let (Some(left), Some(right), None) = (words.next(), words.next(), words.next()) else {
            return Err(Fault::bad(format!("not two frames: {pair}")));
        };
        let (left, right) = (file::frame(left.as_bytes())?, file::frame(right.as_bytes())?);
        lines.push_str(compare(file, &read, &left, &right)?);
        lines.push('\n');
    }
    Ok(lines)
}

/// The source's size of each type, `none` where it has none, `newer` for a type of unknown kind.
fn sizes(file: &File) -> Result<String, Fault> {
    let read = module::read(file)?;
    let mut lines = String::new();
    for (at, frame) in file.types.iter().enumerate() {
        let known = (1..=14).contains(&frame[1]);
        let size = known.then(|| read.module.types[module::handle(at)].inner.try_size(read.module.to_ctx()));
        lines.push_str(&match size {
            None => String::from("newer"),
            Some(None) => String::from("none"),
            Some(Some(size)) => format!("{size}"),
        });
        lines.push('\n');
    }
    Ok(lines)
}

fn run(args: &[String]) -> Result<String, Fault> {
    let mut text = Vec::new();
    let input = std::io::stdin().read_to_end(&mut text);
    input.map_err(|error| Fault::bad(format!("standard input: {error}")))?;
    let words: Vec<&str> = args.iter().map(|word| word.as_str()).collect();
    match words[..] {
        [] => type_rows(&File::read(&text)?),
        ["compare", left, right] => compare_pairs(&File::read(&text)?, &format!("{left} {right}")),
        ["compare-many", path] => {
            let pairs = std::fs::read_to_string(path);
            let pairs = pairs.map_err(|error| Fault::bad(format!("{path}: {error}")))?;
            compare_pairs(&File::read(&text)?, &pairs)
        }
        ["sizes"] => sizes(&File::read(&text)?),
        _ => Err(Fault::bad(String::from(
            "use: oracle < FILE | oracle sizes < FILE | oracle compare LEFT RIGHT < FILE | oracle compare-many PAIRS < FILE",
        ))),
    }
}

pub fn main() -> i32 {
    let args: Vec<String> = std::env::args().skip(1).collect();
    match run(&args) {
        Ok(lines) => match std::io::stdout().write_all(lines.as_bytes()) {
            Ok(()) => 0,
            Err(_) => 1,
        },
        Err(fault) => {
            std::eprintln!("oracle: {}", fault.text);
            fault.code
        }
    }
}
