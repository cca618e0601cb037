//! Holds the plain loops to the stored answers: `stored ROOT`, the repository's root. build.sh runs it.
//!
//! Each loop reads the cases of crates/replay (numbers 1 to 6, limits and the frame buffer), crates/replay_answers
//! (every answer and verdict of the first pass) and crates/replay_wgsl (Binary rows of the second, by tables and worked
//! files; the head of that crate's main.rt has the form), and what it gives is held, line by line, against what is
//! stored.

#[path = "plain.rs"]
mod plain;

use plain::{Pass, Refused, by_enums, on_bytes, reading};

type TypeRows = fn(&[u8], u32, Pass, &mut [u8], &mut [u8]) -> Result<usize, Refused>;

/// What a buffer is filled with before it is lent.
const LENT: u8 = 238;

fn untouched(bytes: &[u8]) -> bool {
    bytes.iter().all(|&b| b == LENT)
}

fn lines(frames: &[u8]) -> String {
    frames.chunks(16).map(|f| f.iter().map(|b| format!("{b:02x}")).collect::<String>() + "\n").collect()
}

/// The bytes of a file, read piece by piece.
struct Cases {
    bytes: Vec<u8>,
    at: usize,
}

impl Cases {
    fn of(root: &str, name: &str) -> Self {
        Cases { bytes: read(root, name, "data/cases"), at: 0 }
    }

    fn take(&mut self, n: usize) -> Vec<u8> {
        self.at += n;
        self.bytes[self.at - n..self.at].to_vec()
    }

    /// The first line of the next case; none at the end.
    fn head(&mut self, n: usize) -> Option<String> {
        (self.at < self.bytes.len()).then(|| String::from_utf8(self.take(n)).expect("a head"))
    }
}

fn read(root: &str, name: &str, file: &str) -> Vec<u8> {
    std::fs::read(format!("{root}/crates/{name}/{file}")).expect("a stored file")
}

fn number(head: &str, at: usize) -> usize {
    head[at..at + 5].parse().expect("a number")
}

/// How many stored lines were compared, and how many differ.
#[derive(Default)]
struct Count {
    compared: usize,
    differ: usize,
}

impl Count {
    /// Holds what a case gave against what is stored of it, line by line.
    fn hold(&mut self, case: &str, stored: &str, given: &str) {
        let (mut a, mut b) = (stored.lines(), given.lines());
        loop {
            let (a, b) = (a.next(), b.next());
            if a.is_none() && b.is_none() {
                return;
            }
            self.compared += 1;
            if a != b {
                self.differ += 1;
                println!("{}: stored {}, given {}", case.trim(), a.unwrap_or("nothing"), b.unwrap_or("nothing"));
            }
        }
    }

    /// Takes note of what must hold of a case.
    fn must(&mut self, case: &str, what: &str, holds: bool) {
        if !holds {
            self.differ += 1;
            println!("{}: {what}", case.trim());
        }
    }
}

/// What typing a text prints: its answers and verdicts, or the line of a refused file.
fn typed(count: &mut Count, case: &str, way: TypeRows, text: &[u8], pass: Pass) -> String {
    let (mut frames, mut answers) = (vec![LENT; 16384], vec![LENT; 32768]);
    let outcome = way(text, 1024, pass, &mut frames, &mut answers);
    let wrote = match outcome {
        Ok(n) => frames[..16 * n].chunks(16).map(|f| if f[0] != 4 { 0 } else if f[1] == 5 { 32 } else { 16 }).sum(),
        Err(_) => 0,
    };
    count.must(case, "bytes past the answers changed", untouched(&answers[wrote..]));
    match outcome {
        Ok(_) => lines(&answers[..wrote]),
        Err((number, place)) => {
            let [low, high] = place.to_le_bytes();
            lines(&[10, number, low, high, 0, 0, 0, 0, 0, 0, 0, 0, 0, 0, 0, 0])
        }
    }
}

/// What crates/replay prints of an outcome and the frame buffer.
fn said(text: &[u8], outcome: Result<usize, Refused>, frames: &[u8]) -> String {
    let n = 16 * (text.len() / 33);
    let buffer = if untouched(frames) {
        "kept"
    } else if n <= frames.len() && lines(&frames[..n]).as_bytes() == text && untouched(&frames[n..]) {
        "written"
    } else {
        "spoilt"
    };
    match outcome {
        Ok(n) => format!("0 {n} {buffer}"),
        Err((number, place)) => format!("{number} {place} {buffer}"),
    }
}

/// Numbers 1 to 6 and limits: reading alone, and typing with room for every answer.
fn replay(root: &str, way: TypeRows, count: &mut Count) {
    let mut cases = Cases::of(root, "replay");
    let stored = String::from_utf8(read(root, "replay", "stdout")).expect("text");
    let mut stored = stored.lines();
    while let Some(head) = cases.head(59) {
        let (room, length, limit) = (number(&head, 41), number(&head, 47), number(&head, 53) as u32);
        let text = cases.take(length);
        cases.take(1);
        let line = stored.next().expect("a stored line");
        let mut frames = vec![LENT; room];
        let outcome = reading::read(&text, limit, &mut frames, None);
        count.hold(&head[..40], line, &format!("{}{}", &head[..41], said(&text, outcome, &frames)));
        let (mut frames, mut answers) = (vec![LENT; room], vec![LENT; 32768]);
        let outcome = way(&text, limit, Pass::First, &mut frames, &mut answers);
        count.hold(&head[..40], line, &format!("{}{}", &head[..41], said(&text, outcome, &frames)));
        count.must(&head[..40], "answers of a refused file", outcome.is_ok() || untouched(&answers));
    }
    count.must("replay", "more is stored than there are cases", stored.next().is_none());
}

/// Answers and verdicts of the first pass. Pairs to compare are passed over: the loops compare no frames handed in.
fn replay_answers(root: &str, way: TypeRows, count: &mut Count) {
    let mut cases = Cases::of(root, "replay_answers");
    let stored = String::from_utf8(read(root, "replay_answers", "stdout")).expect("text");
    let mut stored = stored.split_inclusive('\n').peekable();
    while let Some(head) = cases.head(59) {
        let (length, pairs) = (number(&head, 47), number(&head, 53));
        let text = cases.take(length);
        cases.take(pairs + 1);
        count.must(&head[..40], "is not stored", stored.next() == Some(&head));
        let mut wanted = String::new();
        while let Some(line) = stored.next_if(|line| line.len() == 33) {
            wanted += line;
        }
        for _ in 0..pairs / 66 {
            stored.next();
        }
        let given = typed(count, &head[..40], way, &text, Pass::First);
        count.hold(&head[..40], &wanted, &given);
    }
    count.must("replay_answers", "more is stored than there are cases", stored.next().is_none());
}

/// A line of a table: the Binary rows of an operator and a left row over all right rows, put behind the text.
fn table_line(
    count: &mut Count,
    case: &str,
    way: TypeRows,
    text: &[u8],
    rows: usize,
    operator: usize,
    left: usize,
) -> String {
    let mut text = text.to_vec();
    for right in 0..rows {
        text.extend(format!("0412{left:02x}00{right:02x}00{operator:02x}{:018}\n", 0).bytes());
    }
    let given = typed(count, case, way, &text, Pass::Second);
    let mut line = format!("{operator} {left} ");
    for (k, answer) in given.lines().enumerate().skip(rows) {
        if answer == format!("0a29{:028}", 0) {
            line.push('.');
        } else if answer == format!("0a16{:02x}{:02x}{:024}", k % 256, k / 256, 0) {
            line.push('n');
        } else {
            line += &format!(" {answer} ");
        }
    }
    line + "\n"
}

/// Binary rows of the second pass: tables, and worked files by both passes. Every cell of a table counts as one.
fn replay_wgsl(root: &str, way: TypeRows, count: &mut Count) {
    let mut cases = Cases::of(root, "replay_wgsl");
    let stored = String::from_utf8(read(root, "replay_wgsl", "stdout")).expect("text");
    let mut stored = stored.split_inclusive('\n').peekable();
    while let Some(head) = cases.head(53) {
        let (rows, length) = (number(&head, 41), number(&head, 47));
        let text = cases.take(length);
        count.must(&head[..40], "is not stored", stored.next() == Some(&head));
        if rows == 0 {
            let mut wanted = String::new();
            while let Some(line) = stored.next_if(|line| line.len() == 33 || *line == "second\n") {
                wanted += line;
            }
            let first = typed(count, &head[..40], way, &text, Pass::First);
            let second = typed(count, &head[..40], way, &text, Pass::Second);
            let (a, b) = wanted.split_once("second\n").expect("both passes");
            count.hold(&head[..40], a, &first);
            count.hold(&head[..40], b, &second);
        }
        for operator in 0..if rows == 0 { 0 } else { 18 } {
            for left in 0..rows {
                let given = table_line(count, &head[..40], way, &text, rows, operator, left);
                count.hold(&head[..40], stored.next().unwrap_or(""), &given);
                count.compared += rows - 1;
            }
        }
    }
    count.must("replay_wgsl", "more is stored than there are cases", stored.next().is_none());
}

fn main() {
    let root = std::env::args().nth(1).expect("the repository's root");
    let mut differ = 0;
    for (name, way) in [("by enums", by_enums::type_rows as TypeRows), ("on bytes", on_bytes::type_rows)] {
        for (folder, hold) in [
            ("replay", replay as fn(&str, TypeRows, &mut Count)),
            ("replay_answers", replay_answers),
            ("replay_wgsl", replay_wgsl),
        ] {
            let mut count = Count::default();
            hold(&root, way, &mut count);
            println!("{name}, {folder}: {} stored answers compared", count.compared);
            differ += count.differ;
        }
    }
    println!("{differ} differences");
    std::process::exit((differ > 0) as i32);
}
