//! Answers cases from standard input, for oracle/compare.py. A case is a line with the text's length, how many bytes more than it needs each buffer has, and the number of pairs;
//! then the text; then two frames of 16 bytes for each pair. What is printed of a case: number and place; the lines handed back; `kept` where every byte of both buffers that the
//! rules leave alone is as it was lent, else `spoilt`; and for each pair `yes`, `no` or the number.
use gelmusko::{frames_of, same_type, type_rows, Outcome, Pass, Sameness};
use std::io::{self, BufRead, Read, Write};

const LENT: u8 = 238;

fn number(outcome: Outcome) -> (u32, u32) {
    match outcome {
        Outcome::Accepted => (0, 0),
        Outcome::Long { limit } => (1, limit.into()),
        Outcome::Torn { line } => (2, line.into()),
        Outcome::Short => (3, 0),
        Outcome::Order { frame } => (4, frame.into()),
        Outcome::Field { frame } => (5, frame.into()),
        Outcome::Index { frame } => (6, frame.into()),
    }
}

/// The bytes of a line, where it is whole.
fn decoded(line: &[u8]) -> Option<Vec<u8>> {
    let digit = |c: &u8| match c {
        b'0'..=b'9' => Some(c - b'0'),
        b'a'..=b'f' => Some(c - b'a' + 10),
        _ => None,
    };
    let digits: Vec<u8> = line.iter().map(digit).collect::<Option<_>>()?;
    (digits.len() == 32).then(|| digits.chunks(2).map(|d| 16 * d[0] + d[1]).collect())
}

fn main() -> io::Result<()> {
    let (mut input, mut output) = (io::stdin().lock(), io::BufWriter::new(io::stdout().lock()));
    let mut head = String::new();
    while input.read_line(&mut head)? > 0 {
        let sizes: Vec<usize> = head.split_whitespace().map(|word| word.parse().unwrap()).collect();
        let (length, more, pairs) = (sizes[0], sizes[1], sizes[2]);
        head.clear();
        let mut text = vec![0; length];
        input.read_exact(&mut text)?;
        let lines: Vec<Vec<u8>> = text.split(|c| *c == b'\n').filter_map(decoded).collect();
        let rows = lines.iter().filter(|f| f[0] == 4).count();
        let composes = lines.iter().filter(|f| f[0] == 4 && f[1] == 5).count();
        let mut frames = vec![LENT; 16 * length.div_ceil(33) + more];
        let mut answers = vec![LENT; 16 * (rows + composes) + more];
        let outcome = type_rows(&text, Pass::First, &mut frames, &mut answers);
        let (n, place) = number(outcome);
        writeln!(output, "{n} {place}")?;
        let written = if n == 0 { 16 * (rows + composes) } else { 0 };
        for frame in frames_of(&answers[..written]) {
            frame.0.iter().try_for_each(|b| write!(output, "{b:02x}"))?;
            writeln!(output)?;
        }
        let read = if n == 0 || n > 3 { 16 * lines.len() } else { 0 };
        let kept = frames[..read].iter().eq(lines.iter().flatten().take(read)) && frames[read..].iter().chain(&answers[written..]).all(|b| *b == LENT);
        writeln!(output, "{}", if kept { "kept" } else { "spoilt" })?;
        let mut frames = vec![LENT; 16 * length.div_ceil(33)];
        for _ in 0..pairs {
            let mut pair = [0; 32];
            input.read_exact(&mut pair)?;
            let said = match same_type(&text, &mut frames, &pair[..16], &pair[16..]) {
                Sameness::Same => "yes".to_string(),
                Sameness::Different => "no".to_string(),
                Sameness::Newer => "22".to_string(),
                Sameness::Refused(outcome) => number(outcome).0.to_string(),
            };
            writeln!(output, "{said}")?;
        }
    }
    output.flush()
}
