//! Marks and cuts of cases from standard input, for oracle/cuts.py. A case is a line with the text's length and how many bytes more than it needs each buffer has; then the text. What is
//! printed of a case is a line for each row and one row more: the row, the number and the place of its part; then, where that is 0, the marked rows and the word `cut`, the number
//! and place of the cut, and `kept` where the buffers are as the rules leave them, else `spoilt`; then the lines of the cut, and an empty line.
use gelmusko::ffi;
use std::io::{self, BufRead, Read, Write};

const LENT: u8 = 238;

fn place(out: &[u8]) -> usize {
    usize::from(out[2]) + 256 * usize::from(out[3])
}

fn main() -> io::Result<()> {
    let (mut input, mut output) = (io::stdin().lock(), io::BufWriter::new(io::stdout().lock()));
    let mut head = String::new();
    while input.read_line(&mut head)? > 0 {
        let sizes: Vec<usize> = head.split_whitespace().map(|word| word.parse().unwrap()).collect();
        let (length, more) = (sizes[0], sizes[1]);
        head.clear();
        let mut text = vec![0; length];
        input.read_exact(&mut text)?;
        let rows = text.chunks(33).filter(|line| line.starts_with(b"04")).count() as u32;
        for row in 0..=rows {
            let mut frames = vec![LENT; 16 * length.div_ceil(33) + more];
            let (mut marks, mut cut, mut out) = (vec![LENT; 1_024 + more], vec![LENT; length + more], [LENT; 16]);
            let number = unsafe {
                ffi::gelmusko_smallest_part(
                    text.as_ptr(),
                    length,
                    0,
                    frames.as_mut_ptr(),
                    frames.len(),
                    row,
                    marks.as_mut_ptr(),
                    marks.len(),
                    out.as_mut_ptr(),
                    16,
                )
            };
            write!(output, "{row} {number} {}", place(&out))?;
            let mut kept = out[0] == 10 && u32::from(out[1]) == number && marks[1_024..].iter().all(|b| *b == LENT);
            kept &= marks[..1_024].iter().all(|b| *b <= u8::from(number == 0));
            kept &= frames[16 * length.div_ceil(33)..].iter().all(|b| *b == LENT);
            let before = frames.clone();
            for (marked, _) in marks[..1_024].iter().enumerate().filter(|(_, mark)| **mark == 1) {
                write!(output, " {marked}")?;
            }
            frames.fill(LENT);
            let number = unsafe {
                ffi::gelmusko_cut_text(
                    text.as_ptr(),
                    length,
                    0,
                    frames.as_mut_ptr(),
                    frames.len(),
                    row,
                    cut.as_mut_ptr(),
                    cut.len(),
                    out.as_mut_ptr(),
                    16,
                )
            };
            let written = if number == 0 { 33 * place(&out) } else { 0 };
            kept &= out[0] == 10 && u32::from(out[1]) == number && cut[written..].iter().all(|b| *b == LENT) && frames == before;
            writeln!(output, " cut {number} {} {}", place(&out), if kept { "kept" } else { "spoilt" })?;
            output.write_all(&cut[..written])?;
            writeln!(output)?;
        }
    }
    output.flush()
}
