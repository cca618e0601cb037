//! Joins of cases from standard input, for oracle/joins.py. A case is a line with the lengths of two texts, the limit, and how many bytes more than they need the buffers have; then the texts. What
//! is printed of a case is the number, its place and whose it is, and `kept` where the buffers are as the rules leave them, else `spoilt`; then the lines of the join, and an empty line.
use gelmusko::ffi;
use std::io::{self, BufRead, Read, Write};

const LENT: u8 = 238;

/// What gelmusko_read_file gives of a text, and leaves in a buffer of so many bytes.
fn read(text: &[u8], limit: u32, bytes: usize) -> (u32, Vec<u8>) {
    let (mut frames, mut out) = (vec![LENT; bytes], [LENT; 16]);
    let number = unsafe {
        ffi::gelmusko_read_file(
            text.as_ptr(),
            text.len(),
            limit,
            frames.as_mut_ptr(),
            bytes,
            out.as_mut_ptr(),
            16,
        )
    };
    (number, frames)
}

fn main() -> io::Result<()> {
    let (mut input, mut output) = (io::stdin().lock(), io::BufWriter::new(io::stdout().lock()));
    let mut head = String::new();
    while input.read_line(&mut head)? > 0 {
        let sizes: Vec<usize> = head.split_whitespace().map(|word| word.parse().unwrap()).collect();
        let (limit, past) = (sizes[2] as u32, sizes[3]);
        head.clear();
        let (mut first, mut second) = (vec![0; sizes[0]], vec![0; sizes[1]]);
        input.read_exact(&mut first)?;
        input.read_exact(&mut second)?;
        let mut frames = vec![LENT; 16 * first.len().div_ceil(33) + past];
        let mut more = vec![LENT; 16 * second.len().div_ceil(33) + past];
        let (mut joined, mut out) = (vec![LENT; first.len() + second.len() + past], [LENT; 16]);
        let number = unsafe {
            ffi::gelmusko_join_files(
                first.as_ptr(),
                first.len(),
                second.as_ptr(),
                second.len(),
                limit,
                frames.as_mut_ptr(),
                frames.len(),
                more.as_mut_ptr(),
                more.len(),
                joined.as_mut_ptr(),
                joined.len(),
                out.as_mut_ptr(),
                16,
            )
        };
        let place = usize::from(out[2]) + 256 * usize::from(out[3]);
        let written = if number == 0 { 33 * place } else { 0 };
        let (of_first, frames_read) = read(&first, limit, frames.len());
        let more_read = if of_first == 0 { read(&second, limit, more.len()).1 } else { vec![LENT; more.len()] };
        let mut kept = frames == frames_read && more == more_read && joined[written..].iter().all(|b| *b == LENT);
        kept &= out[0] == 10 && u32::from(out[1]) == number && out[5..].iter().all(|b| *b == 0);
        writeln!(output, "{number} {place} {} {}", out[4], if kept { "kept" } else { "spoilt" })?;
        output.write_all(&joined[..written])?;
        writeln!(output)?;
    }
    output.flush()
}
