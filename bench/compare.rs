//! The proved reader and the two plain loops, in one process over the same buffers. build.sh makes it.
//!
//!   compare ROUNDS FILE..        times each file by both passes, and prints tables
//!   compare once WAY PASS FILE   one call, for callgrind: reader, reading, enums, bytes or plain; first or second
//!   compare each FILE..          every way and pass once on each file, named as it is called; for instructions.py
//!
//! Each round calls every way in turn, so that a change of the machine's speed meets all alike; what is printed are
//! medians of the rounds, in microseconds for one call, and the reader's time over that of the better loop. Reading is
//! checks 1 to 6, and is the same code in both loops. Answering is what is left of the whole when reading is taken off.

#[path = "plain.rs"]
mod plain;

use plain::{Pass, by_enums, on_bytes, reading};
use std::hint::black_box;
use std::time::Instant;

const LIMIT: u32 = 1024;

unsafe extern "C" {
    fn gelmusko_type_rows(
        text: *const u8, text_len: usize, limit: u32, pass: u32, frames: *mut u8, frames_len: usize, answers: *mut u8,
        answers_len: usize, out: *mut u8, out_len: usize,
    ) -> u32;
    fn gelmusko_read_file(
        text: *const u8, text_len: usize, limit: u32, frames: *mut u8, frames_len: usize, out: *mut u8, out_len: usize,
    ) -> u32;
}

/// A way to read or type a file; whether it is accepted.
type Way = fn(&[u8], Pass, &mut [u8], &mut [u8]) -> bool;

fn reader(text: &[u8], pass: Pass, frames: &mut [u8], answers: &mut [u8]) -> bool {
    let mut out = [0; 16];
    let given = unsafe {
        gelmusko_type_rows(
            text.as_ptr(), text.len(), LIMIT, pass as u32, frames.as_mut_ptr(), frames.len(), answers.as_mut_ptr(),
            answers.len(), out.as_mut_ptr(), out.len(),
        )
    };
    given == 0
}

fn reader_reading(text: &[u8], _: Pass, frames: &mut [u8], _: &mut [u8]) -> bool {
    let mut out = [0; 16];
    let given = unsafe {
        gelmusko_read_file(
            text.as_ptr(), text.len(), LIMIT, frames.as_mut_ptr(), frames.len(), out.as_mut_ptr(), out.len(),
        )
    };
    given == 0
}

fn enums(text: &[u8], pass: Pass, frames: &mut [u8], answers: &mut [u8]) -> bool {
    by_enums::type_rows(text, LIMIT, pass, frames, answers).is_ok()
}

fn bytes(text: &[u8], pass: Pass, frames: &mut [u8], answers: &mut [u8]) -> bool {
    on_bytes::type_rows(text, LIMIT, pass, frames, answers).is_ok()
}

fn plain_reading(text: &[u8], _: Pass, frames: &mut [u8], _: &mut [u8]) -> bool {
    reading::read(text, LIMIT, frames, None).is_ok()
}

const WAYS: [(&str, Way); 5] =
    [("reader", reader), ("reading", reader_reading), ("enums", enums), ("bytes", bytes), ("plain", plain_reading)];
const PASSES: [(&str, Pass); 2] = [("first", Pass::First), ("second", Pass::Second)];

/// A file, and the buffers that every way is lent.
struct Lent {
    name: String,
    text: Vec<u8>,
    frames: Vec<u8>,
    answers: Vec<u8>,
}

impl Lent {
    fn of(path: &str) -> Self {
        let text = std::fs::read(path).expect("a file");
        let name = path.rsplit('/').next().unwrap().to_string();
        Lent { name, text, frames: vec![0; 16384], answers: vec![0; 32768] }
    }

    fn call(&mut self, way: Way, pass: Pass) -> bool {
        way(black_box(&self.text), black_box(pass), &mut self.frames, &mut self.answers)
    }

    /// All ways must accept the file and leave the same bytes.
    fn hold(&mut self) {
        for (_, pass) in PASSES {
            let mut left = vec![];
            for way in [reader as Way, enums, bytes] {
                self.frames.fill(0);
                self.answers.fill(0);
                assert!(self.call(way, pass), "{} is refused", self.name);
                left.push((self.frames.clone(), self.answers.clone()));
            }
            assert!(left[0] == left[1] && left[0] == left[2], "{}: the ways differ", self.name);
        }
    }

    fn frame_count(&self) -> usize {
        self.text.len() / 33
    }

    /// How many rows the file has, how many of them composes.
    fn rows(&self) -> (usize, usize) {
        let kinds = |digits: &[u8]| self.text.chunks(33).filter(|line| line.starts_with(digits)).count();
        (kinds(b"04"), kinds(b"0405"))
    }
}

/// What is called under callgrind.
#[unsafe(no_mangle)]
#[inline(never)]
fn measured(lent: &mut Lent, way: Way, pass: Pass) -> bool {
    lent.call(way, pass)
}

/// The medians of a file in one pass, in the order of WAYS.
struct Times {
    name: String,
    frames: usize,
    rows: usize,
    composes: usize,
    pass: &'static str,
    medians: [f64; 5],
}

fn median(mut times: Vec<f64>) -> f64 {
    times.sort_by(f64::total_cmp);
    times[times.len() / 2]
}

/// Times every way and pass of a file in turn, round by round.
fn times(path: &str, rounds: usize) -> [Times; 2] {
    let mut lent = Lent::of(path);
    lent.hold();
    let repeats = (100_000 / lent.text.len()).max(1);
    let mut taken: [[Vec<f64>; 5]; 2] = Default::default();
    for _ in 0..rounds {
        for ((_, pass), taken) in PASSES.iter().zip(&mut taken) {
            for ((_, way), taken) in WAYS.iter().zip(taken) {
                let start = Instant::now();
                for _ in 0..repeats {
                    black_box(lent.call(*way, *pass));
                }
                taken.push(start.elapsed().as_secs_f64() * 1e6 / repeats as f64);
            }
        }
    }
    let (rows, composes) = lent.rows();
    let mut taken = taken.into_iter();
    PASSES.map(|(pass, _)| Times {
        name: lent.name.clone(),
        frames: lent.frame_count(),
        rows,
        composes,
        pass,
        medians: taken.next().unwrap().map(median),
    })
}

impl Times {
    /// The reader's whole over that of the better loop.
    fn ratio(&self) -> f64 {
        self.medians[0] / self.medians[2].min(self.medians[3])
    }

    fn line(&self) -> String {
        let [whole, reading, enums, bytes, plain] = self.medians;
        let (answer, by_enums, on_bytes) = (whole - reading, enums - plain, bytes - plain);
        let file = format!("| {} | {} | {} | {} |", self.name, self.rows, self.composes, self.pass);
        let all = format!(" {whole:.2} | {enums:.2} | {bytes:.2} | {:.2} |", self.ratio());
        let read = format!(" {reading:.2} | {plain:.2} | {:.2} |", reading / plain);
        let ratio = answer / by_enums.min(on_bytes);
        format!("{file}{all}{read} {answer:.2} | {by_enums:.2} | {on_bytes:.2} | {ratio:.2} |")
    }
}

/// The head of a table.
fn head(names: &str) {
    println!("\n| {names} |\n{}|", "|---".repeat(names.split('|').count()));
}

/// Time per frame of the files that stand in all sizes, in nanoseconds.
fn growth(all: &[Times]) {
    head("ns per frame | pass | reader: 64 | 256 | 1,024 | by enums: 64 | 256 | 1,024 | on bytes: 64 | 256 | 1,024");
    for large in all {
        let Some(stem) = large.name.strip_suffix("-1024") else { continue };
        let sized = |size: usize| all.iter().find(|t| t.name == format!("{stem}-{size}") && t.pass == large.pass);
        let (Some(small), Some(middle)) = (sized(64), sized(256)) else { continue };
        print!("| {stem} | {} |", large.pass);
        for way in [0, 2, 3] {
            for t in [small, middle, large] {
                print!(" {:.1} |", t.medians[way] * 1e3 / t.frames as f64);
            }
        }
        println!();
    }
}

fn compare(rounds: usize, files: &[String]) {
    head(
        "file | rows | composes | pass | whole: reader | by enums | on bytes | ratio | \
         reading: reader | plain | ratio | answering: reader | by enums | on bytes | ratio",
    );
    let mut all = vec![];
    for file in files {
        for t in times(file, rounds) {
            println!("{}", t.line());
            all.push(t);
        }
    }
    growth(&all);
    let large = || all.iter().filter(|t| t.frames == 1024);
    let mut over: Vec<&Times> = large().filter(|t| t.ratio() > 1.5).collect();
    over.sort_by(|a, b| b.ratio().total_cmp(&a.ratio()));
    println!("\n{} of {} files of 1,024 frames, by pass, are over 1.5 of the better loop", over.len(), large().count());
    for t in over {
        println!("{:.2} {} {}", t.ratio(), t.name, t.pass);
    }
}

fn named<T: Copy>(all: &[(&str, T)], name: &str) -> T {
    all.iter().find(|(n, _)| *n == name).unwrap_or_else(|| panic!("no {name}")).1
}

fn main() {
    let args: Vec<String> = std::env::args().skip(1).collect();
    match args[0].as_str() {
        "once" => {
            let mut lent = Lent::of(&args[3]);
            measured(&mut lent, named(&WAYS, &args[1]), named(&PASSES, &args[2]));
        }
        "each" => {
            for file in &args[1..] {
                let mut lent = Lent::of(file);
                for (pass_name, pass) in PASSES {
                    for (way_name, way) in WAYS {
                        println!("{} {} {pass_name} {way_name}", lent.name, lent.frame_count());
                        measured(&mut lent, way, pass);
                    }
                }
            }
        }
        rounds => compare(rounds.parse().expect("a number of rounds"), &args[1..]),
    }
}
