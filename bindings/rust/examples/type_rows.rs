//! Types the file that its argument names, or standard input, and prints what each row is given.
use gelmusko::{type_file, Output, Pass};
use std::io::Read;

fn main() -> std::io::Result<()> {
    let mut text = Vec::new();
    match std::env::args_os().nth(1) {
        Some(path) => text = std::fs::read(path)?,
        None => {
            std::io::stdin().read_to_end(&mut text)?;
        }
    }
    match type_file(&text, Pass::First) {
        Ok(outputs) => {
            let mut row = 0;
            for output in outputs {
                match output {
                    Output::Row(answer) => {
                        println!("row {row}: {answer:?}");
                        row += 1;
                    }
                    Output::Compose { row, verdict } => println!("compose {row}: {verdict:?}"),
                }
            }
        }
        Err(fault) => println!("refused: {fault:?}"),
    }
    Ok(())
}
