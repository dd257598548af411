//! `oracle listing` and `oracle store` answer one record on standard input;
//! `oracle run` answers records that lie end to end, each with both texts.

use oracle::record::{record_length, Block};
use oracle::{Answer, Star};
use std::io::{self, Read, Write};
use std::process::ExitCode;

fn answer(record: &[u8]) -> Result<Answer, String> {
    Ok(Star::new(&Block::from_record(record)?).answer())
}

fn both_texts(record: &[u8]) -> Result<String, String> {
    let answer = answer(record)?;
    Ok(answer.listing() + "store\n" + &answer.store_text() + "end\n")
}

/// The next whole record, or nothing at the end of the input.
fn next_record(input: &mut impl Read) -> io::Result<Option<Vec<u8>>> {
    let mut record = Vec::new();
    if input.by_ref().take(4).read_to_end(&mut record)? == 0 {
        return Ok(None);
    }
    let length = record_length(&record).ok_or(io::ErrorKind::UnexpectedEof)?;
    record.resize(length, 0);
    input.read_exact(&mut record[4..])?;
    Ok(Some(record))
}

fn run(command: &str) -> Result<(), String> {
    let (mut input, mut output) = (io::stdin().lock(), io::stdout().lock());
    let mut print = |text: String| output.write_all(text.as_bytes()).map_err(|e| e.to_string());
    match command {
        "listing" | "store" => {
            let mut record = Vec::new();
            input.read_to_end(&mut record).map_err(|e| e.to_string())?;
            let answer = answer(&record)?;
            print(if command == "store" { answer.store_text() } else { answer.listing() })
        }
        "run" => {
            while let Some(record) = next_record(&mut input).map_err(|e| e.to_string())? {
                print(both_texts(&record)?)?;
            }
            Ok(())
        }
        _ => Err("oracle listing | oracle store | oracle run, records on standard input".into()),
    }
}

fn main() -> ExitCode {
    let command = std::env::args().nth(1).unwrap_or_default();
    match run(&command) {
        Ok(()) => ExitCode::SUCCESS,
        Err(reason) => {
            eprintln!("{reason}");
            ExitCode::FAILURE
        }
    }
}
