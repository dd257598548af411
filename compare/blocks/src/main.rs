//! `blocks COUNT [FIRST [N]]` writes the records of COUNT seeds from FIRST (0) on, end to end.

use blocks::seeds::{Seeds, USAGE};
use std::io::{self, BufWriter, Write};
use std::process::ExitCode;

fn write(seeds: &Seeds) -> io::Result<()> {
    let mut output = BufWriter::new(io::stdout().lock());
    for (_, block) in seeds.blocks() {
        output.write_all(&block.to_record())?;
    }
    output.flush()
}

fn main() -> ExitCode {
    let words: Vec<String> = std::env::args().skip(1).collect();
    let Some(seeds) = Seeds::parse(&words) else {
        eprintln!("blocks {USAGE}");
        return ExitCode::from(2);
    };
    match write(&seeds) {
        Ok(()) => ExitCode::SUCCESS,
        Err(reason) => {
            eprintln!("blocks: {reason}");
            ExitCode::FAILURE
        }
    }
}
