//! `sirveshan`: block records from the command line. Each subcommand is a module of its own; this file picks one and turns
//! its outcome into an exit status.

mod arguments;
mod cut;
mod failure;
mod figures;
mod info;
mod input;
mod jobs;
mod listing;
mod mapped;
mod mesh;
mod output;
mod progress;
mod repair;
mod sample;
mod sheet;
mod stl;
mod stl_check;
mod summary;
mod whole_file;

use arguments::Arguments;
use failure::Failure;
use std::process::ExitCode;

/// A subcommand. To add one, write its module and name it in [`COMMANDS`].
struct Command {
    name: &'static str,
    /// How it is called, without `sirveshan` before it.
    usage: &'static str,
    /// What it does and what its options are, a few lines.
    about: &'static str,
    run: fn(Arguments) -> Result<(), Failure>,
}

const COMMANDS: &[&Command] = &[
    &mesh::COMMAND,
    &stl::COMMAND,
    &repair::COMMAND,
    &cut::COMMAND,
    &sheet::COMMAND,
    &info::COMMAND,
    &sample::COMMAND,
];

const ABOUT: &str = "\
RECORD is the file of a block record, or - for standard input.

Exit status: 0 done; 1 a record or a cut was refused: a line `refused N A B C: ` and the words on
standard error (in the table itself for a sheet), with the refusal's number and its three numbers; 2
bad usage, or an input that can't be read; 3 output that can't be written.

sirveshan COMMAND --help tells of one command, sirveshan --version which version this is.
";

fn main() -> ExitCode {
    match run(Arguments::of_process()) {
        Ok(()) => ExitCode::SUCCESS,
        Err(failure) => {
            failure.tell();
            ExitCode::from(failure.status())
        }
    }
}

fn run(mut arguments: Arguments) -> Result<(), Failure> {
    let Some(word) = arguments.first() else {
        return Err(Failure::Usage(format!("a command is missing\n\n{}", help())));
    };
    match word.to_string_lossy().as_ref() {
        "--help" | "-h" | "help" => output::put(help().as_bytes()),
        "--version" | "-V" => output::put(version().as_bytes()),
        name => match COMMANDS.iter().find(|command| command.name == name) {
            Some(command) => run_command(command, arguments),
            None => Err(Failure::Usage(format!("{name} is no command\n\n{}", help()))),
        },
    }
}

fn run_command(command: &Command, mut arguments: Arguments) -> Result<(), Failure> {
    if arguments.flag("--help") || arguments.flag("-h") {
        return output::put(command_help(command).as_bytes());
    }
    (command.run)(arguments).map_err(|failure| failure.with_usage(command.usage))
}

fn version() -> String {
    format!("sirveshan {}\n", env!("CARGO_PKG_VERSION"))
}

fn command_help(command: &Command) -> String {
    format!("usage: sirveshan {}\n\n{}", command.usage, command.about)
}

fn help() -> String {
    let mut text = String::from("sirveshan: meshes of block records, by a proved mesher\n\n");
    for command in COMMANDS {
        let first = command.about.lines().next().unwrap_or_default();
        text += &format!("    sirveshan {}\n        {first}\n", command.usage);
    }
    text + "\n" + ABOUT
}
