//! `togmelic`: drafts checked, shown as trees and listed, for people and for scripts. docs/COMMAND.md says what it does.

mod advice;
mod arguments;
mod check;
mod command;
mod errors;
mod help;
mod input;
mod list;
mod place;
mod progress;
mod refused;
mod source;
mod standard;
mod style;
mod terminal;
mod tree;

use arguments::Asked;
use command::{Command, Status};
use std::ffi::OsString;
use std::io::{self, BufWriter, Write};
use std::process::ExitCode;

/// A command has a file of its own, and its row here.
const COMMANDS: [Command; 3] = [check::COMMAND, tree::COMMAND, list::COMMAND];

fn main() -> ExitCode {
    let status = written().unwrap_or_else(|error| unwritten(&error));
    ExitCode::from(status as u8)
}

/// Answers on standard output. An error is one of writing there.
fn written() -> io::Result<Status> {
    let mut out = BufWriter::new(standard::file(io::stdout())?);
    let status = answer(std::env::args_os().skip(1), &mut out)?;
    out.flush()?;
    Ok(status)
}

/// Does what the arguments ask for. An error is one of writing to `out`.
fn answer(
    mut arguments: impl Iterator<Item = OsString>,
    out: &mut dyn Write,
) -> io::Result<Status> {
    let Some(first) = arguments.next() else {
        return Ok(called_wrongly("", "no command"));
    };
    match COMMANDS.iter().find(|command| first == command.name) {
        Some(command) => run(command, arguments, out),
        None => without_command(&first, out),
    }
}

fn run(
    command: &Command,
    arguments: impl Iterator<Item = OsString>,
    out: &mut dyn Write,
) -> io::Result<Status> {
    match arguments::parse(command, arguments) {
        Ok(Asked::Run(call)) => (command.run)(&call, out),
        Ok(Asked::Help) => {
            help::command(command, out)?;
            Ok(Status::Accepted)
        }
        Err(why) => Ok(called_wrongly(command.name, &why)),
    }
}

/// What is asked by a first argument that is no command.
fn without_command(first: &OsString, out: &mut dyn Write) -> io::Result<Status> {
    if first == "--help" || first == "-h" {
        help::program(&COMMANDS, out)?;
    } else if first == "--version" || first == "-V" {
        writeln!(out, "togmelic {}", env!("CARGO_PKG_VERSION"))?;
    } else if first.as_encoded_bytes().starts_with(b"-") {
        return Ok(called_wrongly("", &arguments::unknown_option(first)));
    } else {
        let name = first.to_string_lossy();
        return Ok(called_wrongly("", &format!("unknown command '{name}'")));
    }
    Ok(Status::Accepted)
}

/// Says what is wrong with a call, and whose help says how it is right: a command's, or the program's.
fn called_wrongly(command: &str, why: &str) -> Status {
    let blank = if command.is_empty() { "" } else { " " };
    errors::complain(&[why.as_ref()]);
    errors::warn(format!("Try 'togmelic{blank}{command} --help'.\n").as_bytes());
    Status::Failed
}

/// Where the reader of a pipe has gone away there is nobody to tell.
fn unwritten(error: &io::Error) -> Status {
    if error.kind() != io::ErrorKind::BrokenPipe {
        errors::of_file("standard output".as_ref(), error);
    }
    Status::Failed
}
