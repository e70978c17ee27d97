//! `togmelic check`: says of each draft that is refused where and why.

use crate::arguments::Call;
use crate::command::{Choice, Command, Status};
use crate::progress::Progress;
use crate::refused::Refused;
use crate::terminal::{self, Look};
use crate::{errors, input};
use std::ffi::OsStr;
use std::io::{self, Write};
use togmelic::Limits;

pub(crate) const COMMAND: Command = Command {
    name: "check",
    summary: "says of each draft that is refused where and why",
    usage: "check [--color=WHEN] [--large] FILE..",
    about: "\
Says of each draft that is refused where and why, with the line of its source
and what to do about it. Of a draft that is accepted nothing is said.
docs/REFUSALS.md has each number at length.

Examples:

  togmelic check escrow.simf
  togmelic check drafts/*.simf && echo 'all are accepted'
",
    options: &[Choice::Color, Choice::Large],
    several: true,
    run,
};

/// One file after the other: what is said of it is written before the next is read.
fn run(call: &Call, out: &mut dyn Write) -> io::Result<Status> {
    let how = How {
        limits: call.limits(),
        look: terminal::look(&io::stdout(), call.color),
    };
    let mut progress = Progress::of(call.files.len());
    let mut status = Status::Accepted;
    for (number, file) in (1..).zip(&call.files) {
        progress.show(number, file);
        status = status.max(check(file, how, &mut progress, out)?);
    }
    Ok(status)
}

/// How all files of a call are checked.
#[derive(Clone, Copy)]
struct How {
    limits: Limits,
    look: Look,
}

fn check(
    file: &OsStr,
    how: How,
    progress: &mut Progress,
    out: &mut dyn Write,
) -> io::Result<Status> {
    let draft = match input::read(file, how.limits) {
        Ok(draft) => draft,
        Err(error) => {
            progress.clear();
            errors::of_file(file, &error);
            return Ok(Status::Failed);
        }
    };
    let Err(refusal) = togmelic::read_within(&draft, how.limits) else {
        return Ok(Status::Accepted);
    };
    progress.clear();
    let refused = Refused {
        draft: &draft,
        refusal,
        limits: how.limits,
    };
    refused.write(out, how.look, file)?;
    out.flush()?;
    Ok(Status::Refused)
}
