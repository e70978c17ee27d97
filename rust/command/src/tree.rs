//! `togmelic tree`: shows the tree of a draft, or writes it for programs.

mod draw;
mod json;
mod label;

use crate::arguments::Call;
use crate::command::{Choice, Command, Status};
use crate::refused::Refused;
use crate::{errors, input, terminal};
use std::io::{self, Write};

pub(crate) const COMMAND: Command = Command {
    name: "tree",
    summary: "shows the tree of a draft",
    usage: "tree [--color=WHEN] [--json] [--large] FILE",
    about: "\
Shows the tree of a draft, one line a record: what it is, and the line and the
column at which it begins. A draft that is refused has no tree: what check says
of it is written to standard error, or with --json to standard output.

Examples:

  togmelic tree escrow.simf
  togmelic tree --json escrow.simf | jq '.records[].label'
",
    options: &[Choice::Color, Choice::Json, Choice::Large],
    several: false,
    run,
};

fn run(call: &Call, out: &mut dyn Write) -> io::Result<Status> {
    let (file, limits) = (&call.files[0], call.limits());
    let Some(draft) = input::read_or_complain(file, limits) else {
        return Ok(Status::Failed);
    };
    let tree = match togmelic::read_within(&draft, limits) {
        Ok(tree) => tree,
        Err(refusal) => {
            let draft = &draft;
            return refuse(
                call,
                &Refused {
                    draft,
                    refusal,
                    limits,
                },
                out,
            );
        }
    };
    if call.json {
        json::tree(out, file, &draft, &tree)?;
    } else {
        let look = terminal::look(&io::stdout(), call.color);
        draw::tree(out, look, &draft, &tree)?;
    }
    Ok(Status::Accepted)
}

/// Standard output is the tree's, so what is said of a draft without one goes to standard error.
fn refuse(call: &Call, refused: &Refused, out: &mut dyn Write) -> io::Result<Status> {
    let file = &call.files[0];
    if call.json {
        json::refusal(out, file, refused)?;
        return Ok(Status::Refused);
    }
    let look = terminal::look(&io::stderr(), call.color);
    let mut said = Vec::new();
    refused.write(&mut said, look, file)?;
    match errors::warn(&said) {
        true => Ok(Status::Refused),
        false => Ok(Status::Failed),
    }
}
