//! `togmelic list`: writes the listing of a draft, as the entry for C gives it.

use crate::arguments::Call;
use crate::command::{Choice, Command, Status};
use crate::input;
use std::io::{self, Write};

pub(crate) const COMMAND: Command = Command {
    name: "list",
    summary: "writes the listing of a draft, as the entry for C gives it",
    usage: "list [--large] FILE",
    about: "\
Writes the listing of a draft, the bytes that togmelic_list gives, or with
--large those of togmelic_list_large: one line a record. A draft that is refused
has one line, of kind 00. docs/KINDS.md says what the numbers mean.

Example:

  togmelic list escrow.simf > escrow.listing
",
    options: &[Choice::Large],
    several: false,
    run,
};

fn run(call: &Call, out: &mut dyn Write) -> io::Result<Status> {
    let limits = call.limits();
    let Some(draft) = input::read_or_complain(&call.files[0], limits) else {
        return Ok(Status::Failed);
    };
    let lines = togmelic::listing_within(&draft, limits);
    out.write_all(&lines)?;
    let first = togmelic::records(&lines).next();
    Ok(match first {
        Some(Err(_)) => Status::Refused,
        _ => Status::Accepted,
    })
}
