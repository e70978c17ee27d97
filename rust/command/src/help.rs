//! What `--help` says: of the program, and of each command.

use crate::command::{Choice, Command};
use std::io::{self, Write};

const FILES: &str = "\
A file named - is standard input. Options stand anywhere behind the command;
behind -- everything is a file.
";

const STATUS: &str = "\
Exit status: 0 where every draft is accepted, 1 where some draft is refused,
2 where the call is wrong, a file cannot be read or the output not be written.
";

/// How the program is called without a command, and for help.
const OTHER_CALLS: [(&str, &str); 2] = [
    (
        "--help, -h | COMMAND --help",
        "says this, or how a command is called",
    ),
    ("--version, -V", "says the version"),
];

const EXAMPLE: &str = "\
Example:

  togmelic check escrow.simf
";

pub(crate) fn program(commands: &[Command], out: &mut dyn Write) -> io::Result<()> {
    writeln!(
        out,
        "Reads escrow drafts with a reader that is proved.\n\nUsage:\n"
    )?;
    let calls = commands
        .iter()
        .map(|command| (command.usage, command.summary));
    for (usage, summary) in calls.chain(OTHER_CALLS) {
        writeln!(out, "  togmelic {usage}\n      {summary}")?;
    }
    write!(out, "\n{FILES}\n{STATUS}\n{EXAMPLE}")
}

pub(crate) fn command(command: &Command, out: &mut dyn Write) -> io::Result<()> {
    writeln!(out, "Usage: togmelic {}\n", command.usage)?;
    writeln!(out, "{}\nOptions:\n", command.about)?;
    for choice in command.options {
        out.write_all(choice.help().as_bytes())?;
    }
    writeln!(out, "  --help, -h     says this\n")?;
    write!(out, "{FILES}\n{STATUS}")
}

impl Choice {
    fn help(self) -> &'static str {
        match self {
            Choice::Color => {
                "  --color=WHEN   auto, always or never; auto is where a terminal is written to,\n                 \
                 unless NO_COLOR is set or TERM is dumb\n"
            }
            Choice::Json => "  --json         one JSON object on one line, for programs\n",
            Choice::Large => {
                "  --large        drafts of up to 1,048,576 bytes and 131,072 tokens; without it\n                 \
                 of up to 16,384 and 2,048\n"
            }
        }
    }
}

#[cfg(test)]
mod tests {
    use super::*;
    use crate::COMMANDS;

    /// The help of the program, and that of each command.
    fn texts() -> Vec<String> {
        let mut texts = vec![Vec::new(); COMMANDS.len() + 1];
        program(&COMMANDS, &mut texts[0]).expect("written to memory");
        for (each, text) in COMMANDS.iter().zip(&mut texts[1..]) {
            command(each, text).expect("written to memory");
        }
        let text = |bytes| String::from_utf8(bytes).expect("a text");
        texts.into_iter().map(text).collect()
    }

    #[test]
    fn lines_fit_eighty_columns() {
        for text in texts() {
            let long: Vec<&str> = text
                .lines()
                .filter(|line| line.chars().count() > 80)
                .collect();
            assert!(long.is_empty(), "{long:?}");
        }
    }

    #[test]
    fn each_has_an_example() {
        for text in texts() {
            assert!(text.contains("\nExample"), "{text}");
            assert!(text.contains("\n  togmelic "), "{text}");
        }
    }

    #[test]
    fn every_command_is_named() {
        for command in &COMMANDS {
            assert!(texts()[0].contains(&format!("\n  togmelic {} ", command.name)));
        }
    }
}
