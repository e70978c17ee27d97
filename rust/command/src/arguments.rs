//! The arguments behind a command: its options and its files. Any bytes may be a file's name.

use crate::command::{Choice, Command};
use crate::style::When;
use std::ffi::{OsStr, OsString};
use togmelic::Limits;

/// A right call of a command.
#[derive(Debug, Default, PartialEq, Eq)]
pub(crate) struct Call {
    pub(crate) files: Vec<OsString>,
    pub(crate) color: When,
    pub(crate) json: bool,
    pub(crate) large: bool,
}

impl Call {
    /// How large a draft may be.
    pub(crate) fn limits(&self) -> Limits {
        match self.large {
            true => Limits::Large,
            false => Limits::Small,
        }
    }
}

#[derive(Debug, PartialEq, Eq)]
pub(crate) enum Asked {
    Help,
    Run(Call),
}

/// What is asked of a command, or what is wrong with the call. Arguments are taken in order, so the first that is wrong is named.
pub(crate) fn parse(
    command: &Command,
    arguments: impl Iterator<Item = OsString>,
) -> Result<Asked, String> {
    let mut call = Call::default();
    let mut only_files = false;
    for argument in arguments {
        if only_files || !is_option(&argument) {
            add_file(command, &mut call, argument)?;
        } else if argument == "--" {
            only_files = true;
        } else if argument == "--help" || argument == "-h" {
            return Ok(Asked::Help);
        } else {
            set_option(command, &mut call, &argument)?;
        }
    }
    if call.files.is_empty() {
        return Err("no file".to_owned());
    }
    Ok(Asked::Run(call))
}

/// `-` alone is a file, standard input.
fn is_option(argument: &OsStr) -> bool {
    argument.as_encoded_bytes().starts_with(b"-") && argument != "-"
}

pub(crate) fn unknown_option(argument: &OsStr) -> String {
    format!("unknown option '{}'", argument.to_string_lossy())
}

fn add_file(command: &Command, call: &mut Call, file: OsString) -> Result<(), String> {
    if !command.several && !call.files.is_empty() {
        let file = file.to_string_lossy();
        return Err(format!("one file at a time, not also '{file}'"));
    }
    if file == "-" && call.files.contains(&file) {
        return Err("standard input is named twice".to_owned());
    }
    call.files.push(file);
    Ok(())
}

fn set_option(command: &Command, call: &mut Call, argument: &OsStr) -> Result<(), String> {
    let text = argument.to_string_lossy();
    let (name, value) = match text.split_once('=') {
        Some((name, value)) => (name, Some(value)),
        None => (&*text, None),
    };
    match name {
        "--color" if command.options.contains(&Choice::Color) => {
            call.color = value.and_then(when).ok_or_else(|| {
                format!("write --color=auto, --color=always or --color=never, not '{text}'")
            })?;
        }
        "--json" if command.options.contains(&Choice::Json) => {
            call.json = without_value(name, value)?;
        }
        "--large" if command.options.contains(&Choice::Large) => {
            call.large = without_value(name, value)?;
        }
        _ => return Err(unknown_option(argument)),
    }
    Ok(())
}

/// An option is on where it stands, and has nothing behind it.
fn without_value(name: &str, value: Option<&str>) -> Result<bool, String> {
    match value {
        None => Ok(true),
        Some(_) => Err(format!("{name} takes no value")),
    }
}

fn when(value: &str) -> Option<When> {
    match value {
        "auto" => Some(When::Auto),
        "always" => Some(When::Always),
        "never" => Some(When::Never),
        _ => None,
    }
}

#[cfg(test)]
mod tests {
    use super::*;
    use std::os::unix::ffi::OsStringExt;

    fn asked(command: &Command, arguments: &[&str]) -> Result<Asked, String> {
        parse(command, arguments.iter().map(OsString::from))
    }

    fn files(names: &[&str]) -> Vec<OsString> {
        names.iter().map(OsString::from).collect()
    }

    fn wrong(command: &Command, arguments: &[&str], why: &str) {
        assert_eq!(asked(command, arguments), Err(why.to_owned()));
    }

    #[test]
    fn options_stand_anywhere() {
        let call = Call {
            files: files(&["a", "-", "b"]),
            color: When::Never,
            ..Call::default()
        };
        let given = ["a", "--color=always", "-", "b", "--color=never"];
        assert_eq!(asked(&crate::check::COMMAND, &given), Ok(Asked::Run(call)));
        let call = Call {
            files: files(&["a"]),
            json: true,
            large: true,
            ..Call::default()
        };
        assert_eq!(
            asked(&crate::tree::COMMAND, &["--large", "a", "--json"]),
            Ok(Asked::Run(call))
        );
    }

    #[test]
    fn large_is_an_option_of_each() {
        for command in &crate::COMMANDS {
            for (given, limits) in [
                (&["a"][..], Limits::Small),
                (&["a", "--large"], Limits::Large),
                (&["--large", "a", "--large"], Limits::Large),
                (&["--", "a"], Limits::Small),
            ] {
                let Ok(Asked::Run(call)) = asked(command, given) else {
                    panic!("a wrong call: {given:?}");
                };
                assert_eq!((call.limits(), call.files), (limits, files(&["a"])));
            }
            wrong(command, &["--large=", "a"], "--large takes no value");
            wrong(command, &["a", "--large=1"], "--large takes no value");
            wrong(command, &["a", "--larger"], "unknown option '--larger'");
            wrong(command, &["--large"], "no file");
        }
    }

    #[test]
    fn behind_two_dashes_are_files() {
        let call = Call {
            files: files(&["--help", "--", "-", "-x"]),
            ..Call::default()
        };
        let given = ["--", "--help", "--", "-", "-x"];
        assert_eq!(asked(&crate::check::COMMAND, &given), Ok(Asked::Run(call)));
    }

    #[test]
    fn help_is_an_option_of_each() {
        for command in &crate::COMMANDS {
            assert_eq!(asked(command, &["a", "--help"]), Ok(Asked::Help));
            assert_eq!(asked(command, &["--help"]), Ok(Asked::Help));
            assert_eq!(asked(command, &["a", "-h"]), Ok(Asked::Help));
        }
    }

    #[test]
    fn wrong_calls_are_told_apart() {
        let [check, tree, list] = &crate::COMMANDS;
        for command in [check, tree, list] {
            wrong(command, &[], "no file");
            wrong(command, &["--"], "no file");
            wrong(command, &["a", "-x"], "unknown option '-x'");
            wrong(command, &["a", "-hh"], "unknown option '-hh'");
            wrong(command, &["--version", "a"], "unknown option '--version'");
            wrong(command, &["--help=a"], "unknown option '--help=a'");
        }
        wrong(check, &["-", "a", "-"], "standard input is named twice");
        wrong(
            check,
            &["-", "--", "a", "-"],
            "standard input is named twice",
        );
        wrong(check, &["--json", "a"], "unknown option '--json'");
        wrong(list, &["--json", "a"], "unknown option '--json'");
        wrong(
            list,
            &["--color=auto", "a"],
            "unknown option '--color=auto'",
        );
        wrong(tree, &["a", "b"], "one file at a time, not also 'b'");
        wrong(list, &["a", "-"], "one file at a time, not also '-'");
        wrong(tree, &["--json=", "a"], "--json takes no value");
        let color = |given: &str| {
            format!("write --color=auto, --color=always or --color=never, not '{given}'")
        };
        wrong(check, &["--color", "always", "a"], &color("--color"));
        wrong(tree, &["--color=", "a"], &color("--color="));
        wrong(tree, &["--color=Always", "a"], &color("--color=Always"));
    }

    #[test]
    fn any_bytes_are_a_name() {
        let name = OsString::from_vec(b"\xFF.simf".to_vec());
        let call = Call {
            files: vec![name.clone()],
            ..Call::default()
        };
        assert_eq!(
            parse(&crate::check::COMMAND, [name].into_iter()),
            Ok(Asked::Run(call))
        );
        let option = OsString::from_vec(b"-\xFF".to_vec());
        assert_eq!(
            parse(&crate::check::COMMAND, [option].into_iter()),
            Err("unknown option '-\u{FFFD}'".to_owned())
        );
    }
}
