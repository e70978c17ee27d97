//! Runs the program on every folder of tests/golden and compares each byte of standard output, of standard error, and
//! the status, with the folder's files `stdout`, `stderr` and `status`.
//!
//! The program runs in a copy of the case's folder, with nothing in its environment but what is said here. Behind
//! the files of a draft a case has:
//!
//! - `args`: the arguments, one a line;
//! - `stdin`, where there is one: standard input, else nothing is there to be read;
//! - `env`, where there is one: lines `NAME=VALUE`;
//! - `setup`, where there is one: what is made in the copy, one a line, since a file of odd bytes is easier to see as its
//!   recipe. `bytes NAME COUNT TEXT` appends TEXT so many times to a file, `copy PATH` copies a file from the
//!   repository's root to the same path, `folder NAME` makes a folder.
//!
//! In arguments and in `setup`, `\xE9` is a byte, and `\n`, `\r`, `\t` and `\\` are as in Rust.

use std::ffi::OsString;
use std::fs::{self, File};
use std::os::unix::ffi::OsStringExt;
use std::path::{Path, PathBuf};
use std::process::{Command, Output, Stdio};

/// So many cases there are; one that is lost or added without a word is seen.
const CASES: usize = 197;

/// The folders of the cases, in the order of their names. Whatever else stands there is a fault.
fn cases() -> Vec<PathBuf> {
    let folder = Path::new(env!("CARGO_MANIFEST_DIR")).join("tests/golden");
    let entries = fs::read_dir(&folder).expect("the cases");
    let mut cases: Vec<PathBuf> = entries.map(|entry| entry.expect("a case").path()).collect();
    cases.sort();
    cases
}

/// The bytes that a text with escapes stands for.
fn unescaped(text: &[u8]) -> Vec<u8> {
    let mut bytes = Vec::new();
    let mut rest = text;
    while let Some((first, behind)) = rest.split_first() {
        let (byte, behind) = match (first, behind) {
            (b'\\', [b'x', high, low, behind @ ..]) => (hexadecimal(*high, *low), behind),
            (b'\\', [letter, behind @ ..]) => (escape(*letter), behind),
            _ => (*first, behind),
        };
        bytes.push(byte);
        rest = behind;
    }
    bytes
}

fn hexadecimal(high: u8, low: u8) -> u8 {
    let digits = [high, low].map(char::from);
    let [high, low] = digits.map(|digit| digit.to_digit(16).expect("a hexadecimal digit"));
    (high << 4 | low) as u8
}

fn escape(letter: u8) -> u8 {
    match letter {
        b'n' => b'\n',
        b'r' => b'\r',
        b't' => b'\t',
        b'\\' => b'\\',
        _ => panic!("no such escape: \\{}", char::from(letter)),
    }
}

fn name(text: &[u8]) -> OsString {
    OsString::from_vec(unescaped(text))
}

/// The lines of a file of the case, none where it has no such file.
fn lines(case: &Path, file: &str) -> Vec<Vec<u8>> {
    let bytes = fs::read(case.join(file)).unwrap_or_default();
    let lines = bytes.split_inclusive(|byte| *byte == b'\n');
    lines
        .map(|line| line.strip_suffix(b"\n").expect("a whole line").to_vec())
        .collect()
}

/// Does one line of `setup` in the copy.
fn set_up(copy: &Path, line: &[u8]) {
    let mut words = line.splitn(4, |byte| *byte == b' ');
    let mut word = || words.next().expect("another word in setup");
    match word() {
        b"bytes" => {
            let path = copy.join(name(word()));
            let count = std::str::from_utf8(word()).expect("a number");
            let text = unescaped(word()).repeat(count.parse().expect("a number"));
            let before = fs::read(&path).unwrap_or_default();
            fs::write(path, [before, text].concat()).expect("a file of the case");
        }
        b"copy" => {
            let path = name(word());
            let root = Path::new(env!("CARGO_MANIFEST_DIR")).join("../..");
            let target = copy.join(&path);
            fs::create_dir_all(target.parent().expect("a folder")).expect("a folder of the case");
            fs::copy(root.join(path), target).expect("a file of the repository");
        }
        b"folder" => fs::create_dir(copy.join(name(word()))).expect("a folder of the case"),
        other => panic!("no such step: {}", String::from_utf8_lossy(other)),
    }
}

/// A copy of the case's folder, with what `setup` adds.
fn copied(case: &Path) -> PathBuf {
    let copy = Path::new(env!("CARGO_TARGET_TMPDIR")).join(case.file_name().expect("a name"));
    if copy.exists() {
        fs::remove_dir_all(&copy).expect("an old copy goes");
    }
    fs::create_dir_all(&copy).expect("a copy");
    for entry in fs::read_dir(case).expect("a case is a folder") {
        let file = entry.expect("a file of the case").path();
        fs::copy(&file, copy.join(file.file_name().expect("a name"))).expect("a file is copied");
    }
    for line in lines(case, "setup") {
        set_up(&copy, &line);
    }
    copy
}

/// What the program does in the copy.
fn run(copy: &Path) -> Output {
    let input = copy.join("stdin");
    let input = if input.exists() {
        Stdio::from(File::open(input).expect("stdin"))
    } else {
        Stdio::null()
    };
    let variables = lines(copy, "env").into_iter().map(|line| {
        let line = String::from_utf8(line).expect("ASCII in env");
        let (name, value) = line.split_once('=').expect("NAME=VALUE");
        (name.to_owned(), value.to_owned())
    });
    Command::new(env!("CARGO_BIN_EXE_togmelic"))
        .args(lines(copy, "args").iter().map(|line| name(line)))
        .current_dir(copy)
        .env_clear()
        .env("TERM", "dumb")
        .envs(variables)
        .stdin(input)
        .output()
        .expect("the program runs")
}

/// What differs between what a case expects and what was done.
fn faults(case: &Path) -> Vec<String> {
    let expected = |file: &str| {
        fs::read(case.join(file))
            .unwrap_or_else(|fault| panic!("{}: {file}: {fault}", case.display()))
    };
    assert!(
        case.join("args").is_file(),
        "{} has no args",
        case.display()
    );
    let done = run(&copied(case));
    let status = format!(
        "{}\n",
        done.status
            .code()
            .map_or_else(|| done.status.to_string(), |code| code.to_string())
    );
    let pairs = [
        ("stdout", done.stdout),
        ("stderr", done.stderr),
        ("status", status.into_bytes()),
    ];
    let differ = pairs
        .into_iter()
        .filter(|(file, bytes)| *bytes != expected(file));
    differ
        .map(|(file, bytes)| {
            let (case, wanted) = (case.file_name().expect("a name").display(), expected(file));
            format!(
                "{case}: {file}\n  expected {}\n  got      {}",
                wanted.escape_ascii(),
                bytes.escape_ascii()
            )
        })
        .collect()
}

#[test]
fn every_case_is_answered_byte_for_byte() {
    let cases = cases();
    let faults: Vec<String> = cases.iter().flat_map(|case| faults(case)).collect();
    assert!(
        faults.is_empty(),
        "{} differ:\n{}",
        faults.len(),
        faults.join("\n")
    );
    assert_eq!(cases.len(), CASES);
}

/// The version is the package's, so no case has its bytes.
#[test]
fn the_version_is_the_packages() {
    for option in ["--version", "-V"] {
        let done = Command::new(env!("CARGO_BIN_EXE_togmelic"))
            .arg(option)
            .output()
            .expect("the program runs");
        let expected = format!("togmelic {}\n", env!("CARGO_PKG_VERSION"));
        assert_eq!(String::from_utf8_lossy(&done.stdout), expected);
        assert_eq!(
            (done.stderr.as_slice(), done.status.code()),
            (&b""[..], Some(0))
        );
    }
}

/// How help is worded is free; that it names what can be called, on standard output, and ends well, is not.
#[test]
fn help_names_the_calls() {
    let program = ["togmelic", "check", "tree", "list", "--version, -V"];
    let calls: [(&[&str], &[&str]); 8] = [
        (&["--help"], &program),
        (&["-h"], &program),
        (
            &["check", "--help"],
            &[
                "togmelic check",
                "\n  --color=WHEN ",
                "\n  --large ",
                "FILE",
            ],
        ),
        (&["list", "-h"], &["togmelic list", "\n  --help, -h "]),
        (
            &["tree", "--help"],
            &[
                "togmelic tree",
                "\n  --color=WHEN ",
                "\n  --json ",
                "\n  --large ",
            ],
        ),
        (
            &["list", "--help"],
            &["togmelic list", "\n  --large ", "FILE"],
        ),
        // Arguments are taken in order, so what is wrong behind it is not looked at, nor is a file.
        (&["check", "--help", "--colour"], &["togmelic check"]),
        (&["tree", "missing.simf", "--help"], &["togmelic tree"]),
    ];
    // All say these: the options that all have, and the status.
    let all = ["--help, -h", "0 where every", "1 where some", "2 where the"];
    for (args, shown) in calls {
        let done = Command::new(env!("CARGO_BIN_EXE_togmelic"))
            .args(args)
            .output()
            .expect("the program runs");
        let text = String::from_utf8(done.stdout).expect("UTF-8");
        assert!(
            all.iter().chain(shown).all(|word| text.contains(word)),
            "{args:?}: {text}"
        );
        let fits = |line: &str| line == line.trim_end() && line.chars().count() <= 80;
        assert!(
            text.ends_with('\n') && text.lines().all(fits),
            "{args:?}: {text}"
        );
        assert_eq!(
            (done.stderr.as_slice(), done.status.code()),
            (&b""[..], Some(0)),
            "{args:?}"
        );
    }
}
