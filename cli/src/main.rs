//! The role keeper's command line: `keeper --help` says what it does.

mod apply;
mod arguments;
mod diagnosis;
mod exclusion;
mod file;
mod help;
mod meaning;
mod sheet;
mod show;
mod text;
mod why;
mod words;

use arguments::Arguments;
use std::env::args_os;
use std::ffi::OsString;
use std::io::{stderr, stdin, stdout, ErrorKind, Read, Write};
use std::path::Path;
use std::process::exit;

/// What a command gives: what it writes, and whether that is a yes.
pub struct Done {
    pub yes: bool,
    pub output: Vec<u8>,
}

/// Why a command gives nothing.
pub enum Failure {
    /// Wrong usage: the reason.
    Usage(String),
    /// A number that is refused: the answer.
    Refused(String),
    /// A sheet that is refused: the reason, for standard error, since standard output is the tape's.
    Unimported(String),
    /// Trouble with a file or with a text: the reason.
    Trouble(String),
}

impl From<String> for Failure {
    fn from(said: String) -> Failure {
        Failure::Trouble(said)
    }
}

type Outcome = Result<Done, Failure>;

/// What a command gives that ends well.
fn done(yes: bool, output: impl Into<Vec<u8>>) -> Outcome {
    let output = output.into();
    Ok(Done { yes, output })
}

/// Makes a file with a fresh image.
fn new(given: &[OsString]) -> Outcome {
    let words = Arguments::of(given, &["--behind"], &["IMAGE"])?;
    let path = words.path(0);
    let (held, mut bytes) = match words.has("--behind") {
        false => (file::Replaced::hold_absent(path)?, Vec::new()),
        true => (file::Replaced::hold(path)?, file::bytes(path)?),
    };
    if keeper::image_length(&bytes).is_ok() {
        return Err(format!("{}: ends with an image already", path.display()).into());
    }
    bytes.extend(keeper::Keeper::fresh().save());
    held.replace(&bytes)?;
    done(true, "")
}

/// Answers whether a seat may use a privilege.
fn ask(given: &[OsString]) -> Outcome {
    let words = Arguments::of(given, &[], &["IMAGE", "SEAT", "PRIVILEGE"])?;
    let seat = words.number(1, "SEAT")?;
    let privilege = words.number(2, "PRIVILEGE")?;
    let keeper = file::read(words.path(0))?.keeper;
    let (yes, said) = why::ask(&keeper, seat, privilege);
    done(yes, said)
}

/// Names the seats that may use a privilege.
fn who(given: &[OsString]) -> Outcome {
    let words = Arguments::of(given, &[], &["IMAGE", "PRIVILEGE"])?;
    let privilege = words.number(1, "PRIVILEGE")?;
    let keeper = file::read(words.path(0))?.keeper;
    let (yes, said) = why::who(&keeper, privilege);
    done(yes, said)
}

/// Shows what an image holds.
fn show(given: &[OsString]) -> Outcome {
    let words = Arguments::of(given, &["--dot"], &["IMAGE"])?;
    let keeper = file::read(words.path(0))?.keeper;
    let said = match words.has("--dot") {
        true => show::dot(&keeper),
        false => show::text(&keeper),
    };
    done(true, said)
}

/// The name of a file for a message.
fn name(path: &Path) -> String {
    match path.to_str() {
        Some("-") => "standard input".to_string(),
        _ => path.display().to_string(),
    }
}

/// The bytes of a file, or of standard input for '-'.
fn input(path: &Path) -> Result<Vec<u8>, String> {
    if path != Path::new("-") {
        return file::bytes(path);
    }
    let mut bytes = Vec::new();
    let read = stdin().lock().read_to_end(&mut bytes);
    read.map_err(|error| format!("standard input: {error}"))?;
    Ok(bytes)
}

/// Turns the text form into a tape, or a tape into text.
fn tape(given: &[OsString]) -> Outcome {
    let words = Arguments::of(given, &[], &["write or read"])?;
    match words.word(0).to_str() {
        Some("write") => {
            let records = apply::of_text(&input(Path::new("-"))?)?;
            let bytes: Vec<u8> = records
                .into_iter()
                .flat_map(|record| record.bytes)
                .collect();
            done(true, bytes)
        }
        Some("read") => {
            let bytes = input(Path::new("-"))?;
            let lines = bytes
                .chunks(keeper::RECORD_LENGTH)
                .map(|record| text::line_of(record) + "\n");
            done(true, lines.collect::<String>())
        }
        _ => Err(Failure::Usage(format!(
            "'{}' is neither write nor read",
            words.word(0).to_string_lossy()
        ))),
    }
}

/// Gives the help, of a command or of the whole.
fn help(given: &[OsString]) -> Outcome {
    let Some(command) = given.first() else {
        return done(true, help::ALL);
    };
    let name = command.to_string_lossy();
    match help::of(&name) {
        Some(said) if given.len() == 1 => done(true, said),
        _ => Err(Failure::Usage(format!("there is no help for '{name}'"))),
    }
}

/// Runs a command with the words behind it.
fn run(command: &str, given: &[OsString]) -> Outcome {
    let wants_help = given
        .iter()
        .take_while(|word| *word != "--")
        .any(|word| word == "--help" || word == "-h");
    match (command, help::of(command)) {
        (_, Some(said)) if wants_help => done(true, said),
        ("new", _) => new(given),
        ("apply", _) => apply::apply(given),
        ("ask", _) => ask(given),
        ("who", _) => who(given),
        ("show", _) => show(given),
        ("tape", _) => tape(given),
        ("import", _) => sheet::import(given),
        ("help" | "--help" | "-h", _) => help(given),
        ("--version", _) if given.is_empty() => {
            done(true, concat!("keeper ", env!("CARGO_PKG_VERSION"), "\n"))
        }
        ("", _) => Err(Failure::Usage("a command is missing".to_string())),
        _ => Err(Failure::Usage(format!("there is no command '{command}'"))),
    }
}

/// Writes to standard output; a reader who has enough is no trouble.
fn print(output: &[u8]) -> Result<(), String> {
    let mut out = stdout().lock();
    match out.write_all(output).and_then(|()| out.flush()) {
        Err(error) if error.kind() != ErrorKind::BrokenPipe => {
            Err(format!("standard output: {error}"))
        }
        _ => Ok(()),
    }
}

/// Writes what the command gives and ends with its status.
fn main() {
    let given: Vec<OsString> = args_os().skip(1).collect();
    let command = given
        .first()
        .map(|word| word.to_string_lossy().into_owned());
    let command = command.unwrap_or_default();
    let answered = match run(&command, given.get(1..).unwrap_or_default()) {
        Err(Failure::Refused(output)) => done(false, output),
        outcome => outcome,
    };
    let printed = answered.and_then(|done| {
        print(&done.output)?;
        Ok(done.yes)
    });
    let (status, said) = match printed {
        Ok(yes) => exit(if yes { 0 } else { 1 }),
        Err(Failure::Unimported(said)) => (1, said),
        Err(Failure::Refused(said) | Failure::Trouble(said)) => (2, said),
        Err(Failure::Usage(said)) => {
            let usage = help::usage(help::of(&command).unwrap_or(help::ALL));
            (2, format!("{said}\n{usage}\n`keeper help` says more"))
        }
    };
    let _ = stderr().write_all(format!("keeper: {said}\n").as_bytes());
    exit(status);
}
