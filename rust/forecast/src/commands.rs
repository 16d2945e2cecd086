//! The commands: files in, calls of the core, text and files out.

use std::ffi::{OsStr, OsString};
use std::io::{Read, Write};
use std::os::unix::ffi::OsStrExt;
use std::path::{Path, PathBuf};

use basin::Comparison;

use crate::advance::{refused_of, run, step};
use crate::arguments::Arguments;
use crate::describe::to_text;
use crate::drawing::draw;
use crate::failure::{in_words, Failure};
use crate::files::{contents, description, load};
use crate::help;
use crate::place::{put_all, Place};
use crate::plan::inside;
use crate::show::{probed, shown};
use crate::subject::Subject;
use crate::suggest::hint;

/// What a command has beside its arguments.
pub struct Surroundings<'a> {
    /// Standard input.
    pub input: &'a mut dyn Read,
    /// Where progress is told, and whether that is a terminal.
    pub progress: &'a mut dyn Write,
    pub terminal: bool,
}

/// What a command says.
#[derive(Debug, Default, PartialEq, Eq)]
pub struct Answer {
    /// For standard output.
    pub out: String,
    /// For standard error: what a person should know of a result.
    pub notes: String,
    /// For standard error: why there is none.
    pub trouble: String,
    /// 0 a result, 1 a refusal by the core, 2 anything else.
    pub status: u8,
}

/// Does what the arguments ask for.
pub fn answer(arguments: &[OsString], around: &mut Surroundings) -> Answer {
    let failure = match command(arguments, around) {
        Ok(answer) => return answer,
        Err(failure) => failure,
    };
    let mut answer = Answer {
        status: failure.status(),
        ..Answer::default()
    };
    match failure {
        Failure::Refused(words) => answer.out = words + "\n",
        Failure::Usage(words) => {
            let name = arguments.first().and_then(|name| name.to_str());
            let page = name.and_then(help::page).unwrap_or(help::OVERVIEW);
            answer.trouble = format!("forecast: {words}\n\n{}\n", help::short(page));
        }
        // As compilers tell it, so that editors find the line.
        text @ Failure::Text { .. } => answer.trouble = format!("{text}\n"),
        other => answer.trouble = format!("forecast: {other}\n"),
    }
    answer
}

/// The options of a run, which a series and a page have too.
const OF_RUN: [&str; 9] = [
    "--steps",
    "--until",
    "--step-ms",
    "--spacing",
    "--description",
    "--inflow",
    "--rivers",
    "--gate",
    "--every",
];

fn command(arguments: &[OsString], around: &mut Surroundings) -> Result<Answer, Failure> {
    let (name, rest) = match arguments.split_first() {
        Some((name, rest)) => (name.to_str().unwrap_or_default(), rest),
        None => return Err(Failure::usage("no command")),
    };
    let options = rest.iter().take_while(|word| *word != "--");
    let helped = options
        .into_iter()
        .any(|word| word == "-h" || word == "--help");
    if let (true, Some(page)) = (helped, help::page(name)) {
        return Ok(said(page.to_owned()));
    }
    let sort = |allowed: &[&str]| Arguments::sort(rest, allowed);
    match name {
        "make" => make(sort(&[])?, around),
        "show" => show(sort(&["--text", "--cell"])?, around),
        "step" => {
            let allowed = ["--inflow", "--seconds", "--step-ms", "--quiet"];
            step(&sort(&allowed)?, around)
        }
        "run" => {
            let allowed = [&OF_RUN[..], &["--seconds", "--csv", "--keep", "--quiet"]];
            run(&sort(&allowed.concat())?, around)
        }
        "compare" => compare(sort(&[])?, around),
        "draw" => draw(&sort(&[&OF_RUN[..], &["--quiet"]].concat())?, around),
        "-h" | "--help" | "help" => help_on(rest),
        "-V" | "--version" | "version" => Ok(said(version())),
        _ => Err(unknown(&arguments[0].to_string_lossy())),
    }
}

fn said(out: String) -> Answer {
    Answer {
        out,
        ..Answer::default()
    }
}

fn unknown(word: &str) -> Failure {
    let known = help::commands().chain(["help"]);
    Failure::usage(format!("unknown command {word}{}", hint(word, known)))
}

/// `help [COMMAND]`
fn help_on(rest: &[OsString]) -> Result<Answer, Failure> {
    let Some(word) = rest.first() else {
        return Ok(said(help::OVERVIEW.to_owned()));
    };
    let word = word.to_string_lossy();
    match help::page(&word) {
        Some(page) => Ok(said(page.to_owned())),
        None => Err(unknown(&word)),
    }
}

/// The version of the tool, and that of the core it is linked with.
fn version() -> String {
    let core = basin::version();
    let (major, minor, patch) = (core / 10_000, core / 100 % 100, core % 100);
    let tool = env!("CARGO_PKG_VERSION");
    format!("forecast {tool}\nover the proved core basin {major}.{minor}.{patch}\n")
}

/// `make TEXT RECORD`
fn make(arguments: Arguments, around: &mut Surroundings) -> Result<Answer, Failure> {
    let [text, record] = &arguments.places[..] else {
        let words = "make takes a text and the record to write";
        return Err(Failure::usage(words));
    };
    let (file, record) = (PathBuf::from(text), target(record)?);
    let state = description(&file, &contents(&file, around)?)?.state;
    let bytes = state.write().map_err(refused_of(&state))?;
    let mut place = Place::new(record)?;
    place.apart_from(&[&file])?;
    place.write(&bytes)?;
    put_all(&mut [place])?;
    Ok(Answer::default())
}

/// `show [--text | --cell I J] RECORD`
fn show(arguments: Arguments, around: &mut Surroundings) -> Result<Answer, Failure> {
    let [record] = &arguments.places[..] else {
        return Err(Failure::usage("show takes one record"));
    };
    let cells = &arguments.cells[..];
    if arguments.text && !cells.is_empty() {
        return Err(Failure::usage("--text or --cell, not both"));
    }
    let state = load(Path::new(record), around)?;
    if arguments.text {
        return Ok(said(to_text(&state)));
    }
    for &cell in cells {
        inside(cell, &state)?;
    }
    let text = match cells {
        [] => shown(&state),
        _ => probed(&state, cells),
    };
    text.map(said).map_err(refused_of(&state))
}

/// `compare A B`
fn compare(arguments: Arguments, around: &mut Surroundings) -> Result<Answer, Failure> {
    let [first, second] = &arguments.places[..] else {
        return Err(Failure::usage("compare takes two records"));
    };
    if first == "-" && second == "-" {
        let words = "only one of two records can be on standard input";
        return Err(Failure::usage(words));
    }
    let first = contents(Path::new(first), around)?;
    let second = contents(Path::new(second), around)?;
    match basin::compare(&first, &second) {
        Ok(comparison) => Ok(said(format!("{}\n", word(comparison)))),
        Err(refused) => {
            let (which, record) = match refused.record {
                1 => ("first", &first),
                _ => ("second", &second),
            };
            let words = in_words(refused.refusal, Subject::Record(record));
            Err(Failure::Refused(format!("{words} ({which} record)")))
        }
    }
}

/// 01's words for what two records are to each other.
fn word(comparison: Comparison) -> &'static str {
    match comparison {
        Comparison::Same => "same",
        Comparison::FirstNewer => "first newer",
        Comparison::SecondNewer => "second newer",
        Comparison::Conflict => "clash",
    }
}

/// Where to write. Standard output is for what a command says.
pub fn output(place: &OsStr) -> Result<&Path, Failure> {
    match place.as_bytes() {
        b"-" => Err(Failure::usage("- is for reading alone")),
        b"" => Err(Failure::usage("an output has no name")),
        _ => Ok(Path::new(place)),
    }
}

/// Where to write a file.
pub fn target(place: &OsStr) -> Result<&Path, Failure> {
    let path = output(place)?;
    match place.as_bytes() {
        [.., b'/'] | b"." | b".." | [.., b'/', b'.'] | [.., b'/', b'.', b'.'] => {
            Err(Failure::file(path, "this is the name of a folder"))
        }
        _ => Ok(path),
    }
}
