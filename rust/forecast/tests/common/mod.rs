//! What the tests share: the tool called in this process, files, random numbers.

// The generator is shared with the independent version's tests.
pub mod json;
#[path = "../../../reference/tests/common/random.rs"]
mod random;
pub mod series;

pub use random::Random;

use std::ffi::OsString;
use std::fs;

use forecast::{answer, Answer, State, Surroundings};

pub const EXAMPLES: [&str; 4] = ["dock", "channel", "eddies", "jetty"];

/// A file of the repository.
pub fn repository(name: &str) -> String {
    let package = env!("CARGO_MANIFEST_DIR");
    format!("{package}/../../{name}")
}

pub fn example(name: &str) -> String {
    repository(&format!("examples/{name}"))
}

/// The state of an example's record.
pub fn state(name: &str) -> State {
    let record = fs::read(example(&format!("{name}.rec"))).unwrap();
    State::read(&record).unwrap()
}

/// A new, empty folder for a test.
pub fn folder(test: &str) -> String {
    let folder = format!("{}/{test}", env!("CARGO_TARGET_TMPDIR"));
    let _ = fs::remove_dir_all(&folder);
    fs::create_dir_all(&folder).unwrap();
    folder
}

/// The words of a call; each `@` stands for the next of the files.
pub fn words<'a>(line: &'a str, files: &[&'a str]) -> Vec<&'a str> {
    let mut files = files.iter();
    let word = |word| match word {
        "@" => files.next().unwrap(),
        _ => word,
    };
    line.split(' ').map(word).collect()
}

/// Calls the tool with something on standard input, and gives what it says and
/// the progress that it told.
pub fn call(arguments: &[&str], mut input: &[u8], terminal: bool) -> (Answer, String) {
    let words: Vec<OsString> = arguments.iter().map(OsString::from).collect();
    let mut progress = Vec::new();
    let answer = answer(
        &words,
        &mut Surroundings {
            input: &mut input,
            progress: &mut progress,
            terminal,
        },
    );
    (answer, String::from_utf8(progress).unwrap())
}

/// What a call says that has this on standard input.
pub fn given(input: &[u8], arguments: &[&str]) -> Answer {
    call(arguments, input, false).0
}

/// What a call says that has nothing there.
pub fn tool(arguments: &[&str]) -> Answer {
    given(&[], arguments)
}

/// What a call that gives a result says.
pub fn said(arguments: &[&str]) -> String {
    let answer = tool(arguments);
    let (status, trouble) = (answer.status, &answer.trouble[..]);
    assert_eq!((status, trouble), (0, ""), "{}", answer.out);
    answer.out
}
