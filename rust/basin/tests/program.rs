//! The step program over the proved calls, run as a program: it prints what the
//! independent version says ([`step_program`]), for worked example 10, the stored
//! cases, every refusal, random records of every size, damaged ones, and inputs
//! about as long as it takes and longer, however the input arrives.
//!
//! The program is the repository's `target/bin/step`, which `install/build step`
//! makes, or the one that the environment variable `STEP_PROGRAM` names.

use std::ffi::{OsStr, OsString};
use std::fs::File;
use std::io::{ErrorKind, Write};
use std::path::{Path, PathBuf};
use std::process::{Child, Command, Stdio};
use std::time::Duration;
use std::{env, fs, thread};

use crate::cases::changes::Changed;
use crate::cases::common::{at_rest, moment, random_state, random_timestamp, shuffled};
use crate::cases::common::{record_of, record_of_01, record_of_length, Random, NUMBERS, SPREADS};
use crate::cases::records::hex;
use crate::cases::{add, Case};
use reference::{step_program, State};

// ---- the program

fn in_repository(path: &str) -> PathBuf {
    Path::new(env!("CARGO_MANIFEST_DIR"))
        .join("../..")
        .join(path)
}

fn start(input: Stdio) -> Child {
    let given = env::var_os("STEP_PROGRAM");
    let program = given.unwrap_or_else(|| OsString::from(in_repository("target/bin/step")));
    Command::new(&program)
        .stdin(input)
        .stdout(Stdio::piped())
        .stderr(Stdio::piped())
        .spawn()
        .unwrap_or_else(|error| {
            panic!(
                "{}: {error}. Run `install/build step` first, or set STEP_PROGRAM to the program",
                program.display()
            )
        })
}

/// What the program prints. It ends well, refused or not, and complains of
/// nothing.
fn output(child: Child) -> String {
    let output = child.wait_with_output().expect("it ends");
    assert!(output.status.success(), "{output:?}");
    assert!(output.stderr.is_empty(), "{output:?}");
    String::from_utf8(output.stdout).expect("it prints text")
}

/// What it prints for an input that arrives in these pieces, with a pause
/// before each.
fn printed<'a>(pieces: impl IntoIterator<Item = &'a [u8]>, pause: Duration) -> String {
    let mut child = start(Stdio::piped());
    let mut input = child.stdin.take().expect("it has an input");
    for piece in pieces {
        thread::sleep(pause);
        match input.write_all(piece) {
            Ok(()) => {}
            // It may stop reading at its limit; the rest is not wanted then.
            Err(error) if error.kind() == ErrorKind::BrokenPipe => break,
            Err(error) => panic!("{error}"),
        }
    }
    drop(input);
    output(child)
}

/// The input, or its start, to be printed where a comparison fails.
fn shown(input: &[u8]) -> String {
    let start = hex(&input[..input.len().min(2_000)]);
    format!("{} bytes, {start}", input.len())
}

/// What both print for this input.
fn compare(input: &[u8], at: &str) -> String {
    let text = printed([input], Duration::ZERO);
    assert_eq!(
        text,
        step_program(input),
        "{at}: the step program (left) and the independent version (right) on {}",
        shown(input)
    );
    text
}

fn expect(input: &[u8], text: &str, at: &str) {
    assert_eq!(compare(input, at), text, "{at}: {}", shown(input));
}

/// The number of a refusal, 0 for none.
fn refusal(text: &str) -> usize {
    let number = text
        .strip_prefix("refused ")
        .and_then(|rest| rest.strip_suffix('\n'));
    number.map_or(0, |number| number.parse().expect("a number"))
}

#[test]
fn a_refusal_is_read_with_all_its_digits() {
    assert_eq!(refusal("refused 8\n"), 8);
    assert_eq!(refusal("refused 13\n"), 13);
    assert_eq!(refusal(EXAMPLE_10), 0);
}

// ---- worked example 10, stored cases, and the refusals

const EXAMPLE_10: &str = "total 2000\n0 0 2000 99 -51\n";

#[test]
fn worked_example_10() {
    let record = record_of_01(&Case::example_2().state(), 0);
    let input = "010003010100 02000C000026520000000A000003E8 0300080000000000000000 \
                 040004000007D0 05000400000000 0600020064 070002FFCE";
    assert_eq!(hex(&record), input.replace(' ', ""));
    expect(&record, EXAMPLE_10, "example 10");

    // From a file, as the README has it, with tags 8 and 9.
    let record = record_of(&Case::example_2().state(), 0);
    let path = in_repository("examples/one_cell.rec");
    assert_eq!(fs::read(&path).expect("the file"), record);
    let file = File::open(&path).expect("the file");
    assert_eq!(output(start(file.into())), EXAMPLE_10);
}

#[test]
fn stored_cases_print_what_is_stored() {
    let folder = in_repository("rust/basin/tests/stored");
    let text = |path: &Path| {
        fs::read_to_string(path).unwrap_or_else(|error| panic!("{}: {error}", path.display()))
    };
    let table = text(&folder.join("README.md"));
    let mut cases = 0;
    for file in fs::read_dir(&folder).expect("the folder of the cases") {
        let path = file.expect("a file").path();
        let name = path.file_stem().unwrap_or_default().display();
        match path.extension().and_then(OsStr::to_str) {
            Some("stdin") => {
                let input = fs::read(&path).expect("an input");
                let output = text(&path.with_extension("stdout"));
                expect(&input, &output, &format!("the stored case {name}"));
                let row = format!("| `{name}` |");
                assert!(table.contains(&row), "{name} has no row in README.md");
                cases += 1;
            }
            Some("stdout") => {
                let input = path.with_extension("stdin");
                assert!(input.is_file(), "{name} has no input");
            }
            Some("md") => {}
            _ => panic!("{} is no part of a case", path.display()),
        }
    }
    assert!(cases > 0, "no case in {}", folder.display());
}

#[test]
fn every_refusal_is_printed() {
    let refused = |number: u8, change: fn(&mut State)| {
        let mut state = Case::basin().state();
        change(&mut state);
        let text = format!("refused {number}\n");
        expect(&record_of(&state, 1), &text, "a refusal");
    };
    refused(1, |s| s.parameters.w = 0);
    refused(1, |s| s.parameters.n = 65);
    refused(1, |s| s.parameters.kind = 3);
    refused(2, |s| s.b.push(0));
    refused(2, |s| s.barriers.clear());
    refused(2, |s| s.parameters.w = 4);
    refused(3, |s| s.parameters.g = 0);
    refused(3, |s| s.parameters.r = 1_000_001);
    refused(4, |s| s.h[5] = 999);
    refused(4, |s| s.v[5] = 5_001);
    refused(4, |s| s.barriers[5] = 4);
    refused(5, |s| s.u[3] = 1);
    refused(5, |s| s.v[2] = -1);
    refused(5, |s| s.barriers[4] = 1);
    refused(5, |s| s.barriers[3] = 2);
    refused(6, |s| (s.b[4], s.parameters.r) = (100_000, 1_000));
    refused(8, |s| *s = at_rest(33, 32));
    let good = record_of(&Case::basin().state(), 1);
    expect(&good[..good.len() - 1], "refused 7\n", "cut off");
    expect(&[&good[..], &[1]].concat(), "refused 7\n", "a byte more");
    expect(&[], "refused 7\n", "nothing");
    let late = record_of(&Case::basin().state(), moment(1, 1_000));
    expect(&late, "refused 9\n", "milliseconds");
}

#[test]
fn more_than_1_024_cells_are_an_8() {
    for (w, n) in [(32, 32), (64, 16), (16, 64)] {
        let text = compare(&record_of(&at_rest(w, n), 1), "1,024 cells");
        assert!(text.starts_with("total 5120000\n0 0 5000 0 0\n"), "{text}");
        let last = format!("{} {} 5000 0 0", w - 1, n - 1);
        assert_eq!(text.lines().last(), Some(&*last));
        assert_eq!(text.lines().count(), 1_025);
    }
    for (w, n) in [(25, 41), (41, 25), (33, 32), (64, 17), (64, 64)] {
        let mut state = at_rest(w, n);
        expect(&record_of(&state, 1), "refused 8\n", "more cells");
        // 8 comes before 3, 9, 4 and 5, and after 7, 1 and 2.
        (state.parameters.g, state.h[0]) = (0, 0);
        expect(
            &record_of(&state, moment(1, 1_000)),
            "refused 8\n",
            "8 first",
        );
        state.h.pop();
        expect(&record_of(&state, 1), "refused 2\n", "2 first");
        state.parameters.kind = 3;
        expect(&record_of(&state, 1), "refused 1\n", "1 first");
    }
}

// ---- random records

#[test]
fn random_records_of_many_sizes() {
    let mut random = Random::new(91);
    // Printed; refused with 6; with 8.
    let mut met = [0; 3];
    let large = [(32, 32), (64, 16), (16, 64), (31, 33), (64, 64), (26, 40)];
    for number in 0..110 {
        let size = match number {
            0..12 => large[number % 6],
            12..20 => random.pick(&[(1, 64), (64, 1), (5, 64), (20, 20)]),
            _ => (1 + random.below(7), 1 + random.below(7)),
        };
        let kind = random.below(3) as u8;
        let state = match number % 4 {
            0 => Case::brink(&mut random, size, kind).state(),
            1 => {
                let spread = random.pick(&SPREADS);
                random_state(&mut random, spread, size, kind)
            }
            _ => Case::gentle(&mut random, size, kind).state(),
        };
        let timestamp = random_timestamp(&mut random);
        let record = shuffled(&mut random, &state, timestamp);
        let told = refusal(&compare(&record, &format!("record {number}")));
        add(&mut met, [0, 6, 8].map(|of| told == of));
    }
    println!("{met:?}");
    assert_eq!(met.iter().sum::<usize>(), 110, "{met:?}");
    assert!(met[0] > 50 && met[1] > 10 && met[2] > 3, "{met:?}");
}

#[test]
fn damaged_records() {
    let mut random = Random::new(92);
    let mut met = [0; NUMBERS];
    for number in 0..100 {
        let record = Changed::random(&mut random).record;
        met[refusal(&compare(&record, &format!("record {number}")))] += 1;
    }
    println!("{met:?}");
    for number in [0, 1, 2, 3, 4, 7, 9] {
        assert!(met[number] > 1, "{met:?}");
    }
}

// ---- long inputs

#[test]
fn an_input_of_65_536_bytes_or_more_is_a_7() {
    // What the reader says of it, up to that length.
    for (kind, text) in [(0, "refused 2\n"), (3, "refused 1\n")] {
        for length in [1_000, 65_534, 65_535] {
            expect(&record_of_length(length, kind), text, "within the limit");
        }
        for length in [65_536, 65_537] {
            expect(
                &record_of_length(length, kind),
                "refused 7\n",
                "past the limit",
            );
        }
    }
    // A good record, and bytes that are none of it.
    let good = record_of(&at_rest(32, 32), 1);
    for length in [65_535, 65_536, 65_537, 100_000, 1 << 20] {
        let mut input = good.clone();
        input.resize(length, 0);
        expect(&input, "refused 7\n", "a long input");
        expect(&vec![0; length], "refused 7\n", "zeros");
    }
}

// ---- input in pieces

#[test]
fn an_input_that_arrives_in_pieces() {
    let pause = Duration::from_micros(200);
    let record = record_of(&Case::example_2().state(), 0);
    assert_eq!(printed(record.chunks(1), pause), EXAMPLE_10);
    assert_eq!(printed(record.chunks(7), 50 * pause), EXAMPLE_10);
    // Nothing for a while, and then its end.
    assert_eq!(printed([&[][..]], 100 * pause), "refused 7\n");

    let mut random = Random::new(93);
    for number in 0..20 {
        let size = (1 + random.below(20), 1 + random.below(20));
        let state = Case::gentle(&mut random, size, 0).state();
        let record = record_of(&state, number);
        let pieces = record.chunks(1 + random.below(record.len() / 2));
        assert_eq!(printed(pieces, pause), step_program(&record), "{state:?}");
    }
    // Up to the limit, past it, and long past it.
    for (length, text) in [
        (65_535, "refused 2\n"),
        (65_536, "refused 7\n"),
        (1 << 17, "refused 7\n"),
    ] {
        let mut input = record_of_length(65_535, 0);
        input.resize(length, 0);
        for size in [509, 4_096, 65_535] {
            assert_eq!(
                printed(input.chunks(size), pause),
                text,
                "{length} by {size}"
            );
        }
    }
}
