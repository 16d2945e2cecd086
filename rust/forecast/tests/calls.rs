//! Comparison, and arguments that are none.

use std::ffi::OsStr;
use std::fs;
use std::os::unix::ffi::OsStrExt;
use std::process::{Command, Stdio};

use crate::common::{example, folder, given, said, tool};

#[test]
fn the_answers_of_compare() {
    let folder = folder("compare");
    let dock = example("dock.rec");
    let made = |name: &str, from: &str, to: &str| {
        let text = fs::read_to_string(example("dock.txt")).unwrap();
        let path = format!("{folder}/{name}");
        let text = text.replace(from, to);
        let answer = given(text.as_bytes(), &["make", "-", &path]);
        assert_eq!(answer.status, 0);
        path
    };
    let later = made("later", "06:00:00", "06:00:01");
    let soon = made("soon", "06:00:00", "06:00:00.001");
    let other = made("other", "gravity 9810", "gravity 9811");
    assert_eq!(said(&["compare", &dock, &dock]), "same\n");
    assert_eq!(said(&["compare", &later, &dock]), "first newer\n");
    assert_eq!(said(&["compare", &dock, &later]), "second newer\n");
    assert_eq!(said(&["compare", &dock, &other]), "clash\n");
    // In one second the milliseconds decide.
    assert_eq!(said(&["compare", &soon, &other]), "first newer\n");
    assert_eq!(said(&["compare", &soon, &later]), "second newer\n");

    let input = fs::read(&dock).unwrap();
    assert_eq!(
        given(&input, &["compare", "-", &later]).out,
        "second newer\n"
    );
    // The same without tag 9, whose barriers are 0, and without tag 8, whose
    // milliseconds are.
    let tag_9 = 3 + 32 * 20;
    for lacking in [tag_9, 5 + tag_9] {
        let old = &input[..input.len() - lacking];
        assert_eq!(given(old, &["compare", "-", &dock]).out, "same\n");
    }
    let refused = given(&[9], &["compare", &dock, "-"]);
    let words = "refused 7: the record is damaged at byte 0: \
                 too few bytes are left for a tag and its length (second record)\n";
    assert_eq!((refused.status, &refused.out[..]), (1, words));
    let refused = given(&[], &["compare", "-", &dock]);
    let words = "refused 7: the record is damaged at byte 0: \
                 it ends without tag 1 (first record)\n";
    assert_eq!((refused.status, &refused.out[..]), (1, words));
}

#[test]
fn milliseconds_that_are_refused() {
    let mut record = fs::read(example("one_cell.rec")).unwrap();
    // The value of tag 8, before the four bytes of tag 9.
    record[59..61].copy_from_slice(&1_000u16.to_be_bytes());
    let words = "refused 9: the milliseconds of the timestamp are 1000, above 999";
    let shown = given(&record, &["show", "-"]);
    assert_eq!((shown.status, shown.out), (1, format!("{words}\n")));
    let compared = given(&record, &["compare", &example("dock.rec"), "-"]);
    let words = format!("{words} (second record)\n");
    assert_eq!((compared.status, compared.out), (1, words));
}

#[test]
fn barriers_that_are_refused() {
    let mut record = fs::read(example("one_cell.rec")).unwrap();
    for (barrier, words) in [
        (4, "refused 4: barrier at cell 0 0 is 4, outside 0 to 3"),
        (
            1,
            "refused 5: u at cell 0 0 is 100, on a closed edge, where it must be 0",
        ),
        (
            2,
            "refused 5: v at cell 0 0 is -50, on a closed edge, where it must be 0",
        ),
    ] {
        *record.last_mut().unwrap() = barrier;
        let shown = given(&record, &["show", "-"]);
        assert_eq!((shown.status, shown.out), (1, format!("{words}\n")));
    }
}

/// Calls that are none, each with a part of what is said of it. An underline stands
/// for an empty word.
const NO_CALLS: [(&str, &str); 73] = [
    ("", "no command"),
    ("dance", "unknown command dance"),
    ("make", "make takes a text and the record"),
    ("make one", "make takes a text and the record"),
    ("make one two three", "make takes a text and the record"),
    ("make - -", "- is for reading alone"),
    ("show", "show takes one record"),
    ("show --all -", "unknown argument --all"),
    ("show --steps 3 -", "unknown argument --steps"),
    ("show - --cell", "--cell takes a whole number"),
    ("show --cell 3 -", "--cell takes a whole number"),
    ("show - --cell -1 0", "--cell takes a whole number"),
    (
        "show - --cell 32 2",
        "cell 32 2 is outside the grid, 32 by 20",
    ),
    (
        "show - --cell 0 0 --cell 0 20",
        "cell 0 20 is outside the grid, 32 by 20",
    ),
    ("show - --text --cell 0 0", "--text or --cell, not both"),
    ("run - --steps 3 --cell 0 0", "unknown argument --cell"),
    ("compare -", "compare takes two records"),
    ("compare - -", "only one of two records"),
    ("step", "a record is missing"),
    ("step a b c", "c is too much"),
    ("step - --steps 3", "unknown argument --steps"),
    ("step - -", "- is for reading alone"),
    ("step - --gate lock 0 0", "unknown argument --gate"),
    (
        "step - --until 2026-11-16T07:00:00",
        "unknown argument --until",
    ),
    ("step - --seconds 3", "--seconds goes with the record"),
    ("step - out --seconds 3.", "--seconds takes seconds"),
    ("step - out --seconds 3.5", "--seconds takes seconds"),
    ("step - out --seconds 3.5000", "--seconds takes seconds"),
    ("step - out --seconds 3.-50", "--seconds takes seconds"),
    ("step - out --seconds .500", "--seconds takes seconds"),
    ("step - out --seconds -1.500", "--seconds takes seconds"),
    ("step - out --seconds 1,500", "--seconds takes seconds"),
    (
        "step - out --seconds 18446744073709551616.000",
        "--seconds takes seconds",
    ),
    ("run -", "--steps N or --until TIME is missing"),
    ("run - --steps", "--steps takes a whole number"),
    ("run - --steps -3", "--steps takes a whole number"),
    (
        "run - --steps 3 --inflow 1 2",
        "--inflow takes a whole number",
    ),
    (
        "run - --steps 3 --inflow 32 2 1",
        "cell 32 2 is outside the grid, 32 by 20",
    ),
    (
        "run - --steps 3 --until 2026-11-16T07:00:00 --step-ms 500",
        "--steps or --until, not both",
    ),
    (
        "run - --until 2026-11-16T07:00:00",
        "--until needs the length of a step",
    ),
    (
        "run - --until 2026-11-16T07:00:00 --spacing 20001",
        "no whole number of ms",
    ),
    (
        "run - --until 2026-11-16T05:00:00 --step-ms 500",
        "the record is of 2026-11-16 06:00:00, which is past",
    ),
    (
        "run - --until 2026-11-16T07:00:00 --step-ms 700",
        "no whole number of steps of 700 ms: 600 ms over",
    ),
    (
        "run - --until 2026-11-16 --step-ms 500",
        "--until takes a time in UTC",
    ),
    (
        "run - --until tomorrow --step-ms 500",
        "--until takes a time in UTC",
    ),
    (
        "run - --steps 3 --step-ms 0",
        "--step-ms takes a whole number above 0",
    ),
    (
        "run - --steps 3 --step-ms 0.5",
        "--step-ms takes a whole number above 0",
    ),
    (
        "run - --steps 3 --step-ms 500 --spacing 20001",
        "is not the spacing-per-step, 40000 mm/s",
    ),
    (
        "run - --steps 3 --spacing 0",
        "--spacing takes a whole number above 0",
    ),
    (
        "run - --steps 3 --spacing 1000000001",
        "a spacing is at most 1000000000 mm",
    ),
    (
        "run - --steps 99999999999999 --step-ms 99999999999",
        "a timestamp has no room",
    ),
    (
        "run - out --steps 3 --step-ms 500 --seconds 3",
        "--seconds goes without the length of a step",
    ),
    (
        "run - out --steps 3 --spacing 20000 --seconds 3",
        "--seconds goes without the length of a step",
    ),
    (
        "run - out --steps 3 --keep --seconds 3",
        "--keep goes with --step-ms",
    ),
    ("run - --steps 3 --keep", "--keep goes with the record"),
    (
        "run - --steps 3 --gate lock 0 0",
        "--gate goes with --csv FILE",
    ),
    ("run - --steps 3 --every 2", "--every goes with --csv FILE"),
    (
        "run - --steps 3 --csv t --every 0",
        "--every takes a whole number above 0",
    ),
    (
        "run - --steps 3 --csv t --gate _ 0 0",
        "--gate takes a name and a cell",
    ),
    (
        "run - --steps 3 --csv t --gate lock 0",
        "--gate takes a whole number",
    ),
    (
        "run - --steps 3 --csv t --gate lock 0 20",
        "cell 0 20 is outside the grid, 32 by 20",
    ),
    (
        "run - --steps 3 --csv t --gate a 0 0 --gate a 1 1",
        "two gates have the name a",
    ),
    ("run - --steps 3 --csv -", "--csv takes a file"),
    ("run - --steps 3 --csv --quiet", "--csv takes a file"),
    ("run - _ --steps 3", "an output has no name"),
    ("draw - -", "- is for reading alone"),
    ("draw -", "draw takes a record and where to draw"),
    ("draw - out.svg --every 3", "go with --steps or --until"),
    ("draw - out.png", "a picture is FILE.svg"),
    ("draw - out.svg --steps 3", "a picture is FILE.svg"),
    ("draw - out.svg --gate lock 0 0", "--gate goes with a page"),
    (
        "draw - out.html --steps 3 --gate lock 32 0",
        "cell 32 0 is outside the grid",
    ),
    (
        "draw - out --steps 1000 --every 1",
        "at most 1000 frames are drawn: --every 2 or more",
    ),
];

#[test]
fn arguments_that_are_none() {
    let record = fs::read(example("dock.rec")).unwrap();
    for (line, meant) in NO_CALLS {
        let words = line.split(' ').filter(|word| !word.is_empty());
        let words: Vec<&str> = words.map(|word| word.trim_matches('_')).collect();
        let answer = given(&record, &words);
        assert_eq!((answer.status, &answer.out[..]), (2, ""), "{line}");
        assert!(answer.trouble.contains(meant), "{line}: {}", answer.trouble);
        assert!(answer.trouble.contains("\n\nusage: forecast "), "{line}");
    }
}

/// A page for the tool and one for each command, each in lines for a terminal.
#[test]
fn help_is_given() {
    let overview = said(&["help"]);
    for words in [&["--help"][..], &["-h"]] {
        assert_eq!(said(words), overview);
    }
    for command in ["make", "show", "step", "run", "compare", "draw"] {
        let page = said(&["help", command]);
        assert!(
            page.starts_with(&format!("usage: forecast {command} ")),
            "{page}"
        );
        assert!(overview.contains(&format!("\n{command} ")), "{command}");
        assert!(page.contains("\nExit status: 0 "), "{page}");
        for words in [&[command, "--help"][..], &[command, "a", "-h", "b"]] {
            assert_eq!(said(words), page);
        }
        assert!(
            page.lines().all(|line| line.chars().count() <= 82),
            "{page}"
        );
    }
    let unknown = tool(&["help", "rnu"]);
    assert_eq!(unknown.status, 2);
    assert!(unknown.trouble.contains("did you mean run?"));
}

/// A page names the options that its command takes, and no others.
#[test]
fn every_option_is_on_its_page() {
    let record = example("dock.rec");
    let options = "--text --keep --quiet --steps --until --step-ms --spacing --seconds --every \
                   --csv --rivers --description --gate --inflow --cell";
    for command in ["make", "show", "step", "run", "compare", "draw"] {
        let page = said(&["help", command]);
        let words = |sign: char| !sign.is_ascii_lowercase() && sign != '-';
        let named: Vec<&str> = page.split(words).collect();
        for option in options.split(' ') {
            let answer = tool(&[command, &record, option]);
            let taken = !answer.trouble.contains("unknown argument");
            assert_eq!(named.contains(&option), taken, "{command} {option}");
        }
    }
}

#[test]
fn a_word_that_is_near_a_known_one() {
    for (words, meant) in [
        (&["rnu"][..], "unknown command rnu; did you mean run?"),
        (
            &["compaer"],
            "unknown command compaer; did you mean compare?",
        ),
        (&["dance"], "unknown command dance\n"),
        (
            &["run", "--stpes", "3"],
            "unknown argument --stpes; did you mean --steps?",
        ),
        (
            &["run", "--step-sm", "3"],
            "unknown argument --step-sm; did you mean --step-ms?",
        ),
        (
            &["show", "--txet"],
            "unknown argument --txet; did you mean --text?",
        ),
        (&["show", "--steps=3"], "unknown argument --steps\n"),
    ] {
        let answer = tool(words);
        assert_eq!(answer.status, 2);
        assert!(answer.trouble.contains(meant), "{}", answer.trouble);
    }
    let text = given(b"grid 2 2\nboundry basin\n", &["make", "-", "out"]);
    assert_eq!(
        text.trouble,
        "-:2: unknown word `boundry`; did you mean boundary?\n"
    );
}

#[test]
fn the_version_of_tool_and_core() {
    let version = env!("CARGO_PKG_VERSION");
    let words = format!("forecast {version}\nover the proved core basin {version}\n");
    for word in ["--version", "-V", "version"] {
        assert_eq!(said(&[word]), words);
    }
}

/// `--steps=N` is `--steps N`; what takes no value, or three, takes none so.
#[test]
fn a_value_joined_to_its_option() {
    let dock = example("dock.rec");
    let apart = said(&["run", &dock, "--steps", "7"]);
    assert_eq!(said(&["run", &dock, "--steps=7"]), apart);
    for words in [
        &["run", &dock, "--steps="][..],
        &["run", &dock, "--steps=x"],
        &["show", &dock, "--text=yes"],
        &["run", &dock, "--steps=7", "--inflow=0"],
        &["run", &dock, "--steps=7", "--steps=7"],
        &["run", &dock, "--steps=7", "--quiet", "--quiet"],
        &["run", &dock, "--steps=7", "--csv="],
    ] {
        assert_eq!(tool(words).status, 2, "{words:?}");
    }
}

#[test]
fn a_file_whose_name_is_like_an_option() {
    let missing = tool(&["show", "--", "--text"]);
    assert_eq!(missing.status, 2);
    assert!(
        missing.trouble.starts_with("forecast: --text: "),
        "{}",
        missing.trouble
    );
}

/// The program itself: where it says what, and its exit status.
#[test]
fn the_program() {
    let program = |arguments: &[&OsStr]| {
        let mut command = Command::new(env!("CARGO_BIN_EXE_forecast"));
        let output = command.args(arguments).stdin(Stdio::null()).output();
        let output = output.unwrap();
        let (out, trouble) = (output.stdout.len(), output.stderr.len());
        (output.status.code(), out > 0, trouble > 0)
    };
    let dock = example("dock.rec");
    let (show, dock) = (OsStr::new("show"), OsStr::new(&dock));
    assert_eq!(program(&[show, dock]), (Some(0), true, false));
    // Nothing is no record.
    assert_eq!(program(&[show, OsStr::new("-")]), (Some(1), true, false));
    assert_eq!(program(&[]), (Some(2), false, true));
    assert_eq!(program(&[dock]), (Some(2), false, true));
    let no_text = OsStr::from_bytes(b"\xff");
    assert_eq!(program(&[no_text]), (Some(2), false, true));
    assert_eq!(program(&[show, no_text]), (Some(2), false, true));
}
