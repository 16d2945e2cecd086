//! Text descriptions: what each form gives, and faults with their lines.

use std::fs;

use crate::common::{folder, given, repository, tool};
use basin::Timestamp;
use forecast::describe::to_text;
use forecast::text::{from_text, Unread};
use forecast::State;

/// All that must be said beside the fields.
const HEAD: &str = "grid 3 2\nboundary periodic\ngravity 9810\ncoriolis 10\n\
                    spacing-per-step 1000\ntime 2000-01-01 00:01:00\n";

fn described(fields: &str) -> State {
    from_text(format!("{HEAD}{fields}").as_bytes()).unwrap()
}

#[test]
fn the_forms_of_a_field() {
    let even = described("depth 2000");
    let minute = Timestamp {
        seconds: 60,
        milliseconds: 0,
    };
    assert_eq!(
        (even.timestamp, even.parameters.w, even.parameters.n),
        (minute, 3, 2)
    );
    assert_eq!((&even.h[..], &even.u[..]), (&[2000; 6][..], &[0; 6][..]));
    // A later line goes over an earlier one.
    let boxed = described("depth 2000\ndepth 3000 box 1 0 2 1\ndepth 4000 cell 2 1");
    assert_eq!(boxed.h, [2000, 3000, 3000, 2000, 3000, 4000]);
    let columns = described("depth 2000\nu columns 1 -2 3 # west to east");
    assert_eq!(columns.u, [1, -2, 3, 1, -2, 3]);
    // North comes first; lines that say nothing do not count.
    let rows = described("depth 2000\nv rows\n\n 1 2 3\n# between\r\n\t4 5 6 # south\r\n");
    assert_eq!(rows.v, [4, 5, 6, 1, 2, 3]);
}

/// Barriers add to each other; the whole field is given as others are, and goes
/// over them.
#[test]
fn the_forms_of_barriers() {
    let barriers = |lines: &str| described(&format!("depth 2000\n{lines}")).barriers;
    assert_eq!(barriers(""), [0; 6]);
    assert_eq!(barriers("barrier west 1 0"), [0, 1, 0, 0, 0, 0]);
    assert_eq!(barriers("barrier south 2 1"), [0, 0, 0, 0, 0, 2]);
    let both = "barrier west box 1 0 2 1\nbarrier south box 0 1 2 1 # across";
    assert_eq!(barriers(both), [0, 1, 1, 2, 3, 3]);
    let twice = "barrier west 1 0\nbarrier west box 0 0 1 0";
    assert_eq!(barriers(twice), [1, 1, 0, 0, 0, 0]);
    let rows = "barrier west 2 0\nbarriers rows\n 3 0 0\n0 2 0\nbarrier west 1 0";
    assert_eq!(barriers(rows), [0, 3, 0, 3, 0, 0]);
    assert_eq!(
        barriers("barriers 3\nbarriers 0 cell 1 1"),
        [3, 3, 3, 3, 0, 3]
    );
    assert_eq!(barriers("barriers columns 0 1 2"), [0, 1, 2, 0, 1, 2]);
}

/// They are kept from text to record to text, which has them where not 0.
#[test]
fn barriers_go_round() {
    for (lines, again) in [
        ("", None),
        ("barriers 0", None),
        (
            "barrier west 1 0\nbarrier south 1 1",
            Some("rows\n 0 2 0\n 0 1 0\n"),
        ),
        ("barrier west box 2 0 2 1", Some("columns 0 0 1\n")),
        ("barriers 3", Some("3\n")),
    ] {
        let state = described(&format!("depth 2000\n{lines}"));
        let read = State::read(&state.write().unwrap()).unwrap();
        assert!(read == state, "{lines}");
        let text = to_text(&read);
        let end = again.map_or("\nv 0\n".to_owned(), |form| format!("\nbarriers {form}"));
        assert!(text.ends_with(&end), "{text}");
        assert!(from_text(text.as_bytes()).unwrap() == state, "{lines}");
    }
}

/// Milliseconds are kept from text to record to text, and shown where not 0.
#[test]
fn milliseconds_of_a_time() {
    for (time, milliseconds, shown) in [
        ("00:01:00", 0, "00:01:00\n"),
        ("00:01:00.000", 0, "00:01:00\n"),
        ("00:01:00.007", 7, "00:01:00.007\n"),
        ("00:01:00.250", 250, "00:01:00.250\n"),
        ("00:01:00.999", 999, "00:01:00.999\n"),
    ] {
        let text = format!("{HEAD}depth 2000").replace("00:01:00", time);
        let state = from_text(text.as_bytes()).unwrap();
        let timestamp = Timestamp {
            seconds: 60,
            milliseconds,
        };
        assert_eq!(state.timestamp, timestamp, "{time}");
        let read = State::read(&state.write().unwrap()).unwrap();
        let again = to_text(&read);
        let line = format!("\ntime 2000-01-01 {shown}");
        assert!(again.contains(&line), "{again}");
        assert!(from_text(again.as_bytes()).unwrap() == state, "{time}");
    }
}

/// The description on the page about them is one.
#[test]
fn the_description_on_the_page() {
    let page = fs::read_to_string(repository("docs/DESCRIPTION.md")).unwrap();
    let text = page.split("```").nth(1).unwrap();
    let text = text.strip_prefix("text\n").unwrap();
    let state = from_text(text.as_bytes()).unwrap();
    assert!(state.write().is_ok());
    assert_eq!((state.h[6], state.h[19], state.u[2]), (4005, 8020, 20));
}

#[test]
fn a_level_goes_by_the_bottom_given_so_far() {
    let state = described("bottom 500\nbottom 700 cell 0 0\nlevel 3000\nbottom 0");
    assert_eq!(state.h, [2300, 2500, 2500, 2500, 2500, 2500]);
    assert_eq!(state.b, [0; 6]);
}

/// Each text has a fault in this line, and it is told with these words.
fn faults(head: &str, cases: &[(&str, usize, &str)]) {
    let before = head.lines().count();
    for (text, line, words) in cases {
        let unread = from_text(format!("{head}{text}").as_bytes());
        let Err(Unread::Fault { line: at, message }) = unread else {
            panic!("no fault: {text}");
        };
        assert_eq!(at, before + line, "{text}: {message}");
        assert!(message.contains(words), "{text}: {message}");
    }
}

#[test]
fn faults_of_fields_have_their_line() {
    let too_large = "depth 99999999999999999999";
    let far_apart = "bottom -2\nlevel 9223372036854775807";
    let cases = [
        ("dept 2000", 1, "unknown word `dept`"),
        ("depth", 1, "`depth` takes a number"),
        ("depth 2e3", 1, "`2e3` is no whole number"),
        (too_large, 1, "no whole number, or none that fits"),
        ("depth 1 cell 3 0", 1, "column 3 is outside the grid, 0 to"),
        ("depth 1 cell 0 2", 1, "row 2 is outside the grid, 0 to 1"),
        ("depth 1 cell -1 0", 1, "`-1` is no whole number"),
        ("depth 1 box 2 0 1 1", 1, "southwest and northeast"),
        ("depth 1 sphere 2", 1, "`depth` takes a number"),
        ("\n\nu columns 1 2", 3, "2 numbers for 3 columns"),
        ("u rows\n1 2 3\n4 5 6 7", 3, "4 numbers for 3 columns"),
        ("u rows\n1 2 3\ndepth 2000", 3, "`depth` is no whole number"),
        ("#\nu rows\n1 2 3\n", 2, "1 of 2 rows before the text ends"),
        (far_apart, 2, "does not fit 64 bits"),
        ("u 0\n\n", 2, "the text ends without `depth` or `level`"),
    ];
    faults(HEAD, &cases);
}

#[test]
fn faults_of_barriers_have_their_line() {
    let form = "`barrier` takes `west` or `south`, and `I J` or";
    let cases = [
        ("barrier", 1, form),
        ("barrier west", 1, form),
        ("barrier east 1 0", 1, form),
        ("\nbarrier west 1", 2, form),
        ("barrier west 1 0 2", 1, form),
        ("barrier west cell 1 0", 1, form),
        ("barrier south box 1 0 2", 1, form),
        ("barrier 3", 1, form),
        (
            "barrier west 3 0",
            1,
            "column 3 is outside the grid, 0 to 2",
        ),
        ("barrier west 0 2", 1, "row 2 is outside the grid, 0 to 1"),
        ("barrier west one 0", 1, "`one` is no whole number"),
        ("barrier south box 2 0 1 1", 1, "southwest and northeast"),
        ("barriers", 1, "`barriers` takes a number"),
        ("barriers 256", 1, "256 is no barrier: these are 0 to 3"),
        ("barriers rows\n0 0 0\n0 -1 0", 3, "-1 is no barrier"),
    ];
    faults(HEAD, &cases);
    let without_grid = [("barrier west 0 0", 1, "`grid` must come before `barrier`")];
    faults("", &without_grid);
}

#[test]
fn faults_of_the_head() {
    let cases = [
        ("", 1, "the text ends without `grid`"),
        ("depth 2000", 1, "`grid` must come before `depth`"),
        ("grid 3", 1, "two numbers"),
        ("grid 3 2\nboundary ring", 2, "periodic, channel and basin"),
        ("grid 3 2\nboundary", 2, "periodic, channel and basin"),
        ("grid 3 2\ngravity 1 2", 2, "`gravity` takes one number"),
        ("grid 3 2\ntime 2026-02-30 00:00", 2, "a time is a date"),
        ("time 2026-02-28 06:00.250", 1, "a time is a date"),
        ("time 2026-02-28 06:00:00,250", 1, "a time is a date"),
        ("time 2026-02-28 06:00:00 .250", 1, "a time is a date"),
        ("\ntime 2026-02-28 06:00:00.5", 2, "`06:00:00.5` is no time"),
        (
            "time 2026-02-28 06:00:00.",
            1,
            "three digits after the point",
        ),
        ("time 2026-02-28 06:00:00.2500", 1, "three digits after the"),
        ("time 2026-02-28 06:00:00.+25", 1, "three digits after the"),
        ("grid 3 2\ndepth 2000\n", 2, "without `boundary`"),
        ("grid 3 2\ngrid 3 2\n", 2, "`grid` is given twice"),
        (
            "time 2026-01-01\ntime 2026-01-01",
            2,
            "`time` is given twice",
        ),
    ];
    faults("", &cases);
    let Err(Unread::Fault { line, .. }) = from_text(b"# one\n# two\n\xff") else {
        panic!("not text");
    };
    assert_eq!(line, 3);
}

#[test]
fn a_fault_and_a_refusal_as_the_tool_tells_them() {
    let folder = folder("told");
    let (text, record) = (format!("{folder}/a text"), format!("{folder}/record"));
    let make = |fields: &str| {
        fs::write(&text, format!("{HEAD}{fields}")).unwrap();
        let answer = tool(&["make", &text, &record]);
        assert!(
            answer.status > 0 && !fs::exists(&record).unwrap(),
            "{fields}"
        );
        answer
    };
    let fault = make("depth 2000\ndeep 3");
    assert_eq!(fault.status, 2);
    assert_eq!(fault.trouble, format!("{text}:8: unknown word `deep`\n"));

    for (fields, words) in [
        (
            "depth 2000\ndepth 999 cell 2 1",
            "refused 4: depth at cell 2 1 is 999, outside 1,000 to 100,000 mm\n",
        ),
        (
            "depth 2000\nv 5001 cell 0 1",
            "refused 4: v at cell 0 1 is 5001, outside -5,000 to 5,000 mm/s\n",
        ),
        (
            "depth 2000\nbarriers 4 cell 2 1",
            "refused 4: barrier at cell 2 1 is 4, outside 0 to 3\n",
        ),
        (
            "depth 2000\nv 7\nbarrier south 1 1",
            "refused 5: v at cell 1 1 is 7, on a closed edge, where it must be 0\n",
        ),
    ] {
        let refused = make(fields);
        assert_eq!((refused.status, &refused.out[..]), (1, words));
    }
}

#[test]
fn refusals_of_grid_constants_and_walls() {
    let record = format!("{}/record", folder("refusals"));
    let text = |grid: &str, boundary: &str, gravity: &str| {
        format!(
            "grid {grid}\nboundary {boundary}\ngravity {gravity}\ncoriolis 0\n\
             spacing-per-step 1000\ntime 2000-01-01\ndepth 2000\nu 5\n"
        )
    };
    for (text, words) in [
        (
            text("65 1", "basin", "9810"),
            "refused 1: the columns are 65, outside 1 to 64\n",
        ),
        (
            text("18446744073709551615 18446744073709551615", "basin", "9810"),
            "refused 1: the columns are 18446744073709551615, outside 1 to 64\n",
        ),
        (
            text("4 0", "basin", "9810"),
            "refused 1: the rows are 0, outside 1 to 64\n",
        ),
        (
            text("2 2", "basin", "10001"),
            "refused 3: gravity is 10001, outside 1 to 10,000 mm/s²\n",
        ),
        (
            text("2 2", "basin", "9810"),
            "refused 5: u at cell 0 0 is 5, on a closed edge, where it must be 0\n",
        ),
    ] {
        let answer = given(text.as_bytes(), &["make", "-", &record]);
        assert_eq!(answer.status, 1, "{text}{}", answer.trouble);
        assert_eq!(answer.out, words, "{text}");
    }
}

/// Spacing and step in place of their quotient, or beside it where they agree.
#[test]
fn spacing_and_step_in_place_of_their_quotient() {
    let head = HEAD.replace("spacing-per-step 1000\n", "");
    let ratio = |lines: &str| {
        let text = format!("{head}depth 2000\n{lines}");
        from_text(text.as_bytes()).map(|state| state.parameters.r)
    };
    for (lines, r) in [
        ("spacing-per-step 40000", 40_000),
        ("spacing 20000\nstep-ms 500", 40_000),
        ("step-ms 1\nspacing 1", 1_000),
        ("step-ms 3\nspacing 3", 1_000),
        ("spacing-per-step 40000\nspacing 20000\nstep-ms 500", 40_000),
        ("spacing-per-step 40000\nspacing 7", 40_000),
        // Far outside the bounds, which are the core's to test.
        ("spacing 1\nstep-ms 1000", 1),
    ] {
        assert_eq!(ratio(lines), Ok(r), "{lines}");
    }
    for (lines, line, words) in [
        ("spacing 20000\nstep-ms 300", 8, "between 66666 and 66667"),
        (
            "spacing-per-step 40001\nspacing 20000\nstep-ms 500",
            9,
            "is not the spacing-per-step",
        ),
        ("spacing 20000", 7, "ends without `step-ms`"),
        ("step-ms 500", 7, "ends without `spacing`"),
        ("", 6, "ends without `spacing-per-step`"),
        ("spacing 0\nstep-ms 500", 7, "above 0"),
        ("spacing 20000\nstep-ms 0", 8, "above 0"),
        ("spacing 20000\nstep-ms 500 ms", 8, "takes one number"),
        ("spacing 18446744073709551615\nstep-ms 1", 8, "too large"),
        (
            "spacing 20000\nspacing 20000\nstep-ms 500",
            8,
            "given twice",
        ),
        ("spacing -20000\nstep-ms 500", 7, "no whole number"),
    ] {
        let Err(Unread::Fault { line: at, message }) = ratio(lines) else {
            panic!("{lines}");
        };
        assert!(
            at == line && message.contains(words),
            "{lines}: {at}: {message}"
        );
    }
}

/// Which of the sides, the boundary, the constants, and which field.
#[test]
fn what_is_refused_of_a_record_says_which() {
    let record = described("depth 2000").write().unwrap();
    // Tag 1 has w, n and kind in bytes 3 to 5, tag 2 its constants from byte 9 on;
    // the depths, 24 bytes, come after the timestamp.
    for (byte, value, words) in [
        (3, 65, "refused 1: the columns are 65, outside 1 to 64\n"),
        (4, 0, "refused 1: the rows are 0, outside 1 to 64\n"),
        (
            5,
            3,
            "refused 1: the boundary is of kind 3, none of 0, 1 and 2\n",
        ),
        (
            3,
            4,
            "refused 2: depth has 24 bytes, and the cells of this grid need 32\n",
        ),
        (
            9,
            1,
            "refused 3: gravity is 16787026, outside 1 to 10,000 mm/s²\n",
        ),
        (
            13,
            255,
            "refused 3: coriolis is -16777206, outside -10,000 to 10,000 mm/s\n",
        ),
        (
            17,
            128,
            "refused 3: spacing-per-step is -2147482648, outside 1,000 to 1,000,000 mm/s\n",
        ),
        (
            35,
            255,
            "refused 4: depth at cell 0 0 is -16775216, outside 1,000 to 100,000 mm\n",
        ),
    ] {
        let mut damaged = record.clone();
        damaged[byte] = value;
        let answer = given(&damaged, &["show", "-"]);
        assert_eq!((answer.status, &answer.out[..]), (1, words), "byte {byte}");
    }
    for (offset, bytes, words) in [
        (0, &[12, 0, 0][..], "tag 12 is unknown"),
        (
            0,
            &[9, 255, 255],
            "the value of tag 9 has 65535 bytes, and ",
        ),
        (
            0,
            &[2, 0, 0],
            "the value of tag 2 has 0 bytes, a wrong length",
        ),
        (6, &[1, 0, 3, 1, 1, 1], "tag 1 is there twice"),
    ] {
        let mut damaged = record.clone();
        damaged.splice(offset..offset, bytes.iter().copied());
        let answer = given(&damaged, &["show", "-"]);
        let start = format!("refused 7: the record is damaged at byte {offset}: {words}");
        assert!(answer.out.starts_with(&start), "{}", answer.out);
    }
    let missing = given(&record[..6], &["show", "-"]);
    assert!(missing.out.ends_with("at byte 6: it ends without tag 2\n"));
}
