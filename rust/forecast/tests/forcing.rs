//! Clock, gates and rivers: what a run tells and leaves, against single calls of the
//! core.

use std::fs;

use crate::common::{example, folder, said, state, tool, words, Random};
use basin::Timestamp;
use forecast::date::to_date;
use forecast::{run, State};

fn read(record: &str) -> State {
    State::read(&fs::read(record).unwrap()).unwrap()
}

/// Half a second a step: the timestamp moves with the steps, to the millisecond.
#[test]
fn the_timestamp_moves_with_the_steps() {
    let folder = folder("clock");
    let (out, dock) = (format!("{folder}/out"), example("dock.rec"));
    let start = state("dock").timestamp;
    for (options, seconds, milliseconds) in [
        ("--steps 3 --step-ms 500", 1, 500),
        ("--steps 1 --step-ms 1", 0, 1),
        ("--steps 0 --step-ms 500", 0, 0),
        ("--steps 7 --step-ms 333", 2, 331),
        ("--steps 3 --spacing 20000", 1, 500),
        ("--steps 3 --spacing 20000 --step-ms 500", 1, 500),
        ("--until 2026-11-16T06:00:01.500 --step-ms 500", 1, 500),
        ("--until 2026-11-16T06:00:01.500Z --spacing 20000", 1, 500),
        ("--until 2026-11-16T06:00 --step-ms 500", 0, 0),
    ] {
        let line = format!("run @ @ {options}");
        let answer = tool(&words(&line, &[&dock, &out]));
        assert_eq!((answer.status, &answer.notes[..]), (0, ""), "{options}");
        let expected = Timestamp {
            seconds: start.seconds + seconds,
            milliseconds,
        };
        assert_eq!(read(&out).timestamp, expected, "{options}");
    }
    // The record is the one of so many steps, whatever the clock.
    let plain = format!("{folder}/plain");
    tool(&words("run @ @ --steps 3", &[&dock, &plain]));
    let until = ["--until", "2026-11-16 06:00:01.500", "--step-ms", "500"];
    said(&[&["run", &dock, &out][..], &until].concat());
    let (mut clocked, plain) = (read(&out), read(&plain));
    clocked.timestamp = start;
    assert!(clocked == plain);
}

/// Without a clock a note says so; `--quiet` and `--seconds` make it needless.
#[test]
fn a_timestamp_that_stands_still_is_told() {
    let (out, dock) = (format!("{}/out", folder("still")), example("dock.rec"));
    let notes = |line: &str| tool(&words(line, &[&dock, &out])).notes;
    let note = "forecast: note: the timestamp stands still at 2026-11-16 06:00:00; \
                --step-ms MS moves it\n";
    assert_eq!(notes("run @ @ --steps 3"), note);
    assert_eq!(notes("step @ @"), note);
    assert_eq!(notes("run @ @ --steps 3 --quiet"), "");
    assert_eq!(notes("run @ @ --steps 3 --seconds 2"), "");
    assert_eq!(notes("step @ @ --step-ms 500"), "");
    let odd = "forecast: note: the timestamp stands still at 2026-11-16 06:00:00; \
               spacing over spacing-per-step is no whole number of ms\n";
    assert_eq!(notes("run @ @ --steps 3 --spacing 20001"), odd);
    assert_eq!(tool(&["run", &dock, "--steps", "3"]).notes, "");
}

/// Spacing and step may come from the description; they must fit the record.
#[test]
fn lengths_from_a_description() {
    let folder = folder("description");
    let (text, out) = (format!("{folder}/text"), format!("{folder}/out"));
    let dock = example("dock.rec");
    let described = |lines: &str| {
        let old = fs::read_to_string(example("dock.txt")).unwrap();
        let new = old.replace("spacing-per-step 40000 ", &format!("{lines} # "));
        assert_ne!(old, new);
        fs::write(&text, new).unwrap();
        tool(&words(
            "run @ @ --steps 3 --description @",
            &[&dock, &out, &text],
        ))
    };
    assert_eq!(described("spacing 20000\nstep-ms 500").status, 0);
    assert_eq!(read(&out).timestamp.milliseconds, 500);
    let other = described("spacing 20000\nstep-ms 400");
    assert_eq!(other.status, 2);
    let words = "spacing-per-step is 50000 mm/s there and 40000 in the record";
    assert!(other.trouble.contains(words), "{}", other.trouble);
    assert_eq!(described("spacing 20000\nstep-ms 300").status, 2);
    // A description that has neither leaves the clock still.
    let neither = described("spacing-per-step 40000");
    assert!(neither.notes.contains("stands still"), "{}", neither.notes);
}

/// A line every so many steps, at the start and at the end: the numbers are those of
/// the core, step by step.
#[test]
fn the_table_of_gates() {
    let folder = folder("gates");
    let (csv, jetty) = (format!("{folder}/table.csv"), example("jetty.rec"));
    let line = "run @ --steps 25 --step-ms 500 --csv @ --every 10 --gate lock 31 10 \
                --gate west 0 0 --inflow 3 4 2";
    said(&words(line, &[&jetty, &csv]));
    let table = fs::read_to_string(&csv).unwrap();
    let mut state = state("jetty");
    let (w, n) = (state.parameters.w, state.parameters.n);
    let mut inflow = vec![0; w * n];
    inflow[4 * w + 3] = 2;
    let mut expected = "step,time_utc,total_depth_mm,lock_level_mm,lock_east_mm_s,\
                        lock_north_mm_s,west_level_mm,west_east_mm_s,west_north_mm_s\n"
        .to_owned();
    for step in 0..=25 {
        if step % 10 == 0 || step == 25 {
            let (second, ms) = (step / 2, 500 * (step % 2));
            let total = state.total_depth().unwrap();
            expected += &format!("{step},2026-11-16 06:00:{second:02}.{ms:03},{total}");
            for (i, j) in [(31, 10), (0, 0)] {
                let at = |i: usize, j: usize| (j % n) * w + i % w;
                let here = at(i, j);
                let east = state.u[here] + state.u[at(i + 1, j)];
                let north = state.v[here] + state.v[at(i, j + 1)];
                expected += &format!(",{}", state.h[here] + state.b[here]);
                expected += &format!(",{:.1},{:.1}", east as f64 / 2.0, north as f64 / 2.0);
            }
            expected.push('\n');
        }
        let _ = run::step(&mut state, &inflow).unwrap();
    }
    assert_eq!(table, expected);
}

/// Without a clock the column of times is empty; without gates total depth is told;
/// names are quoted as CSV has it.
#[test]
fn other_forms_of_the_table() {
    let csv = format!("{}/table.csv", folder("forms"));
    let dock = example("dock.rec");
    said(&words("run @ --steps 2 --csv @", &[&dock, &csv]));
    let table = fs::read_to_string(&csv).unwrap();
    let total = 6_289_500;
    let lines = format!("step,time_utc,total_depth_mm\n0,,{total}\n1,,{total}\n2,,{total}\n");
    assert_eq!(table, lines);
    said(&[
        "run", &dock, "--steps", "0", "--csv", &csv, "--gate", "a, \"b\"", "0", "0",
    ]);
    let head = fs::read_to_string(&csv).unwrap();
    assert!(head.contains(",\"a, \"\"b\"\"_level_mm\","), "{head}");
    assert_eq!(head.lines().count(), 2);
}

/// A run that 6 stops has its table and says why; the record is written for `--keep`
/// alone, with the time of the stop.
#[test]
fn what_a_stopped_run_leaves() {
    let folder = folder("kept");
    let (out, csv) = (format!("{folder}/out"), format!("{folder}/csv"));
    let cell = example("one_cell.rec");
    fs::write(&out, "old").unwrap();
    let line = "run @ @ --steps 20000 --inflow 0 0 1000 --step-ms 500 --csv @ --every 50";
    let stopped = tool(&words(line, &[&cell, &out, &csv]));
    assert_eq!(
        (stopped.status, fs::read(&out).unwrap()),
        (1, b"old".to_vec())
    );
    assert!(stopped
        .out
        .contains("\nstopped after 98 steps: refused 6: "));
    let steps = fs::read_to_string(&csv).unwrap();
    let steps: Vec<&str> = steps
        .lines()
        .map(|line| line.split(',').next().unwrap())
        .collect();
    assert_eq!(steps, ["step", "0", "50", "98"]);

    let note = format!(
        "forecast: note: {out} was not written; --keep writes the state that a stop leaves\n"
    );
    assert_eq!(stopped.notes, note);
    let kept = tool(&words(&format!("{line} --keep"), &[&cell, &out, &csv]));
    assert_eq!(kept.notes, "");
    assert_eq!((kept.status, kept.out), (1, stopped.out));
    let left = read(&out);
    assert_eq!(left.h, [100_000]);
    let start = state("one_cell").timestamp;
    assert_eq!(left.timestamp.seconds, start.seconds + 49);
}

/// The rivers of a file against single steps: whole entries, fractions that are
/// carried, litres a second, changes of flow, and a flow that began before the run.
#[test]
fn rivers_step_by_step() {
    let folder = folder("rivers");
    let (file, out) = (format!("{folder}/rivers"), format!("{folder}/out"));
    fs::write(
        &file,
        "# a river and a sluice\nspacing 20000\n\n\
         2026-11-16 05:59:00 0 5 0.3 mm\n\
         2026-11-16 06:00:10 0 5 300 l/s   # 0.375 mm a step\n\
         2026-11-16 06:00:20.250 0 5 0 mm\n\
         step 15 31 10 -2.5 mm\nstep 40 31 10 7 mm\n",
    )
    .unwrap();
    let dock = example("dock.rec");
    let line = "run @ @ --steps 60 --step-ms 500 --rivers @ --inflow 0 5 1";
    let told = said(&words(line, &[&dock, &out, &file]));
    let mut state = state("dock");
    // Thousandths of a millimetre with step k, and what entered by then: exact sums,
    // rounded to the nearest, halves up.
    let flow = |k: i64| match k {
        ..20 => 300,
        20..41 => 375,
        _ => 0,
    };
    let sluice = |k: i64| match k {
        ..15 => 0,
        15..40 => -2_500,
        _ => 7_000,
    };
    let sum = |flow: &dyn Fn(i64) -> i64, from: i64, to: i64| (from..to).map(flow).sum::<i64>();
    let rounded = |thousandths: i64| (thousandths + 500).div_euclid(1_000);
    let entered = |k: i64| rounded(sum(&flow, -120, k)) - rounded(sum(&flow, -120, 0));
    let left = |k: i64| rounded(sum(&sluice, 0, k));
    for k in 0..60 {
        let mut inflow = vec![0; state.h.len()];
        inflow[5 * 32] = 1 + entered(k + 1) - entered(k);
        inflow[10 * 32 + 31] = left(k + 1) - left(k);
        let _ = run::step(&mut state, &inflow).unwrap();
    }
    let all = 60 + entered(60) + left(60);
    assert!(told.contains(&format!("\nentered {all} mm\n")), "{told}");
    state.timestamp.seconds += 30;
    assert!(read(&out) == state);
}

/// Two runs one after the other are one run, to the byte, wherever the first one
/// ends: what is over goes by the times of the rivers, not by the start of a run.
#[test]
fn two_runs_enter_what_one_does() {
    let folder = folder("two_runs");
    let (file, whole) = (format!("{folder}/rivers"), format!("{folder}/whole"));
    let (first, second) = (format!("{folder}/first"), format!("{folder}/second"));
    let dock = example("dock.rec");
    fs::write(
        &file,
        "step-ms 500\n2026-11-16 06:00:00 0 5 0.377 mm\n2026-11-16 06:00:30 0 5 1234.567 l/s\n\
         2026-11-16 06:00:07.100 31 10 -0.9 mm\n",
    )
    .unwrap();
    let line = "run @ @ --steps 100 --rivers @";
    said(&words(line, &[&dock, &whole, &file]));
    for steps in [1, 13, 14, 15, 59, 60, 61, 99] {
        let line = format!("run @ @ --steps {steps} --rivers @");
        said(&words(&line, &[&dock, &first, &file]));
        let line = format!("run @ @ --steps {} --rivers @", 100 - steps);
        said(&words(&line, &[&first, &second, &file]));
        assert!(
            fs::read(&whole).unwrap() == fs::read(&second).unwrap(),
            "{steps}"
        );
    }
}

/// Of two lines that begin with one step, the one of the later moment is in force,
/// wherever it stands in the file, and a step's own is the latest; what it replaces is
/// not tested.
#[test]
fn two_changes_with_one_step() {
    let file = format!("{}/rivers", folder("one_step"));
    let dock = example("dock.rec");
    let early = "2026-11-16 06:00:00.100 0 5 1 mm\n";
    let late = "2026-11-16T06:00:00.200Z 0 5 2 mm\n";
    let (before, own) = ("2026-11-16 05:59:59.900 0 5 5000 mm\n", "step 0 0 5 0 mm\n");
    for (text, entered) in [
        (format!("{early}{late}"), 20),
        (format!("{late}{early}"), 20),
        (format!("{late}{before}{own}{early}"), 20),
        (format!("step 1 0 5 3 mm\n{late}{early}"), 30),
    ] {
        fs::write(&file, &text).unwrap();
        let line = "run @ --steps 11 --step-ms 500 --rivers @";
        let told = said(&words(line, &[&dock, &file]));
        assert!(
            told.contains(&format!("\nentered {entered} mm\n")),
            "{text}{told}"
        );
    }
}

/// A river is no reason to count all steps before the first: the run stops where the
/// cell is full.
#[test]
fn a_river_and_more_steps_than_there_is_time_for() {
    let file = format!("{}/rivers", folder("endless"));
    fs::write(&file, "step 0 0 0 1 mm\n").unwrap();
    let line = format!("run @ --steps {} --rivers @", u64::MAX);
    let stopped = tool(&words(&line, &[&example("one_cell.rec"), &file]));
    assert_eq!(stopped.status, 1);
    assert!(stopped
        .out
        .contains("\nstopped after 98000 steps: refused 6: "));
}

/// A year of a river, a line each ten minutes.
#[test]
fn a_long_file_of_rivers() {
    let file = format!("{}/rivers", folder("year"));
    let line = |k: u64| {
        let time = Timestamp {
            seconds: state("dock").timestamp.seconds + 600 * k,
            milliseconds: 0,
        };
        format!("{} 0 5 {}.5 l/s\n", to_date(time), 100 + k % 100)
    };
    let start: String = (0..52_560).map(line).collect();
    fs::write(&file, format!("spacing 20000\n{start}")).unwrap();
    let line = "run @ --steps 2400 --rivers @";
    let told = said(&words(line, &[&example("dock.rec"), &file]));
    // 1,200 steps of 100.5 l/s and as many of 101.5, 1/800 mm a step of each l/s.
    assert!(told.contains("\nentered 303 mm\n"), "{told}");
    fs::write(&file, vec![b'#'; 1 << 24]).unwrap();
    let long = tool(&words(line, &[&example("dock.rec"), &file]));
    assert!(long.trouble.contains("too long for a file of rivers"));
    // One without an end is not read to it.
    let endless = tool(&words(line, &[&example("dock.rec"), "/dev/zero"]));
    assert_eq!(endless.status, 2);
}

/// A table cuts a run into parts; it is the same run.
#[test]
fn looking_changes_nothing() {
    let folder = folder("looking");
    let (file, csv) = (format!("{folder}/rivers"), format!("{folder}/csv"));
    let (plain, looked) = (format!("{folder}/plain"), format!("{folder}/looked"));
    let dock = example("dock.rec");
    fs::write(&file, "step 0 0 5 0.3 mm\nstep 33 0 5 -1.7 mm\n").unwrap();
    let line = "run @ @ --steps 100 --seconds 1 --rivers @";
    said(&words(line, &[&dock, &plain, &file]));
    let mut random = Random::new(19);
    for _ in 0..8 {
        let every = 1 + random.below(120);
        let line = format!("{line} --csv @ --every {every} --gate a 1 1");
        said(&words(&line, &[&dock, &looked, &file, &csv]));
        assert!(
            fs::read(&plain).unwrap() == fs::read(&looked).unwrap(),
            "{every}"
        );
        let lines = fs::read_to_string(&csv).unwrap().lines().count();
        assert_eq!(lines, 2 + 100usize.div_ceil(every));
    }
}

#[test]
fn faults_of_a_file_of_rivers() {
    let file = format!("{}/rivers", folder("river_faults"));
    let dock = example("dock.rec");
    for (text, line, words) in [
        ("step 0 0 5", 1, "a line is a time or `step N`"),
        ("\n\nstpe 0 0 5", 3, "did you mean step?"),
        ("stpe 0 0 5 1 mm", 1, "did you mean step?"),
        ("step 0 0 5 1mm", 1, "as step 7200 0 5 1.5 mm"),
        (
            "step 0 32 5 1 mm",
            1,
            "column 32 is outside the grid, 0 to 31",
        ),
        ("step 0 0 20 1 mm", 1, "row 20 is outside the grid, 0 to 19"),
        ("step -1 0 5 1 mm", 1, "no whole number"),
        ("step 0 0 5 1 m", 1, "`m` is no unit"),
        ("step 0 0 5 1,5 mm", 1, "`1,5` is no flow"),
        ("step 0 0 5 0.0001 mm", 1, "`0.0001` is no flow"),
        ("step 0 0 5 1000001 mm", 1, "is no flow"),
        ("2026-02-30 06:00 0 5 1 mm", 1, "from 2000 on"),
        ("2026-11-16 06:00:00.5 0 5 1 mm", 1, "is no time"),
        (
            "2026-11-16 06:00 0 5 1 mm",
            1,
            "a time needs the length of a step",
        ),
        ("step 0 0 5 1 l/s", 1, "l/s need the spacing"),
        (
            "step 0 0 5 1 mm\nstep 0 0 5 2 mm",
            2,
            "line 1 says what flows there then",
        ),
        ("spacing 0", 1, "above 0"),
        ("spacing 20000\nspacing 20000", 2, "given twice"),
        ("step-ms 1 2", 1, "takes one number"),
        ("step 0 0 5 1 mm\n\u{e4}", 2, "a line is"),
    ] {
        fs::write(&file, text).unwrap();
        let answer = tool(&["run", &dock, "--steps", "3", "--rivers", &file]);
        let start = format!("{file}:{line}: ");
        assert_eq!((answer.status, &answer.out[..]), (2, ""), "{text}");
        assert!(
            answer.trouble.starts_with(&start),
            "{text}: {}",
            answer.trouble
        );
        assert!(answer.trouble.contains(words), "{text}: {}", answer.trouble);
    }
    // What does not fit together, or the core.
    for (text, status, words) in [
        ("spacing 20001", 2, "is not the spacing-per-step"),
        (
            "step-ms 400",
            2,
            "the length of a step is given as 500 and as 400",
        ),
        (
            "step 0 0 5 1000.5 mm",
            1,
            "refused 4: inflow at cell 0 5 is 1001, outside",
        ),
        (
            "step 2 0 5 -1000.5 mm",
            1,
            "refused 4: inflow at cell 0 5 is -1001, outside",
        ),
    ] {
        fs::write(&file, text).unwrap();
        let line = "run @ --steps 3 --step-ms 500 --rivers @";
        let answer = tool(&crate::common::words(line, &[&dock, &file]));
        let told = format!("{}{}", answer.out, answer.trouble);
        assert!(
            answer.status == status && told.contains(words),
            "{text}: {told}"
        );
    }
    // A flow that begins after the run is none of its business.
    fs::write(&file, "step 3 0 5 1000.5 mm").unwrap();
    said(&["run", &dock, "--steps", "3", "--rivers", &file]);
    let missing = tool(&["run", &dock, "--steps", "3", "--rivers", "none"]);
    assert_eq!(missing.status, 2);
    fs::write(&file, b"step 0 0 5 1 mm\n\xff").unwrap();
    let bytes = tool(&["run", &dock, "--steps", "3", "--rivers", &file]);
    assert!(bytes.trouble.contains(":2: not text"), "{}", bytes.trouble);
}
