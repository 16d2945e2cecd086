//! Steps and runs of the tool against the core's own step, and what is told.

use std::fs;

use crate::common::{call, example, folder, said, state, tool, words};
use basin::{Ran, Timestamp};
use forecast::{run, State};

/// A single step of the core.
fn one_step(state: &mut State, inflow: &[i64]) {
    let p = state.parameters;
    let mut work = vec![0; p.work_len()];
    let (h, u, v) = (&mut state.h, &mut state.u, &mut state.v);
    let (b, barriers) = (&state.b, &state.barriers);
    basin::step(&p, h, b, u, v, barriers, inflow, &mut work).unwrap();
}

#[test]
fn parts_of_any_length_are_single_steps() {
    for start in ["dock", "jetty"].map(state) {
        let mut inflow = vec![0; start.h.len()];
        (inflow[5], inflow[300]) = (3, -2);
        let mut stepped = start.clone();
        for _ in 0..60 {
            one_step(&mut stepped, &inflow);
        }
        assert!(stepped.barriers == start.barriers && stepped.h != start.h);
        for part in [0, 1, 7, 60, u64::MAX] {
            let mut state = start.clone();
            let mut last = 0;
            let ran = run::run(&mut state, &inflow, 60, part, |done| last = done).unwrap();
            let all = Ran {
                steps: 60,
                stopped: None,
            };
            assert_eq!((ran, last), (all, 60), "parts of {part}");
            assert!(state == stepped, "parts of {part}");
        }
    }
}

#[test]
fn more_steps_than_one_call_takes() {
    let record = example("one_cell.rec");
    let text = said(&["run", &record, "--steps", "25000"]);
    assert!(text.ends_with("\nsteps done 25000\n"), "{text}");
}

#[test]
fn a_step_is_a_run_of_one() {
    let folder = folder("one");
    let (stepped, run) = (format!("{folder}/stepped"), format!("{folder}/run"));
    let dock = example("dock.rec");
    let told = said(&words("step @ @ --inflow 3 2 50", &[&dock, &stepped]));
    let line = "run @ @ --steps 1 --inflow 3 2 50";
    assert_eq!(told, said(&words(line, &[&dock, &run])));
    assert_eq!(said(&["compare", &stepped, &run]), "same\n");
    assert!(told.ends_with("steps done 1\n"), "{told}");
}

#[test]
fn total_depth_goes_up_by_the_inflow_exactly() {
    let total = state("dock").total_depth().unwrap();
    let inflow = "--inflow 3 2 7 --inflow 3 2 1 --inflow 31 19 -3";
    let line = format!("run @ --steps 300 {inflow}");
    let text = said(&words(&line, &[&example("dock.rec")]));
    let after = total + 300 * (7 + 1 - 3);
    assert_eq!(
        text,
        format!(
            "total depth before {total} mm\nentered 1500 mm\ntotal depth after {after} mm\n\
             steps done 300\n"
        )
    );
}

#[test]
fn the_record_left_has_its_timestamp() {
    let folder = folder("stamp");
    let (same, later) = (format!("{folder}/same"), format!("{folder}/later one"));
    let dock = example("dock.rec");
    said(&["run", &dock, "--steps", "10", &same]);
    said(&["run", &dock, "--steps", "10", "--seconds", "5", &later]);
    assert_eq!(said(&["compare", &dock, &same]), "clash\n");
    assert_eq!(said(&["compare", &dock, &later]), "second newer\n");
    let seconds = u64::MAX.to_string();
    let full = tool(&["step", &dock, &same, "--seconds", &seconds]);
    assert_eq!(full.status, 2);
    assert_eq!(timestamp_in(&later), after_the_dock(5, 0));
}

fn timestamp_in(record: &str) -> Timestamp {
    State::read(&fs::read(record).unwrap()).unwrap().timestamp
}

/// So much after the timestamp of the dock, which is a whole second.
fn after_the_dock(seconds: u64, milliseconds: u64) -> Timestamp {
    Timestamp {
        seconds: state("dock").timestamp.seconds + seconds,
        milliseconds,
    }
}

/// Half a second, and then three quarters: a second and a quarter.
#[test]
fn milliseconds_are_added_and_full_seconds_carried() {
    let folder = folder("carry");
    let (half, sum) = (format!("{folder}/half"), format!("{folder}/sum"));
    let dock = example("dock.rec");
    said(&words("step @ @ --seconds 0.500", &[&dock, &half]));
    assert_eq!(timestamp_in(&half), after_the_dock(0, 500));
    said(&words("step @ @ --seconds 0.750", &[&half, &sum]));
    assert_eq!(timestamp_in(&sum), after_the_dock(1, 250));
    assert_eq!(said(&["compare", &half, &sum]), "second newer\n");
    let shown = said(&["show", &sum]);
    assert!(
        shown.contains("\ntimestamp 2026-11-16 06:00:01.250\n"),
        "{shown}"
    );

    // Up to the last millisecond, and no further.
    let seconds = u64::MAX - timestamp_in(&half).seconds;
    let add = |by: String| tool(&["step", &half, &sum, "--seconds", &by]);
    assert_eq!(add(format!("{seconds}.499")).status, 0);
    let full = add(format!("{seconds}.500"));
    let words = "forecast: a timestamp has no room for so long a time\n";
    assert_eq!((full.status, full.trouble.starts_with(words)), (2, true));
    let last = timestamp_in(&sum);
    assert_eq!((last.seconds, last.milliseconds), (u64::MAX, 999));
}

/// A metre a step into a cell that is 2 m deep: it is full after 98 steps. The
/// run stops there, and no record is left.
#[test]
fn a_run_that_is_stopped() {
    let out = format!("{}/record", folder("stopped"));
    let cell = example("one_cell.rec");
    let stopped = tool(&words(
        "run @ @ --steps 20000 --inflow 0 0 1000",
        &[&cell, &out],
    ));
    assert_eq!((stopped.status, fs::exists(&out).unwrap()), (1, false));
    let totals = "total depth before 2000 mm\nentered 98000 mm\ntotal depth after 100000 mm\n";
    let why = "refused 6: pass 1 takes depth at cell 0 0, now 100000, out of 1,000 to 100,000 mm";
    let end = format!("stopped after 98 steps: {why}\n");
    assert_eq!(stopped.out, format!("{totals}{end}"));
    // So many steps go.
    let line = "run @ --steps 98 --inflow 0 0 1000";
    assert_eq!(
        said(&words(line, &[&cell])),
        format!("{totals}steps done 98\n")
    );
    // Nor does one step go in a cell that is full.
    let (full, line) = (
        format!("{out} full"),
        "run @ @ --steps 98 --inflow 0 0 1000",
    );
    said(&words(line, &[&cell, &full]));
    let step = tool(&words("step @ --inflow 0 0 1", &[&full]));
    let end = format!("stopped after 0 steps: {why}\n");
    assert!(step.out.ends_with(&end), "{}", step.out);
}

#[test]
fn an_inflow_that_is_refused_or_outside() {
    let dock = example("dock.rec");
    let refused = tool(&["run", &dock, "--steps", "0", "--inflow", "1", "2", "1001"]);
    let words = "refused 4: inflow at cell 1 2 is 1001, outside -1,000 to 1,000 mm a step\n";
    assert_eq!((refused.status, &refused.out[..]), (1, words));
    let outside = tool(&["step", &dock, "--inflow", "32", "2", "1"]);
    assert_eq!(outside.status, 2);
    assert!(outside
        .trouble
        .contains("cell 32 2 is outside the grid, 32 by 20"));
}

/// A terminal is told in one line that is written over. A file is not, nor is
/// anybody who wants quiet.
#[test]
fn progress_is_for_a_terminal() {
    let dock = example("dock.rec");
    let (_, none) = call(&["run", &dock, "--steps", "0"], &[], true);
    assert_eq!(none, "");
    for steps in ["1", "7", "250", "1000"] {
        let told = |more: &[&str], terminal| {
            let words = [&["run", &dock, "--steps", steps][..], more].concat();
            call(&words, &[], terminal).1
        };
        assert_eq!(told(&[], false), "");
        assert_eq!(told(&["--quiet"], true), "");
        let told = told(&[], true);
        assert_eq!(told.lines().count(), 1, "{steps}");
        assert!(
            told.ends_with(&format!("\rstep {steps} of {steps} \n")),
            "{told:?}"
        );
    }
}
