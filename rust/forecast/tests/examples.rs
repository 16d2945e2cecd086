//! The examples: records and texts belong together, and runs of them go well.

use std::fs;

use crate::common::{example, folder, given, repository, said, state, tool, words, EXAMPLES};

#[test]
fn each_record_is_made_from_its_text() {
    let folder = folder("made");
    for name in EXAMPLES {
        let made = format!("{folder}/{name}");
        assert_eq!(said(&["make", &example(&format!("{name}.txt")), &made]), "");
        let record = fs::read(example(&format!("{name}.rec"))).unwrap();
        assert!(fs::read(made).unwrap() == record, "{name}");
    }
}

#[test]
fn shown_as_text_and_made_again_is_the_same_record() {
    let folder = folder("round_trip");
    for name in EXAMPLES.iter().chain(&["one_cell"]) {
        let record = example(&format!("{name}.rec"));
        let text = said(&["show", "--text", &record]);
        let again = format!("{folder}/{name}");
        let answer = given(text.as_bytes(), &["make", "-", &again]);
        assert_eq!(answer.status, 0, "{}", answer.trouble);
        assert!(
            fs::read(again).unwrap() == fs::read(record).unwrap(),
            "{name}"
        );
    }
}

/// After some steps as well, when no field is even any more.
#[test]
fn a_later_state_goes_round_too() {
    let folder = folder("later");
    let (later, again) = (format!("{folder}/later"), format!("{folder}/again"));
    for name in EXAMPLES {
        let record = example(&format!("{name}.rec"));
        let line = "run @ @ --steps 40 --seconds 77.125";
        said(&words(line, &[&record, &later]));
        let text = said(&["show", "--text", &later]);
        given(text.as_bytes(), &["make", "-", &again]);
        assert_eq!(said(&["compare", &later, &again]), "same\n", "{name}");
        assert_eq!(
            said(&["compare", &record, &again]),
            "second newer\n",
            "{name}"
        );
    }
}

#[test]
fn each_runs_a_thousand_steps_and_keeps_total_depth() {
    for (kind, name) in [(2, "dock"), (1, "channel"), (0, "eddies"), (2, "jetty")] {
        let state = state(name);
        let p = state.parameters;
        assert!(p.kind == kind && p.w * p.n <= 1024, "{name}");
        let total = state.total_depth().unwrap();
        let record = example(&format!("{name}.rec"));
        assert_eq!(
            said(&["run", &record, "--steps", "1000"]),
            format!(
                "total depth before {total} mm\nentered 0 mm\ntotal depth after {total} mm\n\
                 steps done 1000\n"
            )
        );
    }
}

#[test]
fn what_is_shown_of_the_dock() {
    let text = said(&["show", &example("dock.rec")]);
    // Milliseconds of 0 are not shown.
    for line in [
        "grid 32 columns, 20 rows",
        "boundary basin: walls on all sides",
        "timestamp 2026-11-16 06:00:00",
        "total depth 6289500 mm",
        "level 11700 (cell 31 0) to 12300 (cell 0 0) mm",
        "v 0 mm/s everywhere",
        "wave speed over spacing-per-step 0.275 (to be kept below 0.35)",
        "smallest slope that moves still water 3 mm a cell",
        "smallest current that carries water 2 mm/s, where it is deepest",
    ] {
        assert!(text.lines().any(|shown| shown == line), "{line}\n{text}");
    }
    // Nor are barriers where there are none.
    assert!(!text.contains("barrier"), "{text}");
    let jetty = said(&["show", &example("jetty.rec")]);
    let line = "\nbarriers: 24 on west edges, 3 on south edges\n";
    assert!(jetty.ends_with(line), "{jetty}");
}

#[test]
fn a_small_grid_is_shown_cell_by_cell() {
    let text = said(&["show", &example("one_cell.rec")]);
    assert!(
        text.ends_with("v through south edges, mm/s, north first\n -50\n"),
        "{text}"
    );
    assert!(
        text.contains("\nfour times total energy 78530000000\n"),
        "{text}"
    );
    // With a barrier, that too.
    let mut state = state("one_cell");
    (state.u, state.barriers) = (vec![0], vec![1]);
    let text = given(&state.write().unwrap(), &["show", "-"]).out;
    let line = "\nbarriers: 1 on west edges, 0 on south edges\n";
    assert!(text.contains(line), "{text}");
    let table = "barriers, 1 on the west edge, 2 on the south edge, 3 on both, north first\n 1\n";
    assert!(text.ends_with(table), "{text}");
}

/// The tendencies of a cell, which are the core's whole numbers or near them.
#[test]
fn a_cell_is_probed() {
    let record = example("one_cell.rec");
    let one = "cell 0 0, exact: -D -0 Tu -1574400000 Tv -3148800000\n";
    assert_eq!(said(&["show", &record, "--cell", "0", "0"]), one);
    let twice = "show --cell 0 0 @ --cell 0 0";
    assert_eq!(said(&words(twice, &[&record])), one.repeat(2));

    // All of these are deeper somewhere than a narrow grid.
    for name in EXAMPLES {
        let state = state(name);
        let p = &state.parameters;
        let ([h, b, u, v], z) = ([&state.h, &state.b, &state.u, &state.v], &state.barriers);
        let mut q = vec![0; p.corners()];
        let [mut dh, mut du, mut dv] = [(); 3].map(|()| vec![0; h.len()]);
        basin::potential_vorticity(p, h, b, u, v, z, &mut q).unwrap();
        basin::tendencies(p, h, b, u, v, z, &q, &mut dh, &mut du, &mut dv).unwrap();
        for (i, j) in [(0, 0), (p.w - 1, p.n - 1), (p.w / 2, p.n / 3), (1, 1)] {
            let [i_word, j_word] = [i, j].map(|k| k.to_string());
            let record = example(&format!("{name}.rec"));
            let text = said(&["show", &record, "--cell", &i_word, &j_word]);
            let rest = text.strip_prefix(&format!("cell {i} {j}, near: "));
            let words: Vec<&str> = rest.expect(&text).split_whitespace().collect();
            let ["-D", d, "Tu", tu, "Tv", tv] = words[..] else {
                panic!("{text}");
            };
            let cell = j * p.w + i;
            let off = |double: &str, whole: i64| {
                let double: f64 = double.parse().unwrap();
                (double as i64).abs_diff(whole)
            };
            assert_eq!(off(d, dh[cell]), 0, "{text}");
            let far = off(tu, du[cell]).max(off(tv, dv[cell]));
            assert!(far <= 64, "{text}");
        }
    }
}

/// What a step can do is told by the deepest cell, at both sides of the bound.
#[test]
fn what_a_step_can_do() {
    let line = |g: i64, h: i64, r: i64| {
        let mut state = state("one_cell");
        (state.parameters.g, state.parameters.r) = (g, r);
        state.h = vec![h];
        let text = given(&state.write().unwrap(), &["show", "-"]).out;
        let lines = text
            .lines()
            .filter(|line| line.starts_with("wave") || line.starts_with("sm"));
        lines.map(str::to_owned).collect::<Vec<_>>()
    };
    let kept = "to be kept below 0.35";
    let above = "above 0.35, where refusal 6 may stop a run";
    for (g, h, r, wave, slope, current) in [
        // √(10,000·1,000) = 3,162.3 mm/s over R
        (10_000, 1_000, 10_000, format!("0.317 ({kept})"), 1, 5),
        (10_000, 1_000, 9_061, format!("0.349 ({kept})"), 1, 5),
        (10_000, 1_000, 9_060, format!("0.350 ({kept})"), 1, 5),
        (10_000, 1_000, 9_036, format!("0.350 ({kept})"), 1, 5),
        (10_000, 1_000, 9_035, format!("0.351 ({above})"), 1, 5),
        (10_000, 100_000, 1_000, format!("31.623 ({above})"), 1, 1),
        (1, 1_000, 1_000_000, format!("0.001 ({kept})"), 500_000, 500),
        (9_810, 12_300, 40_000, format!("0.275 ({kept})"), 3, 2),
    ] {
        let expected = [
            format!("wave speed over spacing-per-step {wave}"),
            format!("smallest slope that moves still water {slope} mm a cell"),
            format!("smallest current that carries water {current} mm/s, where it is deepest"),
        ];
        assert_eq!(line(g, h, r), expected);
    }
}

/// The pictures that the pages show are those that the tool draws today.
#[test]
fn the_pictures_of_the_dock_and_the_jetty() {
    for (name, line, picture) in [
        ("dock", "draw @ @ --steps 265", "docs/dock.svg"),
        (
            "jetty",
            "draw @ @ --steps 440 --every 110",
            "examples/jetty.svg",
        ),
    ] {
        let folder = folder(&format!("picture_of_{name}"));
        let record = example(&format!("{name}.rec"));
        said(&words(line, &[&record, &folder]));
        let drawn = fs::read(format!("{folder}/series.svg")).unwrap();
        let shown = fs::read(repository(picture)).unwrap();
        assert!(shown == drawn, "{picture} is not {folder}/series.svg");
    }
}

#[test]
fn a_refused_record_is_told_by_number() {
    let record = fs::read(example("dock.rec")).unwrap();
    let answer = given(&record[..record.len() - 1], &["show", "-"]);
    assert_eq!(answer.status, 1);
    // The last field, of the barriers, has a byte for each of 640 cells.
    let offset = record.len() - 3 - 640;
    let why = "the value of tag 9 has 640 bytes, and 639 are left";
    let words = format!("refused 7: the record is damaged at byte {offset}: {why}\n");
    assert_eq!(answer.out, words);
    // A text in the place of a record.
    let text = tool(&["show", &example("dock.txt")]);
    let words = "refused 7: the record is damaged at byte 0: \
                 this is a text; make writes the record of a description\n";
    assert_eq!((text.status, &text.out[..]), (1, words));
    let missing = tool(&["show", &example("no such record")]);
    assert_eq!((missing.status, &missing.out[..]), (2, ""));
}
