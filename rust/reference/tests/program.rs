//! The step program, as a function and as a program.

use std::io::Write;
use std::process::{Command, Stdio};

use crate::common::literal::PAPER;
use crate::common::{
    at_rest, milliseconds_field, moment, random_state, random_timestamp, record_of,
};
use crate::common::{one_cell, record_of_01, record_of_length, Random, Spread};
use reference::{step_program, Parameters, State};

/// Runs the program itself.
fn run_binary(input: &[u8]) -> String {
    let mut child = Command::new(env!("CARGO_BIN_EXE_step"))
        .stdin(Stdio::piped())
        .stdout(Stdio::piped())
        .spawn()
        .expect("the program starts");
    let mut stdin = child.stdin.take().expect("it has an input");
    // It may stop reading at its limit, and then the rest is not wanted.
    let _ = stdin.write_all(input);
    drop(stdin);
    let output = child.wait_with_output().expect("it ends");
    assert!(output.status.success(), "{output:?}");
    String::from_utf8(output.stdout).expect("it prints text")
}

/// Function and program print this.
fn assert_prints(input: &[u8], text: &str) {
    assert_eq!(step_program(input), text);
    assert_eq!(run_binary(input), text);
}

#[test]
fn worked_example_10() {
    let input = [
        0x01, 0x00, 0x03, 0x01, 0x01, 0x00, 0x02, 0x00, 0x0C, 0x00, 0x00, 0x26, 0x52, 0x00, 0x00,
        0x00, 0x0A, 0x00, 0x00, 0x03, 0xE8, 0x03, 0x00, 0x08, 0x00, 0x00, 0x00, 0x00, 0x00, 0x00,
        0x00, 0x00, 0x04, 0x00, 0x04, 0x00, 0x00, 0x07, 0xD0, 0x05, 0x00, 0x04, 0x00, 0x00, 0x00,
        0x00, 0x06, 0x00, 0x02, 0x00, 0x64, 0x07, 0x00, 0x02, 0xFF, 0xCE,
    ];
    assert_eq!(record_of_01(&one_cell(), 0), input);
    let text = "total 2000\n0 0 2000 99 -51\n";
    assert_prints(&input, text);
    // With tag 8, wherever it stands.
    assert_prints(&record_of(&one_cell(), 0), text);
    assert_prints(&[milliseconds_field(250), input.to_vec()].concat(), text);
}

#[test]
fn cells_are_printed_in_index_order() {
    let mut random = Random::new(200);
    let mut printed = 0;
    for case in 0..200 {
        let size = (1 + random.below(5), 1 + random.below(5));
        let kind = random.below(3) as u8;
        let state = random_state(&mut random, Spread::Calm, size, kind);
        let w = state.parameters.w;
        let expected = match PAPER.step(&state, &vec![0; state.h.len()]) {
            Ok(after) => {
                printed += 1;
                let mut text = format!("total {}\n", after.h.iter().sum::<i64>());
                for j in 0..state.parameters.n {
                    for i in 0..w {
                        let k = j * w + i;
                        let (h, u, v) = (after.h[k], after.u[k], after.v[k]);
                        text += &format!("{i} {j} {h} {u} {v}\n");
                    }
                }
                text
            }
            Err(_) => "refused 6\n".to_string(),
        };
        let input = record_of(&state, random_timestamp(&mut random));
        assert_eq!(step_program(&input), expected, "{state:?}");
        if case < 5 {
            assert_eq!(run_binary(&input), expected, "{state:?}");
        }
    }
    assert!(printed > 150, "{printed}");
}

#[test]
fn every_refusal_is_printed() {
    let refused = |number: u8, change: fn(&mut State)| {
        let mut state = one_cell();
        change(&mut state);
        assert_prints(&record_of(&state, 1), &format!("refused {number}\n"));
    };
    refused(1, |s| s.parameters.w = 0);
    refused(1, |s| s.parameters.n = 65);
    refused(1, |s| s.parameters.kind = 3);
    refused(2, |s| s.b.push(0));
    refused(3, |s| s.parameters.g = 0);
    refused(4, |s| s.h[0] = 999);
    refused(5, |s| s.parameters.kind = 2);
    refused(6, |s| {
        *s = State {
            parameters: Parameters {
                w: 2,
                ..s.parameters
            },
            h: vec![1_000, 100_000],
            b: vec![0; 2],
            u: vec![0; 2],
            v: vec![0; 2],
            barriers: vec![0; 2],
        }
    });
    assert_prints(&[], "refused 7\n");
    assert_prints(&record_of(&one_cell(), 1)[..55], "refused 7\n");
    let mut late = one_cell();
    late.h[0] = 999;
    assert_prints(&record_of(&late, moment(1, 1_000)), "refused 9\n");
}

#[test]
fn more_than_1_024_cells_are_an_8() {
    for (w, n) in [(32, 32), (64, 16), (16, 64)] {
        let text = step_program(&record_of(&at_rest(w, n), 1));
        assert!(text.starts_with("total 5120000\n0 0 5000 0 0\n"), "{w} {n}");
        assert_eq!(text.lines().count(), 1_025);
        let last = format!("{} {} 5000 0 0", w - 1, n - 1);
        assert_eq!(text.lines().last(), Some(&*last));
    }
    for (w, n) in [(25, 41), (33, 32), (64, 17), (64, 64)] {
        assert_prints(&record_of(&at_rest(w, n), 1), "refused 8\n");
    }
    // 8 comes before 3, 4 and 5, and after 7, 1 and 2.
    let mut state = at_rest(33, 32);
    state.parameters.g = 0;
    state.h[0] = 0;
    assert_prints(&record_of(&state, 1), "refused 8\n");
    state.h.pop();
    assert_prints(&record_of(&state, 1), "refused 2\n");
    state.parameters.kind = 3;
    assert_prints(&record_of(&state, 1), "refused 1\n");
}

#[test]
fn an_input_of_65_536_bytes_or_more_is_a_7() {
    assert_prints(&record_of_length(65_535, 0), "refused 2\n");
    assert_prints(&record_of_length(65_536, 0), "refused 7\n");
    assert_prints(&record_of_length(65_535, 3), "refused 1\n");
    assert_prints(&record_of_length(65_536, 3), "refused 7\n");
    assert_prints(&record_of_length(65_537, 0), "refused 7\n");
    assert_prints(&vec![0; 1 << 20], "refused 7\n");
}
