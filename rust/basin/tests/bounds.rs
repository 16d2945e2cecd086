//! The bounds that the package names, for words, are those that the core tests.

use basin::{read, run, tendencies, total_depth, write};
use basin::{Field, Parameters, Refusal, Timestamp, LONGEST_RUN};
use std::ops::RangeInclusive;

/// One cell that every call takes.
const P: Parameters = Parameters {
    w: 1,
    n: 1,
    kind: 0,
    g: 9_810,
    c: 0,
    r: 40_000,
};

/// The last number on each side that is taken, and the first that is not.
fn ends(bounds: RangeInclusive<i64>) -> [(i64, bool); 4] {
    let (least, most) = (*bounds.start(), *bounds.end());
    [
        (least, true),
        (most, true),
        (least - 1, false),
        (most + 1, false),
    ]
}

const FIELDS: [Field; 7] = [
    Field::Depth,
    Field::Bottom,
    Field::VelocityU,
    Field::VelocityV,
    Field::Vorticity,
    Field::Inflow,
    Field::Barriers,
];

/// What a call says of one number in a field of one cell, where all else is good.
fn with(field: Field, x: i64) -> Result<(), Refusal> {
    let [mut h, b, mut u, mut v, q, s, z] = FIELDS.map(|one| match one == field {
        true => [x],
        false => [*one.bounds().start().max(&0)],
    });
    let barriers = [z[0] as u8];
    if field == Field::Inflow {
        let mut work = [0; 8];
        let ran = run(&P, &mut h, &b, &mut u, &mut v, &barriers, &s, 0, &mut work);
        return ran.map(|_| ());
    }
    let (mut dh, mut du, mut dv) = ([0], [0], [0]);
    tendencies(&P, &h, &b, &u, &v, &barriers, &q, &mut dh, &mut du, &mut dv)
}

#[test]
fn the_bounds_of_each_field() {
    for field in FIELDS {
        for (x, taken) in ends(field.bounds()) {
            let refused = Err(Refusal::Value { field, cell: 0 });
            // A barrier closes the edges, which are at rest. A byte has no -1: it
            // is 255 there, which is refused as well.
            let expected = if taken { Ok(()) } else { refused };
            assert_eq!(with(field, x), expected, "{field} {x}");
        }
    }
}

#[test]
fn the_bounds_of_the_scalars() {
    let told = |p: &Parameters| {
        let cells = (p.w * p.n).min(4_096);
        let (h, zeros, open) = (vec![1_000; cells], vec![0; cells], vec![0; cells]);
        total_depth(p, &h, &zeros, &zeros, &zeros, &open).map(|_| ())
    };
    let expected = |taken: bool, refusal| if taken { Ok(()) } else { Err(refusal) };
    for (x, taken) in ends(Parameters::GRAVITY) {
        assert_eq!(
            told(&Parameters { g: x, ..P }),
            expected(taken, Refusal::Constants)
        );
    }
    for (x, taken) in ends(Parameters::CORIOLIS) {
        assert_eq!(
            told(&Parameters { c: x, ..P }),
            expected(taken, Refusal::Constants)
        );
    }
    for (x, taken) in ends(Parameters::RATIO) {
        assert_eq!(
            told(&Parameters { r: x, ..P }),
            expected(taken, Refusal::Constants)
        );
    }
    let (least, most) = (*Parameters::SIDE.start(), *Parameters::SIDE.end());
    for (x, taken) in [
        (least, true),
        (most, true),
        (least - 1, false),
        (most + 1, false),
    ] {
        assert_eq!(
            told(&Parameters { w: x, ..P }),
            expected(taken, Refusal::Grid)
        );
        assert_eq!(
            told(&Parameters { n: x, ..P }),
            expected(taken, Refusal::Grid)
        );
    }
    let last = *Parameters::KIND.end();
    for kind in 0..=u8::MAX {
        let expected = expected(kind <= last, Refusal::Grid);
        assert_eq!(told(&Parameters { kind, ..P }), expected, "{kind}");
    }
}

#[test]
fn the_longest_run_and_the_last_millisecond() {
    let (mut h, mut u, mut v, mut work) = ([2_000], [0], [0], [0; 8]);
    let mut steps = |steps| {
        run(
            &P,
            &mut h,
            &[0],
            &mut u,
            &mut v,
            &[0],
            &[0],
            steps,
            &mut work,
        )
    };
    assert_eq!(steps(LONGEST_RUN).map(|ran| ran.steps), Ok(LONGEST_RUN));
    assert_eq!(steps(LONGEST_RUN + 1), Err(Refusal::Grid));
    let mut record = vec![0; P.record_len()];
    for (milliseconds, taken) in [(999, true), (1_000, false)] {
        let at = Timestamp {
            seconds: 0,
            milliseconds,
        };
        let written = write(&P, &[2_000], &[0], &[0], &[0], &[0], at, &mut record);
        assert_eq!(written.is_ok(), taken);
    }
    let [mut h, mut b, mut u, mut v] = [[0]; 4];
    assert!(read(&record, &mut h, &mut b, &mut u, &mut v, &mut [0]).is_ok());
}
