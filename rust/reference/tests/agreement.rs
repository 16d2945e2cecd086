//! The numbers that the model is held to are those of this version: the rows
//! of `crates/model_agreement/specs/Agreement.antt`, which the checker computes from
//! the model's definitions, are worked out here anew and compared as text.

use crate::common::{record_field, record_fields, record_of};
use reference::{
    energy_rate, enstrophy_rate, potential_vorticity, probe_grid, run, step, step_program,
    tendencies, total_energy, FillAnswer, Parameters, RunAnswer, State, StepAnswer, TotalAnswer,
};

/// A list of numbers as antt writes it.
fn list(numbers: &[i64]) -> String {
    let mut text = String::from("(");
    for &x in numbers {
        let sign = if x < 0 { "minus" } else { "pos" };
        text += &format!("{sign} {} ∷ ", x.unsigned_abs());
    }
    text + "[])"
}

/// The bits of doubles, as antt writes them.
fn bits(doubles: &[f64]) -> String {
    let bits = doubles.iter().map(|x| format!("{} ∷ ", x.to_bits()));
    format!("({}[])", bits.collect::<String>())
}

/// The state `nine kind west south` of Agreement.antt, its `inflow` and the
/// vorticities that are lent with it, which go by corners.
struct Nine {
    name: &'static str,
    p: Parameters,
    h: [i64; 9],
    b: [i64; 9],
    u: [i64; 9],
    v: [i64; 9],
}

const RAIN: [i64; 9] = [1, -2, 3, -4, 5, -6, 7, -8, 9];
const LENT: [i64; 16] = [
    1000, -2000, 3000, -4000, 5000, -6000, 7000, -8000, 9000, -10000, 11000, -12000, 13000, -14000,
    15000, -16000,
];
/// The vorticity lent with the state `wide`.
const WIDE: [i64; 9] = [
    2000000, -1999997, 1234567, -2000000, 1999999, -1876543, 1765432, -2000000, 1999993,
];
/// No barriers.
const OPEN: [u8; 9] = [0; 9];

impl Nine {
    fn new(kind: u8) -> Self {
        let mut u = [10, -20, 30, -40, 50, -60, 70, -80, 90];
        let mut v = [7, -14, 21, -28, 35, -42, 49, -56, 63];
        if kind == 2 {
            u.iter_mut().step_by(3).for_each(|x| *x = 0);
        }
        if kind != 0 {
            v[..3].fill(0);
        }
        Nine {
            name: [
                "(nine 0 false false)",
                "(nine 1 false true)",
                "(nine 2 true true)",
            ][usize::from(kind)],
            p: Parameters {
                w: 3,
                n: 3,
                kind,
                g: 9810,
                c: 100,
                r: 200_000,
            },
            h: [2000, 2500, 3000, 1500, 1200, 4000, 3500, 1800, 2200],
            b: [10, 20, 30, 40, 50, 60, 70, 80, 90],
            u,
            v,
        }
    }

    /// The vorticity that is lent, and its name.
    fn lent(&self) -> (&'static str, &'static [i64]) {
        let name = ["lent", "lent_channel", "lent_basin"][usize::from(self.p.kind)];
        (name, &LENT[..self.p.corners()])
    }

    fn vorticities(&self) -> String {
        let mut q = vec![0; self.p.corners()];
        let answer =
            potential_vorticity(&self.p, &self.h, &self.b, &self.u, &self.v, &OPEN, &mut q);
        assert_eq!(answer, FillAnswer::Done);
        let (name, corners, q) = (self.name, q.len(), list(&q));
        format!("vorticities {name} (zeros {corners}) done {q}")
    }

    fn tends(&self) -> String {
        let (lent, q) = self.lent();
        let [mut dh, mut du, mut dv] = [[0; 9]; 3];
        let Nine {
            name,
            p,
            h,
            b,
            u,
            v,
        } = self;
        let answer = tendencies(p, h, b, u, v, &OPEN, q, &mut dh, &mut du, &mut dv);
        assert_eq!(answer, FillAnswer::Done);
        format!(
            "tends {name} {lent} (zeros 9) (zeros 9) (zeros 9) done {} {} {}",
            list(&dh),
            list(&du),
            list(&dv)
        )
    }

    /// The state `wide`: nine cells with numbers near their bounds.
    fn wide() -> Self {
        Nine {
            name: "wide",
            p: Parameters {
                w: 3,
                n: 3,
                kind: 0,
                g: 10_000,
                c: 0,
                r: 1000,
            },
            h: [
                99999, 87654, 98765, 76543, 95001, 99000, 100000, 64321, 90909,
            ],
            b: [0, 1, 99999, 50000, 7, 100000, 3, 31415, 27182],
            u: [4999, -4321, 5000, -5000, 4987, -4777, 4501, -3999, 5000],
            v: [4997, 4321, -4999, 5000, -4444, 4890, -5000, 4711, -3333],
        }
    }

    /// The doubles of every cell with a `q` of this name.
    fn probes(&self, (lent, q): (&str, &[i64])) -> String {
        let [mut dh, mut du, mut dv] = [[0.0; 9]; 3];
        let Nine {
            name,
            p,
            h,
            b,
            u,
            v,
        } = self;
        let told = probe_grid(p, h, b, u, v, &OPEN, q, &mut dh, &mut du, &mut dv).told();
        let told: Vec<i64> = told.iter().map(|&x| x as i64).collect();
        format!(
            "probes_grid {name} {lent} (zeros 9) (zeros 9) (zeros 9) {} {} {} {}",
            list(&told),
            bits(&dh),
            bits(&du),
            bits(&dv)
        )
    }

    fn energy(&self) -> String {
        let answer = total_energy(&self.p, &self.h, &self.b, &self.u, &self.v, &OPEN);
        let TotalAnswer::Total(total) = answer else {
            panic!("{answer:?}");
        };
        format!("energy {} {}", self.name, list(&[0, total]))
    }

    /// The rates that any three lists give, here the inflow, the bottom and the
    /// vorticity `lent`, which has a number a cell.
    fn rates(&self) -> String {
        let state = State {
            parameters: self.p,
            h: self.h.to_vec(),
            b: self.b.to_vec(),
            u: self.u.to_vec(),
            v: self.v.to_vec(),
            barriers: OPEN.to_vec(),
        };
        let ((name, q), dv) = (self.lent(), &LENT[..9]);
        let energy = energy_rate(&state, &RAIN, &self.b, dv);
        let enstrophy = enstrophy_rate(&self.p, q, &RAIN, &self.b, dv);
        let number = |x: i128| {
            let sign = if x < 0 { "minus" } else { "pos" };
            format!("({sign} {})", x.unsigned_abs())
        };
        format!(
            "rates {0} {name} inflow {0}.b lent {1} {2}",
            self.name,
            number(energy),
            number(enstrophy)
        )
    }

    fn steps(&self) -> String {
        let (name, mut h, mut u, mut v) = (self.name, self.h, self.u, self.v);
        let answer = step(
            &self.p,
            &mut h,
            &self.b,
            &mut u,
            &mut v,
            &OPEN,
            &RAIN,
            &mut [7; 73],
        );
        assert_eq!(answer, StepAnswer::Done);
        format!(
            "steps {name} inflow (sevens 73) done {} {} {} (zeros 72 ++ sevens 1)",
            list(&h),
            list(&u),
            list(&v)
        )
    }

    fn runs(&self, length: u64) -> String {
        let (name, mut h, mut u, mut v) = (self.name, self.h, self.u, self.v);
        let answer = run(
            &self.p,
            &mut h,
            &self.b,
            &mut u,
            &mut v,
            &OPEN,
            &RAIN,
            length,
            &mut [7; 72],
        );
        assert_eq!(answer, RunAnswer::Finished { steps: length });
        format!(
            "runs {name} inflow {length} (sevens 72) (pos 0 ∷ pos {length} ∷ []) {} {} {} (zeros 72)",
            list(&h),
            list(&u),
            list(&v)
        )
    }
}

/// `steep (pos 2000)`: a step that pass 2 stops, and a run.
fn steep() -> [String; 2] {
    let p = Parameters {
        w: 2,
        n: 1,
        kind: 0,
        g: 9810,
        c: 0,
        r: 2000,
    };
    let (mut h, mut u, mut v) = ([1000, 2000], [0; 2], [0; 2]);
    let still = [0; 2];
    let open = [0; 2];
    let mut work = [7; 16];
    let stepped = step(&p, &mut h, &still, &mut u, &mut v, &open, &still, &mut work).told();
    let mut work = [7; 16];
    let ran = run(
        &p, &mut h, &still, &mut u, &mut v, &open, &still, 3, &mut work,
    )
    .told();
    assert_eq!((h, u, v), ([1000, 2000], still, still));
    [("steps", "", stepped), ("runs", "3 ", ran)].map(|(call, length, told)| {
        assert_eq!(told[..2], [6, 2]);
        let told: Vec<i64> = told.iter().map(|&x| x as i64).collect();
        let (answer, depth) = (list(&told), list(&h));
        format!("{call} (steep (pos 2000)) (zeros 2) {length}(sevens 16) {answer} {depth} (zeros 2) (zeros 2) (zeros 16)")
    })
}

/// What the step program prints for a grid that is too shallow everywhere.
fn shallow(w: usize, n: usize) -> String {
    let parameters = Parameters {
        w,
        n,
        kind: 0,
        g: 1,
        c: 0,
        r: 1000,
    };
    let zeros = vec![0; w * n];
    let state = State {
        parameters,
        h: vec![999; w * n],
        b: zeros.clone(),
        u: zeros.clone(),
        v: zeros,
        barriers: vec![0; w * n],
    };
    let printed = step_program(&record_of(&state, 0));
    format!("prints (encode (shallow {w} {n}) (time_of 0 0)) {printed:?}")
}

/// The same for worked example 10's record, which has neither tag 8 nor tag 9,
/// with `m` bytes for its depth.
fn lengthened(m: usize) -> String {
    let state = State {
        parameters: Parameters {
            w: 1,
            n: 1,
            kind: 0,
            g: 9810,
            c: 10,
            r: 1000,
        },
        h: vec![2000],
        b: vec![0],
        u: vec![100],
        v: vec![-50],
        barriers: vec![0],
    };
    let mut fields = record_fields(&state, 0);
    fields[3] = record_field(4, &vec![0; m]);
    let printed = step_program(&fields[..7].concat());
    format!("prints (lengthened {m}) {printed:?}")
}

/// The residuals of the paper's conditions (3.28) and (3.29), times 24, in
/// its order; a letter's weights are `unit` times the number of the corner.
fn conditions() -> Vec<i64> {
    let [a, b, c, d, e, f] =
        [1, 10, 100, 1_000, 10_000, 100_000].map(|unit| move |corner: i64| unit * corner);
    vec![
        // (3.28)
        a(2) - d(3),
        b(1) - c(4),
        d(3) - c(4),
        a(2) - b(1),
        d(2) + f(2) - 3,
        c(1) - f(1) - 3,
        a(3) + f(3) - 3,
        b(4) - f(4) - 3,
        c(3) - e(3) - 3,
        d(4) - e(4) - 3,
        b(2) + e(2) - 3,
        a(1) + e(1) - 3,
        // (3.29a)
        a(1) - d(4) + b(2) - c(3),
        d(1) + f(1) + c(2) - f(2),
        a(4) + f(4) + b(3) - f(3),
        c(4) - e(4) - c(3),
        d(4) - d(3) + e(3),
        b(1) + e(1) - b(2),
        a(1) - a(2) - e(2),
        // (3.29b)
        d(2) - d(3) - f(3),
        c(1) - c(4) + f(4),
        a(2) + f(2) - a(3),
        b(1) - f(1) - b(4),
        c(2) - e(2) + b(3) + e(3),
        d(2) - c(1) + a(3) - b(4),
        d(1) - e(1) + a(4) + e(4),
        // (3.29c)
        d(1) - c(3) + f(3),
        a(1) + f(1) - b(3),
        c(1) - e(1) - b(3),
        d(1) - a(3) - e(3),
        // (3.29d)
        c(2) - d(4) - f(4),
        b(2) - f(2) - a(4),
        c(2) - b(4) - e(4),
        d(2) - e(2) - a(4),
    ]
}

fn table() -> String {
    let path = concat!(
        env!("CARGO_MANIFEST_DIR"),
        "/../../crates/model_agreement/specs/Agreement.antt"
    );
    let file = std::fs::read_to_string(path).expect("the agreement crate");
    words(file.split("agreed =").nth(1).expect("the table"))
}

fn words(text: &str) -> String {
    text.split_whitespace().collect::<Vec<_>>().join(" ")
}

#[test]
fn the_conditions_are_the_papers() {
    let numbers = list(&conditions());
    let printed = numbers.trim_matches(|c| c == '(' || c == ')');
    assert!(
        table().contains(&format!("printed = {printed}")),
        "{printed}"
    );
}

#[test]
fn the_model_is_held_to_these_numbers() {
    let mut rows = Vec::new();
    for kind in 0..3 {
        let nine = Nine::new(kind);
        rows.extend([nine.vorticities(), nine.tends(), nine.rates()]);
        rows.extend([nine.energy(), nine.steps(), nine.probes(nine.lent())]);
    }
    rows.push(Nine::new(2).runs(12));
    rows.push(Nine::wide().probes(("wide_vorticity", &WIDE)));
    rows.extend(steep());
    rows.extend([shallow(32, 32), shallow(41, 25)]);
    rows.extend([lengthened(65_483), lengthened(65_484)]);

    let table = table();
    let missing: Vec<_> = rows
        .iter()
        .filter(|row| !table.contains(&words(row)))
        .collect();
    assert!(missing.is_empty(), "not in the table: {missing:#?}");
    // The table has no other rows.
    let calls = [
        "vorticities",
        "tends",
        "probes_grid",
        "rates",
        "energy",
        "steps",
        "runs",
        "prints",
    ];
    let named = table.split(' ').filter(|word| calls.contains(word)).count();
    assert_eq!(named, rows.len());
}
