//! The table of refusals, for every call that takes a state: each cause, the
//! order of causes, the bounds from both sides, and what a refused call
//! leaves as it was. Refusals of the reader and of the comparison are in
//! record.rs.

use crate::common::literal::PAPER;
use crate::common::{any_state, closed_edges, corners, first_told, moment, numbers};
use crate::common::{random_number, random_q, random_state, random_state_without_barriers};
use crate::common::{
    record_size, run_state, step_state, within_limits, Random, Spread, NUMBERS, SPREADS, TESTED,
};
use reference::{potential_vorticity, probe, probe_grid, run, step, tendencies};
use reference::{total_depth, total_energy, write, Parameters, State, Timestamp};

#[derive(Clone, Copy, Debug, PartialEq)]
enum Call {
    Vorticity,
    Tendencies,
    Probe,
    ProbeGrid,
    Step,
    Run,
    TotalDepth,
    TotalEnergy,
    Write,
}

use Call::{Probe, ProbeGrid, Run, Step, Tendencies, TotalDepth, TotalEnergy, Vorticity, Write};

const ALL: &[Call] = &[
    Vorticity,
    Tendencies,
    Probe,
    ProbeGrid,
    Step,
    Run,
    TotalDepth,
    TotalEnergy,
    Write,
];

/// Everything that a call can be lent.
#[derive(Clone, Debug, PartialEq)]
struct Lent {
    p: Parameters,
    h: Vec<i64>,
    b: Vec<i64>,
    u: Vec<i64>,
    v: Vec<i64>,
    barriers: Vec<u8>,
    q: Vec<i64>,
    inflow: Vec<i64>,
    work: Vec<i64>,
    steps: u64,
    vorticity: Vec<i64>,
    dh: Vec<i64>,
    du: Vec<i64>,
    dv: Vec<i64>,
    /// The cell that is probed, and the destinations of a grid that is.
    cell: usize,
    doubles: [Vec<f64>; 3],
    timestamp: Timestamp,
    out: Vec<u8>,
}

impl Lent {
    /// A state with good things beside it, destinations longer than needed.
    fn beside(state: State) -> Self {
        let cells = state.h.len();
        // Sides that no call knows may be of any size.
        let corners = corners(&state.parameters).min(65 * 65);
        Lent {
            p: state.parameters,
            h: state.h,
            b: state.b,
            u: state.u,
            v: state.v,
            barriers: state.barriers,
            q: vec![1; corners],
            inflow: vec![0; cells],
            work: vec![71; 8 * cells + 2],
            steps: 2,
            vorticity: vec![72; corners + 2],
            dh: vec![73; cells + 2],
            du: vec![74; cells + 2],
            dv: vec![75; cells + 2],
            cell: 0,
            doubles: [73.5, 74.5, 75.5].map(|x| vec![x; cells + 2]),
            timestamp: moment(76, 78),
            out: vec![77; record_size(cells) + 2],
        }
    }

    /// A closed basin of 3 by 2 cells that every call accepts.
    fn basin() -> Self {
        Lent::beside(State {
            parameters: Parameters {
                w: 3,
                n: 2,
                kind: 2,
                g: 9_810,
                c: 10,
                r: 1_000_000,
            },
            h: vec![5_000, 5_100, 5_200, 5_000, 5_050, 5_000],
            b: vec![0, 1, 2, 3, 4, 5],
            u: vec![0, 10, -10, 0, 7, 0],
            v: vec![0, 0, 0, 3, -4, 5],
            barriers: vec![0; 6],
        })
    }

    /// The state by itself.
    fn state(&self) -> State {
        State {
            parameters: self.p,
            h: self.h.clone(),
            b: self.b.clone(),
            u: self.u.clone(),
            v: self.v.clone(),
            barriers: self.barriers.clone(),
        }
    }

    /// Makes the call and gives its answer as 01 tells it.
    fn make(&mut self, call: Call) -> Vec<i128> {
        let Lent {
            p,
            h,
            b,
            u,
            v,
            barriers: z,
            inflow: s,
            work,
            ..
        } = self;
        match call {
            Vorticity => potential_vorticity(p, h, b, u, v, z, &mut self.vorticity).told(),
            Tendencies => {
                let (dh, du, dv) = (&mut self.dh, &mut self.du, &mut self.dv);
                tendencies(p, h, b, u, v, z, &self.q, dh, du, dv).told()
            }
            Probe => probe(p, h, b, u, v, z, &self.q, self.cell).told(),
            ProbeGrid => {
                let [dh, du, dv] = &mut self.doubles;
                probe_grid(p, h, b, u, v, z, &self.q, dh, du, dv).told()
            }
            Step => step(p, h, b, u, v, z, s, work).told(),
            Run => run(p, h, b, u, v, z, s, self.steps, work).told(),
            TotalDepth => total_depth(p, h, b, u, v, z).told(),
            TotalEnergy => total_energy(p, h, b, u, v, z).told(),
            Write => write(p, h, b, u, v, z, self.timestamp, &mut self.out).told(),
        }
    }

    /// What a refusal with this number leaves: all as it was, but that after
    /// 3 to 6 the part of the work space that is used is clear.
    fn after_refusal(&self, call: Call, number: i128) -> Self {
        let mut after = self.clone();
        if matches!(call, Step | Run) && (3..=6).contains(&number) {
            after.work[..8 * self.p.w * self.p.n].fill(0);
        }
        after
    }

    fn assert_refused(&self, call: Call, told: &[i128], what: &str) {
        let mut lent = self.clone();
        let got = lent.make(call);
        assert_eq!(got, told, "{call:?}, {what}: {self:?}");
        let after = self.after_refusal(call, told[0]);
        assert_eq!(lent, after, "{call:?}, {what}, left changed: {self:?}");
    }

    /// No test refuses; a step may still leave a bound.
    fn assert_accepted(&self, call: Call, what: &str) {
        let mut lent = self.clone();
        let got = lent.make(call);
        let fine = got[0] == 0 || (matches!(call, Step | Run) && got[0] == 6);
        assert!(fine, "{call:?}, {what}: {got:?} {self:?}");
    }
}

/// A cause of refusal, put into a good call.
struct Fault {
    /// The quantity that it changes.
    what: String,
    told: Vec<i128>,
    calls: &'static [Call],
    apply: Box<dyn Fn(&mut Lent)>,
}

fn fault(
    what: &str,
    told: &[i128],
    calls: &'static [Call],
    apply: impl Fn(&mut Lent) + 'static,
) -> Fault {
    Fault {
        what: what.to_string(),
        told: told.to_vec(),
        calls,
        apply: Box::new(apply),
    }
}

/// The calls that take q.
const WITH_Q: &[Call] = &[Tendencies, Probe, ProbeGrid];

type Pick = fn(&mut Lent) -> &mut Vec<i64>;
/// Name, number, bounds, the calls that take it.
type FieldRow = (&'static str, i128, i64, i64, &'static [Call], Pick);

const FIELDS: [FieldRow; 6] = [
    ("h", 0, 1_000, 100_000, ALL, |l| &mut l.h),
    ("b", 1, 0, 100_000, ALL, |l| &mut l.b),
    ("u", 2, -5_000, 5_000, ALL, |l| &mut l.u),
    ("v", 3, -5_000, 5_000, ALL, |l| &mut l.v),
    ("q", 4, -2_000_000, 2_000_000, WITH_Q, |l| &mut l.q),
    ("s", 5, -1_000, 1_000, &[Step, Run], |l| &mut l.inflow),
];

/// Every cause that a call on the basin of 3 by 2 cells can meet.
fn faults() -> Vec<Fault> {
    let mut faults = Vec::new();
    for bad in [0, 65, usize::MAX] {
        faults.push(fault("w", &[1], ALL, move |l| l.p.w = bad));
        faults.push(fault("n", &[1], ALL, move |l| l.p.n = bad));
    }
    for bad in [3, 255] {
        faults.push(fault("kind", &[1], ALL, move |l| l.p.kind = bad));
    }
    for bad in [10_001, u64::MAX] {
        faults.push(fault("run length", &[1], &[Run], move |l| l.steps = bad));
    }

    for (name, _, low, _, calls, pick) in FIELDS {
        let what = format!("length of {name}");
        // Of q, 6 is a number a cell and 12 the right one.
        let lengths = if name == "q" {
            [0, 6, 11, 13]
        } else {
            [0, 5, 7, 12]
        };
        for length in lengths {
            faults.push(fault(&what, &[2], calls, move |l| {
                pick(l).resize(length, low)
            }));
        }
    }
    for length in [0, 5, 7, 12] {
        faults.push(fault("length of barriers", &[2], ALL, move |l| {
            l.barriers.resize(length, 0)
        }));
    }
    for length in [0, 1, 47] {
        faults.push(fault("work space", &[2], &[Step, Run], move |l| {
            l.work.truncate(length)
        }));
    }

    for bad in [0, 10_001, -1, i64::MIN, i64::MAX] {
        faults.push(fault("G", &[3], ALL, move |l| l.p.g = bad));
    }
    for bad in [-10_001, 10_001, i64::MIN, i64::MAX] {
        faults.push(fault("c", &[3], ALL, move |l| l.p.c = bad));
    }
    for bad in [999, 1_000_001, -1_000, i64::MIN, i64::MAX] {
        faults.push(fault("R", &[3], ALL, move |l| l.p.r = bad));
    }

    for bad in [1_000, 65_536, 1 << 32, u64::MAX] {
        faults.push(fault("milliseconds", &[9], &[Write], move |l| {
            l.timestamp.milliseconds = bad
        }));
    }

    for (name, field, low, high, calls, pick) in FIELDS {
        // Of q, also the last corner column and the last corner row.
        let cells: &[i128] = if name == "q" {
            &[1, 3, 8, 11]
        } else {
            &[1, 4, 5]
        };
        for &cell in cells {
            for bad in [low - 1, high + 1, i64::MIN, i64::MAX] {
                let what = format!("{name}[{cell}]");
                faults.push(fault(&what, &[4, field, cell], calls, move |l| {
                    // A fault of the length may have taken the cell away.
                    if let Some(value) = pick(l).get_mut(cell as usize) {
                        *value = bad;
                    }
                }));
            }
        }
    }

    // Bytes above 3, and barriers on edges with a velocity.
    let barriers: [(u8, &[i128], &[i128]); 7] = [
        (4, &[4, 6], &[1, 4, 5]),
        (7, &[4, 6], &[1, 4]),
        (128, &[4, 6], &[0, 5]),
        (255, &[4, 6], &[0, 1, 5]),
        (1, &[5, 2], &[1, 2, 4]),
        (2, &[5, 3], &[3, 4, 5]),
        (3, &[5, 2], &[1, 4]),
    ];
    for (barrier, told, cells) in barriers {
        for &cell in cells {
            let what = format!("barriers[{cell}]");
            let told = [told, &[cell]].concat();
            faults.push(fault(&what, &told, ALL, move |l| {
                if let Some(place) = l.barriers.get_mut(cell as usize) {
                    *place = barrier;
                }
            }));
        }
    }

    let closed: [(&str, i128, &[i128], Pick); 2] = [
        ("u", 2, &[0, 3], |l| &mut l.u),
        ("v", 3, &[0, 1, 2], |l| &mut l.v),
    ];
    for (name, field, cells, pick) in closed {
        for &cell in cells {
            for velocity in [-5_000, -1, 1, 5_000] {
                let what = format!("{name}[{cell}]");
                faults.push(fault(&what, &[5, field, cell], ALL, move |l| {
                    if let Some(value) = pick(l).get_mut(cell as usize) {
                        *value = velocity;
                    }
                }));
            }
        }
    }

    let destinations: [(&str, &[Call], &[usize], Pick); 4] = [
        ("destination of q", &[Vorticity], &[0, 6, 11], |l| {
            &mut l.vorticity
        }),
        ("destination of -D", &[Tendencies], &[0, 5], |l| &mut l.dh),
        ("destination of Tu", &[Tendencies], &[0, 5], |l| &mut l.du),
        ("destination of Tv", &[Tendencies], &[0, 5], |l| &mut l.dv),
    ];
    for (name, calls, lengths, pick) in destinations {
        for &length in lengths {
            faults.push(fault(name, &[8], calls, move |l| pick(l).truncate(length)));
        }
    }
    for which in 0..3 {
        let what = format!("destination {which} of doubles");
        for length in [0, 5] {
            faults.push(fault(&what, &[8], &[ProbeGrid], move |l| {
                l.doubles[which].truncate(length)
            }));
        }
    }
    for bad in [6, 7, 4_096, 1 << 32, usize::MAX] {
        faults.push(fault("cell", &[10], &[Probe], move |l| l.cell = bad));
    }
    for length in [0, record_size(6) - 1] {
        faults.push(fault(
            "destination of the record",
            &[8],
            &[Write],
            move |l| l.out.truncate(length),
        ));
    }
    faults
}

#[test]
fn the_good_call_is_accepted() {
    for &call in ALL {
        assert_eq!(Lent::basin().make(call)[0], 0, "{call:?}");
    }
}

#[test]
fn each_cause_is_refused_with_its_number_and_leaves_all_as_it_was() {
    let mut met = vec![[false; NUMBERS]; ALL.len()];
    for fault in faults() {
        let mut lent = Lent::basin();
        (fault.apply)(&mut lent);
        assert_ne!(lent, Lent::basin(), "{}", fault.what);
        for (k, call) in ALL.iter().enumerate() {
            if fault.calls.contains(call) {
                lent.assert_refused(*call, &fault.told, &fault.what);
                met[k][fault.told[0] as usize] = true;
            } else {
                // What a call does not take cannot stop it.
                lent.assert_accepted(*call, &fault.what);
            }
        }
    }
    for (call, met) in ALL.iter().zip(met) {
        let fills = matches!(call, Vorticity | Tendencies | ProbeGrid | Write);
        let expected = [1, 2, 3, 4, 5]
            .into_iter()
            .chain(fills.then_some(8))
            .chain((*call == Write).then_some(9))
            .chain((*call == Probe).then_some(10));
        let met = (0..NUMBERS).filter(|&number| met[number]);
        assert!(met.eq(expected), "{call:?}");
    }
}

#[test]
fn of_two_causes_the_first_in_the_table_is_told() {
    let faults = faults();
    for (k, first) in faults.iter().enumerate() {
        for second in &faults[k + 1..] {
            if first.what == second.what {
                continue;
            }
            let mut lent = Lent::basin();
            (first.apply)(&mut lent);
            (second.apply)(&mut lent);
            let causes = [first.told.clone(), second.told.clone()];
            let told = first_told(&TESTED, causes).expect("two");
            let what = format!("{} and {}", first.what, second.what);
            for call in ALL {
                if first.calls.contains(call) && second.calls.contains(call) {
                    lent.assert_refused(*call, &told, &what);
                }
            }
        }
    }
}

#[test]
fn every_bound_itself_is_accepted() {
    let accepted = |calls: &[Call], what: &str, lent: &Lent| {
        for &call in calls {
            lent.assert_accepted(call, what);
        }
    };
    for (w, n) in [(1, 1), (1, 64), (64, 1), (64, 64)] {
        for kind in 0..3 {
            let mut random = Random::new(1);
            let lent = Lent::beside(random_state(&mut random, Spread::Calm, (w, n), kind));
            accepted(ALL, "sizes and kinds", &lent);
        }
    }
    for (w, n) in [(65, 1), (1, 65), (0, 1), (1, 0)] {
        for kind in 0..3 {
            let mut random = Random::new(1);
            let mut state = random_state(&mut random, Spread::Calm, (1, 1), 0);
            state.parameters = Parameters {
                w,
                n,
                kind,
                ..state.parameters
            };
            for field in [&mut state.h, &mut state.b, &mut state.u, &mut state.v] {
                field.resize(w * n, 1_000);
            }
            state.barriers.resize(w * n, 0);
            let lent = Lent::beside(state);
            for &call in ALL {
                lent.assert_refused(call, &[1], "sizes");
            }
        }
    }

    let constants: [fn(&mut Lent); 6] = [
        |l| l.p.g = 1,
        |l| l.p.g = 10_000,
        |l| l.p.c = -10_000,
        |l| l.p.c = 10_000,
        |l| l.p.r = 1_000,
        |l| l.p.r = 1_000_000,
    ];
    for set in constants {
        let mut lent = Lent::basin();
        set(&mut lent);
        accepted(ALL, "constant at its bound", &lent);
    }
    for (name, _, low, high, calls, pick) in FIELDS {
        // Cells 4 and 5 have open edges.
        for (cell, value) in [(4, low), (4, high), (5, low), (5, high)] {
            let mut lent = Lent::basin();
            pick(&mut lent)[cell] = value;
            accepted(calls, name, &lent);
        }
    }
    // The greatest, where both edges are still.
    let mut lent = Lent::basin();
    lent.barriers[0] = 3;
    accepted(ALL, "barriers", &lent);
    for steps in [0, 10_000] {
        let mut lent = Lent::basin();
        lent.steps = steps;
        accepted(&[Run], "run length", &lent);
    }
    let mut exact = Lent::basin();
    exact.work.truncate(48);
    exact.vorticity.truncate(12);
    for destination in [&mut exact.dh, &mut exact.du, &mut exact.dv] {
        destination.truncate(6);
    }
    for destination in &mut exact.doubles {
        destination.truncate(6);
    }
    exact.out.truncate(record_size(6));
    accepted(ALL, "exact lengths", &exact);
    exact.cell = 5;
    accepted(ALL, "last cell", &exact);
    for seconds in [0, u64::MAX] {
        for milliseconds in [0, 999] {
            let mut lent = Lent::basin();
            lent.timestamp = moment(seconds, milliseconds);
            accepted(ALL, "timestamp at its bounds", &lent);
        }
    }
}

#[test]
fn boundary_and_barriers_say_which_edges_are_closed() {
    let random = &mut Random::new(2);
    for kind in 0..3 {
        let mut still = random_state_without_barriers(random, Spread::Calm, (3, 3), kind);
        (still.u, still.v) = (vec![0; 9], vec![0; 9]);
        // Every barrier of every cell, and a velocity on every edge.
        for (at, barrier) in (0..9).flat_map(|at| (0..4).map(move |barrier| (at, barrier))) {
            still.barriers = vec![0; 9];
            still.barriers[at] = barrier;
            for cell in 0..9 {
                let (i, j) = (cell % 3, cell / 3);
                let here = if cell == at { barrier } else { 0 };
                let west = kind == 2 && i == 0 || here == 1 || here == 3;
                let south = kind != 0 && j == 0 || here == 2 || here == 3;
                for (field, closed) in [(2, west), (3, south)] {
                    let mut state = still.clone();
                    match field {
                        2 => state.u[cell] = -1,
                        _ => state.v[cell] = -1,
                    }
                    let lent = Lent::beside(state);
                    for &call in ALL {
                        if closed {
                            let told = [5, field as i128, cell as i128];
                            lent.assert_refused(call, &told, "closed edge");
                        } else {
                            lent.assert_accepted(call, "open edge");
                        }
                    }
                }
            }
        }
    }
}

/// The table of refusals 1 to 5 and 8 to 10 over again, by whole scans.
fn expected_refusal(call: Call, l: &Lent) -> Option<Vec<i128>> {
    let p = l.p;
    let small = |size: usize| size.wrapping_sub(1) < 64;
    if !small(p.w) || !small(p.n) || p.kind > 2 || (call == Run && l.steps > 10_000) {
        return Some(vec![1]);
    }
    let cells = p.w * p.n;
    let fields: Vec<_> = FIELDS
        .iter()
        .filter(|(_, _, _, _, calls, _)| calls.contains(&call))
        .map(|&(_, field, low, high, _, pick)| (field, low, high, pick(&mut l.clone()).clone()))
        .collect();
    let steps = matches!(call, Step | Run);
    let corners = corners(&p);
    let long = |field: i128| if field == 4 { corners } else { cells };
    if fields
        .iter()
        .any(|&(field, _, _, ref values)| values.len() != long(field))
        || l.barriers.len() != cells
        || (steps && l.work.len() < 8 * cells)
    {
        return Some(vec![2]);
    }
    if p.g < 1 || p.g > 10_000 || p.c < -10_000 || p.c > 10_000 || p.r < 1_000 || p.r > 1_000_000 {
        return Some(vec![3]);
    }
    if call == Write && l.timestamp.milliseconds >= 1_000 {
        return Some(vec![9]);
    }
    let barriers = l.barriers.iter().map(|&barrier| barrier.into()).collect();
    // The four of the state, the barriers, then the one that may follow.
    let (four, more) = fields.split_at(4);
    for (field, low, high, values) in [four, &[(6, 0, 3, barriers)], more].concat() {
        for (cell, value) in values.into_iter().enumerate() {
            if value < low || value > high {
                return Some(vec![4, field, cell as i128]);
            }
        }
    }
    let state = l.state();
    for (edge, velocities) in [&l.u, &l.v].into_iter().enumerate() {
        for (cell, &velocity) in velocities.iter().enumerate() {
            if closed_edges(&state, cell)[edge] && velocity != 0 {
                return Some(vec![5, 2 + edge as i128, cell as i128]);
            }
        }
    }
    if call == Probe && l.cell >= cells {
        return Some(vec![10]);
    }
    let short = match call {
        Vorticity => l.vorticity.len() < corners,
        Tendencies => [&l.dh, &l.du, &l.dv].iter().any(|d| d.len() < cells),
        ProbeGrid => l.doubles.iter().any(|d| d.len() < cells),
        Write => l.out.len() < record_size(cells),
        Probe | Step | Run | TotalDepth | TotalEnergy => false,
    };
    short.then(|| vec![8])
}

/// A random call with up to a few numbers or lengths made bad.
fn random_lent(random: &mut Random) -> Lent {
    let state = any_state(random);
    let cells = state.h.len();
    let mut lent = Lent::beside(state);
    lent.q = random_q(random, Spread::Mixed, &lent.p);
    lent.inflow = numbers(random, Spread::Mixed, cells, -1_000, 1_000);
    lent.cell = random.below(cells);
    for _ in 0..random.below(4) {
        let wild = match random.below(4) {
            0 => random.pick(&[i64::MIN, i64::MAX, 0, -1]),
            1 => random.between(-3, 3),
            2 => random.between(-6_000, 110_000),
            _ => random.next() as i64,
        };
        match random.below(22) {
            0 if random.once_in(4) => lent.p.w = wild as usize,
            1 if random.once_in(4) => lent.p.n = wild as usize,
            2 if random.once_in(4) => lent.p.kind = wild as u8,
            3 => lent.steps = wild as u64,
            4 => lent.p.g = wild,
            5 => lent.p.c = wild,
            6 => lent.p.r = wild,
            7 => lent.work.truncate(random.below(9 * cells)),
            8 => lent.out.truncate(random.below(60 + 12 * cells)),
            9 => {
                let destination = match random.below(4) {
                    0 => &mut lent.vorticity,
                    1 => &mut lent.dh,
                    2 => &mut lent.du,
                    _ => &mut lent.dv,
                };
                destination.truncate(random.below(destination.len() + 1));
            }
            20 => lent.doubles[random.below(3)].truncate(random.below(cells + 2)),
            21 => lent.cell = random.pick(&[cells - 1, cells, cells + 1, wild as usize]),
            10 => lent.timestamp = moment(random_number(random), wild as u64),
            11 => {
                let (_, _, low, _, _, pick) = random.pick(&FIELDS);
                pick(&mut lent).resize(random.below(2 * cells + 1), low);
            }
            12 => lent.barriers.resize(random.below(2 * cells + 1), 0),
            13 | 14 => {
                // A byte above 3, or one that closes an edge.
                if !lent.barriers.is_empty() {
                    let cell = random.below(lent.barriers.len());
                    lent.barriers[cell] = random.pick(&[1, 2, 3, 4, 7, 128, 255]);
                }
            }
            _ => {
                // Several bad cells in one field.
                let (_, _, _, _, _, pick) = random.pick(&FIELDS);
                for _ in 0..1 + random.below(3) {
                    let field = pick(&mut lent);
                    if !field.is_empty() {
                        let cell = random.below(field.len());
                        field[cell] = wild;
                    }
                }
            }
        }
    }
    if lent.steps <= 10_000 {
        lent.steps %= 5;
    }
    lent
}

#[test]
fn any_numbers_and_lengths_are_answered_by_the_table() {
    let mut random = Random::new(300);
    let mut met = [0; NUMBERS];
    for _ in 0..20_000 {
        let lent = random_lent(&mut random);
        for &call in ALL {
            match expected_refusal(call, &lent) {
                Some(told) => {
                    met[told[0] as usize] += 1;
                    lent.assert_refused(call, &told, "at random");
                }
                None => met[accepted_call(call, &lent) as usize] += 1,
            }
        }
    }
    println!("{met:?}");
    let told = [0, 1, 2, 3, 4, 5, 6, 8, 9, 10];
    assert!(told.iter().all(|&k| met[k] > 100), "{met:?}");
}

/// Makes a call that no test refuses, checks that it changes only
/// what it is to fill, and gives the number it tells.
fn accepted_call(call: Call, before: &Lent) -> i128 {
    let mut after = before.clone();
    let told = after.make(call);
    let cells = before.p.w * before.p.n;
    let size = record_size(cells);
    // What was filled is put back; then nothing else may differ.
    let filled = after.clone();
    match call {
        Vorticity => {
            let corners = corners(&before.p);
            after.vorticity[..corners].copy_from_slice(&before.vorticity[..corners]);
        }
        Tendencies => {
            after.dh[..cells].copy_from_slice(&before.dh[..cells]);
            after.du[..cells].copy_from_slice(&before.du[..cells]);
            after.dv[..cells].copy_from_slice(&before.dv[..cells]);
        }
        Step | Run => {
            let used = 8 * cells;
            assert!(after.work[..used].iter().all(|&x| x == 0), "{before:?}");
            after.work[..used].copy_from_slice(&before.work[..used]);
            if call == Run || told[0] == 0 {
                after.h.clone_from(&before.h);
                after.u.clone_from(&before.u);
                after.v.clone_from(&before.v);
            }
        }
        ProbeGrid => {
            for (after, before) in after.doubles.iter_mut().zip(&before.doubles) {
                after[..cells].copy_from_slice(&before[..cells]);
            }
        }
        Probe | TotalDepth | TotalEnergy => {}
        Write => after.out[..size].copy_from_slice(&before.out[..size]),
    }
    assert_eq!(&after, before, "{call:?}");
    assert!(within_limits(&filled.state()), "{call:?}: {before:?}");
    match (call, &told[..]) {
        (Vorticity | Tendencies | Step, [0]) => {}
        (Probe | ProbeGrid, [0, 0 | 1]) => {}
        (Run, [0, steps]) => assert_eq!(*steps, before.steps.into()),
        (Run, [6, 1..=2, 0 | 2 | 3, _, steps]) => assert!(*steps < before.steps.into()),
        (Step, [6, 1..=2, 0 | 2 | 3, _]) => {}
        (TotalDepth | TotalEnergy, [0, _]) => {}
        (Write, [0, bytes]) => assert_eq!(*bytes, size as i128),
        _ => panic!("{call:?}: {told:?} for {before:?}"),
    }
    told[0]
}

#[test]
fn huge_numbers_are_answered() {
    let sizes = [0, 1, 64, 65, 1 << 32, usize::MAX / 8 + 1, usize::MAX];
    let wild = [i64::MIN, -1, 0, 1, i64::MAX];
    for w in sizes {
        for n in sizes {
            for kind in [0, 2, 255] {
                for steps in [0, 10_000, u64::MAX] {
                    for g in wild {
                        let mut lent = Lent::beside(State {
                            parameters: Parameters {
                                w,
                                n,
                                kind,
                                g,
                                c: g,
                                r: g,
                            },
                            h: wild.to_vec(),
                            b: vec![],
                            u: wild.to_vec(),
                            v: vec![g],
                            barriers: vec![g as u8; 2],
                        });
                        lent.steps = steps;
                        lent.timestamp = moment(steps, steps);
                        lent.cell = w;
                        for &call in ALL {
                            let told = expected_refusal(call, &lent).expect("lengths are bad");
                            lent.assert_refused(call, &told, "huge");
                        }
                    }
                }
            }
        }
    }
}

#[test]
fn a_step_that_leaves_a_bound_is_refused_with_6_and_changes_nothing() {
    let mut random = Random::new(301);
    // By pass and field.
    let mut met = [[0; 4]; 3];
    for _ in 0..30_000 {
        let spread = random.pick(&SPREADS);
        let size = (1 + random.below(4), 1 + random.below(4));
        let kind = random.below(3) as u8;
        let mut state = random_state(&mut random, spread, size, kind);
        let cells = state.h.len();
        let mut inflow = numbers(&mut random, Spread::Mixed, cells, -1_000, 1_000);
        if spread == Spread::Calm {
            // Waves too high for the time step, so that the second pass goes
            // further than the first.
            let most = random.between(1_500, 20_000);
            state.h = numbers(&mut random, Spread::Even, cells, 1_500, most);
            state.parameters.r = random.between(3_000, 20_000);
            inflow = vec![0; cells];
        }
        let before = state.clone();
        let mut work = vec![9; 8 * cells + 1];
        let told = step_state(&mut state, &inflow, &mut work).told();
        if let Err((pass, field, cell)) = PAPER.step(&before, &inflow) {
            met[pass as usize][field as usize] += 1;
            assert_eq!(told, [6, pass, field, cell], "{before:?} {inflow:?}");
            assert_eq!(state, before, "{inflow:?}");
        } else {
            assert_eq!(told, [0], "{before:?} {inflow:?}");
        }
        assert!(work[..8 * cells].iter().all(|&x| x == 0), "{before:?}");
        assert_eq!(work[8 * cells], 9);
    }
    println!("{met:?}");
    for pass in 1..=2 {
        for field in [0, 2, 3] {
            assert!(met[pass][field] > 10, "{met:?}");
        }
    }
}

#[test]
fn refusal_6_goes_by_h_then_u_then_v_then_cell() {
    // Level water of 2 by 2 cells at rest, over a bottom that is steep along
    // one way or both.
    let start = |h: i64, b: [i64; 4]| State {
        parameters: Parameters {
            w: 2,
            n: 2,
            kind: 0,
            g: 10_000,
            c: 0,
            r: 1_000,
        },
        h: vec![h; 4],
        b: b.to_vec(),
        u: vec![0; 4],
        v: vec![0; 4],
        barriers: vec![0; 4],
    };
    let told = |mut state: State, inflow: [i64; 4]| {
        let before = state.clone();
        let told = step_state(&mut state, &inflow, &mut [0; 32]).told();
        assert_eq!(state, before);
        told
    };
    let slope_both = [0, 50_000, 60_000, 70_000];
    let none = [0; 4];
    assert_eq!(
        told(start(99_500, slope_both), [0, 0, 0, 1_000]),
        [6, 1, 0, 3]
    );
    assert_eq!(
        told(start(99_500, slope_both), [0, 600, 0, 600]),
        [6, 1, 0, 1]
    );
    assert_eq!(told(start(99_500, slope_both), none), [6, 1, 2, 0]);
    assert_eq!(
        told(start(99_500, [0, 0, 60_000, 60_000]), none),
        [6, 1, 3, 0]
    );
    assert_eq!(told(start(99_500, [9, 9, 9, 60_000]), none), [6, 1, 2, 2]);
}

#[test]
fn the_bounds_of_a_pass_are_exact() {
    let one_cell = |h: i64| State {
        parameters: Parameters {
            w: 1,
            n: 1,
            kind: 0,
            g: 9_810,
            c: 0,
            r: 1_000,
        },
        h: vec![h],
        b: vec![0],
        u: vec![0],
        v: vec![0],
        barriers: vec![0],
    };
    let stepped = |h: i64, inflow: i64| {
        let mut state = one_cell(h);
        let told = step_state(&mut state, &[inflow], &mut [0; 8]).told();
        (told, state.h[0])
    };
    assert_eq!(stepped(99_000, 1_000), (vec![0], 100_000));
    assert_eq!(stepped(99_001, 1_000), (vec![6, 1, 0, 0], 99_001));
    assert_eq!(stepped(2_000, -1_000), (vec![0], 1_000));
    assert_eq!(stepped(1_999, -1_000), (vec![6, 1, 0, 0], 1_999));

    // Velocities near their bound in turning water.
    let mut random = Random::new(302);
    let (mut at_bound, mut past) = ([0; 2], [0; 3]);
    for _ in 0..20_000 {
        let mut state = one_cell(random.between(1_000, 100_000));
        state.parameters.c = random.between(-10_000, 10_000);
        state.parameters.r = random.between(100_000, 1_000_000);
        state.u[0] = random.pick(&[-1, 1]) * random.between(4_990, 5_000);
        state.v[0] = random.between(-100, 100);
        if random.once_in(2) {
            (state.u, state.v) = (state.v, state.u);
        }
        let before = state.clone();
        let told = step_state(&mut state, &[0], &mut [0; 8]).told();
        match PAPER.step(&before, &[0]) {
            Ok(after) => {
                assert_eq!((told, &state), (vec![0], &after), "{before:?}");
                at_bound[0] += usize::from(after.u[0].abs() == 5_000);
                at_bound[1] += usize::from(after.v[0].abs() == 5_000);
            }
            Err((pass, field, cell)) => {
                assert_eq!(told, [6, pass, field, cell], "{before:?}");
                past[pass as usize] += 1;
            }
        }
    }
    println!("{at_bound:?} {past:?}");
    assert!(at_bound.iter().all(|&times| times > 50), "{at_bound:?}");
    assert!(past[1] > 50, "{past:?}");
}

#[test]
fn a_run_stops_before_the_step_that_leaves_a_bound() {
    // 1,000 mm enter at each step: 95 steps lead from 5,000 to 100,000.
    let mut state = State {
        parameters: Parameters {
            w: 1,
            n: 1,
            kind: 0,
            g: 9_810,
            c: 0,
            r: 1_000,
        },
        h: vec![5_000],
        b: vec![0],
        u: vec![0],
        v: vec![0],
        barriers: vec![0],
    };
    let mut work = [5; 9];
    let told = run_state(&mut state, &[1_000], 95, &mut work).told();
    assert_eq!((told, state.h[0]), (vec![0, 95], 100_000));
    state.h[0] = 5_000;
    work = [5; 9];
    let told = run_state(&mut state, &[1_000], 96, &mut work).told();
    assert_eq!((told, state.h[0]), (vec![6, 1, 0, 0, 95], 100_000));
    assert_eq!(work, [0, 0, 0, 0, 0, 0, 0, 0, 5]);
    let told = run_state(&mut state, &[1_000], 10_000, &mut work).told();
    assert_eq!((told, state.h[0]), (vec![6, 1, 0, 0, 0], 100_000));
    let told = run_state(&mut state, &[-1_000], 10_000, &mut work).told();
    assert_eq!((told, state.h[0]), (vec![6, 1, 0, 0, 99], 1_000));
}

#[test]
fn a_run_of_no_steps_still_tests_and_clears() {
    let mut lent = Lent::basin();
    lent.steps = 0;
    let mut after = lent.clone();
    after.work[..48].fill(0);
    let mut made = lent.clone();
    assert_eq!(made.make(Run), [0, 0]);
    assert_eq!(made, after);
    for fault in faults() {
        if fault.calls.contains(&Run) {
            let mut bad = lent.clone();
            (fault.apply)(&mut bad);
            bad.assert_refused(Run, &fault.told, &fault.what);
        }
    }
}
