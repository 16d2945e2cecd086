//! A call made with both versions: what they tell and write is compared, doubles bit
//! for bit, and everything lent is looked at before and after. Doubles are held to the
//! library's whole tendencies too.

use basin::{raw, Ran, Refusal, Trust};

use super::common::literal::{self, Three};
use super::common::{distance, record_size};
use super::{Call, Case, H, Q, U, V};

/// Numbers that no call gives.
pub const FENCE: i64 = 0x3333_3333_3333_3333;
pub const UNFILLED: i64 = i64::MIN;
/// Doubles that no call gives, since what it gives are whole numbers.
pub const FENCE_DOUBLE: f64 = 0.25;
pub const UNFILLED_DOUBLE: f64 = 0.5;
/// The number beside an answer, and what stands in an answer before a call, no
/// two the same.
pub const UNTOUCHED: u64 = 0x5555_5555_5555_5555;
pub const UNANSWERED: [u64; 8] = [
    UNTOUCHED + 1,
    UNTOUCHED + 2,
    UNTOUCHED + 3,
    UNTOUCHED + 4,
    UNTOUCHED + 5,
    UNTOUCHED + 6,
    UNTOUCHED + 7,
    UNTOUCHED + 8,
];
/// A byte beside barriers or a record.
pub const FENCE_BYTE: u8 = 0xA5;

/// Doubles that are the same where their bits are: -0.0 is not 0.0.
#[derive(Clone, Debug)]
pub struct Doubles(pub Vec<f64>);

impl PartialEq for Doubles {
    fn eq(&self, other: &Self) -> bool {
        let bits = |x: &f64| x.to_bits();
        self.0.iter().map(bits).eq(other.0.iter().map(bits))
    }
}

impl AsMut<[f64]> for Doubles {
    fn as_mut(&mut self) -> &mut [f64] {
        &mut self.0
    }
}

/// What a call tells, and what is then in all that it may write to.
#[derive(Clone, Debug, PartialEq)]
pub struct Outcome {
    /// 01's number and values, 0 where nothing is refused; a run tells its
    /// steps last, the writer the number of its bytes, a probe how far to trust it.
    pub told: Vec<u64>,
    pub written: Written,
}

/// The lists that a call may write to, but for its answer; empty where it is
/// lent none.
#[derive(Clone, Debug, PartialEq)]
pub struct Written<T = Vec<i64>, R = Vec<u8>, D = Doubles> {
    /// q, or dh, du, dv.
    pub destinations: [T; 3],
    /// dh, du, dv of a probed grid.
    pub doubles: [D; 3],
    /// The three of a probed cell.
    pub probed: D,
    /// One number.
    pub total: T,
    /// h, u, v of a step or run, and its work space.
    pub stepped: [T; 3],
    pub work: T,
    pub record: R,
}

impl Outcome {
    /// What the tests before the first step tell: 0 where a step or run goes on.
    pub fn tested(&self) -> &[u64] {
        match self.told[0] {
            0 | 6 => &[0],
            _ => &self.told,
        }
    }

    /// The steps that were done.
    fn steps(&self, call: Call) -> u64 {
        match (call, &self.told[..]) {
            (Call::Step, [0]) => 1,
            (Call::Run, [0, steps] | [6, _, _, _, steps]) => *steps,
            _ => 0,
        }
    }
}

impl Written {
    /// As they are lent: no two places of destinations and work space hold the
    /// same number, and of the record no two that follow each other.
    pub fn before(case: &Case, call: Call) -> Self {
        let lent = |is_lent: bool, length: usize| if is_lent { length } else { 0 };
        let stepped = if call.is_stepping() {
            [H, U, V].map(|field| case.fields[field].clone())
        } else {
            [const { Vec::new() }; 3]
        };
        let whole = !call.is_probing();
        let destination = |is_lent: bool, k: usize| {
            lent(
                is_lent && k < call.destinations(),
                case.destination(call, k),
            )
        };
        Written {
            destinations: std::array::from_fn(|k| junk(destination(whole, k), k)),
            doubles: std::array::from_fn(|k| junk_doubles(destination(!whole, k), k)),
            probed: junk_doubles(lent(call == Call::Probe, 3), 0),
            total: vec![case.total; lent(call.is_total(), 1)],
            stepped,
            work: junk(lent(call.is_stepping(), case.lent_work()), 3),
            record: junk_bytes(lent(call == Call::Write, case.record)),
        }
    }

    fn fenced(&self) -> Self {
        let fenced = |numbers: &Vec<i64>| fenced(numbers, FENCE);
        let fenced_doubles = |list: &Doubles| Doubles(self::fenced(&list.0, FENCE_DOUBLE));
        Written {
            destinations: self.destinations.each_ref().map(fenced),
            doubles: self.doubles.each_ref().map(fenced_doubles),
            probed: fenced_doubles(&self.probed),
            total: fenced(&self.total),
            stepped: self.stepped.each_ref().map(fenced),
            work: fenced(&self.work),
            record: self::fenced(&self.record, FENCE_BYTE),
        }
    }

    fn inside_fences(&mut self) -> Lent<'_> {
        Written {
            destinations: self.destinations.each_mut().map(|list| inside(list)),
            doubles: self.doubles.each_mut().map(|list| inside(&mut list.0)),
            probed: inside(&mut self.probed.0),
            total: inside(&mut self.total),
            stepped: self.stepped.each_mut().map(|list| inside(list)),
            work: inside(&mut self.work),
            record: inside(&mut self.record),
        }
    }
}

/// The lists as a call is lent them.
pub type Lent<'a> = Written<&'a mut [i64], &'a mut [u8], &'a mut [f64]>;

impl<T: AsMut<[i64]>, R: AsMut<[u8]>, D: AsMut<[f64]>> Written<T, R, D> {
    pub fn slices(&mut self) -> Lent<'_> {
        Written {
            destinations: self.destinations.each_mut().map(T::as_mut),
            doubles: self.doubles.each_mut().map(D::as_mut),
            probed: self.probed.as_mut(),
            total: self.total.as_mut(),
            stepped: self.stepped.each_mut().map(T::as_mut),
            work: self.work.as_mut(),
            record: self.record.as_mut(),
        }
    }
}

impl Lent<'_> {
    pub fn copied(&self) -> Written {
        let doubles = |list: &&mut [f64]| Doubles(list.to_vec());
        Written {
            destinations: self.destinations.each_ref().map(|list| list.to_vec()),
            doubles: self.doubles.each_ref().map(doubles),
            probed: doubles(&self.probed),
            total: self.total.to_vec(),
            stepped: self.stepped.each_ref().map(|list| list.to_vec()),
            work: self.work.to_vec(),
            record: self.record.to_vec(),
        }
    }
}

// ---- the two versions

fn field_number(field: basin::Field) -> u64 {
    let number = match field {
        basin::Field::Depth => 0,
        basin::Field::Bottom => 1,
        basin::Field::VelocityU => 2,
        basin::Field::VelocityV => 3,
        basin::Field::Vorticity => 4,
        basin::Field::Inflow => 5,
        basin::Field::Barriers => 6,
    };
    assert_eq!(field.number(), number);
    number.into()
}

pub fn told(result: Result<(), Refusal>) -> Vec<u64> {
    let Err(refusal) = result else {
        return vec![0];
    };
    let told = match refusal {
        Refusal::Grid => vec![1],
        Refusal::Lengths => vec![2],
        Refusal::Constants => vec![3],
        Refusal::Value { field, cell } => vec![4, field_number(field), cell as u64],
        Refusal::ClosedEdge { field, cell } => vec![5, field_number(field), cell as u64],
        Refusal::OutOfBounds { pass, field, cell } => {
            vec![6, pass.into(), field_number(field), cell as u64]
        }
        Refusal::Record { offset } => vec![7, offset as u64],
        Refusal::Destination => vec![8],
        Refusal::Milliseconds => vec![9],
        Refusal::NoSuchCell => vec![10],
        _ => panic!("{refusal:?} is no refusal of these calls"),
    };
    assert_eq!(u64::from(refusal.number()), told[0]);
    told
}

fn told_run(result: Result<Ran, Refusal>) -> Vec<u64> {
    let Ran { steps, stopped } = match result {
        Ok(ran) => ran,
        Err(refusal) => {
            assert_ne!(refusal.number(), 6, "{refusal:?} stops a run");
            return told(Err(refusal));
        }
    };
    let mut told = told(stopped.map_or(Ok(()), Err));
    assert!(matches!(told[0], 0 | 6), "{stopped:?} stops no run");
    told.push(steps);
    told
}

fn told_total(result: Result<i64, Refusal>, total: &mut [i64]) -> Vec<u64> {
    told(result.map(|number| total[0] = number))
}

fn told_trust(result: Result<Trust, Refusal>) -> Vec<u64> {
    match result {
        Ok(Trust::Exact) => vec![0, 0],
        Ok(Trust::Near) => vec![0, 1],
        Err(refusal) => told(Err(refusal)),
    }
}

fn told_probe(result: Result<basin::Probe, Refusal>, three: &mut [f64]) -> Vec<u64> {
    told_trust(result.map(|probe| {
        three.copy_from_slice(&[probe.dh, probe.du, probe.dv]);
        probe.trust
    }))
}

fn told_write(result: Result<usize, Refusal>) -> Vec<u64> {
    match result {
        Ok(bytes) => vec![0, bytes as u64],
        Err(refusal) => told(Err(refusal)),
    }
}

pub fn parameters(case: &Case) -> basin::Parameters {
    let reference::Parameters {
        w,
        n,
        kind,
        g,
        c,
        r,
    } = case.p;
    basin::Parameters {
        w,
        n,
        kind,
        g,
        c,
        r,
    }
}

pub fn timestamp(of: reference::Timestamp) -> basin::Timestamp {
    basin::Timestamp {
        seconds: of.seconds,
        milliseconds: of.milliseconds,
    }
}

/// The proved library, by its safe calls.
fn proved(case: &Case, call: Call) -> Outcome {
    let p = &parameters(case);
    let [h, b, u, v, q, s] = &case.fields;
    let z = &case.barriers;
    let (cell, steps, time) = (case.cell, case.steps, timestamp(case.timestamp));
    let mut written = Written::before(case, call);
    let lent = written.slices();
    let [first, second, third] = lent.destinations;
    let [dh, du, dv] = lent.doubles;
    let [h1, u1, v1] = lent.stepped;
    let told = match call {
        Call::PotentialVorticity => told(basin::potential_vorticity(p, h, b, u, v, z, first)),
        Call::Tendencies => told(basin::tendencies(p, h, b, u, v, z, q, first, second, third)),
        Call::Probe => told_probe(basin::probe(p, h, b, u, v, z, q, cell), lent.probed),
        Call::ProbeGrid => told_trust(basin::probe_grid(p, h, b, u, v, z, q, dh, du, dv)),
        Call::Step => told(basin::step(p, h1, b, u1, v1, z, s, lent.work)),
        Call::Run => told_run(basin::run(p, h1, b, u1, v1, z, s, steps, lent.work)),
        Call::TotalDepth => told_total(basin::total_depth(p, h, b, u, v, z), lent.total),
        Call::TotalEnergy => told_total(basin::total_energy(p, h, b, u, v, z), lent.total),
        Call::Write => told_write(basin::write(p, h, b, u, v, z, time, lent.record)),
    };
    Outcome { told, written }
}

/// The independent version.
pub fn independent(case: &Case, call: Call) -> Outcome {
    use reference::{ProbeAnswer, TotalAnswer};
    let Case {
        p,
        fields,
        barriers: z,
        ..
    } = case;
    let [h, b, u, v, q, s] = fields;
    let &Case {
        cell,
        steps,
        timestamp,
        ..
    } = case;
    let mut written = Written::before(case, call);
    let lent = written.slices();
    let [first, second, third] = lent.destinations;
    let [dh, du, dv] = lent.doubles;
    let [h1, u1, v1] = lent.stepped;
    let mut probed = |answer: ProbeAnswer| {
        if let ProbeAnswer::Exact(three) | ProbeAnswer::Near(three) = answer {
            lent.probed.copy_from_slice(&three);
        }
        answer.told()
    };
    // The total goes to its place, and is not told.
    let mut total = |answer: TotalAnswer| {
        if let TotalAnswer::Total(number) = answer {
            lent.total[0] = number;
            return vec![0];
        }
        answer.told()
    };
    let told = match call {
        Call::TotalDepth => total(reference::total_depth(p, h, b, u, v, z)),
        Call::TotalEnergy => total(reference::total_energy(p, h, b, u, v, z)),
        Call::PotentialVorticity => reference::potential_vorticity(p, h, b, u, v, z, first).told(),
        Call::Tendencies => reference::tendencies(p, h, b, u, v, z, q, first, second, third).told(),
        Call::Probe => probed(reference::probe(p, h, b, u, v, z, q, cell)),
        Call::ProbeGrid => reference::probe_grid(p, h, b, u, v, z, q, dh, du, dv).told(),
        Call::Step => reference::step(p, h1, b, u1, v1, z, s, lent.work).told(),
        Call::Run => reference::run(p, h1, b, u1, v1, z, s, steps, lent.work).told(),
        Call::Write => reference::write(p, h, b, u, v, z, timestamp, lent.record).told(),
    };
    Outcome {
        told: told.into_iter().map(|x| x as u64).collect(),
        written,
    }
}

/// The function of the C interface, on these slices.
pub fn call_raw(
    case: &Case,
    call: Call,
    (fields, z): ([&[i64]; 6], &[u8]),
    lent: Lent,
    answer: &mut [u64; 8],
) -> u64 {
    let p = &parameters(case);
    let [h, b, u, v, q, s] = fields;
    let (cell, steps, time) = (case.cell, case.steps, case.timestamp);
    let [first, second, third] = lent.destinations;
    let [dh, du, dv] = lent.doubles;
    let [h1, u1, v1] = lent.stepped;
    let Written {
        probed,
        total,
        work,
        record,
        ..
    } = lent;
    match call {
        Call::PotentialVorticity => raw::potential_vorticity(p, h, b, u, v, z, first, answer),
        Call::Tendencies => raw::tendencies(p, h, b, u, v, z, q, first, second, third, answer),
        Call::Probe => raw::probe(p, h, b, u, v, z, q, cell, array(probed), answer),
        Call::ProbeGrid => raw::probe_grid(p, h, b, u, v, z, q, dh, du, dv, answer),
        Call::Step => raw::step(p, h1, b, u1, v1, z, s, work, answer),
        Call::Run => raw::run(p, h1, b, u1, v1, z, s, steps, work, answer),
        Call::TotalDepth => raw::total_depth(p, h, b, u, v, z, &mut total[0], answer),
        Call::TotalEnergy => raw::total_energy(p, h, b, u, v, z, &mut total[0], answer),
        Call::Write => {
            let (seconds, ms) = (time.seconds, time.milliseconds);
            raw::write(p, h, b, u, v, z, seconds, ms, record, answer)
        }
    }
}

/// What a call only reads, as [`call_raw`] takes it: the fields and the barriers.
pub fn read_of(case: &Case) -> ([&[i64]; 6], &[u8]) {
    (case.fields.each_ref().map(Vec::as_slice), &case.barriers)
}

// ---- the comparison

/// What both give; `at` is where the case came from.
pub fn compare(case: &Case, call: Call, at: &str) -> Outcome {
    let before = Written::before(case, call);
    let expected = independent(case, call);
    // First on copies, so that a field that is changed shows.
    compare_raw(case, call, &before, &expected, at);
    let got = proved(case, call);
    assert_eq!(got, expected, "{}", sides(case, call, at));
    assert_left(case, call, &before, &got, at);
    if call == Call::Tendencies && got.told == [0] {
        let (energy, enstrophy) = rates(case, &got.written.destinations);
        assert_eq!(energy, 0, "{at}: the energy rate of {case:?}");
        if case.is_open() {
            assert_eq!(enstrophy, 0, "{at}: the enstrophy rate of {case:?}");
        }
    }
    if call.is_probing() && got.told[0] == 0 {
        let narrow = case.is_narrow();
        assert_eq!(got.told, [0, u64::from(!narrow)], "{at}: {case:?}");
        let farthest = farthest(case, call, &got.written);
        let allowed = if narrow { 0 } else { 64 };
        assert!(
            farthest <= allowed,
            "{at}: {farthest} off, {call:?} {case:?}"
        );
    }
    got
}

/// How far the doubles of a probe are from the tendencies of the library, at most.
/// Those of -D are never off.
pub fn farthest(case: &Case, call: Call, written: &Written) -> u64 {
    let [h, b, u, v, q, _] = &case.fields;
    let cells = h.len();
    let [mut dh, mut du, mut dv] = [(); 3].map(|()| vec![0; cells]);
    let (p, z) = (&parameters(case), &case.barriers);
    let done = basin::tendencies(p, h, b, u, v, z, q, &mut dh, &mut du, &mut dv);
    assert_eq!(done, Ok(()), "{case:?}");
    let far = |k: usize, whole: &[i64]| match call {
        Call::Probe => distance(written.probed.0[k], whole[case.cell]),
        _ => {
            let of_cells = written.doubles[k].0.iter().zip(whole);
            of_cells.map(|(&x, &z)| distance(x, z)).max().unwrap_or(0)
        }
    };
    assert_eq!(far(0, &dh), 0, "-D of {call:?} {case:?}");
    far(1, &du).max(far(2, &dv))
}

/// A probed cell by itself is told what the grid is told, and has its doubles.
pub fn assert_alone(case: &Case, cell: usize, grid: &Outcome, at: &str) {
    let mut case = case.clone();
    case.cell = cell;
    let alone = compare(&case, Call::Probe, at);
    assert_eq!(alone.told, grid.told, "{at}: {case:?}");
    let of_grid = grid.written.doubles.each_ref().map(|list| list.0[cell]);
    let of_grid = Doubles(of_grid.to_vec());
    assert_eq!(alone.written.probed, of_grid, "{at}: {case:?}");
}

fn sides(case: &Case, call: Call, at: &str) -> String {
    format!(
        "{at}: the proved library (left) and the independent version (right) on {call:?} {case:?}"
    )
}

/// Both tell this by the tests before the first step, 0 where none refuses.
pub fn expect(case: &Case, call: Call, told: &[u64], at: &str) {
    let outcome = compare(case, call, at);
    assert_eq!(outcome.tested(), told, "{at}: {call:?} {case:?}");
}

/// The function of the C interface tells and writes the same, and changes
/// nothing else that it is lent, nor what lies beside it.
fn compare_raw(case: &Case, call: Call, before: &Written, expected: &Outcome, at: &str) {
    let fields = case.fields.each_ref().map(|field| fenced(field, FENCE));
    let barriers = fenced(&case.barriers, FENCE_BYTE);
    let mut written = before.fenced();
    let mut answer = fenced(&case.answer, UNTOUCHED);

    let within = fields.each_ref().map(|field| &field[1..field.len() - 1]);
    let number = call_raw(
        case,
        call,
        (within, &barriers[1..=case.barriers.len()]),
        written.inside_fences(),
        array(inside(&mut answer)),
    );

    let told = &expected.told;
    assert_eq!(number, told[0], "{}", sides(case, call, at));
    let answered = fenced(&answered(told), UNTOUCHED);
    assert_eq!(answer, answered, "{}", sides(case, call, at));
    let expected = expected.written.fenced();
    assert_eq!(written, expected, "{}", sides(case, call, at));
    for (after, before) in fields.iter().zip(&case.fields) {
        let same = matches!(&after[..], [FENCE, within @ .., FENCE] if within == before);
        assert!(same, "{at}: {call:?} left {after:?} of {case:?}");
    }
    let left = fenced(&case.barriers, FENCE_BYTE);
    assert_eq!(barriers, left, "{at}: left by {call:?} of {case:?}");
}

/// The eight places of the answer after a call that tells this: the numbers
/// told, and then 0.
pub fn answered(told: &[u64]) -> [u64; 8] {
    let mut answer = [0; 8];
    answer[..told.len()].copy_from_slice(told);
    answer
}

/// Numbers for a list that is lent to be filled, the k-th of up to four: no two
/// places hold the same.
pub fn junk(length: usize, k: usize) -> Vec<i64> {
    let number = |place: usize| UNFILLED + (4 * place + k) as i64;
    (0..length).map(number).collect()
}

/// The same of doubles, the k-th of three.
pub fn junk_doubles(length: usize, k: usize) -> Doubles {
    let number = |place: usize| UNFILLED_DOUBLE + (4 * place + k) as f64;
    Doubles((0..length).map(number).collect())
}

/// The same of bytes, of which no two that follow each other are the same.
pub fn junk_bytes(length: usize) -> Vec<u8> {
    (0..length).map(|place| (7 * place + 0x5B) as u8).collect()
}

/// The numbers between two fences, so that a write beside them shows.
pub fn fenced<T: Copy>(numbers: &[T], fence: T) -> Vec<T> {
    [&[fence], numbers, &[fence]].concat()
}

pub fn inside<T>(fenced: &mut [T]) -> &mut [T] {
    let last = fenced.len() - 1;
    &mut fenced[1..last]
}

/// A list of just so many numbers, as the array that a call is lent.
pub fn array<T, const N: usize>(numbers: &mut [T]) -> &mut [T; N] {
    numbers.try_into().expect("a list of that length")
}

/// What 01 says of all that is lent, whatever the numbers: a refused call
/// leaves its destinations, its total and its record, an accepted one gives the
/// total, fills the first places and leaves the others; without a step done h, u
/// and v are left; the work space is cleared after tests 1 and 2, and not past
/// its first 8·w·n numbers.
fn assert_left(case: &Case, call: Call, before: &Written, got: &Outcome, at: &str) {
    let cells = case.p.w.wrapping_mul(case.p.n);
    let filled = match got.told[0] {
        0 => case.destination_needed(call),
        _ => 0,
    };
    if call.is_probing() {
        assert_doubles_left(case, call, before, got, at);
    } else {
        let lists = got.written.destinations.iter().zip(&before.destinations);
        for (after, before) in lists.take(call.destinations()) {
            assert_eq!(
                after[filled..],
                before[filled..],
                "{at}: left by {call:?} {case:?}"
            );
            let all = after[..filled].iter().all(|&x| x >= UNFILLED / 2);
            assert!(all, "{at}: not filled by {call:?} {case:?}");
        }
    }
    if call.is_total() {
        let (after, before) = (&got.written.total, &before.total);
        match got.told[0] {
            // No water is without depth or energy.
            0 => assert!(after[0] > 0, "{at}: {after:?} by {call:?} {case:?}"),
            _ => assert_eq!(after, before, "{at}: left by {call:?} {case:?}"),
        }
    }
    if call == Call::Write {
        let length = match got.told[..] {
            [0, bytes] => {
                assert_eq!(bytes as usize, record_size(cells), "{at}: {case:?}");
                assert_eq!(bytes as usize, parameters(case).record_len());
                record_size(cells)
            }
            _ => 0,
        };
        let (after, before) = (&got.written.record, &before.record);
        assert_eq!(
            after[length..],
            before[length..],
            "{at}: left by {call:?} {case:?}"
        );
    }
    if got.steps(call) == 0 {
        let (after, before) = (&got.written.stepped, &before.stepped);
        assert_eq!(after, before, "{at}: left by {call:?} {case:?}");
    }
    if call.is_stepping() {
        let cleared = match got.told[0] {
            1 | 2 => 0,
            _ => 8 * cells,
        };
        let (clear, rest) = got.written.work.split_at(cleared);
        let all = clear.iter().all(|&x| x == 0);
        assert!(all, "{at}: not cleared by {call:?} {case:?}");
        assert_eq!(
            rest,
            &before.work[cleared..],
            "{at}: left by {call:?} {case:?}"
        );
    }
}

/// The same of the doubles that a probe is lent: a refused one leaves them, an accepted
/// one fills the three of a cell, or the first places of a grid, with whole numbers.
fn assert_doubles_left(case: &Case, call: Call, before: &Written, got: &Outcome, at: &str) {
    let filled = match (got.told[0], call) {
        (0, Call::Probe) => 3,
        (0, _) => case.p.w * case.p.n,
        _ => 0,
    };
    let Written {
        doubles, probed, ..
    } = &got.written;
    let of_grid = doubles.iter().zip(&before.doubles);
    for (after, before) in of_grid.chain([(probed, &before.probed)]) {
        // One of the two is not lent, and empty.
        let filled = filled.min(after.0.len());
        let rest = |list: &Doubles| Doubles(list.0[filled..].to_vec());
        assert_eq!(rest(after), rest(before), "{at}: left by {call:?} {case:?}");
        let all = after.0[..filled].iter().all(|x| x.fract() == 0.0);
        assert!(all, "{at}: not filled by {call:?} {case:?}");
    }
}

/// 01's scaled rates of energy and enstrophy under tendencies of this case.
pub fn rates(case: &Case, tendencies: &[Vec<i64>; 3]) -> (i128, i128) {
    let state = case.state();
    let [h, u, v] = tendencies.each_ref().map(|d| d[..state.h.len()].to_vec());
    let rates = Three { h, u, v };
    (
        literal::energy_rate(&state, &rates),
        literal::enstrophy_rate(&state, &case.fields[Q], &rates),
    )
}
