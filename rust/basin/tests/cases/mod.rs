//! Calls made at random: a state within the limits, what is taken beside it
//! and what is lent to be filled, with faults put into some.

pub mod calls;
pub mod causes;
pub mod changes;
pub mod lists;
pub mod memory;
pub mod records;
pub mod rounding;
// The generator of random states is shared with the reference's own tests.
#[path = "../../../reference/tests/common/mod.rs"]
pub mod common;

use calls::{UNANSWERED, UNFILLED};
use common::{corners, large_state, literal, narrow_state, numbers, random_number, random_q};
use common::{random_state, random_timestamp, record_size, Random, Spread, SPREADS};
use records::{tag_9, TAG_8};
use reference::{Parameters, State, Timestamp};

/// The numbers of the fields. Those of 01 are places in [`Case::fields`].
pub const H: usize = 0;
pub const U: usize = 2;
pub const V: usize = 3;
pub const Q: usize = 4;
pub const S: usize = 5;
pub const BARRIERS: usize = 6;

/// The bounds of the fields, in the order h, b, u, v, q, s, barriers.
pub const BOUNDS: [(i64, i64); 7] = [
    (1_000, 100_000),
    (0, 100_000),
    (-5_000, 5_000),
    (-5_000, 5_000),
    (-2_000_000, 2_000_000),
    (-1_000, 1_000),
    (0, 3),
];

/// For each field a number within its bounds that closed edges allow too.
const HARMLESS: [i64; 7] = [1_000, 0, 0, 0, 0, 0, 0];

/// The numbers next to the bounds of a field, on the outside. A barrier is a byte,
/// so none is below 0: 255 stands there, which a byte with a sign takes for -1.
pub fn next_outside(field: usize) -> [i64; 2] {
    match field {
        BARRIERS => [255, 4],
        _ => [BOUNDS[field].0 - 1, BOUNDS[field].1 + 1],
    }
}

/// The calls on a state.
#[derive(Clone, Copy, Debug, PartialEq)]
pub enum Call {
    PotentialVorticity,
    Tendencies,
    /// The tendencies of a cell in double precision.
    Probe,
    /// The same of every cell.
    ProbeGrid,
    Step,
    Run,
    TotalDepth,
    TotalEnergy,
    /// The writer of a record.
    Write,
}

pub const CALLS: [Call; 9] = [
    Call::PotentialVorticity,
    Call::Tendencies,
    Call::Probe,
    Call::ProbeGrid,
    Call::Step,
    Call::Run,
    Call::TotalDepth,
    Call::TotalEnergy,
    Call::Write,
];

/// Those of them that fill fields, those that give doubles, those that step a state,
/// and the totals.
pub const FILLING: [Call; 3] = [Call::PotentialVorticity, Call::Tendencies, Call::ProbeGrid];
pub const PROBING: [Call; 2] = [Call::Probe, Call::ProbeGrid];
pub const STEPPING: [Call; 2] = [Call::Step, Call::Run];
pub const TOTALS: [Call; 2] = [Call::TotalDepth, Call::TotalEnergy];

impl Call {
    /// The fields that the call takes.
    pub fn fields(self) -> &'static [usize] {
        match self {
            Call::PotentialVorticity => &[0, 1, 2, 3, BARRIERS],
            Call::TotalDepth | Call::TotalEnergy | Call::Write => &[0, 1, 2, 3, BARRIERS],
            Call::Tendencies | Call::Probe | Call::ProbeGrid => &[0, 1, 2, 3, BARRIERS, Q],
            Call::Step | Call::Run => &[0, 1, 2, 3, BARRIERS, S],
        }
    }

    pub fn has_work_space(self) -> bool {
        matches!(self, Call::Step | Call::Run)
    }

    pub fn has_run_length(self) -> bool {
        self == Call::Run
    }

    /// Whether the call is lent fields that it fills: test 8.
    pub fn is_filling(self) -> bool {
        FILLING.contains(&self)
    }

    /// Whether the call steps h, u and v in place.
    pub fn is_stepping(self) -> bool {
        STEPPING.contains(&self)
    }

    /// Whether the call is lent a number for a total.
    pub fn is_total(self) -> bool {
        TOTALS.contains(&self)
    }

    /// Whether the call gives doubles.
    pub fn is_probing(self) -> bool {
        PROBING.contains(&self)
    }

    /// How many fields the call is lent to be filled.
    pub fn destinations(self) -> usize {
        match self {
            Call::PotentialVorticity => 1,
            Call::Tendencies | Call::ProbeGrid => 3,
            _ => 0,
        }
    }
}

/// All that the calls can be lent.
#[derive(Clone, Debug, PartialEq)]
pub struct Case {
    pub p: Parameters,
    /// h, b, u, v, q, s
    pub fields: [Vec<i64>; 6],
    pub barriers: Vec<u8>,
    /// The cell that is probed.
    pub cell: usize,
    pub steps: u64,
    pub work: usize,
    /// Lengths of the destinations: q, and dh, du, dv.
    pub vorticity: usize,
    pub destinations: [usize; 3],
    pub timestamp: Timestamp,
    /// Bytes for the record.
    pub record: usize,
    /// What stands in the total and in the answer before the call.
    pub total: i64,
    pub answer: [u64; 8],
}

impl Case {
    /// A state with good things beside it.
    pub fn beside(state: State, q: Vec<i64>, inflow: Vec<i64>) -> Self {
        let State {
            parameters,
            h,
            b,
            u,
            v,
            barriers,
        } = state;
        let cells = h.len();
        Case {
            p: parameters,
            fields: [h, b, u, v, q, inflow],
            barriers,
            cell: 0,
            steps: 3,
            work: 8 * cells,
            vorticity: corners(&parameters),
            destinations: [cells; 3],
            timestamp: 0.into(),
            record: record_size(cells),
            total: UNFILLED,
            answer: UNANSWERED,
        }
    }

    /// Worked example 2 of 01: one cell.
    pub fn example_2() -> Self {
        let parameters = Parameters {
            w: 1,
            n: 1,
            kind: 0,
            g: 9_810,
            c: 10,
            r: 1_000,
        };
        let state = State {
            parameters,
            h: vec![2_000],
            b: vec![0],
            u: vec![100],
            v: vec![-50],
            barriers: vec![0],
        };
        Case::beside(state, vec![328], vec![0])
    }

    /// Worked example 4 of 01: two cells.
    pub fn example_4() -> Self {
        let parameters = Parameters {
            w: 2,
            c: 0,
            ..Case::example_2().p
        };
        let state = State {
            parameters,
            h: vec![2_000, 3_000],
            b: vec![0, 0],
            u: vec![10, 0],
            v: vec![0, 0],
            barriers: vec![0, 0],
        };
        Case::beside(state, vec![0, 0], vec![0, 0])
    }

    /// A closed basin of 3 by 2 cells that every call accepts, a run of three
    /// steps too.
    pub fn basin() -> Self {
        let parameters = Parameters {
            w: 3,
            n: 2,
            kind: 2,
            g: 9_810,
            c: 10,
            r: 1_000_000,
        };
        let state = State {
            parameters,
            h: vec![5_000, 5_100, 5_200, 5_000, 5_050, 5_000],
            b: vec![0, 1, 2, 3, 4, 5],
            u: vec![0, 10, -10, 0, 7, 0],
            v: vec![0, 0, 0, 3, -4, 5],
            barriers: vec![0; 6],
        };
        Case::beside(state, vec![6; 12], vec![-7; 6])
    }

    /// Any case within the limits. A step may leave a bound, no call is refused
    /// otherwise.
    pub fn good(random: &mut Random) -> Self {
        let size = random_size(random);
        Case::good_of_size(random, size)
    }

    pub fn good_of_size(random: &mut Random, size: (usize, usize)) -> Self {
        let kind = random.below(3) as u8;
        Case::good_of_kind(random, size, kind)
    }

    pub fn good_of_kind(random: &mut Random, size: (usize, usize), kind: u8) -> Self {
        let spread = random.pick(&SPREADS);
        let cells = size.0 * size.1;
        let inflow = numbers(random, spread, cells, BOUNDS[S].0, BOUNDS[S].1);
        // One that doubles hold exactly, one that they round, or any. Any q may be
        // lent; the state's own is one.
        let (state, q) = match random.below(12) {
            0 => narrow_state(random, size, kind),
            1 => large_state(random, size, kind),
            2..=4 => {
                let state = random_state(random, spread, size, kind);
                let q = literal::PAPER.vorticity(&state);
                (state, q)
            }
            _ => {
                let state = random_state(random, spread, size, kind);
                let q = random_q(random, spread, &state.parameters);
                (state, q)
            }
        };
        let mut case = Case::beside(state, q, inflow);
        case.cell = place(random, cells).expect("a cell");
        case.steps = random.pick(&[0, 1, 2, 3]);
        if cells <= 64 && random.once_in(8) {
            case.take_long(random.pick(&[9_999, 10_000]));
        }
        case.work += random.pick(&[0, 0, 1, 5]);
        case.vorticity += random.pick(&[0, 0, 1, 5]);
        case.destinations = [(); 3].map(|()| cells + random.pick(&[0, 0, 1, 5]));
        case.timestamp = random_timestamp(random);
        case.record += random.pick(&[0, 0, 1, 5, 60]);
        case.total = random.next() as i64;
        case.answer = any_numbers(random);
        case
    }

    /// A case whose first steps are mostly accepted: slow water, or faster
    /// water that turns, so that both passes and their vorticity matter.
    pub fn gentle(random: &mut Random, size: (usize, usize), kind: u8) -> Self {
        let mut state = random_state(random, Spread::Calm, size, kind);
        let cells = state.h.len();
        if random.once_in(2) {
            state.parameters.c = random.between(-10_000, 10_000);
            state.parameters.r = random.between(100_000, 300_000);
            let speed = random.between(300, 2_000);
            state.u = numbers(random, Spread::Even, cells, -speed, speed);
            state.v = numbers(random, Spread::Even, cells, -speed, speed);
        }
        let most = random.pick(&[0, 2, 100]);
        let (least, most) = random.pick(&[(-most, most), (0, most), (-most, 0)]);
        let inflow = numbers(random, Spread::Even, cells, least, most);
        let q = random_q(random, Spread::Even, &state.parameters);
        let mut case = Case::beside(state, q, inflow);
        case.clear_closed_edges();
        case.work += random.pick(&[0, 0, 1, 5]);
        case
    }

    /// A gentle case moved to the brink: close to a bound of h, of u, of v or
    /// of several, which a step may then leave.
    pub fn brink(random: &mut Random, size: (usize, usize), kind: u8) -> Self {
        let mut case = Case::gentle(random, size, kind);
        let fields = random.pick(&[&[H][..], &[U], &[V], &[U, V], &[H, U, V]]);
        if random.once_in(2) {
            // The first pass hardly moves such water. What the second does comes
            // of the inflow, or of the bottom below a state at rest.
            let [h, b, u, v, _, s] = &mut case.fields;
            let cells = h.len();
            let mut uneven = |low, high| numbers(random, Spread::Even, cells, low, high);
            if fields.contains(&H) {
                *b = uneven(0, 20_000);
                s.fill(0);
            } else {
                b.fill(0);
                *s = uneven(-100, 100);
            }
            h.fill(random.between(5_000, 50_000));
            u.fill(0);
            v.fill(0);
            case.p.c = 0;
        }
        for &field in fields {
            let (low, high) = BOUNDS[field];
            let room = random.pick(&[0, 5, 50, 500]);
            let off = random.between(0, room);
            let numbers = &mut case.fields[field];
            let by = if random.once_in(2) {
                low + off - numbers.iter().min().expect("a cell")
            } else {
                high - off - numbers.iter().max().expect("a cell")
            };
            for number in numbers {
                *number = (*number + by).clamp(low, high);
            }
        }
        case.clear_closed_edges();
        case
    }

    /// Takes a run length that would last, and an inflow of 1,000 mm a step
    /// everywhere, which stops it in time.
    fn take_long(&mut self, steps: u64) {
        self.steps = steps;
        self.fields[S].fill(1_000);
    }

    /// The length of the work space that is lent: as asked, but for lengths that
    /// cannot be lent and are more than enough.
    pub fn lent_work(&self) -> usize {
        let cells = self.p.w.wrapping_mul(self.p.n).min(64 * 64);
        self.work.min(8 * cells + 7)
    }

    /// Whether the grid and q are narrow, as the words of 02 have it.
    pub fn is_narrow(&self) -> bool {
        let [h, b, u, v, q, _] = &self.fields;
        let heights = h.iter().chain(b).all(|&x| x <= 10_000);
        let velocities = u.iter().chain(v).all(|x| (-500..=500).contains(x));
        heights && velocities && q.iter().all(|x| (-1_000_000..=1_000_000).contains(x))
    }

    /// The state by itself.
    pub fn state(&self) -> State {
        let [h, b, u, v, ..] = self.fields.clone();
        State {
            parameters: self.p,
            h,
            b,
            u,
            v,
            barriers: self.barriers.clone(),
        }
    }

    /// How many numbers a field has.
    pub fn length(&self, field: usize) -> usize {
        let numbers = self.fields.get(field);
        numbers.map_or(self.barriers.len(), Vec::len)
    }

    /// Makes a field so long, by harmless numbers.
    pub fn resize(&mut self, field: usize, length: usize) {
        match self.fields.get_mut(field) {
            Some(numbers) => numbers.resize(length, HARMLESS[field]),
            None => self.barriers.resize(length, 0),
        }
    }

    /// The same of all fields, whatever the grid.
    pub fn resize_all(&mut self, length: usize) {
        (0..BOUNDS.len()).for_each(|field| self.resize(field, length));
    }

    /// How many numbers a field has to have: one a corner, or one a cell.
    pub fn needed(&self, field: usize) -> usize {
        match field {
            Q => corners(&self.p),
            _ => self.p.w * self.p.n,
        }
    }

    /// Makes all that is lent just as long as a known grid needs it.
    pub fn fit(&mut self) {
        for field in 0..BOUNDS.len() {
            self.resize(field, self.needed(field));
        }
        self.work = 8 * self.needed(H);
        self.fit_destinations();
    }

    fn fit_destinations(&mut self) {
        self.vorticity = self.needed(Q);
        self.destinations = [self.needed(H); 3];
        self.record = record_size(self.needed(H));
    }

    /// Takes another kind, and as many corners as it has where they were right.
    pub fn set_kind(&mut self, kind: u8) {
        let before = needed_at_most(self, Q);
        self.p.kind = kind;
        let after = needed_at_most(self, Q);
        if self.length(Q) == before {
            self.resize(Q, after);
        }
        if self.vorticity >= before {
            self.vorticity = after + (self.vorticity - before);
        }
    }

    /// The length of the k-th destination of a call.
    pub fn destination(&self, call: Call, k: usize) -> usize {
        match call {
            Call::PotentialVorticity => self.vorticity,
            _ => self.destinations[k],
        }
    }

    /// Makes it so long.
    pub fn set_destination(&mut self, call: Call, k: usize, length: usize) {
        match call {
            Call::PotentialVorticity => self.vorticity = length,
            _ => self.destinations[k] = length,
        }
    }

    /// The places that a destination of a call has to have.
    pub fn destination_needed(&self, call: Call) -> usize {
        match call {
            Call::PotentialVorticity => self.needed(Q),
            _ => self.needed(H),
        }
    }

    /// Puts a number into a cell; a shortened field may not have it.
    pub fn put(&mut self, field: usize, cell: usize, number: i64) {
        let byte = || u8::try_from(number).expect("a byte");
        match self.fields.get_mut(field) {
            Some(numbers) => {
                if let Some(place) = numbers.get_mut(cell) {
                    *place = number;
                }
            }
            None => {
                if let Some(place) = self.barriers.get_mut(cell) {
                    *place = byte();
                }
            }
        }
    }

    /// The number of a cell.
    pub fn number(&self, field: usize, cell: usize) -> i64 {
        match self.fields.get(field) {
            Some(numbers) => numbers[cell],
            None => self.barriers[cell].into(),
        }
    }

    /// Whether a field has this number.
    pub fn has(&self, field: usize, number: i64) -> bool {
        (0..self.length(field)).any(|cell| self.number(field, cell) == number)
    }

    /// Whether a velocity other than 0 at this place is a refusal 5, as the words
    /// of 01 and 02 have it.
    pub fn is_closed(&self, field: usize, cell: usize) -> bool {
        let Parameters { w, kind, .. } = self.p;
        let barrier = self.barriers.get(cell).unwrap_or(&0);
        match field {
            U => kind == 2 && cell.checked_rem(w) == Some(0) || barrier & 1 != 0,
            V => (kind == 1 || kind == 2) && cell < w || barrier & 2 != 0,
            _ => false,
        }
    }

    /// The cells whose edges of u, or of v, are closed.
    pub fn closed(&self, field: usize) -> Vec<usize> {
        let cells = 0..self.fields[field].len();
        cells.filter(|&cell| self.is_closed(field, cell)).collect()
    }

    /// Whether no edge is closed.
    pub fn is_open(&self) -> bool {
        let open = |cell| !self.is_closed(U, cell) && !self.is_closed(V, cell);
        (0..self.fields[U].len()).all(open)
    }

    pub fn clear_closed_edges(&mut self) {
        for field in [U, V] {
            for cell in self.closed(field) {
                self.fields[field][cell] = 0;
            }
        }
    }

    /// Takes away the cause of a refusal that was told, so that the next cause
    /// comes to light.
    pub fn mend(&mut self, told: &[u64]) {
        match *told {
            [1] => {
                self.p.w = self.fields[H].len().clamp(1, 64);
                self.p.n = 1;
                self.p.kind %= 3;
                self.steps = 0;
            }
            [2] => {
                for field in 0..BOUNDS.len() {
                    self.resize(field, self.needed(field));
                }
                self.work = 8 * self.needed(H);
                // The inflow that would stop a long run may have gone.
                self.steps = self.steps.min(3);
            }
            [3] => (self.p.g, self.p.c, self.p.r) = (1, 0, 1_000),
            [4 | 5, field, cell] => {
                let field = field as usize;
                self.put(field, cell as usize, HARMLESS[field]);
            }
            [8] => self.fit_destinations(),
            [9] => self.timestamp.milliseconds = 999,
            [10] => self.cell = 0,
            _ => panic!("{told:?} is no refusal of these calls: {self:?}"),
        }
    }
}

/// Width and height: mostly small, with single cells, rows and columns, and up
/// to 64 by 64 now and then.
pub fn random_size(random: &mut Random) -> (usize, usize) {
    match random.below(100) {
        0 => (64, 64),
        1 => (1 + random.below(64), 1 + random.below(64)),
        2..=6 => (1, 1),
        7..=14 => (1, 1 + random.below(64)),
        15..=22 => (1 + random.below(64), 1),
        _ => (1 + random.below(8), 1 + random.below(8)),
    }
}

/// Width and height of grids that many steps are taken on.
pub fn small_size(random: &mut Random) -> (usize, usize) {
    match random.below(10) {
        0 => (1, 1 + random.below(6)),
        1 => (1 + random.below(6), 1),
        2 => (1 + random.below(8), 1 + random.below(8)),
        _ => (1 + random.below(4), 1 + random.below(4)),
    }
}

/// What is done to a good case. Some of these leave it good.
#[derive(Clone, Copy, Debug, PartialEq)]
pub enum Fault {
    /// A number one past a bound.
    OnePast,
    /// A number far outside.
    FarPast,
    /// Some numbers outside, in one field or in several.
    SeveralPast,
    /// G, c or R one past a bound.
    ConstantOnePast,
    /// G, c or R far outside.
    ConstantFarPast,
    /// A field one number too short or too long.
    LengthByOne,
    /// A field of another length, often empty.
    OtherLength,
    /// All fields empty.
    AllEmpty,
    /// w or n unknown, often one that a narrower number would take for known.
    Side,
    /// w and n that cannot be known, although w·n in 64 bits is the length of
    /// the fields.
    WrappingSides,
    /// w or n too great, although w·n is the length of the fields.
    LongSides,
    /// Any kind.
    Kind,
    /// A run length at its bound or above it.
    Steps,
    /// Another length of the work space, short or long.
    Work,
    /// A destination one place too short, or empty.
    ShortDestination,
    /// Destinations of any lengths up to what is needed.
    OtherDestinations,
    /// A record one byte too short, or shorter.
    ShortRecord,
    /// Milliseconds at their bound or above it.
    Milliseconds,
    /// A cell to be probed that is the last one, or past it.
    Cell,
    /// A velocity on a closed edge.
    ClosedEdge,
    /// Velocities on some closed edges of u and v.
    ClosedEdges,
    /// Velocities on open edges next to closed ones.
    OpenEdges,
    /// A velocity outside its bounds on a closed edge.
    ClosedEdgePast,
    /// Barriers on edges with a velocity.
    BarredVelocities,
}

pub const FAULTS: [Fault; 24] = [
    Fault::OnePast,
    Fault::FarPast,
    Fault::SeveralPast,
    Fault::ConstantOnePast,
    Fault::ConstantFarPast,
    Fault::LengthByOne,
    Fault::OtherLength,
    Fault::AllEmpty,
    Fault::Side,
    Fault::WrappingSides,
    Fault::LongSides,
    Fault::Kind,
    Fault::Steps,
    Fault::Work,
    Fault::ShortDestination,
    Fault::OtherDestinations,
    Fault::ShortRecord,
    Fault::Milliseconds,
    Fault::Cell,
    Fault::ClosedEdge,
    Fault::ClosedEdges,
    Fault::OpenEdges,
    Fault::ClosedEdgePast,
    Fault::BarredVelocities,
];

impl Fault {
    pub fn put(self, random: &mut Random, case: &mut Case) {
        match self {
            Fault::OnePast => {
                let field = random.below(7);
                put_past(random, case, field, one_past);
            }
            Fault::FarPast => {
                let field = random.below(7);
                put_past(random, case, field, far_past);
            }
            Fault::SeveralPast => {
                let same = random.once_in(2);
                let mut field = random.below(7);
                for _ in 0..2 + random.below(4) {
                    let past = random.pick(&[one_past, far_past]);
                    put_past(random, case, field, past);
                    if !same {
                        field = random.below(7);
                    }
                }
            }
            Fault::ConstantOnePast => put_constant(random, case, one_past),
            Fault::ConstantFarPast => put_constant(random, case, far_past),
            Fault::LengthByOne => {
                let field = random.below(7);
                let length = case.length(field);
                let length = random.pick(&[length.saturating_sub(1), length + 1]);
                case.resize(field, length);
            }
            Fault::OtherLength => {
                let field = random.below(7);
                let length = case.length(field);
                let length = match random.below(4) {
                    0 => 0,
                    1 if field == Q => case.length(H),
                    1 => 2 * length,
                    _ => random.below(2 * length + 2),
                };
                case.resize(field, length);
            }
            Fault::AllEmpty => case.resize_all(0),
            Fault::Side => {
                let two_to = |power: u32| 1usize << power;
                let known = random.pick(&[case.p.w, case.p.n]);
                let side = match random.below(4) {
                    0 => random.pick(&[0, 65]),
                    1 => random.pick(&[66, two_to(32), two_to(63), usize::MAX, usize::MAX - 63]),
                    // The low bits are those of a known side.
                    2 => known.wrapping_add(two_to(random.pick(&[8, 16, 31, 32, 63]))),
                    _ => random.next() as usize,
                };
                match random.below(5) {
                    0 | 1 => case.p.w = side,
                    2 | 3 => case.p.n = side,
                    _ => (case.p.w, case.p.n) = (side, side),
                }
            }
            Fault::WrappingSides => {
                if random.once_in(2) {
                    // An odd w has a partner that makes any product.
                    let w = random.next() as usize | 1;
                    case.p.w = w;
                    case.p.n = case.fields[H].len().wrapping_mul(inverse(w));
                } else {
                    let to_0 = [
                        (1 << 32, 1 << 32),
                        (1 << 63, 2),
                        (4, 1 << 62),
                        (0, 0),
                        (0, 5),
                        (7, 0),
                        (0, usize::MAX),
                    ];
                    (case.p.w, case.p.n) = random.pick(&to_0);
                    case.resize_all(0);
                }
                let length = case.fields[H].len();
                case.work = 8 * length;
                case.vorticity = length;
                case.destinations = [length; 3];
                case.record = record_size(length);
            }
            Fault::LongSides => {
                let sides = [
                    (65, 1),
                    (1, 65),
                    (65, 63),
                    (128, 32),
                    (2, 2_048),
                    (4_096, 1),
                ];
                let (w, n) = random.pick(&sides);
                (case.p.w, case.p.n) = (w, n);
                case.resize_all(w * n);
                case.work = 8 * w * n;
                case.vorticity = w * n;
                case.destinations = [w * n; 3];
                case.record = record_size(w * n);
            }
            Fault::Kind => case.p.kind = random.next() as u8,
            Fault::Steps => {
                let near = [0, 10_000, 10_001, 10_002];
                let far = [1 << 32, (1 << 32) + 5, 1 << 63, u64::MAX];
                let steps = match random.below(3) {
                    0 => random.pick(&near),
                    1 => random.pick(&far),
                    _ => random.next(),
                };
                case.take_long(steps);
            }
            Fault::Work => {
                let cells = case.p.w.wrapping_mul(case.p.n);
                let needed = cells.wrapping_mul(8);
                case.work = match random.below(3) {
                    0 => needed.wrapping_sub(1),
                    1 => random.pick(&[
                        0,
                        cells,
                        needed.wrapping_sub(cells),
                        1 << 32,
                        1 << 63,
                        usize::MAX,
                    ]),
                    _ => random.below(needed.saturating_mul(2).max(1)),
                };
            }
            Fault::ShortDestination => {
                let last = needed_at_most(case, H).saturating_sub(1);
                case.destinations[random.below(3)] = random.pick(&[0, last, last]);
                let last = needed_at_most(case, Q).saturating_sub(1);
                case.vorticity = random.pick(&[0, last, last, case.vorticity]);
            }
            Fault::OtherDestinations => {
                let needed = needed_at_most(case, H);
                let lengths = [0, needed, random.below(needed + 1)];
                case.destinations = [(); 3].map(|()| random.pick(&lengths));
                // A place a cell is too few where there are walls.
                let corners = needed_at_most(case, Q);
                let any = random.below(corners + 1);
                case.vorticity = random.pick(&[0, needed, corners, any]);
            }
            Fault::ShortRecord => {
                let cells = needed_at_most(case, H);
                let needed = record_size(cells);
                // Short by a cell, by tag 9, by tags 8 and 9, of the fields alone,
                // of no cell at all.
                let lengths = [
                    needed - 13,
                    needed - tag_9(cells),
                    needed - TAG_8 - tag_9(cells),
                    13 * cells,
                    record_size(0).min(needed - 1),
                ];
                case.record = match random.below(4) {
                    0 => needed - 1,
                    1 => 0,
                    2 => random.pick(&lengths),
                    _ => random.below(needed),
                };
            }
            Fault::Milliseconds => case.timestamp.milliseconds = late_milliseconds(random),
            Fault::Cell => {
                let (cells, any) = (needed_at_most(case, H), random.next() as usize);
                case.cell = match random.below(3) {
                    0 => random.pick(&[cells.saturating_sub(1), cells, cells + 1]),
                    // The low bits are those of a cell.
                    1 => random.below(cells.max(1)) + (1 << random.pick(&[12, 32, 63])),
                    _ => random.pick(&[4_096, usize::MAX, any]),
                };
            }
            Fault::ClosedEdge => put_on_edges(random, case, 1, velocity),
            Fault::ClosedEdges => {
                let times = 2 + random.below(4);
                put_on_edges(random, case, times, velocity);
            }
            Fault::ClosedEdgePast => put_on_edges(random, case, 1, |random| {
                let bounds = BOUNDS[U];
                one_past(random, bounds)
            }),
            Fault::BarredVelocities => {
                for _ in 0..1 + random.below(3) {
                    let (field, bit) = random.pick(&[(U, 1), (V, 2)]);
                    let moving: Vec<_> = (0..case.length(field))
                        .filter(|&cell| case.fields[field][cell] != 0)
                        .collect();
                    if let Some(at) = place(random, moving.len()) {
                        // Barriers may be fewer than velocities.
                        if let Some(barrier) = case.barriers.get_mut(moving[at]) {
                            *barrier |= bit;
                        }
                    }
                }
            }
            Fault::OpenEdges => {
                let (w, n) = (case.p.w, case.p.n);
                for _ in 0..1 + random.below(4) {
                    // Columns 0 and 1 and the last of u, rows 0 and 1 and the
                    // last of v.
                    let field = random.pick(&[U, V]);
                    let mut place = [random.below(w.clamp(1, 64)), random.below(n.clamp(1, 64))];
                    let across = field - U;
                    let last = [w, n][across].wrapping_sub(1);
                    place[across] = random.pick(&[0, 1, last]);
                    let cell = place[1].wrapping_mul(w).wrapping_add(place[0]);
                    if !case.is_closed(field, cell) {
                        if let Some(number) = case.fields[field].get_mut(cell) {
                            *number = velocity(random);
                        }
                    }
                }
            }
        }
    }
}

/// A good case with some faults put into it.
pub fn random_case(random: &mut Random) -> (Case, Vec<Fault>) {
    let mut case = Case::good(random);
    let times = match random.below(20) {
        0..=4 => 0,
        5..=12 => 1,
        13..=16 => 2,
        _ => 3 + random.below(3),
    };
    let faults = put_faults(random, &mut case, times);
    (case, faults)
}

/// Puts so many faults into a case.
pub fn put_faults(random: &mut Random, case: &mut Case, times: usize) -> Vec<Fault> {
    let faults: Vec<_> = (0..times).map(|_| random.pick(&FAULTS)).collect();
    for fault in &faults {
        fault.put(random, case);
    }
    faults
}

/// Adds one to the counts of what happened.
pub fn add<const N: usize>(counts: &mut [usize; N], happened: [bool; N]) {
    for (count, happened) in counts.iter_mut().zip(happened) {
        *count += usize::from(happened);
    }
}

/// Eight numbers that may stand in an answer before a call.
pub fn any_numbers(random: &mut Random) -> [u64; 8] {
    [(); 8].map(|()| random_number(random))
}

/// Milliseconds near their bound, above it, or so large that their low bytes are
/// those of a number within.
fn late_milliseconds(random: &mut Random) -> u64 {
    let within = random.below(1_000) as u64;
    match random.below(4) {
        0 => random.pick(&[999, 1_000, 1_001, 1_023, 1_024, 0xFFFF]),
        1 => within + (1 << random.pick(&[10, 16, 32, 63])),
        2 => random.pick(&[1 << 16, 1 << 32, 1 << 63, u64::MAX]),
        _ => random_number(random),
    }
}

/// The cells of a grid, or of q the corners, as many as a known one can have.
fn needed_at_most(case: &Case, field: usize) -> usize {
    match field {
        Q => corners(&case.p).min(65 * 65),
        _ => case.p.w.wrapping_mul(case.p.n).min(64 * 64),
    }
}

/// The inverse of an odd number, modulo 2^64.
fn inverse(odd: usize) -> usize {
    // Right in 3 bits at first, and in twice as many after each round.
    let mut inverse = odd;
    for _ in 0..5 {
        inverse = inverse.wrapping_mul(2usize.wrapping_sub(odd.wrapping_mul(inverse)));
    }
    assert_eq!(odd.wrapping_mul(inverse), 1);
    inverse
}

/// A place in a field of this length, if there is one: often the first or the
/// last.
fn place(random: &mut Random, length: usize) -> Option<usize> {
    let last = length.checked_sub(1)?;
    Some(match random.below(4) {
        0 => 0,
        1 => last,
        _ => random.below(length),
    })
}

fn one_past(random: &mut Random, (low, high): (i64, i64)) -> i64 {
    random.pick(&[low - 1, high + 1])
}

fn far_past(random: &mut Random, (low, high): (i64, i64)) -> i64 {
    match random.below(3) {
        0 => random.pick(&[i64::MIN, i64::MIN + 1, i64::MAX, 1 << 32, -(1 << 32)]),
        // The low bits are those of a number within.
        1 => random.between(low, high) + (random.pick(&[-1, 1]) << random.pick(&[32, 48, 62])),
        _ => match random.next() as i64 {
            number if (low..=high).contains(&number) => high + 1,
            number => number,
        },
    }
}

type Past = fn(&mut Random, (i64, i64)) -> i64;

fn put_past(random: &mut Random, case: &mut Case, field: usize, past: Past) {
    if let Some(cell) = place(random, case.length(field)) {
        let number = match field {
            // A byte, near the bound or any.
            BARRIERS => {
                let any = random.between(4, 255);
                random.pick(&[4, 255, any])
            }
            _ => past(random, BOUNDS[field]),
        };
        case.put(field, cell, number);
    }
}

fn put_constant(random: &mut Random, case: &mut Case, past: Past) {
    match random.below(3) {
        0 => case.p.g = past(random, (1, 10_000)),
        1 => case.p.c = past(random, (-10_000, 10_000)),
        _ => case.p.r = past(random, (1_000, 1_000_000)),
    }
}

/// A velocity within its bounds, other than 0.
fn velocity(random: &mut Random) -> i64 {
    let speed = random.pick(&[1, 2, 300, 4_999, 5_000]);
    random.pick(&[-speed, speed])
}

/// Puts numbers on closed edges of a grid that has some.
fn put_on_edges(
    random: &mut Random,
    case: &mut Case,
    times: usize,
    number: impl Fn(&mut Random) -> i64,
) {
    if case.is_open() {
        case.set_kind(1 + random.below(2) as u8);
        case.clear_closed_edges();
    }
    for _ in 0..times {
        let mut field = random.pick(&[U, V]);
        if case.closed(field).is_empty() {
            field = U + V - field;
        }
        let closed = case.closed(field);
        if let Some(at) = place(random, closed.len()) {
            case.fields[field][closed[at]] = number(random);
        }
    }
}
