//! A state and its timestamp, their limits, the grid, and refusals 1 to 5 and 8 to
//! 10.

use std::ops::{Range, RangeInclusive};

use crate::refusal::{Field, Refusal};

/// Least and greatest w and n.
pub const SIDE: RangeInclusive<usize> = 1..=64;
/// h, mm
pub const DEPTH: RangeInclusive<i64> = 1_000..=100_000;
/// b, mm
pub const BOTTOM: RangeInclusive<i64> = 0..=100_000;
/// u and v, mm/s
pub const VELOCITY: RangeInclusive<i64> = -5_000..=5_000;
/// A byte of the barriers.
pub const BARRIER: RangeInclusive<i64> = 0..=3;
/// q
pub const VORTICITY: RangeInclusive<i64> = -2_000_000..=2_000_000;
/// s, mm a step
pub const INFLOW: RangeInclusive<i64> = -1_000..=1_000;
/// G, mm/s²
pub const GRAVITY: RangeInclusive<i64> = 1..=10_000;
/// c, mm/s
pub const CORIOLIS: RangeInclusive<i64> = -10_000..=10_000;
/// R, mm/s
pub const RATIO: RangeInclusive<i64> = 1_000..=1_000_000;
/// Most steps of one run.
pub const MAX_STEPS: u64 = 10_000;
/// Milliseconds of a timestamp.
pub const MILLISECONDS: RangeInclusive<u64> = 0..=999;
/// Work space of a step or run, in numbers per cell.
pub const WORK_PER_CELL: usize = 8;

/// The bit of a barrier that closes the west edge of its cell.
const WEST: u8 = 1;
/// The bit that closes the south edge.
const SOUTH: u8 = 2;

/// The scalars of a state. Any numbers may stand here; the calls test them.
#[derive(Clone, Copy, Debug, PartialEq, Eq)]
pub struct Parameters {
    /// Columns.
    pub w: usize,
    /// Rows.
    pub n: usize,
    /// The byte of a [`Boundary`].
    pub kind: u8,
    /// G, gravity in mm/s².
    pub g: i64,
    /// Coriolis parameter times spacing, mm/s.
    pub c: i64,
    /// R, spacing over time step, mm/s.
    pub r: i64,
}

impl Parameters {
    /// The numbers of q, one a corner; 0 where a call refuses with 1.
    pub fn corners(&self) -> usize {
        test_grid(self).map_or(0, Grid::corners)
    }
}

/// A moment, counted from 2000-01-01 00:00 (01: stamp). Any numbers may stand
/// here; the calls test them. Moments are ordered by second, then millisecond.
#[derive(Clone, Copy, Debug, PartialEq, Eq, PartialOrd, Ord)]
pub struct Timestamp {
    /// Whole seconds.
    pub seconds: u64,
    /// Milliseconds past them.
    pub milliseconds: u64,
}

/// A whole second.
impl From<u64> for Timestamp {
    fn from(seconds: u64) -> Self {
        Timestamp {
            seconds,
            milliseconds: 0,
        }
    }
}

/// A whole state that owns its fields.
#[derive(Clone, Debug, PartialEq, Eq)]
pub struct State {
    pub parameters: Parameters,
    pub h: Vec<i64>,
    pub b: Vec<i64>,
    pub u: Vec<i64>,
    pub v: Vec<i64>,
    /// What closes edges inside the grid (02: piers), a byte per cell: 1 its west
    /// edge, 2 its south edge, 3 both.
    pub barriers: Vec<u8>,
}

impl State {
    pub(crate) fn fields(&self) -> Fields<'_> {
        Fields {
            h: &self.h,
            b: &self.b,
            u: &self.u,
            v: &self.v,
            barriers: &self.barriers,
        }
    }
}

/// The fields of a state, borrowed.
#[derive(Clone, Copy)]
pub(crate) struct Fields<'a> {
    pub h: &'a [i64],
    pub b: &'a [i64],
    pub u: &'a [i64],
    pub v: &'a [i64],
    pub barriers: &'a [u8],
}

/// What closes the grid (01: the seam). Cells wrap all the same; corners wrap only
/// where there is no wall.
#[derive(Clone, Copy, Debug, PartialEq, Eq)]
pub enum Boundary {
    /// Kind 0: no closed edge.
    Periodic,
    /// Kind 1: a wall along the south edges of row 0.
    Channel,
    /// Kind 2: a wall along the west edges of column 0 as well.
    Basin,
}

impl Boundary {
    pub fn from_byte(kind: u8) -> Option<Self> {
        match kind {
            0 => Some(Boundary::Periodic),
            1 => Some(Boundary::Channel),
            2 => Some(Boundary::Basin),
            _ => None,
        }
    }

    fn closes_south(self) -> bool {
        match self {
            Boundary::Periodic => false,
            Boundary::Channel | Boundary::Basin => true,
        }
    }

    fn closes_west(self) -> bool {
        match self {
            Boundary::Periodic | Boundary::Channel => false,
            Boundary::Basin => true,
        }
    }
}

/// A grid that has passed test 1, so that w·n is at most 4,096.
#[derive(Clone, Copy, Debug)]
pub(crate) struct Grid {
    pub w: usize,
    pub n: usize,
    boundary: Boundary,
}

/// The indices of a cell and of those around it, which wrap both ways, and of its
/// own four corners.
#[derive(Clone, Copy)]
pub(crate) struct Stencil {
    pub here: usize,
    pub east: usize,
    pub west: usize,
    pub north: usize,
    pub south: usize,
    pub northwest: usize,
    pub southeast: usize,
    pub southwest: usize,
    pub corners: Corners,
}

/// The indices of a cell's corners in a q.
#[derive(Clone, Copy)]
pub(crate) struct Corners {
    pub ne: usize,
    pub nw: usize,
    pub sw: usize,
    pub se: usize,
}

/// The cells on the inner side of a corner that is on a wall.
#[derive(Clone, Copy)]
pub(crate) enum Inside {
    /// Along a wall. They may be one cell, twice.
    Two(usize, usize),
    /// Where two walls meet.
    One(usize),
}

impl Grid {
    pub fn cells(self) -> usize {
        self.w * self.n
    }

    /// Columns of corners. Walls in the west and in the east have one each; where
    /// there are none, the column of the west is that of the east.
    fn corner_columns(self) -> usize {
        match self.boundary {
            Boundary::Periodic | Boundary::Channel => self.w,
            Boundary::Basin => self.w + 1,
        }
    }

    /// Rows of corners, likewise.
    fn corner_rows(self) -> usize {
        match self.boundary {
            Boundary::Periodic => self.n,
            Boundary::Channel | Boundary::Basin => self.n + 1,
        }
    }

    /// The numbers of a q.
    pub fn corners(self) -> usize {
        self.corner_columns() * self.corner_rows()
    }

    /// The corners of the cell in column i of row j.
    #[inline]
    fn corners_of(self, i: usize, j: usize) -> Corners {
        let columns = self.corner_columns();
        let (east, north) = (after(i, columns), after(j, self.corner_rows()));
        Corners {
            ne: north * columns + east,
            nw: north * columns + i,
            sw: j * columns + i,
            se: j * columns + east,
        }
    }

    /// Fills a list by corners: by one rule off the walls, where a corner is the
    /// southwest one of the cell that it is told of, and by another on them.
    #[inline]
    pub fn fill_corners(
        self,
        out: &mut [i64],
        open: impl Fn(Stencil) -> i64,
        on_wall: impl Fn(Inside) -> i64,
    ) {
        let walled = self.boundary.closes_west();
        let between = usize::from(walled)..self.w;
        for (y, row) in out.chunks_exact_mut(self.corner_columns()).enumerate() {
            let wall = self.cells_beside_wall(y);
            match wall {
                None => {
                    for x in between.clone() {
                        row[x] = open(self.stencil(x, y));
                    }
                }
                Some(j) => {
                    for x in between.clone() {
                        let inside = self.stencil(x, j);
                        row[x] = on_wall(Inside::Two(inside.west, inside.here));
                    }
                }
            }
            if walled {
                row[0] = on_wall(self.inside_of_side(0, y, wall));
                row[self.w] = on_wall(self.inside_of_side(self.w - 1, y, wall));
            }
        }
    }

    /// The row of cells inside a row of corners that is on the south wall or on the
    /// north wall; none where it is on neither.
    fn cells_beside_wall(self, y: usize) -> Option<usize> {
        if !self.boundary.closes_south() {
            None
        } else if y == 0 {
            Some(0)
        } else if y == self.n {
            Some(self.n - 1)
        } else {
            None
        }
    }

    /// The cells inside of a corner on the west wall or on the east wall, where they
    /// are in column i. The corner is in row y, which may be on a wall too.
    fn inside_of_side(self, i: usize, y: usize, wall: Option<usize>) -> Inside {
        match wall {
            None => {
                let inside = self.stencil(i, y);
                Inside::Two(inside.south, inside.here)
            }
            Some(j) => Inside::One(self.stencil(i, j).here),
        }
    }

    /// The numbers of work space that a step or run uses.
    pub fn work(self) -> usize {
        WORK_PER_CELL * self.cells()
    }

    /// The row south of row j; it wraps.
    pub fn row_south(self, j: usize) -> usize {
        before(j, self.n)
    }

    #[inline]
    pub fn stencil(self, i: usize, j: usize) -> Stencil {
        let (east, west) = (after(i, self.w), before(i, self.w));
        let row = j * self.w;
        let north = after(j, self.n) * self.w;
        let south = before(j, self.n) * self.w;
        Stencil {
            here: row + i,
            east: row + east,
            west: row + west,
            north: north + i,
            south: south + i,
            northwest: north + west,
            southeast: south + east,
            southwest: south + west,
            corners: self.corners_of(i, j),
        }
    }

    /// Visits the cells in index order.
    #[inline]
    pub fn for_each(self, mut visit: impl FnMut(Stencil)) {
        for j in 0..self.n {
            for i in 0..self.w {
                visit(self.stencil(i, j));
            }
        }
    }

    /// The cells whose west edge the boundary closes, in index order.
    fn west_wall(self) -> impl Iterator<Item = usize> {
        let closed = self.boundary.closes_west();
        (0..if closed { self.cells() } else { 0 }).step_by(self.w)
    }

    /// The cells whose south edge the boundary closes, in index order.
    fn south_wall(self) -> Range<usize> {
        let closed = self.boundary.closes_south();
        0..if closed { self.w } else { 0 }
    }

    /// Writes 0 on the closed edges of a pair of edge fields: those that the
    /// boundary closes, and those that a barrier closes.
    pub fn close_edges<T: Default>(self, barriers: &[u8], u: &mut [T], v: &mut [T]) {
        self.west_wall().for_each(|cell| u[cell] = T::default());
        self.south_wall().for_each(|cell| v[cell] = T::default());
        for ((u, v), barrier) in u.iter_mut().zip(v).zip(barriers) {
            if barrier & WEST != 0 {
                *u = T::default();
            }
            if barrier & SOUTH != 0 {
                *v = T::default();
            }
        }
    }

    /// Test 5: u before v, lowest cell.
    fn test_closed_edges(self, fields: Fields) -> Result<(), Refusal> {
        let Fields { u, v, barriers, .. } = fields;
        test_still(Field::VelocityU, u, self.west_wall(), barriers, WEST)?;
        test_still(Field::VelocityV, v, self.south_wall(), barriers, SOUTH)
    }
}

/// Test 5 of one velocity: it is 0 on the edges of a wall and on those that this
/// bit of a barrier closes.
fn test_still(
    field: Field,
    velocities: &[i64],
    mut wall: impl Iterator<Item = usize>,
    barriers: &[u8],
    bit: u8,
) -> Result<(), Refusal> {
    let at_wall = wall.find(|&cell| velocities[cell] != 0);
    let at_barrier = velocities
        .iter()
        .zip(barriers)
        .position(|(&velocity, barrier)| velocity != 0 && barrier & bit != 0);
    match at_wall.into_iter().chain(at_barrier).min() {
        Some(cell) => Err(Refusal::ClosedEdge { field, cell }),
        None => Ok(()),
    }
}

fn after(i: usize, size: usize) -> usize {
    if i + 1 == size {
        0
    } else {
        i + 1
    }
}

fn before(i: usize, size: usize) -> usize {
    if i == 0 {
        size - 1
    } else {
        i - 1
    }
}

/// A field that a call takes beside the state: q or the inflow.
pub(crate) type Extra<'a> = Option<(Field, &'a [i64])>;

/// Test 1. w·n may be formed only after it.
pub(crate) fn test_grid(p: &Parameters) -> Result<Grid, Refusal> {
    match Boundary::from_byte(p.kind) {
        Some(boundary) if SIDE.contains(&p.w) && SIDE.contains(&p.n) => Ok(Grid {
            w: p.w,
            n: p.n,
            boundary,
        }),
        _ => Err(Refusal::Grid),
    }
}

/// Test 2, but for the work space.
pub(crate) fn test_lengths(grid: Grid, fields: Fields, extra: Extra) -> Result<(), Refusal> {
    let Fields {
        h,
        b,
        u,
        v,
        barriers,
    } = fields;
    let lengths = [h.len(), b.len(), u.len(), v.len(), barriers.len()];
    let extra = extra.is_none_or(|(field, values)| match field {
        Field::Vorticity => values.len() == grid.corners(),
        _ => values.len() == grid.cells(),
    });
    if extra && lengths.into_iter().all(|k| k == grid.cells()) {
        Ok(())
    } else {
        Err(Refusal::Lengths)
    }
}

/// Tests 1 and 2 of a step or run.
pub(crate) fn test_room(
    p: &Parameters,
    fields: Fields,
    inflow: &[i64],
    steps: u64,
    work: usize,
) -> Result<Grid, Refusal> {
    let grid = test_grid(p)?;
    if steps > MAX_STEPS {
        return Err(Refusal::Grid);
    }
    test_lengths(grid, fields, Some((Field::Inflow, inflow)))?;
    if work < grid.work() {
        return Err(Refusal::Lengths);
    }
    Ok(grid)
}

/// Test 3.
fn test_constants(p: &Parameters) -> Result<(), Refusal> {
    if GRAVITY.contains(&p.g) && CORIOLIS.contains(&p.c) && RATIO.contains(&p.r) {
        Ok(())
    } else {
        Err(Refusal::Constants)
    }
}

/// Test 9.
fn test_milliseconds(timestamp: Timestamp) -> Result<(), Refusal> {
    if MILLISECONDS.contains(&timestamp.milliseconds) {
        Ok(())
    } else {
        Err(Refusal::Milliseconds)
    }
}

/// Tests 4 and 5; the lengths have been tested.
fn test_fields(grid: Grid, fields: Fields, extra: Extra) -> Result<(), Refusal> {
    test_bound(Field::Depth, fields.h)?;
    test_bound(Field::Bottom, fields.b)?;
    test_bound(Field::VelocityU, fields.u)?;
    test_bound(Field::VelocityV, fields.v)?;
    test_bound(Field::Barriers, fields.barriers)?;
    if let Some((field, values)) = extra {
        test_bound(field, values)?;
    }
    grid.test_closed_edges(fields)
}

/// Test 4 of one field.
fn test_bound<T: Copy + Into<i64>>(field: Field, values: &[T]) -> Result<(), Refusal> {
    match first_outside(field, values) {
        Some(cell) => Err(Refusal::Value { field, cell }),
        None => Ok(()),
    }
}

/// Tests 3, 4 and 5; the lengths have been tested.
pub(crate) fn test_values(
    p: &Parameters,
    grid: Grid,
    fields: Fields,
    extra: Extra,
) -> Result<(), Refusal> {
    test_constants(p)?;
    test_fields(grid, fields, extra)
}

/// Tests 3, 9, 4 and 5 of what a record holds; the lengths have been tested.
pub(crate) fn test_recorded(
    p: &Parameters,
    timestamp: Timestamp,
    grid: Grid,
    fields: Fields,
) -> Result<(), Refusal> {
    test_constants(p)?;
    test_milliseconds(timestamp)?;
    test_fields(grid, fields, None)
}

/// Tests 1 to 5.
pub(crate) fn test_state(p: &Parameters, fields: Fields, extra: Extra) -> Result<Grid, Refusal> {
    let grid = test_grid(p)?;
    test_lengths(grid, fields, extra)?;
    test_values(p, grid, fields, extra)?;
    Ok(grid)
}

/// Test 8: every destination has at least `needed` places.
pub(crate) fn test_destinations(
    needed: usize,
    lengths: impl IntoIterator<Item = usize>,
) -> Result<(), Refusal> {
    if lengths.into_iter().all(|length| length >= needed) {
        Ok(())
    } else {
        Err(Refusal::Destination)
    }
}

/// Test 10.
pub(crate) fn test_cell(grid: Grid, cell: usize) -> Result<(), Refusal> {
    if cell < grid.cells() {
        Ok(())
    } else {
        Err(Refusal::NoSuchCell)
    }
}

/// The lowest cell whose value, a number or a byte, is outside the field's bound.
pub(crate) fn first_outside<T: Copy + Into<i64>>(field: Field, values: &[T]) -> Option<usize> {
    let bound = match field {
        Field::Depth => DEPTH,
        Field::Bottom => BOTTOM,
        Field::VelocityU | Field::VelocityV => VELOCITY,
        Field::Vorticity => VORTICITY,
        Field::Inflow => INFLOW,
        Field::Barriers => BARRIER,
    };
    values
        .iter()
        .position(|&value| !bound.contains(&value.into()))
}
