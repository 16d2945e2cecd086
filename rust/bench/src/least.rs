//! The smallest slope and the smallest current that a step still moves: by
//! formula, and by trying with the core.

use basin::{Parameters, Refusal};
use forecast::State;

use crate::dock::{run_on, still};

/// The smallest difference of level between two neighbours, in mm, that sets
/// water at rest in motion along a straight front. A step adds rnd(G·s/R) to the
/// velocity there, which is 0 below R/(2G).
pub fn slope(r: i64, g: i64) -> i64 {
    (r + 2 * g - 1) / (2 * g)
}

/// The smallest velocity, in mm/s, that carries water over an edge where the
/// water is h deep on both sides. A step carries rnd(u·h/R) mm, which is 0 below
/// R/(2h).
pub fn current(r: i64, h: i64) -> i64 {
    (r + 2 * h - 1) / (2 * h)
}

/// The smallest of 1 to `most` that does it, by halving: where a number does it,
/// all above do. `None` where not even `most` does.
pub fn smallest(most: i64, does: impl Fn(i64) -> bool) -> Option<i64> {
    let (mut below, mut known) = (0, most);
    if !does(most) {
        return None;
    }
    while known - below > 1 {
        let middle = (below + known) / 2;
        match does(middle) {
            true => known = middle,
            false => below = middle,
        }
    }
    Some(known)
}

/// The greatest difference of level that two depths and bottoms allow.
pub const STEEPEST: i64 = 199_000;

/// Which way a slope or current points.
#[derive(Clone, Copy, Debug, PartialEq)]
pub enum Way {
    East,
    West,
    North,
    South,
}

pub const WAYS: [Way; 4] = [Way::East, Way::West, Way::North, Way::South];

const SIDE: usize = 8;

fn basin(r: i64, g: i64, c: i64) -> State {
    let (w, n) = (SIDE, SIDE);
    still(Parameters {
        w,
        n,
        kind: 2,
        g,
        c,
        r,
    })
}

/// Whether a step changes a velocity, where the half of a closed basin that lies
/// this way stands so many mm higher than the other half, all at rest.
pub fn slope_moves(r: i64, g: i64, c: i64, way: Way, slope: i64) -> bool {
    let mut dock = basin(r, g, c);
    for k in 0..SIDE * SIDE {
        let high = match way {
            Way::East => k % SIDE >= SIDE / 2,
            Way::West => k % SIDE < SIDE / 2,
            Way::North => k / SIDE >= SIDE / 2,
            Way::South => k / SIDE < SIDE / 2,
        };
        if high {
            // What is more than the depth may be stands on a higher bottom.
            let deeper = slope.min(99_000);
            dock.h[k] += deeper;
            dock.b[k] += slope - deeper;
        }
    }
    step_changes(dock, |dock| (dock.u.clone(), dock.v.clone()))
}

/// Whether a step changes a depth, where water of one depth is at rest in a closed
/// basin, but for the velocity of this many edges in a line. Of a current that is
/// the same everywhere nobody would see what it carries: each cell gains as much as
/// it loses. First come R, G and c.
pub fn current_moves(
    (r, g, c): (i64, i64, i64),
    h: i64,
    edges: usize,
    way: Way,
    speed: i64,
) -> bool {
    let mut dock = basin(r, g, c);
    dock.h.fill(h);
    for along in 2..2 + edges {
        let (in_row, in_column) = (SIDE / 2 * SIDE + along, along * SIDE + SIDE / 2);
        match way {
            Way::East => dock.u[in_row] = speed,
            Way::West => dock.u[in_row] = -speed,
            Way::North => dock.v[in_column] = speed,
            Way::South => dock.v[in_column] = -speed,
        }
    }
    step_changes(dock, |dock| dock.h.clone())
}

/// Whether a step leaves something other than before. Leaving a bound is a change.
fn step_changes<T: PartialEq>(mut dock: State, of: impl Fn(&State) -> T) -> bool {
    let before = of(&dock);
    match run_on(&mut dock, 1) {
        Ok(ran) => matches!(ran.stopped, Some(Refusal::OutOfBounds { .. })) || of(&dock) != before,
        Err(refusal) => panic!("{refusal}"),
    }
}
