//! The two-pass step of 01 in double precision, with each of its roundings or
//! without: what the scheme does by itself. It is written from 01's formulas, with
//! 02's corners on a wall, and has nothing of the core or of the independent version. With all roundings it is
//! the core, number for number, which the tests see.

use forecast::State;

/// Which numbers become whole in each pass.
#[derive(Clone, Copy, Debug)]
pub struct Rounding {
    pub vorticity: bool,
    /// The flows over edges, and so the depths.
    pub flows: bool,
    pub velocities: bool,
}

impl Rounding {
    pub const NONE: Rounding = Rounding {
        vorticity: false,
        flows: false,
        velocities: false,
    };
    pub const ALL: Rounding = Rounding {
        vorticity: true,
        flows: true,
        velocities: true,
    };
}

/// Halves away from zero, as in 01, where it is asked for.
fn whole(rounded: bool, x: f64) -> f64 {
    match rounded {
        true => x.round(),
        false => x,
    }
}

/// A state of doubles.
pub struct Doubles {
    dock: Fixed,
    now: Fields,
    /// Pass 1's result, and the place for pass 2's.
    first: Fields,
    second: Fields,
    work: Work,
}

/// What a step leaves as it is.
struct Fixed {
    rounding: Rounding,
    g: f64,
    c: f64,
    r: f64,
    b: Vec<f64>,
    cells: Vec<Cell>,
    corners: Vec<Corner>,
}

/// The numbers that a step changes.
#[derive(Clone)]
struct Fields {
    h: Vec<f64>,
    u: Vec<f64>,
    v: Vec<f64>,
}

/// Indices of a cell's neighbours and of its corners ne, nw, sw, se, and which of its
/// edges are open.
struct Cell {
    e: usize,
    w: usize,
    n: usize,
    s: usize,
    nw: usize,
    se: usize,
    corners: [usize; 4],
    west_open: bool,
    south_open: bool,
}

/// Indices of the cells around a corner. On a wall they are those inside, so that one
/// stands in two places, or in all four.
struct Corner {
    ne: usize,
    nw: usize,
    sw: usize,
    se: usize,
    on_wall: bool,
}

/// What a pass works out of a state, named as in 01.
struct Work {
    q: Vec<f64>,
    uu: Vec<f64>,
    vv: Vec<f64>,
    b: Vec<f64>,
    /// P, M, E and F of each cell.
    weights: Vec<[f64; 4]>,
}

impl Doubles {
    pub fn new(dock: &State, rounding: Rounding) -> Self {
        let field = |numbers: &[i64]| numbers.iter().map(|&x| x as f64).collect();
        let now = Fields {
            h: field(&dock.h),
            u: field(&dock.u),
            v: field(&dock.v),
        };
        Doubles {
            dock: Fixed {
                rounding,
                g: dock.parameters.g as f64,
                c: dock.parameters.c as f64,
                r: dock.parameters.r as f64,
                b: field(&dock.b),
                cells: (0..dock.h.len()).map(|k| Cell::new(dock, k)).collect(),
                corners: Corner::all(dock),
            },
            first: now.clone(),
            second: now.clone(),
            now,
            work: Work::new(dock),
        }
    }

    /// u, v and level of a cell.
    pub fn at(&self, k: usize) -> [f64; 3] {
        [self.now.u[k], self.now.v[k], self.now.h[k] + self.dock.b[k]]
    }

    /// Takes steps without inflow.
    pub fn run(&mut self, steps: u64) {
        for _ in 0..steps {
            self.work.fill(&self.dock, &self.now);
            self.work.pass(&self.dock, &self.now, &mut self.first);
            self.work.fill(&self.dock, &self.first);
            self.work.pass(&self.dock, &self.now, &mut self.second);
            std::mem::swap(&mut self.now, &mut self.second);
        }
    }
}

impl Cell {
    fn new(dock: &State, k: usize) -> Self {
        let (w, n) = (dock.parameters.w, dock.parameters.n);
        let (i, j) = (k % w, k / w);
        let at = |right: usize, up: usize| (j + up) % n * w + (i + right) % w;
        let [columns, rows] = corner_sides(dock);
        let corner = |x: usize, y: usize| y % rows * columns + x % columns;
        Cell {
            e: at(1, 0),
            w: at(w - 1, 0),
            n: at(0, 1),
            s: at(0, n - 1),
            nw: at(w - 1, 1),
            se: at(1, n - 1),
            corners: [
                corner(i + 1, j + 1),
                corner(i, j + 1),
                corner(i, j),
                corner(i + 1, j),
            ],
            west_open: !(dock.parameters.kind == 2 && i == 0) && dock.barriers[k] & 1 == 0,
            south_open: !(dock.parameters.kind >= 1 && j == 0) && dock.barriers[k] & 2 == 0,
        }
    }
}

/// Columns and rows of corners: a walled side has one more.
fn corner_sides(dock: &State) -> [usize; 2] {
    let p = &dock.parameters;
    [
        p.w + usize::from(p.kind == 2),
        p.n + usize::from(p.kind >= 1),
    ]
}

impl Corner {
    fn all(dock: &State) -> Vec<Self> {
        let (w, n) = (dock.parameters.w, dock.parameters.n);
        let [columns, rows] = corner_sides(dock);
        // Before and after a corner, and whether it is on a wall.
        let beside = |x: usize, side: usize, corners: usize| match x {
            0 if corners > side => (0, 0, true),
            _ if x == side => (side - 1, side - 1, true),
            _ => ((x + side - 1) % side, x, false),
        };
        let new = |x: usize, y: usize| {
            let (west, east, in_column) = beside(x, w, columns);
            let (south, north, in_row) = beside(y, n, rows);
            Corner {
                ne: north * w + east,
                nw: north * w + west,
                sw: south * w + west,
                se: south * w + east,
                on_wall: in_column || in_row,
            }
        };
        let places = (0..rows).flat_map(|y| (0..columns).map(move |x| (x, y)));
        places.map(|(x, y)| new(x, y)).collect()
    }
}

impl Work {
    fn new(dock: &State) -> Self {
        let zeros = || vec![0.0; dock.h.len()];
        Work {
            q: vec![0.0; corner_sides(dock).into_iter().product()],
            uu: zeros(),
            vv: zeros(),
            b: zeros(),
            weights: vec![[0.0; 4]; dock.h.len()],
        }
    }

    /// q, U, V, B and the weights of a state.
    fn fill(&mut self, dock: &Fixed, of: &Fields) {
        let Fields { h, u, v } = of;
        for (q, at) in self.q.iter_mut().zip(&dock.corners) {
            let z = match at.on_wall {
                true => dock.c,
                false => dock.c + v[at.ne] - v[at.nw] + u[at.se] - u[at.ne],
            };
            let depths = h[at.ne] + h[at.nw] + h[at.se] + h[at.sw];
            *q = whole(dock.rounding.vorticity, 262_144.0 * z / depths);
        }
        for (k, at) in dock.cells.iter().enumerate() {
            self.uu[k] = u[k] * (h[at.w] + h[k]);
            self.vv[k] = v[k] * (h[at.s] + h[k]);
            let squares = u[k] * u[k] + u[at.e] * u[at.e] + v[k] * v[k] + v[at.n] * v[at.n];
            self.b[k] = squares + 4.0 * dock.g * (h[k] + dock.b[k]);
        }
        for (k, at) in dock.cells.iter().enumerate() {
            let [ne, nw, sw, se] = at.corners.map(|corner| self.q[corner]);
            self.weights[k] = [
                2.0 * ne + nw + 2.0 * sw + se,
                ne + 2.0 * nw + sw + 2.0 * se,
                ne + nw - sw - se,
                -ne + nw + sw - se,
            ];
        }
    }

    /// A pass from a base state with what was filled in last.
    fn pass(&self, dock: &Fixed, base: &Fields, into: &mut Fields) {
        let flow = |u_or_v: f64| whole(dock.rounding.flows, u_or_v / (2.0 * dock.r));
        let change = |open, tendency: f64| match open {
            true => whole(dock.rounding.velocities, tendency / (3_145_728.0 * dock.r)),
            false => 0.0,
        };
        for (k, at) in dock.cells.iter().enumerate() {
            let west_to_east = flow(self.uu[at.e]) - flow(self.uu[k]);
            let south_to_north = flow(self.vv[at.n]) - flow(self.vv[k]);
            into.h[k] = base.h[k] - (west_to_east + south_to_north);
            into.u[k] = base.u[k] + change(at.west_open, self.tu(k, at));
            into.v[k] = base.v[k] + change(at.south_open, self.tv(k, at));
        }
    }

    fn tu(&self, k: usize, at: &Cell) -> f64 {
        let Work { uu, vv, b, .. } = self;
        let [p, m, e, _] = self.weights[k];
        let [p_w, m_w, e_w, _] = self.weights[at.w];
        p * vv[at.n] + m_w * vv[at.nw] + p_w * vv[at.w] + m * vv[k] - e * uu[at.e] + e_w * uu[at.w]
            - 786_432.0 * (b[k] - b[at.w])
    }

    fn tv(&self, k: usize, at: &Cell) -> f64 {
        let Work { uu, vv, b, .. } = self;
        let [p, m, _, f] = self.weights[k];
        let [p_s, m_s, _, f_s] = self.weights[at.s];
        -p * uu[at.e] - m * uu[k] - p_s * uu[at.s] - m_s * uu[at.se] - f * vv[at.n] + f_s * vv[at.s]
            - 786_432.0 * (b[k] - b[at.s])
    }
}
