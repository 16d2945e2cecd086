//! How far a run of the core comes from one in doubles.

use forecast::State;

use crate::dock::{at, example, run_on};
use crate::doubles::{Doubles, Rounding};

/// Half-second steps of the example dock.
pub const STEPS_AN_HOUR: u64 = 7_200;

/// What is measured is measured over ten minutes, some five swings of the example
/// dock: at one moment it would depend on where the swing is.
pub const WINDOWS_AN_HOUR: u64 = 6;

/// From one sample to the next: a swing has 13.
const STEPS_A_SAMPLE: u64 = 20;

/// Ten minutes of both versions, over all cells.
#[derive(Clone, Debug)]
pub struct Window {
    /// At its end.
    pub steps: u64,
    pub core: Water,
    pub doubles: Water,
    /// Core less doubles.
    pub difference: Water,
}

impl Window {
    pub fn hours(&self) -> f64 {
        self.steps as f64 / STEPS_AN_HOUR as f64
    }
}

/// Velocities in mm/s and levels in mm.
#[derive(Clone, Debug, Default)]
pub struct Water {
    pub u: Spread,
    pub v: Spread,
    pub level: Spread,
}

impl Water {
    fn add(&mut self, [u, v, level]: [f64; 3]) {
        self.u.add(u);
        self.v.add(v);
        self.level.add(level);
    }
}

/// How some numbers lie about 0.
#[derive(Clone, Debug)]
pub struct Spread {
    count: u64,
    squares: f64,
    pub lowest: f64,
    pub highest: f64,
}

impl Default for Spread {
    fn default() -> Self {
        Spread {
            count: 0,
            squares: 0.0,
            lowest: f64::INFINITY,
            highest: f64::NEG_INFINITY,
        }
    }
}

impl Spread {
    fn add(&mut self, x: f64) {
        self.count += 1;
        self.squares += x * x;
        self.lowest = self.lowest.min(x);
        self.highest = self.highest.max(x);
    }

    pub fn rms(&self) -> f64 {
        (self.squares / self.count as f64).sqrt()
    }

    /// The greatest amount, whatever its sign.
    pub fn greatest(&self) -> f64 {
        self.highest.max(-self.lowest)
    }
}

/// Both versions of a dock, stepped together.
pub struct Pair {
    steps: u64,
    core: State,
    doubles: Doubles,
}

impl Pair {
    /// What the version in doubles rounds, if anything, is as one likes.
    pub fn new(dock: State, rounding: Rounding) -> Self {
        Pair {
            steps: 0,
            doubles: Doubles::new(&dock, rounding),
            core: dock,
        }
    }

    /// Panics where the core refuses.
    pub fn run(&mut self, steps: u64) {
        let ran = run_on(&mut self.core, steps);
        assert!(matches!(ran, Ok(ran) if ran.steps == steps), "{ran:?}");
        self.doubles.run(steps);
        self.steps += steps;
    }

    /// The next ten minutes.
    pub fn window(&mut self) -> Window {
        let [mut core, mut doubles, mut difference] = [(); 3].map(|()| Water::default());
        for _ in 0..STEPS_AN_HOUR / WINDOWS_AN_HOUR / STEPS_A_SAMPLE {
            self.run(STEPS_A_SAMPLE);
            for k in 0..self.core.h.len() {
                let (a, b) = (at(&self.core, k), self.doubles.at(k));
                core.add(a);
                doubles.add(b);
                difference.add([a[0] - b[0], a[1] - b[1], a[2] - b[2]]);
            }
        }
        Window {
            steps: self.steps,
            core,
            doubles,
            difference,
        }
    }

    /// Level in the middle of the west wall, where the swing is greatest.
    fn swing(&self) -> Swing {
        let k = self.core.parameters.n / 2 * self.core.parameters.w;
        Swing {
            hours: self.steps as f64 / STEPS_AN_HOUR as f64,
            core: at(&self.core, k)[2],
            doubles: self.doubles.at(k)[2],
        }
    }
}

/// A moment, and the level at the west wall then, mm.
#[derive(Clone, Copy, Debug)]
pub struct Swing {
    pub hours: f64,
    pub core: f64,
    pub doubles: f64,
}

/// The first hour and a half of the example dock, beside the same unrounded.
pub fn swings() -> Vec<Swing> {
    const EVERY: u64 = 15;
    let mut pair = Pair::new(example("dock"), Rounding::NONE);
    let mut swings = vec![pair.swing()];
    for _ in 0..STEPS_AN_HOUR * 3 / 2 / EVERY {
        pair.run(EVERY);
        swings.push(pair.swing());
    }
    swings
}

/// When the level rises through its mean for the n-th time, in seconds. Early
/// only: later, noise makes it rise more than once in a swing.
pub fn rises(swings: &[Swing], level: impl Fn(&Swing) -> f64, nth: usize) -> f64 {
    const MEAN: f64 = 12_000.0;
    let mut rises = swings.windows(2).filter_map(|pair| {
        let [from, to] = [&pair[0], &pair[1]].map(|swing| level(swing) - MEAN);
        let part = from / (from - to);
        let hours = pair[0].hours + part * (pair[1].hours - pair[0].hours);
        (from < 0.0 && to >= 0.0).then_some(3_600.0 * hours)
    });
    rises.nth(nth - 1).unwrap_or(f64::NAN)
}
