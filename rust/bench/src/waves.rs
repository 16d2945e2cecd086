//! How fast a wave may be, by trying: at which wave speed over R a run is refused.

use basin::Parameters;
use forecast::State;

use crate::dock::{example, run_on, still, wave_speed_over_r};
use crate::random::Random;

/// Steps of a run that is tried, the most that one call takes.
pub const STEPS: u64 = basin::LONGEST_RUN;

/// A dock that is tried with one R after the other.
pub struct Trial {
    pub name: String,
    pub dock: State,
}

/// The smallest ratio, in thousandths, at which the run is refused, and the
/// steps that it came.
#[derive(Clone, Copy, Debug)]
pub struct Refused {
    pub thousandths: i64,
    pub steps: u64,
}

impl Trial {
    pub fn example(name: &str) -> Self {
        Trial {
            name: format!("examples/{name}.rec"),
            dock: example(name),
        }
    }

    /// A closed basin over a random bottom of up to so many mm, its level and its
    /// velocities random too, up to `noise` either way.
    pub fn random(size: (usize, usize), depth: i64, bottom: i64, noise: i64) -> Self {
        let (w, n) = size;
        let (g, c, r) = (9_810, 2, 1_000_000);
        let mut random = Random::new();
        let mut dock = still(Parameters {
            w,
            n,
            kind: 2,
            g,
            c,
            r,
        });
        for k in 0..w * n {
            dock.b[k] = random.to(bottom);
            dock.h[k] = depth - dock.b[k] + random.between(-noise, noise);
            let (u, v) = (random.between(-noise, noise), random.between(-noise, noise));
            dock.u[k] = if k % w == 0 { 0 } else { u };
            dock.v[k] = if k < w { 0 } else { v };
        }
        let name = format!("{w}x{n}, {depth} mm, bottom to {bottom}, noise {noise}");
        Trial { name, dock }
    }

    /// The steps done where wave speed over R is this, at the depth that is
    /// greatest at the start; all of them where nothing refuses.
    pub fn steps_at(&self, thousandths: i64) -> u64 {
        let mut dock = self.dock.clone();
        let speed = wave_speed_over_r(&dock) * dock.parameters.r as f64;
        dock.parameters.r = (1000.0 * speed / thousandths as f64).round() as i64;
        let ran = run_on(&mut dock, STEPS);
        ran.unwrap_or_else(|refusal| panic!("{}: {refusal}", self.name))
            .steps
    }

    /// By halving, between a ratio that is accepted and one that is refused.
    /// `None` where these two are not so.
    pub fn first_refused(&self, accepted: i64, refused: i64) -> Option<Refused> {
        let (mut below, mut known) = (accepted, refused);
        if self.steps_at(below) < STEPS || self.steps_at(known) == STEPS {
            return None;
        }
        while known - below > 1 {
            let middle = (below + known) / 2;
            match self.steps_at(middle) < STEPS {
                true => known = middle,
                false => below = middle,
            }
        }
        let steps = self.steps_at(known);
        Some(Refused {
            thousandths: known,
            steps,
        })
    }
}
