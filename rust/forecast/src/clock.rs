//! The clock of a run: when it began, and how long a step is.

use std::time::Duration;

use basin::Timestamp;

use crate::date::later;

/// When a run began, and the milliseconds of a step where they are known.
#[derive(Clone, Copy, Debug, PartialEq, Eq)]
pub struct Clock {
    /// The timestamp of the state that the run began with.
    pub start: Timestamp,
    /// Milliseconds of a step. A record does not hold them.
    pub step_ms: Option<u64>,
}

impl Clock {
    /// The moment after so many steps. `None` where the length of a step is not
    /// known, or the moment is past the last timestamp.
    pub fn at(&self, steps: u64) -> Option<Timestamp> {
        let ms = u128::from(self.step_ms?) * u128::from(steps);
        let seconds = u64::try_from(ms / 1000).ok()?;
        let by = Duration::from_secs(seconds) + Duration::from_millis((ms % 1000) as u64);
        later(self.start, by)
    }

    /// The first step that begins at this moment or after it, counted from the
    /// start: below 0 where it begins before. `None` where the length of a step is
    /// not known.
    pub fn step_at(&self, moment: Timestamp) -> Option<i128> {
        let ms = i128::from(self.step_ms?);
        let from_start = milliseconds(moment) - milliseconds(self.start);
        Some(-(-from_start).div_euclid(ms))
    }
}

/// Milliseconds since 2000.
pub fn milliseconds(timestamp: Timestamp) -> i128 {
    i128::from(timestamp.seconds) * 1000 + i128::from(timestamp.milliseconds)
}

/// What a record does not hold: the spacing in mm, and the milliseconds of a step.
/// Their quotient is its R, in mm/s.
#[derive(Clone, Copy, Debug, Default, PartialEq, Eq)]
pub struct Lengths {
    pub spacing: Option<u64>,
    pub step_ms: Option<u64>,
}

impl Lengths {
    /// R, of both.
    pub fn ratio(&self) -> Result<i64, String> {
        let (spacing, step_ms) = (self.spacing.unwrap_or(0), self.step_ms.unwrap_or(1));
        let thousand = u128::from(spacing) * 1000;
        let ratio = thousand / u128::from(step_ms);
        if !thousand.is_multiple_of(u128::from(step_ms)) {
            return Err(format!(
                "spacing {spacing} mm over {step_ms} ms is no whole number of mm/s: between \
                 {ratio} and {}",
                ratio + 1
            ));
        }
        i64::try_from(ratio).map_err(|_| format!("spacing {spacing} mm is too large"))
    }

    /// Whether they fit this R, where both are known.
    pub fn fit(&self, ratio: i64) -> Result<(), String> {
        let (Some(spacing), Some(step_ms)) = (self.spacing, self.step_ms) else {
            return Ok(());
        };
        if u128::from(spacing) * 1000 == product(ratio, step_ms) {
            return Ok(());
        }
        Err(format!(
            "spacing {spacing} mm over {step_ms} ms is not the spacing-per-step, {ratio} mm/s"
        ))
    }

    /// The same, with the one that is missing worked out of the other and R, where
    /// it is a whole number.
    pub fn completed(self, ratio: i64) -> Self {
        let whole = |a: u128, b: u128| {
            let known = b > 0 && a.is_multiple_of(b);
            known.then(|| u64::try_from(a / b).ok()).flatten()
        };
        let spacing_of = |step_ms| whole(product(ratio, step_ms), 1000);
        let ratio = ratio.max(0).unsigned_abs();
        let step_of = |spacing: u64| whole(u128::from(spacing) * 1000, u128::from(ratio));
        Lengths {
            spacing: self.spacing.or_else(|| self.step_ms.and_then(spacing_of)),
            step_ms: self.step_ms.or_else(|| self.spacing.and_then(step_of)),
        }
    }

    /// These and others, which must not say something else.
    pub fn and(self, other: Lengths) -> Result<Self, String> {
        let one = |a: Option<u64>, b: Option<u64>, name: &str| match (a, b) {
            (Some(a), Some(b)) if a != b => Err(format!("{name} is given as {a} and as {b}")),
            _ => Ok(a.or(b)),
        };
        Ok(Lengths {
            spacing: one(self.spacing, other.spacing, "the spacing")?,
            step_ms: one(self.step_ms, other.step_ms, "the length of a step")?,
        })
    }
}

fn product(ratio: i64, step_ms: u64) -> u128 {
    u128::from(ratio.max(0).unsigned_abs()) * u128::from(step_ms)
}

#[cfg(test)]
mod tests {
    use super::*;

    #[test]
    fn the_step_at_a_moment() {
        let at = |seconds, milliseconds| Timestamp {
            seconds,
            milliseconds,
        };
        let clock = Clock {
            start: at(100, 500),
            step_ms: Some(500),
        };
        for (moment, step) in [
            (at(100, 500), 0),
            (at(100, 501), 1),
            (at(101, 0), 1),
            (at(101, 1), 2),
            (at(100, 499), 0),
            (at(100, 0), -1),
            (at(99, 999), -1),
            (at(0, 0), -201),
        ] {
            assert_eq!(clock.step_at(moment), Some(step), "{moment:?}");
        }
        assert_eq!(clock.at(3), Some(at(102, 0)));
        // To the last moment, and no further.
        let long = Clock {
            start: at(0, 0),
            step_ms: Some(1000),
        };
        assert_eq!(long.at(u64::MAX), Some(at(u64::MAX, 0)));
        assert_eq!(
            Clock {
                start: at(1, 0),
                ..long
            }
            .at(u64::MAX),
            None
        );
        let longest = Some(u64::MAX);
        assert_eq!(
            Clock {
                step_ms: longest,
                ..long
            }
            .at(u64::MAX),
            None
        );
        let still = Clock {
            step_ms: None,
            ..clock
        };
        assert_eq!((still.at(0), still.step_at(at(0, 0))), (None, None));
    }

    #[test]
    fn spacing_step_and_their_quotient() {
        let of = |spacing, step_ms| Lengths { spacing, step_ms };
        assert_eq!(of(Some(20_000), Some(500)).ratio(), Ok(40_000));
        let odd = of(Some(20_000), Some(300));
        assert!(odd.ratio().unwrap_err().contains("between 66666 and 66667"));
        assert!(of(Some(u64::MAX), Some(1)).ratio().is_err());
        assert_eq!(of(Some(20_000), Some(500)).fit(40_000), Ok(()));
        assert!(of(Some(20_000), Some(500)).fit(40_001).is_err());
        assert_eq!(of(None, Some(7)).fit(40_001), Ok(()));
        let both = of(Some(20_000), Some(500));
        assert_eq!(of(None, Some(500)).completed(40_000), both);
        assert_eq!(of(Some(20_000), None).completed(40_000), both);
        assert_eq!(of(None, None).completed(40_000), of(None, None));
        assert_eq!(
            of(Some(20_001), None).completed(40_000),
            of(Some(20_001), None)
        );
        assert_eq!(of(Some(1), None).completed(i64::MIN), of(Some(1), None));
        assert_eq!(of(None, Some(500)).and(of(Some(20_000), None)), Ok(both));
        assert!(both.and(of(None, Some(501))).is_err());
    }
}
