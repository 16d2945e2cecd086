//! What enters each cell with the steps of a run.
//!
//! The core takes whole millimetres, so what is over is carried from step to step,
//! and after each the sum is right to the millimetre. The carry goes by the times of
//! the rivers and not by where a run begins: two runs one after the other enter what
//! one run would. (A line `step N` counts from the start of its run.)

use basin::LONGEST_RUN;

/// What flows into one cell, step by step.
pub struct Course {
    /// Index of the cell.
    pub cell: usize,
    /// From this step on, so many parts of a millimetre with each; rising by step.
    changes: Vec<(i128, i128)>,
    /// Parts of a millimetre.
    parts: i128,
    now: Cursor,
}

/// Where a course is.
#[derive(Clone, Copy)]
struct Cursor {
    /// The next step.
    step: i128,
    /// The changes that are behind it.
    passed: usize,
    /// Parts that are carried, from 0 on and below one millimetre. Half a millimetre
    /// is among them, so that the sum is rounded to the nearest.
    carry: i128,
}

impl Course {
    /// A course at the first step of a run: from these steps on, so many parts of a
    /// millimetre with each. Of two changes with one step the last is in force. What
    /// flowed before the run is not entered again, but its fraction is carried.
    pub fn new(cell: usize, mut changes: Vec<(i128, i128)>, parts: i128) -> Self {
        changes.reverse();
        changes.dedup_by_key(|(step, _)| *step);
        changes.reverse();
        let ends = changes.iter().skip(1).map(|(step, _)| *step);
        let ends = ends.chain([i128::MAX]);
        let mut carry = parts / 2;
        for ((from, rate), end) in changes.iter().zip(ends) {
            let steps = (end.min(0) - from.min(&0)).rem_euclid(parts);
            carry = (carry + rate.rem_euclid(parts) * steps).rem_euclid(parts);
        }
        let now = Cursor {
            step: 0,
            passed: 0,
            carry,
        };
        Course {
            cell,
            changes,
            parts,
            now,
        }
    }

    /// What enters with the next step, in mm, and where the course is after it.
    fn next(&self) -> (i64, Cursor) {
        let mut now = self.now;
        while matches!(self.changes.get(now.passed), Some((from, _)) if *from <= now.step) {
            now.passed += 1;
        }
        let rate = match now.passed {
            0 => 0,
            passed => self.changes[passed - 1].1,
        };
        let sum = now.carry + rate;
        now.carry = sum.rem_euclid(self.parts);
        now.step += 1;
        // Bounded by the greatest flow.
        (sum.div_euclid(self.parts) as i64, now)
    }

    /// The least and the greatest that may enter with one of the first steps.
    fn range(&self, steps: u64) -> (i64, i64) {
        let before = self.changes.iter().filter(|(from, _)| *from <= 0).count();
        let meant = self.changes[before.saturating_sub(1)..].iter();
        let meant = meant.take_while(|(from, _)| *from < i128::from(steps));
        let dry = (before == 0).then_some(0);
        let rates = meant.map(|(_, rate)| *rate).chain(dry);
        let whole = |rate: i128| {
            let least = rate.div_euclid(self.parts);
            let most = -(-rate).div_euclid(self.parts);
            (least as i64, most as i64)
        };
        let all: Vec<(i64, i64)> = rates.map(whole).collect();
        let least = all.iter().map(|(least, _)| *least).min();
        let most = all.iter().map(|(_, most)| *most).max();
        (least.unwrap_or(0), most.unwrap_or(0))
    }
}

/// What enters each cell with the steps of a run.
pub struct Inflow {
    /// The same with each step.
    steady: Vec<i64>,
    courses: Vec<Course>,
    /// Of the steps at hand.
    field: Vec<i64>,
    entered: i128,
}

impl Inflow {
    pub fn new(steady: Vec<i64>, courses: Vec<Course>) -> Self {
        Inflow {
            field: steady.clone(),
            steady,
            courses,
            entered: 0,
        }
    }

    /// Goes on to the next steps that all have the same entries, so many at most and no
    /// more than the core takes in one call, and says how many they are.
    pub fn stretch(&mut self, most: u64) -> u64 {
        let most = most.min(LONGEST_RUN);
        if self.courses.is_empty() || most == 0 {
            return most;
        }
        self.field.copy_from_slice(&self.steady);
        for course in &mut self.courses {
            let (enters, after) = course.next();
            let cell = &mut self.field[course.cell];
            *cell = cell.saturating_add(enters);
            course.now = after;
        }
        1 + (1..most).take_while(|_| self.same_again()).count() as u64
    }

    /// Whether the next step has the same entries; then it is taken.
    fn same_again(&mut self) -> bool {
        let (field, steady) = (&self.field, &self.steady);
        let same = |course: &Course| {
            let enters = steady[course.cell].saturating_add(course.next().0);
            enters == field[course.cell]
        };
        let all = self.courses.iter().all(same);
        if all {
            self.courses
                .iter_mut()
                .for_each(|course| course.now = course.next().1);
        }
        all
    }

    /// The entries of the steps at hand.
    pub fn field(&self) -> &[i64] {
        &self.field
    }

    /// So many of the steps at hand were done.
    pub fn done(&mut self, steps: u64) {
        let sum: i128 = self.field.iter().map(|&mm| i128::from(mm)).sum();
        self.entered += sum * i128::from(steps);
    }

    /// All that has entered, mm.
    pub fn entered(&self) -> i128 {
        self.entered
    }

    /// The least and the greatest entries of the first steps of a run, for the core to
    /// look at before it begins.
    pub fn extremes(&self, steps: u64) -> [Vec<i64>; 2] {
        let mut ends = [self.steady.clone(), self.steady.clone()];
        for course in &self.courses {
            let (least, most) = course.range(steps);
            for (field, enters) in ends.iter_mut().zip([least, most]) {
                let cell = &mut field[course.cell];
                *cell = cell.saturating_add(enters);
            }
        }
        ends
    }
}

#[cfg(test)]
mod tests {
    use super::*;

    /// The sum of the first steps, each rounded to the nearest, for any flow and from
    /// any step: the entries of a step are the difference.
    #[test]
    fn the_sum_is_right_after_each_step() {
        for (rate, parts) in [
            (1500, 1000),
            (-250, 1000),
            (1, 1000),
            (999, 1000),
            (0, 1000),
            (7, 24),
            (-2000, 1000),
        ] {
            for begun in [0i128, -1, -3, -17, -1_000_000_007] {
                let mut course = Course::new(0, vec![(begun, rate)], parts);
                let exact = |steps: i128| (2 * rate * steps + parts).div_euclid(2 * parts);
                let mut sum = exact(-begun);
                for step in 0..60 {
                    let (enters, after) = course.next();
                    course.now = after;
                    sum += i128::from(enters);
                    assert_eq!(sum, exact(step + 1 - begun), "{rate}/{parts} from {begun}");
                }
            }
        }
    }

    #[test]
    fn stretches_cover_the_steps_one_by_one() {
        let changes = vec![(-4, 300), (5, 1250), (9, 0), (14, -700)];
        let course = || Course::new(1, changes.clone(), 1000);
        let mut single = Inflow::new(vec![2, 3], vec![course()]);
        let mut fields = Vec::new();
        for _ in 0..40 {
            assert_eq!(single.stretch(1), 1);
            fields.push(single.field().to_vec());
        }
        let mut long = Inflow::new(vec![2, 3], vec![course()]);
        let mut at = 0;
        while at < 40 {
            let steps = long.stretch(40 - at as u64) as usize;
            assert!(fields[at..at + steps]
                .iter()
                .all(|field| field == long.field()));
            at += steps;
        }
        let [least, most] = single.extremes(40);
        for field in fields {
            assert!((least[1]..=most[1]).contains(&field[1]) && field[0] == 2);
        }
        assert_eq!((least[1], most[1]), (2, 5));
    }
}
