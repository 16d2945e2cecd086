//! Pictures of level and current as SVG, and a page to look at as HTML.
//!
//! Numbers are rounded and averaged in pictures for the eye alone; every state
//! that is drawn is one that the core has read or left.

mod frame;
mod html;
mod json;
mod page;
mod panel;
mod scale;
pub mod svg;

use std::fs;
use std::path::Path;

use basin::{Parameters, Ran, Refusal};

use crate::clock::Clock;
use crate::date::to_date;
use crate::gates::Gate;
use crate::state::State;
use frame::Frame;
use page::{Caption, Page};
use scale::Scale;
pub use svg::grouped;

/// Frames of an overview at most; of more, these many are taken evenly.
const IN_OVERVIEW: usize = 12;
/// Frames of a series at most: each is kept until the scale is known.
pub const MOST_FRAMES: u64 = 1000;
/// Numbers of level and current that a page may hold: some 20 million bytes,
/// which a phone still opens.
pub const MOST_NUMBERS: u64 = 4_000_000;

/// How many frames a run of so many steps has, where nothing stops it.
pub fn frame_count(steps: u64, every: u64) -> u64 {
    steps.div_ceil(every.max(1)).saturating_add(1)
}

/// How many frames of such a grid a page may hold.
pub fn page_frames_limit(p: &Parameters) -> u64 {
    let cells = (p.w as u64).saturating_mul(p.n as u64).max(1);
    let frames = MOST_NUMBERS / cells.saturating_mul(3);
    frames.clamp(1, MOST_FRAMES)
}

/// Steps between the frames of a page where nobody says how many: a hundred
/// frames and the first one play well, and fewer where a page holds fewer.
pub fn page_every(p: &Parameters, steps: u64) -> u64 {
    let frames = (page_frames_limit(p) - 1).clamp(1, 100);
    steps.div_ceil(frames).max(1)
}

/// The name of the picture of a frame in a folder.
pub fn frame_name(number: usize) -> String {
    format!("{number:05}.svg")
}

/// How many pictures of frames a folder has that a series of so many frames does
/// not write over: they are of another series. 0 where there is no such folder.
pub fn other_frames(folder: &Path, count: usize) -> usize {
    let Ok(entries) = fs::read_dir(folder) else {
        return 0;
    };
    let names = entries.filter_map(|entry| entry.ok()?.file_name().into_string().ok());
    let numbers = names.filter_map(|name| {
        let number = name.strip_suffix(".svg")?.parse().ok()?;
        // Other writings of the number are not ours.
        Some(number).filter(|&number| frame_name(number) == name && name.len() == 9)
    });
    numbers.filter(|&number: &usize| number >= count).count()
}

/// Frames of one run, all drawn to one scale.
pub struct Series {
    parameters: Parameters,
    clock: Clock,
    gates: Vec<Gate>,
    bottom: Vec<i64>,
    barriers: Vec<u8>,
    frames: Vec<Frame>,
    scale: Scale,
}

impl Series {
    /// Takes a state so many steps further, and keeps a frame at the start, after
    /// each `every` steps and at the last step reached. `advance` takes it a part
    /// of the way, by the core; where it says that the core stopped, the series
    /// ends.
    pub fn run(
        state: &mut State,
        clock: Clock,
        gates: Vec<Gate>,
        steps: u64,
        every: u64,
        mut advance: impl FnMut(&mut State, u64) -> Result<Ran, Refusal>,
    ) -> Result<(Series, Ran), Refusal> {
        let mut frames = vec![Frame::of(state, 0)?];
        let mut done = 0;
        // A run of no step is called as well: the core tests the inflow.
        let stopped = loop {
            let part = advance(state, every.max(1).min(steps - done))?;
            done += part.steps;
            if part.steps > 0 {
                frames.push(Frame::of(state, done)?);
            }
            if done >= steps || part.steps == 0 || part.stopped.is_some() {
                break part.stopped;
            }
        };
        let ran = Ran {
            steps: done,
            stopped,
        };
        Ok((Series::of(state, clock, gates, frames), ran))
    }

    fn of(state: &State, clock: Clock, gates: Vec<Gate>, frames: Vec<Frame>) -> Self {
        let scale = Scale::of(&state.parameters, &state.b, &frames);
        Series {
            parameters: state.parameters,
            clock,
            gates,
            bottom: state.b.clone(),
            barriers: state.barriers.clone(),
            frames,
            scale,
        }
    }

    /// How many frames there are.
    pub fn count(&self) -> usize {
        self.frames.len()
    }

    /// The picture of one frame.
    pub fn frame(&self, number: usize) -> String {
        let Some(frame) = self.frames.get(number) else {
            return String::new();
        };
        let steps = grouped(frame.steps as i64);
        let time = match self.time(frame) {
            Some(time) => format!("{time} UTC, step {steps}"),
            None if self.frames.len() == 1 => format!("{} UTC", self.start()),
            None => format!("{steps} steps from {} UTC", self.start()),
        };
        let title = format!("{time}: total depth {} mm", grouped(frame.total));
        Page::single(&self.parameters).draw(self, &title, &[(frame, None)])
    }

    /// The frames side by side.
    pub fn overview(&self) -> String {
        let count = self.frames.len().clamp(1, IN_OVERVIEW);
        let last = self.frames.len().saturating_sub(1);
        let chosen = (0..count).filter_map(|k| self.frames.get(k * last / (count - 1).max(1)));
        let panels: Vec<(&Frame, Option<Caption>)> = chosen
            .map(|frame| (frame, Some(self.caption(frame))))
            .collect();
        let title = format!(
            "Level, current and total depth from {} UTC on",
            self.start()
        );
        let timed = self.clock.step_ms.is_some();
        Page::of_many(&self.parameters, panels.len(), timed).draw(self, &title, &panels)
    }

    /// The page to look at: one file that asks no host for anything.
    pub fn page(&self) -> String {
        html::page(self)
    }

    fn caption(&self, frame: &Frame) -> Caption {
        Caption {
            time: self.time(frame).map(|time| format!("{time} UTC")),
            steps: format!("step {}", grouped(frame.steps as i64)),
            total: format!("total {} mm", grouped(frame.total)),
        }
    }

    /// When the run began.
    fn start(&self) -> String {
        to_date(self.clock.start)
    }

    /// The time of a frame, where the length of a step is known.
    fn time(&self, frame: &Frame) -> Option<String> {
        self.clock.at(frame.steps).map(to_date)
    }
}

/// The picture of a state by itself.
pub fn picture(state: &State) -> Result<String, Refusal> {
    let frame = Frame::of(state, 0)?;
    let clock = Clock {
        start: state.timestamp,
        step_ms: None,
    };
    Ok(Series::of(state, clock, Vec::new(), vec![frame]).frame(0))
}
