//! The commands `step` and `run`: a state taken further.

use std::path::Path;

use basin::{Ran, Refusal};

use crate::arguments::Arguments;
use crate::commands::{target, Answer, Surroundings};
use crate::date::to_date;
use crate::failure::{in_words, Failure};
use crate::files::load;
use crate::gates::Table;
use crate::place::{put_all, Place};
use crate::plan::Plan;
use crate::run::{part_of, Progress};
use crate::state::State;
use crate::subject::Subject;

/// `step RECORD [OUT]`: one step, by the core's step.
pub fn step(arguments: &Arguments, around: &mut Surroundings) -> Result<Answer, Failure> {
    advance(arguments, around, Some(1), true)
}

/// `run RECORD [OUT]`
pub fn run(arguments: &Arguments, around: &mut Surroundings) -> Result<Answer, Failure> {
    advance(arguments, around, arguments.steps, false)
}

fn advance(
    arguments: &Arguments,
    around: &mut Surroundings,
    steps: Option<u64>,
    single: bool,
) -> Result<Answer, Failure> {
    let (record, out) = places(arguments)?;
    fitting(arguments, out.is_some())?;
    let mut state = load(record, around)?;
    let mut plan = Plan::of(arguments, &state, steps)?;
    plan.single = single;
    let mut outputs = Outputs::open(arguments, &state, &plan)?;
    let before = total(&state)?;
    let mut progress = Progress::new(around, arguments.quiet, plan.steps);
    let ran = travel(
        &mut state,
        &mut plan,
        arguments,
        &mut outputs,
        &mut progress,
    );
    progress.end();
    let ran = ran?;
    let mut answer = told(&state, &plan, ran, before)?;
    let left_out = out.is_some() && ran.stopped.is_some() && !arguments.keep;
    outputs.keep(&mut state, &plan, &ran, arguments.keep)?;
    if let (Some(out), false) = (out, arguments.quiet) {
        answer.notes = noted(out, &plan, left_out);
    }
    Ok(answer)
}

/// What a person should know of the record that was to be written.
fn noted(out: &Path, plan: &Plan, left_out: bool) -> String {
    let (out, start) = (out.display(), to_date(plan.clock.start));
    match plan.stands_still() {
        _ if left_out => format!(
            "forecast: note: {out} was not written; --keep writes the state that a stop leaves\n"
        ),
        Some(why) => format!("forecast: note: the timestamp stands still at {start}; {why}\n"),
        None => String::new(),
    }
}

/// The record, and where to write the one after it.
fn places(arguments: &Arguments) -> Result<(&Path, Option<&Path>), Failure> {
    match &arguments.places[..] {
        [record] => Ok((Path::new(record), None)),
        [record, out] => Ok((Path::new(record), Some(target(out)?))),
        [] => Err(Failure::usage("a record is missing")),
        [_, _, more, ..] => {
            let words = format!("{} is too much", more.to_string_lossy());
            Err(Failure::usage(words))
        }
    }
}

/// Options that go with each other.
fn fitting(arguments: &Arguments, out: bool) -> Result<(), Failure> {
    let words = match arguments {
        a if !out && a.seconds.is_some() => "--seconds goes with the record that is written",
        a if !out && a.keep => "--keep goes with the record that is written",
        a if a.keep && a.seconds.is_some() => "--keep goes with --step-ms, and not with --seconds",
        a if a.csv.is_none() && !a.gates.is_empty() => "--gate goes with --csv FILE",
        a if a.csv.is_none() && a.every.is_some() => "--every goes with --csv FILE",
        _ => return Ok(()),
    };
    Err(Failure::usage(words))
}

/// What a run writes.
struct Outputs<'a> {
    record: Option<Place>,
    table: Option<Table<'a>>,
}

impl<'a> Outputs<'a> {
    /// Both places, before the run: not over what is read, but for the record that is
    /// taken further. The record's length is known by then, and its room is taken.
    fn open(arguments: &'a Arguments, state: &State, plan: &Plan) -> Result<Self, Failure> {
        let (read, out) = places(arguments)?;
        let texts = arguments.texts();
        let mut record = out.map(Place::new).transpose()?;
        let table = arguments.csv.as_deref().map(Path::as_os_str);
        let table = table.map(|csv| Place::new(target(csv)?)).transpose()?;
        if let Some(place) = &table {
            place.apart_from(&[&texts[..], &[read]].concat())?;
        }
        if let Some(place) = &mut record {
            place.apart_from(&texts)?;
            place.apart_from(&table.iter().map(Place::path).collect::<Vec<_>>())?;
            place.reserve(state.parameters.record_len())?;
        }
        let table = table.map(|place| Table::new(place, plan.clock, &arguments.gates));
        Ok(Outputs { record, table })
    }

    /// Adds a line to the table.
    fn line(&mut self, state: &State, steps: u64) -> Result<(), Failure> {
        match &mut self.table {
            Some(table) => table.line(state, steps, total(state)?),
            None => Ok(()),
        }
    }

    /// Puts what was written in its place. After a stop the record is one that was
    /// asked for, or none.
    fn keep(
        mut self,
        state: &mut State,
        plan: &Plan,
        ran: &Ran,
        keep: bool,
    ) -> Result<(), Failure> {
        let mut places = Vec::new();
        if let Some(mut place) = self.record.take() {
            if ran.stopped.is_none() || keep {
                state.timestamp = plan.moment_after(ran.steps)?;
                let record = state.write().map_err(refused_of(state))?;
                place.write(&record)?;
                places.push(place);
            }
        }
        if let Some(table) = self.table.take() {
            places.push(table.end()?);
        }
        put_all(&mut places)
    }
}

/// All steps, with a line of the table at the start, after each `every` steps and at
/// the end.
fn travel(
    state: &mut State,
    plan: &mut Plan,
    arguments: &Arguments,
    outputs: &mut Outputs,
    progress: &mut Progress,
) -> Result<Ran, Failure> {
    let steps = plan.steps;
    let leg = match (&outputs.table, arguments.every) {
        (None, _) => part_of(steps),
        (Some(_), every) => every.unwrap_or(1),
    };
    outputs.line(state, 0)?;
    let mut done = 0;
    loop {
        let next = leg.min(steps - done);
        let ran = plan.advance(state, next, |more| progress.tell(done + more));
        let ran = ran.map_err(|refusal| {
            Failure::refused(refusal, Subject::State(state, plan.inflow.field()))
        })?;
        done += ran.steps;
        if ran.steps > 0 {
            outputs.line(state, done)?;
        }
        if done == steps || ran.stopped.is_some() {
            return Ok(Ran { steps: done, ..ran });
        }
    }
}

/// Total depth before and after, what entered between, and how far the steps came.
pub fn told(state: &State, plan: &Plan, ran: Ran, before: i64) -> Result<Answer, Failure> {
    let (after, entered) = (total(state)?, plan.inflow.entered());
    if i128::from(before) + entered != i128::from(after) {
        let words = format!("total depth does not balance: {before} + {entered} is not {after}");
        return Err(Failure::Untrue(words));
    }
    let mut out = format!(
        "total depth before {before} mm\nentered {entered} mm\ntotal depth after {after} mm\n"
    );
    if plan.clock.step_ms.is_some() {
        let (from, to) = (plan.clock.start, plan.moment_after(ran.steps)?);
        out += &format!("time {} to {} UTC\n", to_date(from), to_date(to));
    }
    let status = match ran.stopped {
        None => {
            out += &format!("steps done {}\n", ran.steps);
            0
        }
        Some(refusal) => {
            let why = in_words(refusal, Subject::State(state, plan.inflow.field()));
            out += &format!("stopped after {} steps: {why}\n", ran.steps);
            1
        }
    };
    Ok(Answer {
        out,
        status,
        ..Answer::default()
    })
}

fn total(state: &State) -> Result<i64, Failure> {
    state.total_depth().map_err(refused_of(state))
}

/// What the core refuses of a state.
pub fn refused_of(state: &State) -> impl Fn(Refusal) -> Failure + '_ {
    move |refusal| Failure::refused(refusal, Subject::State(state, &[]))
}
