//! The command `draw`: pictures and pages.

use std::fs;
use std::path::Path;

use basin::Ran;

use crate::advance::{refused_of, told};
use crate::arguments::Arguments;
use crate::commands::{output, target, Answer, Surroundings};
use crate::draw;
use crate::failure::Failure;
use crate::files::load;
use crate::place::{put_all, write_file, Place};
use crate::plan::Plan;
use crate::run::Progress;
use crate::state::State;

/// `draw RECORD FILE.svg`, `draw RECORD FOLDER --steps N`, `draw RECORD FILE.html`
pub fn draw(arguments: &Arguments, around: &mut Surroundings) -> Result<Answer, Failure> {
    let [record, place] = &arguments.places[..] else {
        return Err(Failure::usage("draw takes a record and where to draw"));
    };
    let place = output(place)?;
    let ends = |with: &str| {
        let ending = place.extension();
        ending.is_some_and(|ending| ending.eq_ignore_ascii_case(with))
    };
    let page = ends("html") || ends("htm");
    let runs = arguments.steps.is_some() || arguments.until.is_some();
    if !runs && is_of_run(arguments) {
        let words = "--every, --inflow, --rivers and the clock go with --steps or --until";
        return Err(Failure::usage(words));
    }
    if !page && runs == ends("svg") {
        let words = "a picture is FILE.svg, a page FILE.html, and a series a folder, with --steps";
        return Err(Failure::usage(words));
    }
    if !page && !arguments.gates.is_empty() {
        return Err(Failure::usage("--gate goes with a page, FILE.html"));
    }
    if !runs || page {
        target(place.as_os_str())?;
    }
    let state = load(Path::new(record), around)?;
    if page {
        draw_page(arguments, around, state, place)
    } else if runs {
        draw_series(arguments, around, state, place)
    } else {
        let mut out = place_for(arguments, place)?;
        let picture = draw::picture(&state).map_err(refused_of(&state))?;
        out.write(picture.as_bytes())?;
        put_all(&mut [out])?;
        Ok(Answer::default())
    }
}

/// Whether there are options that a run alone has a use for.
fn is_of_run(arguments: &Arguments) -> bool {
    let clock = arguments.step_ms.or(arguments.spacing).or(arguments.every);
    clock.is_some() || !arguments.texts().is_empty() || !arguments.inflow.is_empty()
}

/// Where to draw: not over what is read.
fn place_for(arguments: &Arguments, place: &Path) -> Result<Place, Failure> {
    let place = Place::new(place)?;
    place.apart_from(&arguments.texts())?;
    place.apart_from(&[Path::new(&arguments.places[0])])?;
    Ok(place)
}

/// A page with all frames, to be played.
fn draw_page(
    arguments: &Arguments,
    around: &mut Surroundings,
    mut state: State,
    place: &Path,
) -> Result<Answer, Failure> {
    let runs = arguments.steps.is_some() || arguments.until.is_some();
    let steps = if runs { arguments.steps } else { Some(0) };
    let plan = Plan::of(arguments, &state, steps)?;
    let p = state.parameters;
    let usual = draw::page_every(&p, plan.steps);
    let every = distance(arguments, plan.steps, usual, draw::page_frames_limit(&p))?;
    let mut out = place_for(arguments, place)?;
    let (series, plan, ran, before) = film(arguments, around, &mut state, plan, every)?;
    let mut answer = told(&state, &plan, ran, before)?;
    out.write(series.page().as_bytes())?;
    put_all(&mut [out])?;
    if !runs {
        return Ok(Answer::default());
    }
    answer.out += &format!("frames {}\n", series.count());
    Ok(answer)
}

/// The frames by number, and all of them side by side.
fn draw_series(
    arguments: &Arguments,
    around: &mut Surroundings,
    mut state: State,
    folder: &Path,
) -> Result<Answer, Failure> {
    let plan = Plan::of(arguments, &state, arguments.steps)?;
    let usual = plan.steps.div_ceil(5).max(1);
    let every = distance(arguments, plan.steps, usual, draw::MOST_FRAMES)?;
    fs::create_dir_all(folder).map_err(|error| Failure::file(folder, error))?;
    // Whether all can be written is known before the run.
    for number in 0..draw::frame_count(plan.steps, every) as usize {
        place_for(arguments, &folder.join(draw::frame_name(number)))?;
    }
    let overview = place_for(arguments, &folder.join("series.svg"))?;
    let (series, plan, ran, before) = film(arguments, around, &mut state, plan, every)?;
    let mut answer = told(&state, &plan, ran, before)?;
    write_series(&series, folder, overview)?;
    answer.out += &format!("frames {}\n", series.count());
    let others = draw::other_frames(folder, series.count());
    if others > 0 && !arguments.quiet {
        let folder = folder.display();
        answer.notes =
            format!("forecast: note: {folder} has {others} other frames, of another series\n");
    }
    Ok(answer)
}

fn write_series(series: &draw::Series, folder: &Path, mut overview: Place) -> Result<(), Failure> {
    for number in 0..series.count() {
        let place = folder.join(draw::frame_name(number));
        write_file(&place, series.frame(number).as_bytes())?;
    }
    overview.write(series.overview().as_bytes())?;
    put_all(&mut [overview])
}

/// Steps from one frame to the next, as given or as usual.
fn distance(arguments: &Arguments, steps: u64, usual: u64, most: u64) -> Result<u64, Failure> {
    let every = arguments.every.unwrap_or(usual);
    if draw::frame_count(steps, every) > most {
        let least = steps.div_ceil(most.saturating_sub(1).max(1));
        let words = format!("at most {most} frames are drawn: --every {least} or more");
        return Err(Failure::usage(words));
    }
    Ok(every)
}

/// The frames of a run, with the plan as the run leaves it, how far the run came and
/// total depth before it.
fn film(
    arguments: &Arguments,
    around: &mut Surroundings,
    state: &mut State,
    mut plan: Plan,
    every: u64,
) -> Result<(draw::Series, Plan, Ran, i64), Failure> {
    let before = state.total_depth().map_err(refused_of(state))?;
    let steps = plan.steps;
    let mut progress = Progress::new(around, arguments.quiet, steps);
    let (clock, gates) = (plan.clock, arguments.gates.clone());
    let mut done = 0;
    let series = draw::Series::run(state, clock, gates, steps, every, |state, steps| {
        let ran = plan.advance(state, steps, |more| progress.tell(done + more))?;
        done += ran.steps;
        Ok(ran)
    });
    progress.end();
    let (series, ran) = series.map_err(refused_of(state))?;
    Ok((series, plan, ran, before))
}
