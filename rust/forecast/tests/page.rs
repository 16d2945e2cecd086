//! The page to look at, without a browser: its numbers are those of the core, its
//! script asks no host for anything, and any name of a gate may stand in it.

use crate::common::json::Json;
use crate::common::series::{clock, gates, series, states_after, HARD_NAMES};
use crate::common::{example, folder, state, tool, words, EXAMPLES};
use basin::Parameters;
use forecast::date::to_date;
use forecast::draw::{frame_count, page_every, page_frames_limit};
use forecast::draw::{Series, MOST_FRAMES, MOST_NUMBERS};
use forecast::State;

/// What stands between two texts, each of which is there once after the other.
fn between<'a>(text: &'a str, start: &str, end: &str) -> &'a str {
    let (_, after) = text.split_once(start).expect(start);
    after.split_once(end).expect(end).0
}

fn data(page: &str) -> Json {
    let start = "<script type=\"application/json\" id=\"data\">";
    Json::read(between(page, start, "</script>"))
}

fn script(page: &str) -> &str {
    between(page, "\n<script>\n", "</script>")
}

/// The page of an example over 100 steps.
fn page(name: &str, step_ms: Option<u64>) -> String {
    let gates = gates(&HARD_NAMES);
    series(state(name), step_ms, gates, 100, 40).0.page()
}

fn same_frame(frame: &Json, state: &State, name: &str) {
    let total = state.total_depth().unwrap();
    assert_eq!(frame.get("total").number(), total, "{name}");
    for (field, numbers) in [
        ("level", state.level()),
        ("u", state.u.clone()),
        ("v", state.v.clone()),
    ] {
        assert_eq!(frame.get(field).numbers(), numbers, "{name} {field}");
    }
}

/// Of every example, at the start, after each 40 steps and at the last step.
#[test]
fn the_numbers_are_those_of_the_core() {
    let steps = [0, 40, 80, 100];
    for name in EXAMPLES {
        let data = data(&page(name, Some(2500)));
        let frames = data.get("frames").list();
        assert_eq!(frames.len(), steps.len(), "{name}");
        let states = states_after(name, &steps);
        let clock = clock(&states[0], Some(2500));
        for ((frame, state), steps) in frames.iter().zip(&states).zip(steps) {
            same_frame(frame, state, name);
            assert_eq!(frame.get("steps").number(), steps as i64);
            let time = to_date(clock.at(steps).unwrap());
            assert_eq!(frame.get("time").text(), time);
        }
        assert_eq!(data.get("bottom").numbers(), states[0].b, "{name}");
        let barriers: Vec<i64> = states[0].barriers.iter().map(|&b| b.into()).collect();
        assert_eq!(data.get("barriers").numbers(), barriers, "{name}");
    }
}

#[test]
fn what_the_page_says_of_the_dock() {
    let dock = state("dock");
    let Parameters {
        w,
        n,
        kind,
        g,
        c,
        r,
    } = dock.parameters;
    let data = data(&page("dock", None));
    let numbers = [w as i64, n as i64, kind.into(), g, c, r];
    let names = ["w", "n", "kind", "G", "c", "R"];
    assert_eq!(names.map(|name| data.get(name).number()), numbers);
    assert_eq!(data.get("start").text(), "2026-11-16 06:00:00");
    assert_eq!(data.get("step_ms"), &Json::Null);
    let timeless = |frame: &Json| frame.get("time") == &Json::Null;
    assert!(data.get("frames").list().iter().all(timeless));
    let scale = data.get("scale");
    assert_eq!(scale.get("middle").number(), 12_000);
    assert_eq!(scale.get("reach").number(), 300);
    assert_eq!(scale.get("light").texts().len(), 5);
    assert_eq!(scale.get("light").texts()[2], "#f8f6f0");
    assert_eq!(scale.get("dark").texts().len(), 5);
}

#[test]
fn the_clock_of_the_page() {
    let data = data(&page("dock", Some(2500)));
    assert_eq!(data.get("step_ms").number(), 2500);
    let frames = data.get("frames").list();
    let times = frames.iter().map(|frame| frame.get("time").text());
    let seen: Vec<&str> = times.collect();
    let clock = ["06:00:00", "06:01:40", "06:03:20", "06:04:10"];
    assert_eq!(seen, clock.map(|time| format!("2026-11-16 {time}")));
}

/// A name comes through as it is, and ends neither the data nor the page.
#[test]
fn any_name_of_a_gate() {
    let page = page("dock", None);
    let data = data(&page);
    let gates = data.get("gates").list();
    let names: Vec<&str> = gates.iter().map(|gate| gate.get("name").text()).collect();
    assert_eq!(names, HARD_NAMES);
    let cells = gates.iter().map(|gate| (gate.get("i"), gate.get("j")));
    let columns: Vec<i64> = cells.clone().map(|cell| cell.0.number()).collect();
    assert_eq!(columns, [0, 5, 10, 15, 20, 25]);
    assert!(cells.clone().all(|cell| cell.1.number() == 0));
    // The data's own elements, and no others.
    assert_eq!(page.matches("<script").count(), 2);
    assert_eq!(page.matches("</script>").count(), 2);
    assert!(!page.contains("<!--") && !page.contains('\u{2028}'));
    let written = between(&page, "id=\"data\">", "</script>");
    assert!(!written.contains(['<', '>', '&']));
}

/// Nothing that could ask a host for anything, or make code of a text.
#[test]
fn the_script_asks_nobody() {
    let page = page("jetty", Some(1000));
    for word in [
        "http",
        "//www",
        "fetch(",
        "XMLHttpRequest",
        "import(",
        "import ",
        "eval",
        "Function(",
        "WebSocket",
        "EventSource",
        "sendBeacon",
        "innerHTML",
        "outerHTML",
        "insertAdjacent",
        "document.write",
        "Worker",
        "new Image",
        "localStorage",
        "cookie",
    ] {
        assert!(!script(&page).contains(word), "{word}");
    }
    for word in ["url(", "@import", "@font-face"] {
        assert!(!between(&page, "<style>", "</style>").contains(word));
    }
    for word in ["src=", "srcset", "<iframe", "<object", "<form", "onclick"] {
        assert!(!page.contains(word), "{word}");
    }
    assert_eq!(page.matches("href=").count(), 1);
    assert!(page.contains("<link rel=\"icon\" href=\"data:,\">"));
    let rule = "default-src 'none'; style-src 'unsafe-inline'; \
                script-src 'unsafe-inline'; img-src data:;";
    assert!(page.contains(rule));
    assert!(page.contains("<html lang=\"en\"") && page.contains("name=\"viewport\""));
    assert!(page.contains("<title>Level and current from 2026-11-16 06:00:00 UTC</title>"));
}

/// The texts after each `byId('` up to the quote, or in a list of them.
#[test]
fn every_id_that_the_script_asks_for_is_there() {
    let page = page("channel", None);
    let asked: Vec<&str> = script(&page)
        .split("byId('")
        .skip(1)
        .map(|rest| rest.split('\'').next().unwrap())
        .collect();
    assert!(asked.len() > 40);
    let html = page.split("id=\"data\">").next().unwrap();
    for id in asked.into_iter().chain(["cell-i", "cell-j", "data"]) {
        let written = format!("id=\"{id}\"");
        assert!(page.contains(&written), "{id}");
        assert!(html.matches(&written).count() <= 1, "{id} stands twice");
    }
    assert!(!html.contains("{{"), "something is not filled in");
}

/// A run that the core stops has the state that it was left in as its last frame.
#[test]
fn a_run_that_is_stopped() {
    let mut one = state("one_cell");
    let clock = clock(&one, None);
    let inflow = vec![1000];
    let (series, ran) = Series::run(&mut one, clock, vec![], 9000, 10, |state, next| {
        forecast::run::run(state, &inflow, next, next, |_| ())
    })
    .unwrap();
    assert_eq!(ran.steps, 98);
    assert!(ran.stopped.is_some());
    let data = data(&series.page());
    let frames = data.get("frames").list();
    assert_eq!(frames.len(), 11);
    assert_eq!(frames[9].get("steps").number(), 90);
    assert_eq!(frames[10].get("steps").number(), 98);
    same_frame(&frames[10], &one, "one cell");
}

#[test]
fn a_run_of_no_step_and_one_of_a_single_step() {
    for (steps, every, frames) in [(0, 1, 1), (1, 1, 2), (1, 7, 2), (14, 7, 3), (15, 7, 4)] {
        let (series, ran) = series(state("dock"), None, vec![], steps, every);
        assert_eq!((series.count(), ran.steps), (frames, steps));
        let data = data(&series.page());
        assert_eq!(data.get("frames").list().len(), frames);
        assert_eq!(data.get("gates").list().len(), 0);
        assert_eq!(frame_count(steps, every), frames as u64);
    }
}

#[test]
fn how_many_frames_a_page_holds() {
    let mut p = state("dock").parameters;
    let mut limit = |w, n| {
        (p.w, p.n) = (w, n);
        page_frames_limit(&p)
    };
    assert_eq!(limit(1, 1), MOST_FRAMES);
    assert_eq!(limit(64, 64), 325);
    // One more would be too many.
    let numbers = [325, 326].map(|frames| frames * 64 * 64 * 3);
    assert_eq!(numbers.map(|count| count <= MOST_NUMBERS), [true, false]);
    assert_eq!(limit(0, 0), MOST_FRAMES);
    assert_eq!(limit(usize::MAX, usize::MAX), 1);
}

/// Where nobody says how far apart the frames are, there are about a hundred.
#[test]
fn the_frames_of_a_page_where_nothing_is_said() {
    let mut p = state("dock").parameters;
    for (w, n) in [(1, 1), (32, 20), (64, 64)] {
        (p.w, p.n) = (w, n);
        for (steps, frames) in [(0, 1), (1, 2), (100, 101), (101, 52), (10_000, 101)] {
            let count = frame_count(steps, page_every(&p, steps));
            assert_eq!(count, frames);
            assert!(count <= page_frames_limit(&p));
        }
    }
}

#[test]
fn a_page_by_the_tool() {
    let place = format!("{}/A page.HTML", folder("tool_page"));
    let line = "draw @ @ --steps 30 --every 10";
    let answer = tool(&words(line, &[&example("channel.rec"), &place]));
    assert_eq!(answer.status, 0, "{}", answer.trouble);
    let data = data(&std::fs::read_to_string(place).unwrap());
    let frames = data.get("frames").list();
    let last = states_after("channel", &[30]);
    same_frame(&frames[3], &last[0], "channel");
}
