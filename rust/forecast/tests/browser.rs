//! The page in a real browser, where there is one: a script acts as a reader, and
//! what it saw is compared with the states of the core.

use std::env;
use std::fs;
use std::io::{self, Write};
use std::path::{Path, PathBuf};
use std::process::{Command, Stdio};
use std::sync::{Mutex, OnceLock, PoisonError};
use std::thread::sleep;
use std::time::{Duration, Instant};

use crate::common::json::Json;
use crate::common::series::{clock, gates, grouped, series, states_after, HARD_NAMES};
use crate::common::{example, folder, said, state, words};
use forecast::clock::Clock;
use forecast::date::to_date;
use forecast::gates::Gate;
use forecast::State;

const USER: &str = include_str!("common/user.js");
/// Kept before the page's own script: whatever goes wrong from the start.
const WATCH: &str = "<body>\n<script>\nwindow.troubles = [];\n\
     addEventListener('error', (event) => troubles.push(String(event.message)));\n\
     addEventListener('unhandledrejection', (event) => troubles.push(String(event.reason)));\n\
     addEventListener('securitypolicyviolation', (event) => troubles.push(event.blockedURI));\n\
     </script>\n";
/// A frame as wide as a small phone: a browser's own window has to be wider.
const PHONE: &str = "<!DOCTYPE html>\n<meta charset=\"utf-8\">\n\
     <meta name=\"color-scheme\" content=\"light dark\">\n\
     <iframe src=\"page.html\" style=\"width: 360px; height: 740px; border: 0\"></iframe>\n\
     <script>\naddEventListener('message', (event) => {\n\
     const pre = document.createElement('pre');\npre.id = 'seen';\n\
     pre.textContent = event.data;\ndocument.body.append(pre);\n});\n</script>\n";
/// A browser that does not answer is ended after so long.
const PATIENCE: Duration = Duration::from_secs(60);

/// The file to open, and the browser's options.
type Look<'a> = (&'a str, &'a [&'a str]);

/// A browser in the folders that programs are looked for in.
fn browser() -> Option<PathBuf> {
    let folders: Vec<PathBuf> = env::split_paths(&env::var_os("PATH")?).collect();
    let names = ["chromium", "chromium-browser", "google-chrome"];
    let places = names
        .iter()
        .flat_map(|name| folders.iter().map(move |folder| folder.join(name)));
    places.into_iter().find(|place| place.is_file())
}

/// The browser, where it shows an empty page: on some machines it is there and does
/// not start.
fn working() -> Option<PathBuf> {
    static WORKING: OnceLock<Option<PathBuf>> = OnceLock::new();
    let starts = |browser: &PathBuf| {
        let folder = folder("browser_alone");
        let empty = "<!DOCTYPE html>\n<p>empty</p>\n";
        fs::write(format!("{folder}/empty.html"), empty).unwrap();
        looked_at(browser, &folder, ("empty.html", &[]))
            .is_some_and(|(dom, _)| dom.contains("empty"))
    };
    WORKING.get_or_init(|| browser().filter(starts)).clone()
}

/// The page as a browser leaves it, and what it noted of the network. None where it
/// does not answer.
fn looked_at(browser: &Path, folder: &str, (file, options): Look) -> Option<(String, String)> {
    let (dom, net) = (format!("{folder}/dom.html"), format!("{folder}/net.json"));
    let mut child = Command::new(browser)
        .args(["--headless=new", "--no-sandbox", "--disable-gpu"])
        .args(["--no-first-run", "--disable-background-networking"])
        .args(["--disable-component-update", "--disable-sync"])
        .args(["--disable-extensions", "--disable-default-apps"])
        .arg(format!("--user-data-dir={folder}/profile"))
        .arg(format!("--log-net-log={net}"))
        .args(["--virtual-time-budget=20000", "--dump-dom"])
        .args(options)
        .arg(format!("file://{folder}/{file}"))
        .stdout(fs::File::create(&dom).unwrap())
        .stderr(Stdio::null())
        .spawn()
        .unwrap();
    let begun = Instant::now();
    while child.try_wait().unwrap().is_none() {
        if begun.elapsed() > PATIENCE {
            let _ = child.kill();
            let _ = child.wait();
            return None;
        }
        sleep(Duration::from_millis(50));
    }
    let read = |place: &str| fs::read_to_string(place).unwrap_or_default();
    Some((read(&dom), read(&net)))
}

/// What the script saw of a page.
fn seen(browser: &Path, test: &str, page: &str, of: &State, how: Look) -> Json {
    let folder = folder(test);
    let (w, n) = (of.parameters.w, of.parameters.n);
    let user = USER
        .replace("COLUMNS", &w.to_string())
        .replace("ROWS", &n.to_string());
    let acted = page.replacen("<body>\n", WATCH, 1).replacen(
        "</body>",
        &format!("<script>\n{user}</script>\n</body>"),
        1,
    );
    fs::write(format!("{folder}/page.html"), acted).unwrap();
    fs::write(format!("{folder}/phone.html"), PHONE).unwrap();
    let (dom, net) = looked_at(browser, &folder, how).expect("the browser answers");
    asked_nobody(&net);
    let start = "<pre id=\"seen\">";
    let text = dom
        .split_once(start)
        .unwrap_or_else(|| panic!("nothing seen: {folder}"))
        .1;
    let text = text.split_once("</pre>").unwrap().0;
    // As a page writes text; the last one is of the others.
    let text = text
        .replace("&lt;", "<")
        .replace("&gt;", ">")
        .replace("&nbsp;", "\u{a0}")
        .replace("&amp;", "&");
    Json::read(&text)
}

/// The browser's own notes have no request of the page to a host. (What a browser
/// asks on its own account has no origin there.)
fn asked_nobody(net: &str) {
    assert!(net.contains("\"events\""), "no notes of the network");
    let own = "\"initiator\":\"not an origin\"";
    let asked = |line: &&str| line.contains("\"initiator\":") && !line.contains(own);
    let asked: Vec<&str> = net.lines().filter(asked).collect();
    assert!(asked.is_empty(), "{asked:?}");
}

/// Looks at a page, where there is a browser. One at a time: each takes a core.
fn look(test: &str, page: &str, of: &State, how: Look) -> Option<Json> {
    static ONE: Mutex<()> = Mutex::new(());
    let _one = ONE.lock().unwrap_or_else(PoisonError::into_inner);
    let Some(browser) = working() else {
        // Not by `println`, which is kept back of a test that passes.
        let words = "the page in a browser, since no chromium is here, or none that starts";
        let _ = writeln!(io::stdout(), "\nnot tried: {words} ({test})");
        return None;
    };
    let seen = seen(&browser, test, page, of, how);
    nothing_is_wrong(&seen);
    Some(seen)
}

/// What holds of every page, however wide it is.
fn nothing_is_wrong(seen: &Json) {
    assert_eq!(seen.get("troubles").texts(), [""; 0]);
    assert_eq!(seen.get("asked").texts(), [""; 0]);
    assert_eq!(seen.get("tooSmall").texts(), [""; 0]);
    let (wide, inner) = (seen.get("wide").number(), seen.get("inner").number());
    assert!(wide <= inner, "{wide} in a window of {inner}");
    // It does not play by itself.
    assert_eq!(seen.get("start").get("frame").number(), 0);
    assert_eq!(seen.get("start").get("word").text(), "Play");
    // The map has 30 points for numbers, and the rest for its cells.
    assert_eq!(seen.get("mapHigh").number(), 30);
}

/// The steps of the frames of a run.
fn frame_steps(steps: u64, every: u64) -> Vec<u64> {
    let even = (0..steps).step_by(every as usize);
    even.chain([steps]).collect()
}

/// Level of the cell of each gate.
fn gate_levels(state: &State, gates: &[Gate]) -> Vec<i64> {
    let w = state.parameters.w;
    let level = state.level();
    let at = |gate: &Gate| level[gate.cell.1 * w + gate.cell.0];
    gates.iter().map(at).collect()
}

/// What is told of a cell.
fn cell_words(state: &State, i: usize, j: usize) -> String {
    let k = j * state.parameters.w + i;
    let [level, depth] = [state.level()[k], state.h[k]].map(grouped);
    let [u, v] = [state.u[k], state.v[k]].map(grouped);
    format!("cell {i} {j}: level_{level}_mm, depth_{depth}_mm, u_{u}_mm/s, v_{v}_mm/s")
        .replace('_', "\u{a0}")
}

/// Each frame, come to by the slider, has the numbers of the core.
fn each_frame(seen: &Json, steps: &[u64], states: &[State], gates: &[Gate], clock: Clock) {
    let frames = seen.get("each").list();
    assert_eq!(frames.len(), steps.len());
    let last = grouped(*steps.last().unwrap() as i64);
    for (k, (frame, state)) in frames.iter().zip(states).enumerate() {
        assert_eq!(frame.get("frame").number(), k as i64);
        let done = grouped(steps[k] as i64);
        let time = match clock.at(steps[k]) {
            Some(time) => format!("{} UTC", to_date(time)),
            None => format!("step {done}, from {} UTC", to_date(clock.start)),
        };
        assert_eq!(frame.get("clock").text(), time);
        assert_eq!(frame.get("steps").text(), format!("{done} of {last}"));
        let total = grouped(state.total_depth().unwrap());
        assert_eq!(frame.get("total").text(), format!("{total} mm"));
        let levels = gate_levels(state, gates).into_iter();
        let told: Vec<String> = levels.map(|mm| format!("{} mm", grouped(mm))).collect();
        assert_eq!(frame.get("gates").texts(), told);
    }
}

fn real(text: &str) -> f64 {
    text.parse().expect(text)
}

/// The curve of each gate goes through the level of each frame, as the axes say.
fn curves(seen: &Json, steps: &[u64], states: &[State], gates: &[Gate]) {
    let ticks: Vec<[f64; 2]> = seen
        .get("ticks")
        .list()
        .iter()
        .map(|tick| [0, 1].map(|k| real(tick.texts()[k])))
        .collect();
    assert!((3..=9).contains(&ticks.len()), "{ticks:?}");
    let ([low, bottom], [high, top]) = (ticks[0], ticks[ticks.len() - 1]);
    let curves = seen.get("curves").texts();
    assert_eq!(curves.len(), gates.len());
    for (g, curve) in curves.iter().enumerate() {
        let points: Vec<(f64, f64)> = curve[1..]
            .split('L')
            .map(|point| point.split_once(' ').unwrap())
            .map(|(x, y)| (real(x), real(y)))
            .collect();
        assert_eq!(points.len(), steps.len());
        let (left, right) = (points[0].0, points[steps.len() - 1].0);
        for ((point, state), &done) in points.iter().zip(states).zip(steps) {
            let level = gate_levels(state, gates)[g] as f64;
            let y = bottom + (top - bottom) * (level - low) / (high - low);
            let x = left + (right - left) * done as f64 / steps[steps.len() - 1] as f64;
            assert!((point.1 - y).abs() < 0.03, "{level} at {point:?}, not {y}");
            assert!((point.0 - x).abs() < 0.03, "{done} at {point:?}, not {x}");
        }
    }
    let all: Vec<i64> = (0..steps.len() as i64).collect();
    assert_eq!(seen.get("clicked").numbers(), all);
}

/// Played, paused, and by keys and buttons.
fn moved(seen: &Json, last: i64) {
    let [playing, paused, held] = ["playing", "paused", "held"].map(|name| seen.get(name));
    assert!(playing.get("frame").number() > 0);
    assert_eq!(playing.get("word").text(), "Pause");
    assert_eq!(paused.get("frame"), playing.get("frame"));
    assert_eq!(paused.get("word").text(), "Play");
    assert_eq!(held, paused);
    assert_eq!(seen.get("keys").numbers(), [0, 1, 2, 1, last, last]);
    assert_eq!(seen.get("kept").numbers(), [last, last]);
    assert_eq!(seen.get("space").texts(), ["Pause", "Play", "Play"]);
    // Played to the end, it stops there.
    assert_eq!(seen.get("end").get("frame").number(), last);
    assert_eq!(seen.get("end").get("word").text(), "Play");
    assert_eq!(seen.get("back").number(), last - 1);
    assert_eq!(seen.get("forward").number(), last);
}

/// The colour of a cell of the map is that of the picture, but for the rounding
/// of a table of colours.
fn coloured(spot: &Json, picture: &str, x: usize) {
    let start = format!("<rect x=\"{x}\" y=\"1\"");
    let line = picture.lines().find(|line| line.starts_with(&start));
    let fill = line.unwrap().rsplit('#').next().unwrap();
    for (k, seen) in spot.numbers()[..3].iter().enumerate() {
        let part = i64::from_str_radix(&fill[2 * k..2 * k + 2], 16).unwrap();
        assert!((part - seen).abs() <= 2, "{fill} {spot:?}");
    }
}

const LIGHT: &str = "rgb(253, 253, 251)";
const DARK: &str = "rgb(17, 24, 30)";

/// At a desk, by day.
#[test]
fn the_dock_with_gates_at_a_desk() {
    let (dock, gates) = (state("dock"), gates(&HARD_NAMES));
    let (series, _) = series(dock.clone(), Some(2500), gates.clone(), 265, 10);
    let how: Look = ("page.html", &["--window-size=1200,1400"]);
    let Some(seen) = look("browser_desk", &series.page(), &dock, how) else {
        return;
    };
    let steps = frame_steps(265, 10);
    let states = states_after("dock", &steps);
    moved(&seen, steps.len() as i64 - 1);
    each_frame(&seen, &steps, &states, &gates, clock(&dock, Some(2500)));
    curves(&seen, &steps, &states, &gates);
    assert_eq!(seen.get("names").texts(), HARD_NAMES);
    assert_eq!(seen.get("chartHidden"), &Json::Truth(false));
    assert_eq!(seen.get("touched").text(), cell_words(&dock, 3, 2));
    assert_eq!(seen.get("given").text(), cell_words(&dock, 7, 1));
    assert!(seen.get("outside").text().starts_with("Touch a cell"));
    let picture = series.frame(0);
    coloured(seen.get("west"), &picture, 0);
    coloured(seen.get("east"), &picture, dock.parameters.w - 1);
    assert_eq!(seen.get("ground").text(), LIGHT);
    assert_eq!(seen.get("grounds").texts(), [LIGHT, DARK, LIGHT]);
}

/// What the tool writes of the jetty: a page, or the table of a run.
fn by_tool(command: &str, file: &str, options: &str) -> String {
    let place = format!("{}/{file}", folder(&format!("jetty_{command}")));
    let place_words = match command {
        "run" => "--csv @",
        _ => "@",
    };
    let line = format!("{command} @ {place_words} {options}");
    said(&words(&line, &[&example("jetty.rec"), &place]));
    fs::read_to_string(place).unwrap()
}

/// Level and total depth of each frame are those of the table's lines.
fn as_in_the_table(seen: &Json, table: &str) {
    let frames = seen.get("each").list();
    let lines: Vec<&str> = table.lines().skip(1).collect();
    assert_eq!(frames.len(), lines.len());
    for (frame, line) in frames.iter().zip(lines) {
        let cells: Vec<&str> = line.split(',').collect();
        let mm = |cell: usize| format!("{} mm", grouped(cells[cell].parse().unwrap()));
        assert_eq!(frame.get("total").text(), mm(2));
        assert_eq!(frame.get("gates").texts(), [mm(3), mm(6)]);
    }
}

/// On a phone, by night: narrow, dark, and with a name longer than the screen.
#[test]
fn the_jetty_on_a_phone_at_night() {
    let long = "a-name-without-any-space-in-it-".repeat(4);
    let (jetty, gates) = (state("jetty"), gates(&["gate", &long]));
    let options = format!("--steps 130 --every 20 --gate gate 0 0 --gate {long} 5 0");
    let page = by_tool("draw", "page.html", &options);
    let how: Look = ("phone.html", &["--blink-settings=preferredColorScheme=0"]);
    let Some(seen) = look("browser_phone", &page, &jetty, how) else {
        return;
    };
    as_in_the_table(&seen, &by_tool("run", "table.csv", &options));
    assert_eq!(seen.get("inner").number(), 360);
    let steps = frame_steps(130, 20);
    let states = states_after("jetty", &steps);
    moved(&seen, steps.len() as i64 - 1);
    each_frame(&seen, &steps, &states, &gates, clock(&jetty, None));
    curves(&seen, &steps, &states, &gates);
    assert_eq!(seen.get("touched").text(), cell_words(&jetty, 3, 2));
    assert_eq!(seen.get("ground").text(), DARK);
    assert_eq!(seen.get("grounds").texts(), [LIGHT, DARK, DARK]);
}

/// Without gates there are no curves.
#[test]
fn the_eddies_without_gates() {
    let eddies = state("eddies");
    let (series, _) = series(eddies.clone(), None, vec![], 60, 10);
    let how: Look = ("page.html", &["--window-size=800,600"]);
    let Some(seen) = look("browser_eddies", &series.page(), &eddies, how) else {
        return;
    };
    let steps = frame_steps(60, 10);
    moved(&seen, steps.len() as i64 - 1);
    let states = states_after("eddies", &steps);
    each_frame(&seen, &steps, &states, &[], clock(&eddies, None));
    assert_eq!(seen.get("chartHidden"), &Json::Truth(true));
    assert_eq!(seen.get("curves").texts(), [""; 0]);
    assert_eq!(seen.get("touched").text(), cell_words(&eddies, 3, 2));
}
