//! Pictures: well formed, one rectangle for each cell, walls where edges are
//! closed, arrows inside the map, and one scale for a series.

use std::fs;
use std::path::Path;

use crate::common::series::series;
use crate::common::{example, folder, given, said, state, tool, words, Random, EXAMPLES};
use forecast::{draw, State};

/// Every tag that is opened is closed, in order, and nothing stands about that
/// would need another form. Gives the names of all elements.
fn elements(svg: &str) -> Vec<String> {
    let (mut open, mut seen) = (Vec::new(), Vec::new());
    let mut rest = svg;
    while let Some(start) = rest.find('<') {
        assert!(!rest[..start].contains('>'), "a stray >");
        assert!(!rest[..start].contains('&'), "an entity");
        let end = start + rest[start..].find('>').expect("a tag ends");
        let tag = &rest[start + 1..end];
        assert!(
            tag.matches('"').count().is_multiple_of(2) && !tag.contains('<'),
            "{tag}"
        );
        let name = tag.trim_matches('/').split(' ').next().unwrap().to_owned();
        if tag.starts_with('/') {
            assert_eq!(open.pop(), Some(name));
        } else {
            seen.push(name.clone());
            if !tag.ends_with('/') {
                open.push(name);
            }
        }
        rest = &rest[end + 1..];
    }
    assert_eq!((open.len(), rest), (0, "\n"));
    seen
}

fn rectangles(svg: &str) -> usize {
    elements(svg).iter().filter(|name| *name == "rect").count()
}

#[test]
fn one_rectangle_for_each_cell() {
    for name in EXAMPLES {
        let state = state(name);
        let svg = draw::picture(&state).unwrap();
        assert_eq!(rectangles(&svg), state.h.len(), "{name}");
        let total = state.total_depth().unwrap().to_string();
        let title = svg.split("</text>").next().unwrap();
        assert!(
            title.contains("2026-11-16 06:00:00 UTC: total depth"),
            "{name}"
        );
        assert_eq!(
            title
                .rsplit("depth ")
                .next()
                .unwrap()
                .replace([',', ' ', 'm'], ""),
            total
        );
    }
}

/// Of grids of any shape, the smallest and largest too, and with the fastest
/// and highest numbers that there are.
#[test]
fn any_grid_is_drawn() {
    for (w, n) in [(1, 1), (1, 64), (64, 1), (2, 3), (64, 64), (5, 40)] {
        for kind in 0..3 {
            let mut state = state("dock");
            state.parameters.w = w;
            state.parameters.n = n;
            state.parameters.kind = kind;
            state.h = vec![100_000; w * n];
            state.b = (0..w * n).map(|k| k as i64 * 20).collect();
            state.u = vec![0; w * n];
            state.v = vec![0; w * n];
            state.barriers = (0..w * n).map(|k| k as u8 % 4).collect();
            if kind == 0 {
                state.u[0] = -5000;
                state.v[w * n - 1] = 5000;
                (state.barriers[0], state.barriers[w * n - 1]) = (0, 0);
            }
            let svg = draw::picture(&state).unwrap();
            assert_eq!(rectangles(&svg), w * n);
            assert!(!svg.contains("NaN") && !svg.contains("inf"), "{w} {n}");
        }
    }
}

/// The thick lines of a picture, each as it is written.
fn thick_lines(state: &State) -> Vec<String> {
    let svg = draw::picture(state).unwrap();
    let thick = svg
        .lines()
        .filter(|line| line.contains("stroke-width=\"3\""));
    let paths = thick.map(|line| line.split('"').nth(1).unwrap().to_owned());
    let lines = paths.flat_map(|path| {
        path.split('M')
            .skip(1)
            .map(str::to_owned)
            .collect::<Vec<_>>()
    });
    lines.collect()
}

/// Thick lines: none, south and north, all four, and these with an edge for each
/// barrier.
#[test]
fn walls_where_edges_are_closed() {
    let count = |name: &str| thick_lines(&state(name)).len();
    assert_eq!(
        ["eddies", "channel", "dock", "jetty"].map(count),
        [0, 2, 4, 4 + 24 + 3]
    );
}

/// On its own edge, and where that is a side of the grid on the opposite side too:
/// the grid wraps there.
#[test]
fn barriers_where_they_stand() {
    let mut state = state("eddies");
    let (w, n) = (32, 32);
    (state.u, state.v) = (vec![0; w * n], vec![0; w * n]);
    // A cell is 17.5 wide, the map begins at 40 and 44 and is 560 wide and high.
    let mut drawn = |cell: usize, barrier: u8| {
        state.barriers = vec![0; w * n];
        state.barriers[cell] = barrier;
        thick_lines(&state)
    };
    // Column 4 of row 2, whose north edge is 3 cells from the south.
    assert_eq!(drawn(2 * w + 4, 1), ["110.0 551.5v17.5"]);
    assert_eq!(drawn(2 * w + 4, 2), ["110.0 569.0h17.5"]);
    let both = ["110.0 551.5v17.5", "110.0 569.0h17.5"];
    assert_eq!(drawn(2 * w + 4, 3), both);
    // At the west side, at the south side, and in that corner.
    assert_eq!(drawn(2 * w, 1), ["40.0 551.5v17.5", "600.0 551.5v17.5"]);
    assert_eq!(drawn(2 * w, 2), ["40.0 569.0h17.5"]);
    assert_eq!(drawn(4, 1), ["110.0 586.5v17.5"]);
    assert_eq!(drawn(4, 2), ["110.0 604.0h17.5", "110.0 44.0h17.5"]);
    assert_eq!(drawn(0, 3).len(), 4);
    // The last cell is at the north and east sides, its west and south edges not.
    assert_eq!(drawn(w * n - 1, 3).len(), 2);
}

#[test]
fn north_is_at_the_top() {
    let mut state = state("eddies");
    state.h = vec![5000; 1024];
    // The last row is the highest.
    for cell in 31 * 32..32 * 32 {
        state.h[cell] = 6000;
    }
    let svg = draw::picture(&state).unwrap();
    let fill = |x: usize, y: usize| {
        let start = format!("<rect x=\"{x}\" y=\"{y}\"");
        svg.lines()
            .find(|line| line.starts_with(&start))
            .unwrap()
            .rsplit("fill=")
            .next()
    };
    assert_ne!(fill(3, 0), fill(3, 1));
    assert_eq!(fill(3, 1), fill(3, 31));
}

#[test]
fn a_series_has_its_frames_and_one_scale() {
    let folder = format!("{}/a new folder", folder("series"));
    let record = fs::read(example("dock.rec")).unwrap();
    let line = "draw - @ --steps 100 --every 40";
    let answer = given(&record, &words(line, &[&folder]));
    assert_eq!(answer.status, 0);
    assert!(
        answer.out.ends_with("steps done 100\nframes 4\n"),
        "{}",
        answer.out
    );
    let read = |name: &str| fs::read_to_string(format!("{folder}/{name}")).unwrap();
    let frames = ["00000.svg", "00001.svg", "00002.svg", "00003.svg"].map(read);
    let legend = |svg: &str| svg[svg.find("<linearGradient").unwrap()..].to_owned();
    for (frame, steps) in frames.iter().zip([0, 40, 80, 100]) {
        assert_eq!(rectangles(frame), 640);
        let start = "steps from 2026-11-16 06:00:00 UTC";
        let title = format!(">{steps} {start}: total depth 6,289,500 mm<");
        assert!(frame.contains(&title), "{title}");
        assert_eq!(legend(frame), legend(&frames[0]));
    }
    assert_eq!(rectangles(&read("series.svg")), 4 * 640);
    assert_eq!(fs::read_dir(&folder).unwrap().count(), 5);
}

#[test]
fn a_series_that_is_stopped_has_the_state_it_was_left_in() {
    let folder = folder("stopped_series");
    let line = "draw @ @ --steps 9000 --every 10 --inflow 0 0 1000";
    let answer = tool(&words(line, &[&example("one_cell.rec"), &folder]));
    assert_eq!(answer.status, 1);
    let end = answer.out.lines().skip(3).collect::<Vec<_>>();
    assert!(
        end[0].starts_with("stopped after 98 steps: refused 6"),
        "{end:?}"
    );
    assert_eq!(end[1..], ["frames 11"]);
    // The frames, the last of which is where it stopped, and the overview.
    assert_eq!(fs::read_dir(&folder).unwrap().count(), 11 + 1);
    let last = fs::read_to_string(format!("{folder}/00010.svg")).unwrap();
    assert!(last.contains(">98 steps from "), "{last}");
}

#[test]
fn a_picture_by_the_tool() {
    let svg = format!("{}/a picture.svg", folder("tool_picture"));
    assert_eq!(said(&["draw", &example("channel.rec"), &svg]), "");
    assert_eq!(rectangles(&fs::read_to_string(svg).unwrap()), 960);
}

/// The left, top, right and bottom of each map, of a grid so wide and high.
fn maps(svg: &str, w: usize, n: usize) -> Vec<[f64; 4]> {
    let starts = svg.split("translate(").skip(1);
    let map = |text: &str| {
        let numbers: Vec<f64> = text[..text.find('"').unwrap()]
            .split([' ', ')', '('])
            .filter_map(|number| number.parse().ok())
            .collect();
        let [left, top, cell] = numbers[..] else {
            panic!("{numbers:?}");
        };
        [left, top, left + w as f64 * cell, top + n as f64 * cell]
    };
    starts.map(map).collect()
}

/// The points of the arrows of each map: those lines alone have round joins.
fn arrows(svg: &str) -> Vec<Vec<(f64, f64)>> {
    let lines = svg.lines().filter(|line| line.contains("stroke-linejoin"));
    let points = |line: &str| {
        let path = line.split('"').nth(1).unwrap();
        let pairs = path.split(['M', 'L']).skip(1);
        let point = |pair: &str| {
            let (x, y) = pair.split_once(' ').unwrap();
            (x.parse().unwrap(), y.parse().unwrap())
        };
        pairs.map(point).collect::<Vec<(f64, f64)>>()
    };
    lines.map(points).collect()
}

/// Every point of an arrow is inside a map, its line and half a wall away from the
/// side. Gives how many arrows there are.
fn arrows_are_inside(svg: &str, w: usize, n: usize) -> usize {
    let (maps, arrows) = (maps(svg, w, n), arrows(svg));
    assert!(arrows.len() <= maps.len());
    let clear = |from: f64, to: f64, at: f64| {
        let room = ((to - from) / 4.0).min(2.0) - 0.06;
        from + room <= at && at <= to - room
    };
    let inside = |&(x, y): &(f64, f64)| {
        let within =
            |&[left, top, right, bottom]: &[f64; 4]| clear(left, right, x) && clear(top, bottom, y);
        assert!(maps.iter().any(within), "{w} {n}: {x} {y} of {maps:?}");
    };
    arrows.iter().flatten().for_each(inside);
    arrows.iter().map(|points| points.len() / 5).sum()
}

#[test]
fn arrows_of_the_examples_stay_inside_the_map() {
    for name in EXAMPLES {
        let (w, n) = (state(name).parameters.w, state(name).parameters.n);
        let (series, _) = series(state(name), None, vec![], 400, 40);
        let pictures = (0..series.count()).map(|k| series.frame(k));
        let counts = pictures.chain([series.overview()]);
        let arrows: usize = counts.map(|svg| arrows_are_inside(&svg, w, n)).sum();
        assert!(arrows > 500, "{name}: {arrows}");
    }
}

/// Of any grid and any currents, as fast as there are at the sides too.
#[test]
fn arrows_of_any_state_stay_inside_the_map() {
    let mut random = Random::new(4);
    let shapes = [(1, 1), (1, 64), (64, 1), (2, 3), (64, 64), (5, 40), (33, 7)];
    for (w, n) in shapes.into_iter().cycle().take(70) {
        let mut state = state("eddies");
        (state.parameters.w, state.parameters.n) = (w, n);
        let fastest = random.pick(&[1, 40, 5000]);
        let mut speeds = || -> Vec<i64> {
            let speed = |_| random.between(-fastest, fastest);
            (0..w * n).map(speed).collect()
        };
        (state.u, state.v) = (speeds(), speeds());
        state.h = vec![50_000; w * n];
        (state.b, state.barriers) = (vec![0; w * n], vec![0; w * n]);
        let svg = draw::picture(&state).unwrap();
        arrows_are_inside(&svg, w, n);
        let (series, _) = series(state, None, vec![], 0, 1);
        arrows_are_inside(&series.overview(), w, n);
    }
}

/// An arrow at the side of the map keeps its direction, and its length where the
/// map has room.
#[test]
fn an_arrow_at_the_side_keeps_its_direction() {
    let mut state = state("eddies");
    let cells = state.h.len();
    (state.u, state.v) = (vec![300; cells], vec![400; cells]);
    let svg = draw::picture(&state).unwrap();
    let arrows = arrows(&svg);
    assert_eq!(arrows[0].len(), 5 * cells);
    for points in arrows[0].chunks(5) {
        let along = (points[1].0 - points[0].0, points[1].1 - points[0].1);
        let length = (along.0 * along.0 + along.1 * along.1).sqrt();
        assert!((length - 1.15 * 17.5).abs() < 0.2, "{length}");
        assert!((along.0 / length - 0.6).abs() < 0.01, "{along:?}");
        assert!((along.1 / length + 0.8).abs() < 0.01, "{along:?}");
    }
}

/// Words of a size, and where they stand.
fn words_of(svg: &str, size: &str) -> Vec<(f64, f64, String)> {
    let size = format!("font-size=\"{size}\"");
    let lines = svg.lines().filter(|line| line.contains(&size));
    let read = |line: &str| {
        let parts: Vec<&str> = line.split('"').collect();
        let text = line.split('>').nth(1).unwrap().trim_end_matches("</text");
        (
            parts[1].parse().unwrap(),
            parts[3].parse().unwrap(),
            text.to_owned(),
        )
    };
    lines.map(read).collect()
}

/// Columns from the west along the south side, rows from the south at the west
/// side, each at its cell.
#[test]
fn columns_and_rows_have_their_numbers() {
    let dock = words_of(&draw::picture(&state("dock")).unwrap(), "10.5");
    // A cell is 25 wide: there is room for each number.
    assert_eq!(dock.len(), 32 + 20);
    for (i, (x, y, text)) in dock[..32].iter().enumerate() {
        assert_eq!((text, *x), (&i.to_string(), 40.0 + 25.0 * (i as f64 + 0.5)));
        assert_eq!(*y, 44.0 + 500.0 + 13.0);
    }
    for (j, (x, y, text)) in dock[32..].iter().enumerate() {
        assert_eq!((text, *x), (&j.to_string(), 35.0));
        let middle = 44.0 + 500.0 - 25.0 * (j as f64 + 0.5);
        assert!((y - 3.7 - middle).abs() < 0.06, "{j} {y}");
    }
}

/// Where cells are small, some are left out: neighbours are 20 points apart, with
/// a round number of cells between them.
#[test]
fn numbers_do_not_touch() {
    let gaps = EXAMPLES.map(|name| {
        let svg = draw::picture(&state(name)).unwrap();
        let numbers = words_of(&svg, "10.5");
        let (columns, rows): (Vec<_>, Vec<_>) = numbers.iter().partition(|(x, ..)| *x > 36.0);
        let number = |place: &&(f64, f64, String)| place.2.parse::<usize>().unwrap();
        let gap = number(&columns[1]) - number(&columns[0]);
        for pair in columns.windows(2).chain(rows.windows(2)) {
            let apart = (pair[1].0 - pair[0].0).max(pair[0].1 - pair[1].1);
            assert!(apart >= 19.9, "{name} {apart}");
            assert_eq!(number(&pair[1]) - number(&pair[0]), gap, "{name}");
        }
        gap
    });
    assert_eq!(gaps, [1, 2, 2, 1]);
}

/// One on each page, that points up.
#[test]
fn a_north_arrow_on_each_page() {
    let (series, _) = series(state("channel"), None, vec![], 40, 10);
    for svg in [series.frame(1), series.overview()] {
        let arrow = svg
            .lines()
            .filter(|line| line.contains("id=\"north\""))
            .collect::<Vec<_>>();
        assert_eq!(arrow.len(), 1);
        let path = arrow[0].split(" d=\"M").nth(1).unwrap();
        let (x, y) = path.split_once('l').unwrap().0.split_once(' ').unwrap();
        let (x, y): (f64, f64) = (x.parse().unwrap(), y.parse().unwrap());
        // Its tip comes first, and what follows is below; the letter too.
        assert!(path.contains("l5 15l-5 -4l-5 4z"));
        let letters = words_of(&svg, "12");
        assert_eq!(letters.len(), 1);
        assert_eq!((letters[0].0, &letters[0].2[..]), (x, "N"));
        assert!(letters[0].1 > y + 15.0);
    }
}

/// With the length of a step, frames have the time; the date changes at midnight.
#[test]
fn the_time_of_a_frame() {
    let hours = Some(3_600_000);
    let (series, _) = series(state("dock"), hours, vec![], 20, 10);
    let titles = [
        "2026-11-16 06:00:00 UTC, step 0",
        "2026-11-16 16:00:00 UTC, step 10",
    ];
    for (k, title) in titles.iter().enumerate() {
        let title = format!(">{title}: total depth 6,289,500 mm<");
        assert!(series.frame(k).contains(&title), "{title}");
    }
    let overview = series.overview();
    for words in [
        ">2026-11-16 16:00:00 UTC<",
        ">2026-11-17 02:00:00 UTC<",
        ">step 20<",
        ">total 6,289,500 mm<",
        "total depth from 2026-11-16 06:00:00 UTC on<",
    ] {
        assert!(overview.contains(words), "{words}");
    }
    elements(&overview);
}

#[test]
fn frames_of_another_series_in_the_folder() {
    let folder = folder("other_frames");
    let count = |count| draw::other_frames(Path::new(&folder), count);
    assert_eq!(count(0), 0);
    for name in [
        "00000.svg",
        "00003.svg",
        "00004.svg",
        "99999.svg",
        // None of ours.
        "series.svg",
        "4.svg",
        "000004.svg",
        "100000.svg",
        "+0004.svg",
        "00005.png",
        "00005.svg.old",
        "0000a.svg",
    ] {
        fs::write(format!("{folder}/{name}"), "").unwrap();
    }
    assert_eq!([0, 1, 4, 5, 100_000].map(count), [4, 3, 2, 1, 0]);
    let missing = format!("{folder}/none");
    assert_eq!(draw::other_frames(Path::new(&missing), 0), 0);
}

/// A shorter series in the folder of a longer one leaves some, and says so.
#[test]
fn a_folder_with_frames_of_another_series() {
    let folder = folder("two_series");
    let record = example("channel.rec");
    // With a stroke at its end, as a shell completes it.
    let slashed = format!("{folder}/");
    let draw = |steps: &str| tool(&["draw", &record, &slashed, "--steps", steps, "--every", "1"]);
    assert_eq!(draw("5").notes, "");
    assert_eq!(draw("5").notes, "");
    let answer = draw("3");
    assert_eq!(answer.status, 0);
    let told = answer.notes;
    assert!(
        told.contains("2 other frames") && told.contains(&folder),
        "{told}"
    );
}
