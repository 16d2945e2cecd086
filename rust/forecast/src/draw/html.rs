//! The page to look at: a template, its style and its script, and between them
//! the numbers of a series. It is one file, and asks no host for anything.

use super::frame::Frame;
use super::json::{list, number_or_null, numbers, quoted, quoted_or_null};
use super::scale::{colours, dark_colours};
use super::Series;
use crate::gates::Gate;

const TEMPLATE: &str = include_str!("html/page.html");
const STYLE: &str = include_str!("html/page.css");
const SCRIPT: &str = concat!(
    include_str!("html/view.js"),
    include_str!("html/map.js"),
    include_str!("html/curves.js"),
    include_str!("html/controls.js"),
);

/// The page of a series.
pub fn page(series: &Series) -> String {
    filled(TEMPLATE, |name| match name {
        "style" => STYLE.to_owned(),
        "script" => SCRIPT.to_owned(),
        "start" => series.start(),
        "data" => data(series),
        _ => String::new(),
    })
}

/// A template with each `{{name}}` replaced. It is gone through once, so that
/// nothing is replaced in what is put in.
fn filled(template: &str, what: impl Fn(&str) -> String) -> String {
    let mut text = String::new();
    let mut rest = template;
    while let Some((before, after)) = rest.split_once("{{") {
        let (name, after) = after.split_once("}}").unwrap_or((after, ""));
        text.push_str(before);
        text.push_str(&what(name));
        rest = after;
    }
    text + rest
}

/// All that the script knows of the series. Every number is one that the core
/// has read or left, but for those of the scale.
fn data(series: &Series) -> String {
    let p = &series.parameters;
    let frames = series.frames.iter().map(|frame| {
        let time = quoted_or_null(series.time(frame));
        frame_data(frame, &time)
    });
    format!(
        "{{\"w\":{},\"n\":{},\"kind\":{},\"G\":{},\"c\":{},\"R\":{},\n\
         \"start\":{},\"step_ms\":{},\n\"bottom\":{},\n\"barriers\":{},\n\
         \"gates\":{},\n\"scale\":{},\n\"frames\":{}}}",
        p.w,
        p.n,
        p.kind,
        p.g,
        p.c,
        p.r,
        quoted(&series.start()),
        number_or_null(series.clock.step_ms),
        numbers(&series.bottom),
        numbers(&series.barriers),
        list(series.gates.iter().map(gate_data)),
        scale_data(series),
        list(frames),
    )
}

fn frame_data(frame: &Frame, time: &str) -> String {
    format!(
        "{{\"steps\":{},\"time\":{time},\"total\":{},\n\"level\":{},\n\"u\":{},\n\"v\":{}}}",
        frame.steps,
        frame.total,
        numbers(&frame.level),
        numbers(&frame.u),
        numbers(&frame.v),
    )
}

fn gate_data(gate: &Gate) -> String {
    let (name, (i, j)) = (quoted(&gate.name), gate.cell);
    format!("{{\"name\":{name},\"i\":{i},\"j\":{j}}}")
}

/// What colours, arrows and contours stand for. The fastest current is a mean
/// over edges; it is given rounded up.
fn scale_data(series: &Series) -> String {
    let scale = &series.scale;
    let palette = |colours: Vec<String>| list(colours.iter().map(|colour| quoted(colour)));
    format!(
        "{{\"middle\":{},\"reach\":{},\"fastest\":{},\"key\":{},\"contour\":{},\n\
         \"light\":{},\n\"dark\":{}}}",
        scale.middle,
        scale.reach,
        scale.fastest.ceil() as i64,
        scale.key_speed(),
        scale.contour,
        palette(colours()),
        palette(dark_colours()),
    )
}

#[cfg(test)]
mod tests {
    use super::filled;

    #[test]
    fn a_template_is_filled_once() {
        let what = |name: &str| format!("<{name} {{{{b}}}}>");
        assert_eq!(filled("1 {{a}} 2 {{b}}", what), "1 <a {{b}}> 2 <b {{b}}>");
        assert_eq!(filled("none", what), "none");
    }
}
