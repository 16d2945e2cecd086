//! Measures the limits of the proved core, and prints them:
//!
//! ```sh
//! cargo run --release --offline --manifest-path rust/Cargo.toml -p bench --bin limits
//! ```
//!
//! With `-- --svg FILE` it also draws the picture of the README. It takes some
//! 20 seconds.

use std::process::ExitCode;

use bench::dock::example;
use bench::doubles::Rounding;
use bench::drift::{rises, swings, Pair, Swing, Window, WINDOWS_AN_HOUR};
use bench::least::{current, current_moves, slope, slope_moves, smallest, Way, STEEPEST};
use bench::picture::picture;
use bench::waves::Trial;

fn main() -> ExitCode {
    let arguments: Vec<String> = std::env::args().skip(1).collect();
    let file = match &arguments[..] {
        [] => None,
        [option, file] if option == "--svg" => Some(file),
        _ => {
            eprintln!("usage: limits [--svg FILE]");
            return ExitCode::FAILURE;
        }
    };
    slopes();
    currents();
    let day = drift();
    causes();
    let swings = swings();
    late(&swings);
    if let Some(file) = file {
        if let Err(error) = std::fs::write(file, picture(&day, &swings)) {
            eprintln!("{file}: {error}");
            return ExitCode::FAILURE;
        }
    }
    waves();
    ExitCode::SUCCESS
}

/// A number, or that there is none within the bounds.
fn found(number: Option<i64>) -> String {
    number.map_or("none".to_string(), |number| number.to_string())
}

fn slopes() {
    println!("Smallest slope that moves water at rest, mm a cell\n");
    println!("        R      G  R/(2G) rounded up  by trying");
    let pairs = [
        (1_000, 9_810),
        (39_240, 9_810),
        (39_241, 9_810),
        (40_000, 9_810),
        (1_000_000, 9_810),
        (1_000, 1),
        (1_000_000, 1),
    ];
    for (r, g) in pairs {
        let tried = smallest(STEEPEST, |s| slope_moves(r, g, 0, Way::East, s));
        println!("{r:>9}{g:>7}{:>19}{:>11}", slope(r, g), found(tried));
    }
}

fn currents() {
    println!("\nSmallest current that carries water, mm/s\n");
    println!("        R      h  R/(2h) rounded up  by trying");
    let pairs = [
        (1_000, 1_000),
        (40_000, 12_300),
        (40_000, 1_000),
        (1_000_000, 100_000),
        (1_000_000, 1_000),
    ];
    for (r, h) in pairs {
        let tried = smallest(5_000, |u| current_moves((r, 9_810, 0), h, 1, Way::East, u));
        println!("{r:>9}{h:>7}{:>19}{:>11}", current(r, h), found(tried));
    }
}

/// A day of the example dock.
fn drift() -> Vec<Window> {
    let mut pair = Pair::new(example("dock"), Rounding::NONE);
    let day: Vec<Window> = (0..24 * WINDOWS_AN_HOUR).map(|_| pair.window()).collect();
    println!("\nexamples/dock.rec without forcing: the core, the same scheme unrounded, and");
    println!("core less unrounded, each over the ten minutes up to the time; mm/s and mm\n");
    println!("       core: u        v        level        unrounded     difference   level");
    println!("hours  rms  most  rms  most  from     to  u rms  v rms  u rms  v rms  rms  most");
    for windows in [1, 2, 3, 4, 6, 9, 12, 18, 36, 72, 144] {
        row(&day[windows - 1]);
    }
    let most = day.iter().map(|window| window.difference.level.greatest());
    let most = most.fold(0.0, f64::max);
    println!("\nGreatest difference of level in any cell over the day: {most:.0} mm");
    day
}

fn row(window: &Window) {
    let Window {
        core,
        doubles,
        difference,
        ..
    } = window;
    println!(
        "{:>5.2}{:>5.0}{:>6.0}{:>5.0}{:>6.0}{:>7.0}{:>7.0}{:>7.1}{:>7.1}{:>7.1}{:>7.1}{:>5.1}{:>5.0}",
        window.hours(),
        core.u.rms(),
        core.u.greatest(),
        core.v.rms(),
        core.v.greatest(),
        core.level.lowest,
        core.level.highest,
        doubles.u.rms(),
        doubles.v.rms(),
        difference.u.rms(),
        difference.v.rms(),
        difference.level.rms(),
        difference.level.greatest()
    );
}

/// The example dock in doubles with some of the roundings.
fn causes() {
    println!("\nThe same in doubles, rms of u over the ten minutes up to 2 hours, mm/s\n");
    println!("rounded to whole numbers  rms of u");
    let only_flows = Rounding {
        flows: true,
        ..Rounding::NONE
    };
    let only_velocities = Rounding {
        velocities: true,
        ..Rounding::NONE
    };
    for (name, rounding) in [
        ("nothing", Rounding::NONE),
        ("flows, and so depths", only_flows),
        ("velocities", only_velocities),
        ("all, as in the core", Rounding::ALL),
    ] {
        let mut pair = Pair::new(example("dock"), rounding);
        let rms: Vec<f64> = (0..12).map(|_| pair.window().doubles.u.rms()).collect();
        println!("{name:<26}{:>8.1}", rms[11]);
    }
}

/// How late the swing of the core is.
fn late(swings: &[Swing]) {
    println!("\nThe level at the west wall rises through its mean, s\n");
    println!("swing  unrounded    core");
    for nth in [1, 2, 6, 14] {
        let core = rises(swings, |swing| swing.core, nth);
        let unrounded = rises(swings, |swing| swing.doubles, nth);
        println!("{nth:>5}{unrounded:>11.0}{core:>8.0}");
    }
}

fn waves() {
    println!("\nWave speed over R, at the greatest depth, from which on a run of 10,000 steps is");
    println!("refused with 6, to a thousandth; and the steps that it comes there\n");
    let trials = [
        Trial::example("dock"),
        Trial::example("jetty"),
        Trial::random((16, 16), 12_000, 0, 1),
        Trial::random((16, 16), 12_000, 0, 100),
        Trial::random((16, 16), 12_000, 6_000, 100),
        Trial::random((16, 16), 50_000, 0, 100),
        Trial::random((16, 16), 2_000, 0, 10),
        Trial::random((32, 32), 12_000, 0, 100),
        Trial::random((64, 1), 12_000, 0, 100),
    ];
    for trial in trials {
        match trial.first_refused(340, 600) {
            Some(refused) => println!(
                "{:<46} 0.{:03}{:>6}",
                trial.name, refused.thousandths, refused.steps
            ),
            None => println!("{:<46} not between 0.340 and 0.600", trial.name),
        }
    }
}
