//! What the README says of the core's limits stays true.

use basin::Parameters;
use bench::dock::{at, example, run_on, still};
use bench::doubles::{Doubles, Rounding};
use bench::drift::{rises, swings, Pair, WINDOWS_AN_HOUR};
use bench::least::{current, current_moves, slope, slope_moves, STEEPEST, WAYS};
use bench::random::Random;
use bench::waves::{Trial, STEPS};

/// Bounds of the constants, and of depth.
const R: (i64, i64) = (*Parameters::RATIO.start(), *Parameters::RATIO.end());
const G: (i64, i64) = (*Parameters::GRAVITY.start(), *Parameters::GRAVITY.end());
const C: (i64, i64) = (*Parameters::CORIOLIS.start(), *Parameters::CORIOLIS.end());
const H: (i64, i64) = (1_000, 100_000);

/// Along a straight front the smallest slope is R/(2G), rounded up, whatever c is:
/// pass 1 gives rnd(G·s/R), and pass 2 the same, as no water has moved before.
#[test]
fn smallest_slope() {
    let mut random = Random::new();
    let mut tried = 0;
    while tried < 2_000 {
        let r = random.of_any_size(R.0, R.1);
        let g = random.of_any_size(G.0, G.1);
        let c = random.between(C.0, C.1);
        let least = slope(r, g);
        let moves = |slope| WAYS.map(|way| slope_moves(r, g, c, way, slope));
        if least <= STEEPEST {
            assert_eq!(moves(least), [true; 4], "R {r}, G {g}, c {c}");
            tried += 1;
        }
        let less = least.min(STEEPEST + 1) - 1;
        assert_eq!(moves(less), [false; 4], "R {r}, G {g}, c {c}");
    }
}

/// Halves move: R/(2G) itself does where it is a whole number.
#[test]
fn halves_move() {
    for (r, g, least) in [(39_240, 9_810, 2), (1_000, 1, 500), (2_000, 100, 10)] {
        assert_eq!(slope(r, g), least);
        assert_eq!(2 * g * least, r);
        assert_eq!(WAYS.map(|way| slope_moves(r, g, 0, way, least)), [true; 4]);
    }
}

/// No water at rest moves, in no step, where no two neighbours differ by that much.
#[test]
fn flatter_water_stays() {
    let mut random = Random::new();
    for _ in 0..200 {
        let (w, n) = (9, 7);
        let (r, g, c) = (random.between(R.0, R.1), random.between(1_000, G.1), 50);
        let kind = random.to(2) as u8;
        let mut dock = still(Parameters {
            w,
            n,
            kind,
            g,
            c,
            r,
        });
        for h in &mut dock.h {
            *h = random.between(20_000, 20_000 + slope(r, g) - 1);
        }
        let before = dock.clone();
        let ran = run_on(&mut dock, 50).expect("within the bounds");
        assert_eq!((ran.steps, dock), (50, before));
    }
}

/// The front must be straight. A pit of just R/(2G) stays: after pass 1 the squares
/// of four velocities count against it.
#[test]
fn a_pit_may_stay() {
    let (w, n, kind, g, c, r) = (5, 5, 2, 9_810, 0, 39_240);
    let mut dock = still(Parameters {
        w,
        n,
        kind,
        g,
        c,
        r,
    });
    dock.h.fill(12_000);
    dock.h[12] -= slope(r, g);
    let before = dock.clone();
    assert!(run_on(&mut dock, 1).is_ok());
    assert_eq!(dock, before);
    dock.h[12] -= 1;
    assert!(run_on(&mut dock, 1).is_ok());
    assert_ne!(dock.u, before.u);
}

/// The smallest velocity that carries water is R/(2h), rounded up, for a single
/// edge and any c, and for a line of edges where |c| is at most R.
#[test]
fn smallest_current() {
    let mut random = Random::new();
    for _ in 0..2_000 {
        let r = random.of_any_size(R.0, R.1);
        let g = random.of_any_size(G.0, G.1);
        let h = random.of_any_size(H.0, H.1);
        let any = random.between(C.0, C.1);
        let least = current(r, h);
        for (edges, c) in [(1, any), (4, any.clamp(-r, r))] {
            let moves = |u| WAYS.map(|way| current_moves((r, g, c), h, edges, way, u));
            let what = format!("R {r}, G {g}, c {c}, h {h}, {edges} edges");
            assert_eq!(moves(least), [true; 4], "{what}");
            assert_eq!(moves(least - 1), [false; 4], "{what}");
        }
    }
}

/// So the doubles beside which the core is measured are 01's scheme.
#[test]
fn with_all_roundings_the_doubles_are_the_core() {
    for name in ["dock", "channel", "eddies", "jetty"] {
        let mut dock = example(name);
        let mut doubles = Doubles::new(&dock, Rounding::ALL);
        for _ in 0..4 {
            let ran = run_on(&mut dock, 50);
            assert!(matches!(ran, Ok(ran) if ran.steps == 50), "{name}: {ran:?}");
            doubles.run(50);
            for k in 0..dock.h.len() {
                assert_eq!(at(&dock, k), doubles.at(k), "{name}, cell {k}");
            }
        }
    }
}

/// The README's numbers of the first hour.
#[test]
fn an_hour_of_the_example_dock() {
    let mut pair = Pair::new(example("dock"), Rounding::NONE);
    let hour: Vec<_> = (0..WINDOWS_AN_HOUR).map(|_| pair.window()).collect();
    let near = |number: f64, said: f64| {
        let range = 0.75 * said..1.3 * said;
        assert!(range.contains(&number), "{number}, where {said} is said");
    };
    // Ten minutes: the current is good to a tenth.
    near(hour[0].core.u.rms(), 130.0);
    near(hour[0].difference.u.rms(), 14.0);
    // Forty minutes: what differs is as much as the current itself.
    near(hour[3].doubles.u.rms(), 46.0);
    near(hour[3].difference.u.rms(), 52.0);
    // An hour.
    near(hour[5].core.u.rms(), 48.0);
    near(hour[5].doubles.u.rms(), 23.0);
    near(hour[5].difference.u.rms(), 53.0);
    // The two passes halve the swing in twenty minutes.
    near(hour[2].doubles.u.rms() / hour[0].doubles.u.rms(), 0.5);
    near(hour[4].doubles.u.rms() / hour[2].doubles.u.rms(), 0.5);
    // The level.
    near(hour[3].difference.level.rms(), 42.0);
    let most = hour.iter().map(|window| window.difference.level.greatest());
    near(most.fold(0.0, f64::max), 125.0);
}

/// After half an hour the swing is 20 s late.
#[test]
fn the_swing_is_late() {
    let swings = swings();
    let late = rises(&swings, |swing| swing.core, 14) - rises(&swings, |swing| swing.doubles, 14);
    assert!((15.0..25.0).contains(&late), "{late}");
}

/// Wave speed over R: 0.35 is accepted, and a little more is not.
#[test]
fn waves() {
    for (depth, noise) in [(12_000, 100), (50_000, 100), (2_000, 10)] {
        let trial = Trial::random((12, 12), depth, 0, noise);
        assert_eq!(trial.steps_at(350), STEPS);
        assert!(trial.steps_at(375) < STEPS);
    }
}
