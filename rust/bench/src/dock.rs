//! States that the proved core steps, read and run as the tool does it.

use basin::{Parameters, Ran, Refusal, Timestamp};
use forecast::{run, State};

/// Still water without barriers, 1 m deep everywhere over a bottom of 0.
pub fn still(parameters: Parameters) -> State {
    let cells = parameters.w * parameters.n;
    let field = |number| vec![number; cells];
    State {
        parameters,
        timestamp: Timestamp {
            seconds: 0,
            milliseconds: 0,
        },
        h: field(1000),
        b: field(0),
        u: field(0),
        v: field(0),
        barriers: vec![0; cells],
    }
}

/// One of the repository's examples, such as `dock`.
pub fn example(name: &str) -> State {
    let path = format!("{}/../../examples/{name}.rec", env!("CARGO_MANIFEST_DIR"));
    let record = std::fs::read(&path).unwrap_or_else(|error| panic!("{path}: {error}"));
    State::read(&record).unwrap_or_else(|refusal| panic!("{path}: {refusal}"))
}

/// Takes steps without inflow, any number of them.
pub fn run_on(state: &mut State, steps: u64) -> Result<Ran, Refusal> {
    let inflow = vec![0; state.h.len()];
    run::run(state, &inflow, steps, steps, |_| ())
}

/// u, v and level of a cell: the height of its surface.
pub fn at(state: &State, k: usize) -> [f64; 3] {
    [state.u[k], state.v[k], state.h[k] + state.b[k]].map(|x| x as f64)
}

/// Speed of a long wave over R, where the water is deepest.
pub fn wave_speed_over_r(state: &State) -> f64 {
    let p = &state.parameters;
    let deepest = state.h.iter().max().copied().unwrap_or(0);
    ((p.g * deepest) as f64).sqrt() / p.r as f64
}
