//! Takes steps and runs of states of document 01 with the proved core, and
//! prints what is left cell by cell, the number of steps done, total depth, or
//! the number of the refusal and what is told with it. From the repository,
//! after `install/build basin`:
//!
//! ```sh
//! cargo run -q --offline --manifest-path rust/Cargo.toml -p basin --example step |
//!     diff examples/step.out -
//! ```

use basin::{run, step, total_depth, Parameters, Refusal};

const ONE_CELL: Parameters = Parameters {
    w: 1,
    n: 1,
    kind: 0,
    g: 9810,
    c: 10,
    r: 1000,
};

const TWO_CELLS: Parameters = Parameters {
    w: 2,
    c: 0,
    r: 100_000,
    ..ONE_CELL
};

/// A state over a level bottom, without barriers at first, what comes in with each
/// step, and work space.
#[derive(Clone)]
struct Dock {
    p: Parameters,
    h: Vec<i64>,
    b: Vec<i64>,
    u: Vec<i64>,
    v: Vec<i64>,
    barriers: Vec<u8>,
    inflow: Vec<i64>,
    work: Vec<i64>,
}

impl Dock {
    fn new(p: Parameters, h: &[i64], u: &[i64], v: &[i64]) -> Self {
        Dock {
            p,
            h: h.to_vec(),
            b: vec![0; h.len()],
            u: u.to_vec(),
            v: v.to_vec(),
            barriers: vec![0; h.len()],
            inflow: vec![0; h.len()],
            work: vec![0; p.work_len()],
        }
    }

    fn step(&mut self, name: &str) {
        let (h, u, v) = (&mut self.h, &mut self.u, &mut self.v);
        let (p, b, barriers) = (&self.p, &self.b, &self.barriers);
        match step(p, h, b, u, v, barriers, &self.inflow, &mut self.work) {
            Ok(()) => self.print(name),
            Err(refusal) => println!("{name}: {}", told(refusal)),
        }
    }

    fn run(&mut self, name: &str, steps: u64) {
        let (h, u, v) = (&mut self.h, &mut self.u, &mut self.v);
        let (p, b, barriers) = (&self.p, &self.b, &self.barriers);
        let (inflow, work) = (&self.inflow, &mut self.work);
        match run(p, h, b, u, v, barriers, inflow, steps, work) {
            Ok(ran) => match ran.stopped {
                None => println!("{name}: done {}", ran.steps),
                Some(refusal) => println!("{name}: {} done {}", told(refusal), ran.steps),
            },
            Err(refusal) => println!("{name}: {}", told(refusal)),
        }
    }

    fn total_depth(&self, name: &str) -> Result<(), Refusal> {
        let (h, b, u, v) = (&self.h, &self.b, &self.u, &self.v);
        let total = total_depth(&self.p, h, b, u, v, &self.barriers)?;
        println!("{name}: total depth {total}");
        Ok(())
    }

    fn print(&self, name: &str) {
        for (cell, h) in self.h.iter().enumerate() {
            let (u, v) = (self.u[cell], self.v[cell]);
            println!("{name} cell {cell}: h {h} u {u} v {v}");
        }
    }
}

/// A refusal in numbers. (Printed as it is, it comes in words.)
fn told(refusal: Refusal) -> String {
    match refusal {
        Refusal::OutOfBounds { pass, field, cell } => {
            format!("refused 6 pass {pass} field {} cell {cell}", field.number())
        }
        Refusal::Value { field, cell } | Refusal::ClosedEdge { field, cell } => {
            let (number, field) = (refusal.number(), field.number());
            format!("refused {number} field {field} cell {cell}")
        }
        // The others that are met here tell their number alone.
        _ => format!("refused {}", refusal.number()),
    }
}

fn main() -> Result<(), Refusal> {
    let example_2 = Dock::new(ONE_CELL, &[2000], &[100], &[-50]);
    let example_4 = Dock::new(TWO_CELLS, &[2000, 3000], &[10, 0], &[0, 0]);

    // Examples 3 and 5 are examples 2 and 4 stepped.
    example_2.clone().step("example 3");
    example_4.clone().step("example 5");

    // A barrier closes the west edge of the second cell, where u stays 0.
    let mut jetty = example_4.clone();
    jetty.barriers[1] = 1;
    jetty.step("jetty");
    jetty.total_depth("jetty")?;
    jetty.u[1] = 5;
    jetty.step("jetty, a current through it");
    jetty.barriers[1] = 4;
    jetty.step("jetty, a byte above 3");

    let mut example_9 = example_2;
    example_9.work = vec![0; 7];
    example_9.step("example 9, work space of 7");
    example_9.work = vec![0; 8];
    example_9.run("example 9, run of 0", 0);
    example_9.run("example 9, run of 10,001", 10_001);

    // 7 mm come in and 2 go out with each step.
    let mut inlet = example_4.clone();
    inlet.inflow = vec![7, -2];
    inlet.total_depth("inlet, before")?;
    inlet.run("inlet, run of 100", 100);
    inlet.total_depth("inlet, after")?;
    inlet.print("inlet");

    // The water falls until a step would leave less than 1,000 mm.
    let mut drain = example_4;
    drain.inflow = vec![-100, -100];
    drain.run("drain, run of 100", 100);
    drain.step("drain, one step more");
    drain.total_depth("drain, after")
}
