//! A state with its timestamp, owned, and the core's calls on it.

use basin::{Parameters, Probe, Read, Refusal, Timestamp};

/// Columns and rows of the largest grid that the core knows.
const LONGEST_SIDE: usize = *Parameters::SIDE.end();
/// Its cells: room for any record.
const MOST_CELLS: usize = LONGEST_SIDE * LONGEST_SIDE;

/// What a record holds.
#[derive(Clone, Debug, PartialEq, Eq)]
pub struct State {
    /// Grid, boundary and constants.
    pub parameters: Parameters,
    /// The moment of the state.
    pub timestamp: Timestamp,
    /// Depth of each cell, mm.
    pub h: Vec<i64>,
    /// Height of the bottom of each cell, mm.
    pub b: Vec<i64>,
    /// Velocity through the west edge of each cell, mm/s.
    pub u: Vec<i64>,
    /// Velocity through the south edge of each cell, mm/s.
    pub v: Vec<i64>,
    /// Barriers of each cell: 1 on its west edge, 2 on its south edge, 3 on both.
    pub barriers: Vec<u8>,
}

impl State {
    /// The state of a record, by the core's reader.
    pub fn read(record: &[u8]) -> Result<State, Refusal> {
        let [mut h, mut b, mut u, mut v] = [(); 4].map(|()| vec![0; MOST_CELLS]);
        let mut barriers = vec![0; MOST_CELLS];
        let Read {
            parameters,
            timestamp,
        } = basin::read(record, &mut h, &mut b, &mut u, &mut v, &mut barriers)?;
        let cells = parameters.w * parameters.n;
        for field in [&mut h, &mut b, &mut u, &mut v] {
            field.truncate(cells);
        }
        barriers.truncate(cells);
        Ok(State {
            parameters,
            timestamp,
            h,
            b,
            u,
            v,
            barriers,
        })
    }

    /// The record of the state, by the core's writer.
    pub fn write(&self) -> Result<Vec<u8>, Refusal> {
        let p = &self.parameters;
        // A grid that the core refuses may ask for any room.
        let largest = Parameters {
            w: LONGEST_SIDE,
            n: LONGEST_SIDE,
            ..*p
        };
        let mut record = vec![0; p.record_len().min(largest.record_len())];
        let ([h, b, u, v], barriers) = self.fields();
        let length = basin::write(p, h, b, u, v, barriers, self.timestamp, &mut record)?;
        record.truncate(length);
        Ok(record)
    }

    /// Work space for steps of this state. A grid that the core refuses gets
    /// what the largest one needs.
    pub fn work(&self) -> Vec<i64> {
        vec![0; self.parameters.work_len().min(8 * MOST_CELLS)]
    }

    /// Total depth in mm, by the core.
    pub fn total_depth(&self) -> Result<i64, Refusal> {
        let ([h, b, u, v], barriers) = self.fields();
        basin::total_depth(&self.parameters, h, b, u, v, barriers)
    }

    /// Four times total energy, by the core.
    pub fn total_energy(&self) -> Result<i64, Refusal> {
        let ([h, b, u, v], barriers) = self.fields();
        basin::total_energy(&self.parameters, h, b, u, v, barriers)
    }

    /// Potential vorticity of the state at its corners, by the core.
    pub fn potential_vorticity(&self) -> Result<Vec<i64>, Refusal> {
        let ([h, b, u, v], barriers) = self.fields();
        let mut q = vec![0; self.parameters.corners()];
        basin::potential_vorticity(&self.parameters, h, b, u, v, barriers, &mut q)?;
        Ok(q)
    }

    /// The tendencies of a cell with a potential vorticity, in double precision, by the
    /// core.
    pub fn probe(&self, q: &[i64], cell: usize) -> Result<Probe, Refusal> {
        let ([h, b, u, v], barriers) = self.fields();
        basin::probe(&self.parameters, h, b, u, v, barriers, q, cell)
    }

    /// h, b, u, v and the barriers.
    fn fields(&self) -> ([&[i64]; 4], &[u8]) {
        ([&self.h, &self.b, &self.u, &self.v], &self.barriers)
    }

    /// Whether there are barriers anywhere.
    pub fn has_barriers(&self) -> bool {
        self.barriers.iter().any(|&barrier| barrier != 0)
    }

    /// Level of each cell, mm: depth above the height of the bottom. To be
    /// shown; the core has no use for it.
    pub fn level(&self) -> Vec<i64> {
        self.h.iter().zip(&self.b).map(|(h, b)| h + b).collect()
    }
}
