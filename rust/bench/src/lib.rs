//! The limits of the proved core, measured: what whole numbers do to currents
//! and levels, which slope and which current a step still moves, and how fast a
//! wave may be. The program `limits` prints them; the tests hold the README to
//! them.

pub mod dock;
pub mod doubles;
pub mod drift;
pub mod least;
pub mod picture;
pub mod random;
pub mod waves;
