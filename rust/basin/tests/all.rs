//! The tests of this package as one program, so that what they share is built
//! once. Should a call end the process, `-- --test-threads=1` shows in which
//! test.

mod cases;

mod balance;
mod barriers;
mod bounds;
mod comparison;
mod corners;
mod empty;
mod limits;
mod milliseconds;
mod nothing_lost;
mod probe;
mod program;
mod record;
mod record_refusals;
mod rounding;
mod scheme;
mod soak;
mod stepping;
mod version;
mod weights;

#[test]
fn every_file_of_tests_is_named_here() {
    cases::common::assert_all_named(env!("CARGO_MANIFEST_DIR"), include_str!("all.rs"));
}
