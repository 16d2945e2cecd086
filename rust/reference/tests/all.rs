//! The tests of this package as one program, so that what they share is built
//! once.

mod common;

mod agreement;
mod balance;
mod barriers;
mod conservation;
mod corners;
mod probe;
mod program;
mod record;
mod refusals;
mod scheme;
mod worked_examples;

#[test]
fn every_file_of_tests_is_named_here() {
    common::assert_all_named(env!("CARGO_MANIFEST_DIR"), include_str!("all.rs"));
}
