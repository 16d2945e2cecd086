//! The tests of this package as one program, so that what they share is built
//! once. Each test works in a folder of its own name.

mod common;

mod any_input;
mod browser;
mod calls;
mod examples;
mod files;
mod forcing;
mod page;
mod pictures;
mod runs;
mod text;

#[test]
fn every_file_of_tests_is_named_here() {
    let all = include_str!("all.rs");
    for file in std::fs::read_dir(concat!(env!("CARGO_MANIFEST_DIR"), "/tests")).unwrap() {
        let name = file.unwrap().file_name().into_string().unwrap();
        let module = name.strip_suffix(".rs").unwrap_or("common");
        assert!(
            module == "all" || all.contains(&format!("\nmod {module};\n")),
            "{name}"
        );
    }
}
