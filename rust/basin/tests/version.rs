//! The version stands in five places, which say the same: the library that is
//! linked, the header, the Python module, this package, and the citation.

use std::fs;
use std::path::Path;

/// Major, minor and patch as one number, as the library has them.
fn number(version: &str) -> u64 {
    let parts: Vec<u64> = version
        .split('.')
        .map(|part| part.parse().expect("a number"))
        .collect();
    let [major, minor, patch] = parts[..] else {
        panic!("{version} has three parts");
    };
    assert!(minor < 100 && patch < 100, "{version}");
    10_000 * major + 100 * minor + patch
}

/// What stands behind the words on a line of a file of the repository.
fn after(file: &str, words: &str) -> String {
    let path = Path::new(env!("CARGO_MANIFEST_DIR"))
        .join("../..")
        .join(file);
    let text = fs::read_to_string(&path).expect(file);
    let mut found = text.lines().filter_map(|line| line.strip_prefix(words));
    let rest = found.next().expect(words);
    assert_eq!(found.next(), None, "{file}: {words}");
    rest.trim().to_owned()
}

#[test]
fn the_version_is_said_alike_everywhere() {
    let package = env!("CARGO_PKG_VERSION");
    assert_eq!(basin::version(), number(package));
    let header = after("include/basin.h", "#define BASIN_VERSION ");
    assert_eq!(header.parse(), Ok(number(package)));
    let module = after("python/basin.py", "VERSION = ");
    assert_eq!(module.parse(), Ok(number(package)));
    assert_eq!(after("CITATION.cff", "version: "), package);
    let newest = after("CHANGELOG.md", &format!("## {package}"));
    assert_eq!(newest, "", "CHANGELOG.md has a part for it");
}
