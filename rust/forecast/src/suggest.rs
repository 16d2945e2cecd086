//! What an unknown word may have meant.

/// The known word that is nearest to a word, where one is near: at most a third of
/// its letters have to change.
pub fn nearest<'a>(word: &str, known: impl IntoIterator<Item = &'a str>) -> Option<&'a str> {
    let near = known
        .into_iter()
        .map(|other| (distance(word, other), other));
    let (changes, other) = near.min_by_key(|(changes, _)| *changes)?;
    let letters = other.trim_start_matches('-').len();
    (changes <= letters.div_ceil(3)).then_some(other)
}

/// `; did you mean X?`, or nothing.
pub fn hint<'a>(word: &str, known: impl IntoIterator<Item = &'a str>) -> String {
    match nearest(word, known) {
        Some(other) => format!("; did you mean {other}?"),
        None => String::new(),
    }
}

/// How many letters have to be put in, left out, changed, or changed over with the
/// next one.
fn distance(a: &str, b: &str) -> usize {
    let (a, b): (Vec<char>, Vec<char>) = (a.chars().collect(), b.chars().collect());
    // rows[i][j]: from the first i letters of a to the first j of b
    let mut rows = vec![(0..=b.len()).collect::<Vec<usize>>()];
    for i in 1..=a.len() {
        let mut row = vec![i];
        for j in 1..=b.len() {
            let changed = rows[i - 1][j - 1] + usize::from(a[i - 1] != b[j - 1]);
            let mut least = changed.min(rows[i - 1][j] + 1).min(row[j - 1] + 1);
            if i > 1 && j > 1 && a[i - 1] == b[j - 2] && a[i - 2] == b[j - 1] {
                least = least.min(rows[i - 2][j - 2] + 1);
            }
            row.push(least);
        }
        rows.push(row);
    }
    rows[a.len()][b.len()]
}

#[cfg(test)]
mod tests {
    use super::*;

    #[test]
    fn changes_between_words() {
        for (a, b, changes) in [
            ("", "", 0),
            ("run", "run", 0),
            ("rnu", "run", 1),
            ("rn", "run", 1),
            ("runn", "run", 1),
            ("fun", "run", 1),
            ("", "run", 3),
            ("step", "steps", 1),
            ("compaer", "compare", 1),
        ] {
            assert_eq!(
                (distance(a, b), distance(b, a)),
                (changes, changes),
                "{a} {b}"
            );
        }
    }

    #[test]
    fn what_is_near() {
        let known = ["make", "show", "step", "run", "compare", "draw"];
        let meant = |word| nearest(word, known);
        assert_eq!(meant("rnu"), Some("run"));
        assert_eq!(meant("shwo"), Some("show"));
        assert_eq!(meant("comparison"), None);
        assert_eq!(meant("dance"), None);
        assert_eq!(meant("dock.rec"), None);
        assert_eq!(meant(""), None);
        assert_eq!(
            hint("--stpes", ["--steps", "--every"]),
            "; did you mean --steps?"
        );
        assert_eq!(hint("--x", ["--steps"]), "");
    }
}
