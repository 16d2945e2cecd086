//! No input makes the tool panic: damaged records, damaged texts, random
//! arguments. What is accepted goes round.

use std::io::Write;
use std::process::{Command, Stdio};
use std::{env, fs};

use crate::common::{example, folder, given, repository, tool, words, Random, EXAMPLES};
use forecast::describe::to_text;
use forecast::text::from_text;
use forecast::State;

/// Numbers and words that texts are damaged with.
const WORDS: &str = "0 -1 1 64 65 999999999999 -9223372036854775808 18446744073709551615 1e5 \
     grid boundary basin time 2026-02-29 06:00:00.250 .5 depth level barrier barriers west south rows columns box cell # \n \u{feff} ü";

/// A few bytes changed, put in or left out, or the end cut off.
fn damage(bytes: &mut Vec<u8>, random: &mut Random) {
    for _ in 0..=random.below(4) {
        let at = random.below(bytes.len() + 1);
        match random.below(12) {
            0 => bytes.truncate(at),
            1 => bytes.insert(at, random.next() as u8),
            2 if at < bytes.len() => drop(bytes.remove(at)),
            _ if at < bytes.len() => bytes[at] = damaging(random),
            _ => {}
        }
    }
}

/// A byte that is likely to mean something else.
fn damaging(random: &mut Random) -> u8 {
    let any = random.next() as u8;
    random.pick(&[0, 1, 255, any, b' '])
}

/// A small state as a record, so that damage meets each part often.
fn small(random: &mut Random) -> Vec<u8> {
    let text = format!(
        "grid {} {}\nboundary {}\ngravity 9810\ncoriolis 3\nspacing-per-step 40000\n\
         time 2026-01-01 00:00:00.{:03}\ndepth 5000\nbottom 10 cell 0 0\nbarriers {} cell 0 0\n",
        1 + random.below(4),
        1 + random.below(4),
        random.pick(&["basin", "channel", "periodic"]),
        random.pick(&[0, 1, 999]),
        random.pick(&[0, 0, 0, 1, 2, 3])
    );
    from_text(text.as_bytes()).unwrap().write().unwrap()
}

/// The number by which a call was refused, and total depth otherwise.
fn told(out: &str) -> Result<String, String> {
    let after = |word: &str| {
        let rest = out.split_once(word)?.1;
        let end = rest.find(|sign: char| !sign.is_ascii_digit());
        Some(rest[..end.unwrap_or(rest.len())].to_owned())
    };
    match after("refused ") {
        Some(number) => Err(number),
        None => Ok(after("total depth after ").or(after("total ")).expect(out)),
    }
}

/// What the step program says of a record.
fn by_the_program(record: &[u8]) -> Result<String, String> {
    let mut child = Command::new(repository("target/bin/step"))
        .stdin(Stdio::piped())
        .stdout(Stdio::piped())
        .spawn()
        .expect("`install/build step` makes it");
    child.stdin.take().unwrap().write_all(record).unwrap();
    let output = child.wait_with_output().unwrap();
    told(&String::from_utf8(output.stdout).unwrap())
}

/// Every command takes a damaged record or tells why not, by one number, and the step
/// program by the same.
#[test]
fn damaged_records_through_every_command() {
    let place = folder("every_command");
    let [text, svg, html, csv, out] =
        ["text", "a.svg", "a.html", "a.csv", "out"].map(|name| format!("{place}/{name}"));
    let mut random = Random::new(19);
    let mut accepted = 0;
    for _ in 0..3000 {
        let whole = small(&mut random);
        let mut record = whole.clone();
        damage(&mut record, &mut random);
        let stepped = given(&record, &["step", "-"]);
        assert_eq!(told(&stepped.out), by_the_program(&record), "{stepped:?}");
        let shown = given(&record, &["show", "--text", "-"]);
        let refused = told(&shown.out.replace("grid ", "total ")).err();
        assert_eq!(shown.status == 1, refused.is_some());
        for line in [
            "show -",
            "show - --cell 0 0",
            "run - --steps 3",
            "run - @ --steps 3 --step-ms 7 --csv @ --gate a 0 0 --quiet",
            "draw - @",
            "draw - @ --steps 2",
            "compare - @",
        ] {
            let files: &[&str] = match line {
                "draw - @" => &[&svg],
                "draw - @ --steps 2" => &[&html],
                "compare - @" => &[&text],
                _ => &[&out, &csv],
            };
            if let "compare - @" = line {
                fs::write(&text, &whole).unwrap();
            }
            let answer = given(&record, &words(line, files));
            assert!(
                answer.status <= 1 && answer.trouble.is_empty(),
                "{answer:?}"
            );
            if let Some(number) = &refused {
                let start = format!("refused {number}: ");
                assert!(answer.out.starts_with(&start), "{line}: {answer:?}");
            }
        }
        if refused.is_none() {
            accepted += 1;
            let made = given(shown.out.as_bytes(), &["make", "-", &text]);
            assert_eq!(made.status, 0);
            assert_eq!(given(&record, &["compare", "-", &text]).out, "same\n");
        }
    }
    assert!((300..2700).contains(&accepted), "{accepted} of 3000");
}

/// A damaged text is made into a record, told with its line, or refused by the core;
/// a damaged file of rivers likewise.
#[test]
fn damaged_texts_through_every_command() {
    let place = folder("damaged_texts");
    let [out, rivers] = ["out", "rivers"].map(|name| format!("{place}/{name}"));
    let mut random = Random::new(20);
    let all = words(WORDS, &[]);
    let head = fs::read(example("dock.txt")).unwrap();
    let flows = b"spacing 20000\nstep-ms 500\n2026-11-16 06:00:00 0 5 300 l/s\n\
                  step 2 31 10 -0.3 mm\n# none\n2026-11-16 06:00:01.500 0 5 0 mm\n";
    let mut counts = [[0; 3]; 2];
    for _ in 0..3000 {
        let mut text = head.clone();
        let mut river = flows.to_vec();
        for bytes in [&mut text, &mut river] {
            if random.below(2) == 0 {
                let at = random.below(bytes.len() + 1);
                let word = format!(" {} ", random.pick(&all));
                bytes.splice(at..at, word.bytes());
            }
            damage(bytes, &mut random);
        }
        let made = given(&text, &["make", "-", &out]);
        fs::write(&rivers, river).unwrap();
        let line = "run @ --steps 6 --rivers @";
        let ran = tool(&words(line, &[&example("dock.rec"), &rivers]));
        for (count, answer) in counts.iter_mut().zip([made, ran]) {
            count[usize::from(answer.status)] += 1;
            let refused = answer.out.contains("refused ");
            assert_eq!(answer.status == 1, refused, "{answer:?}");
            assert_eq!(answer.status == 2, !answer.trouble.is_empty(), "{answer:?}");
        }
    }
    let often = |count: [usize; 3]| count[0] > 50 && count[2] > 50;
    assert!(counts.into_iter().all(often), "{counts:?}");
}

#[test]
fn damaged_records() {
    let mut random = Random::new(1);
    let mut accepted = 0;
    for _ in 0..6000 {
        let mut record = small(&mut random);
        damage(&mut record, &mut random);
        for words in [
            &["show", "-"][..],
            &["run", "-", "--steps", "3"],
            &["step", "-"],
        ] {
            let answer = given(&record, words);
            assert!(answer.status <= 1, "{answer:?}");
            assert_eq!(
                answer.status == 0,
                !answer.out.contains("refused"),
                "{answer:?}"
            );
        }
        if let Ok(state) = State::read(&record) {
            accepted += 1;
            forecast::draw::picture(&state).unwrap();
            assert!(from_text(to_text(&state).as_bytes()).unwrap() == state);
        }
    }
    assert!(
        (500..5500).contains(&accepted),
        "{accepted} of 6000 accepted"
    );
}

#[test]
fn random_bytes() {
    let mut random = Random::new(2);
    for _ in 0..2000 {
        let length = random.below(200);
        let bytes: Vec<u8> = (0..length).map(|_| random.next() as u8 % 9).collect();
        let _ = from_text(&bytes);
        let answer = given(&bytes, &["show", "-"]);
        assert_eq!(answer.status, 1);
        let answer = given(&bytes, &["compare", "-", &example("dock.rec")]);
        assert_eq!(answer.status, 1);
    }
}

#[test]
fn damaged_texts() {
    let mut random = Random::new(3);
    let all = words(WORDS, &[]);
    let texts = EXAMPLES.map(|name| fs::read(example(&format!("{name}.txt"))).unwrap());
    for round in 0..4000 {
        // The head, where a change is felt most, or a whole text now and then.
        let text = &texts[random.below(texts.len())];
        let length = if round % 10 == 0 {
            text.len()
        } else {
            text.len().min(1500)
        };
        let mut text = text[..length].to_vec();
        for _ in 0..random.below(3) {
            let at = random.below(text.len() + 1);
            let word = format!(" {} ", random.pick(&all));
            text.splice(at..at, word.bytes());
        }
        damage(&mut text, &mut random);
        if let Ok(state) = from_text(&text) {
            let _ = state.write();
        }
    }
}

#[test]
fn texts_of_random_words() {
    let mut random = Random::new(4);
    let all = words(WORDS, &[]);
    for _ in 0..3000 {
        let mut text = String::from("grid 2 2\n");
        for _ in 0..random.below(30) {
            text.push_str(random.pick(&all));
            text.push(random.pick(&[' ', ' ', '\n']));
        }
        if let Ok(state) = from_text(text.as_bytes()) {
            let _ = state.write();
        }
    }
}

/// In a folder of their own: some of them write files.
#[test]
fn random_arguments() {
    let record = fs::read(example("one_cell.rec")).unwrap();
    env::set_current_dir(folder("arguments")).unwrap();
    let mut random = Random::new(5);
    let words = words(
        "make show step run compare draw help - -- --text --steps --every --inflow --seconds 0 0 3 \
         -7 99999999999999999999 0.500 3.5 --help --version /nonexistent/x --steps=3 --quiet --keep \
         --until 2000-01-01T00:00:09 --step-ms 1000 --spacing --gate lock --csv t.csv --rivers r.txt \
         --description --cell out.svg out.html ",
        &[],
    );
    fs::write("r.txt", "step 0 0 0 0.5 mm\n").unwrap();
    for _ in 0..8000 {
        let count = random.below(10);
        let chosen: Vec<&str> = (0..count).map(|_| random.pick(&words)).collect();
        assert!(given(&record, &chosen).status <= 2, "{chosen:?}");
    }
}
