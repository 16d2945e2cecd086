//! Nothing lost, nothing half written: files are there whole or as they were, and
//! what could not be written is told.

use std::ffi::OsStr;
use std::fs::{self, File};
use std::io::{self, Read, Write};
use std::os::unix::ffi::OsStrExt;
use std::os::unix::fs::{symlink, PermissionsExt};
use std::path::Path;
use std::process::{Command, Output, Stdio};
use std::thread::sleep;
use std::time::Duration;

use crate::common::{example, folder, repository, said, tool, words};

const TOOL: &str = env!("CARGO_BIN_EXE_forecast");

/// The tool as a program of its own, called by a line for sh. `$1` is the tool, `$2`
/// the dock, `$3` the folder.
fn shell(line: &str, folder: &str) -> Output {
    let mut command = Command::new("sh");
    command.args(["-c", line, "sh", TOOL, &example("dock.rec"), folder]);
    command.stdin(Stdio::null()).output().unwrap()
}

fn status(output: &Output) -> (Option<i32>, String) {
    let trouble = String::from_utf8_lossy(&output.stderr).into_owned();
    (output.status.code(), trouble)
}

/// Names of a folder, in order.
fn names(folder: &str) -> Vec<String> {
    let entries = fs::read_dir(folder).unwrap();
    let mut names: Vec<String> = entries
        .map(|entry| entry.unwrap().file_name().into_string().unwrap())
        .collect();
    names.sort();
    names
}

#[test]
fn standard_output_that_takes_nothing() {
    for command in [
        "show $2",
        "run $2 --steps 3",
        "compare $2 $2",
        "--help",
        "--version",
    ] {
        let line = format!("\"$1\" {command} >/dev/full");
        let (code, trouble) = status(&shell(&line, ""));
        assert_eq!(code, Some(2), "{command}");
        assert!(trouble.contains("forecast: standard output: "), "{trouble}");
    }
}

/// A reader that has gone away is told nothing, and leaves the result as it is.
#[test]
fn a_closed_pipe_is_silent() {
    let mut child = Command::new(TOOL)
        .args(["show", "--text", &example("eddies.rec")])
        .stdout(Stdio::piped())
        .stderr(Stdio::piped())
        .spawn()
        .unwrap();
    drop(child.stdout.take());
    let mut trouble = String::new();
    child
        .stderr
        .take()
        .unwrap()
        .read_to_string(&mut trouble)
        .unwrap();
    let code = child.wait().unwrap().code();
    assert_eq!((code, &trouble[..]), (Some(0), ""));
}

/// A limit on the size of files acts as a full disk does: the old files stay, nothing
/// is left beside them, and the status is 2.
#[test]
fn a_disk_without_room_keeps_what_was_there() {
    let folder = folder("full");
    for name in ["out.rec", "out.svg", "out.html", "out.csv"] {
        fs::write(format!("{folder}/{name}"), "old").unwrap();
    }
    let text = example("dock.txt");
    for command in [
        "run $2 $3/out.rec --steps 10 --step-ms 500",
        "step $2 $3/out.rec --step-ms 500",
        &format!("make {text} $3/out.rec"),
        "draw $2 $3/out.svg",
        "draw $2 $3/out.html --steps 10",
        "run $2 --steps 2000 --csv $3/out.csv --every 1",
    ] {
        // In blocks of 512 bytes; the signal is ignored, so that the tool is told.
        let line = format!("trap '' XFSZ; ulimit -f 8; exec \"$1\" {command}");
        let (code, trouble) = status(&shell(&line, &folder));
        assert_eq!(code, Some(2), "{command}: {trouble}");
        assert!(
            trouble.contains("forecast: ") && trouble.contains("/out."),
            "{trouble}"
        );
    }
    assert_eq!(
        names(&folder),
        ["out.csv", "out.html", "out.rec", "out.svg"]
    );
    for name in names(&folder) {
        assert_eq!(
            fs::read(format!("{folder}/{name}")).unwrap(),
            b"old",
            "{name}"
        );
    }
}

/// A disk that is full in truth, where this machine lets a test have one.
#[test]
fn a_small_disk_that_is_full() {
    let folder = folder("tmpfs");
    let line = "exec unshare -rm sh -c 'mount -t tmpfs -o size=16k none \"$3\" || exit 77
        cp \"$2\" \"$3/out.rec\" && head -c 20000 /dev/zero >\"$3/fill\" 2>/dev/null
        \"$1\" run \"$2\" \"$3/out.rec\" --steps 10 --step-ms 500
        echo $?
        cmp \"$2\" \"$3/out.rec\" && ls -A \"$3\"
        rm \"$3/fill\" && mount -o remount,ro \"$3\"
        \"$1\" run \"$2\" \"$3/out.rec\" --steps 10 --step-ms 500
        echo $?' sh \"$1\" \"$2\" \"$3\"";
    let output = shell(line, &folder);
    if matches!(output.status.code(), Some(77 | 127 | 1)) && output.stdout.is_empty() {
        // Not by `println`, which is kept back of a test that passes.
        let words = "not tried: a small disk that is full, since none can be mounted here";
        let _ = writeln!(io::stdout(), "\n{words}");
        return;
    }
    let (_, trouble) = status(&output);
    let said = String::from_utf8_lossy(&output.stdout).into_owned();
    assert_eq!(said, "2\nfill\nout.rec\n2\n", "{trouble}");
    assert!(trouble.contains("No space left"), "{trouble}");
    assert!(trouble.contains("Read-only file system"), "{trouble}");
}

/// Whether a place can be written is found before the run: a run that would take
/// years ends at once.
#[test]
fn a_place_that_cannot_be_written_is_found_before_the_run() {
    let folder = folder("no_place");
    fs::write(format!("{folder}/file"), "").unwrap();
    let dock = example("dock.rec");
    let long = "x".repeat(300);
    for place in [
        "missing/out",
        "file/out",
        ".",
        "missing/",
        "file/../missing/",
        &long,
    ] {
        let place = format!("{folder}/{place}");
        for options in [&[&place[..]][..], &["--csv", &place]] {
            let start = ["run", &dock, "--steps", "9999999999999", "--step-ms", "1"];
            let answer = tool(&[&start, options].concat());
            assert_eq!((answer.status, &answer.out[..]), (2, ""), "{place}");
            assert!(
                answer.trouble.starts_with("forecast: "),
                "{}",
                answer.trouble
            );
        }
    }
    fs::create_dir_all(format!("{folder}/series/00003.svg")).unwrap();
    for place in ["missing/x.html", "file/x.html", "file/x", "series"] {
        let place = format!("{folder}/{place}");
        let answer = tool(&["draw", &dock, &place, "--steps", "99999999999"]);
        assert_eq!(answer.status, 2, "{place}");
    }
    assert_eq!(names(&folder), ["file", "series"]);
    assert_eq!(names(&format!("{folder}/series")), ["00003.svg"]);
}

/// The file that a link leads to is written, and keeps its permissions; a file that
/// may not be written is not replaced.
#[test]
fn links_and_permissions() {
    let folder = folder("links");
    let (file, link) = (format!("{folder}/real"), format!("{folder}/link"));
    fs::write(&file, "old").unwrap();
    fs::set_permissions(&file, PermissionsExt::from_mode(0o640)).unwrap();
    symlink("real", &link).unwrap();
    let dock = example("dock.rec");
    said(&["step", &dock, &link, "--step-ms", "500"]);
    assert!(fs::symlink_metadata(&link).unwrap().is_symlink());
    assert_eq!(
        fs::metadata(&file).unwrap().permissions().mode() & 0o777,
        0o640
    );
    assert_eq!(
        fs::read(&file).unwrap().len(),
        fs::read(&dock).unwrap().len()
    );
    assert_eq!(names(&folder), ["link", "real"]);

    fs::set_permissions(&file, PermissionsExt::from_mode(0o440)).unwrap();
    let before = fs::read(&file).unwrap();
    let refused = tool(&["run", &dock, &file, "--steps", "3", "--step-ms", "500"]);
    // Who may write everything may write this too.
    let all = File::options().append(true).open(&file).is_ok();
    assert_eq!(refused.status, if all { 0 } else { 2 });
    assert_eq!(fs::read(&file).unwrap() == before, !all);
}

/// A device is written as it is, and a pipe; a record may go over itself.
#[test]
fn other_places() {
    let folder = folder("other_places");
    let (code, trouble) = status(&shell(
        "\"$1\" run $2 /dev/full --steps 3 --step-ms 1",
        &folder,
    ));
    assert!(
        code == Some(2) && trouble.contains("/dev/full: "),
        "{trouble}"
    );
    let line =
        "mkfifo $3/pipe; \"$1\" run $2 $3/pipe --steps 3 --step-ms 500 >$3/said & cat $3/pipe";
    let piped = shell(line, &folder).stdout;
    let own = format!("{folder}/own.rec");
    fs::copy(example("dock.rec"), &own).unwrap();
    said(&words("run @ @ --steps 3 --step-ms 500", &[&own, &own]));
    assert!(piped == fs::read(&own).unwrap());
    // Of a record and what is said, one would be lost in one file.
    for out in ["/dev/stdout", "both"] {
        let line = format!("cd $3 && \"$1\" run $2 {out} --steps 3 --step-ms 500 >both");
        let (code, trouble) = status(&shell(&line, &folder));
        let words = format!("forecast: {out}: standard output goes there\n");
        assert_eq!((code, trouble), (Some(2), words));
    }
}

/// One file by two spellings is one; a link to what is not there yet is followed; a
/// folder in memory is a folder as any.
#[test]
fn spellings_of_one_place() {
    let folder = folder("spellings");
    let dock = example("dock.rec");
    let (out, same) = (
        format!("{folder}/out"),
        format!("{folder}/../spellings/./out"),
    );
    let line = "run @ @ --steps 3 --step-ms 500 --csv @";
    let twice = tool(&words(line, &[&dock, &out, &same]));
    assert_eq!(twice.status, 2);
    assert!(
        twice.trouble.contains("reads or writes this file already"),
        "{}",
        twice.trouble
    );
    assert_eq!(names(&folder), [""; 0]);

    let link = format!("{folder}/link");
    symlink("later", &link).unwrap();
    said(&words("step @ @ --step-ms 500", &[&dock, &link]));
    assert_eq!(names(&folder), ["later", "link"]);
    assert!(fs::symlink_metadata(&link).unwrap().is_symlink());
    let round = format!("{folder}/round");
    symlink("round", &round).unwrap();
    let lost = tool(&words("step @ @ --step-ms 500", &[&dock, &round]));
    assert_eq!(lost.status, 2, "{}", lost.trouble);

    if fs::metadata("/dev/shm").is_ok_and(|there| there.is_dir()) {
        let memory = format!("/dev/shm/forecast-test-{}", std::process::id());
        for _ in 0..2 {
            said(&words("step @ @ --step-ms 500", &[&dock, &memory]));
        }
        let length = fs::metadata(&memory).unwrap().len();
        fs::remove_file(&memory).unwrap();
        assert_eq!(length, fs::metadata(&dock).unwrap().len());
    }
}

/// What a command reads is not written over, but for a record that is taken further.
#[test]
fn inputs_are_not_written_over() {
    let folder = folder("inputs");
    let at = |name: &str| format!("{folder}/{name}");
    fs::copy(example("dock.rec"), at("in.rec")).unwrap();
    fs::copy(example("dock.rec"), at("in.html")).unwrap();
    fs::copy(example("dock.rec"), at("in.svg")).unwrap();
    fs::copy(example("dock.rec"), at("00000.svg")).unwrap();
    fs::copy(example("dock.txt"), at("in.txt")).unwrap();
    fs::write(at("rivers"), "step 0 0 5 1 mm\n").unwrap();
    symlink("in.rec", at("link")).unwrap();
    let before: Vec<Vec<u8>> = names(&folder)
        .iter()
        .map(|name| fs::read(at(name)).unwrap())
        .collect();
    for (line, files) in [
        ("make @ @", ["in.txt", "in.txt", ""]),
        ("run @ --steps 1 --csv @", ["in.rec", "in.rec", ""]),
        ("run @ --steps 1 --csv @", ["in.rec", "link", ""]),
        (
            "run @ --steps 1 --rivers @ --csv @",
            ["in.rec", "rivers", "rivers"],
        ),
        (
            "run @ @ --steps 1 --rivers @",
            ["in.rec", "rivers", "rivers"],
        ),
        (
            "run @ @ --steps 1 --description @",
            ["in.rec", "in.txt", "in.txt"],
        ),
        ("draw @ @ --steps 1", ["in.html", "in.html", ""]),
        ("draw @ @", ["in.svg", "in.svg", ""]),
        ("draw @ @ --steps 4", ["00000.svg", "", ""]),
    ] {
        let files = files.map(at);
        let files: Vec<&str> = files.iter().map(String::as_str).collect();
        let answer = tool(&words(line, &files));
        assert_eq!(answer.status, 2, "{line}");
        assert!(
            answer.trouble.contains("reads or writes this file already"),
            "{line}: {}",
            answer.trouble
        );
    }
    let after: Vec<Vec<u8>> = names(&folder)
        .iter()
        .map(|name| fs::read(at(name)).unwrap())
        .collect();
    assert!(before == after);
}

/// Nor where it comes by standard input.
#[test]
fn what_is_read_by_standard_input_is_not_written_over() {
    let folder = folder("own_input");
    fs::copy(example("dock.txt"), format!("{folder}/in.txt")).unwrap();
    for line in [
        "cp $2 $3/in.rec; \"$1\" run - --csv $3/in.rec --steps 1 <$3/in.rec",
        "cp $2 $3/in.svg; \"$1\" draw - $3/in.svg <$3/in.svg",
        "\"$1\" make - $3/in.txt <$3/in.txt",
    ] {
        let (code, trouble) = status(&shell(line, &folder));
        assert!(
            code == Some(2) && trouble.contains("reads or writes"),
            "{line}: {trouble}"
        );
    }
    // A record may be taken further there too.
    let line = "\"$1\" run - $3/in.rec --steps 1 --step-ms 500 <$3/in.rec";
    assert_eq!(status(&shell(line, &folder)), (Some(0), String::new()));
    // A table and what is said do not go into one pipe.
    let line = "\"$1\" run $2 --csv /dev/stdout --steps 1 | wc -c";
    let (_, trouble) = status(&shell(line, &folder));
    assert!(trouble.contains("standard output goes there"), "{trouble}");
}

/// An option that is no text is none, and makes no file.
#[test]
fn an_option_that_is_no_text() {
    let folder = folder("no_text");
    let mut command = Command::new(TOOL);
    command.args(["run", &example("dock.rec"), "--steps", "1"]);
    command
        .arg(OsStr::from_bytes(b"--csv=\xff"))
        .current_dir(&folder);
    let (code, trouble) = status(&command.output().unwrap());
    assert!(
        code == Some(2) && trouble.contains("unknown argument --csv="),
        "{trouble}"
    );
    assert_eq!(names(&folder), [""; 0]);
}

/// A run that is killed leaves what was there.
#[test]
fn a_killed_run_keeps_the_old_record() {
    let folder = folder("killed");
    let (out, csv) = (format!("{folder}/out.rec"), format!("{folder}/out.csv"));
    fs::copy(example("dock.rec"), &out).unwrap();
    fs::write(&csv, "old").unwrap();
    let before = fs::read(&out).unwrap();
    let line = "run @ @ --steps 100000000 --step-ms 500 --csv @ --every 100";
    let mut child = Command::new(TOOL)
        .args(words(line, &[&out, &out, &csv]))
        .stdout(Stdio::null())
        .spawn()
        .unwrap();
    let hidden = || {
        let names = names(&folder).into_iter();
        names.filter(|name| name.starts_with(".forecast-")).count()
    };
    while hidden() < 2 {
        assert_eq!(child.try_wait().unwrap(), None, "it ended by itself");
        sleep(Duration::from_millis(10));
    }
    sleep(Duration::from_millis(100));
    child.kill().unwrap();
    child.wait().unwrap();
    assert!(fs::read(&out).unwrap() == before);
    assert_eq!(fs::read(&csv).unwrap(), b"old");
    // What it had begun is hidden and has a name of its own; the next run goes well.
    assert_eq!((hidden(), names(&folder).len()), (2, 4));
    said(&words("run @ @ --steps 3 --step-ms 500", &[&out, &out]));
}

// ---- the nightly job

/// The job in a folder, to a time.
fn nightly(folder: &str, until: &str) -> Command {
    let mut command = Command::new("sh");
    command
        .arg(repository("examples/nightly.sh"))
        .args([folder, until]);
    command.env("FORECAST", TOOL).stdin(Stdio::null());
    command
}

/// A folder of the job: the dock, a river that changes, two gates.
fn night(name: &str) -> String {
    let folder = folder(name);
    fs::copy(example("dock.rec"), format!("{folder}/last.rec")).unwrap();
    let options = "--step-ms 500 --every 1200\n--gate lock 31 10 --gate river 0 5\n";
    fs::write(format!("{folder}/options"), options).unwrap();
    fs::copy(example("rivers.txt"), format!("{folder}/rivers.txt")).unwrap();
    folder
}

fn in_folder(folder: &str, name: &str) -> Vec<u8> {
    fs::read(Path::new(folder).join(name)).unwrap()
}

/// Twice, with a stop in between, and once without: the same bytes. The second time
/// the job is killed on the way and started again.
#[test]
fn the_nightly_job_with_a_stop_in_between() {
    let (once, twice) = (night("night_once"), night("night_twice"));
    let end = "2026-11-16T11:00:00";
    let done = nightly(&once, end).output().unwrap();
    assert!(done.status.success(), "{done:?}");

    assert!(nightly(&twice, "2026-11-16T07:30:00")
        .status()
        .unwrap()
        .success());
    let between = in_folder(&twice, "last.rec");
    let mut killed = nightly(&twice, end).spawn().unwrap();
    sleep(Duration::from_millis(150));
    killed.kill().unwrap();
    killed.wait().unwrap();
    // The tool may go on for a moment after its script.
    sleep(Duration::from_millis(50));
    assert!(
        in_folder(&twice, "last.rec") == between,
        "it was not stopped on the way"
    );
    assert!(nightly(&twice, end).status().unwrap().success());
    assert!(in_folder(&twice, "last.rec") == in_folder(&once, "last.rec"));
    assert!(in_folder(&twice, "before.rec") == between);

    // The totals of the two runs come to that of the one.
    let totals = |folder: &str| String::from_utf8(in_folder(folder, "totals.log")).unwrap();
    let number = |line: &str, place: usize| {
        let word = line.split(' ').nth(place).unwrap();
        word.parse::<i64>().unwrap()
    };
    let (one, two) = (totals(&once), totals(&twice));
    let (one, two): (Vec<&str>, Vec<&str>) = (one.lines().collect(), two.lines().collect());
    assert_eq!((one.len(), two.len()), (1, 2));
    assert!(
        one[0].starts_with("2026-11-16 11:00:00 6289500 + "),
        "{one:?}"
    );
    assert_eq!(number(two[0], 6), number(two[1], 2));
    assert_eq!(number(one[0], 6), number(two[1], 6));
    assert_eq!(number(one[0], 4), number(two[0], 4) + number(two[1], 4));
    // The tables agree where both have a line.
    let table = |folder: &str| String::from_utf8(in_folder(folder, "gates.csv")).unwrap();
    let (whole, rest) = (table(&once), table(&twice));
    let after_step = |line: &str| line.split_once(',').unwrap().1.to_owned();
    let whole: Vec<String> = whole.lines().map(after_step).collect();
    assert!(rest
        .lines()
        .map(after_step)
        .all(|line| whole.contains(&line)));
    assert_eq!((whole.len(), rest.lines().count()), (2 + 30, 2 + 21));
}

/// Once the time is reached, nothing is sent and nothing is lost.
#[test]
fn the_nightly_job_once_more() {
    let folder = night("night_again");
    let end = "2026-11-16T06:30:00";
    assert!(nightly(&folder, end).status().unwrap().success());
    let kept = [
        "last.rec",
        "before.rec",
        "gates.csv",
        "run.txt",
        "totals.log",
    ];
    let before = kept.map(|name| in_folder(&folder, name));
    let again = nightly(&folder, end).output().unwrap();
    let (code, trouble) = status(&again);
    let words = "nothing to do: last.rec is of this time\n";
    assert_eq!((code, &trouble[..]), (Some(0), words));
    assert_eq!(kept.map(|name| in_folder(&folder, name)), before);
    // A river that the dock cannot hold: the job says why, and the record stays.
    fs::write(format!("{folder}/rivers.txt"), "step 0 0 5 1000 mm\n").unwrap();
    let (code, trouble) = status(&nightly(&folder, "2026-11-17T06:30:00").output().unwrap());
    assert_eq!(code, Some(1));
    assert!(
        trouble.contains("stopped after ") && trouble.contains("refused 6: "),
        "{trouble}"
    );
    assert_eq!(kept.map(|name| in_folder(&folder, name)), before);
    let (code, _) = status(&nightly(&folder, "tomorrow").output().unwrap());
    assert_eq!(code, Some(2));
    // Beside these options, rivers, and the gates of the run that was stopped.
    assert_eq!(names(&folder).len(), kept.len() + 3);
    assert!(in_folder(&folder, "stopped.csv").starts_with(b"step,time_utc,"));
    // Rivers that cannot be read are not left out, and nothing is run without options.
    fs::remove_file(format!("{folder}/rivers.txt")).unwrap();
    symlink("nowhere", format!("{folder}/rivers.txt")).unwrap();
    let (code, trouble) = status(&nightly(&folder, "2026-11-16T06:31:00").output().unwrap());
    assert!(
        code == Some(2) && trouble.contains("rivers.txt: "),
        "{trouble}"
    );
    fs::remove_file(format!("{folder}/options")).unwrap();
    let (code, _) = status(&nightly(&folder, "2026-11-16T06:31:00").output().unwrap());
    assert_eq!(code, Some(2));
    let mut lost = nightly(&folder, end);
    let (code, _) = status(&lost.env("FORECAST", "/no/such/tool").output().unwrap());
    assert_eq!(code, Some(2));
}
