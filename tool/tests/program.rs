//! The program as it is called: exit status, what goes where, JSON, and files that are wrong in every way.

use serde_json::Value;
use std::fs;
use std::io::Write;
use std::path::{Path, PathBuf};
use std::process::{Command, Output, Stdio};
use std::time::{Duration, Instant};

const PROGRAM: &str = env!("CARGO_BIN_EXE_score");

/// A folder of a test's own, with the files of sample/.
struct Folder(PathBuf);

impl Folder {
    fn new(name: &str) -> Folder {
        let folder = Path::new(env!("CARGO_TARGET_TMPDIR")).join(name);
        let _ = fs::remove_dir_all(&folder);
        fs::create_dir_all(&folder).expect("a folder can be made");
        for entry in fs::read_dir("../sample").expect("there is a sample") {
            let from = entry.expect("it can be read").path();
            fs::copy(&from, folder.join(from.file_name().expect("a file has a name"))).expect("it can be copied");
        }
        Folder(folder)
    }

    fn write(&self, name: &str, bytes: impl AsRef<[u8]>) {
        fs::write(self.0.join(name), bytes).expect("a file can be written");
    }

    fn read(&self, name: &str) -> Vec<u8> {
        fs::read(self.0.join(name)).expect(name)
    }

    /// The sample score with other bytes from an offset on.
    fn write_changed(&self, name: &str, at: usize, changed: &[u8]) {
        let mut bytes = self.read("score");
        bytes[at..at + changed.len()].copy_from_slice(changed);
        self.write(name, bytes);
    }

    fn run_with(&self, input: &[u8], arguments: &[&str]) -> Ran {
        let mut child = Command::new(PROGRAM)
            .args(arguments)
            .current_dir(&self.0)
            .stdin(Stdio::piped())
            .stdout(Stdio::piped())
            .stderr(Stdio::piped())
            .spawn()
            .expect("the program can be started");
        // A program that does not read to the end closes its input.
        let _ = child.stdin.take().expect("it is piped").write_all(input);
        Ran::of(arguments, child.wait_with_output().expect("it ends"))
    }

    fn run(&self, arguments: &[&str]) -> Ran {
        self.run_with(b"", arguments)
    }
}

struct Ran {
    status: i32,
    said: String,
    errors: String,
}

impl Ran {
    fn of(arguments: &[&str], output: Output) -> Ran {
        let ran = Ran {
            status: output.status.code().expect("it was not killed"),
            said: String::from_utf8(output.stdout).expect("it prints text"),
            errors: String::from_utf8(output.stderr).expect("it prints text"),
        };
        assert!(!ran.errors.contains("panicked"), "{arguments:?}: {}", ran.errors);
        assert!(!(ran.said.clone() + &ran.errors).contains('\u{1b}'), "{arguments:?} colours what is no terminal");
        ran
    }

    /// What was printed, a JSON value a line.
    fn json(&self) -> Vec<Value> {
        assert_eq!(self.errors, "");
        self.said.lines().map(|line| serde_json::from_str(line).expect(line)).collect()
    }
}

#[test]
fn exit_statuses() {
    let folder = Folder::new("statuses");
    folder.write_changed("circle", 20, b"\x01\x08\x00\x60");
    folder.write("wrong.text", "tokens 4\nports 1 to 2\nprocedure a\n    tell\n");
    folder.write("wrong.lines", "1\n\nnothing\n");
    folder.write("wrong.journal", b"\x02\x00\x00\xC0");
    fs::create_dir(folder.0.join("empty")).expect("a folder can be made");
    let cases: &[(&[&str], i32)] = &[
        (&["help"], 0),
        (&["help", "play"], 0),
        (&["--version"], 0),
        (&["completion"], 0),
        (&["list", "score"], 0),
        (&["list", "draft"], 0),
        (&["list", "two-winches.text"], 0),
        (&["list", "circle"], 1),
        (&["list", "inputs"], 1),
        (&["list", "wrong.text"], 1),
        (&["list", "missing"], 2),
        (&["list", "empty"], 2),
        (&["list"], 2),
        (&["list", "--nonsense", "score"], 2),
        (&["nonsense"], 2),
        (&[], 2),
        (&["make", "two-winches.text", "-o", "made"], 0),
        (&["make", "two-winches.text", "-o", "made", "--plain"], 0),
        (&["make", "wrong.text", "-o", "not-made"], 1),
        (&["make", "missing", "-o", "not-made"], 2),
        (&["make", "two-winches.text", "-o", "two-winches.text"], 2),
        (&["make", "two-winches.text", "-o", "missing/made"], 2),
        (&["make", "two-winches.text"], 2),
        (&["check", "score"], 0),
        (&["check", "score", "draft"], 1),
        (&["check", "score", "draft", "--drafts"], 0),
        (&["check", "score", "circle"], 1),
        (&["check", "score", "missing"], 2),
        (&["check", "empty"], 2),
        (&["check", "--jobs", "0", "score"], 2),
        (&["check"], 2),
        (&["play", "score", "--inputs", "inputs", "--journal", "journal"], 0),
        (&["play", "score", "--inputs", "wrong.lines"], 1),
        (&["play", "circle"], 1),
        (&["play", "missing"], 2),
        (&["play", "score", "--inputs", "missing"], 2),
        (&["play", "score", "--inputs", "inputs", "--journal", "inputs"], 2),
        (&["journal", "score", "journal"], 0),
        (&["journal", "score", "wrong.journal"], 1),
        (&["journal", "circle", "journal"], 1),
        (&["journal", "score", "missing"], 2),
    ];
    for (arguments, status) in cases {
        let ran = folder.run(arguments);
        assert_eq!(ran.status, *status, "{arguments:?}: {}{}", ran.said, ran.errors);
    }
    assert!(!folder.0.join("not-made").exists());
    assert_eq!(folder.read("inputs"), fs::read("../sample/inputs").expect("there is a sample"));
}

#[test]
fn json_of_every_command() {
    let folder = Folder::new("json");
    folder.write_changed("token", 32, b"\x00\x02\x04\x20");
    folder.write("wrong.text", "tokens 4\nports 1 to 2\nprocedure a\n    tell\n");
    let one = |arguments: &[&str]| folder.run(arguments).json().remove(0);

    let listed = one(&["list", "score", "--json"]);
    assert_eq!((&listed["tokens"], &listed["agents"][4]["halves"][1]), (&4.into(), &3.into()));
    assert_eq!((&listed["rules"][0]["gives"], &listed["problem"]), (&0.into(), &Value::Null));
    assert_eq!(one(&["list", "token", "--json"])["problem"]["number"], 5);

    let made = one(&["make", "two-winches.text", "-o", "bar", "--plain", "--json"]);
    assert_eq!((&made["kind"], &made["bytes"], &made["names"]), (&"score".into(), &176.into(), &true.into()));
    let wrong = &one(&["make", "wrong.text", "-o", "made", "--json"])["problems"][0];
    assert_eq!((&wrong["file"], &wrong["line"], &wrong["column"]), (&"wrong.text".into(), &4.into(), &9.into()));
    assert_eq!(wrong["detail"], "expected the token to tell");

    let checked = one(&["check", "score", "token", "draft", "--json"]);
    assert_eq!((&checked["fine"], &checked["refused"]), (&1.into(), &2.into()));
    assert_eq!(checked["files"][1]["wrong"]["problems"][0]["line"], 9);

    let played = folder.run(&["play", "score", "--inputs", "inputs", "-o", "journal", "--json"]).json();
    let statuses: Vec<&Value> =
        played.iter().map(|value| &value["status"]).filter(|status| !status.is_null()).collect();
    assert_eq!(statuses, ["quiet", "quiet", "clash"]);
    let journal = folder.run(&["journal", "score", "journal", "--json"]).json();
    assert_eq!(journal[2]["pressed"][1], "3");
    assert_eq!((&journal[3]["fine"], &journal[3]["instants"]), (&true.into(), &3.into()));
    assert_eq!(one(&["list", "missing", "--json"])["error"], "missing: No such file or directory");
}

#[test]
fn names_come_from_beside_the_score() {
    let folder = Folder::new("names");
    folder.write("score.names", "token 1 go\ntoken 2 up\nprocedure 0 main\n");
    let ran = folder.run_with(b"go\nup\nback\nstore\n", &["play", "score"]);
    assert_eq!(ran.status, 0);
    assert!(ran.said.contains("  pressed  go\n  outputs  up\n  awake    @2 call main\n"), "{}", ran.said);
    assert!(ran.said.ends_with(
        "back: instant 1 is next\n  awake    @2 call main\n  waiting  when go tell up\nstore of instant 0: go up\n"
    ));
    let listed = folder.run(&["list", "score"]).said;
    folder.write("made.text", &listed);
    assert_eq!(folder.run(&["make", "made.text", "-o", "made"]).said, "made: a score of 36 bytes and its names\n");
    assert_eq!(folder.read("made.names"), folder.read("score.names"));
    assert_eq!(folder.run_with(listed.as_bytes(), &["make", "-", "-o", "again"]).status, 0);
    assert_eq!(folder.read("again"), folder.read("score"));
    folder.write("other.names", "token 1 los\n");
    assert!(folder.run(&["list", "score", "--names", "other.names"]).said.contains("when los tell 2"));
    folder.write("score.names", "token 1 go\ntoken one\n");
    let ran = folder.run(&["list", "score"]);
    assert_eq!((ran.status, ran.said.as_str()), (1, ""));
    assert!(ran.errors.contains("score.names:2:1"));
}

#[test]
fn a_wrong_line_has_a_place() {
    let folder = Folder::new("lines");
    folder.write("lines", "1\n# nothing\n1 2 four\n");
    let ran = folder.run(&["play", "score", "--inputs", "lines", "-o", "journal"]);
    assert!(ran.errors.contains("lines:3:5"), "{}", ran.errors);
    assert_eq!(folder.read("journal"), b"\x00\x00\x00\xC0\x01\x00\x00\xD0\x02\x00\x00\xE0");
    folder.write("list", b"\x00\x00\x00\xC0\x09\x00\x00\xD0");
    let ran = folder.run(&["play", "score", "--inputs", "list"]);
    assert_eq!((ran.status, ran.said.as_str()), (1, ""));
    assert!(ran.errors.starts_with("list: error[13]: a word that is out of place: word 1, D0000009, in instant 0"));
    folder.write("marked.text", "\u{FEFF}tokens 0\n");
    folder.write("marked.names", "\u{FEFF}token 1 go\n");
    assert!(folder.run(&["list", "marked.text"]).errors.contains("marked.text:1:8"));
    assert!(folder.run(&["list", "score", "--names", "marked.names"]).said.contains("1 go"));
    folder.write("moving.text", "tokens 4\nports 1 \u{1b}[2J to 2\n");
    assert!(folder.run(&["list", "moving.text"]).errors.contains("ports 1 ?[2J to 2"));
    folder.write("latin.text", b"tokens 4\nports 1 to 2\n# B\xFChne\n");
    assert!(folder.run(&["list", "latin.text"]).errors.contains("latin.text:3:4"));
}

/// A draft that is wrong is refused as a console does, at its watch; as a draft it has another fault.
#[test]
fn a_console_turns_down_a_watch() {
    let folder = Folder::new("watches");
    folder.write("circle.text", "tokens 4\nports 1 to 2\nprocedure a\n    watch 1 call a\n");
    assert!(folder.run(&["check", "circle.text"]).said.starts_with("circle.text:4:5: error[4]: a watch"));
    assert!(folder.run(&["check", "circle.text", "--drafts"]).said.starts_with("circle.text:3:1: error[7]: "));
}

/// Every file of a folder is checked, through links too, but each folder once; what is no file is told of.
#[test]
fn folders_are_searched() {
    let folder = Folder::new("folders");
    fs::create_dir_all(folder.0.join("show/act/.old")).expect("a folder can be made");
    for name in ["show/act/one", "show/two", "show/.three", "show/act/.old/four", "show/two.inputs", "show/two.part"] {
        folder.write(name, folder.read("score"));
    }
    for (to, link) in [("act", "show/zlink"), ("..", "show/act/circle"), ("nowhere", "show/dangling")] {
        std::os::unix::fs::symlink(to, folder.0.join(link)).expect("a link can be made");
    }
    let made = Command::new("mkfifo").arg(folder.0.join("show/pipe")).status().expect("there is mkfifo");
    assert!(made.success());
    let ran = folder.run(&["check", "show", "missing", "--json"]);
    let checked = ran.json().remove(0);
    let files: Vec<&Value> = checked["files"].as_array().expect("files").iter().map(|file| &file["file"]).collect();
    assert_eq!(files, ["show/act/one", "show/dangling", "show/pipe", "show/two", "missing"]);
    assert_eq!((ran.status, &checked["fine"], &checked["unreadable"]), (2, &2.into(), &3.into()));
}

/// What a score says does not hang on the names beside it; a fault in them is told of.
#[test]
fn wrong_names_are_told_of() {
    let folder = Folder::new("wrong-names");
    folder.write("score.names", "token 1 when\n");
    let ran = folder.run(&["check", "score"]);
    assert_eq!(ran.status, 1);
    assert!(ran.said.starts_with("score.names:1:9: error: not a name"), "{}", ran.said);
    assert!(ran.said.ends_with("1 checked: 1 fine, 0 refused, 1 with wrong names\n"), "{}", ran.said);
}

/// What is made is not written over a text or a names file of another, and takes old names away.
#[test]
fn other_files_stay() {
    let folder = Folder::new("stays");
    let text = folder.read("two-winches.text");
    for (name, status) in [("made.part", 0), ("made.names", 2), ("made", 2)] {
        folder.write(name, &text);
        assert_eq!(folder.run(&["make", name, "-o", "made", "--names", "/dev/null"]).status, status, "{name}");
        assert_eq!(folder.read(name), text, "{name}");
    }
    let parts = fs::read_dir(&folder.0).expect("a folder").filter(|entry| {
        let name = entry.as_ref().expect("it can be read").file_name();
        name.to_string_lossy().ends_with(".part")
    });
    assert_eq!(parts.count(), 1);
    assert_eq!(folder.run(&["make", "two-winches.text", "-o", "bar"]).status, 0);
    folder.write("bare.text", "tokens 2\nports 1 to 1\nprocedure 0\n    tell 1\n");
    assert_eq!(folder.run(&["make", "bare.text", "-o", "bar"]).said, "bar: a score of 16 bytes\n");
    assert!(!folder.0.join("bar.names").exists());
    assert_eq!(folder.run(&["play", "score", "--inputs", "inputs", "-o", "bar"]).status, 2);
    assert_eq!(folder.run_with(b"journal bar\n", &["play", "score"]).status, 2);
    assert_eq!(folder.read("bar").len(), 16);
}

#[test]
fn as_many_jobs_as_one_likes() {
    let folder = Folder::new("jobs");
    for k in 0..100 {
        folder.write_changed(&format!("{k}.score"), 4 * (k % 9), &[k as u8; 4]);
    }
    let one = folder.run(&["check", "--jobs", "1", "."]);
    assert_eq!(one.status, 1);
    for jobs in ["2", "8", "1024"] {
        assert_eq!(folder.run(&["check", "--jobs", jobs, "."]).said, one.said);
    }
    let narrow = format!("ulimit -v 150000; exec {PROGRAM} check --jobs 1024 .");
    let ran = Command::new("sh").args(["-c", &narrow]).current_dir(&folder.0).output().expect("there is a shell");
    assert_eq!(Ran::of(&["check"], ran).said, one.said);
}

/// Nobody reads what is printed any more.
#[test]
fn a_closed_pipe_is_no_fault() {
    let folder = Folder::new("pipes");
    folder.write("long", b"\x00\x00\x00\xC0".repeat(20_000));
    for arguments in [
        &["list", "score"][..],
        &["play", "score", "--inputs", "long"],
        &["journal", "score", "long"],
        &["check", "score"],
        &["help"],
    ] {
        let mut child = Command::new(PROGRAM)
            .args(arguments)
            .current_dir(&folder.0)
            .stdout(Stdio::piped())
            .stderr(Stdio::piped())
            .spawn()
            .expect("the program can be started");
        drop(child.stdout.take());
        let output = child.wait_with_output().expect("it ends");
        let errors = String::from_utf8_lossy(&output.stderr);
        assert!(!errors.contains("panicked"), "{arguments:?}: {errors}");
    }
}

/// A line that does not end is not waited for.
#[test]
fn a_line_without_an_end() {
    let folder = Folder::new("endless");
    let ran = folder.run_with(&[b'1'; 2_000_000], &["play", "score"]);
    assert_eq!((ran.status, ran.errors.as_str()), (2, "score: standard input: a line of a megabyte\n"));
    folder.write("lines", [b'1'; 2_000_000]);
    assert_eq!(folder.run(&["play", "score", "--inputs", "lines"]).status, 2);
}

/// Files of 10 MB, texts and others, are refused in less than a second.
#[test]
fn large_files() {
    let folder = Folder::new("large");
    let parts: [&[u8]; 5] = [b"rule 1 gives 2\n", b"    ", b"# comment\n", b"\x00", b"\xFF\x10"];
    for part in parts {
        folder.write("large", part.repeat(10_000_000 / part.len()));
        for arguments in [&["list", "large"][..], &["make", "large", "-o", "made"], &["check", "large"]] {
            let start = Instant::now();
            // What is no text is not made anything of.
            let status = if arguments[0] == "make" && part.len() < 3 { 2 } else { 1 };
            assert_eq!(folder.run(arguments).status, status, "{arguments:?} of {part:?}");
            assert!(start.elapsed() < Duration::from_secs(1), "{arguments:?} of {part:?} took {:?}", start.elapsed());
        }
    }
}
