//! The script `sheet` at the root, which stands before the program: how it is
//! called, what it says when something is wrong, its exit status, and the first
//! build, with a stand-in for `rt` that proves nothing.

use reference::sheet::sheet;
use std::io::Write;
use std::os::unix::process::ExitStatusExt;
use std::path::PathBuf;
use std::process::{Child, ChildStdin, Command, Stdio};
use std::thread::sleep;
use std::time::{Duration, Instant};

fn root() -> PathBuf {
    PathBuf::from(env!("CARGO_MANIFEST_DIR")).join("..")
}

fn example(name: &str) -> Vec<u8> {
    std::fs::read(root().join("examples").join(name)).expect("the example is there")
}

// ---- running it

/// The script, and its standard input.
fn start(command: &mut Command) -> (Child, ChildStdin) {
    let mut child = command
        .stdin(Stdio::piped())
        .stdout(Stdio::piped())
        .stderr(Stdio::piped())
        .spawn()
        .expect("the script starts");
    let input = child.stdin.take().expect("its standard input is a pipe");
    (child, input)
}

/// How a run of the script ended.
struct Ended {
    status: Option<i32>,
    wrote: Vec<u8>,
    said: String,
}

fn ended(mut command: Command, form: &[u8]) -> Ended {
    let (child, mut input) = start(&mut command);
    // where it is refused, nobody reads the form
    let _ = input.write_all(form);
    drop(input);
    let done = child.wait_with_output().expect("the script ends");
    Ended {
        status: done.status.code(),
        wrote: done.stdout,
        said: String::from_utf8(done.stderr).expect("messages are text"),
    }
}

impl Ended {
    /// It ended with this status and said this, in one line.
    fn refused(&self, status: i32, what: &str) {
        assert_eq!(self.status, Some(status), "{}", self.said);
        assert_eq!(self.said.lines().count(), 1, "{}", self.said);
        assert!(self.said.starts_with("sheet: "), "{}", self.said);
        assert!(self.said.contains(what), "{}", self.said);
    }

    fn listed(&self, form: &[u8]) {
        assert_eq!(self.status, Some(0), "{}", self.said);
        assert_eq!(self.wrote, sheet(form));
    }
}

fn script(words: &[&str]) -> Command {
    let mut command = Command::new(root().join("sheet"));
    command.args(words);
    command
}

/// The script as a shell starts it, with these redirections.
fn redirected(how: &str) -> Ended {
    let mut command = Command::new("sh");
    let line = format!("exec \"$0\" {how}");
    command.args(["-c", &line]).arg(root().join("sheet"));
    ended(command, &example("curve.txt"))
}

/// A folder for one test, gone at its end.
struct Folder {
    path: PathBuf,
}

impl Folder {
    fn new(name: &str) -> Folder {
        let path = std::env::temp_dir().join(format!("sheet-{}-{name}", std::process::id()));
        std::fs::create_dir_all(&path).expect("the temporary folder can be written");
        Folder { path }
    }

    /// What stands in the folder is made by a shell, and so never open for
    /// writing in this process while another test starts a program.
    fn make(&self, commands: &str) {
        let mut shell = Command::new("sh");
        shell.args(["-ec", commands]).current_dir(&self.path);
        let done = shell
            .env("ROOT", root())
            .status()
            .expect("a shell can be run");
        assert!(done.success(), "{commands}");
    }

    /// The script alone in the folder, with a program `rt` of these commands,
    /// which is called in the crate's folder and goes on in this one.
    fn with_rt(name: &str, commands: &str) -> Folder {
        let folder = Folder::new(name);
        folder.make("cp \"$ROOT/sheet\" . && mkdir -p crates/sheet bin && touch crates.txt");
        folder.make(&format!(
            "cat >bin/rt <<'END'\n#!/bin/sh\n[ \"${{PWD#*/crates/}}\" = sheet ] && cd ../.. || exit 1\n{commands}\nEND\nchmod +x bin/rt"
        ));
        folder
    }

    /// Signals are as a terminal would have them: a gate that runs in the
    /// background hands on that some are ignored.
    fn script(&self) -> Command {
        let mut command = Command::new("env");
        command.arg("--default-signal").arg(self.path.join("sheet"));
        command.current_dir(&self.path);
        let path = std::env::var("PATH").expect("there is a PATH");
        command.env(
            "PATH",
            format!("{}:{path}", self.path.join("bin").display()),
        );
        command.env("ROOT", root());
        command
    }

    fn file(&self, name: &str) -> String {
        std::fs::read_to_string(self.path.join(name)).unwrap_or_default()
    }
}

impl Drop for Folder {
    fn drop(&mut self) {
        let _ = std::fs::remove_dir_all(&self.path);
    }
}

// ---- how it is called

/// It writes the listing and nothing else.
#[test]
fn form_from_standard_input() {
    let form = example("curve.txt");
    let run = ended(script(&[]), &form);
    run.listed(&form);
    assert_eq!(run.said, "");
}

#[test]
fn by_a_link_with_cdpath() {
    let folder = Folder::new("link");
    folder.make("ln -s \"$ROOT/sheet\" first && mkdir here && ln -s ../first here/second");
    let mut command = Command::new("here/second");
    command
        .current_dir(&folder.path)
        .env("CDPATH", &folder.path);
    let form = example("curve.txt");
    ended(command, &form).listed(&form);
}

#[test]
fn help() {
    for words in [&["-h"][..], &["--help"], &["--help", "me"]] {
        let run = ended(script(words), b"");
        assert_eq!((run.status, run.said.as_str()), (Some(0), ""));
        assert!(run.wrote.starts_with(b"usage: ./sheet < FORM\n"));
    }
}

#[test]
fn arguments_are_refused() {
    let option = ended(script(&["--pages"]), b"");
    option.refused(2, "unknown option '--pages'");
    let name = ended(script(&["examples/curve.txt"]), b"");
    name.refused(
        2,
        "('examples/curve.txt'), and reads the form from standard input",
    );
    assert!(option.wrote.is_empty() && name.wrote.is_empty());
    // which a shell's echo would read as the end of the line
    ended(script(&["a\\cb"]), b"").refused(2, "('a\\cb'), and reads");
}

// ---- input and output

#[test]
fn bad_lines_are_seen_in_the_status() {
    let form = example("bad.txt");
    let run = ended(script(&[]), &form);
    run.refused(3, "line 4 is not of the form");
    assert_eq!(run.wrote, example("bad.out"));
    let form = " 0            0           0\n".repeat(2_001);
    let run = ended(script(&[]), form.as_bytes());
    run.refused(3, "line 2001 is one too many");
    assert_eq!(run.wrote, sheet(form.as_bytes()));
}

/// Where nothing can be said, the status still tells.
#[test]
fn without_standard_error() {
    for how in ["2>&-", "2>/dev/full"] {
        let bad = redirected(&format!(
            "<'{}' {how}",
            root().join("examples/bad.txt").display()
        ));
        assert_eq!((bad.status, bad.wrote), (Some(3), example("bad.out")));
        assert_eq!(redirected(&format!("--pages {how}")).status, Some(2));
    }
}

/// A folder is opened, and then can't be read.
#[test]
fn input_that_cannot_be_read() {
    redirected("< /").refused(1, "standard input can't be read");
    redirected("<&-").refused(1, "standard input is closed");
}

#[test]
fn output_that_cannot_be_written() {
    redirected("> /dev/full").refused(1, "standard output can't be written");
    redirected(">&-").refused(1, "standard output is closed");
}

// ---- the first build

/// What the stand-in says for two crates, and the program that is there.
const BUILDS: &str = "[ -z \"${CDPATH-}\" ] || exit 1
echo 'fn codec::copy: proved'
echo 'a note' >&2
echo 'rt: codec proved (2 s)'
echo 'rt: sheet proved (3 s)'
mkdir -p crates/sheet/out
cp \"$ROOT/crates/sheet/out/sheet\" crates/sheet/out
echo \"$@\" >asked";

#[test]
fn first_build_has_a_line_a_crate() {
    let (folder, form) = (Folder::with_rt("build", BUILDS), example("curve.txt"));
    let mut command = folder.script();
    command.env("CDPATH", "/");
    let run = ended(command, &form);
    run.listed(&form);
    let said: Vec<&str> = run.said.lines().collect();
    assert_eq!(said.len(), 3, "{}", run.said);
    assert_eq!(
        said[1..],
        ["sheet: codec proved (2 s)", "sheet: sheet proved (3 s)"]
    );
    assert_eq!(folder.file("asked"), "run\n");
    let log = folder.file("target/sheet.log");
    assert!(log.starts_with("fn codec::copy: proved\na note\nrt: codec proved (2 s)\n"));
}

/// Of what `rt run` says of a crate, this is shown.
#[test]
fn line_a_crate_of_what_rt_says() {
    let says = "exec >&2
echo 'rt: codec: begins with what a check kept in elsewhere'
echo 'rt: chose --jobs 2 for codec'
echo 'crate codec: modules loaded=380 checked=4'
echo 'logic=proved functions=13 native=nat,char,string'
echo 'rt: waiting for another rt to finish in crates/sheet'
echo 'rt: running out/sheet; to give it other input, run that file yourself'";
    let folder = Folder::with_rt("says", &format!("{says}\n{BUILDS}"));
    let run = ended(folder.script(), &example("curve.txt"));
    let said: Vec<&str> = run.said.lines().collect();
    let shown = [
        "sheet: codec proved",
        "sheet: waiting for another rt to finish in crates/sheet",
    ];
    assert_eq!(said.len(), 5, "{}", run.said);
    assert_eq!(said[1..3], shown, "{}", run.said);
}

/// It is built once, and again after a change of a crate, and not for what `rt`
/// made.
#[test]
fn built_again_after_a_change() {
    let (folder, form) = (Folder::with_rt("again", BUILDS), example("curve.txt"));
    let lines = || {
        let run = ended(folder.script(), &form);
        run.listed(&form);
        run.said.lines().count()
    };
    assert_eq!((lines(), lines()), (3, 0));
    folder.make("sleep 0.1; touch crates/new");
    assert_eq!((lines(), lines()), (3, 0));
    folder.make("sleep 0.1; touch crates/sheet/out/new");
    assert_eq!(lines(), 0);
}

/// What is changed while the program is built is not in it.
#[test]
fn change_during_the_build() {
    let changes = format!("sleep 0.1; [ -e crates/new ] || touch crates/new\n{BUILDS}");
    let (folder, form) = (Folder::with_rt("change", &changes), example("curve.txt"));
    for lines in [3, 3, 0] {
        let run = ended(folder.script(), &form);
        run.listed(&form);
        assert_eq!(run.said.lines().count(), lines, "{}", run.said);
    }
}

#[test]
fn build_that_fails() {
    let fails = "echo 'why'; echo 'rt: codec NOT PROVED (exit 1, 2 s)'; exit 1";
    let folder = Folder::with_rt("fails", fails);
    let run = ended(folder.script(), b"");
    assert_eq!((run.status, run.wrote.len()), (Some(1), 0));
    let said: Vec<&str> = run.said.lines().collect();
    assert_eq!(said.len(), 3, "{}", run.said);
    assert_eq!(said[1], "sheet: codec NOT PROVED (exit 1, 2 s)");
    assert!(said[2].contains("the program was not built"));
    assert!(folder.file("target/sheet.log").starts_with("why\n"));
}

/// An older program does not stand for one that could not be built, whatever
/// the last line of `rt` looks like.
#[test]
fn build_that_fails_beside_an_older_program() {
    let folder = Folder::with_rt("older", "printf 'not proved'; exit 1");
    folder.make("mkdir -p crates/sheet/out; cp \"$ROOT/crates/sheet/out/sheet\" crates/sheet/out; sleep 0.1; touch crates/new");
    let run = ended(folder.script(), &example("curve.txt"));
    assert_eq!((run.status, run.wrote.len()), (Some(1), 0), "{}", run.said);
}

/// What stands for the program writes nothing.
#[test]
fn program_without_a_listing() {
    let silent =
        "mkdir -p crates/sheet/out; cd crates/sheet/out; echo '#!/bin/sh' >sheet; chmod +x sheet";
    let folder = Folder::with_rt("silent", silent);
    assert_eq!(ended(folder.script(), b"").status, Some(1));
    ended(folder.script(), b"").refused(1, "the program wrote nothing");
}

#[test]
fn no_kit() {
    let folder = Folder::with_rt("kit", "");
    folder.make("rm bin/rt && for c in cat dirname env find head readlink setsid sh; do ln -s \"$(command -v $c)\" bin; done");
    let mut command = folder.script();
    command.env("PATH", folder.path.join("bin"));
    ended(command, b"").refused(1, "rt, the command of the Rattle kit");
}

/// A file stands where the folder would be: nobody can write there, root neither.
#[test]
fn folder_that_cannot_be_written() {
    let folder = Folder::with_rt("written", "touch asked");
    folder.make("touch target");
    ended(folder.script(), b"").refused(1, "target/sheet.log can't be written");
    assert!(!folder.path.join("asked").exists());
}

const SIGNALS: [(&str, i32); 4] = [("HUP", 1), ("INT", 2), ("QUIT", 3), ("TERM", 15)];

/// The script ends by the signal that it is sent.
fn send(signal: (&str, i32), folder: &Folder, mut child: Child) {
    folder.make(&format!("kill -s {} {}", signal.0, child.id()));
    let status = child.wait().expect("the script ends");
    assert_eq!(status.signal(), Some(signal.1));
    sleep(Duration::from_millis(200));
}

/// The stand-in starts a program that goes on for a minute.
#[test]
fn stopped_it_stops_the_build() {
    let goes_on =
        "(i=0; while [ $i -lt 600 ]; do echo >>beats; sleep 0.1; i=$((i + 1)); done) & wait";
    for signal in SIGNALS {
        let folder = Folder::with_rt(&format!("build-{}", signal.0), goes_on);
        let (child, _input) = start(&mut folder.script());
        let until = Instant::now() + Duration::from_secs(20);
        while folder.file("beats").is_empty() && Instant::now() < until {
            sleep(Duration::from_millis(20));
        }
        send(signal, &folder, child);
        let beats = folder.file("beats").len();
        sleep(Duration::from_millis(500));
        let now = folder.file("beats").len();
        assert!(beats > 0 && now == beats, "{}", signal.0);
    }
}

/// A form whose end does not come: afterwards nobody reads it any more.
#[test]
fn stopped_it_stops_the_reading() {
    for signal in SIGNALS {
        let folder = Folder::with_rt(&format!("read-{}", signal.0), BUILDS);
        ended(folder.script(), b"").listed(b"");
        let (child, mut input) = start(&mut folder.script());
        input.write_all(b" 1").expect("the form is read");
        sleep(Duration::from_millis(300));
        send(signal, &folder, child);
        assert!(input.write_all(b" ").is_err(), "{}", signal.0);
    }
}
