//! The script `report`: its status, what stands on standard output, and what it says where something is wrong. It runs with a stand-in for
//! `rt`, and but for one call with one for the program, so that each way a build or a program can end is tried in no time.

use std::fs;
use std::io::{BufRead, BufReader};
use std::os::unix::fs::PermissionsExt;
use std::path::{Path, PathBuf};
use std::process::{Command, Output, Stdio};

fn script() -> PathBuf {
    Path::new(env!("CARGO_MANIFEST_DIR")).join("../report").canonicalize().unwrap()
}

fn executable(path: &Path, text: &str) {
    fs::create_dir_all(path.parent().unwrap()).unwrap();
    fs::write(path, text).unwrap();
    fs::set_permissions(path, fs::Permissions::from_mode(0o755)).unwrap();
}

/// A folder with the script in it, an `rt` and a program that do as they are told.
struct Stand(PathBuf);

impl Stand {
    fn new(name: &str, rt: &str, program: &str) -> Self {
        let folder = std::env::temp_dir().join(format!("welmocant script {name} {}", std::process::id()));
        executable(&folder.join("report"), &fs::read_to_string(script()).unwrap());
        executable(&folder.join("bin/rt"), &format!("#!/bin/sh\n{rt}\n"));
        executable(&folder.join("crates/report/out/report"), &format!("#!/bin/sh\n{program}\n"));
        fs::write(folder.join("a list.sev"), [1]).unwrap();
        Stand(folder)
    }

    fn path(&self) -> String {
        format!("{}:{}", self.0.join("bin").display(), std::env::var("PATH").unwrap())
    }

    fn command(&self, list: &str) -> Command {
        let mut command = Command::new(self.0.join("report"));
        command.arg(list).current_dir(&self.0).env("PATH", self.path());
        command
    }

    fn call(&self, list: &str) -> Output {
        self.command(list).output().unwrap()
    }
}

impl Drop for Stand {
    fn drop(&mut self) {
        let _ = fs::remove_dir_all(&self.0);
    }
}

/// Status and standard output; and a word that standard error has.
fn ended(out: &Output, status: i32, printed: &str, said: &str) {
    let error = String::from_utf8_lossy(&out.stderr);
    assert_eq!((out.status.code(), String::from_utf8_lossy(&out.stdout).as_ref()), (Some(status), printed), "{error}");
    assert!(error.contains(said) && (said.is_empty() == error.is_empty()), "{error}");
}

/// The program itself, on the example, called from another folder by a link to the script.
#[test]
fn the_example() {
    let root = script().parent().unwrap().to_path_buf();
    let stand = Stand::new("example", "exit 0", "");
    let program = "crates/report/out/report";
    fs::copy(root.join(program), stand.0.join(program)).expect("rt run in crates/report writes out/report");
    std::os::unix::fs::symlink(stand.0.join("report"), stand.0.join("bin/linked")).unwrap();
    let mut command = Command::new(stand.0.join("bin/linked"));
    let out = command.arg(root.join("examples/square.sev")).current_dir("/").env("PATH", stand.path()).output().unwrap();
    let lines = "0 parent 0 piece 0 cut yes\n1 parent 0 piece 0 cut no\n2 parent 1 piece 0 cut no\n3 parent 0 piece 0 cut no\nsole 0 3\n";
    ended(&out, 0, &format!("fragments 4 links 4 passes 1\n{lines}"), "");
}

/// What the program prints stands on standard output as it is, and decides the status.
#[test]
fn reports_and_refusals() {
    let text = "fragments 1 links 0 passes 1\n0 parent 0 piece 0 cut no\n";
    let there = "[ -f links.sev ] && [ \"$(wc -c <links.sev)\" -eq 1 ] || exit 5";
    let report = Stand::new("report", "exit 0", &format!("{there}\nprintf '{text}'"));
    ended(&report.call("a list.sev"), 0, text, "");
    ended(&report.call("./a list.sev"), 0, text, "");
    let refused = Stand::new("refused", "exit 0", "echo refused 4 at 1");
    ended(&refused.call("a list.sev"), 1, "refused 4 at 1\n", "");
    let none = Stand::new("none", "exit 0", "[ ! -e links.sev ] && echo no file");
    ended(&none.call("another.sev"), 2, "no file\n", "");
}

/// Where there is no report nothing is printed, and standard error says why.
#[test]
fn what_goes_wrong() {
    let sound = Stand::new("sound", "exit 0", "echo fragments 1");
    ended(&sound.call("/proc/self/mem"), 3, "", "cannot be read");
    ended(&sound.call("bin"), 3, "", "is a folder");
    ended(&Command::new(script()).output().unwrap(), 3, "", "usage");
    // A path with the script's own tools and no `rt`.
    let tools = sound.0.join("tools");
    fs::create_dir_all(&tools).unwrap();
    for tool in ["dirname", "readlink"] {
        std::os::unix::fs::symlink(Path::new("/usr/bin").join(tool), tools.join(tool)).unwrap();
    }
    ended(&sound.command("a list.sev").env("PATH", &tools).output().unwrap(), 3, "", "rt is not on the path");
    let unproved = Stand::new("unproved", "echo rt: numbers NOT PROVED; exit 1", "echo fragments 1");
    ended(&unproved.call("a list.sev"), 3, "", "numbers NOT PROVED");
    let dies = Stand::new("dies", "exit 0", "echo fragments 1; kill -9 $$");
    ended(&dies.call("a list.sev"), 3, "", "the program ended with status");
    let silent = Stand::new("silent", "exit 0", "exit 0");
    ended(&silent.call("a list.sev"), 3, "", "no report");
    fs::remove_file(silent.0.join("crates/report/out/report")).unwrap();
    ended(&silent.call("a list.sev"), 3, "", "is gone");
}

/// A build that takes a while says what it is at; a second run waits for it and does not build beside it. The stand-in for `rt` goes on when it
/// finds a file, and by itself after a while.
#[test]
fn progress() {
    let rt = "await() { i=0; while [ ! -e $1 ] && [ $i -lt 300 ]; do sleep 0.1; i=$((i + 1)); done; }\n\
              cd ../../target\n[ ! -e busy ] || exit 7\n[ ! -e end ] || exit 0\n\
              touch busy\necho 'rt: chose --jobs 2 for numbers'\nawait go\n\
              echo 'checked numbers::width, 1 of 1'\necho 'crate numbers: modules loaded=1 checked=1'\necho 'logic=proved functions=1'\nawait end\nrm busy";
    let slow = Stand::new("slow", rt, "echo fragments 1");
    let run = || {
        let mut run = slow.command("a list.sev").stdout(Stdio::piped()).stderr(Stdio::piped()).spawn().unwrap();
        let said = BufReader::new(run.stderr.take().unwrap()).lines().map(|line| line.unwrap());
        (run, said)
    };
    let told = |name: &str| fs::write(slow.0.join("target").join(name), []).unwrap();
    let (first, mut said) = run();
    assert!(said.next().unwrap().ends_with("is done once"));
    assert_eq!(said.next().unwrap(), "report: proving numbers");
    let (second, mut waits) = run();
    assert_eq!(waits.next().unwrap(), "report: another run is proving the program: waiting for it");
    told("go");
    assert_eq!(said.next().unwrap(), "report: numbers proved");
    told("end");
    for (run, mut rest) in [(first, said), (second, waits)] {
        let out = run.wait_with_output().unwrap();
        assert_eq!((out.status.code(), &out.stdout[..], rest.next()), (Some(0), &b"fragments 1\n"[..], None));
    }
}
