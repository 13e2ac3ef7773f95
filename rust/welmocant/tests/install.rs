//! The script `install`, with tools that do as they are told: what it puts where, what it says, and its status.

mod common;

use common::{executable, Folder, Ran};
use std::fs;
use std::os::unix::fs::PermissionsExt;
use std::path::Path;
use std::process::Command;

const TOOLS: [&str; 15] = ["sh", "dirname", "basename", "readlink", "mktemp", "rm", "cp", "chmod", "mv", "mkdir", "touch", "tail", "flock", "env", "cat"];

/// A copy of the scripts, and a path with nothing but the tools that they need.
struct Stand(Folder);

impl Stand {
    fn new() -> Self {
        let stand = Stand(Folder::new());
        let root = Path::new(env!("CARGO_MANIFEST_DIR")).join("../..");
        fs::create_dir_all(stand.0.path("crates/c_calls")).unwrap();
        for file in ["install", "welmocant", "rust/welmocant/packages", "rust/welmocant/welmocant.1"] {
            let to = stand.0.path(file);
            fs::create_dir_all(to.parent().unwrap()).unwrap();
            assert!(Command::new("cp").args([&root.join(file), &to]).status().unwrap().success());
        }
        fs::create_dir(stand.0.path("path")).unwrap();
        for tool in TOOLS {
            let at = ["/usr/bin", "/bin"].iter().map(|folder| Path::new(folder).join(tool)).find(|at| at.exists());
            if let Some(at) = at {
                std::os::unix::fs::symlink(at, stand.0.path("path").join(tool)).unwrap();
            }
        }
        stand.tool("rt", "[ \"${PWD##*/} $*\" = 'c_calls lib' ] && mkdir -p out && touch out/proved");
        stand.tool("cargo", "[ -e ../../crates/c_calls/out/proved ] && mkdir -p target/release && echo the program >target/release/welmocant");
        stand.tool("cc", "exit 1");
        stand.tool("dpkg-query", "echo 'install ok installed'");
        stand.tool("id", "echo 1000");
        stand
    }

    fn tool(&self, name: &str, text: &str) {
        executable(&self.0.path("path").join(name), text);
    }

    fn gone(&self, name: &str) {
        fs::remove_file(self.0.path("path").join(name)).unwrap();
    }

    fn run(&self, arguments: &[&str]) -> Ran {
        let mut command = Command::new(self.0.path("install"));
        command.args(arguments).current_dir("/").env("PATH", self.0.path("path")).env("HOME", self.0.path("home"));
        Ran::of(command.output().unwrap())
    }

    /// Not installed: this status, these words, and nothing put anywhere.
    fn fails(&self, arguments: &[&str], words: &[&str]) {
        let ran = self.run(arguments);
        assert_eq!((ran.status, ran.text()), (Some(3), ""), "{}", ran.err);
        for word in words {
            assert!(ran.err.contains(word), "{word:?} is not in: {}", ran.err);
        }
        for name in ["home/.local/bin", "there"] {
            assert!(fs::read_dir(self.0.path(name)).map_or(true, |mut entries| entries.next().is_none()));
        }
    }
}

#[test]
fn installed() {
    let stand = Stand::new();
    let ran = stand.run(&[]);
    let home = stand.0.path("home/.local");
    let call = home.join("bin/welmocant");
    assert_eq!((ran.status, ran.text()), (Some(0), format!("installed: {0} report LIST (help: {0} --help)\n", call.display()).as_str()), "{}", ran.err);
    assert!(ran.err.lines().count() == 1 && ran.err.contains("minutes the first time"), "{}", ran.err);
    assert_eq!(fs::read_to_string(&call).unwrap(), "the program\n");
    assert_eq!(fs::metadata(&call).unwrap().permissions().mode() & 0o777, 0o755);
    let manual = fs::metadata(home.join("share/man/man1/welmocant.1")).unwrap();
    assert!(manual.len() > 1_000 && manual.permissions().mode() & 0o777 == 0o644);
    // Elsewhere, in place of what is there; by its name alone where it is on the path.
    let there = stand.0.path("a place");
    fs::create_dir(&there).unwrap();
    fs::write(there.join("welmocant"), "old").unwrap();
    let ran = stand.run(&["--to", there.to_str().unwrap()]);
    assert_eq!((ran.status, fs::read_to_string(there.join("welmocant")).unwrap().as_str()), (Some(0), "the program\n"));
    assert_eq!(fs::read_dir(&there).unwrap().count(), 2);
    let on_path = stand.run(&["--to", stand.0.path("path").to_str().unwrap()]);
    assert_eq!((on_path.status, on_path.text()), (Some(0), "installed: welmocant report LIST (help: welmocant --help)\n"));
}

/// The script `welmocant` builds the program once, hands on its arguments, and ends as it does.
#[test]
fn called_at_once() {
    let stand = Stand::new();
    stand.tool("cargo", "mkdir -p target/release && printf '#!/bin/sh\\necho built \"$@\"; exit 5\\n' >target/release/welmocant");
    let call = || {
        let mut command = Command::new(stand.0.path("welmocant"));
        command.args(["report", "a list.sev"]).current_dir("/").env("PATH", stand.0.path("path"));
        Ran::of(command.output().unwrap())
    };
    let first = call();
    assert_eq!((first.status, first.text()), (Some(5), "built report a list.sev\n"), "{}", first.err);
    assert!(first.err.contains("minutes the first time"), "{}", first.err);
    stand.tool("rt", "exit 1");
    let second = call();
    assert_eq!((second.status, second.text(), second.err.as_str()), (Some(5), "built report a list.sev\n", ""));
    fs::remove_dir_all(stand.0.path("target/program")).unwrap();
    let unbuilt = call();
    assert_eq!((unbuilt.status, unbuilt.text()), (Some(3), ""));
    assert!(unbuilt.err.contains("the library is not proved"), "{}", unbuilt.err);
}

#[test]
fn not_installed() {
    for arguments in [&["--to"][..], &["--to", ""], &["there"], &["--from", "there"], &["--to", "a", "b"]] {
        Stand::new().fails(arguments, &["usage: ./install [--to DIR]"]);
    }
    let stand = Stand::new();
    stand.tool("cargo", "echo error: no crate; exit 101");
    stand.fails(&[], &["error: no crate", "the program is not built"]);
    stand.tool("rt", "echo rt: numbers NOT PROVED; exit 1");
    stand.fails(&[], &["numbers NOT PROVED", "the library is not proved"]);
    stand.gone("rt");
    stand.fails(&[], &["rt is not on the path"]);
    let stand = Stand::new();
    fs::write(stand.0.path("there"), "").unwrap();
    let ran = stand.run(&["--to", stand.0.path("there").to_str().unwrap()]);
    assert_eq!((ran.status, ran.text()), (Some(3), ""));
}

/// Missing packages: the one line to type, or installed by root or by sudo.
#[test]
fn packages() {
    let stand = Stand::new();
    let asked = "case $3 in librust-clap-dev) [ -e \"$HOME/clap\" ] || exit 1 ;; esac; echo 'install ok installed'";
    stand.tool("dpkg-query", asked);
    stand.fails(&[], &["type: sudo apt-get install librust-clap-dev\n"]);
    stand.gone("cc");
    stand.tool("dpkg-query", "exit 1");
    stand.fails(&[], &["type: sudo apt-get install librust-clap-dev librust-indicatif-dev librust-serde-json-dev gcc libc6-dev\n"]);
    stand.tool("cc", "");
    stand.tool("dpkg-query", asked);
    stand.tool("apt-get", "[ \"$1\" = update ] || echo E: no such package >&2; [ \"$1\" = update ]");
    stand.fails(&[], &["type: sudo apt-get install librust-clap-dev\n"]);
    stand.tool("id", "echo 0");
    stand.fails(&[], &["E: no such package", "type: sudo apt-get install librust-clap-dev\n"]);
    // The lists of packages are fetched where the first try fails.
    stand.tool("apt-get", "case $1 in update) : >\"$HOME/lists\" ;; *) [ -e \"$HOME/lists\" ] && : >\"$HOME/clap\" ;; esac");
    fs::create_dir_all(stand.0.path("home")).unwrap();
    assert_eq!(stand.run(&[]).status, Some(0));
    for name in ["clap", "lists"] {
        fs::remove_file(stand.0.path("home").join(name)).unwrap();
    }
    stand.tool("id", "echo 1000");
    stand.tool("sudo", "[ \"$1\" = -n ] && shift && exec \"$@\"");
    stand.tool("true", "");
    assert_eq!(stand.run(&[]).status, Some(0));
    assert!(stand.0.path("home/clap").exists());
}
