//! What the tests of the program share: folders, calls of the program as a user makes them, a disk that fails, and lists with their truth.
#![allow(dead_code)] // each test file uses a part of it

#[path = "../../../tests/common/mod.rs"]
pub mod lists;

use std::fs;
use std::path::{Path, PathBuf};
use std::process::{Command, Output};
use std::sync::atomic::{AtomicU32, Ordering};
use welmocant::plain::{self, removal, Building, Link};
use welmocant::{block, put_number};

/// A folder that is removed at the end.
pub struct Folder(pub PathBuf);

impl Folder {
    pub fn new() -> Self {
        static NEXT: AtomicU32 = AtomicU32::new(0);
        let name = format!("welmocant program {} {}", std::process::id(), NEXT.fetch_add(1, Ordering::SeqCst));
        let folder = std::env::temp_dir().join(name);
        fs::create_dir_all(&folder).unwrap();
        Folder(folder.canonicalize().unwrap())
    }

    pub fn path(&self, name: &str) -> PathBuf {
        self.0.join(name)
    }

    pub fn put(&self, name: &str, bytes: &[u8]) -> PathBuf {
        fs::write(self.path(name), bytes).unwrap();
        self.path(name)
    }

    pub fn names(&self) -> Vec<String> {
        let mut names: Vec<String> = fs::read_dir(&self.0).unwrap().map(|entry| entry.unwrap().file_name().into_string().unwrap()).collect();
        names.sort();
        names
    }

    /// The program, called in this folder.
    pub fn call(&self, arguments: &[&str]) -> Command {
        let mut command = Command::new(env!("CARGO_BIN_EXE_welmocant"));
        command.args(arguments).current_dir(&self.0);
        command
    }

    pub fn run(&self, arguments: &[&str]) -> Ran {
        Ran::of(self.call(arguments).output().unwrap())
    }

    /// The same with another disk below one file; `told` are the variables that it obeys.
    pub fn call_on(&self, disk: &Disk, file: &str, told: &[(&str, &str)], arguments: &[&str]) -> Command {
        let mut command = self.call(arguments);
        command.env("LD_PRELOAD", &disk.library).env("WELMOCANT_FILE", self.path(file)).envs(told.iter().copied());
        command
    }

    pub fn on_disk(&self, disk: &Disk, file: &str, told: &[(&str, &str)], arguments: &[&str]) -> Ran {
        Ran::of(self.call_on(disk, file, told, arguments).output().unwrap())
    }
}

impl Drop for Folder {
    fn drop(&mut self) {
        let _ = fs::remove_dir_all(&self.0);
    }
}

/// A script that can be called. Another process writes it: while this one has a file open for writing, a process that another test begins may have
/// it too, and then it cannot be called.
pub fn executable(path: &Path, text: &str) {
    let written = Command::new("sh").args(["-c", "printf '#!/bin/sh\\n%s\\n' \"$2\" >\"$1\" && chmod 755 \"$1\"", "sh"]).arg(path).arg(text).status().unwrap();
    assert!(written.success());
}

/// Status, standard output and standard error.
#[derive(Debug, PartialEq, Eq)]
pub struct Ran {
    pub status: Option<i32>,
    pub out: Vec<u8>,
    pub err: String,
}

impl Ran {
    pub fn of(output: Output) -> Self {
        Ran { status: output.status.code(), out: output.stdout, err: String::from_utf8(output.stderr).unwrap() }
    }

    pub fn text(&self) -> &str {
        std::str::from_utf8(&self.out).unwrap()
    }

    /// Done, and nothing said.
    pub fn done(&self) -> &str {
        assert_eq!((self.status, self.err.as_str()), (Some(0), ""));
        self.text()
    }

    /// Nothing on standard output, this status, and one sentence that has these words and ends there.
    pub fn says(&self, status: i32, words: &[&str]) {
        assert_eq!((self.status, self.text()), (Some(status), ""), "{}", self.err);
        assert!(self.err.starts_with("welmocant: ") && self.err.ends_with('\n') && self.err.lines().count() == 1, "{}", self.err);
        for word in words {
            assert!(self.err.contains(word), "{word:?} is not in: {}", self.err);
        }
    }
}

/// The shim, compiled.
pub struct Disk {
    library: PathBuf,
    _folder: Folder,
}

impl Disk {
    pub fn new() -> Self {
        let folder = Folder::new();
        let library = folder.path("shim.so");
        let source = Path::new(env!("CARGO_MANIFEST_DIR")).join("tests/common/shim.c");
        let compiler = std::env::var("CC").unwrap_or_else(|_| "cc".into());
        let built = Command::new(compiler).args(["-shared", "-fPIC", "-O1", "-Wall", "-Werror", "-o"]).args([&library, &source]).status().unwrap();
        assert!(built.success());
        // LD_PRELOAD parts its value at blanks.
        let plain = std::env::temp_dir().join(format!("welmocant-shim-{}-{:p}.so", std::process::id(), &folder));
        fs::rename(library, &plain).unwrap();
        Disk { library: plain, _folder: folder }
    }
}

impl Drop for Disk {
    fn drop(&mut self) {
        let _ = fs::remove_file(&self.library);
    }
}

pub const SQUARE: [u8; 9] = [4, 0, 1, 0, 2, 0, 3, 1, 2];
pub const SQUARE_LINES: &str = "fragments 4 links 4 passes 1\n0 parent 0 piece 0 cut yes\n1 parent 0 piece 0 cut no\n2 parent 1 piece 0 cut no\n3 parent 0 piece 0 cut no\nsole 0 3\n";

pub fn file(n: u32, links: &[Link]) -> Vec<u8> {
    let mut bytes = Vec::new();
    put_number(&mut bytes, n);
    bytes.extend(block(links));
    bytes
}

/// The report by the rules in plain Rust.
pub fn expected(n: u32, k: u32, links: &[Link]) -> String {
    let mut building = Building::new(n as usize, k as usize);
    loop {
        building.take(links);
        if building.close() {
            break;
        }
    }
    let read = plain::read(&building.parent, links).unwrap();
    let mut text = format!("fragments {n} links {} passes {}\n", links.len(), building.passes);
    for v in 0..n {
        let cut = if read.cut(v) { "yes" } else { "no" };
        text += &format!("{v} parent {} piece {} cut {cut}\n", read.parent[v as usize], read.piece[v as usize]);
    }
    let mut soles: Vec<Link> = (0..n).map(|v| (v, read.parent[v as usize])).filter(|&(v, p)| v != p && read.sole(v, p)).map(|(v, p)| (v.min(p), v.max(p))).collect();
    soles.sort_unstable();
    for (a, b) in soles {
        text += &format!("sole {a} {b}\n");
    }
    text
}

/// The passes that a report says.
pub fn passes_of(report: &str) -> usize {
    report.lines().next().unwrap().rsplit(' ').next().unwrap().parse().unwrap()
}

/// Pieces, cut fragments and sole links of a report, whatever its forest.
pub type Found = (Vec<u32>, Vec<bool>, Vec<Link>);

pub fn found(report: &str) -> Found {
    let (mut pieces, mut cuts, mut soles) = (Vec::new(), Vec::new(), Vec::new());
    for line in report.lines() {
        let words: Vec<&str> = line.split(' ').collect();
        let number = |i: usize| words[i].parse::<u32>().unwrap();
        match words[0] {
            "fragments" => assert_eq!((words[2], words[4]), ("links", "passes")),
            "sole" => soles.push((number(1), number(2))),
            _ => {
                assert_eq!((number(0), words[3], words[5]), (pieces.len() as u32, "piece", "cut"));
                pieces.push(number(4));
                cuts.push(words[6] == "yes");
            }
        }
    }
    (pieces, cuts, soles)
}

/// The same by taking each link and each fragment away.
pub fn by_removal(n: u32, links: &[Link]) -> Found {
    let pieces = removal::joined(n as usize, links, None, None);
    let cuts = (0..n).map(|v| removal::cut(n as usize, links, v)).collect();
    let mut soles: Vec<Link> = links.iter().map(|&(a, b)| (a.min(b), a.max(b))).collect();
    soles.sort_unstable();
    soles.dedup();
    soles.retain(|&(a, b)| removal::sole(n as usize, links, a, b));
    (pieces, cuts, soles)
}
