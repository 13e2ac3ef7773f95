//! What goes wrong: bad lists, files that are none, disks that fail, lists that change while they are read, readers that go away, and Ctrl-C.
//! A refusal has its sentence and status, nothing on standard output, and leaves nothing behind.

mod common;

use common::lists::{list, Dice};
use common::{by_removal, expected, file, found, passes_of, Disk, Folder, Ran, SQUARE, SQUARE_LINES};
use std::fs;
use std::io::{Read, Write};
use std::os::unix::fs::PermissionsExt;
use std::os::unix::process::{CommandExt, ExitStatusExt};
use std::path::Path;
use std::process::{Child, Command, Stdio};
use std::time::{Duration, Instant};
use welmocant::plain::Link;

/// Every refusal that a file can cause: its number, its byte, what is wrong in words and what to do.
#[test]
fn refusals() {
    let folder = Folder::new();
    let far = |bad: &[u8], rest: &[u8]| [&file(300, &vec![(1, 299); 400_000])[..], bad, rest].concat();
    let many = file(2, &vec![(0, 1); 16_777_216]);
    for (bytes, words) in [
        (vec![0], &["refused 1: ", "no fragments", "welmocant pack"][..]),
        (vec![0x81, 0x80, 0x02], &["refused 1: ", "more than 32,768"]),
        (vec![4, 0, 1, 0, 4], &["refused 4 at byte 3: ", "a fragment that the list does not have", "correct the link"]),
        (vec![4, 0, 1, 2, 2], &["refused 5 at byte 3: ", "to itself", "Take that link out"]),
        (vec![0x80, 0], &["refused 7 at byte 0: ", "shortest form", "damaged"]),
        (vec![4, 0, 1, 0x81, 0, 1], &["refused 7 at byte 3: "]),
        (vec![], &["refused 8 at byte 0: ", "empty", "fetch the whole file again"]),
        (vec![0x80], &["refused 8 at byte 0: "]),
        (vec![4, 0, 1, 3], &["refused 8 at byte 3: ", "in the middle"]),
        // Behind more than one block: the place is a byte of the file.
        (far(&[0, 0xAC, 0x02], &[]), &["refused 4 at byte 1200002: "]),
        (far(&[7, 7], &[1, 2]), &["refused 5 at byte 1200002: "]),
        (far(&[0xFF, 0xFF, 0xFF], &[1, 2]), &["refused 7 at byte 1200002: "]),
        (far(&[1], &[]), &["refused 8 at byte 1200002: "]),
        (many, &["refused 12 at byte 33554431: ", "more than 16,777,215 links", "split"]),
    ] {
        folder.put("links.sev", &bytes);
        folder.run(&["report", "links.sev"]).says(1, &[&["welmocant: links.sev: "], words].concat());
        folder.run(&["unpack", "links.sev", "-o", "lines"]).says(1, words);
    }
    for k in ["0", "65", "4294967295"] {
        folder.put("links.sev", &SQUARE);
        folder.run(&["report", "links.sev", "--room", k]).says(1, &["refused 2: ", "--room"]);
    }
    assert_eq!(folder.names(), ["links.sev"]);
}

/// The most entries are no refusal.
#[test]
fn most_entries() {
    let folder = Folder::new();
    folder.put("links.sev", &file(2, &vec![(0, 1); 16_777_215]));
    assert_eq!(folder.run(&["report", "links.sev"]).done(), "fragments 2 links 16777215 passes 1\n0 parent 0 piece 0 cut no\n1 parent 0 piece 0 cut no\nsole 0 1\n");
}

#[test]
fn files_that_are_none() {
    let folder = Folder::new();
    folder.put("links.sev", &SQUARE);
    fs::create_dir(folder.path("folder")).unwrap();
    assert!(Command::new("mkfifo").arg(folder.path("pipe")).status().unwrap().success());
    for part in ["report", "unpack"] {
        for (name, status, words) in [
            ("another.sev", 2, "another.sev: there is no such file"),
            ("", 2, "'': there is no such file"),
            ("links.sev/x", 2, "no such file"),
            ("two\nlines \u{1b}[2J", 2, "two?lines ?[2J: there is no such file"),
            ("folder", 3, "folder: this is a folder"),
            ("pipe", 3, "pipe"),
            ("/dev/null", 1, "refused 8 at byte 0"),
            ("/dev/zero", 1, "refused 1"),
            ("/proc/self/mem", 3, "could not be read to the end"),
        ] {
            folder.run(&[part, name]).says(status, &[words]);
        }
    }
    folder.run(&["pack", "another"]).says(2, &["no such file"]);
    folder.run(&["pack", "folder"]).says(3, &["is a folder"]);
    folder.run(&["pack", "pipe"]).says(3, &["is a pipe"]);
    folder.run(&["pack", "/proc/self/mem"]).says(3, &["could not be read to the end"]);
    let mut piped = folder.call(&["report", "/dev/stdin"]).stdin(Stdio::piped()).stdout(Stdio::piped()).stderr(Stdio::piped()).spawn().unwrap();
    // It may have ended before it is told anything.
    let _ = piped.stdin.take().unwrap().write_all(&SQUARE);
    Ran::of(piped.wait_with_output().unwrap()).says(3, &["cannot be read more than once"]);
}

/// Files that may not be read or written. Root may do all, so the program is then called as somebody else.
#[test]
fn unreadable() {
    let folder = Folder::new();
    let list = folder.put("links.sev", &SQUARE);
    fs::set_permissions(&list, fs::Permissions::from_mode(0o000)).unwrap();
    fs::set_permissions(&folder.0, fs::Permissions::from_mode(0o755)).unwrap();
    let program = folder.path("program");
    assert!(Command::new("cp").args([Path::new(env!("CARGO_BIN_EXE_welmocant")), &program]).status().unwrap().success());
    let (home, old) = (folder.path("home"), folder.path("home/old"));
    fs::create_dir(&home).unwrap();
    fs::write(&old, "old").unwrap();
    fs::set_permissions(&old, fs::Permissions::from_mode(0o444)).unwrap();
    fs::set_permissions(&home, fs::Permissions::from_mode(0o777)).unwrap();
    for (arguments, word) in [
        (&["report", "links.sev"][..], "Permission denied"),
        (&["unpack", "links.sev"], "Permission denied"),
        (&["pack", "links.sev"], "Permission denied"),
        (&["pack", "/dev/null", "--fragments", "3", "-o", "/proc/new"], "no file can be made there"),
        (&["pack", "/dev/null", "--fragments", "3", "-o", "home/old"], "home/old: this file may not be written"),
    ] {
        let mut command = Command::new(&program);
        command.args(arguments).current_dir(&folder.0);
        if fs::read(&list).is_ok() {
            command.uid(65_534).gid(65_534);
        }
        Ran::of(command.output().unwrap()).says(3, &[word]);
    }
    assert_eq!(fs::read(&old).unwrap(), b"old");
    assert_eq!(fs::read_dir(&home).unwrap().count(), 1);
}

/// Reads of a few bytes, and reads that a signal interrupts, give the same report as whole ones.
#[test]
fn reads_cut_short() {
    let (folder, disk) = (Folder::new(), Disk::new());
    let mut dice = Dice::new(31);
    for round in 0..8 {
        let n = [4, 130, 300, 20_000][round % 4];
        let links: Vec<Link> = (0..200).map(|_| (dice.below(n), dice.below(n))).filter(|(a, b)| a != b).collect();
        folder.put("links.sev", &file(n, &links));
        for cut in ["1", "2", "3", "7", "4096"] {
            for more in [&[][..], &[("WELMOCANT_INTERRUPT", "1")]] {
                let told = [&[("WELMOCANT_CUT", cut)], more].concat();
                assert_eq!(folder.on_disk(&disk, "links.sev", &told, &["report", "links.sev"]).done(), expected(n, 4, &links), "{cut}");
                let lines = folder.on_disk(&disk, "links.sev", &told, &["unpack", "links.sev"]);
                assert_eq!(lines.done().lines().count(), links.len() + 1);
            }
        }
    }
}

/// A disk that fails midway, at the end of a link and within one, in the first pass, a later one and the last: never a report on what was read
/// so far.
#[test]
fn failing_disk() {
    let (folder, disk) = (Folder::new(), Disk::new());
    let links: Vec<Link> = (0..600_000).map(|i| (i % 100, 100 + i % 27)).collect();
    let bytes = file(127, &links);
    folder.put("links.sev", &bytes);
    let passes = |told: &[(&str, &str)]| folder.on_disk(&disk, "links.sev", told, &["report", "links.sev", "--room", "1"]);
    let whole = passes(&[]);
    let count = passes_of(whole.done());
    assert!(count >= 2, "{count}");
    for at in ["0", "1", "8192", "8193", "1048577", "1200000"] {
        for pass in ["1", "2", &(count + 1).to_string()] {
            let ran = passes(&[("WELMOCANT_FAIL", at), ("WELMOCANT_FAIL_PASS", pass)]);
            ran.says(3, &["links.sev: it could not be read to the end", "Input/output error"]);
        }
    }
    // Past its last byte, where the end is to be read.
    let end = bytes.len().to_string();
    passes(&[("WELMOCANT_FAIL", &end)]).says(3, &["could not be read to the end"]);
    passes(&[("WELMOCANT_STUCK_PASS", "2")]).says(3, &["could not be read to the end"]);
    folder.on_disk(&disk, "links.sev", &[("WELMOCANT_FAIL", "8193")], &["unpack", "links.sev"]).says(3, &["could not be read"]);
    // The pass behind the last one is never read.
    let unread = (count + 2).to_string();
    assert_eq!(passes(&[("WELMOCANT_FAIL", "0"), ("WELMOCANT_FAIL_PASS", &unread)]), whole);
}

/// Another file from some pass on: refused, with what is wrong in the second one, or a true report on the list that was read last.
#[test]
fn lists_that_change() {
    let (folder, disk) = (Folder::new(), Disk::new());
    let path = folder.path("other.sev").to_str().unwrap().to_string();
    let changed = |first: &[u8], second: &[u8], pass: &str| {
        folder.put("links.sev", first);
        folder.put("other.sev", second);
        folder.on_disk(&disk, "links.sev", &[("WELMOCANT_OTHER", &path), ("WELMOCANT_OTHER_PASS", pass)], &["report", "links.sev", "--room", "1"])
    };
    for (second, words) in [
        (&[5, 0, 1, 0, 2, 0, 3, 1, 2][..], "refused 9: the list was changed while it was read"),
        (&[4], "refused 9: "),
        (&[4, 0, 1, 0, 2, 0], "refused 8 at byte 5: "),
        (&[4, 0, 1, 0, 2, 0, 9], "refused 4 at byte 5: "),
        (&[], "refused 8 at byte 0: "),
        (&[0], "refused 9: "),
        (&[0x80, 0], "refused 7 at byte 0: "),
    ] {
        changed(&SQUARE, second, "3").says(1, &[words]);
    }
    assert_eq!(changed(&SQUARE, &SQUARE, "2").done(), SQUARE_LINES.replace("passes 1", "passes 2"));
    let mut dice = Dice::new(32);
    let (mut reports, mut refusals) = (0, 0);
    for round in 0..150 {
        let n = [4, 9, 25][round % 3];
        let first = list(&mut dice, n, round as u32 % 4);
        // Another order, a link more, a link less, or another list.
        let mut second = first.clone();
        dice.shuffle(&mut second);
        match round % 5 {
            0 => {}
            1 => second.push((0, 1 + dice.below(n - 1))),
            2 | 3 => drop(second.pop()),
            _ => second = list(&mut dice, n, 0),
        }
        let from = 2 + round % 2;
        let ran = changed(&file(n, &first), &file(n, &second), &from.to_string());
        if ran.status == Some(0) {
            let told = if passes_of(ran.done()) + 1 >= from { &second } else { &first };
            assert!(ran.text().starts_with(&format!("fragments {n} links {} ", told.len())), "round {round}");
            assert_eq!(found(ran.text()), by_removal(n, told), "round {round}");
            reports += 1;
        } else {
            ran.says(1, &["refused 9: "]);
            refusals += 1;
        }
    }
    println!("lists that change: {reports} true reports, {refusals} refusals");
    assert!(reports > 20 && refusals > 20);
}

/// A list long enough that its report does not fit into a pipe.
fn wide(folder: &Folder) {
    let links: Vec<Link> = (1..8_000).map(|v| (v / 5, v)).collect();
    folder.put("links.sev", &file(8_000, &links));
}

#[test]
fn readers_that_go_away() {
    let folder = Folder::new();
    wide(&folder);
    for arguments in [&["report", "links.sev"][..], &["report", "links.sev", "--json"], &["unpack", "links.sev"]] {
        let mut run = folder.call(arguments).stdout(Stdio::piped()).stderr(Stdio::piped()).spawn().unwrap();
        run.stdout.take().unwrap().read_exact(&mut [0; 10]).unwrap();
        let mut said = String::new();
        run.stderr.take().unwrap().read_to_string(&mut said).unwrap();
        assert_eq!((run.wait().unwrap().code(), said.as_str()), (Some(141), ""), "{arguments:?}");
    }
}

#[test]
fn writes_that_fail() {
    let (folder, disk) = (Folder::new(), Disk::new());
    wide(&folder);
    fs::write(folder.path("lines"), "0 1\n").unwrap();
    for arguments in [&["report", "links.sev"][..], &["report", "links.sev", "--sole"], &["unpack", "links.sev"], &["pack", "lines"], &["--help"], &["--version"]] {
        let full = fs::OpenOptions::new().write(true).open("/dev/full").unwrap();
        Ran::of(folder.call(arguments).stdout(full).output().unwrap()).says(3, &["standard output could not be written", "No space left"]);
    }
    let whole = folder.run(&["report", "links.sev"]);
    let short = folder.on_disk(&disk, "links.sev", &[("WELMOCANT_WRITE_CUT", "7")], &["report", "links.sev"]);
    assert!(short == whole);
    let full = folder.on_disk(&disk, "links.sev", &[("WELMOCANT_FULL", "1000")], &["report", "links.sev"]);
    assert_eq!((full.status, full.out.len()), (Some(3), 1000));
    assert!(full.err.contains("No space left"), "{}", full.err);
}

/// A file that cannot be written to its end stays what it was.
#[test]
fn files_whole_or_not_at_all() {
    let folder = Folder::new();
    wide(&folder);
    folder.put("lines", b"old");
    folder.put("more", &vec![b'#'; 3000]);
    let limited = |arguments: &str| {
        let script = format!("ulimit -f 1; exec \"$0\" {arguments}");
        Ran::of(Command::new("sh").args(["-c", &script, env!("CARGO_BIN_EXE_welmocant")]).current_dir(&folder.0).output().unwrap())
    };
    limited("unpack links.sev -o lines").says(3, &["lines could not be written to the end"]);
    assert_eq!(fs::read(folder.path("lines")).unwrap(), b"old");
    // A refused list and a wrong line leave it, too.
    folder.put("bad", &[4, 0, 1, 2, 2]);
    folder.run(&["unpack", "bad", "-o", "lines"]).says(1, &["refused 5"]);
    folder.run(&["pack", "bad", "-o", "lines"]).says(1, &["line 1"]);
    assert_eq!(fs::read(folder.path("lines")).unwrap(), b"old");
    fs::set_permissions(folder.path("lines"), fs::Permissions::from_mode(0o640)).unwrap();
    std::os::unix::fs::symlink("lines", folder.path("link")).unwrap();
    folder.run(&["unpack", "links.sev", "-o", "link"]).done();
    assert!(fs::symlink_metadata(folder.path("link")).unwrap().file_type().is_symlink());
    let lines = fs::metadata(folder.path("lines")).unwrap();
    assert!(lines.len() > 10_000 && lines.permissions().mode() & 0o777 == 0o640);
    for (name, word) in [(".", "is a folder"), ("/dev/null", "no file that could be replaced"), ("nowhere/x", "no file can be made"), ("", "no name")] {
        folder.run(&["unpack", "links.sev", "-o", name]).says(3, &[word]);
        folder.run(&["pack", "lines", "-o", name]).says(3, &[word]);
    }
    assert_eq!(folder.names(), ["bad", "lines", "link", "links.sev", "more"]);
}

fn signal(run: &Child, name: &str) {
    assert!(Command::new("kill").args([name, &run.id().to_string()]).status().unwrap().success());
}

/// Waits until the new file is there beside the one that is to be written.
fn unfinished(folder: &Folder) {
    let begun = Instant::now();
    while !folder.names().iter().any(|name| name.starts_with(".welmocant-")) {
        assert!(begun.elapsed() < Duration::from_secs(30), "no file was begun");
        std::thread::sleep(Duration::from_millis(5));
    }
}

/// Ctrl-C, a hangup and a request to end leave no file behind, and the old one as it was.
#[test]
fn signals() {
    let folder = Folder::new();
    folder.put("list", b"old");
    folder.put("links.sev", &SQUARE);
    for (name, number) in [("-INT", 2), ("-TERM", 15), ("-HUP", 1)] {
        let mut pack = folder.call(&["pack", "-o", "list"]).stdin(Stdio::piped()).spawn().unwrap();
        pack.stdin.as_mut().unwrap().write_all(b"0 1\n").unwrap();
        unfinished(&folder);
        signal(&pack, name);
        assert_eq!(pack.wait().unwrap().signal(), Some(number));
        assert_eq!((folder.names(), fs::read(folder.path("list")).unwrap()), (vec!["links.sev".to_string(), "list".into()], b"old".to_vec()));
    }
    // A disk that never answers, while the picture's file is there.
    let disk = Disk::new();
    for arguments in [&["report", "links.sev", "--picture", "a.svg"][..], &["unpack", "links.sev", "-o", "list"]] {
        if arguments[0] == "report" && Command::new("dot").arg("-V").output().is_err() {
            continue;
        }
        let mut run = folder.call_on(&disk, "links.sev", &[("WELMOCANT_WAIT", "1")], arguments).stdout(Stdio::piped()).spawn().unwrap();
        unfinished(&folder);
        signal(&run, "-INT");
        assert_eq!(run.wait().unwrap().signal(), Some(2));
        assert_eq!((folder.names(), fs::read(folder.path("list")).unwrap()), (vec!["links.sev".to_string(), "list".into()], b"old".to_vec()));
    }
    // Where the signal was ignored before, it still is.
    let script = "trap '' INT; exec \"$0\" pack -o list";
    let mut deaf = Command::new("sh").args(["-c", script, env!("CARGO_BIN_EXE_welmocant")]).current_dir(&folder.0).stdin(Stdio::piped()).spawn().unwrap();
    unfinished(&folder);
    signal(&deaf, "-INT");
    deaf.stdin.take().unwrap().write_all(b"0 1\n").unwrap();
    assert_eq!((deaf.wait().unwrap().code(), fs::read(folder.path("list")).unwrap()), (Some(0), vec![2, 0, 1]));
    assert_eq!(folder.names(), ["links.sev", "list"]);
}

/// How far it is stands on a terminal, and nowhere else.
#[test]
fn progress() {
    let folder = Folder::new();
    folder.put("links.sev", &SQUARE);
    folder.run(&["report", "links.sev"]).done();
    let call = format!("'{}' report links.sev >report", env!("CARGO_BIN_EXE_welmocant"));
    match Command::new("script").args(["-qec", &call, "/dev/null"]).current_dir(&folder.0).stdin(Stdio::null()).output() {
        Ok(on_terminal) => {
            let shown = String::from_utf8(on_terminal.stdout).unwrap();
            assert!(shown.contains("pass 1") && shown.contains("fragments placed"), "{shown}");
            assert_eq!(fs::read_to_string(folder.path("report")).unwrap(), SQUARE_LINES);
        }
        Err(_) => println!("no `script` here: progress on a terminal is not tested"),
    }
}
