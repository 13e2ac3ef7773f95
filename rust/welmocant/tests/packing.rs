//! Lists made from lines and lines from lists: inverse of one another, and what is wrong is said with its line.

mod common;

use common::lists::{list, Dice};
use common::{file, Folder, Ran, SQUARE};
use std::fs;
use std::io::Write;
use std::process::Stdio;
use welmocant::plain::Link;

/// `pack` with these lines on standard input.
fn packed(folder: &Folder, lines: &[u8], options: &[&str]) -> Ran {
    fed(folder, lines, &[&["pack"], options].concat())
}

fn fed(folder: &Folder, lines: &[u8], arguments: &[&str]) -> Ran {
    let mut run = folder.call(arguments).stdin(Stdio::piped()).stdout(Stdio::piped()).stderr(Stdio::piped()).spawn().unwrap();
    // A run that is refused may not read to the end.
    let _ = run.stdin.take().unwrap().write_all(lines);
    Ran::of(run.wait_with_output().unwrap())
}

fn bytes(ran: Ran) -> Vec<u8> {
    assert_eq!((ran.status, ran.err.as_str()), (Some(0), ""));
    ran.out
}

#[test]
fn lines_and_lists() {
    let folder = Folder::new();
    folder.put("links.sev", &SQUARE);
    let lines = "# fragments 4\n0 1\n0 2\n0 3\n1 2\n";
    assert_eq!(folder.run(&["unpack", "links.sev"]).done(), lines);
    assert_eq!(bytes(packed(&folder, lines.as_bytes(), &[])), SQUARE);
    assert_eq!(bytes(packed(&folder, lines.as_bytes(), &["-"])), SQUARE);
    assert_eq!(fed(&folder, &SQUARE, &["unpack", "-"]).done(), lines);
    fed(&folder, &SQUARE[..8], &["unpack", "-"]).says(1, &["standard input: refused 8 at byte 7: "]);
    folder.put("lines", lines.as_bytes());
    assert_eq!(bytes(folder.run(&["pack", "lines"])), SQUARE);
    folder.run(&["pack", "lines", "-o", "again.sev"]).done();
    assert_eq!(fs::read(folder.path("again.sev")).unwrap(), SQUARE);
    folder.run(&["unpack", "again.sev", "--output", "lines again"]).done();
    assert_eq!(fs::read_to_string(folder.path("lines again")).unwrap(), lines);
    assert_eq!(folder.names(), ["again.sev", "lines", "lines again", "links.sev"]);
}

/// Where n comes from, and which lines are skipped.
#[test]
fn forms_of_lines() {
    let folder = Folder::new();
    for (lines, options, list) in [
        ("0 1\n", &[][..], vec![2, 0, 1]),
        ("0 1", &[], vec![2, 0, 1]),
        ("0 1\r\n\r\n2 0\r\n", &[], vec![3, 0, 1, 2, 0]),
        (" \t0\t \t1 \t\n\n   \n#\n# 7 7\n  #x y z\n000 02\n", &[], vec![3, 0, 1, 0, 2]),
        ("0 1\n", &["--fragments", "9"], vec![9, 0, 1]),
        ("# fragments 9\n0 1\n", &[], vec![9, 0, 1]),
        ("# fragments 9\n0 1\n", &["--fragments", "3"], vec![3, 0, 1]),
        ("# fragments\n0 1\n# fragments 1\n", &[], vec![2, 0, 1]),
        ("# fragments of logs\n0 1\n", &[], vec![2, 0, 1]),
        ("# fragments 7\n", &[], vec![7]),
        ("", &["--fragments", "32768"], vec![0x80, 0x80, 0x02]),
        ("32767 128\n", &[], vec![0x80, 0x80, 0x02, 0xFF, 0xFF, 0x01, 0x80, 0x01]),
    ] {
        assert_eq!(bytes(packed(&folder, lines.as_bytes(), options)), list, "{lines:?} {options:?}");
    }
}

#[test]
fn wrong_lines() {
    let folder = Folder::new();
    let long = format!("0 1\n{}\n", " ".repeat(5_000));
    let far = format!("{}3 3\n", "0 1\n".repeat(200_000));
    for (lines, options, words) in [
        ("0 1\n\n# x\n2 2\n", &[][..], &["line 4: refused 5: ", "to itself"][..]),
        ("0 1\n0 4\n", &["--fragments", "4"], &["line 2: refused 4: ", "does not have"]),
        ("# fragments 4\n1 0\n0 4\n", &[], &["line 3: refused 4: "]),
        ("0 32768\n", &[], &["line 1: refused 4: "]),
        ("0 4294967296\n", &[], &["line 1: refused 4: "]),
        ("# fragments 32769\n", &[], &["line 1: refused 1: "]),
        ("# fragments 0\n0 1\n", &[], &["line 1: refused 1: "]),
        ("0 1\n", &["--fragments", "0"], &["--fragments 0: refused 1: "]),
        ("0 1\n0\n", &[], &["line 2: ", "two fragment numbers"]),
        ("0 1 2\n", &[], &["line 1: ", "3 words"]),
        ("0 1 # two\n", &[], &["line 1: "]),
        ("0 +1\n", &[], &["line 1: ", "digits"]),
        ("0 -1\n", &[], &["line 1: "]),
        ("0,1\n", &[], &["line 1: "]),
        ("0 \u{661}\n", &[], &["line 1: "]),
        (&long, &[], &["line 2: ", "longer than"]),
        (&far, &[], &["line 200001: refused 5: "]),
        ("# nothing\n", &[], &["no links", "--fragments"]),
    ] {
        packed(&folder, lines.as_bytes(), options).says(1, &[&["standard input: "], words].concat()[usize::from(options == ["--fragments", "0"])..]);
    }
    packed(&folder, &[0xFF, 0xFE, b'\n'], &[]).says(1, &["line 1: "]);
    folder.put("lines", b"0 1\n1 1\n");
    folder.run(&["pack", "lines"]).says(1, &["welmocant: lines: line 2: refused 5: "]);
}

/// Of lists at random, links of two to six bytes: the lines are its links, and the list comes back byte by byte.
#[test]
fn inverse() {
    let folder = Folder::new();
    let mut dice = Dice::new(41);
    let mut links_in_all = 0;
    for round in 0..40 {
        let n = [1, 2, 100, 127, 128, 129, 2_000, 16_384, 16_385, 32_768][round % 10];
        let links: Vec<Link> = if n <= 129 { list(&mut dice, n, 0) } else { (0..3_000).map(|_| (dice.below(n), dice.below(n))).filter(|(a, b)| a != b).collect() };
        let there = file(n, &links);
        folder.put("links.sev", &there);
        let lines = folder.run(&["unpack", "links.sev"]);
        let told: String = links.iter().map(|(a, b)| format!("{a} {b}\n")).collect();
        assert_eq!(lines.done(), format!("# fragments {n}\n{told}"));
        assert_eq!(bytes(packed(&folder, &lines.out, &[])), there);
        links_in_all += links.len();
    }
    println!("inverse: {links_in_all} links in 40 lists");
}

/// More than one block each way, with the blocks' ends on every byte of a link.
#[test]
fn long_lists() {
    let folder = Folder::new();
    let mut dice = Dice::new(42);
    for shift in 0..6 {
        let mut links: Vec<Link> = (0..shift).map(|i| (i, if i % 2 == 0 { 200 } else { 20_000 })).collect();
        links.extend((0..250_000).map(|_| (16_384 + dice.below(16_384), dice.below(16_384))));
        let there = file(32_768, &links);
        assert!(there.len() > 1 << 20);
        folder.put("links.sev", &there);
        folder.run(&["unpack", "links.sev", "-o", "lines"]).done();
        folder.run(&["pack", "lines", "-o", "again.sev"]).done();
        assert!(fs::read(folder.path("again.sev")).unwrap() == there, "{shift}");
        assert_eq!(fs::read_to_string(folder.path("lines")).unwrap().lines().count(), links.len() + 1);
    }
}

/// As many links as a list can have, and one more.
#[test]
fn most_links() {
    let folder = Folder::new();
    let mut lines = "0 1\n".repeat(16_777_215).into_bytes();
    folder.put("lines", &lines);
    folder.run(&["pack", "lines", "-o", "list"]).done();
    assert_eq!(fs::metadata(folder.path("list")).unwrap().len(), 1 + 2 * 16_777_215);
    lines.extend(b"1 0\n");
    folder.put("lines", &lines);
    folder.run(&["pack", "lines", "-o", "list"]).says(1, &["line 16777216: refused 12: "]);
    assert_eq!(folder.names(), ["lines", "list"]);
}
