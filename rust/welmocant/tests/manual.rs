//! The help, the man page and the document say the same; what is not understood has a status of its own.

mod common;

use common::{Folder, SQUARE};
use std::collections::BTreeSet;
use std::path::Path;

fn beside(path: &str) -> String {
    std::fs::read_to_string(Path::new(env!("CARGO_MANIFEST_DIR")).join(path)).unwrap()
}

/// The words of a text that are options.
fn options<'a>(text: impl Iterator<Item = &'a str>) -> BTreeSet<String> {
    let words = text.flat_map(|line| line.split(|c: char| !(c.is_ascii_alphanumeric() || c == '-')));
    words.filter(|word| word.starts_with('-') && word.len() > 1).map(|word| word.to_string()).collect()
}

/// Of a help, what stands at the head of each option.
fn in_help(help: &str) -> BTreeSet<String> {
    options(help.lines().filter(|line| line.trim_start().starts_with('-')))
}

/// Of a section of the man page, what stands at the head of each paragraph.
fn in_manual(manual: &str, section: &str) -> BTreeSet<String> {
    let begins = manual.find(&format!(".SH \"{section}\"\n")).unwrap_or_else(|| panic!("no section {section}"));
    let text = &manual[begins + 4..];
    let text = &text[..text.find("\n.SH").unwrap_or(text.len())];
    let lines: Vec<&str> = text.lines().collect();
    options(lines.windows(2).filter(|pair| pair[0] == ".TP").map(|pair| pair[1]))
}

/// Every option of a help stands in its section of the man page, and the other way round; so do the statuses and the refusals that a list causes.
#[test]
fn help_and_manual() {
    let folder = Folder::new();
    let manual = beside("welmocant.1").replace("\\-", "-");
    let general = in_help(folder.run(&["--help"]).done());
    assert_eq!(general, in_manual(&manual, "GENERAL OPTIONS"));
    assert_eq!(general.len(), 4);
    let document = beside("../../docs/PROGRAM.md");
    for part in ["report", "pack", "unpack"] {
        let mut help = in_help(folder.run(&[part, "--help"]).done());
        assert!(help.remove("-h") && help.remove("--help"));
        assert_eq!(help, in_manual(&manual, &format!("WELMOCANT {}", part.to_uppercase())), "{part}");
        assert!(!help.is_empty() && help.iter().all(|option| document.contains(option.as_str())));
    }
    let help = folder.run(&["report", "--help"]).done().to_string();
    for status in ["0", "1", "2", "3", "4", "5", "141"] {
        assert!(help.contains(&format!("\n  {status} ")) && manual.contains(&format!("\n.B {status}\n")) && document.contains(&format!("\n| {status} |")), "{status}");
    }
    let version = folder.run(&["--version"]).done().to_string();
    assert!(version == "welmocant 0.1.0\n" && manual.contains("\"welmocant 0.1.0\""));
}

#[test]
fn not_understood() {
    let folder = Folder::new();
    folder.put("links.sev", &SQUARE);
    for arguments in [
        &[][..],
        &["repair"],
        &["report"],
        &["report", "links.sev", "another"],
        &["report", "links.sev", "--room"],
        &["report", "links.sev", "--room", "-1"],
        &["report", "links.sev", "--room", "four"],
        &["report", "links.sev", "--soles"],
        &["unpack"],
        &["pack", "--fragments", "x"],
    ] {
        let ran = folder.run(arguments);
        assert_eq!((ran.status, ran.text()), (Some(4), ""), "{arguments:?}");
        assert!(ran.err.contains("Usage:") || ran.err.contains("--help"), "{}", ran.err);
    }
    // The short help is an answer, not a mistake.
    for arguments in [&["-h"][..], &["report", "-h"], &["pack", "-h"], &["unpack", "-h"], &["-V"]] {
        assert!(!folder.run(arguments).done().is_empty());
    }
}
