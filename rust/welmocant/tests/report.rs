//! Reports on sound lists: the lines, their forms and the picture, against the rules in plain Rust and a search by removal.

mod common;

use common::lists::{list, Dice};
use common::{by_removal, executable, expected, file, found, passes_of, Folder, Ran, SQUARE, SQUARE_LINES};
use serde_json::Value;
use std::process::Command;
use welmocant::plain::Link;

#[test]
fn the_square() {
    let folder = Folder::new();
    folder.put("links.sev", &SQUARE);
    assert_eq!(folder.run(&["report", "links.sev"]).done(), SQUARE_LINES);
    // With room 1 it takes a pass more, and the rest is the same.
    assert_eq!(folder.run(&["report", "--room", "1", "links.sev"]).done(), SQUARE_LINES.replace("passes 1", "passes 2"));
    assert_eq!(folder.run(&["report", "links.sev", "--sole"]).done(), "sole 0 3\n");
    assert_eq!(folder.run(&["report", "links.sev", "--cut"]).done(), "0 parent 0 piece 0 cut yes\n");
    assert_eq!(folder.run(&["report", "--cut", "--sole", "links.sev"]).done(), "0 parent 0 piece 0 cut yes\nsole 0 3\n");
    assert_eq!(folder.run(&["report", "--cut", "--sole", "--json", "links.sev"]).done(), "{\"fragment\":0,\"parent\":0,\"piece\":0,\"cut\":true}\n{\"sole\":[0,3]}\n");
    assert_eq!(folder.names(), ["links.sev"]);
}

/// Lists made at random, with several rooms: every line by the rules in plain Rust; pieces, cut fragments and sole links by removal.
#[test]
fn lists_at_random() {
    let folder = Folder::new();
    let mut dice = Dice::new(21);
    let (mut soles, mut cuts, mut passes) = (0, 0, 0);
    for round in 0..120 {
        let n = [1, 2, 3, 7, 20, 45, 130][round % 7];
        let links = list(&mut dice, n, round as u32 / 7 % 4);
        folder.put("links.sev", &file(n, &links));
        for k in [1, 4, 64] {
            let ran = folder.run(&["report", "links.sev", "--room", &k.to_string()]);
            assert_eq!(ran.done(), expected(n, k, &links), "round {round} k {k}");
            passes += passes_of(ran.text());
            if k == 4 && n < 100 {
                let truth = by_removal(n, &links);
                assert_eq!(found(ran.text()), truth, "round {round}");
                soles += truth.2.len();
                cuts += truth.1.iter().filter(|&&cut| cut).count();
            }
        }
    }
    println!("lists at random: {soles} sole links, {cuts} cut fragments by removal, {passes} passes in 360 reports");
    assert!(soles > 100 && cuts > 100 && passes > 400);
}

/// The filters keep lines of the report as they are, and each object has what its line has.
#[test]
fn filters_and_objects() {
    let folder = Folder::new();
    let mut dice = Dice::new(22);
    for round in 0..12 {
        let links = list(&mut dice, 60, round % 4);
        folder.put("links.sev", &file(60, &links));
        let whole = folder.run(&["report", "links.sev"]).done().to_string();
        let kept = |keep: &dyn Fn(&str) -> bool| whole.lines().filter(|line| keep(line)).map(|line| format!("{line}\n")).collect::<String>();
        let is_sole = |line: &str| line.starts_with("sole ");
        let is_cut = |line: &str| line.ends_with(" cut yes");
        for (options, lines) in [(&[][..], kept(&|_| true)), (&["--sole"], kept(&is_sole)), (&["--cut"], kept(&is_cut)), (&["--sole", "--cut"], kept(&|line| is_sole(line) || is_cut(line)))] {
            let asked = [&["report", "links.sev"], options].concat();
            assert_eq!(folder.run(&asked).done(), lines);
            let objects = folder.run(&[&asked[..], &["--json"]].concat());
            assert_eq!(objects.done().lines().map(line_of).collect::<String>(), lines);
        }
    }
}

/// The line that an object tells.
fn line_of(object: &str) -> String {
    let object: Value = serde_json::from_str(object).unwrap();
    let keys: Vec<&str> = object.as_object().unwrap().keys().map(|key| key.as_str()).collect();
    let number = |name: &str| object[name].as_u64().unwrap();
    match keys[..] {
        ["fragments", "links", "passes"] => format!("fragments {} links {} passes {}\n", number("fragments"), number("links"), number("passes")),
        ["fragment", "parent", "piece", "cut"] => {
            let cut = if object["cut"].as_bool().unwrap() { "yes" } else { "no" };
            format!("{} parent {} piece {} cut {cut}\n", number("fragment"), number("parent"), number("piece"))
        }
        ["sole"] => format!("sole {} {}\n", object["sole"][0], object["sole"][1]),
        _ => panic!("{object}"),
    }
}

/// A million links over 2,000 fragments, in several blocks; and the most fragments with few links.
#[test]
fn long_and_wide_lists() {
    let folder = Folder::new();
    let mut dice = Dice::new(23);
    for (n, count, k) in [(2_000, 1_000_000, 16), (32_768, 40_000, 4)] {
        // A few fragments hang by one link each.
        let mut links: Vec<Link> = (0..count).map(|_| (dice.below(n - 50), dice.below(n - 50))).filter(|(a, b)| a != b).collect();
        links.extend((n - 50..n).map(|v| (v, dice.below(n - 50))));
        dice.shuffle(&mut links);
        let bytes = file(n, &links);
        assert!(n > 2_000 || bytes.len() > 3 << 20);
        folder.put("links.sev", &bytes);
        let ran = folder.run(&["report", "links.sev", "--room", &k.to_string()]);
        assert!(ran.done() == expected(n, k, &links), "n {n}");
        assert!(found(ran.text()).2.len() >= 50);
    }
}

fn graphviz() -> bool {
    let there = Command::new("dot").arg("-V").output().is_ok();
    if !there {
        println!("no Graphviz here: what it draws is not tested");
    }
    there
}

/// Every fragment of the pieces with sole links is drawn, and no other; sole links are red; the report is printed too.
#[test]
fn pictures() {
    if !graphviz() {
        return;
    }
    let folder = Folder::new();
    // Two pieces with sole links (0 to 4 and 8, 9), one without (5 to 7).
    let links = [(0, 1), (1, 2), (2, 0), (2, 3), (3, 4), (5, 6), (6, 7), (7, 5), (8, 9)];
    folder.put("links.sev", &file(10, &links));
    folder.put("old.svg", b"old");
    let plain = folder.run(&["report", "links.sev"]);
    assert_eq!(folder.run(&["report", "links.sev", "--picture", "old.svg"]).done(), plain.done());
    let svg = std::fs::read_to_string(folder.path("old.svg")).unwrap();
    for v in 0..10 {
        assert_eq!(svg.contains(&format!("<title>{v}</title>")), !(5..8).contains(&v), "{v}");
    }
    assert_eq!((svg.matches("stroke=\"red\"").count(), svg.matches("fill=\"orange\"").count()), (3, 2));
    folder.put("links.sev", &file(3, &[(0, 1), (1, 2), (2, 0)]));
    folder.run(&["report", "links.sev", "--picture", "none.svg"]).done();
    assert!(std::fs::read_to_string(folder.path("none.svg")).unwrap().contains("No sole links"));
    assert_eq!(folder.names(), ["links.sev", "none.svg", "old.svg"]);
}

/// A picture of more than 2,000 fragments is refused with a sentence, of 2,000 it is drawn; the report is printed in both cases.
#[test]
fn largest_picture() {
    if !graphviz() {
        return;
    }
    let folder = Folder::new();
    for (n, status) in [(2_000, 0), (2_001, 5)] {
        let links: Vec<Link> = (1..n).map(|v| (v / 3, v)).collect();
        folder.put("links.sev", &file(n, &links));
        let ran = folder.run(&["report", "links.sev", "--picture", "trees.svg"]);
        assert_eq!((ran.status, ran.err.is_empty()), (Some(status), status == 0), "{}", ran.err);
        assert_eq!(ran.text(), expected(n, 4, &links));
        assert_eq!(folder.path("trees.svg").exists(), status == 0);
        assert!(status == 0 || ran.err.contains("2001 fragments"), "{}", ran.err);
        let _ = std::fs::remove_file(folder.path("trees.svg"));
        assert_eq!(folder.names(), ["links.sev"]);
    }
}

/// Without Graphviz, or with one that fails: a sentence with the package, a status of its own, and no file.
#[test]
fn no_graphviz() {
    let folder = Folder::new();
    folder.put("links.sev", &SQUARE);
    let with_path = |path: &str| Ran::of(folder.call(&["report", "links.sev", "--picture", "a.svg"]).env("PATH", path).output().unwrap());
    with_path("").says(5, &["Graphviz", "graphviz"]);
    let tools = folder.path("tools");
    std::fs::create_dir(&tools).unwrap();
    for (text, words) in [("exit 7", "it said nothing"), ("[ \"$1\" = -V ] || { echo no font >&2; exit 1; }", "no font"), ("[ \"$1\" = -V ] || echo '<svg'", "Graphviz failed"), ("[ \"$1\" = -V ] || kill -9 $$", "Graphviz failed")] {
        executable(&tools.join("dot"), text);
        let ran = with_path(tools.to_str().unwrap());
        assert_eq!(ran.status, Some(5), "{text}");
        assert!(ran.err.contains(words) && ran.err.lines().count() == 1, "{text}: {}", ran.err);
        assert_eq!(folder.names(), ["links.sev", "tools"]);
    }
}
