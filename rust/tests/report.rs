//! The program `report` on sound and damaged files, each refusal at the first, a middle and the last link, with the file's parts cut at every
//! byte of a link, against the rules in plain Rust.

mod common;

use common::{list, Dice};
use std::path::{Path, PathBuf};
use std::process::Command;
use welmocant::plain::{self, Building, Link};
use welmocant::{block, put_number};

/// What the program prints, and what it says on standard error, where `put` has put what it finds and `told` is said to a disk.
fn ran(name: &str, told: &[(&str, &str)], put: impl Fn(&Path)) -> (String, String) {
    let program = Path::new(env!("CARGO_MANIFEST_DIR")).join("../crates/report/out/report");
    let folder: PathBuf = std::env::temp_dir().join(format!("welmocant-{}-{name}", std::process::id()));
    std::fs::create_dir_all(&folder).unwrap();
    let folder = folder.canonicalize().unwrap();
    put(&folder.join("links.sev"));
    let mut command = Command::new(program.canonicalize().expect("rt run in crates/report writes out/report"));
    command.current_dir(&folder).env("WELMOCANT_FILE", folder.join("links.sev")).envs(told.iter().copied());
    let out = command.output().unwrap();
    std::fs::remove_dir_all(&folder).unwrap();
    (String::from_utf8(out.stdout).unwrap(), String::from_utf8(out.stderr).unwrap())
}

/// What the program prints for a file; `None`: no file.
fn printed(name: &str, file: Option<&[u8]>) -> String {
    let (text, error) = ran(name, &[], |path| {
        if let Some(bytes) = file {
            std::fs::write(path, bytes).unwrap();
        }
    });
    assert_eq!(error, "", "{name}");
    text
}

/// The list of a file, or the refusal and its byte.
fn parsed(bytes: &[u8]) -> Result<(u32, Vec<Link>), (u32, usize)> {
    let (n, head) = plain::number(bytes, 0).map_err(|r| (r, 0))?;
    if n == 0 || n > 32_768 {
        return Err((1, 0));
    }
    if n > 512 {
        return Err((3, 0));
    }
    let mut links = Vec::new();
    plain::decode(n, 0, &bytes[head..], &mut links).map_err(|r| (r.number, head + r.place as usize))?;
    Ok((n, links))
}

fn expected(bytes: &[u8]) -> String {
    let (n, links) = match parsed(bytes) {
        Ok(list) => list,
        Err((number, place)) => return format!("refused {number} at {place}\n"),
    };
    let mut building = Building::new(n as usize, 4);
    loop {
        building.take(&links);
        if building.close() {
            break;
        }
    }
    let read = plain::read(&building.parent, &links).unwrap();
    let mut text = format!("fragments {n} links {} passes {}\n", links.len(), building.passes);
    for v in 0..n {
        let cut = if read.cut(v) { "yes" } else { "no" };
        text += &format!("{v} parent {} piece {} cut {cut}\n", read.parent[v as usize], read.piece[v as usize]);
    }
    for a in 0..n {
        for b in a + 1..n {
            if read.sole(a, b) {
                text += &format!("sole {a} {b}\n");
            }
        }
    }
    text
}

fn file(n: u32, links: &[Link]) -> Vec<u8> {
    let mut bytes = Vec::new();
    put_number(&mut bytes, n);
    bytes.extend(block(links));
    bytes
}

fn agrees(name: &str, bytes: &[u8]) {
    assert_eq!(printed(name, Some(bytes)), expected(bytes), "{name}");
}

#[test]
fn sound_files() {
    assert_eq!(printed("none", None), "no file\n");
    let six = "fragments 4 links 4 passes 1\n0 parent 0 piece 0 cut yes\n1 parent 0 piece 0 cut no\n2 parent 1 piece 0 cut no\n3 parent 0 piece 0 cut no\nsole 0 3\n";
    assert_eq!(printed("six", Some(&[4, 0, 1, 0, 2, 0, 3, 1, 2])), six);
    assert_eq!(printed("five", Some(&[4, 0, 1, 2, 2, 0, 3])), "refused 5 at 3\n");
    let mut dice = Dice::new(11);
    for round in 0..60 {
        let n = [1, 2, 5, 40, 130, 512][round % 6];
        agrees(&format!("sound{round}"), &file(n, &list(&mut dice, n, (round / 6 % 4) as u32)));
    }
    for n in [0, 513, 32_768, 32_769] {
        agrees(&format!("n{n}"), &file(n, &[]));
    }
    agrees("empty", &[]);
    agrees("long header", &[0x80, 0x00]);
}

#[test]
fn damaged_files() {
    // Links of two, three and four bytes: in front of some 9,000 bytes, so that the ends of two parts fall on every byte of a link.
    let mut dice = Dice::new(12);
    let mut cases = 0;
    for shift in 0..8 {
        let mut links: Vec<Link> = (0..shift).map(|i| (i % 100, i % 100 + 1 + 150 * (i % 2))).collect();
        links.extend((0..2_400).map(|_| (dice.below(150), 150 + dice.below(150))));
        let sound = file(300, &links);
        agrees(&format!("cut{shift}"), &sound);
        let begin = |i: usize| file(300, &links[..i]).len();
        for (where_, i) in [("first", 0), ("middle", 1_300), ("last", links.len() - 1)] {
            for (kind, bad) in [("4", vec![0, 0xAC, 0x02]), ("5", vec![7, 7]), ("7", vec![1, 0x80, 0x00]), ("77", vec![0x80, 0x80, 0x80, 1, 2])] {
                let mut bytes = sound[..begin(i)].to_vec();
                bytes.extend(bad);
                bytes.extend(&sound[begin(i + 1)..]);
                agrees(&format!("{kind}{where_}{shift}"), &bytes);
                cases += 1;
            }
            for less in 1..=3 {
                agrees(&format!("8{where_}{shift}{less}"), &sound[..begin(i + 1) - less]);
                cases += 1;
            }
        }
    }
    println!("damaged files {cases}");
}

/// A disk that fails, in a file of more than one part: nothing is printed, and standard error says why. A ring of four fragments has no sole link;
/// without its last link it would have three.
#[test]
fn failing_disks() {
    let shim = Path::new(env!("CARGO_MANIFEST_DIR")).join("welmocant/tests/common/shim.c");
    let library = std::env::temp_dir().join(format!("welmocant-{}-disk.so", std::process::id()));
    let cc = std::env::var("CC").unwrap_or("cc".into());
    assert!(Command::new(cc).args(["-shared", "-fPIC", "-O2", "-o"]).arg(&library).arg(&shim).status().unwrap().success());
    let library = library.to_str().unwrap();
    let mut links: Vec<Link> = (0..1_500).flat_map(|_| [(0, 1), (1, 2), (2, 3)]).collect();
    links.push((3, 0));
    let ring = file(4, &links);
    let whole = expected(&ring);
    assert!(ring.len() > 8_192 && !whole.contains("sole"));
    let on = |name: &str, told: &[(&str, &str)]| {
        let told: Vec<(&str, &str)> = told.iter().copied().chain([("LD_PRELOAD", library)]).collect();
        ran(name, &told, |path| std::fs::write(path, &ring).unwrap())
    };
    assert_eq!(on("right", &[]), (whole.clone(), String::new()));
    for at in ["0", "1", "4096", "8192", "9000"] {
        let (text, error) = on(&format!("fails{at}"), &[("WELMOCANT_FAIL", at)]);
        assert_eq!((text.as_str(), error.as_str()), ("", "report: links.sev: Input/output error\n"));
    }
    for most in ["1", "2", "3", "7"] {
        assert_eq!(on(&format!("most{most}"), &[("WELMOCANT_CUT", most)]), (whole.clone(), String::new()));
    }
    assert_eq!(on("short", &[("WELMOCANT_WRITE_CUT", "5")]), (whole.clone(), String::new()));
    let (text, error) = on("full", &[("WELMOCANT_FULL", "0")]);
    assert_eq!((text.as_str(), error.as_str()), ("", "report: standard output: No space left on device\n"));
    let (text, error) = ran("folder", &[], |path| std::fs::create_dir(path).unwrap());
    assert_eq!((text.as_str(), error.as_str()), ("", "report: links.sev: Is a directory\n"));
    std::fs::remove_file(library).unwrap();
}
