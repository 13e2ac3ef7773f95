//! The proved library measured beside plain Rust of the same rules; docs/SPEED.md says what and how. It fails where the two differ.

mod clock;
#[path = "../../tests/common/mod.rs"]
mod common;
mod lists;
mod rows;
mod sides;

use clock::Clock;
use rows::{List, Row, What};
use sides::Run;
use std::process::exit;

const USE: &str = "speed [--quick] [--runs N] [--divide D] [--only ours|plain] [WORD..]";

/// How often a row is run.
const RUNS: usize = 5;

/// After so many milliseconds a row is not run once more.
const LONG: f64 = 10_000.0;

struct Options {
    runs: usize,
    ours: bool,
    plain: bool,
    rows: Vec<Row>,
}

fn options() -> Option<Options> {
    let (mut quick, mut runs, mut by, mut words) = (false, None, 1, Vec::new());
    let (mut ours, mut plain) = (true, true);
    let mut given = std::env::args().skip(1);
    while let Some(word) = given.next() {
        match word.as_str() {
            "--quick" => quick = true,
            "--runs" => runs = Some(given.next()?.parse().ok()?),
            "--divide" => by = given.next()?.parse().ok()?,
            "--only" => match given.next()?.as_str() {
                "ours" => plain = false,
                "plain" => ours = false,
                _ => return None,
            },
            _ if word.starts_with('-') => return None,
            _ => words.push(word.replace(',', "")),
        }
    }
    if !(1..=1024).contains(&by) {
        return None;
    }
    let mut rows: Vec<Row> = rows::table(quick, by).into_iter().filter(|row| words.iter().all(|w| row.words().contains(w))).collect();
    if let Some(row) = Row::named(&words) {
        rows = vec![row];
    }
    let runs = runs.unwrap_or(if quick { 1 } else { RUNS });
    (!rows.is_empty() && runs > 0 && (ours || plain)).then_some(Options { runs, ours, plain, rows })
}

/// 1000000 as 1,000,000.
fn grouped(x: usize) -> String {
    if x < 1000 {
        x.to_string()
    } else {
        format!("{},{:03}", grouped(x / 1000), x % 1000)
    }
}

/// The runs of one side: the best time, how much longer the worst took, the words.
struct Side(Vec<Run>);

impl Side {
    fn best(&self) -> Option<f64> {
        self.0.iter().map(|run| run.time).reduce(f64::min)
    }

    fn spread(&self) -> Option<f64> {
        let worst = self.0.iter().map(|run| run.time).reduce(f64::max)?;
        (self.0.len() > 1).then_some((worst / self.best()? - 1.0) * 100.0)
    }
}

fn shown(x: Option<f64>, digits: usize, unit: &str) -> String {
    x.map_or("-".to_string(), |x| format!("{x:.digits$}{unit}"))
}

fn head() {
    println!("| what | list | n | links | k | blocks | passes | runs | ours (ms) | plain (ms) | ratio | spread, ours | spread, plain | words, ours | words, plain |");
    println!("|---|---|--:|--:|--:|---|--:|--:|--:|--:|--:|--:|--:|--:|--:|");
}

fn print(row: &Row, ours: &Side, plain: &Side) {
    let runs = ours.0.len().max(plain.0.len());
    let some = ours.0.first().or(plain.0.first()).unwrap();
    let words = |side: &Side| side.0.first().map_or("-".to_string(), |run| grouped(run.words));
    // What takes no time that the clock can tell has no ratio.
    let ratio = ours.best().zip(plain.best()).filter(|&(_, b)| b >= 0.05).map(|(a, b)| a / b);
    let cells = [
        row.what.to_string(),
        row.list.to_string(),
        grouped(row.n as usize),
        grouped(row.links),
        row.k.to_string(),
        row.blocks.to_string(),
        grouped(some.passes),
        runs.to_string(),
        shown(ours.best(), 1, ""),
        shown(plain.best(), 1, ""),
        shown(ratio, 2, ""),
        shown(ours.spread(), 0, "%"),
        shown(plain.spread().filter(|_| ratio.is_some()), 0, "%"),
        words(ours),
        words(plain),
    ];
    println!("| {} |", cells.join(" | "));
}

/// The forest that is read or adopted: the one that plain Rust builds; in a rising one each fragment hangs under the next.
fn parents(row: &Row, blocks: &[Vec<u8>]) -> Vec<u32> {
    match (row.what, row.list) {
        (What::Build | What::Report | What::Take | What::Write, _) => Vec::new(),
        (What::Adopt, List::Rising) => (1..row.n).chain([row.n - 1]).collect(),
        _ => sides::build_plain(row, blocks).answer[..row.n as usize].to_vec(),
    }
}

/// Both sides in turn, so that what else the machine does falls on both.
fn measure(row: &Row, options: &Options) {
    let links = lists::links(row);
    let blocks = lists::blocks(row, &links);
    let parents = parents(row, &blocks);
    let words: Vec<u32> = links.iter().flat_map(|&(a, b)| [a, b]).collect();
    let (mut ours, mut plain) = (Side(Vec::new()), Side(Vec::new()));
    let start = Clock::start();
    for run in 0..options.runs {
        if run > 0 && start.passed() > LONG {
            break;
        }
        if options.ours {
            ours.0.push(match row.what {
                What::Build => sides::build(row, &blocks),
                What::Read => sides::read(row, &parents, &blocks),
                What::Report => sides::report(row, &blocks),
                What::Take => sides::take(row, &blocks),
                What::Adopt => sides::adopt(row, &parents),
                What::Write => sides::write(row, &words),
            });
        }
        if options.plain {
            plain.0.push(match row.what {
                What::Build => sides::build_plain(row, &blocks),
                What::Read => sides::read_plain(row, &parents, &blocks),
                What::Report => sides::report_plain(row, &blocks),
                What::Take => sides::take_plain(row, &blocks),
                What::Adopt => sides::adopt_plain(&parents),
                What::Write => sides::write_plain(row, &words),
            });
        }
        if let (Some(a), Some(b)) = (ours.0.last(), plain.0.last()) {
            if a.passes != b.passes || a.answer != b.answer {
                eprintln!("the two differ: {}", row.words().join(" "));
                exit(1);
            }
        }
    }
    print(row, &ours, &plain);
}

fn main() {
    let Some(options) = options() else {
        eprintln!("{USE}");
        exit(2);
    };
    head();
    for row in &options.rows {
        measure(row, &options);
    }
}
