//! The largest case: n = 32,768, tables of exactly the least length with guard words behind them.

mod common;

use common::{numbers, parent_links, parents, tell, Dice};
use welmocant::plain::{self, Building, Link};
use welmocant::{block, put_number, text_room, Ending, Forest, Heard, Next, Telling};

const GUARD: u32 = 0x5A5A_5A5A;

/// A start in tables of the least length that hold anything, guard words behind them.
fn guarded(n: u32, k: u32) -> Forest {
    let (mut frag, mut held) = Forest::room(n, k);
    for table in [&mut frag, &mut held] {
        table.fill(7);
        table.extend([GUARD; 4]);
    }
    Forest::start_in(n, k, frag, held).unwrap()
}

fn guards_stand(forest: &Forest, n: u32, k: u32) -> bool {
    let behind = forest.frag[16 * n as usize..].iter().chain(&forest.held[(k * n) as usize..]);
    behind.clone().count() == 8 && behind.clone().all(|&w| w == GUARD)
}

/// Builds and reads a list of so many entries, told in blocks of so many links.
fn largest(entries: usize, block: usize) {
    let (n, k) = (32_768u32, 64u32);
    let mut dice = Dice::new(9);
    let links: Vec<Link> = (0..entries).map(|_| (dice.below(n), dice.below(n))).filter(|(a, b)| a != b).collect();
    let mut forest = guarded(n, k);
    tell(&mut forest, &links, links.len());
    assert_eq!(forest.close(), Ok(Ending::Done));
    assert_eq!(forest.passes(), 1);
    forest.open_reading().unwrap();
    tell(&mut forest, &links, block);
    assert_eq!(forest.close(), Ok(Ending::Read));
    assert!(guards_stand(&forest, n, k));
}

/// Fills the held table as far as the rules allow, k·n - 1 links in one piece, in one block: beside the plain rules.
fn most_held(n: u32, k: u32) {
    let mut dice = Dice::new(10);
    let mut number: Vec<u32> = (0..n).collect();
    dice.shuffle(&mut number);
    // A ring in which each fragment is linked with the next k, one link left out: no part of it has more links than its room, in any order.
    let mut links: Vec<Link> = (0..n).flat_map(|v| (1..=k).map(move |d| (v, (v + d) % n))).map(|(a, b)| (number[a as usize], number[b as usize])).collect();
    dice.shuffle(&mut links);
    links.pop();
    let mut forest = guarded(n, k);
    forest.take(&block(&links)).unwrap();
    assert_eq!(forest.state[5], k * n - 1);
    assert_eq!(forest.close(), Ok(Ending::Done));
    assert_eq!(forest.passes(), 1);
    let mut beside = Building::new(n as usize, k as usize);
    beside.take(&links);
    assert!(beside.close());
    assert_eq!(beside.most_held, links.len());
    assert_eq!(forest.frag[..n as usize], beside.parent);
    assert!(forest.frag[n as usize..2 * n as usize].iter().zip(&beside.level).all(|(&word, &level)| word == level + 1));
    assert!(guards_stand(&forest, n, k));
}

/// Reads a forest of all fragments that is adopted: its parent links, and chords to fragments that stand up to so many levels higher. Its
/// numbers against a walk, and what is asked of a few fragments against the plain rules.
fn largest_forest(parents: &[u32], chords: usize, levels: u32) {
    let (n, k, mut dice) = (parents.len() as u32, 1, Dice::new(15));
    let mut links = parent_links(parents);
    for _ in 0..chords {
        let v = dice.below(n);
        let up = (0..dice.below(levels)).fold(v, |at, _| parents[at as usize]);
        if up != v {
            links.push((up, v));
        }
    }
    dice.shuffle(&mut links);
    let mut forest = Forest::adopt(k, parents).unwrap();
    forest.frag.extend([GUARD; 4]);
    forest.held.extend([GUARD; 4]);
    let read = plain::read(parents, &links).unwrap();
    for v in [0, n - 1] {
        assert_eq!(forest.piece(v), Ok(read.piece[v as usize]));
    }
    forest.open_reading().unwrap();
    tell(&mut forest, &links, links.len() / 2 + 1);
    assert_eq!(forest.close(), Ok(Ending::Read));
    assert!(forest.frag[4 * n as usize..7 * n as usize] == numbers(parents, 0..n));
    let (mut soles, mut cuts) = (0, 0);
    let root = (0..n).find(|&v| parents[v as usize] == v).unwrap();
    for v in std::iter::once(root).chain((0..40).map(|_| dice.below(n))) {
        assert_eq!(forest.piece(v), Ok(read.piece[v as usize]));
        assert_eq!(forest.cut(v), Ok(read.cut(v)));
        cuts += read.cut(v) as usize;
        for w in [parents[v as usize], (v + n / 2) % n] {
            if w != v {
                assert_eq!(forest.sole(v, w), Ok(read.sole(v, w)));
                soles += read.sole(v, w) as usize;
            }
        }
    }
    println!("largest forest: of 41 fragments {cuts} cut, {soles} sole links at them");
    assert!(guards_stand(&forest, n, k));
}

/// In a thread that has room for the walk, which calls itself once for each level.
fn with_room(work: impl FnOnce() + Send + 'static) {
    std::thread::Builder::new().stack_size(1 << 26).spawn(work).unwrap().join().unwrap();
}

/// Path, star and any tree, and a forest of many trees.
#[test]
fn largest_forests() {
    with_room(|| {
        let (n, mut dice) = (32_768u32, Dice::new(16));
        let mut number: Vec<u32> = (0..n).collect();
        dice.shuffle(&mut number);
        let (mut path, mut star) = (number.clone(), number.clone());
        for v in 0..n as usize {
            path[number[v] as usize] = number[v.saturating_sub(1)];
            star[number[v] as usize] = number[0];
        }
        largest_forest(&path, 1_000, 100);
        largest_forest(&star, 1_000, 2);
        for (kind, levels) in [(0, 100), (2, 10), (3, 20)] {
            let any = parents(&mut dice, n, kind);
            largest_forest(&any, 10_000, levels);
        }
    });
}

/// The report on a list of many pieces with few rings, told as a file, against that of the plain rules.
#[test]
fn largest_report() {
    let (n, k, mut dice) = (32_768u32, 4, Dice::new(17));
    let mut links = parent_links(&parents(&mut dice, n, 2));
    links.extend((0..2_000).map(|_| (dice.below(n), dice.below(n))).filter(|(a, b)| a != b));
    dice.shuffle(&mut links);
    let (mut file, mut text) = (Vec::new(), vec![0; text_room(n)]);
    put_number(&mut file, n);
    file.extend(block(&links));
    let mut telling = Telling::begin(n, k);
    let next = loop {
        let mut buffer = file.clone();
        assert_eq!(telling.tell(&mut buffer, &mut text, Heard::Bytes(file.len())), Next::More);
        match telling.tell(&mut buffer, &mut text, Heard::End) {
            Next::Again => {}
            next => break next,
        }
    };
    let mut beside = Building::new(n as usize, k as usize);
    beside.take(&links);
    while !beside.close() {
        beside.take(&links);
    }
    let mut expected = Vec::new();
    plain::read(&beside.parent, &links).unwrap().report(links.len(), beside.passes, &mut expected);
    assert_eq!(next, Next::Report(expected.len()));
    assert!(text[..expected.len()] == expected);
}

#[test]
fn largest_tables() {
    largest(4_000, 1_000);
}

#[test]
fn largest_tables_long_list() {
    largest(200_000, 50_000);
}

#[test]
fn most_held_links() {
    most_held(1_000, 8);
}

#[test]
fn most_held_links_of_all() {
    most_held(32_768, 64);
}
