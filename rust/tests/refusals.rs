//! Refusals: their numbers, places and order, and that a refused call changes no word.

mod common;

use common::{build, list, numbers, parent_links, parents, tell, Dice};
use welmocant::plain::decode;
use welmocant::{block, Ending, Forest, Refusal};

fn refused<T: std::fmt::Debug>(answer: Result<T, Refusal>, number: u32, place: u64) {
    assert_eq!(answer.unwrap_err(), Refusal { number, place });
}

#[test]
fn limits() {
    refused(Forest::start(0, 1), 1, 0);
    refused(Forest::start(32_769, 1), 1, 0);
    refused(Forest::start(1, 0), 2, 0);
    refused(Forest::start(1, 65), 2, 0);
    refused(Forest::start(0, 0), 1, 0);
    assert!(Forest::start(32_768, 64).is_ok());
    refused(Forest::start_in(4, 2, vec![0; 63], vec![0; 8]), 3, 0);
    refused(Forest::start_in(4, 2, vec![0; 64], vec![0; 7]), 3, 0);
    assert!(Forest::start_in(4, 2, vec![9; 64], vec![9; 8]).is_ok());
    refused(Forest::adopt(1, &[1, 0]), 10, 0);
    refused(Forest::adopt(1, &[2, 0]), 10, 0);
    refused(Forest::adopt(0, &[1, 0]), 2, 0);
    refused(Forest::adopt(1, &[]), 1, 0);
}

#[test]
fn blocks() {
    let mut forest = Forest::start(4, 1).unwrap();
    for (bytes, number, place) in [
        (vec![0, 4], 4, 0),
        (vec![9, 9], 4, 0),
        (vec![2, 2], 5, 0),
        (vec![0, 1, 2, 2], 5, 2),
        (vec![0, 1, 0x80, 0], 7, 2),
        (vec![0, 1, 0x80, 0x80, 0x80, 0], 7, 2),
        (vec![0, 1, 0x80, 0x80], 8, 2),
        (vec![0], 8, 0),
        (vec![0, 1, 1, 2, 0, 0x81, 0x00], 7, 4),
    ] {
        let before = forest.clone();
        refused(forest.take(&bytes), number, place);
        assert_eq!(forest, before);
        refused(decode(4, 0, &bytes, &mut Vec::new()), number, place);
    }
    assert_eq!(forest.take(&[]), Ok(()));
}

#[test]
fn stages() {
    let links = [(0, 1), (1, 2)];
    let mut forest = Forest::start(3, 1).unwrap();
    refused(forest.open_reading(), 6, 0);
    refused(forest.parent(0), 6, 0);
    refused(forest.cut(0), 6, 0);
    tell(&mut forest, &links, 2);
    assert_eq!(forest.close(), Ok(Ending::Done));
    refused(forest.take(&block(&links)), 6, 0);
    refused(forest.close(), 6, 0);
    refused(forest.sole(0, 1), 6, 0);
    refused(forest.parent(3), 4, 0);
    forest.open_reading().unwrap();
    refused(forest.open_reading(), 6, 0);
    tell(&mut forest, &links, 1);
    assert_eq!(forest.close(), Ok(Ending::Read));
    refused(forest.take(&[]), 6, 0);
    refused(forest.sole(0, 3), 4, 0);
    refused(forest.sole(1, 1), 5, 0);
    refused(forest.sole(3, 3), 4, 0);
    assert_eq!(forest.sole(0, 1), Ok(true));
    forest.open_reading().unwrap();
    assert_eq!(forest.entries(), 0);
}

#[test]
fn words_of_the_state() {
    // Which number a changed word of the state gives, in document 01's order: 1, 2, 3, 6, 11.
    let links = [(0, 1), (1, 2)];
    let mut forest = build(3, 2, &links, 2);
    forest.open_reading().unwrap();
    tell(&mut forest, &links, 2);
    for (words, number) in [
        (vec![(0, 0)], 1),
        (vec![(0, 32_769), (1, 0), (2, 9), (6, 2)], 1),
        (vec![(1, 0)], 2),
        (vec![(1, 65), (2, 9), (6, 2)], 2),
        (vec![(0, 4), (2, 9)], 3),
        (vec![(1, 3), (6, 2)], 3),
        (vec![(2, 4)], 6),
        (vec![(2, u32::MAX), (6, 2)], 6),
        (vec![(6, 2)], 11),
        (vec![(6, u32::MAX)], 11),
        (vec![(4, 16_777_216)], 11),
        (vec![(5, u32::MAX)], 11),
    ] {
        let mut changed = forest.clone();
        for (at, word) in words {
            changed.state[at] = word;
        }
        let before = changed.clone();
        refused(changed.take(&block(&links)), number, 0);
        refused(changed.close(), number, 0);
        refused(changed.parent(0), number, 0);
        refused(changed.level(0), number, 0);
        refused(changed.piece(0), number, 0);
        // Not allowed in Reading: 6 comes before 11.
        refused(changed.open_reading(), number.min(6), 0);
        refused(changed.cut(0), number.min(6), 0);
        refused(changed.sole(0, 1), number.min(6), 0);
        assert_eq!(changed, before);
    }
}

/// The test of the tables, 11, written anew: document 01's clauses one after another.
fn sound(f: &Forest) -> bool {
    let [n, k, stage, passes, entries, held, crossed] = f.state.map(|w| w as usize);
    let word = |j: usize, v: usize| f.frag[j * n + v] as usize;
    let (parent, level, note, mark) = (|v| word(0, v), |v| word(1, v), |v| word(2, v), |v| word(3, v));
    let placed = |v: usize| level(v) > 0;
    let building = stage == 0;
    let all_placed = (0..n).all(placed);
    if building == all_placed || !building && held != 0 || held > k * n || crossed > 1 {
        return false;
    }
    let stands = |v: usize| {
        !placed(v) && parent(v) == 0
            || placed(v) && (parent(v) == v && level(v) == 1 || parent(v) < n && placed(parent(v)) && level(v) == level(parent(v)) + 1)
    };
    if !(0..n).all(stands) {
        return false;
    }
    let links: Vec<(usize, usize)> = f.held[..held].iter().map(|&w| (w as usize / 32_768, w as usize % 32_768)).collect();
    if links.iter().any(|&(a, b)| a >= b || b >= n || placed(a) || placed(b)) {
        return false;
    }
    let distinct: std::collections::HashSet<_> = links.iter().collect();
    if distinct.len() != links.len() {
        return false;
    }
    let pairs: Vec<(u32, u32)> = links.iter().map(|&(a, b)| (a as u32, b as u32)).collect();
    let piece = welmocant::plain::removal::joined(n, &pairs, None, None);
    for p in 0..n as u32 {
        let size = piece.iter().filter(|&&q| q == p).count();
        let inside = pairs.iter().filter(|&&(a, _)| piece[a as usize] == p).count();
        if size > 0 && inside > k * size - 1 {
            return false;
        }
    }
    let notes = (0..n).all(|v| match stage {
        0 => note(v) == 0 || !placed(v) && note(v) - 1 < n && placed(note(v) - 1),
        1 => note(v) == 0 && mark(v) == 0 && entries == 0,
        _ => note(v) <= level(v) - 1,
    });
    let marks = (0..n).all(|v| mark(v) <= 1 && (mark(v) == 0 || if building { !placed(v) } else { parent(v) != v }));
    let numbered = if stage >= 2 { numbers(&f.frag[..n], 0..n as u32) } else { vec![0; 3 * n] };
    let zero = f.held[held..k * n].iter().chain(&f.frag[7 * n..16 * n]).all(|&w| w == 0);
    let counts = entries <= 16_777_215 && passes <= 1 + (0..n).filter(|&v| placed(v)).count();
    let read = stage != 3 || crossed == 0 && (0..n).all(|v| parent(v) == v || mark(v) > 0);
    notes && marks && f.frag[4 * n..7 * n] == numbered && zero && counts && read && (stage == 2 || crossed == 0)
}

/// Every call on a state within its bounds: 6 where the stage does not allow it, then 11 where the words are no state, else it is accepted or
/// refused with 9. A refused call and a question change no word; 9 leaves a state.
fn every_call(forest: &Forest, sound_before: bool) {
    let (building, reading, read) = (forest.state[2] == 0, forest.state[2] == 2, forest.state[2] == 3);
    type Call = fn(&mut Forest) -> Result<(), Refusal>;
    let calls: [(bool, bool, Call); 8] = [
        (building || reading, false, |f| f.take(&[])),
        (building || reading, true, |f| f.close().map(|_| ())),
        (!building && !reading, true, |f| f.open_reading()),
        (!building, false, |f| f.parent(0).map(|_| ())),
        (!building, false, |f| f.level(0).map(|_| ())),
        (!building, false, |f| f.piece(0).map(|_| ())),
        (read, false, |f| f.cut(0).map(|_| ())),
        (read, false, |f| f.sole(f.state[0] - 1, f.state[0] / 2 * 2 % f.state[0]).map(|_| ())),
    ];
    for (i, (allowed, changes, call)) in calls.into_iter().enumerate() {
        let mut after = forest.clone();
        let answer = call(&mut after).map_err(|r| r.number);
        let why = format!("call {i} of {forest:?}");
        match (allowed, sound_before) {
            (false, _) => assert_eq!(answer, Err(6), "{why}"),
            (true, false) => assert_eq!(answer, Err(11), "{why}"),
            (true, true) => assert!(matches!(answer, Ok(()) | Err(5)) || reading && answer == Err(9), "{why}: {answer:?}"),
        }
        let changed = changes && (answer == Ok(()) || answer == Err(9));
        assert!(if changed { sound(&after) } else { after == *forest }, "{why}");
    }
}

/// A state in each stage in turn: half of them in Building, where the list is told for the first time or again, half of the others built from
/// the list and half adopted.
fn any_state(dice: &mut Dice, round: u32) -> Forest {
    let (n, k) = (1 + dice.below(9), 1 + dice.below(3));
    let mut links = list(dice, n, round / 2 % 4);
    let mut f = Forest::start(n, k).unwrap();
    if round % 2 == 0 {
        if dice.below(2) == 0 {
            tell(&mut f, &links, 3);
            if f.close() == Ok(Ending::Done) {
                f = Forest::start(n, k).unwrap();
            }
        }
        tell(&mut f, &links, 3);
        return f;
    }
    if dice.below(2) == 0 {
        let parents = parents(dice, n, round / 2 % 4);
        f = Forest::adopt(k, &parents).unwrap();
        links = parent_links(&parents);
    } else {
        f = build(n, k, &links, 4);
    }
    if round % 8 > 1 {
        f.open_reading().unwrap();
        tell(&mut f, &links, 3);
    }
    if round % 8 > 3 {
        f.close().unwrap();
    }
    f
}

/// Changes some of the numbers of the forest, one word or several that go together.
fn change_numbers(dice: &mut Dice, f: &mut Forest, value: u32) {
    let n = f.state[0] as usize;
    let (a, b) = (dice.below(n as u32) as usize, dice.below(n as u32) as usize);
    let kind = dice.below(10);
    let (forest, numbered) = f.frag.split_at_mut(4 * n);
    let (turn, behind) = numbered.split_at_mut(n);
    let (end, whose) = behind.split_at_mut(n);
    match kind {
        0 => turn[a] = value,
        1 => end[a] = value,
        2 => whose[a] = value,
        3 => end[a] = end[a].wrapping_sub(1),
        // Two exchanged: their turns, with whose they are or without, the ends too, or only whose.
        4 => turn.swap(a, b),
        5 | 6 => {
            whose.swap(turn[a] as usize, turn[b] as usize);
            turn.swap(a, b);
            if kind == 6 {
                end.swap(a, b);
            }
        }
        7 => whose.swap(a, b),
        // Another depth-first order: children by falling number, or in any order.
        8 => numbered[..3 * n].copy_from_slice(&numbers(&forest[..n], (0..n as u32).rev())),
        _ => {
            let mut order: Vec<u32> = (0..n as u32).collect();
            dice.shuffle(&mut order);
            numbered[..3 * n].copy_from_slice(&numbers(&forest[..n], order.into_iter()));
        }
    }
}

/// Hangs a fragment that has no child under another, or makes it a root. Its level follows, and every second time the numbers do.
fn hang_elsewhere(dice: &mut Dice, f: &mut Forest) {
    let n = f.state[0] as usize;
    let (v, p) = (dice.below(n as u32) as usize, dice.below(n as u32) as usize);
    if (0..n).any(|c| c != v && f.frag[c] as usize == v) {
        return;
    }
    f.frag[v] = p as u32;
    f.frag[n + v] = if p == v { 1 } else { f.frag[n + p] + 1 };
    if dice.below(2) == 0 {
        let numbered = numbers(&f.frag[..n], 0..n as u32);
        f.frag[4 * n..7 * n].copy_from_slice(&numbered);
    }
}

#[test]
fn words_changed() {
    let mut dice = Dice::new(7);
    let (mut still, mut broken) = ([0; 4], [0; 4]);
    for round in 0..4_000u32 {
        let forest = any_state(&mut dice, round);
        let [n, k, stage, ..] = forest.state;
        assert!(sound(&forest));
        for _ in 0..30 {
            let mut changed = forest.clone();
            let value = [0, 1, 2, 3, dice.below(n + 2), 32_768 * dice.below(n) + dice.below(n), 40_000, u32::MAX][dice.below(8) as usize];
            match dice.below(8) {
                0 | 1 => changed.frag[dice.below(4 * n) as usize] = value,
                2 => changed.frag[dice.below(16 * n) as usize] = value,
                3 => changed.held[dice.below(k * n) as usize] = value,
                4 => changed.state[3 + dice.below(4) as usize] = value,
                5 | 6 => change_numbers(&mut dice, &mut changed, value),
                _ => hang_elsewhere(&mut dice, &mut changed),
            }
            let expected = sound(&changed);
            every_call(&changed, expected);
            still[stage as usize] += expected as usize;
            broken[stage as usize] += !expected as usize;
        }
    }
    println!("words changed, by stage: still a state {still:?}, refused with 11 {broken:?}");
    assert!(still.into_iter().all(|count| count > 1_000) && broken.into_iter().all(|count| count > 5_000));
}

/// The next words below a bound, the first one counting fastest; false once all came.
fn next_words(words: &mut [u32], bound: u32) -> bool {
    for word in words {
        *word = (*word + 1) % bound;
        if *word > 0 {
            return true;
        }
    }
    false
}

#[test]
fn every_numbering_of_small_forests() {
    // Every forest of up to three fragments, and all words up to n where its numbers stand: no others pass.
    let (mut forests, mut tried) = (0, 0);
    for n in 1..=3usize {
        let mut parents = vec![0; n];
        loop {
            if let Ok(mut forest) = Forest::adopt(1, &parents) {
                forest.open_reading().unwrap();
                let right = numbers(&parents, 0..n as u32);
                forest.frag[4 * n..7 * n].fill(0);
                loop {
                    let expected = if forest.frag[4 * n..7 * n] == right { Ok(parents[0]) } else { Err(Refusal { number: 11, place: 0 }) };
                    assert_eq!(forest.parent(0), expected, "{forest:?}");
                    tried += 1;
                    if !next_words(&mut forest.frag[4 * n..7 * n], n as u32 + 1) {
                        break;
                    }
                }
                forests += 1;
            }
            if !next_words(&mut parents, n as u32) {
                break;
            }
        }
    }
    println!("forests {forests}, numberings {tried}");
    assert_eq!((forests, tried), (1 + 3 + 16, 8 + 3 * 729 + 16 * 262_144));
}

#[test]
fn words_past_the_tables_stay() {
    let mut dice = Dice::new(8);
    for round in 0..300u32 {
        let n = 1 + dice.below(20);
        let k = 1 + dice.below(4);
        let links = list(&mut dice, n, round % 4);
        let guard = 0xABCD_0123;
        let (f, h) = (16 * n as usize, (k * n) as usize);
        let mut forest = Forest::start_in(n, k, vec![guard; f + 5], vec![guard; h + 5]).unwrap();
        loop {
            tell(&mut forest, &links, 2);
            if forest.close().unwrap() == Ending::Done {
                break;
            }
        }
        forest.open_reading().unwrap();
        tell(&mut forest, &links, 2);
        forest.close().unwrap();
        for v in 0..n {
            forest.cut(v).unwrap();
        }
        assert!(forest.frag[f..].iter().chain(&forest.held[h..]).all(|&w| w == guard));
    }
}
