//! Lists made at random, built, read and asked about by the proved calls, beside the same rules in plain Rust and a search by removal.

mod common;
#[path = "common/model.rs"]
mod model;

use common::{build, links_by_home, list, numbers, parent_links, parents, tell, Dice};
use model::Model;
use welmocant::plain::{self, removal, Building, Link};
use welmocant::{block, Ending, Forest, Stage};

/// Tells a list in blocks of so many links, to both: every stored word after each.
fn tell_both(forest: &mut Forest, model: &mut Model, links: &[Link], size: usize) {
    for part in links.chunks(size.max(1)) {
        forest.take(&block(part)).unwrap();
        model.take(part);
        assert_eq!(*forest, model.words());
    }
}

/// Closes a pass in Building on all three sides: every stored word, and the parents and levels of the plain rules. True when all is placed.
fn close_all(forest: &mut Forest, model: &mut Model, beside: &mut Building) -> bool {
    let ending = forest.close().unwrap();
    assert_eq!(model.close(), Some(ending));
    assert_eq!(*forest, model.words());
    let done = beside.close();
    assert_eq!(ending, if done { Ending::Done } else { Ending::More });
    let n = beside.level.len();
    for v in 0..n {
        let placed = beside.level[v] != u32::MAX;
        assert_eq!(forest.frag[n + v], if placed { beside.level[v] + 1 } else { 0 });
        assert_eq!(forest.frag[v], if placed { beside.parent[v] } else { 0 });
    }
    assert_eq!(forest.passes() as usize, beside.passes);
    done
}

/// A reading pass on both sides, every stored word after each call: whether it is accepted.
fn read_both(forest: &mut Forest, model: &mut Model, links: &[Link], size: usize) -> bool {
    forest.open_reading().unwrap();
    model.open_reading();
    assert_eq!(*forest, model.words());
    tell_both(forest, model, links, size);
    let ending = forest.close();
    match model.close() {
        Some(expected) => assert_eq!(ending, Ok(expected)),
        None => assert_eq!(ending.unwrap_err().number, 9),
    }
    assert_eq!(*forest, model.words());
    ending.is_ok()
}

/// Every answer in Read against the search by removal.
fn compare_with_removal(forest: &mut Forest, n: u32, links: &[Link]) -> (usize, usize) {
    let piece = removal::joined(n as usize, links, None, None);
    let (mut soles, mut cuts) = (0, 0);
    for v in 0..n {
        assert_eq!(forest.piece(v), Ok(piece[v as usize]));
        let cut = removal::cut(n as usize, links, v);
        assert_eq!(forest.cut(v), Ok(cut), "cut {v} of {n} {links:?}");
        cuts += cut as usize;
        for b in 0..v {
            let sole = removal::sole(n as usize, links, v, b);
            assert_eq!(forest.sole(v, b), Ok(sole));
            assert_eq!(forest.sole(b, v), Ok(sole));
            soles += sole as usize;
        }
    }
    (soles, cuts)
}

/// One list, built pass by pass: every stored word after every call.
fn one_list(n: u32, k: u32, links: &mut Vec<Link>, dice: &mut Dice, shuffled: bool) -> (Forest, Model, Building) {
    let mut forest = Forest::start(n, k).unwrap();
    let mut model = Model::start(n, k);
    let mut beside = Building::new(n as usize, k as usize);
    loop {
        if shuffled {
            dice.shuffle(links);
        }
        tell_both(&mut forest, &mut model, links, 1 + dice.below(links.len() as u32 + 1) as usize);
        beside.take(links);
        if close_all(&mut forest, &mut model, &mut beside) {
            break;
        }
    }
    assert!(forest.passes() <= n.div_ceil(k));
    (forest, model, beside)
}

#[test]
fn small_lists_by_removal() {
    let mut dice = Dice::new(1);
    let (mut lists, mut lossy, mut several, mut soles, mut cuts, mut most) = (0, 0, 0, 0, 0, 0);
    for round in 0..20_000u32 {
        let n = 1 + dice.below(12);
        let k = 1 + dice.below(5);
        let mut links = list(&mut dice, n, round % 4);
        let (mut forest, mut model, beside) = one_list(n, k, &mut links, &mut dice, round % 2 == 0);
        dice.shuffle(&mut links);
        assert!(read_both(&mut forest, &mut model, &links, 1 + dice.below(5) as usize));
        assert_eq!(forest.entries() as usize, links.len());
        let (s, c) = compare_with_removal(&mut forest, n, &links);
        lists += 1;
        lossy += (beside.losses > 0) as usize;
        several += (beside.passes > 1) as usize;
        most = most.max(beside.passes);
        soles += s;
        cuts += c;
    }
    println!("small lists {lists}, with lost pieces {lossy}, with several passes {several} (at most {most}), sole links {soles}, cut fragments {cuts}");
    assert!(lossy > 500 && several > 500 && soles > 5_000 && cuts > 5_000);
}

#[test]
fn larger_lists_beside_the_plain_rules() {
    let mut dice = Dice::new(2);
    let (mut lossy, mut most) = (0, 0);
    for round in 0..600u32 {
        let n = 20 + dice.below(180);
        let k = [1, 2, 3, 4, 8, 64][dice.below(6) as usize];
        let mut links = list(&mut dice, n, round % 4);
        let (mut forest, mut model, beside) = one_list(n, k, &mut links, &mut dice, true);
        assert!(read_both(&mut forest, &mut model, &links, 1 + links.len() / 4));
        let read = plain::read(&beside.parent, &links).expect("the plain reading accepts too");
        for v in 0..n {
            assert_eq!(forest.parent(v), Ok(read.parent[v as usize]));
            assert_eq!(forest.level(v), Ok(read.level[v as usize]));
            assert_eq!(forest.piece(v), Ok(read.piece[v as usize]));
            assert_eq!(forest.cut(v), Ok(read.cut(v)));
            let p = read.parent[v as usize];
            if p != v {
                assert_eq!(forest.sole(p, v), Ok(read.sole(p, v)));
            }
        }
        lossy += (beside.losses > 0) as usize;
        most = most.max(beside.passes);
    }
    println!("larger lists 600, with lost pieces {lossy}, at most {most} passes");
    assert!(lossy > 50);
}

#[test]
fn links_made_against_the_index() {
    // Home slots at one place: at the end of the slots, where a link may find none, at their beginning, and in the middle.
    let mut dice = Dice::new(13);
    let mut fullest = 0;
    for n in [20, 60, 300] {
        let all = links_by_home(n);
        for k in [2, 4, 8, 64] {
            for part in 0..3 {
                let count = all.len().min(8 * n as usize);
                let from = part * (all.len() - count) / 2;
                let mut links = all[from..from + count].to_vec();
                links.extend_from_within(..count / 4);
                let (mut forest, mut model, beside) = one_list(n, k, &mut links, &mut dice, true);
                assert!(read_both(&mut forest, &mut model, &links, links.len()));
                fullest = fullest.max(beside.most_held / n as usize);
            }
        }
    }
    println!("links made against the index: up to {fullest} held for each fragment");
    assert!(fullest > 4);
}

#[test]
fn every_order_of_every_small_list() {
    // Every set of links on three fragments and every order of it, with k = 1, 2 and 3; on four fragments every set, in its order and turned.
    let mut count = 0;
    for n in 1..=4u32 {
        let all: Vec<Link> = (0..n).flat_map(|b| (0..b).map(move |a| (a, b))).collect();
        for set in 0..1u32 << all.len() {
            let chosen: Vec<Link> = all.iter().enumerate().filter(|(i, _)| set >> i & 1 == 1).map(|(_, &l)| l).collect();
            let mut orders = vec![chosen.clone()];
            permute(&mut chosen.clone(), 0, &mut orders);
            for order in &mut orders {
                for k in 1..=3 {
                    let mut dice = Dice::new(3);
                    let (mut forest, mut model, _) = one_list(n, k, order, &mut dice, false);
                    assert!(read_both(&mut forest, &mut model, order, 2));
                    compare_with_removal(&mut forest, n, order);
                    count += 1;
                }
            }
        }
    }
    println!("orders of small lists {count}");
}

fn permute(list: &mut Vec<Link>, from: usize, out: &mut Vec<Vec<Link>>) {
    if from + 1 >= list.len() {
        out.push(list.clone());
        return;
    }
    for i in from..list.len() {
        list.swap(from, i);
        permute(list, from + 1, out);
        list.swap(from, i);
    }
}

#[test]
fn passes_that_tell_different_lists() {
    // Every pass does what the rules say of the list it told; the reading pass refuses, or what it answers is true of the list it read.
    let mut dice = Dice::new(4);
    let (mut refused, mut accepted, mut changed) = (0, 0, 0);
    for round in 0..8_000u32 {
        let n = 2 + dice.below(if round % 8 < 4 { 10 } else { 40 });
        let k = 1 + dice.below(3);
        let mut forest = Forest::start(n, k).unwrap();
        let mut model = Model::start(n, k);
        let mut beside = Building::new(n as usize, k as usize);
        let mut told = list(&mut dice, n, round % 4);
        loop {
            tell_both(&mut forest, &mut model, &told, 3);
            beside.take(&told);
            if close_all(&mut forest, &mut model, &mut beside) {
                break;
            }
            if dice.below(2) == 0 {
                told = list(&mut dice, n, round % 4);
                changed += 1;
            }
        }
        assert!(forest.passes() <= n.div_ceil(k));
        if dice.below(2) == 0 && !told.is_empty() {
            told.pop();
        }
        let parents: Vec<u32> = (0..n).map(|v| forest.parent(v).unwrap()).collect();
        assert_eq!(parents, beside.parent);
        let read = read_both(&mut forest, &mut model, &told, 4);
        assert_eq!(read, plain::read(&parents, &told).is_some());
        if read {
            accepted += 1;
            if n < 12 {
                compare_with_removal(&mut forest, n, &told);
            }
        } else {
            refused += 1;
            assert_eq!(forest.stage(), Some(Stage::Built));
        }
    }
    println!("changed lists: between two passes {changed}, reading refused {refused}, accepted {accepted}");
    assert!(changed > 500 && refused > 1_000 && accepted > 1_000);
}

#[test]
fn adopted_forests() {
    let mut dice = Dice::new(5);
    let (mut cycles, mut taken, mut refused) = (0, 0, 0);
    for round in 0..20_000u32 {
        let n = 1 + dice.below(8);
        let parents: Vec<u32> = (0..n).map(|v| if dice.below(3) == 0 { v } else { dice.below(n) }).collect();
        match (Forest::adopt(1 + round % 64, &parents), plain::levels(&parents)) {
            (Ok(mut forest), Some(level)) => {
                for v in 0..n {
                    assert_eq!(forest.parent(v), Ok(parents[v as usize]));
                    assert_eq!(forest.level(v), Ok(level[v as usize]));
                }
                let mut links = parent_links(&parents);
                if n > 1 && dice.below(2) == 0 {
                    links.extend(list(&mut dice, n, 0).into_iter().take(2));
                }
                if dice.below(6) == 0 {
                    links.pop();
                }
                let mut model = Model::adopt(1 + round % 64, &parents, &level);
                assert_eq!(forest, model.words());
                let read = read_both(&mut forest, &mut model, &links, 2);
                assert_eq!(read, plain::read(&parents, &links).is_some(), "{parents:?} {links:?}");
                if read {
                    taken += 1;
                    compare_with_removal(&mut forest, n, &links);
                } else {
                    refused += 1;
                }
            }
            (Err(r), None) => {
                cycles += 1;
                assert_eq!(r.number, 10);
            }
            (ours, theirs) => panic!("{parents:?}: {ours:?}, {theirs:?}"),
        }
    }
    println!("adopted forests: cycles {cycles}, read {taken}, refused by reading {refused}");
    assert!(cycles > 1_000 && taken > 1_000 && refused > 1_000);
}

/// The sections behind the stored ones of every stage: the numbers of the forest, or 0 where it is not numbered.
fn holds_numbers(forest: &Forest, numbered: bool) -> bool {
    let n = forest.state[0] as usize;
    let expected = if numbered { numbers(&forest.frag[..n], 0..n as u32) } else { vec![0; 3 * n] };
    forest.frag[4 * n..7 * n] == expected && forest.frag[7 * n..16 * n].iter().all(|&w| w == 0)
}

#[test]
fn numbers_of_adopted_forests() {
    // From opening to opening: a pass that lacks a link clears the numbers, one that is accepted keeps them.
    let mut dice = Dice::new(14);
    let mut refused = 0;
    for round in 0..4_000u32 {
        let n = 1 + dice.below([6, 40, 300][round as usize / 4 % 3]);
        let parents = parents(&mut dice, n, round % 4);
        let mut links = parent_links(&parents);
        dice.shuffle(&mut links);
        let mut forest = Forest::adopt(1, &parents).unwrap();
        let mut model = Model::adopt(1, &parents, &plain::levels(&parents).unwrap());
        assert!(forest == model.words() && holds_numbers(&forest, false));
        if let Some((_, part)) = links.split_last() {
            assert!(!read_both(&mut forest, &mut model, part, 50));
            assert!(forest.stage() == Some(Stage::Built) && holds_numbers(&forest, false), "{parents:?}");
            refused += 1;
        }
        for _ in 0..2 {
            assert!(read_both(&mut forest, &mut model, &links, 50));
            assert!(forest.stage() == Some(Stage::Read) && holds_numbers(&forest, true), "{parents:?}");
        }
        forest.open_reading().unwrap();
        assert!(forest.stage() == Some(Stage::Reading) && holds_numbers(&forest, true), "{parents:?}");
        assert_eq!(forest.close().is_ok(), links.is_empty());
        assert!(holds_numbers(&forest, links.is_empty()), "{parents:?}");
    }
    println!("forests numbered 4000, refused by reading and numbered again {refused}");
    assert!(refused > 3_000);
}

#[test]
fn two_rooms_and_two_orders_report_alike() {
    let mut dice = Dice::new(6);
    for round in 0..1_500u32 {
        let n = 2 + dice.below(30);
        let mut links = list(&mut dice, n, round % 4);
        let mut reports = Vec::new();
        for k in [1, 2, 7] {
            dice.shuffle(&mut links);
            let mut forest = build(n, k, &links, 1 + dice.below(9) as usize);
            forest.open_reading().unwrap();
            tell(&mut forest, &links, 5);
            forest.close().unwrap();
            let pieces: Vec<u32> = (0..n).map(|v| forest.piece(v).unwrap()).collect();
            let cuts: Vec<bool> = (0..n).map(|v| forest.cut(v).unwrap()).collect();
            let soles: Vec<bool> = links.iter().map(|&(a, b)| (a.min(b), a.max(b))).collect::<std::collections::BTreeSet<_>>().into_iter().map(|(a, b)| forest.sole(a, b).unwrap()).collect();
            reports.push((pieces, cuts, soles));
        }
        assert!(reports.windows(2).all(|w| w[0] == w[1]));
    }
}
