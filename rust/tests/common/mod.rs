//! What the trials share: numbers by a fixed rule, lists made with them, and a run of the calls.
#![allow(dead_code)] // each test file uses a part of it

use welmocant::plain::Link;
use welmocant::{block, Ending, Forest};

/// A small generator with a fixed seed, so that every run tries the same lists.
pub struct Dice(u64);

impl Dice {
    pub fn new(seed: u64) -> Self {
        Dice(seed.wrapping_mul(0x9E37_79B9_7F4A_7C15) | 1)
    }

    pub fn below(&mut self, n: u32) -> u32 {
        self.0 ^= self.0 << 13;
        self.0 ^= self.0 >> 7;
        self.0 ^= self.0 << 17;
        ((self.0 >> 33) % n as u64) as u32
    }

    pub fn shuffle<T>(&mut self, list: &mut [T]) {
        for i in (1..list.len()).rev() {
            list.swap(i, self.below(i as u32 + 1) as usize);
        }
    }
}

/// A list of n fragments: sparse, dense, a path with chords, or a few dense parts; some entries twice, either way round.
pub fn list(dice: &mut Dice, n: u32, kind: u32) -> Vec<Link> {
    let mut links = Vec::new();
    if n > 1 {
        let count = match kind {
            0 => dice.below(2 * n),
            1 => dice.below(n * n / 2 + 1),
            2 => dice.below(n),
            _ => dice.below(4 * n),
        };
        if kind == 2 {
            links.extend((1..n).map(|v| (v - 1, v)));
        }
        while (links.len() as u32) < count + if kind == 2 { n - 1 } else { 0 } {
            let a = dice.below(n);
            let b = match kind {
                2 => (a + 2 + dice.below(4)) % n,
                3 => a / 8 * 8 + dice.below(8),
                _ => dice.below(n),
            };
            if a != b && b < n {
                links.push(if dice.below(2) == 0 { (a, b) } else { (b, a) });
            } else if dice.below(8) == 0 && kind != 2 {
                break;
            }
        }
        for _ in 0..dice.below(4) {
            if !links.is_empty() {
                let (a, b) = links[dice.below(links.len() as u32) as usize];
                links.push((b, a));
            }
        }
    }
    dice.shuffle(&mut links);
    links
}

/// The factor by which the index of held links spreads their words over its slots: the home slot is the high part of this product.
pub const FACTOR: u32 = 2_654_435_769;

/// All links of n fragments, by where their home slots lie.
pub fn links_by_home(n: u32) -> Vec<Link> {
    let mut links: Vec<Link> = (0..n).flat_map(|b| (0..b).map(move |a| (a, b))).collect();
    links.sort_unstable_by_key(|&(a, b)| (a * 32_768 + b).wrapping_mul(FACTOR));
    links
}

/// The parents of a forest of n fragments in shuffled numbers: deep, wide, with many roots, or any tree.
pub fn parents(dice: &mut Dice, n: u32, kind: u32) -> Vec<u32> {
    let mut number: Vec<u32> = (0..n).collect();
    dice.shuffle(&mut number);
    let mut parents = vec![0; n as usize];
    for v in 0..n {
        let above = match kind {
            _ if v == 0 => v,
            0 => v - 1 - dice.below(v.min(2)),
            1 => dice.below(v.min(3)),
            2 if dice.below(2) == 0 => v,
            _ => dice.below(v),
        };
        parents[number[v as usize] as usize] = number[above as usize];
    }
    parents
}

/// The links to the parents.
pub fn parent_links(parents: &[u32]) -> Vec<Link> {
    parents.iter().enumerate().map(|(v, &p)| (v as u32, p)).filter(|(v, p)| v != p).collect()
}

/// The numbers of a forest by a walk, as three sections: the turn of each fragment, where those below it end, and whose turn each is. Roots and
/// children come in the order given, which is by rising number in the library's tables.
pub fn numbers(parents: &[u32], order: impl Iterator<Item = u32>) -> Vec<u32> {
    let n = parents.len();
    let (mut roots, mut children) = (Vec::new(), vec![Vec::new(); n]);
    for v in order {
        match parents[v as usize] {
            p if p == v => roots.push(v),
            p => children[p as usize].push(v),
        }
    }
    let (mut sections, mut next) = (vec![0; 3 * n], 0);
    for &root in &roots {
        walk(root, &children, &mut sections, &mut next);
    }
    sections
}

fn walk(v: u32, children: &[Vec<u32>], sections: &mut [u32], next: &mut u32) {
    let n = children.len();
    sections[v as usize] = *next;
    sections[2 * n + *next as usize] = v;
    *next += 1;
    for &c in &children[v as usize] {
        walk(c, children, sections, next);
    }
    sections[n + v as usize] = *next;
}

/// Tells a list in blocks of so many links.
pub fn tell(forest: &mut Forest, links: &[Link], size: usize) {
    for part in links.chunks(size.max(1)) {
        forest.take(&block(part)).unwrap();
    }
}

/// Tells a list until the forest is built.
pub fn build(n: u32, k: u32, links: &[Link], size: usize) -> Forest {
    let mut forest = Forest::start(n, k).unwrap();
    loop {
        tell(&mut forest, links, size);
        if forest.close().unwrap() == Ending::Done {
            return forest;
        }
    }
}
