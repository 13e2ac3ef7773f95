//! The lists that are told, made by a fixed rule, and the blocks they are told in.

use super::common::{Dice, FACTOR};
use super::rows::{Blocks, List, Row};
use welmocant::plain::Link;
use welmocant::{block, put_number};

/// Bytes of a block at most, where a list is told in several.
pub const BLOCK: usize = 65_536;

/// The longest chord of a path list.
const CHORD: u32 = 100;

fn either_way(dice: &mut Dice, a: u32, b: u32) -> Link {
    if dice.below(2) == 0 {
        (a, b)
    } else {
        (b, a)
    }
}

/// Links between any two fragments.
fn random(dice: &mut Dice, n: u32, count: usize) -> Vec<Link> {
    let mut links = Vec::with_capacity(count);
    while links.len() < count {
        let (a, b) = (dice.below(n), dice.below(n));
        if a != b {
            links.push((a, b));
        }
    }
    links
}

/// A path through all fragments, and chords over 2 to 100 steps of it; shuffled, and the numbers of the fragments too.
fn path(dice: &mut Dice, n: u32, count: usize) -> Vec<Link> {
    let mut number: Vec<u32> = (0..n).collect();
    dice.shuffle(&mut number);
    let mut links: Vec<Link> = Vec::with_capacity(count);
    for v in 1..n {
        links.push(either_way(dice, v - 1, v));
    }
    while links.len() < count {
        let a = dice.below(n);
        let b = a + 2 + dice.below(CHORD - 1);
        if b < n {
            links.push(either_way(dice, a, b));
        }
    }
    for (a, b) in &mut links {
        (*a, *b) = (number[*a as usize], number[*b as usize]);
    }
    dice.shuffle(&mut links);
    links.truncate(count);
    links
}

/// Links whose words lie next to one another by their home slots: the way from each goes over all that stand there.
fn hurt(dice: &mut Dice, n: u32, count: usize) -> Vec<Link> {
    // The inverse of an odd factor, by Newton's rule: each step doubles the bits that are right.
    let inverse = (0..5).fold(FACTOR, |x, _| x.wrapping_mul(2u32.wrapping_sub(FACTOR.wrapping_mul(x))));
    let words = (0u32..).map(|spread| spread.wrapping_mul(inverse)).filter(|w| w >> 15 < w & 32_767 && w & 32_767 < n);
    let mut links: Vec<Link> = words.map(|w| (w >> 15, w & 32_767)).take(count).collect();
    dice.shuffle(&mut links);
    links
}

/// Links along the numbers.
fn rising(n: u32, count: usize) -> Vec<Link> {
    (0..count as u32).map(|i| i % (n - 1)).map(|v| (v, v + 1)).collect()
}

pub fn links(row: &Row) -> Vec<Link> {
    let mut dice = Dice::new(20);
    match row.list {
        List::Random => random(&mut dice, row.n, row.links),
        List::Path => path(&mut dice, row.n, row.links),
        List::Hurt => hurt(&mut dice, row.n, row.links),
        List::Rising => rising(row.n, row.links),
    }
}

/// The bytes of a list, in one block or in blocks of whole links.
pub fn blocks(row: &Row, links: &[Link]) -> Vec<Vec<u8>> {
    if row.blocks == Blocks::One {
        return vec![block(links)];
    }
    let mut blocks = vec![Vec::with_capacity(BLOCK)];
    let mut bytes = Vec::new();
    for &(a, b) in links {
        bytes.clear();
        put_number(&mut bytes, a);
        put_number(&mut bytes, b);
        if blocks[blocks.len() - 1].len() + bytes.len() > BLOCK {
            blocks.push(Vec::with_capacity(BLOCK));
        }
        blocks.last_mut().unwrap().extend_from_slice(&bytes);
    }
    blocks
}
