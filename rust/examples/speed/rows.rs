//! The rows of the table: what is measured, on which list, with which room, told in which blocks.

use std::fmt;

#[derive(Clone, Copy, PartialEq)]
pub enum What {
    Build,
    Read,
    Report,
    Take,
    Adopt,
    Write,
}

#[derive(Clone, Copy, PartialEq)]
pub enum List {
    Random,
    Path,
    Hurt,
    Rising,
}

#[derive(Clone, Copy, PartialEq)]
pub enum Blocks {
    One,
    Small,
}

#[derive(Clone, PartialEq)]
pub struct Row {
    pub what: What,
    pub list: List,
    pub n: u32,
    pub links: usize,
    pub k: u32,
    pub blocks: Blocks,
}

impl fmt::Display for What {
    fn fmt(&self, f: &mut fmt::Formatter) -> fmt::Result {
        f.write_str(match self {
            What::Build => "build",
            What::Read => "read",
            What::Report => "report",
            What::Take => "take",
            What::Adopt => "adopt",
            What::Write => "write",
        })
    }
}

impl fmt::Display for List {
    fn fmt(&self, f: &mut fmt::Formatter) -> fmt::Result {
        f.write_str(match self {
            List::Random => "random",
            List::Path => "path",
            List::Hurt => "hurt",
            List::Rising => "rising",
        })
    }
}

impl fmt::Display for Blocks {
    fn fmt(&self, f: &mut fmt::Formatter) -> fmt::Result {
        f.write_str(if *self == Blocks::One { "one" } else { "64K" })
    }
}

impl Row {
    /// The six words that name a row, in the order of the table.
    pub fn words(&self) -> [String; 6] {
        [self.what.to_string(), self.list.to_string(), self.n.to_string(), self.links.to_string(), self.k.to_string(), self.blocks.to_string()]
    }

    /// The row that six words name, whether the table has it or not.
    pub fn named(words: &[String]) -> Option<Row> {
        let [what, list, n, links, k, blocks] = words else { return None };
        let row = Row {
            what: *[What::Build, What::Read, What::Report, What::Take, What::Adopt, What::Write].iter().find(|w| w.to_string() == *what)?,
            list: *[List::Random, List::Path, List::Hurt, List::Rising].iter().find(|l| l.to_string() == *list)?,
            n: n.parse().ok()?,
            links: links.parse().ok()?,
            k: k.parse().ok()?,
            blocks: if blocks == "64K" { Blocks::Small } else { Blocks::One },
        };
        (row.words() == *words && (3..=N).contains(&row.n) && (1..=64).contains(&row.k)).then_some(row)
    }
}

/// The largest n, and the length of the lists that do not grow.
const N: u32 = 32_768;
const LINKS: usize = 1_000_000;

fn every<'a>(lists: &'a [List], rooms: &'a [u32], ways: &'a [Blocks]) -> impl Iterator<Item = (List, u32, Blocks)> + 'a {
    lists.iter().flat_map(move |&list| rooms.iter().flat_map(move |&k| ways.iter().map(move |&blocks| (list, k, blocks))))
}

/// All rows, with n and the links divided by a number for a smaller table.
pub fn table(quick: bool, by: usize) -> Vec<Row> {
    let mut rows: Vec<Row> = Vec::new();
    let mut add = |what, list, n: u32, links: usize, k, blocks| {
        let row = Row { what, list, n: n / by as u32, links: links / by, k, blocks };
        if !rows.contains(&row) {
            rows.push(row);
        }
    };
    let lists = [List::Random, List::Path];
    let rooms: &[u32] = if quick { &[4, 64] } else { &[1, 4, 16, 64] };
    let ways: &[Blocks] = if quick { &[Blocks::One] } else { &[Blocks::One, Blocks::Small] };
    for (what, rooms, growing) in [(What::Build, rooms, &[4, 64][..]), (What::Read, &[4, 64], &[4])] {
        for (list, k, blocks) in every(&lists, rooms, ways) {
            add(what, list, N, LINKS, k, blocks);
        }
        for &k in if quick { &[] } else { growing } {
            for step in 0..6 {
                add(what, List::Random, N, (LINKS / 8) << step, k, Blocks::One);
            }
            for n in [N / 8, N / 4, N / 2, N] {
                add(what, List::Random, n, LINKS, k, Blocks::One);
            }
        }
    }
    for (list, k, blocks) in every(&lists, &[4, 64], &[Blocks::One]) {
        add(What::Report, list, N, LINKS, k, blocks);
    }
    if quick {
        return rows;
    }
    for (what, list) in [(What::Take, List::Random), (What::Take, List::Hurt), (What::Build, List::Random), (What::Build, List::Hurt)] {
        for step in 0..3 {
            add(what, list, N, (LINKS / 50) << step, 4, Blocks::One);
        }
    }
    for (list, n) in [(List::Random, N), (List::Path, N), (List::Rising, N / 4), (List::Rising, N / 2), (List::Rising, N)] {
        add(What::Adopt, list, n, if list == List::Rising { 0 } else { LINKS }, 4, Blocks::One);
    }
    for n in [N / 256, N / 8, N] {
        add(What::Write, List::Random, n, LINKS, 4, Blocks::One);
    }
    rows
}
