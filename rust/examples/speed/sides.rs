//! The two sides: the proved library, and plain Rust of the same rules. They stay functions of their own, so that a profile can tell them apart.

use super::clock::Clock;
use super::lists::BLOCK;
use super::rows::{Blocks, Row};
use welmocant::plain::{decode, encode, levels, words_of, Building, Link, Reading};
use welmocant::{put_number, text_room, write_list, Ending, Forest, Heard, Next, Telling};

/// One run: its time, what must be the same on both sides, and the words it took.
pub struct Run {
    /// In milliseconds.
    pub time: f64,
    pub passes: usize,
    /// Of a building the parents and the levels, of a reading the notes and the parent links seen: as the fragment table has them. Of a report
    /// the bytes of its text, of a list written its bytes.
    pub answer: Vec<u32>,
    pub words: usize,
}

/// A building, from the start to done.
#[inline(never)]
pub fn build(row: &Row, blocks: &[Vec<u8>]) -> Run {
    let start = Clock::start();
    let mut forest = Forest::start(row.n, row.k).unwrap();
    loop {
        for block in blocks {
            forest.take(block).unwrap();
        }
        if forest.close().unwrap() == Ending::Done {
            break;
        }
    }
    let time = start.passed();
    let answer = forest.frag[..2 * row.n as usize].to_vec();
    Run { time, passes: forest.passes() as usize, answer, words: forest.frag.len() + forest.held.len() }
}

#[inline(never)]
pub fn build_plain(row: &Row, blocks: &[Vec<u8>]) -> Run {
    let start = Clock::start();
    let mut links: Vec<Link> = Vec::new();
    let mut building = Building::new(row.n as usize, row.k as usize);
    loop {
        let mut entries = 0;
        for block in blocks {
            decode(row.n, entries, block, &mut links).unwrap();
            entries += links.len();
            building.take(&links);
        }
        if building.close() {
            break;
        }
    }
    let time = start.passed();
    let mut answer = building.parent.clone();
    answer.extend(building.level.iter().map(|l| l + 1));
    Run { time, passes: building.passes, answer, words: building.words() + words_of(&links) }
}

/// A reading pass over the forest with these parents, from its opening to its close.
#[inline(never)]
pub fn read(row: &Row, parents: &[u32], blocks: &[Vec<u8>]) -> Run {
    let mut forest = Forest::adopt(row.k, parents).unwrap();
    let start = Clock::start();
    forest.open_reading().unwrap();
    for block in blocks {
        forest.take(block).unwrap();
    }
    assert_eq!(forest.close(), Ok(Ending::Read));
    let time = start.passed();
    let n = row.n as usize;
    Run { time, passes: 1, answer: forest.frag[2 * n..4 * n].to_vec(), words: forest.frag.len() + forest.held.len() }
}

#[inline(never)]
pub fn read_plain(row: &Row, parents: &[u32], blocks: &[Vec<u8>]) -> Run {
    let levels = levels(parents).unwrap();
    let start = Clock::start();
    let mut links: Vec<Link> = Vec::new();
    let mut reading = Reading::open(parents, &levels);
    let mut entries = 0;
    for block in blocks {
        decode(row.n, entries, block, &mut links).unwrap();
        entries += links.len();
        reading.take(&links);
    }
    assert!(reading.close());
    let time = start.passed();
    let mut answer: Vec<u32> = levels.iter().zip(&reading.low).map(|(level, low)| level - low).collect();
    answer.extend(reading.seen.iter().map(|&s| s as u32));
    Run { time, passes: 1, answer, words: reading.words() + words_of(&links) }
}

/// The end of the list heard in its last pass, which was told as a file: the close and the text of the report.
#[inline(never)]
pub fn report(row: &Row, blocks: &[Vec<u8>]) -> Run {
    let mut file = Vec::new();
    put_number(&mut file, row.n);
    blocks.iter().for_each(|block| file.extend_from_slice(block));
    let mut telling = Telling::begin(row.n, row.k);
    let mut buffer = vec![0; if row.blocks == Blocks::One { file.len().max(BLOCK) } else { BLOCK }];
    let mut text = vec![0; text_room(row.n)];
    // Where all fragments are placed it is the reading pass.
    loop {
        tell_file(&mut telling, &file, &mut buffer, &mut text);
        if telling.placed() == row.n as usize {
            break;
        }
        assert_eq!(telling.tell(&mut buffer, &mut text, Heard::End), Next::Again);
    }
    let start = Clock::start();
    let next = end(&mut telling, &mut buffer, &mut text);
    let time = start.passed();
    let Next::Report(size) = next else { panic!("{next:?}") };
    Run { time, passes: 0, answer: text[..size].iter().map(|&byte| byte as u32).collect(), words: (16 + row.k as usize) * row.n as usize }
}

#[inline(never)]
fn end(telling: &mut Telling, buffer: &mut [u8], text: &mut [u8]) -> Next {
    telling.tell(buffer, text, Heard::End)
}

/// Tells all bytes of a file, as much at once as the buffer has room for.
fn tell_file(telling: &mut Telling, file: &[u8], buffer: &mut [u8], text: &mut [u8]) {
    let mut rest = file;
    while !rest.is_empty() {
        let have = telling.have();
        let (part, more) = rest.split_at(rest.len().min(buffer.len() - have));
        buffer[have..have + part.len()].copy_from_slice(part);
        assert_eq!(telling.tell(buffer, text, Heard::Bytes(part.len())), Next::More);
        rest = more;
    }
}

#[inline(never)]
pub fn report_plain(row: &Row, blocks: &[Vec<u8>]) -> Run {
    let n = row.n as usize;
    let built = build_plain(row, blocks);
    let parents = &built.answer[..n];
    let mut links: Vec<Link> = Vec::new();
    let mut reading = Reading::open(parents, &levels(parents).unwrap());
    let mut entries = 0;
    for block in blocks {
        decode(row.n, entries, block, &mut links).unwrap();
        entries += links.len();
        reading.take(&links);
    }
    // What is spread takes three words and three bytes of each fragment besides.
    let words = reading.words() + words_of(&links) + 15 * n / 4;
    let mut text = Vec::with_capacity(text_room(row.n));
    let start = Clock::start();
    end_plain(reading, entries, built.passes, &mut text);
    let time = start.passed();
    Run { time, passes: 0, answer: text.into_iter().map(|byte| byte as u32).collect(), words }
}

#[inline(never)]
fn end_plain(reading: Reading, links: usize, passes: usize, text: &mut Vec<u8>) {
    assert!(reading.close());
    reading.spread().report(links, passes, text);
}

/// One take more, of an empty block, once the list was told: what every call of that pass pays for the links held so far.
#[inline(never)]
pub fn take(row: &Row, blocks: &[Vec<u8>]) -> Run {
    let mut forest = Forest::start(row.n, row.k).unwrap();
    for block in blocks {
        forest.take(block).unwrap();
    }
    let start = Clock::start();
    forest.take(&[]).unwrap();
    let time = start.passed();
    Run { time, passes: 0, answer: vec![forest.state[5]], words: forest.frag.len() + forest.held.len() }
}

#[inline(never)]
pub fn take_plain(row: &Row, blocks: &[Vec<u8>]) -> Run {
    let mut links: Vec<Link> = Vec::new();
    let mut building = Building::new(row.n as usize, row.k as usize);
    for block in blocks {
        decode(row.n, 0, block, &mut links).unwrap();
        building.take(&links);
    }
    let start = Clock::start();
    building.take(&[]);
    let time = start.passed();
    let words = building.words() + words_of(&links);
    building.close();
    Run { time, passes: 0, answer: vec![building.most_held as u32], words }
}

/// Adopting the forest with these parents.
#[inline(never)]
pub fn adopt(row: &Row, parents: &[u32]) -> Run {
    let start = Clock::start();
    let forest = Forest::adopt(row.k, parents).unwrap();
    let time = start.passed();
    let n = row.n as usize;
    Run { time, passes: 0, answer: forest.frag[n..2 * n].iter().map(|level| level - 1).collect(), words: forest.frag.len() + forest.held.len() }
}

#[inline(never)]
pub fn adopt_plain(parents: &[u32]) -> Run {
    let start = Clock::start();
    let answer = levels(parents).unwrap();
    Run { time: start.passed(), passes: 0, words: 2 * answer.len(), answer }
}

/// Room for a list of these words: three bytes for each, and for n.
fn list_room(words: &[u32]) -> usize {
    3 * (words.len() + 1)
}

/// A list written: n, and its links of two words each.
#[inline(never)]
pub fn write(row: &Row, words: &[u32]) -> Run {
    let mut list = vec![0; list_room(words)];
    let start = Clock::start();
    let size = write_list(row.n, words, &mut list).unwrap();
    let time = start.passed();
    Run { time, passes: 0, answer: list[..size].iter().map(|&byte| byte as u32).collect(), words: list.len() / 4 }
}

#[inline(never)]
pub fn write_plain(row: &Row, words: &[u32]) -> Run {
    let mut list = Vec::with_capacity(list_room(words));
    let start = Clock::start();
    encode(row.n, words, &mut list).unwrap();
    let time = start.passed();
    Run { time, passes: 0, words: words_of(&list), answer: list.into_iter().map(|byte| byte as u32).collect() }
}
