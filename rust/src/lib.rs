//! A depth-first forest over a link list that is told in blocks, again and again, in little room: safe Rust over the proved library.
//!
//! ```no_run
//! use welmocant::{Forest, Ending};
//! # fn blocks() -> Vec<Vec<u8>> { vec![] }
//! let mut forest = Forest::start(4, 2)?;
//! loop {
//!     for block in blocks() { forest.take(&block)?; }
//!     if forest.close()? == Ending::Done { break; }
//! }
//! forest.open_reading()?;
//! for block in blocks() { forest.take(&block)?; }
//! forest.close()?;
//! println!("{}", forest.sole(0, 3)?);
//! # Ok::<(), welmocant::Refusal>(())
//! ```

pub mod plain;
mod telling;

pub use telling::{text_room, Heard, Next, Telling, TELLING};

mod c {
    extern "C" {
        pub fn welmocant_head(file: *const u8, bytes: usize, n: *mut u32, begins: *mut u64) -> u32;
        pub fn welmocant_whole(buffer: *const u8, bytes: usize) -> usize;
        pub fn welmocant_start(n: u32, k: u32, state: *mut u32, states: usize, frag: *mut u32, frags: usize, held: *mut u32, helds: usize) -> u32;
        pub fn welmocant_adopt(n: u32, k: u32, parents: *const u32, count: usize, state: *mut u32, states: usize, frag: *mut u32, frags: usize, held: *mut u32, helds: usize) -> u32;
        pub fn welmocant_open_reading(state: *mut u32, states: usize, frag: *mut u32, frags: usize, held: *mut u32, helds: usize) -> u32;
        pub fn welmocant_take(state: *mut u32, states: usize, frag: *mut u32, frags: usize, held: *mut u32, helds: usize, block: *const u8, bytes: usize, place: *mut u64) -> u32;
        pub fn welmocant_close(state: *mut u32, states: usize, frag: *mut u32, frags: usize, held: *mut u32, helds: usize, ending: *mut u64) -> u32;
        pub fn welmocant_parent(state: *const u32, states: usize, frag: *const u32, frags: usize, held: *const u32, helds: usize, v: u32, answer: *mut u64) -> u32;
        pub fn welmocant_level(state: *const u32, states: usize, frag: *const u32, frags: usize, held: *const u32, helds: usize, v: u32, answer: *mut u64) -> u32;
        pub fn welmocant_piece(state: *const u32, states: usize, frag: *mut u32, frags: usize, held: *const u32, helds: usize, v: u32, answer: *mut u64) -> u32;
        pub fn welmocant_cut(state: *const u32, states: usize, frag: *const u32, frags: usize, held: *const u32, helds: usize, v: u32, answer: *mut u64) -> u32;
        pub fn welmocant_sole(state: *const u32, states: usize, frag: *const u32, frags: usize, held: *const u32, helds: usize, a: u32, b: u32, answer: *mut u64) -> u32;
        pub fn welmocant_begin(k: u32, telling: *mut u32, tellings: usize) -> u32;
        pub fn welmocant_tell(telling: *mut u32, tellings: usize, frag: *mut u32, frags: usize, held: *mut u32, helds: usize, buffer: *mut u8, bytes: usize, text: *mut u8, texts: usize, heard: usize) -> u32;
        pub fn welmocant_write_list(n: u32, words: *const u32, count: usize, buffer: *mut u8, bytes: usize, size: *mut u64) -> u32;
        pub fn welmocant_link_at(n: u32, entries: u32, block: *const u8, bytes: usize, at: usize, a: *mut u32, b: *mut u32, next: *mut u64) -> u32;
    }
}

/// Words of a state.
pub const STATE: usize = 7;

/// Words of the fragment table for each fragment.
pub const WORDS: usize = 16;

/// A refusal of document 01: its number, and its place in the block.
#[derive(Clone, Copy, Debug, PartialEq, Eq)]
pub struct Refusal {
    pub number: u32,
    pub place: u64,
}

/// How a pass ended.
#[derive(Clone, Copy, Debug, PartialEq, Eq)]
pub enum Ending {
    /// Fragments are left: the list is to be told again.
    More,
    /// The forest is built.
    Done,
    /// The list read has this forest.
    Read,
}

#[derive(Clone, Copy, Debug, PartialEq, Eq)]
pub enum Stage {
    Building,
    Built,
    Reading,
    Read,
}

/// A state with its two tables. The words may be looked at and changed: a call on words that are no state is refused with 11.
#[derive(Clone, Debug, PartialEq, Eq)]
pub struct Forest {
    pub state: [u32; STATE],
    pub frag: Vec<u32>,
    pub held: Vec<u32>,
}

fn done(number: u32, place: u64) -> Result<(), Refusal> {
    if number == 0 {
        Ok(())
    } else {
        Err(Refusal { number, place })
    }
}

fn answered(number: u32, answer: u64) -> Result<u64, Refusal> {
    if number == 0 {
        Ok(answer)
    } else {
        Err(Refusal { number, place: 0 })
    }
}

impl Forest {
    /// Tables of the least length for n fragments with room k.
    pub fn room(n: u32, k: u32) -> (Vec<u32>, Vec<u32>) {
        (vec![0; WORDS * n as usize], vec![0; k as usize * n as usize])
    }

    pub fn start(n: u32, k: u32) -> Result<Forest, Refusal> {
        let (n_room, k_room) = (n.min(32_768), k.min(64));
        let (frag, held) = Forest::room(n_room, k_room);
        Forest::start_in(n, k, frag, held)
    }

    /// Starts in tables of any length; words past those that the state needs are never written.
    pub fn start_in(n: u32, k: u32, frag: Vec<u32>, held: Vec<u32>) -> Result<Forest, Refusal> {
        let mut f = Forest { state: [0; STATE], frag, held };
        // Each pointer goes with the length of the slice that it comes from, here and below.
        let number = unsafe {
            c::welmocant_start(n, k, f.state.as_mut_ptr(), STATE, f.frag.as_mut_ptr(), f.frag.len(), f.held.as_mut_ptr(), f.held.len())
        };
        done(number, 0).map(|_| f)
    }

    /// A forest made elsewhere, by its parents.
    pub fn adopt(k: u32, parents: &[u32]) -> Result<Forest, Refusal> {
        let n = parents.len() as u32;
        let (frag, held) = Forest::room(n.min(32_768), k.min(64));
        let mut f = Forest { state: [0; STATE], frag, held };
        let number = unsafe {
            c::welmocant_adopt(n, k, parents.as_ptr(), parents.len(), f.state.as_mut_ptr(), STATE, f.frag.as_mut_ptr(), f.frag.len(), f.held.as_mut_ptr(), f.held.len())
        };
        done(number, 0).map(|_| f)
    }

    pub fn open_reading(&mut self) -> Result<(), Refusal> {
        let number = unsafe {
            c::welmocant_open_reading(self.state.as_mut_ptr(), STATE, self.frag.as_mut_ptr(), self.frag.len(), self.held.as_mut_ptr(), self.held.len())
        };
        done(number, 0)
    }

    /// Takes a block of whole links.
    pub fn take(&mut self, block: &[u8]) -> Result<(), Refusal> {
        let mut place = 0;
        let number = unsafe {
            c::welmocant_take(self.state.as_mut_ptr(), STATE, self.frag.as_mut_ptr(), self.frag.len(), self.held.as_mut_ptr(), self.held.len(), block.as_ptr(), block.len(), &mut place)
        };
        done(number, place)
    }

    pub fn close(&mut self) -> Result<Ending, Refusal> {
        let mut ending = 0;
        let number = unsafe {
            c::welmocant_close(self.state.as_mut_ptr(), STATE, self.frag.as_mut_ptr(), self.frag.len(), self.held.as_mut_ptr(), self.held.len(), &mut ending)
        };
        answered(number, ending).map(|e| match e {
            0 => Ending::More,
            1 => Ending::Done,
            _ => Ending::Read,
        })
    }

    pub fn parent(&self, v: u32) -> Result<u32, Refusal> {
        let mut answer = 0;
        let number = unsafe {
            c::welmocant_parent(self.state.as_ptr(), STATE, self.frag.as_ptr(), self.frag.len(), self.held.as_ptr(), self.held.len(), v, &mut answer)
        };
        answered(number, answer).map(|x| x as u32)
    }

    pub fn level(&self, v: u32) -> Result<u32, Refusal> {
        let mut answer = 0;
        let number = unsafe {
            c::welmocant_level(self.state.as_ptr(), STATE, self.frag.as_ptr(), self.frag.len(), self.held.as_ptr(), self.held.len(), v, &mut answer)
        };
        answered(number, answer).map(|x| x as u32)
    }

    /// The smallest fragment of v's tree. In Built scratch words are used and cleared again.
    pub fn piece(&mut self, v: u32) -> Result<u32, Refusal> {
        let mut answer = 0;
        let number = unsafe {
            c::welmocant_piece(self.state.as_ptr(), STATE, self.frag.as_mut_ptr(), self.frag.len(), self.held.as_ptr(), self.held.len(), v, &mut answer)
        };
        answered(number, answer).map(|x| x as u32)
    }

    /// Whether v is a cut fragment.
    pub fn cut(&self, v: u32) -> Result<bool, Refusal> {
        let mut answer = 0;
        let number = unsafe {
            c::welmocant_cut(self.state.as_ptr(), STATE, self.frag.as_ptr(), self.frag.len(), self.held.as_ptr(), self.held.len(), v, &mut answer)
        };
        answered(number, answer).map(|x| x == 1)
    }

    pub fn sole(&self, a: u32, b: u32) -> Result<bool, Refusal> {
        let mut answer = 0;
        let number = unsafe {
            c::welmocant_sole(self.state.as_ptr(), STATE, self.frag.as_ptr(), self.frag.len(), self.held.as_ptr(), self.held.len(), a, b, &mut answer)
        };
        answered(number, answer).map(|x| x == 1)
    }

    /// The stage, where the state is one.
    pub fn stage(&self) -> Option<Stage> {
        match self.state[2] {
            0 => Some(Stage::Building),
            1 => Some(Stage::Built),
            2 => Some(Stage::Reading),
            3 => Some(Stage::Read),
            _ => None,
        }
    }

    /// Closes accepted in Building since the start.
    pub fn passes(&self) -> u32 {
        self.state[3]
    }

    /// Entries taken in this pass.
    pub fn entries(&self) -> u32 {
        self.state[4]
    }
}

/// The head of a list file, from its first bytes: the number of fragments, and the byte where the links begin.
pub fn head(file: &[u8]) -> Result<(u32, u64), Refusal> {
    let (mut n, mut begins) = (0, 0);
    let number = unsafe { c::welmocant_head(file.as_ptr(), file.len(), &mut n, &mut begins) };
    answered(number, begins).map(|begins| (n, begins))
}

/// How many of a buffer's bytes are whole links: a block. The others begin the next buffer; at the list's end they are taken as they are.
pub fn whole(buffer: &[u8]) -> usize {
    unsafe { c::welmocant_whole(buffer.as_ptr(), buffer.len()) }
}

/// Writes a list, n and then the links of two words each, at the front of a buffer: how many bytes it has.
pub fn write_list(n: u32, words: &[u32], buffer: &mut [u8]) -> Result<usize, Refusal> {
    let mut size = 0;
    let number = unsafe { c::welmocant_write_list(n, words.as_ptr(), words.len(), buffer.as_mut_ptr(), buffer.len(), &mut size) };
    answered(number, size).map(|size| size as usize)
}

/// The link at a byte of a block, of which so many entries were read before: its two ends, and the byte behind it.
pub fn link_at(n: u32, entries: u32, block: &[u8], at: usize) -> Result<(u32, u32, usize), Refusal> {
    let (mut a, mut b, mut next) = (0, 0, 0);
    let number = unsafe { c::welmocant_link_at(n, entries, block.as_ptr(), block.len(), at, &mut a, &mut b, &mut next) };
    done(number, next).map(|_| (a, b, next as usize))
}

/// A number in groups of seven bits, lowest first.
pub fn put_number(bytes: &mut Vec<u8>, mut x: u32) {
    while x >= 128 {
        bytes.push((x % 128) as u8 + 128);
        x /= 128;
    }
    bytes.push(x as u8);
}

/// The bytes of links, as a block.
pub fn block(links: &[(u32, u32)]) -> Vec<u8> {
    let mut bytes = Vec::with_capacity(links.len() * 4);
    for &(a, b) in links {
        put_number(&mut bytes, a);
        put_number(&mut bytes, b);
    }
    bytes
}

#[cfg(test)]
mod tests {
    use super::*;

    /// Heads of list files: n at its limits, every refusal, and the links' first byte.
    #[test]
    fn heads() {
        let refused = |number| Err(Refusal { number, place: 0 });
        for (bytes, answer) in [
            (&[4u8, 0, 1][..], Ok((4, 1))),
            (&[0x80, 0x80, 0x02], Ok((32_768, 3))),
            (&[0x81, 0x80, 0x02], refused(1)),
            (&[0], refused(1)),
            (&[0x80, 0], refused(7)),
            (&[0x80, 0x80, 0x80], refused(7)),
            (&[0x80, 0x80], refused(8)),
            (&[], refused(8)),
        ] {
            assert_eq!(head(bytes), answer, "{bytes:?}");
        }
    }

    /// Links of two to six bytes, cut at every byte: the bytes of whole links, and all of them from a number in a wrong form on.
    #[test]
    fn wholes() {
        let mut bytes = vec![];
        let mut ends = vec![0];
        for (a, b) in [(1, 2), (127, 128), (128, 128), (3, 16_384), (16_384, 130), (32_767, 32_766)] {
            put_number(&mut bytes, a);
            put_number(&mut bytes, b);
            ends.push(bytes.len());
        }
        for len in 0..=bytes.len() {
            let last = ends.iter().rev().find(|&&end| end <= len).unwrap();
            assert_eq!(whole(&bytes[..len]), *last, "{len} bytes");
        }
        assert_eq!(whole(&[1, 2, 0x80, 0, 5]), 5);
    }

    /// What the list writer writes is what plain Rust writes, is read back link by link, and leaves the bytes behind it; its refusals, which
    /// change no byte, and those of a link with their place.
    #[test]
    fn lists_written_and_read() {
        let (words, mut buffer, mut list) = ([0, 127, 128, 32_767, 16_384, 3], [170; 32], vec![]);
        let size = write_list(32_768, &words, &mut buffer).unwrap();
        plain::encode(32_768, &words, &mut list).unwrap();
        assert_eq!(buffer[..size], list);
        assert_eq!(buffer[size..], [170; 32][size..]);
        let (n, mut at) = head(&buffer[..size]).map(|(n, at)| (n, at as usize)).unwrap();
        for (entries, link) in words.chunks(2).enumerate() {
            let (a, b, next) = link_at(n, entries as u32, &buffer[..size], at).unwrap();
            assert_eq!([a, b], link);
            at = next;
        }
        assert_eq!((n, at), (32_768, size));
        let refused = |number, place| Refusal { number, place };
        assert_eq!(link_at(n, 3, &buffer[..size], size), Err(refused(8, size as u64)));
        assert_eq!(link_at(n, 16_777_215, &buffer[..size], 3), Err(refused(12, 3)));
        let mut buffer = [170; 32];
        for (n, words, number) in [(0, &[0, 1][..], 1), (32_769, &[0, 1], 1), (4, &[0, 4], 4), (4, &[2, 2], 5), (4, &[0, 1, 2], 8)] {
            assert_eq!(write_list(n, words, &mut buffer), Err(refused(number, 0)), "{n} {words:?}");
            assert_eq!(plain::encode(n, words, &mut list), Err(number), "{n} {words:?}");
        }
        for room in 0..size {
            assert_eq!(write_list(32_768, &words, &mut buffer[..room]), Err(refused(3, 0)), "{room} bytes");
        }
        assert_eq!(buffer, [170; 32]);
    }

    /// An array too short for a state: 3, after 1 and 2 where n and k are given.
    #[test]
    fn short_state() {
        let (mut state, mut frag, mut held, mut out) = ([5u32; 6], [8u32; 16], [8u32; 1], 7u64);
        let (s, f, h) = (state.as_mut_ptr(), frag.as_mut_ptr(), held.as_mut_ptr());
        let parents = [0u32];
        // Six words are lent of six, and so for the tables: no call may touch more.
        unsafe {
            for (n, k, number) in [(1, 1, 3), (0, 1, 1), (1, 65, 2), (2, 1, 3)] {
                assert_eq!(c::welmocant_start(n, k, s, 6, f, 16, h, 1), number);
                assert_eq!(c::welmocant_adopt(n, k, parents.as_ptr(), 1, s, 6, f, 16, h, 1), number);
            }
            assert_eq!(c::welmocant_open_reading(s, 6, f, 16, h, 1), 3);
            assert_eq!(c::welmocant_take(s, 6, f, 16, h, 1, [].as_ptr(), 0, &mut out), 3);
            assert_eq!(c::welmocant_close(s, 6, f, 16, h, 1, &mut out), 3);
            assert_eq!(c::welmocant_parent(s, 6, f, 16, h, 1, 0, &mut out), 3);
            assert_eq!(c::welmocant_level(s, 6, f, 16, h, 1, 0, &mut out), 3);
            assert_eq!(c::welmocant_piece(s, 6, f, 16, h, 1, 0, &mut out), 3);
            assert_eq!(c::welmocant_cut(s, 6, f, 16, h, 1, 0, &mut out), 3);
            assert_eq!(c::welmocant_sole(s, 6, f, 16, h, 1, 0, 0, &mut out), 3);
        }
        assert_eq!((state, frag, held, out), ([5; 6], [8; 16], [8], 0));
    }
}
