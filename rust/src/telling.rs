//! A list file told as it is read: the caller reads, tells what the read answered, and does what is answered.

use crate::{c, Forest, Refusal, STATE};

/// Words of a telling.
pub const TELLING: usize = 13;

const STEP: usize = STATE;
const PLACE: usize = STATE + 1;
const HAVE: usize = STATE + 3;
const REFUSAL: usize = STATE + 5;

/// The step of a telling that is over.
const OVER: u32 = 3;

/// What was heard of the file.
#[derive(Clone, Copy, Debug, PartialEq, Eq)]
pub enum Heard {
    /// So many bytes were read behind those at the buffer's front. None is not the end: nothing is told then.
    Bytes(usize),
    /// The end of the file.
    End,
    /// A read that failed.
    Failed,
    /// There is no such file.
    NoFile,
}

/// What to do next. But for the first two the telling is over, and so many bytes of the text are to be printed.
#[derive(Clone, Copy, Debug, PartialEq, Eq)]
pub enum Next {
    /// Read more, behind the bytes at the buffer's front.
    More,
    /// Read again, from the start of the file.
    Again,
    Report(usize),
    Refused(Refusal, usize),
    NoFile(usize),
    /// A read failed: nothing is to be printed.
    Failed,
}

/// Bytes of text that are enough for every report on n fragments, and for every other line.
pub fn text_room(n: u32) -> usize {
    256 + 80 * n as usize
}

/// A telling with its two tables.
#[derive(Clone, Debug, PartialEq, Eq)]
pub struct Telling {
    words: [u32; TELLING],
    frag: Vec<u32>,
    held: Vec<u32>,
}

impl Telling {
    /// Nothing told yet, with tables for n fragments: the number that `head` finds in the first bytes read, or 0 where it refuses them.
    pub fn begin(n: u32, k: u32) -> Telling {
        let (frag, held) = Forest::room(n.min(32_768), k.min(64));
        let mut words = [0; TELLING];
        // The array is long enough, so nothing is refused. Each pointer goes with the length of the slice that it comes from, here and below.
        unsafe { c::welmocant_begin(k, words.as_mut_ptr(), TELLING) };
        Telling { words, frag, held }
    }

    fn wide(&self, at: usize) -> u64 {
        self.words[at] as u64 | (self.words[at + 1] as u64) << 32
    }

    /// How many bytes stand at the buffer's front: the next read goes behind them. None where it is over.
    pub fn have(&self) -> usize {
        if self.words[STEP] >= OVER {
            return 0;
        }
        self.wide(HAVE) as usize
    }

    /// Tells what was heard. The buffer is the one of the call before, with the bytes of `Heard::Bytes` behind those at its front; more of them
    /// than it has room for are refused (3), and nothing is told.
    pub fn tell(&mut self, buffer: &mut [u8], text: &mut [u8], heard: Heard) -> Next {
        let heard = match heard {
            Heard::Bytes(0) => return Next::More,
            Heard::Bytes(count) if count > buffer.len().saturating_sub(self.have()) => return Next::Refused(Refusal { number: 3, place: 0 }, 0),
            Heard::Bytes(count) => count,
            Heard::End => 0,
            Heard::Failed => usize::MAX,
            Heard::NoFile => usize::MAX - 1,
        };
        let answer = unsafe {
            c::welmocant_tell(self.words.as_mut_ptr(), TELLING, self.frag.as_mut_ptr(), self.frag.len(), self.held.as_mut_ptr(), self.held.len(), buffer.as_mut_ptr(), buffer.len(), text.as_mut_ptr(), text.len(), heard)
        };
        let printed = text.len().min(self.wide(HAVE) as usize);
        match answer {
            0 => Next::More,
            1 => Next::Again,
            2 => Next::Report(printed),
            3 => Next::Refused(Refusal { number: self.words[REFUSAL], place: self.wide(PLACE) }, printed),
            4 => Next::NoFile(printed),
            _ => Next::Failed,
        }
    }

    /// Passes that ended while the forest was built.
    pub fn passes(&self) -> u32 {
        self.words[3]
    }

    /// How many fragments are placed, by section 1 of the fragment table: for showing how far it is.
    pub fn placed(&self) -> usize {
        let n = self.words[0] as usize;
        self.frag.get(n..2 * n).map_or(0, |levels| levels.iter().filter(|&&level| level > 0).count())
    }
}

#[cfg(test)]
mod tests {
    use super::*;

    const SQUARE: [u8; 9] = [4, 0, 1, 0, 2, 0, 3, 1, 2];
    const LINES: &str = "fragments 4 links 4 passes 1\n0 parent 0 piece 0 cut yes\n1 parent 0 piece 0 cut no\n2 parent 1 piece 0 cut no\n3 parent 0 piece 0 cut no\nsole 0 3\n";

    /// Tells a file in parts of at most so many bytes, in a buffer of this room; the last answer and the text.
    fn told(telling: &mut Telling, file: &[u8], part: usize, room: usize) -> (Next, String) {
        let (mut buffer, mut text, mut at) = (vec![0; room], vec![0; text_room(4)], 0);
        loop {
            let have = telling.have();
            let count = part.min(file.len() - at).min(room - have);
            buffer[have..have + count].copy_from_slice(&file[at..at + count]);
            at += count;
            let next = telling.tell(&mut buffer, &mut text, if count == 0 { Heard::End } else { Heard::Bytes(count) });
            match next {
                Next::More => {}
                Next::Again => at = 0,
                Next::Report(size) | Next::Refused(_, size) | Next::NoFile(size) => return (next, String::from_utf8(text[..size].to_vec()).unwrap()),
                Next::Failed => return (next, String::new()),
            }
        }
    }

    /// Parts of every size, in buffers from the least on, give the same report; the fragments are placed then.
    #[test]
    fn parts_of_a_file() {
        for part in 1..=9 {
            for room in 6..=16 {
                let mut telling = Telling::begin(4, 4);
                let (next, text) = told(&mut telling, &SQUARE, part, room);
                assert_eq!((next, text.as_str()), (Next::Report(LINES.len()), LINES), "{part} {room}");
                assert_eq!((telling.passes(), telling.placed()), (1, 4));
            }
        }
    }

    /// Each way in which it ends without a report.
    #[test]
    fn refusals() {
        let ends = |file: &[u8], n, k| told(&mut Telling::begin(n, k), file, 3, 8);
        for (file, n, k, number, place) in [
            (&[][..], 0, 4, 8, 0),
            (&[0], 0, 4, 1, 0),
            (&[0x80, 0], 0, 4, 7, 0),
            (&SQUARE, 4, 65, 2, 0),
            (&SQUARE, 3, 4, 3, 0),
            (&[4, 0, 1, 2, 2], 4, 4, 5, 3),
            (&[4, 0, 1, 0, 2, 0, 3, 1, 4], 4, 4, 4, 7),
            (&[4, 0, 1, 3], 4, 4, 8, 3),
        ] {
            let (next, text) = ends(file, n, k);
            assert_eq!(text, format!("refused {number} at {place}\n"));
            assert_eq!(next, Next::Refused(Refusal { number, place }, text.len()));
        }
        let (mut buffer, mut text) = ([4, 0, 1, 0, 0, 0], [0; 256]);
        assert_eq!(Telling::begin(4, 4).tell(&mut buffer, &mut text, Heard::NoFile), Next::NoFile(8));
        assert_eq!(&text[..8], b"no file\n");
        let mut telling = Telling::begin(4, 4);
        assert_eq!(telling.tell(&mut buffer, &mut text, Heard::Bytes(3)), Next::More);
        assert_eq!(telling.tell(&mut buffer, &mut text, Heard::Failed), Next::Failed);
    }

    /// More bytes than the buffer has room for are never lent, and no bytes are no end.
    #[test]
    fn wrong_counts() {
        let (mut buffer, mut text) = ([4, 0, 1, 0, 0, 0], [0; 256]);
        let mut telling = Telling::begin(4, 4);
        assert_eq!(telling.tell(&mut buffer, &mut text, Heard::Bytes(4)), Next::More);
        let before = telling.clone();
        assert_eq!((telling.have(), buffer[0]), (1, 0));
        let refused = Next::Refused(Refusal { number: 3, place: 0 }, 0);
        for count in [6, 7, usize::MAX - 1, usize::MAX] {
            assert_eq!(telling.tell(&mut buffer, &mut text, Heard::Bytes(count)), refused, "{count}");
        }
        assert_eq!(telling.tell(&mut [], &mut text, Heard::Bytes(1)), refused);
        assert_eq!(telling.tell(&mut buffer, &mut text, Heard::Bytes(0)), Next::More);
        assert_eq!(telling, before);
        // What is read for a telling that is over is refused, too.
        assert_eq!(told(&mut telling, &[1], 1, 6).0, Next::Refused(Refusal { number: 9, place: 0 }, 15));
        assert_eq!((telling.have(), telling.tell(&mut buffer, &mut text, Heard::Bytes(1))), (0, Next::Refused(Refusal { number: 6, place: 0 }, 15)));
    }
}
