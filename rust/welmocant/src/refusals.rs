//! Document 01's refusals in sentences: what is wrong, and what to do about it.

use crate::failure::{Failure, REFUSED};
use std::path::Path;
use welmocant::Refusal;

/// What is wrong, and what to do.
pub fn meaning(number: u32) -> (&'static str, &'static str) {
    match number {
        1 => ("the list says that it has no fragments, or more than 32,768", "Check that the file is a list of links; `welmocant pack` makes one"),
        2 => ("the room is 0, or more than 64", "Give --room a number from 1 to 64"),
        3 => ("the memory that the list was to be worked on in is too small", "This is a fault of the program; please report it"),
        4 => ("a link names a fragment that the list does not have", "Fragments are numbered from 0 to one less than there are; correct the link, or the number of fragments"),
        5 => ("a link joins a fragment to itself", "Take that link out of the list"),
        6 => ("the steps of the work came in a wrong order", "This is a fault of the program; please report it"),
        7 => ("a number is not written as a list has it: not in its shortest form, or too long", "The file is damaged, or it is no list of links; fetch it again, or make it with `welmocant pack`"),
        8 => ("the file ends in the middle of a number or a link, or it is empty", "It is cut short; fetch the whole file again"),
        9 => ("the list was changed while it was read, or its links do not have the forest that was built from them", "Call again when nobody is writing the file"),
        10 => ("a forest made elsewhere is none", "This is a fault of the program; please report it"),
        11 => ("the memory that the list is worked on in was changed from outside", "Call again; if it comes again, the machine's memory may be bad"),
        12 => ("the list has more than 16,777,215 links", "Take out the links that stand twice, or split the list"),
        _ => ("the library refused it with a number that is not known here", "This is a fault of the program; please report it"),
    }
}

/// `refused R at byte P: ..`; the place is a byte of the file for 4, 5, 7, 8 and 12, and there is none for the others.
pub fn sentence(refusal: Refusal) -> String {
    let (wrong, help) = meaning(refusal.number);
    match refusal.number {
        4 | 5 | 7 | 8 | 12 => format!("refused {} at byte {}: {wrong}. {help}.", refusal.number, refusal.place),
        number => format!("refused {number}: {wrong}. {help}."),
    }
}

pub fn refused(file: &Path, refusal: Refusal) -> Failure {
    Failure::of_file(REFUSED, file, sentence(refusal))
}

/// Each of the twelve has a sentence of its own, and says what to do.
#[test]
fn every_number() {
    let sentences: std::collections::HashSet<String> = (1..=12).map(|number| sentence(Refusal { number, place: 0 })).collect();
    assert_eq!(sentences.len(), 12);
    assert!((1..=12).all(|number| meaning(number).0 != meaning(13).0 && !meaning(number).1.is_empty()));
}
