//! The known instances through the calls: P1 to P10 of document 01, and Q1 to Q6 (docs/RULES.md).

mod common;

use common::{build, tell};
use welmocant::plain::Link;
use welmocant::{Ending, Forest, Refusal};

/// Built in one block a pass, read and asked: passes, parents, sole links and cut fragments.
fn instance(n: u32, k: u32, links: &[Link]) -> (u32, Vec<u32>, Vec<Link>, Vec<u32>) {
    let mut forest = build(n, k, links, usize::MAX);
    forest.open_reading().unwrap();
    tell(&mut forest, links, usize::MAX);
    assert_eq!(forest.close(), Ok(Ending::Read));
    let parents = (0..n).map(|v| forest.parent(v).unwrap()).collect();
    let soles = (0..n).flat_map(|a| (a + 1..n).map(move |b| (a, b))).filter(|&(a, b)| forest.sole(a, b).unwrap()).collect();
    let cuts = (0..n).filter(|&v| forest.clone().cut(v).unwrap()).collect();
    (forest.passes(), parents, soles, cuts)
}

fn read(parents: &[u32], links: &[Link]) -> Result<Ending, Refusal> {
    let mut forest = Forest::adopt(1, parents)?;
    forest.open_reading()?;
    tell(&mut forest, links, usize::MAX);
    forest.close()
}

#[test]
fn built() {
    let square = [(0, 1), (0, 2), (0, 3), (1, 2)];
    let triangle = [(0, 2), (1, 2), (0, 1)];
    assert_eq!(instance(4, 1, &square), (2, vec![0, 0, 1, 0], vec![(0, 3)], vec![0]));
    assert_eq!(instance(4, 2, &square), (1, vec![0, 0, 1, 0], vec![(0, 3)], vec![0]));
    assert_eq!(instance(3, 1, &triangle), (1, vec![0, 2, 0], vec![], vec![]));
    assert_eq!(instance(3, 2, &triangle), (1, vec![0, 0, 1], vec![], vec![]));
    assert_eq!(instance(1, 1, &[]), (1, vec![0], vec![], vec![]));
    assert_eq!(instance(3, 1, &[(0, 1), (0, 1), (1, 2)]), (1, vec![0, 0, 1], vec![(0, 1), (1, 2)], vec![1]));
    assert_eq!(instance(4, 1, &[(0, 1), (0, 2), (1, 3), (2, 3)]), (2, vec![0, 0, 3, 1], vec![], vec![]));
}

/// Built from lists that are told one after another, the last one until all is placed: passes and parents.
fn built_from(n: u32, k: u32, lists: &[&[Link]]) -> (u32, Vec<u32>) {
    let mut forest = Forest::start(n, k).unwrap();
    for links in lists.iter().chain(std::iter::repeat(&lists[lists.len() - 1])) {
        tell(&mut forest, links, usize::MAX);
        if forest.close() == Ok(Ending::Done) {
            break;
        }
    }
    (forest.passes(), (0..n).map(|v| forest.parent(v).unwrap()).collect())
}

/// Each holds one choice of B2 to B5 that P1 to P10 leave open.
#[test]
fn pinned() {
    // The smallest member that noted it is the top.
    assert_eq!(built_from(4, 1, &[&[(0, 2), (0, 3), (0, 1), (3, 2)]]), (2, vec![0, 0, 0, 2]));
    // The first reached among equals is the deepest.
    assert_eq!(built_from(3, 1, &[&[(1, 0), (0, 2), (2, 1)]]), (2, vec![0, 0, 1]));
    // A piece of s holds k·s - 1 links.
    assert_eq!(built_from(5, 2, &[&[(0, 3), (0, 4), (4, 2), (4, 3), (1, 4), (1, 2), (0, 2), (1, 3), (1, 0)]]), (1, vec![0, 0, 1, 4, 2]));
    // Of two noted of equal level the smaller number, in passes that differ.
    assert_eq!(built_from(4, 1, &[&[(1, 0), (0, 3), (3, 1), (0, 3)], &[(3, 2), (3, 0)]]), (2, vec![0, 0, 2, 0]));
    // The deeper one stays noted, though another is told last.
    assert_eq!(built_from(3, 1, &[&[(0, 1), (0, 2), (1, 2), (0, 2)]]), (2, vec![0, 0, 1]));
    // A link held already fills no room.
    assert_eq!(built_from(3, 1, &[&[(0, 1), (0, 1), (0, 2)]]), (1, vec![0, 0, 0]));
}

#[test]
fn adopted() {
    let nine = Err(Refusal { number: 9, place: 0 });
    assert_eq!(read(&[0, 0, 0], &[(0, 2), (1, 2), (0, 1)]), nine);
    assert_eq!(read(&[0, 0], &[]), nine);
    assert_eq!(read(&[1, 0], &[]), Err(Refusal { number: 10, place: 0 }));
}
