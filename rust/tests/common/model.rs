//! The rules of document 01 once more, one after another and in no hurry, with every word that is stored: what the trials hold the library's
//! words to. Where `plain` goes quick ways, this goes those of the document.

use crate::common::numbers;
use std::collections::HashSet;
use welmocant::plain::Link;
use welmocant::{Ending, Forest, Stage, STATE, WORDS};

pub struct Model {
    n: u32,
    k: u32,
    stage: Stage,
    passes: u32,
    entries: u32,
    crossed: bool,
    /// As the fragment table has them: docs/TABLES.md.
    parent: Vec<u32>,
    level: Vec<u32>,
    note: Vec<u32>,
    mark: Vec<u32>,
    /// The held links in order of arrival, smaller end first, and as a set.
    held: Vec<Link>,
    among: HashSet<Link>,
    /// The smallest member of each fragment's piece.
    piece: Vec<u32>,
}

impl Model {
    pub fn start(n: u32, k: u32) -> Self {
        let empty = || vec![0; n as usize];
        Model {
            n,
            k,
            stage: Stage::Building,
            passes: 0,
            entries: 0,
            crossed: false,
            parent: empty(),
            level: empty(),
            note: empty(),
            mark: empty(),
            held: Vec::new(),
            among: HashSet::new(),
            piece: (0..n).collect(),
        }
    }

    /// A forest made elsewhere, by its parents and their levels.
    pub fn adopt(k: u32, parents: &[u32], levels: &[u32]) -> Self {
        let mut model = Model::start(parents.len() as u32, k);
        model.parent = parents.to_vec();
        model.level = levels.iter().map(|l| l + 1).collect();
        model.stage = Stage::Built;
        model
    }

    fn placed(&self, v: u32) -> bool {
        self.level[v as usize] > 0
    }

    pub fn take(&mut self, links: &[Link]) {
        for &(a, b) in links {
            self.entries += 1;
            if self.stage == Stage::Reading {
                self.read_link(a, b);
                continue;
            }
            match (self.placed(a), self.placed(b)) {
                (true, true) => {}
                (true, false) => self.note_placed(b, a),
                (false, true) => self.note_placed(a, b),
                (false, false) => self.hold(a, b),
            }
        }
    }

    /// Of two notes the better, 0 for none: of greater level, or of the same with a smaller number.
    fn better(&self, old: u32, new: u32) -> u32 {
        let order = |note: u32| (self.level[note as usize - 1], std::cmp::Reverse(note));
        match (old, new) {
            (0, _) => new,
            (_, 0) => old,
            _ if order(new) > order(old) => new,
            _ => old,
        }
    }

    /// B2.
    fn note_placed(&mut self, u: u32, p: u32) {
        self.note[u as usize] = self.better(self.note[u as usize], p + 1);
    }

    /// B3.
    fn hold(&mut self, a: u32, b: u32) {
        let link = (a.min(b), a.max(b));
        if self.among.contains(&link) {
            return;
        }
        let (p, q) = (self.piece[a as usize], self.piece[b as usize]);
        if p == q {
            let size = self.piece.iter().filter(|&&x| x == p).count();
            let inside = self.held.iter().filter(|l| self.piece[l.0 as usize] == p).count();
            if inside + 1 >= self.k as usize * size {
                self.mark[p as usize] = 1;
                return;
            }
        }
        self.held.push(link);
        self.among.insert(link);
        for x in &mut self.piece {
            if *x == p.max(q) {
                *x = p.min(q);
            }
        }
    }

    /// B4 to B6.
    fn end_building(&mut self) -> Ending {
        for p in 0..self.n {
            if !self.placed(p) && self.piece[p as usize] == p {
                self.place_piece(p);
            }
        }
        self.clear();
        self.passes += 1;
        if (0..self.n).any(|v| !self.placed(v)) {
            return Ending::More;
        }
        self.stage = Stage::Built;
        Ending::Done
    }

    fn place_piece(&mut self, p: u32) {
        let members: Vec<u32> = (0..self.n).filter(|&v| self.piece[v as usize] == p).collect();
        let best = members.iter().fold(0, |best, &v| self.better(best, self.note[v as usize]));
        let top = if best == 0 { p } else { *members.iter().find(|&&v| self.note[v as usize] == best).unwrap() };
        let (parent, level) = if best == 0 { (top, 1) } else { (best - 1, self.level[best as usize - 1] + 1) };
        let mut walk = Vec::new();
        self.walk(top, parent, level, &mut vec![false; self.n as usize], &mut walk);
        if members.iter().any(|&v| self.mark[v as usize] > 0) {
            walk = path_to_deepest(&walk);
        }
        for (v, parent, level) in walk {
            (self.parent[v as usize], self.level[v as usize]) = (parent, level);
        }
    }

    /// B5: each member with its parent and its level, in the order of reaching.
    fn walk(&self, v: u32, parent: u32, level: u32, reached: &mut [bool], walk: &mut Vec<(u32, u32, u32)>) {
        reached[v as usize] = true;
        walk.push((v, parent, level));
        for w in 0..self.n {
            if !reached[w as usize] && self.among.contains(&(v.min(w), v.max(w))) {
                self.walk(w, v, level + 1, reached, walk);
            }
        }
    }

    fn clear(&mut self) {
        self.note.fill(0);
        self.mark.fill(0);
        self.held.clear();
        self.among.clear();
        self.piece = (0..self.n).collect();
        self.entries = 0;
        self.crossed = false;
    }

    pub fn open_reading(&mut self) {
        self.clear();
        self.stage = Stage::Reading;
    }

    /// a stands on b's way to the root, or is b.
    fn above(&self, a: u32, b: u32) -> bool {
        let mut at = b;
        while at != a && self.parent[at as usize] != at {
            at = self.parent[at as usize];
        }
        at == a
    }

    /// What v hears of a link to w.
    fn hear(&mut self, v: u32, w: u32) {
        let (v, w) = (v as usize, w as usize);
        if self.parent[v] as usize == w {
            self.mark[v] = 1;
        } else {
            self.note[v] = self.note[v].max(self.level[v].saturating_sub(self.level[w]));
        }
    }

    fn read_link(&mut self, a: u32, b: u32) {
        self.crossed |= !self.above(a, b) && !self.above(b, a);
        self.hear(a, b);
        self.hear(b, a);
    }

    /// `None`: refusal 9.
    fn end_reading(&mut self) -> Option<Ending> {
        let seen = |v: u32| self.parent[v as usize] == v || self.mark[v as usize] > 0;
        if !self.crossed && (0..self.n).all(seen) {
            self.stage = Stage::Read;
            return Some(Ending::Read);
        }
        self.clear();
        self.stage = Stage::Built;
        None
    }

    pub fn close(&mut self) -> Option<Ending> {
        match self.stage {
            Stage::Building => Some(self.end_building()),
            _ => self.end_reading(),
        }
    }

    /// Every word of the state and of tables of the least length.
    pub fn words(&self) -> Forest {
        let stage = match self.stage {
            Stage::Building => 0,
            Stage::Built => 1,
            Stage::Reading => 2,
            Stage::Read => 3,
        };
        let state: [u32; STATE] = [self.n, self.k, stage, self.passes, self.entries, self.held.len() as u32, self.crossed as u32];
        let mut frag = [&self.parent[..], &self.level, &self.note, &self.mark].concat();
        if stage >= 2 {
            frag.extend(numbers(&self.parent, 0..self.n));
        }
        frag.resize(WORDS * self.n as usize, 0);
        let mut held: Vec<u32> = self.held.iter().map(|&(a, b)| a * 32_768 + b).collect();
        held.resize((self.k * self.n) as usize, 0);
        Forest { state, frag, held }
    }
}

/// Of a walk only the path from the top to the deepest member, the first reached among equals.
fn path_to_deepest(walk: &[(u32, u32, u32)]) -> Vec<(u32, u32, u32)> {
    let mut deepest = walk[0];
    for &reached in walk {
        if reached.2 > deepest.2 {
            deepest = reached;
        }
    }
    let mut path = vec![deepest];
    let mut at = deepest;
    while at.0 != walk[0].0 {
        at = *walk.iter().find(|reached| reached.0 == at.1).unwrap();
        path.push(at);
    }
    path
}
