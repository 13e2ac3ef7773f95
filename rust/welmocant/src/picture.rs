//! The pieces that have sole links, drawn by Graphviz.

use crate::failure::{Failure, NO_PICTURE};
use crate::forms::{lines, Line};
use crate::whole::Whole;
use std::collections::HashSet;
use std::fmt::Write as _;
use std::io::{self, ErrorKind, Write};
use std::path::Path;
use std::process::{Command, Output, Stdio};

/// More fragments than this are no picture that anybody could look at, and take Graphviz too long.
const DRAWN_MOST: usize = 2_000;

/// A file for the picture, and a Graphviz that answers.
pub struct Canvas(Whole);

impl Canvas {
    /// What is missing is said before the list is read.
    pub fn prepared(svg: &Path) -> Result<Canvas, Failure> {
        match Command::new("dot").arg("-V").stdin(Stdio::null()).output() {
            Ok(said) if said.status.success() => Whole::new(svg).map(Canvas),
            Ok(said) => Err(failed(&said)),
            Err(error) => Err(missing(&error)),
        }
    }

    pub fn draw(mut self, text: &[u8]) -> Result<(), Failure> {
        let graph = graph(&lines(text)?)?;
        let drawn = drawn(&graph).map_err(|error| missing(&error))?;
        if !drawn.status.success() || !String::from_utf8_lossy(&drawn.stdout).trim_end().ends_with("</svg>") {
            return Err(failed(&drawn));
        }
        self.0.write(&drawn.stdout)?;
        self.0.finish()
    }
}

fn missing(error: &io::Error) -> Failure {
    match error.kind() {
        ErrorKind::NotFound => Failure::new(NO_PICTURE, "the picture needs Graphviz, which is not here: install the package graphviz (as root: apt-get install graphviz)"),
        _ => Failure::new(NO_PICTURE, format_args!("Graphviz could not be called for the picture: {error}")),
    }
}

fn failed(said: &Output) -> Failure {
    let why = String::from_utf8_lossy(&said.stderr);
    Failure::new(NO_PICTURE, format_args!("Graphviz failed to draw the picture ({}): {}", said.status, why.lines().next().unwrap_or("it said nothing")))
}

/// Graphviz reads the graph while it may already write.
fn drawn(graph: &str) -> io::Result<Output> {
    let mut dot = Command::new("dot").arg("-Tsvg").stdin(Stdio::piped()).stdout(Stdio::piped()).stderr(Stdio::piped()).spawn()?;
    let mut input = dot.stdin.take().expect("it is piped");
    let graph = graph.as_bytes().to_vec();
    // Where Graphviz stops reading its status says so.
    let teller = std::thread::spawn(move || input.write_all(&graph));
    let output = dot.wait_with_output();
    let _ = teller.join();
    output
}

/// The graph in Graphviz's language.
fn graph(lines: &[Line]) -> Result<String, Failure> {
    let soles: HashSet<(u32, u32)> = lines.iter().filter_map(|line| if let Line::Sole(a, b) = line { Some((*a, *b)) } else { None }).collect();
    let is_sole = |a: u32, b: u32| soles.contains(&(a.min(b), a.max(b)));
    let fragments = || lines.iter().filter_map(|line| if let Line::Fragment { number, parent, piece, cut } = line { Some((*number, *parent, *piece, *cut)) } else { None });
    let pieces: HashSet<u32> = fragments().filter(|&(v, parent, ..)| is_sole(v, parent)).map(|(_, _, piece, _)| piece).collect();
    let drawn = || fragments().filter(|(_, _, piece, _)| pieces.contains(piece));
    let count = drawn().count();
    if count > DRAWN_MOST {
        let sentence = format!("no picture is drawn: the pieces that have sole links have {count} fragments, and no more than 2,000 can be drawn");
        return Err(Failure::new(NO_PICTURE, sentence));
    }
    let title = if count == 0 { "No sole links" } else { "Red: sole links. Filled: cut fragments. Only links of the forest are drawn." };
    let mut graph = format!("graph welmocant {{\nlabel=\"{title}\";\nnode [shape=circle, fontname=\"sans-serif\"];\nedge [color=\"gray40\"];\n");
    for (v, _, _, cut) in drawn() {
        let look = if cut { " [style=filled, fillcolor=\"orange\"]" } else { "" };
        let _ = writeln!(graph, "{v}{look};");
    }
    for (v, parent, ..) in drawn().filter(|(v, parent, ..)| v != parent) {
        let look = if is_sole(v, parent) { " [color=\"red\", penwidth=4]" } else { "" };
        let _ = writeln!(graph, "{parent} -- {v}{look};");
    }
    graph.push_str("}\n");
    Ok(graph)
}
