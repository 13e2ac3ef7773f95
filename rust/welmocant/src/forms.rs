//! The forms of a report, made from the library's lines by splitting them: nothing is asked anew.

use crate::arguments::Report;
use crate::failure::{Failure, BROKEN};
use serde_json::json;

/// A line of the report.
pub enum Line {
    Head { fragments: u32, links: u32, passes: u32 },
    Fragment { number: u32, parent: u32, piece: u32, cut: bool },
    Sole(u32, u32),
}

/// The lines that were asked for, in the order of the report: as the library wrote them, or an object each.
pub fn formed(text: Vec<u8>, asked: &Report) -> Result<Vec<u8>, Failure> {
    if !(asked.json || asked.sole || asked.cut) {
        return Ok(text);
    }
    let mut out = String::new();
    for line in as_text(&text)?.lines() {
        let read = read(line)?;
        if wanted(&read, asked) {
            if asked.json {
                out += &object(&read).to_string();
            } else {
                out += line;
            }
            out.push('\n');
        }
    }
    Ok(out.into_bytes())
}

fn wanted(line: &Line, asked: &Report) -> bool {
    match line {
        _ if !asked.sole && !asked.cut => true,
        Line::Head { .. } => false,
        Line::Fragment { cut, .. } => asked.cut && *cut,
        Line::Sole(..) => asked.sole,
    }
}

fn object(line: &Line) -> serde_json::Value {
    match line {
        Line::Head { fragments, links, passes } => json!({ "fragments": fragments, "links": links, "passes": passes }),
        Line::Fragment { number, parent, piece, cut } => json!({ "fragment": number, "parent": parent, "piece": piece, "cut": cut }),
        Line::Sole(a, b) => json!({ "sole": [a, b] }),
    }
}

/// Every line of a report.
pub fn lines(text: &[u8]) -> Result<Vec<Line>, Failure> {
    as_text(text)?.lines().map(read).collect()
}

fn as_text(text: &[u8]) -> Result<&str, Failure> {
    std::str::from_utf8(text).map_err(|_| no_report("bytes that are no text"))
}

fn read(line: &str) -> Result<Line, Failure> {
    let number = |word: &str| word.parse().map_err(|_| no_report(line));
    let words: Vec<&str> = line.split(' ').collect();
    match words[..] {
        ["fragments", n, "links", l, "passes", p] => Ok(Line::Head { fragments: number(n)?, links: number(l)?, passes: number(p)? }),
        [v, "parent", p, "piece", q, "cut", cut @ ("yes" | "no")] => Ok(Line::Fragment { number: number(v)?, parent: number(p)?, piece: number(q)?, cut: cut == "yes" }),
        ["sole", a, b] => Ok(Line::Sole(number(a)?, number(b)?)),
        _ => Err(no_report(line)),
    }
}

fn no_report(line: &str) -> Failure {
    Failure::new(BROKEN, format_args!("the library's report has a line that is none: {line}. This is a fault of the program; please report it"))
}
