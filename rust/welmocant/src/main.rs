//! `welmocant`: the report on a list of links for the data steward, and lists made from lines and back. What is read, refused and reported is
//! decided by the proved library; this program reads files, tells them, and writes what it is answered.

mod arguments;
mod failure;
mod forms;
mod output;
mod packing;
mod picture;
mod progress;
mod refusals;
mod telling;
mod whole;

use arguments::{Report, Task};
use failure::Failure;
use std::process::ExitCode;

fn main() -> ExitCode {
    whole::heed_signals();
    match arguments::parsed().and_then(run) {
        Ok(()) => ExitCode::SUCCESS,
        Err(failure) => failure.ended(),
    }
}

fn run(task: Task) -> Result<(), Failure> {
    match task {
        Task::Say(text) => output::print(text.as_bytes()),
        Task::Report(asked) => report(&asked),
        Task::Pack { lines, list, fragments } => packing::pack(lines.as_deref(), list.as_deref(), fragments),
        Task::Unpack { list, lines } => packing::unpack(&list, lines.as_deref()),
    }
}

/// The picture comes first, so that a reader of standard output who goes away does not take it with him; where it fails the report, which is
/// true, is printed all the same.
fn report(asked: &Report) -> Result<(), Failure> {
    let canvas = asked.picture.as_deref().map(picture::Canvas::prepared).transpose()?;
    let text = telling::told(&asked.file, asked.room)?;
    let drawn = canvas.map_or(Ok(()), |canvas| canvas.draw(&text));
    output::print(&forms::formed(text, asked)?)?;
    drawn
}
