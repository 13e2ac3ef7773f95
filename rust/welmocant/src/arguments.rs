//! What is asked for, and the help.

use crate::failure::Failure;
use clap::{value_parser, Arg, ArgAction, ArgMatches, Command};
use std::ffi::OsString;
use std::path::PathBuf;

pub struct Report {
    pub file: PathBuf,
    pub room: u32,
    pub sole: bool,
    pub cut: bool,
    pub json: bool,
    pub picture: Option<PathBuf>,
}

pub enum Task {
    /// The help or the version.
    Say(String),
    Report(Report),
    Pack {
        lines: Option<PathBuf>,
        list: Option<PathBuf>,
        fragments: Option<u32>,
    },
    Unpack {
        list: PathBuf,
        lines: Option<PathBuf>,
    },
}

const ABOUT: &str = "Where to look in a list of links: the sole links and the cut fragments.

A list says which fragments of wear logs are thought to come from one wearer. A sole link is one that alone holds two parts of a history together: if it is wrong, two wearers are joined by it. A cut fragment is a fragment that does the same. Check both by hand. Which wearer a fragment belongs to the program does not say.";

const STATUSES: &str = "Status:
  0    done
  1    refused: the list, or a line, is not as it has to be; standard error says where, and what to do
  2    there is no such file
  3    a read or a write failed, or the file is a folder or cannot be read more than once, as a pipe
  4    the command was not understood
  5    the picture could not be drawn: Graphviz is missing or failed, or too many fragments
  141  whoever read standard output went away, as with `| head`; nothing is said then

Where the status is 1 to 4 nothing was printed on standard output, but for a write that failed midway; a file that was to be written is as it was.";

const REPORT: &str = "Prints the report on a list: how many fragments, links and passes; a line for each fragment; a line for each sole link.

  fragments 4 links 4 passes 1
  0 parent 0 piece 0 cut yes
  1 parent 0 piece 0 cut no
  2 parent 1 piece 0 cut no
  3 parent 0 piece 0 cut no
  sole 0 3

Look at each link of a `sole` line by hand: nothing else in the list says that its two sides belong together. Then look at each fragment with `cut yes`. Fragments of one piece are joined with one another; a piece is named by its smallest fragment.

The list is read again and again, in little memory, so the time grows with the passes: a greater --room takes more memory and fewer passes. A million links over the most fragments, 32,768, take under a second in a few passes. How far it is stands on standard error where that is a terminal.";

const PICTURE: &str = "Draw the pieces that have sole links, as SVG, by Graphviz

Sole links are red and thick, cut fragments are filled. Only the links of the forest (each fragment with its parent) can be drawn, since the others are not kept. At most 2,000 fragments are drawn. The report is printed too.";

const PACK: &str = "Makes a list of links from lines of text: two fragment numbers on each, with spaces or tabs between. Empty lines and lines that begin with # are skipped. What is wrong is said with the number of its line.";

const UNPACK: &str = "Writes a list of links as lines of text: `# fragments N`, then two fragment numbers on each line. `welmocant pack` makes the same list of them again.";

pub fn command() -> Command {
    Command::new("welmocant")
        .version(env!("CARGO_PKG_VERSION"))
        .about("Where to look in a list of links: the sole links and the cut fragments")
        .long_about(ABOUT)
        .after_long_help(STATUSES)
        .subcommand_required(true)
        .arg_required_else_help(true)
        .disable_help_subcommand(true)
        .subcommand(report())
        .subcommand(pack())
        .subcommand(unpack())
}

fn path(name: &'static str) -> Arg {
    Arg::new(name).value_parser(value_parser!(OsString))
}

fn flag(name: &'static str, help: &'static str) -> Arg {
    Arg::new(name).long(name).action(ArgAction::SetTrue).help(help)
}

fn report() -> Command {
    Command::new("report")
        .about("Print the report on a list of links")
        .long_about(REPORT)
        .after_long_help(STATUSES)
        .arg(path("FILE").required(true).help("The list of links"))
        .arg(Arg::new("room").long("room").value_name("K").value_parser(value_parser!(u32)).default_value("4").help("Words of memory for each fragment to hold links in, 1 to 64: more memory, fewer passes"))
        .arg(flag("sole", "Print the lines of sole links only"))
        .arg(flag("cut", "Print the lines of cut fragments only; with --sole, both"))
        .arg(flag("json", "Print a JSON object for each line"))
        .arg(path("picture").long("picture").value_name("SVG").help("Draw the pieces that have sole links, as SVG, by Graphviz").long_help(PICTURE))
}

fn pack() -> Command {
    Command::new("pack")
        .about("Make a list of links from lines of text")
        .long_about(PACK)
        .after_long_help(STATUSES)
        .arg(path("LINES").help("The lines of text; standard input where it is left out or -"))
        .arg(path("output").short('o').long("output").value_name("LIST").help("The file to write, whole or not at all; standard output where it is left out"))
        .arg(Arg::new("fragments").long("fragments").value_name("N").value_parser(value_parser!(u32)).help("How many fragments the list has. Else a first line `# fragments N` says it, or it is one more than the largest number"))
}

fn unpack() -> Command {
    Command::new("unpack")
        .about("Write a list of links as lines of text")
        .long_about(UNPACK)
        .after_long_help(STATUSES)
        .arg(path("LIST").required(true).help("The list of links; - is standard input"))
        .arg(path("output").short('o').long("output").value_name("LINES").help("The file to write, whole or not at all; standard output where it is left out"))
}

pub fn parsed() -> Result<Task, Failure> {
    match command().try_get_matches() {
        Ok(matches) => Ok(task(&matches)),
        Err(error) if error.use_stderr() => Err(Failure::usage(error.to_string())),
        Err(error) => Ok(Task::Say(error.to_string())),
    }
}

fn task(matches: &ArgMatches) -> Task {
    let (name, asked) = matches.subcommand().expect("one is required");
    let file = |name: &str| asked.get_one::<OsString>(name).map(PathBuf::from);
    let list = |name: &str| file(name).expect("it is required");
    match name {
        "report" => Task::Report(Report {
            file: list("FILE"),
            room: *asked.get_one("room").expect("it has a default"),
            sole: asked.get_flag("sole"),
            cut: asked.get_flag("cut"),
            json: asked.get_flag("json"),
            picture: file("picture"),
        }),
        "pack" => Task::Pack { lines: file("LINES"), list: file("output"), fragments: asked.get_one("fragments").copied() },
        _ => Task::Unpack { list: list("LIST"), lines: file("output") },
    }
}

#[test]
fn the_command_is_sound() {
    command().debug_assert();
}
