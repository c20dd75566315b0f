//! Does parts of what `tmpl` does, so that they can be timed, counted or looked at, and runs the command over files and
//! sinks in memory, which may fail.
//!
//! Words: the part, and a file. A JSON file: `read` into `serde_json`'s own tree, `data` into data. A template: `cut`
//! into pieces. Each puts out how many nanoseconds it took, and so do calls: `call`, a JSON file with a list of
//! arguments, the name of the function, and how many; and `share`, a file that is made a text of, and how many times
//! that is shared. A template: `parse` into a set, `compile` the set; `code` puts out how many bytes its code takes,
//! and `list` puts out the code.
//!
//! `formats FILE` puts out a line for each text of the file: where it ceases to be of its format, or `-`.
//!
//! `room DEPTH`, and the words of a command, puts out how many cells the set of its files needs at this depth, and
//! whether it makes text; after no words the set is empty.
//!
//! `run PIECE MOST LEFT FAILS CELLS TIMES`, and the words of a command, runs the template that they ask for, with a
//! piece of this many bytes, to a sink that takes this many bytes a put and this many in all until it fails, `once` or
//! `always`, over as many cells as are `enough` or as the `room` of the set has, and this many times. The text goes to standard output, and
//! the line and the status of each run to standard error. `fixed` does the same over arrays: a stack of 64 cells, and
//! at most 4,096 bytes of text.
//!
//! `often TIMES`, and the words of a command, calls the command this many times.
//!
//! `cases FILE` runs the command over files, output and errors in memory, as the cases that the file holds say: first
//! how many bytes of output there is room for and how many cases there are, then each case. `make NAME FILE` makes the
//! public call of that name over the files that the file holds. What came of them goes to standard output.
//!
//! The status is 0 where the part was done, 3 where it was not, since the words or a file do not say what with or a
//! call is refused for another cause than memory, and 7 where memory was refused outside the call that is looked at.

mod calls;
mod case;
mod disk;
mod files;
mod formats;
mod limited;
mod listing;
mod often;
mod parts;
mod reader;
mod running;
mod single;
mod sink;
mod sweep;

use crate::often::call_tool_often;
use crate::parts::with_file;
use crate::running::{put_room, run_words};
use crate::single::make_call;
use crate::sweep::run_cases;
use std::io::ErrorKind;
use std::process::ExitCode;
use std::{env, io};

/// The status where a part was not done.
const NOT_DONE: u8 = 3;

/// The status where memory was refused.
const OUT_OF_MEMORY: u8 = 7;

/// Does the part that is named, as far as the words after it say what with.
fn do_part(rt: &HostRuntime, part: &str, words: &[String]) -> io::Result<bool> {
    match part {
        "run" => run_words(rt, words, false),
        "fixed" => run_words(rt, words, true),
        "room" => put_room(rt, words),
        "often" => call_tool_often(rt, words),
        "cases" => run_cases(rt, words),
        "make" => make_call(rt, words),
        _ => with_file(rt, part, words),
    }
}

/// Does the part that the words name; whether they say what with.
fn do_words(rt: &HostRuntime) -> io::Result<bool> {
    let words: Vec<String> = env::args(rt)?.collect(rt.alloc())?;
    match words.as_slice() {
        [_, part, more @ ..] => do_part(rt, part.as_str(), more),
        _ => Ok(false),
    }
}

fn main(rt: HostRuntime) -> io::Result<ExitCode> {
    match do_words(&rt) {
        Ok(true) => Ok(ExitCode::SUCCESS),
        Ok(false) => Ok(ExitCode::from(NOT_DONE)),
        Err(error) if error.kind() == ErrorKind::OutOfMemory => Ok(ExitCode::from(OUT_OF_MEMORY)),
        Err(error) => Err(error),
    }
}
