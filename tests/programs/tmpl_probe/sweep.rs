//! Runs of the command over files and sinks in memory, and what is put out of each.
use crate::case::{Case, Numbers, Varied};
use crate::files::{File, LentFiles};
use crate::reader::Reader;
use crate::sink::{LentSink, Limits};
use std::alloc::{AllocError, Global};
use std::fs;
use std::io::{self, BufWriter, Write};
use tmpl_tool::tool;

/// The bytes of a line on the error sink for which there is room.
const LINE: usize = 1 << 20;

/// Where the sinks of a run keep their bytes.
#[derive(Drop)]
struct Room<'a> {
    out: &'a mut [u8],
    err: &'a mut [u8],
}

/// Runs the cases that a file holds, and tells whether it held them all.
pub(crate) fn run_cases(rt: &HostRuntime, words: &[String]) -> io::Result<bool> {
    let [file] = words else {
        return Ok(false);
    };
    let alloc = rt.alloc();
    let held = fs::read(rt, file.as_str())?;
    let mut reader = Reader::new(held.as_slice());
    let (Some(bytes), Some(count)) = (reader.number(), reader.number()) else {
        return Ok(false);
    };
    let mut out = vec![in alloc; 0u8; bytes as usize]?;
    let mut err = vec![in alloc; 0u8; LINE]?;
    let mut room = Room {
        out: out.as_mut_slice(),
        err: err.as_mut_slice(),
    };
    let mut writer = BufWriter::new(alloc, rt.stdout())?;
    for _ in 0..count {
        let Some(case) = Case::read(alloc, &mut reader) else {
            return Ok(false);
        };
        run_case(alloc, &case, &mut room, &mut writer)?;
    }
    writer.flush()?;
    Ok(true)
}

/// Runs a case for each of its numbers, up to the first run in which nothing failed that was to fail. After the last
/// there is an empty line.
fn run_case(
    alloc: Global,
    case: &Case<'_>,
    room: &mut Room<'_>,
    writer: &mut impl Write,
) -> io::Result<()> {
    let Numbers {
        first,
        step,
        count,
        ..
    } = case.numbers;
    for turn in 0..count {
        let number = first.saturating_add(turn.saturating_mul(step));
        if !run_once(alloc, case, number, room, writer)? {
            break;
        }
    }
    writer.write_all(b"\n")
}

/// These limits, with another put that fails.
fn failing(limits: Limits, number: u64, is_varied: bool) -> Limits {
    if is_varied {
        Limits {
            fails_at: number,
            ..limits
        }
    } else {
        limits
    }
}

/// The files of a case, the first of them cut to this many bytes where that is what the number says.
fn cut_files<'a>(case: &Case<'a>, number: u64) -> Result<Vec<File<'a>>, AllocError> {
    let mut files = case.files.clone()?;
    if case.numbers.varied == Varied::Front
        && let Some(first) = files.as_mut_slice().first_mut()
        && let Some((front, _)) = first.bytes.split_at_checked(number as usize) {
        first.bytes = front;
    }
    Ok(files)
}

/// Runs a case with this number, and tells whether there may be more in the run with the next.
fn run_once(
    alloc: Global,
    case: &Case<'_>,
    number: u64,
    room: &mut Room<'_>,
    writer: &mut impl Write,
) -> io::Result<bool> {
    let varied = case.numbers.varied;
    let files = cut_files(case, number)?;
    let fails_at = if varied == Varied::Reads { number } else { 0 };
    let mut source = LentFiles::new(files.as_slice(), fails_at);
    let mut out = LentSink::new(
        &mut *room.out,
        failing(case.out, number, varied == Varied::Output),
    );
    let mut err = LentSink::new(
        &mut *room.err,
        failing(case.err, number, varied == Varied::Errors),
    );
    let status = tool(
        alloc,
        case.words.as_slice(),
        &mut source,
        &mut out,
        &mut err,
    );
    put_run(writer, status.code, &source, &out, &err, case.wanted)?;
    Ok(match varied {
        Varied::Output => out.has_failed(),
        Varied::Errors => err.has_failed(),
        Varied::Reads => source.has_failed(),
        Varied::Front => true,
    })
}

/// Puts out what came of a run: the status and how many reads there were; of the output how many puts, how many of them
/// after the first that failed and how many bytes were taken; of the errors how many puts after the first that failed
/// and bytes; and how many bytes of the output follow. Then these, none where they are a beginning of what is wanted,
/// and those of the errors.
fn put_run(
    writer: &mut impl Write,
    code: u8,
    source: &LentFiles<'_>,
    out: &LentSink<'_>,
    err: &LentSink<'_>,
    wanted: &[u8],
) -> io::Result<()> {
    let taken = out.as_slice();
    let told = if wanted.starts_with(taken) {
        b"".as_slice()
    } else {
        taken
    };
    let reads = source.reads();
    let puts = out.puts();
    write!(writer, "{code} {reads} {puts} ")?;
    put_counts(writer, out)?;
    put_counts(writer, err)?;
    let length = told.len();
    writeln!(writer, "{length}")?;
    writer.write_all(told)?;
    writer.write_all(err.as_slice())
}

fn put_counts(writer: &mut impl Write, sink: &LentSink<'_>) -> io::Result<()> {
    let after = sink.after();
    let taken = sink.as_slice().len();
    write!(writer, "{after} {taken} ")
}
