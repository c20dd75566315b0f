//! Runs of compiled templates, over a stack and a piece that are lent in the sizes that the words say, to a sink that
//! takes as much as the words say. Words, files and the line of a fault are those of the command.

use crate::disk::Disk;
use crate::limited::{LimitedSink, Limits};
use std::alloc::{AllocError, Global};
use std::array;
use std::io::{self, Write};
use tmpl_code::{Entry, Program, compile};
use tmpl_engine::{RenderError, run};
use tmpl_syntax::{NameHash, ParseKind, Set};
use tmpl_tool::{
    Inputs, Request, Status, Stop, WordsFault, asked_name, read_inputs, request_of, tell_end,
};
use tmpl_values::{Cell, Data, Val};

/// The cells of a stack that is an array.
const CELLS: usize = 64;

/// The bytes of a piece, and of a sink, that are arrays.
const BYTES: usize = 4096;

/// What is lent to the runs, and how many there are.
#[derive(Clone, Copy)]
struct Loan {
    /// The bytes of the piece.
    piece: usize,
    limits: Limits,
    /// Whether the stack has all cells of the room of the set, and not just as many as are enough.
    has_room: bool,
    /// How many runs.
    times: u64,
}

/// What is run, and over what.
#[derive(Clone, Copy)]
struct Job<'a, 'j> {
    program: &'a Program,
    entry: Entry,
    data: Option<&'a Data>,
    request: &'j Request<'j>,
    loan: Loan,
}

/// What six words say of the loan, if they are numbers where there have to be some.
fn loan_in(words: &[String; 6]) -> Option<Loan> {
    let [piece, most, left, fails, cells, times] = words;
    Some(Loan {
        piece: piece.as_str().parse::<usize>().ok()?,
        limits: Limits {
            most: most.as_str().parse::<usize>().ok()?,
            left: left.as_str().parse::<usize>().ok()?,
            once: fails.as_str() == "once",
        },
        has_room: cells.as_str() == "room",
        times: times.as_str().parse::<u64>().ok()?,
    })
}

/// What the words of a command ask for, if they are taken.
fn request_in<'a>(rt: &HostRuntime, words: &'a [String]) -> io::Result<Option<Request<'a>>> {
    match request_of(rt.alloc(), words) {
        Ok(request) => Ok(Some(request)),
        Err(WordsFault::NotAccepted) => Ok(None),
        Err(WordsFault::OutOfMemory) => Err(AllocError)?,
    }
}

/// What the files hold that a command names, if they are accepted.
fn load(rt: &HostRuntime, request: &Request<'_>) -> io::Result<Option<Inputs>> {
    match read_inputs(rt.alloc(), NameHash::fixed(), request, &mut Disk::new(rt)) {
        Ok(inputs) => Ok(Some(inputs)),
        Err(Stop::OutOfMemory) => Err(AllocError)?,
        Err(Stop::Template(fault)) if fault.kind == ParseKind::OutOfMemory => Err(AllocError)?,
        Err(_) => Ok(None),
    }
}

/// Puts out the room, at the depth that the first word says, of the set that the words of a command after it name, and
/// whether it makes text. Of no words after it the set is empty.
pub(crate) fn put_room(rt: &HostRuntime, words: &[String]) -> io::Result<bool> {
    let [depth, words @ ..] = words else {
        return Ok(false);
    };
    let Ok(depth) = depth.as_str().parse::<u32>() else {
        return Ok(false);
    };
    if words.is_empty() {
        return put_room_of(rt, depth, &Set::new(rt.alloc()));
    }
    let Some(request) = request_in(rt, words)? else {
        return Ok(false);
    };
    match load(rt, &request)? {
        Some(inputs) => put_room_of(rt, depth, &inputs.set),
        None => Ok(false),
    }
}

fn put_room_of(rt: &HostRuntime, depth: u32, set: &Set) -> io::Result<bool> {
    let program = compile(rt.alloc(), set)?;
    let room = program.room(depth);
    let makes_text = program.makes_text();
    println!(rt; "{room} {makes_text}")?;
    Ok(true)
}

/// Runs a template as often as the words say, over a stack and a piece that are lent as the words say, or that are
/// arrays.
pub(crate) fn run_words(rt: &HostRuntime, words: &[String], in_arrays: bool) -> io::Result<bool> {
    let Some((lent, asked)) = words.split_first_chunk::<6>() else {
        return Ok(false);
    };
    let (Some(loan), Some(request)) = (loan_in(lent), request_in(rt, asked)?) else {
        return Ok(false);
    };
    let Some(inputs) = load(rt, &request)? else {
        return Ok(false);
    };
    match inputs.set.number(asked_name(&request)) {
        Some(number) => run_template(rt, &inputs, number, &request, loan, in_arrays),
        None => Ok(false),
    }
}

/// Compiles the set, and runs its template of this number.
fn run_template(
    rt: &HostRuntime,
    inputs: &Inputs,
    number: usize,
    request: &Request<'_>,
    loan: Loan,
    in_arrays: bool,
) -> io::Result<bool> {
    let program = compile(rt.alloc(), &inputs.set)?;
    let job = Job {
        program: &program,
        entry: Entry { number },
        data: inputs.data.as_ref(),
        request,
        loan,
    };
    if in_arrays {
        run_in_arrays(rt, &job)
    } else {
        run_in_vecs(rt, &job)
    }
}

/// Runs over as many cells as are enough, or over all cells of the room.
fn run_in_vecs(rt: &HostRuntime, job: &Job<'_, '_>) -> io::Result<bool> {
    let alloc = rt.alloc();
    let depth = job.request.options.depth;
    let count = if job.loan.has_room {
        job.program.room(depth)
    } else {
        job.program.cells(depth)
    };
    let mut cells = blank_cells(alloc, count as usize)?;
    let mut piece = vec![in alloc; 0u8; job.loan.piece]?;
    run_often(
        alloc,
        job,
        cells.as_mut_slice(),
        piece.as_mut_slice(),
        &mut rt.stdout(),
        &mut rt.stderr(),
    )
}

/// Runs over arrays, to a sink that keeps its bytes in one, which is then put out. So it takes no memory of its own.
fn run_in_arrays(rt: &HostRuntime, job: &Job<'_, '_>) -> io::Result<bool> {
    let mut cells = filled_array(b"before");
    let mut piece = [0; BYTES];
    let mut kept = [0; BYTES];
    let mut rest = kept.as_mut_slice();
    let done = run_often(
        rt.alloc(),
        job,
        cells.as_mut_slice(),
        &mut piece[..job.loan.piece.min(BYTES)],
        &mut rest,
        &mut rt.stderr(),
    )?;
    let taken = BYTES.saturating_sub(rest.len());
    rt.stdout().write_all(&kept[..taken])?;
    Ok(done)
}

/// Cells that hold a text each, since a run does not look at what they held before.
fn filled_array<'a>(text: &'a [u8]) -> [Cell<'a>; CELLS] {
    array::from_fn(|_| Cell {
        val: Val::Text(text),
        num: 0,
    })
}

fn blank_cells<'a>(alloc: Global, count: usize) -> Result<Vec<Cell<'a>>, AllocError> {
    let mut cells = Vec::new(alloc);
    for _ in 0..count {
        cells.push(Cell {
            val: Val::Nothing,
            num: 0,
        })?;
    }
    Ok(cells)
}

/// Runs as often as the words say, over cells that are as the run before left them. After each run stands the line of
/// the command, if it has one, its status, and how many puts there were after one that failed, if there were some.
fn run_often<'a, W: Write, E: Write>(
    alloc: Global,
    job: &Job<'a, '_>,
    cells: &mut [Cell<'a>],
    piece: &mut [u8],
    out: &mut W,
    err: &mut E,
) -> io::Result<bool> {
    let options = &job.request.options;
    for _ in 0..job.loan.times {
        if (cells.len() as u64) < job.program.cells(options.depth) {
            return Ok(false);
        }
        let mut sink = LimitedSink::new(&mut *out, job.loan.limits);
        let end = match run(
            alloc,
            job.program,
            job.entry,
            job.data,
            options,
            &mut *cells,
            &mut *piece,
            &mut sink,
        ) {
            Ok(()) => Ok(()),
            Err(error) => Err(RenderError::from(error)),
        };
        let mut line = LimitedSink::new(&mut *err, Limits::NONE);
        let status = tell_end(end, asked_name(job.request), &mut line);
        put_status(err, status, sink.after())?;
    }
    Ok(true)
}

pub(crate) fn put_status<W: Write>(writer: &mut W, status: Status, after: u64) -> io::Result<()> {
    let code = status.code;
    write!(writer, "status {code}")?;
    if after > 0 {
        write!(writer, ", and {after} puts after the failed one")?;
    }
    writer.write_all(b"\n")
}
