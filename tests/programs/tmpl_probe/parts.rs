//! Parts of the work with one file, which put out how long they took, or what came of them.
use crate::calls::{call_often, share_often};
use crate::formats::put_mistakes;
use crate::listing::put_listing;
use crate::single::{data_of, set_of};
use std::alloc::Global;
use std::io::{self, BufWriter, Write};
use std::rt::Clock;
use std::time::Instant;
use std::{fs, mem};
use tmpl_code::compile;
use tmpl_funcs::Func;
use tmpl_lex::cut;
use tmpl_syntax::{Set, parse_file};
use tmpl_values::{Data, Val};

/// Puts out how many nanoseconds have passed since then.
fn put_elapsed(rt: &(impl Print + Clock), begun: Instant) -> io::Result<()> {
    let passed = begun.elapsed(rt)?;
    let nanoseconds = passed.as_nanos();
    println!(rt; "{nanoseconds}")
}

/// Reads into `serde_json`'s own tree, and says how long that took.
fn read(rt: &(impl Print + Clock), alloc: Global, bytes: &[u8]) -> io::Result<bool> {
    let begun = Instant::now(rt)?;
    let read = serde_json::Value::from_slice(alloc, bytes);
    put_elapsed(rt, begun)?;
    Ok(read.is_ok())
}

/// Reads into data, and says how long that took.
fn convert(rt: &(impl Print + Clock), alloc: Global, bytes: &[u8]) -> io::Result<bool> {
    let begun = Instant::now(rt)?;
    let held = Data::from_json(alloc, bytes);
    put_elapsed(rt, begun)?;
    Ok(held.is_ok())
}

/// Cuts a template into its pieces, and says how long that took.
fn cut_up(rt: &(impl Print + Clock), alloc: Global, bytes: &[u8]) -> io::Result<bool> {
    let begun = Instant::now(rt)?;
    let pieces = cut(alloc, bytes);
    put_elapsed(rt, begun)?;
    Ok(pieces.is_ok())
}

/// Calls a function over the items of a JSON list, and says how long that took.
fn call_over(
    rt: &(impl Print + Clock),
    alloc: Global,
    bytes: &[u8],
    name: &str,
    count: &str,
) -> io::Result<bool> {
    let (Some(held), Some(func), Ok(count)) = (
        data_of(alloc, bytes)?,
        Func::named(name.as_bytes()),
        count.parse::<u64>(),
    ) else {
        return Ok(false);
    };
    let Val::List(arguments) = Val::of(&held) else {
        return Ok(false);
    };
    let begun = Instant::now(rt)?;
    let all = call_often(alloc, func, arguments, count)?;
    put_elapsed(rt, begun)?;
    Ok(all)
}

/// Shares a made text as often as is asked, and says how long that took.
fn share(rt: &(impl Print + Clock), alloc: Global, bytes: &[u8], count: &str) -> io::Result<bool> {
    let Ok(count) = count.parse::<u64>() else {
        return Ok(false);
    };
    let begun = Instant::now(rt)?;
    let all = share_often(alloc, bytes, count)?;
    put_elapsed(rt, begun)?;
    Ok(all)
}

/// Parses a template, and says how long that took.
fn parse(rt: &(impl Print + Clock), alloc: Global, file: &str, bytes: &[u8]) -> io::Result<bool> {
    let mut set = Set::new(alloc);
    let begun = Instant::now(rt)?;
    let parsed = parse_file(alloc, &mut set, file, bytes);
    put_elapsed(rt, begun)?;
    Ok(parsed.is_ok())
}

/// Compiles a template, and says how long that took, or how many bytes the code takes.
fn compile_set(
    rt: &(impl Print + Clock),
    alloc: Global,
    file: &str,
    bytes: &[u8],
    is_timed: bool,
) -> io::Result<bool> {
    let Some(set) = set_of(alloc, file, bytes)? else {
        return Ok(false);
    };
    let begun = Instant::now(rt)?;
    let program = compile(alloc, &set)?;
    if is_timed {
        put_elapsed(rt, begun)?;
    } else {
        let size = mem::size_of_val(program.parts().instructions.as_slice());
        println!(rt; "{size}")?;
    }
    Ok(true)
}

/// Compiles a template, and puts out its code.
fn list(alloc: Global, file: &str, bytes: &[u8], writer: impl Write + Drop) -> io::Result<bool> {
    let mut writer = writer;
    let Some(set) = set_of(alloc, file, bytes)? else {
        return Ok(false);
    };
    let program = compile(alloc, &set)?;
    put_listing(&mut writer, &program)?;
    writer.flush()?;
    Ok(true)
}

/// Does a part of the work with the file that the first word names.
pub(crate) fn with_file(rt: &HostRuntime, part: &str, words: &[String]) -> io::Result<bool> {
    let [file, more @ ..] = words else {
        return Ok(false);
    };
    let held = fs::read(rt, file.as_str())?;
    let bytes = held.as_slice();
    match more {
        [] => with_bytes(rt, part, file.as_str(), bytes),
        [count] if part == "share" => share(rt, rt.alloc(), bytes, count.as_str()),
        [name, count] if part == "call" => {
            call_over(rt, rt.alloc(), bytes, name.as_str(), count.as_str())
        }
        _ => Ok(false),
    }
}

/// Does a part of the work with the bytes of a file alone.
fn with_bytes(rt: &HostRuntime, part: &str, file: &str, bytes: &[u8]) -> io::Result<bool> {
    let alloc = rt.alloc();
    match part {
        "read" => read(rt, alloc, bytes),
        "data" => convert(rt, alloc, bytes),
        "cut" => cut_up(rt, alloc, bytes),
        "parse" => parse(rt, alloc, file, bytes),
        "compile" => compile_set(rt, alloc, file, bytes, true),
        "code" => compile_set(rt, alloc, file, bytes, false),
        "formats" => put_mistakes(rt, bytes),
        "list" => list(alloc, file, bytes, BufWriter::new(alloc, rt.stdout())?),
        _ => Ok(false),
    }
}
