//! Calls of the library one by one, over files. Each puts out what was asked for, or that memory was refused.

use crate::case::next_file;
use crate::reader::Reader;
use std::alloc::{AllocError, Global};
use std::fs;
use std::io::{self, Write};
use tmpl_code::compile;
use tmpl_engine::{Engine, MissingKey, NameHash, Options, RenderError, Renderer, WriterSink};
use tmpl_funcs::{CallError, Func, call};
use tmpl_grammar::{Reading, read_action};
use tmpl_lex::{Piece, cut};
use tmpl_syntax::{ParseKind, Set, parse_file, print_set, print_tree};
use tmpl_values::{Cell, Data, DataFault, Val, add_quote, add_text};

/// What is put out where the call that is looked at answers that memory was refused.
const REFUSED: &[u8] = b"memory was refused\n";

/// Makes the call of a name over the files that a file holds, and tells whether it came to that.
pub(crate) fn make_call(rt: &HostRuntime, words: &[String]) -> io::Result<bool> {
    let [name, file] = words else {
        return Ok(false);
    };
    let name = name.as_str();
    let alloc = rt.alloc();
    let mut writer = rt.stdout();
    let held = fs::read(rt, file.as_str())?;
    let mut reader = Reader::new(held.as_slice());
    match (
        reader.number(),
        next_file(&mut reader),
        next_file(&mut reader),
    ) {
        (Some(1), Some(one), None) => make_of_one(alloc, name, one.bytes, &mut writer),
        (Some(2), Some(one), Some(two)) => {
            make_of_two(alloc, name, one.bytes, two.bytes, &mut writer)
        }
        _ => Ok(false),
    }
}

/// Makes a call over the bytes of two files.
fn make_of_two(
    alloc: Global,
    name: &str,
    one: &[u8],
    two: &[u8],
    writer: &mut impl Write,
) -> io::Result<bool> {
    match name {
        "parse" => parse_after(alloc, one, two, writer),
        "call" => call_function(alloc, one, two, writer),
        "render" => render(alloc, false, one, two, writer),
        "renderer" => render(alloc, true, one, two, writer),
        _ => Ok(false),
    }
}

/// Makes a call over the bytes of one file.
fn make_of_one(
    alloc: Global,
    name: &str,
    bytes: &[u8],
    writer: &mut impl Write,
) -> io::Result<bool> {
    match name {
        "data" => read_data(alloc, bytes, writer),
        "cut" => cut_file(alloc, bytes, writer),
        "actions" => read_actions(alloc, bytes, writer),
        "share" => share(alloc, bytes, writer),
        "copy" => copy(alloc, bytes, writer),
        "text" => text(alloc, bytes, writer),
        "quote" => quote(alloc, bytes, writer),
        _ => with_set(alloc, name, bytes, writer),
    }
}

/// Puts out the bytes and a newline, or that memory was refused.
fn put(writer: &mut impl Write, told: Result<Vec<u8>, AllocError>) -> io::Result<bool> {
    match told {
        Ok(bytes) => {
            writer.write_all(bytes.as_slice())?;
            writer.write_all(b"\n")?;
        }
        Err(_) => writer.write_all(REFUSED)?,
    }
    Ok(true)
}

/// Reads data, and puts out its text, or why it is refused.
fn read_data(alloc: Global, bytes: &[u8], writer: &mut impl Write) -> io::Result<bool> {
    match Data::from_json(alloc, bytes) {
        Ok(data) => put(writer, Ok(text_of(alloc, &Val::of(&data))?)),
        Err(DataFault::OutOfMemory) => put(writer, Err(AllocError)),
        Err(DataFault::NotJson | DataFault::NotWhole) => Ok(false),
    }
}

fn text_of(alloc: Global, value: &Val<'_>) -> Result<Vec<u8>, AllocError> {
    let mut text = Vec::new(alloc);
    add_text(value, &mut text)?;
    Ok(text)
}

/// Cuts a file, and puts out how many texts, actions and unreadable actions there are.
fn cut_file(alloc: Global, bytes: &[u8], writer: &mut impl Write) -> io::Result<bool> {
    let Ok(pieces) = cut(alloc, bytes) else {
        return put(writer, Err(AllocError));
    };
    let (mut texts, mut actions, mut unreadable) = (0u64, 0u64, 0u64);
    for piece in &pieces {
        match piece {
            Piece::Text { .. } => texts = texts.saturating_add(1),
            Piece::Action { .. } => actions = actions.saturating_add(1),
            Piece::Unreadable { .. } => unreadable = unreadable.saturating_add(1),
        }
    }
    writeln!(writer, "{texts} {actions} {unreadable}")?;
    Ok(true)
}

/// Reads the actions of a file, and puts out how many have a reading.
fn read_actions(alloc: Global, bytes: &[u8], writer: &mut impl Write) -> io::Result<bool> {
    let pieces = cut(alloc, bytes)?;
    let mut count = 0u64;
    for piece in &pieces {
        if let Piece::Action { tokens, .. } = piece {
            match read_action(alloc, tokens.as_slice()) {
                Ok(Reading::Read(_)) => count = count.saturating_add(1),
                Ok(_) => {}
                Err(_) => return put(writer, Err(AllocError)),
            }
        }
    }
    writeln!(writer, "{count}")?;
    Ok(true)
}

/// Keeps a made text and shares it, and puts out what both hold, and a part of one.
fn share(alloc: Global, bytes: &[u8], writer: &mut impl Write) -> io::Result<bool> {
    let text = bytes.to_vec(alloc)?;
    let Ok(kept) = Val::made(text) else {
        return put(writer, Err(AllocError));
    };
    let Ok(other) = kept.share() else {
        return put(writer, Err(AllocError));
    };
    put_bytes(&kept, writer)?;
    put_bytes(&other, writer)
}

/// Puts out the bytes of a text and a newline.
fn put_bytes(value: &Val<'_>, writer: &mut impl Write) -> io::Result<bool> {
    writer.write_all(value.bytes().unwrap_or(b""))?;
    writer.write_all(b"\n")?;
    Ok(true)
}

/// Shares a made text that is not ready for it, which copies it.
fn copy(alloc: Global, bytes: &[u8], writer: &mut impl Write) -> io::Result<bool> {
    let made = Val::buffer(bytes.to_vec(alloc)?);
    match made.share() {
        Ok(copy) => put(writer, Ok(text_of(alloc, &copy)?)),
        Err(_) => put(writer, Err(AllocError)),
    }
}

/// The data of bytes, before the call that is looked at; none where they are refused.
pub(crate) fn data_of(alloc: Global, json: &[u8]) -> io::Result<Option<Data>> {
    match Data::from_json(alloc, json) {
        Ok(data) => Ok(Some(data)),
        Err(DataFault::OutOfMemory) => Err(AllocError)?,
        Err(DataFault::NotJson | DataFault::NotWhole) => Ok(None),
    }
}

/// The set of a file, before the call that is looked at; none where it is refused.
pub(crate) fn set_of(alloc: Global, file: &str, bytes: &[u8]) -> io::Result<Option<Set>> {
    let mut set = Set::new(alloc);
    match parse_file(alloc, &mut set, file, bytes) {
        Ok(()) => Ok(Some(set)),
        Err(fault) if fault.kind == ParseKind::OutOfMemory => Err(AllocError)?,
        Err(_) => Ok(None),
    }
}

/// Adds the text of data to a text, and puts it out.
fn text(alloc: Global, bytes: &[u8], writer: &mut impl Write) -> io::Result<bool> {
    match data_of(alloc, bytes)? {
        Some(data) => put(writer, text_of(alloc, &Val::of(&data))),
        None => Ok(false),
    }
}

/// Adds the quote of the bytes to a text, and puts it out.
fn quote(alloc: Global, bytes: &[u8], writer: &mut impl Write) -> io::Result<bool> {
    let mut text = Vec::new(alloc);
    match add_quote(bytes, &mut text) {
        Ok(()) => put(writer, Ok(text)),
        Err(_) => put(writer, Err(AllocError)),
    }
}

/// A cell for each item.
pub(crate) fn cells_of<'a>(alloc: Global, items: &'a [Data]) -> Result<Vec<Cell<'a>>, AllocError> {
    let mut cells = Vec::new(alloc);
    for item in items {
        cells.push(Cell {
            val: Val::of(item),
            num: 0,
        })?;
    }
    Ok(cells)
}

/// Calls the function of a name over the items of a JSON list, and puts out the text of what it gives.
fn call_function(
    alloc: Global,
    name: &[u8],
    arguments: &[u8],
    writer: &mut impl Write,
) -> io::Result<bool> {
    let (Some(func), Some(held)) = (Func::named(name), data_of(alloc, arguments)?) else {
        return Ok(false);
    };
    let Val::List(items) = Val::of(&held) else {
        return Ok(false);
    };
    let mut cells = cells_of(alloc, items)?;
    if matches!(func, Func::And | Func::Or) {
        return Ok(false);
    }
    match call(alloc, func, cells.as_mut_slice()) {
        Ok(value) => put(writer, Ok(text_of(alloc, &value)?)),
        Err(CallError::OutOfMemory) => put(writer, Err(AllocError)),
        Err(CallError::Fault(_)) => Ok(false),
    }
}

/// Adds a file to an engine, and renders its template with data, by the engine's renderer or by one of its own.
fn render(
    alloc: Global,
    by_renderer: bool,
    template: &[u8],
    json: &[u8],
    writer: &mut impl Write,
) -> io::Result<bool> {
    let mut engine = Engine::with_hash(alloc, NameHash::keyed(1, 2));
    match engine.add_owned(alloc, "m", template.to_vec(alloc)?) {
        Ok(()) => {}
        Err(fault) if fault.kind == ParseKind::OutOfMemory => return put(writer, Err(AllocError)),
        Err(_) => return Ok(false),
    }
    let Some(data) = data_of(alloc, json)? else {
        return Ok(false);
    };
    match renderer_of(alloc, by_renderer, &mut engine) {
        Ok(renderer) => render_to(alloc, &renderer, &data, writer),
        Err(error) => put(writer, Err(error)),
    }
}

/// A renderer of the templates of an engine, of its own or the one that the engine keeps.
fn renderer_of(
    alloc: Global,
    of_its_own: bool,
    engine: &mut Engine,
) -> Result<Renderer, AllocError> {
    if of_its_own {
        Renderer::new(alloc, engine.templates())
    } else {
        engine.renderer(alloc)
    }
}

/// Renders the template `m`.
fn render_to(
    alloc: Global,
    renderer: &Renderer,
    data: &Data,
    writer: &mut impl Write,
) -> io::Result<bool> {
    let options = Options {
        missing_key: MissingKey::Error,
        depth: 2,
        steps: 100,
    };
    let mut sink = WriterSink::new(&mut *writer);
    match renderer.render(alloc, b"m", Some(data), &options, &mut sink) {
        Ok(()) => Ok(true),
        Err(RenderError::OutOfMemory) => put(writer, Err(AllocError)),
        Err(_) => Ok(false),
    }
}

/// Parses a file, and makes the call of this name over the set of its templates.
fn with_set(alloc: Global, name: &str, bytes: &[u8], writer: &mut impl Write) -> io::Result<bool> {
    let Some(set) = set_of(alloc, "m", bytes)? else {
        return Ok(false);
    };
    match name {
        "print" => put(writer, print_set(alloc, &set)),
        "tree" => match set.get(b"m") {
            Some(tree) => put(writer, print_tree(alloc, tree)),
            None => Ok(false),
        },
        "compile" => compile_set(alloc, &set, writer),
        _ => Ok(false),
    }
}

/// Compiles a set, and puts out the room at depth 1, the cells that are enough at depth 7, whether it makes text, and
/// the numbers of the template `m` and of the template `none`, a dash where there is none.
fn compile_set(alloc: Global, set: &Set, writer: &mut impl Write) -> io::Result<bool> {
    let Ok(program) = compile(alloc, set) else {
        return put(writer, Err(AllocError));
    };
    let room = program.room(1);
    let cells = program.cells(7);
    let makes_text = program.makes_text();
    write!(writer, "{room} {cells} {makes_text}")?;
    for name in [b"m".as_slice(), b"none".as_slice()] {
        match program.entry(name) {
            Some(entry) => {
                let number = entry.number;
                write!(writer, " {number}")?;
            }
            None => writer.write_all(b" -")?,
        }
    }
    writer.write_all(b"\n")?;
    Ok(true)
}

/// Parses a file after another, puts out what comes of it, and then each name of the set and its tree as a file.
fn parse_after(
    alloc: Global,
    before: &[u8],
    after: &[u8],
    writer: &mut impl Write,
) -> io::Result<bool> {
    let Some(mut set) = set_of(alloc, "m", before)? else {
        return Ok(false);
    };
    match parse_file(alloc, &mut set, "after", after) {
        Ok(()) => writer.write_all(b"accepted\n")?,
        Err(fault) if fault.kind == ParseKind::OutOfMemory => writer.write_all(REFUSED)?,
        Err(_) => return Ok(false),
    }
    put_set(alloc, &set, writer)
}

/// Puts out each name of a set and its tree as a file, a line each, and tells whether `none` is no name of it.
fn put_set(alloc: Global, set: &Set, writer: &mut impl Write) -> io::Result<bool> {
    for name in set.names() {
        writer.write_all(name)?;
        writer.write_all(b": ")?;
        match set.get(name) {
            Some(tree) => put(writer, Ok(print_tree(alloc, tree)?))?,
            None => return Ok(false),
        };
    }
    Ok(set.get(b"none").is_none())
}
