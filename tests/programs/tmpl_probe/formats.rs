//! Texts of formats.
use crate::reader::Reader;
use std::io::{self, BufWriter, Write};
use std::alloc::{AllocError, Global};
use tmpl_formats::{Format, Mistake, Pattern, first_mistake};

/// The format of a name, with any number after the name of CSV.
fn format_of(alloc: Global, name: &str) -> Result<Option<Format>, AllocError> {
    if let Some(pattern) = name.strip_prefix("lines:") {
        return Ok(Pattern::read(alloc, pattern)?.map(Format::Lines));
    }
    Ok(plain_format(name))
}

/// .. of a name without a pattern.
fn plain_format(name: &str) -> Option<Format> {
    match name {
        "json" => Some(Format::Json),
        "jsonl" => Some(Format::JsonLines),
        "env" => Some(Format::Env),
        "nginx" => Some(Format::Nginx),
        "yaml" => Some(Format::Yaml),
        _ => Some(Format::Csv(name.strip_prefix("csv:")?.parse::<u32>().ok()?)),
    }
}

/// Puts out where a text ceases to be of its format, and what is wanted there; or that it is of the format.
fn put_mistake(out: &mut impl Write, mistake: Option<Mistake>) -> io::Result<()> {
    match mistake {
        None => writeln!(out, "-"),
        Some(mistake) => writeln!(out, "{} {}", mistake.offset, mistake.wanted),
    }
}

/// Puts out a line for each text that the bytes hold, after the name of its format.
pub(crate) fn put_mistakes(rt: &HostRuntime, bytes: &[u8]) -> io::Result<bool> {
    let mut reader = Reader::new(bytes);
    let mut out = BufWriter::new(rt.alloc(), rt.stdout())?;
    let Some(count) = reader.number() else {
        return Ok(false);
    };
    for _ in 0..count {
        let (Some(name), Some(text)) = (reader.text(), reader.bytes()) else {
            return Ok(false);
        };
        let Some(format) = format_of(rt.alloc(), name)? else {
            writeln!(out, "-1 no such format")?;
            continue;
        };
        put_mistake(&mut out, first_mistake(rt.alloc(), &format, text)?)?;
    }
    out.flush()?;
    Ok(true)
}
