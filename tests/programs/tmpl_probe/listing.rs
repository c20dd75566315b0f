//! Puts out the code of templates as a list of instructions, each after its place. A jump is put out as `->` and the
//! place where it ends.
use std::io::{self, Write};
use std::str;
use tmpl_code::{CommandError, Instruction, Names, Program, Tables, letters_at};
use tmpl_funcs::Func;

/// Puts out the name of each template and then its instructions.
pub(crate) fn put_listing(writer: &mut impl Write, program: &Program) -> io::Result<()> {
    let parts = program.parts();
    let mut names = parts.outline.names();
    for (place, instruction) in parts.instructions.iter().enumerate() {
        if parts.starts.contains(&place) {
            writer.write_all(b"template")?;
            put_text(writer, names.next().unwrap_or(b""))?;
            writer.write_all(b"\n")?;
        }
        write!(writer, "{place} ")?;
        put_instruction(writer, &parts.tables, place, instruction)?;
    }
    Ok(())
}

/// Puts out a line: what is done, with what, and where a jump ends.
fn put_instruction(
    writer: &mut impl Write,
    tables: &Tables,
    place: usize,
    instruction: &Instruction,
) -> io::Result<()> {
    writer.write_all(words(instruction).as_bytes())?;
    put_operands(writer, tables, instruction)?;
    put_number(writer, " ", count(instruction))?;
    put_number(writer, " ", variables(instruction))?;
    put_number(writer, " line ", line(instruction))?;
    let target = skip(instruction).map(|skip| place.saturating_add(1).saturating_add(skip) as u64);
    put_number(writer, " -> ", target)?;
    writer.write_all(b"\n")
}

/// Puts out what an instruction is done with.
fn put_operands(
    writer: &mut impl Write,
    tables: &Tables,
    instruction: &Instruction,
) -> io::Result<()> {
    match instruction {
        Instruction::Put { text, .. } => put_text(writer, tables.text(*text)),
        Instruction::PushNumber(number) => write!(writer, " {number}"),
        Instruction::PushText(place) | Instruction::RefuseTemplate(place) => {
            put_text(writer, tables.name(*place))
        }
        Instruction::PushFields(span)
        | Instruction::Chain(span)
        | Instruction::ShowFields { names: span, .. } => put_fields(writer, tables.names(*span)),
        Instruction::ShowSlotField { slot, name, .. } => {
            write!(writer, " {slot} .")?;
            writer.write_all(tables.name(*name))
        }
        Instruction::Call { func, .. } | Instruction::Refuse(CommandError::WrongCount(func)) => {
            put_func(writer, *func)
        }
        _ => Ok(()),
    }
}

/// Puts out a number after a word, if there is one.
fn put_number(writer: &mut impl Write, word: &str, number: Option<u64>) -> io::Result<()> {
    match number {
        Some(number) => write!(writer, "{word}{number}"),
        None => Ok(()),
    }
}

/// Puts out a text between quotation marks.
fn put_text(writer: &mut impl Write, bytes: &[u8]) -> io::Result<()> {
    write!(writer, " {:?}", str::from_utf8(bytes).unwrap_or("?"))
}

/// Puts out a chain of fields.
fn put_fields(writer: &mut impl Write, names: Names<'_>) -> io::Result<()> {
    writer.write_all(b" ")?;
    for span in names.spans {
        writer.write_all(b".")?;
        writer.write_all(letters_at(names.letters, *span))?;
    }
    Ok(())
}

fn put_func(writer: &mut impl Write, func: Func) -> io::Result<()> {
    writer.write_all(b" ")?;
    writer.write_all(func.name().as_bytes())
}

fn either(first: bool, one: &'static str, other: &'static str) -> &'static str {
    if first { one } else { other }
}

/// What an instruction does.
fn words(instruction: &Instruction) -> &'static str {
    match instruction {
        Instruction::Spend(_) => "spend",
        Instruction::Put { .. } => "put",
        Instruction::PushNothing => "push nothing",
        Instruction::PushBool(held) => either(*held, "push true", "push false"),
        Instruction::PushNumber(_) | Instruction::PushText(_) | Instruction::PushFields(_) =>
            "push",
        Instruction::PushDot => "push dot",
        Instruction::PushSlot(_) => "push slot",
        Instruction::Chain(_) => "chain",
        Instruction::Call { piped, .. } => either(*piped, "call piped", "call"),
        Instruction::Decide { is_or, piped, .. } => either(
            *is_or,
            either(*piped, "or piped", "or"),
            either(*piped, "and piped", "and"),
        ),
        Instruction::Settle => "settle",
        Instruction::Refuse(CommandError::NotAFunction) => "refuse what is no function",
        Instruction::Refuse(CommandError::NilCommand) => "refuse nil",
        Instruction::Refuse(CommandError::WrongCount(_)) => "refuse the count of",
        Instruction::RefuseTemplate(_) => "refuse template",
        Instruction::Show | Instruction::ShowFields { .. } => "show",
        Instruction::ShowDot { .. } => "show dot",
        Instruction::ShowSlot { .. } | Instruction::ShowSlotField { .. } => "show slot",
        Instruction::Hold { key } => either(*key, "hold key", "hold"),
        Instruction::Set(_) => "set",
        Instruction::SetDot(_) => "set dot",
        Instruction::Unless { kept, .. } => either(*kept, "unless kept", "unless"),
        Instruction::EnterWith { kept, .. } => either(*kept, "enter with kept", "enter with"),
        Instruction::EndWith { .. } => "end with",
        Instruction::Forget { .. } => "forget",
        Instruction::Enter { key, .. } => either(*key, "enter key", "enter"),
        Instruction::Turn(_) => "turn",
        Instruction::Next { .. } => "next",
        Instruction::Leave { .. } => "leave",
        Instruction::Deepen(_) => "deepen",
        Instruction::Invoke(_) => "invoke",
        Instruction::Return(_) => "return",
    }
}

/// The slot, the number of cells or arguments, or the number of the template.
fn count(instruction: &Instruction) -> Option<u64> {
    match instruction {
        Instruction::Set(count)
        | Instruction::SetDot(count)
        | Instruction::Turn(count)
        | Instruction::Invoke(count)
        | Instruction::Return(count)
        | Instruction::EndWith { count, .. }
        | Instruction::Forget { count, .. }
        | Instruction::Next { count, .. }
        | Instruction::Leave { count, .. }
        | Instruction::PushSlot(count)
        | Instruction::ShowSlot { slot: count, .. }
        | Instruction::Call { count, .. } => Some(*count as u64),
        _ => None,
    }
}

fn variables(instruction: &Instruction) -> Option<u64> {
    match instruction {
        Instruction::EndWith { variables, .. } => Some(*variables as u64),
        _ => None,
    }
}

fn line(instruction: &Instruction) -> Option<u64> {
    match instruction {
        Instruction::Spend(line) | Instruction::Deepen(line) => Some(*line),
        Instruction::Next { line, .. }
        | Instruction::Put { line, .. }
        | Instruction::ShowDot { line }
        | Instruction::ShowFields { line, .. }
        | Instruction::ShowSlot { line, .. }
        | Instruction::ShowSlotField { line, .. } => Some(*line as u64),
        _ => None,
    }
}

/// How many instructions a jump passes over.
fn skip(instruction: &Instruction) -> Option<usize> {
    match instruction {
        Instruction::Unless { skip, .. }
        | Instruction::EnterWith { skip, .. }
        | Instruction::EndWith { skip, .. }
        | Instruction::Forget { skip, .. }
        | Instruction::Enter { skip, .. }
        | Instruction::Next { skip, .. }
        | Instruction::Leave { skip, .. }
        | Instruction::Decide { skip, .. } => Some(*skip as usize),
        _ => None,
    }
}
