//! Renders a template by Tera, to compare with. `rust_peer TEMPLATE DATA` renders once, to standard output. `rust_peer TEMPLATE DATA COUNT
//! [kept]` renders so often, and prints the least and the middle time of one render in nanoseconds and the bytes of its output, with the parse
//! and the read of the data each time, or once. The template calls the data `data`.
use std::io::Write;
use std::time::Instant;
use std::{env, error, fs};
use tera::{Context, Tera};

type Outcome<T> = Result<T, Box<dyn error::Error>>;

const TIMES: usize = 31;

fn parsed(text: &str) -> Outcome<Tera> {
    let mut engine = Tera::default();
    engine.autoescape_on(vec![]);
    engine.add_raw_template("m", text)?;
    Ok(engine)
}

/// The data, as the engine looks names up in it.
fn read(data: &str) -> Outcome<Context> {
    let mut context = Context::new();
    context.insert("data", &serde_json::from_str::<serde_json::Value>(data)?);
    Ok(context)
}

fn main() -> Outcome<()> {
    let words: Vec<String> = env::args().collect();
    let (text, data) = (fs::read_to_string(&words[1])?, fs::read_to_string(&words[2])?);
    let (engine, context) = (parsed(&text)?, read(&data)?);
    if words.len() == 3 {
        return Ok(std::io::stdout().write_all(engine.render("m", &context)?.as_bytes())?);
    }
    let (count, is_kept) = (words[3].parse::<u32>()?, words.len() > 4);
    let (mut times, mut size) = (Vec::new(), 0);
    for _ in 0..TIMES {
        let start = Instant::now();
        for _ in 0..count {
            let put = if is_kept { engine.render("m", &context)? } else { parsed(&text)?.render("m", &read(&data)?)? };
            size = put.len();
        }
        times.push(start.elapsed().as_nanos() / u128::from(count));
    }
    times.sort();
    println!("{} {} {size}", times[0], times[TIMES / 2]);
    Ok(())
}
