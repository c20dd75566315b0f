//! A host: it adds and compiles a template once, and renders it with two sets of data.
#![tactic(auto)]

use std::io;
use tmpl_engine::{Data, Engine, MissingKey, Options, RenderError, Renderer, WriterSink};

fn main(rt: HostRuntime) -> io::Result<()> {
    let mut engine = Engine::new(rt.alloc());
    match engine.add(rt.alloc(), "greeting", b"Hello, {{.name}}!\n") {
        Ok(()) => {
            let Ok(renderer) = engine.renderer(rt.alloc()) else {
                return println!(rt; "out of memory");
            };
            greet(&rt, &renderer, b"{\"name\": \"Ada\"}")?;
            greet(&rt, &renderer, b"{\"nam\": \"Bob\"}")
        }
        Err(fault) => println!(rt; "{}: line {} is refused", fault.file, fault.line),
    }
}

/// Renders the greeting with these data, and says where that stops.
fn greet(rt: &HostRuntime, renderer: &Renderer, json: &[u8]) -> io::Result<()> {
    let Ok(data) = Data::from_json(rt.alloc(), json) else {
        return println!(rt; "the data are refused");
    };
    let options = Options {
        missing_key: MissingKey::Error,
        depth: 100,
        steps: 10_000,
    };
    let mut out = WriterSink::new(rt.stdout());
    match renderer.render(rt.alloc(), b"greeting", Some(&data), &options, &mut out) {
        Ok(()) => Ok(()),
        Err(RenderError::Fault(fault)) => println!(rt; "\nstopped at line {}", fault.line),
        Err(_) => println!(rt; "\nstopped"),
    }
}
