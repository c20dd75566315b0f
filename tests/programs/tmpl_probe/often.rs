//! The command, called over and over in one process.
use crate::disk::Disk;
use crate::limited::{LimitedSink, Limits};
use crate::running::put_status;
use std::io;
use tmpl_tool::tool;

/// Calls the command as often as the first word says with those after it, over the file system and the standard
/// streams. After what each call says stands its status.
pub(crate) fn call_tool_often(rt: &HostRuntime, words: &[String]) -> io::Result<bool> {
    let [times, words @ ..] = words else {
        return Ok(false);
    };
    let Ok(times) = times.as_str().parse::<u64>() else {
        return Ok(false);
    };
    for _ in 0..times {
        let mut source = Disk::new(rt);
        let mut out = LimitedSink::new(rt.stdout(), Limits::NONE);
        let mut err = LimitedSink::new(rt.stderr(), Limits::NONE);
        let status = tool(rt.alloc(), words, &mut source, &mut out, &mut err);
        put_status(&mut rt.stderr(), status, 0)?;
    }
    Ok(true)
}
