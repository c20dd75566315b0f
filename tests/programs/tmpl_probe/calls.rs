//! Calls of functions with arguments from data, and shares of a made text.
use crate::single::cells_of;
use std::alloc::{AllocError, Global};
use tmpl_funcs::{Func, call};
use tmpl_values::{Cell, Data, Val};

/// Calls a function as often as is asked, and tells whether it answered each time. Between two calls nothing takes memory.
pub(crate) fn call_often(
    alloc: Global,
    func: Func,
    arguments: &[Data],
    count: u64,
) -> Result<bool, AllocError> {
    let mut cells = cells_of(alloc, arguments)?;
    let mut all = true;
    for _ in 0..count {
        fill(arguments, cells.as_mut_slice());
        all = answers(alloc, func, cells.as_mut_slice()) && all;
    }
    Ok(all)
}

/// Puts the arguments in place again, which a call may have taken out.
fn fill<'a>(arguments: &'a [Data], cells: &mut [Cell<'a>]) {
    for (cell, argument) in cells.iter_mut().zip(arguments) {
        cell.val = Val::of(argument);
    }
}

fn answers(alloc: Global, func: Func, cells: &mut [Cell<'_>]) -> bool {
    match func {
        Func::And | Func::Or => false,
        _ => call(alloc, func, cells).is_ok(),
    }
}

/// Makes a text of these bytes that can be shared, shares it as often as is asked, and tells whether each share is that text.
pub(crate) fn share_often(alloc: Global, bytes: &[u8], count: u64) -> Result<bool, AllocError> {
    let made = Val::made(Vec::from_slice(alloc, bytes)?)?;
    let mut all = true;
    for _ in 0..count {
        let shared = made.share()?;
        all = shared.bytes() == Some(bytes) && all;
    }
    Ok(all)
}
