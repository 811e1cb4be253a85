//! Calls on a stack of their own.
use std::{io, panic, thread};

/// The height, but for a few nodes, up to which a tree is read, cloned and dropped on the stack of the calling thread.
/// That takes less than 1 MB, even without optimisation.
pub(crate) const LOW: u32 = 250;

/// The bytes of stack for each level: more than were measured.
const LEVEL: usize = if cfg!(debug_assertions) { 16 << 10 } else { 4 << 10 };

/// What a stack has besides, and what it has at least.
const BASE: usize = 64 << 10;
const LEAST: usize = 1 << 20;

/// Calls a function that recurses so many levels deep at most, on a thread whose stack is large enough for them.
///
/// # Errors
///
/// The thread cannot be started.
pub(crate) fn with_levels<T: Send>(levels: usize, call: impl FnOnce() -> T + Send) -> io::Result<T> {
    let size = levels.saturating_mul(LEVEL).saturating_add(BASE).max(LEAST);
    thread::scope(|scope| {
        let thread = thread::Builder::new().stack_size(size).spawn_scoped(scope, call)?;
        thread.join().map_or_else(|payload| panic::resume_unwind(payload), Ok)
    })
}
