//! Ctrl-C: a run that is ended by it still tells what it has seen.

use std::sync::atomic::{AtomicBool, Ordering};

const INTERRUPT: i32 = 2;
const DEFAULT: usize = 0;
const IGNORE: usize = 1;

static NOTED: AtomicBool = AtomicBool::new(false);

extern "C" {
    fn signal(number: i32, handler: usize) -> usize;
}

/// The first Ctrl-C is noted, the next one ends this program as if nothing had been noted.
extern "C" fn on_interrupt(number: i32) {
    NOTED.store(true, Ordering::Relaxed);
    // Safe: signal may be called from a handler, and so may a store to an atomic.
    unsafe { signal(number, DEFAULT) };
}

/// From here on Ctrl-C is noted.
pub fn note() {
    let handler: extern "C" fn(i32) = on_interrupt;
    // Safe: the handler does nothing that a handler may not do.
    unsafe { signal(INTERRUPT, handler as usize) };
}

pub fn noted() -> bool {
    NOTED.load(Ordering::Relaxed)
}

/// Does something while Ctrl-C is ignored. A process that is started then ignores it for good.
pub fn ignored<T>(act: impl FnOnce() -> T) -> T {
    // Safe: no handler is set that was not there before.
    let before = unsafe { signal(INTERRUPT, IGNORE) };
    let done = act();
    unsafe { signal(INTERRUPT, before) };
    done
}
