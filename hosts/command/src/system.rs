//! What the standard library has no words for: being told to stop, and ending a process with all that it started.

use std::sync::atomic::{AtomicI32, Ordering};

static TOLD: AtomicI32 = AtomicI32::new(0);
const SIGNALS: [i32; 3] = [1, 2, 15];
const KILL: i32 = 9;
const IGNORED: usize = 1;

mod c {
    extern "C" {
        pub fn signal(number: i32, handler: usize) -> usize;
        pub fn kill(process: i32, number: i32) -> i32;
    }
}

extern "C" fn told(number: i32) {
    TOLD.store(number, Ordering::SeqCst);
}

/// From now on Ctrl-C, a hangup and a plain kill are noted and no more. One that was ignored, as nohup has it, stays so.
pub fn note_stops() {
    let handler: extern "C" fn(i32) = told;
    for number in SIGNALS {
        // The handler stores one number, which is all that a handler may do.
        if unsafe { c::signal(number, handler as usize) } == IGNORED {
            unsafe { c::signal(number, IGNORED) };
        }
    }
}

/// The signal that was noted, or 0.
pub fn stop_noted() -> i32 {
    TOLD.load(Ordering::SeqCst)
}

/// Ends a process that leads a group of its own, and the group.
pub fn end_group(leader: u32) {
    if let Ok(leader @ 2..) = i32::try_from(leader) {
        unsafe { c::kill(-leader, KILL) };
    }
}
