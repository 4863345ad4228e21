//! A signal that asks the process to end waits while a file is written, so that what was begun is removed first.

use crate::lent::{answer_signal, end_by_signal};
use std::io;
use std::sync::atomic::{AtomicI32, AtomicUsize, Ordering::SeqCst};

/// Hang-up, interrupt, quit, terminate, as every Unix numbers them.
const ENDING: [i32; 4] = [1, 2, 3, 15];

static HOLDS: AtomicUsize = AtomicUsize::new(0);
/// The signal that waits; 0 for none.
static WAITING: AtomicI32 = AtomicI32::new(0);

/// Lets ending signals wait while a [`Hold`] is there. A program asks for it once, at its start.
pub fn heed() {
    for number in ENDING {
        answer_signal(number, answer);
    }
}

extern "C" fn answer(number: i32) {
    match HOLDS.load(SeqCst) {
        0 => end_by_signal(number),
        _ => WAITING.store(number, SeqCst),
    }
}

/// While it is there, ending signals wait; when the last one goes, a signal that waits ends the process.
pub struct Hold(());

impl Hold {
    pub fn begin() -> Self {
        HOLDS.fetch_add(1, SeqCst);
        Hold(())
    }

    /// An error if a signal waits: time to clear up.
    pub fn check(&self) -> io::Result<()> {
        match WAITING.load(SeqCst) {
            0 => Ok(()),
            number => Err(io::Error::other(format!("stopped by signal {number}"))),
        }
    }
}

impl Drop for Hold {
    fn drop(&mut self) {
        let last = HOLDS.fetch_sub(1, SeqCst) == 1;
        let number = WAITING.load(SeqCst);
        if last && number != 0 {
            end_by_signal(number);
        }
    }
}
