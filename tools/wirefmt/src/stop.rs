//! Signals that ask for an end (Ctrl-C): the files at work are finished first, so that no temporary file is left.

use std::mem;
use std::ptr;
use std::sync::atomic::{AtomicI32, Ordering};

use libc::{SA_RESETHAND, SA_RESTART, SIG_IGN, SIGHUP, SIGINT, SIGTERM, c_int};

/// The signal that came, 0 for none.
static SIGNAL: AtomicI32 = AtomicI32::new(0);

extern "C" fn note(signal: c_int) {
    SIGNAL.store(signal, Ordering::Relaxed);
}

/// From here on the first signal is noted; a second one ends the run at once.
pub fn listen() {
    for signal in [SIGHUP, SIGINT, SIGTERM] {
        // SAFETY: both structures are plain numbers and pointers, and outlive the calls; the handler stores a number.
        unsafe {
            let mut before: libc::sigaction = mem::zeroed();
            libc::sigaction(signal, ptr::null(), &raw mut before);
            if before.sa_sigaction == SIG_IGN {
                continue;
            }
            let mut action: libc::sigaction = mem::zeroed();
            action.sa_sigaction = note as extern "C" fn(c_int) as libc::sighandler_t;
            action.sa_flags = SA_RESTART | SA_RESETHAND;
            libc::sigaction(signal, &raw const action, ptr::null_mut());
        }
    }
}

/// Whether an end was asked for.
pub fn asked() -> bool {
    SIGNAL.load(Ordering::Relaxed) != 0
}

/// Ends as the signal that came would have ended the run.
pub fn obey() {
    if asked() {
        // SAFETY: it takes a number; the action is the default one again.
        unsafe { libc::raise(SIGNAL.load(Ordering::Relaxed)) };
    }
}
