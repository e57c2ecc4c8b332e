//! Which standard streams were closed when the command was started. Before `main` Rust opens the
//! null device in place of such a stream, and then nobody can tell; so it is asked earlier.

use std::os::raw::c_int;
use std::sync::atomic::{AtomicBool, Ordering};

static INPUT: AtomicBool = AtomicBool::new(false);
static OUTPUT: AtomicBool = AtomicBool::new(false);

const GET_DESCRIPTOR_FLAGS: c_int = 1;

extern "C" {
    fn fcntl(descriptor: c_int, command: c_int, ...) -> c_int;
}

/// The C library calls this before `main`.
#[used]
#[link_section = ".init_array"]
static ASKED_FIRST: extern "C" fn() = ask;

extern "C" fn ask() {
    INPUT.store(is_closed(0), Ordering::Relaxed);
    OUTPUT.store(is_closed(1), Ordering::Relaxed);
}

fn is_closed(descriptor: c_int) -> bool {
    // This command of fcntl takes no further argument, changes nothing, and is safe with any number.
    unsafe { fcntl(descriptor, GET_DESCRIPTOR_FLAGS) == -1 }
}

pub fn input() -> bool {
    INPUT.load(Ordering::Relaxed)
}

pub fn output() -> bool {
    OUTPUT.load(Ordering::Relaxed)
}
