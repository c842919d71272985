//! Closed standard input and output. Rust's runtime opens `/dev/null` in their place before `main`
//! runs: a result that is written there would be lost without a word, and what is read there is a
//! file of no bytes. Here they are looked at before the runtime does, and something that can be
//! neither read nor written is put in their place, so that their use is an error.

#![allow(unsafe_code)]

use std::ffi::{c_char, c_int};

unsafe extern "C" {
    fn fcntl(descriptor: c_int, command: c_int, ...) -> c_int;
    fn open(path: *const c_char, flags: c_int, ...) -> c_int;
}

const F_GETFD: c_int = 1;
const O_RDONLY: c_int = 0;

/// The loader calls what stands in this section before `main`.
#[used]
#[unsafe(link_section = ".init_array")]
static AT_START: extern "C" fn() = fill_closed;

extern "C" fn fill_closed() {
    for descriptor in 0..=1 {
        // SAFETY: POSIX has both calls, with these arguments and constants, and they touch no memory
        // but the path, which ends in a zero. Nothing else runs yet. The lowest free descriptor is
        // given out: it is this one, as those below are open.
        unsafe {
            if fcntl(descriptor, F_GETFD) == -1 {
                // A folder. Where it cannot be opened, the runtime does as ever.
                open(c"/".as_ptr(), O_RDONLY);
            }
        }
    }
}
