//! The library under test, behind one safe function. The only unsafe code stands here.

use crate::words::Setup;

#[cfg(not(feature = "twin-only"))]
mod library {
    use super::Setup;

    extern "C" {
        pub fn rack_session(
            setup: *const Setup,
            steps: *const u64,
            steps_len: usize,
            out: *mut u64,
            out_len: usize,
        ) -> usize;
    }
}

/// More than any case needs: a dump that long is a fault.
#[cfg(not(feature = "twin-only"))]
const MOST: usize = 1 << 27;

/// The library's words for these steps are `out[..answer]`; none where it refuses the setup.
/// `expected` is how many words the other side has: the first guess at the room that is needed.
#[cfg(not(feature = "twin-only"))]
pub fn session(setup: Setup, steps: &[u64], out: &mut Vec<u64>, expected: usize) -> Option<usize> {
    let mut room = expected + 4096;
    loop {
        if out.len() < room {
            out.resize(room, 0);
        }
        // SAFETY: the pointers and lengths are those of live slices, and `setup` is laid out as
        // the library reads it. It writes nothing but `out`, and keeps none of them.
        let written = unsafe {
            library::rack_session(&setup, steps.as_ptr(), steps.len(), out.as_mut_ptr(), room)
        };
        if written <= room {
            return Some(written);
        }
        if room > MOST || !setup.is_a_racks() {
            return None;
        }
        room *= 8;
    }
}

#[cfg(feature = "twin-only")]
pub fn session(setup: Setup, steps: &[u64], out: &mut Vec<u64>, expected: usize) -> Option<usize> {
    out.clear();
    out.reserve(expected);
    crate::session::session(setup, steps, out).then_some(out.len())
}
