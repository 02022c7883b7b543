//! Makes sure that a call has enough of the machine's stack.

use std::{io, panic, thread};

/// So many bytes are enough for a call with this depth: `FIRTHNAPKIN_STACK_SIZE` of the header, and this crate's own.
const fn needed(depth: u32) -> usize {
    32768 + 1024 * depth as usize + OWN
}

const OWN: usize = 1 << 14;

/// How much larger a thread's stack is than what the call needs: first, and at most. It has the thread's own variables, too, and
/// only the thread knows how much they leave. Memory that is not written to costs nothing.
const MARGINS: (usize, usize) = (1 << 16, 1 << 28);

/// Runs a call with this depth on this thread's stack, or, if less is left or it isn't known, in a thread of its own.
/// An error if no thread can be made.
pub(crate) fn with<R: Send>(depth: u32, call: impl FnOnce() -> R + Send) -> io::Result<R> {
    let needed = needed(depth);
    if left().is_some_and(|left| left >= needed) {
        return Ok(call());
    }
    let mut call = Some(call);
    let mut margin = MARGINS.0;
    while margin <= MARGINS.1 {
        if let Some(result) = in_thread(needed, margin, &mut call)? {
            return Ok(result);
        }
        margin *= 16;
    }
    Err(io::ErrorKind::OutOfMemory.into())
}

/// The result of the call in a thread of its own; nothing if the thread's stack is too small for it.
fn in_thread<R: Send>(
    needed: usize,
    margin: usize,
    call: &mut Option<impl FnOnce() -> R + Send>,
) -> io::Result<Option<R>> {
    thread::scope(|scope| {
        let run = || if left().map_or(true, |left| left >= needed) { call.take().map(|call| call()) } else { None };
        let thread = thread::Builder::new().stack_size(needed + margin).spawn_scoped(scope, run)?;
        thread.join().map_err(|panic| panic::resume_unwind(panic))
    })
}

/// How many bytes of this thread's stack are left, if that is known.
fn left() -> Option<usize> {
    let here = 0u8;
    let here = std::ptr::addr_of!(here) as usize;
    bounds::of_this_thread()
        .filter(|&(lowest, highest)| lowest < here && here < highest)
        .map(|(lowest, _)| here - lowest)
}

#[cfg(all(target_os = "linux", any(target_env = "gnu", target_env = "musl")))]
mod bounds {
    use std::cell::Cell;
    use std::ffi::{c_int, c_void};

    /// `pthread_attr_t`, which takes 56 or 64 bytes.
    #[repr(C, align(16))]
    struct Attributes([u8; 128]);

    extern "C" {
        fn pthread_self() -> usize;
        fn pthread_getattr_np(thread: usize, attributes: *mut Attributes) -> c_int;
        fn pthread_attr_getstack(attributes: *const Attributes, start: *mut *mut c_void, size: *mut usize) -> c_int;
        fn pthread_attr_destroy(attributes: *mut Attributes) -> c_int;
    }

    thread_local! {
        static BOUNDS: Cell<Option<(usize, usize)>> = const { Cell::new(None) };
    }

    /// The lowest address of this thread's stack, and the one after its highest.
    pub(super) fn of_this_thread() -> Option<(usize, usize)> {
        if BOUNDS.get().is_none() {
            BOUNDS.set(found());
        }
        BOUNDS.get()
    }

    fn found() -> Option<(usize, usize)> {
        let mut attributes = Attributes([0; 128]);
        let (mut start, mut size) = (std::ptr::null_mut(), 0);
        // SAFETY: the buffer is larger than `pthread_attr_t`, and the attributes are destroyed after their use.
        let is_found = unsafe {
            if pthread_getattr_np(pthread_self(), &mut attributes) != 0 {
                return None;
            }
            let status = pthread_attr_getstack(&attributes, &mut start, &mut size);
            pthread_attr_destroy(&mut attributes);
            status == 0
        };
        is_found.then_some((start as usize, start as usize + size))
    }
}

#[cfg(not(all(target_os = "linux", any(target_env = "gnu", target_env = "musl"))))]
mod bounds {
    pub(super) fn of_this_thread() -> Option<(usize, usize)> {
        None
    }
}
