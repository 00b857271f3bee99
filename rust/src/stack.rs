//! Stack for the calls: what is left of the thread's own, else a thread with enough.

use crate::error::Error;
use std::cell::OnceCell;
use std::panic::resume_unwind;
use std::thread::{scope, Builder};

/// What a call's caller and the thread itself take beside the call.
const MARGIN: usize = 64 << 10;

thread_local! {
    /// The lowest address of this thread's stack.
    static LOWEST: OnceCell<usize> = const { OnceCell::new() };
}

/// Runs the work with so many bytes of stack, or not at all.
pub fn with<R: Send>(bytes: usize, work: impl FnOnce() -> R + Send) -> Result<R, Error> {
    let needed = bytes.saturating_add(MARGIN);
    if left() >= needed {
        return Ok(work());
    }
    scope(|scope| {
        let thread = Builder::new().stack_size(needed).spawn_scoped(scope, work);
        let thread = thread.map_err(|_| Error::Stack(needed))?;
        // the library does not panic; if the work did, it goes on as it would have here
        Ok(thread.join().unwrap_or_else(|panic| resume_unwind(panic)))
    })
}

/// How many bytes of stack are left; 0 where that cannot be known.
fn left() -> usize {
    let here = 0u8;
    let lowest = LOWEST.with(|lowest| *lowest.get_or_init(lowest_address));
    (std::ptr::addr_of!(here) as usize).saturating_sub(lowest)
}

#[cfg(target_os = "linux")]
fn lowest_address() -> usize {
    use std::ffi::{c_int, c_void};

    /// Room for the attributes of a thread; those of glibc and musl have at most 64 bytes.
    #[repr(C, align(16))]
    struct Attributes([u8; 128]);

    extern "C" {
        fn pthread_self() -> *mut c_void;
        fn pthread_getattr_np(thread: *mut c_void, attributes: *mut Attributes) -> c_int;
        fn pthread_attr_getstack(
            attributes: *const Attributes,
            lowest: *mut *mut c_void,
            size: *mut usize,
        ) -> c_int;
        fn pthread_attr_destroy(attributes: *mut Attributes) -> c_int;
    }

    let mut attributes = Attributes([0; 128]);
    let (mut lowest, mut size) = (std::ptr::null_mut(), 0);
    // SAFETY: the attributes are made by the first call and read only if it succeeds; all pointers
    // are to locals of this function.
    unsafe {
        if pthread_getattr_np(pthread_self(), &mut attributes) != 0 {
            return usize::MAX;
        }
        let told = pthread_attr_getstack(&attributes, &mut lowest, &mut size);
        pthread_attr_destroy(&mut attributes);
        if told == 0 {
            lowest as usize
        } else {
            usize::MAX
        }
    }
}

#[cfg(not(target_os = "linux"))]
fn lowest_address() -> usize {
    usize::MAX
}

#[cfg(test)]
mod tests {
    use super::*;

    // A thread may be given a larger stack than it asks for, one that another has left behind: 64 MiB is beyond all.
    #[test]
    fn a_deep_call_gets_a_thread_of_its_own_only_where_it_must() {
        let own = |stack: usize, bytes: usize| {
            let thread = Builder::new().stack_size(stack).spawn(move || {
                let outer = std::thread::current().id();
                with(bytes, move || std::thread::current().id() == outer).expect("a stack")
            });
            thread.expect("a thread").join().expect("an answer")
        };
        assert!(own(16 << 20, 6 << 20));
        assert!(own(1 << 20, 64 << 10));
        assert!(!own(1 << 20, 64 << 20));
    }

    #[test]
    fn a_stack_that_no_thread_can_have_is_told() {
        let told = with(1 << 60, || ());
        assert_eq!(told, Err(Error::Stack((1 << 60) + MARGIN)));
    }

    #[test]
    fn what_is_left_falls_with_what_is_used() {
        fn deeper(kib: usize) -> usize {
            let used = std::hint::black_box([0u8; 1 << 10]);
            let told = if kib == 0 { left() } else { deeper(kib - 1) };
            told + usize::from(used[0])
        }
        let thread = Builder::new().stack_size(4 << 20).spawn(|| (left(), deeper(1_024)));
        let (outside, inside) = thread.expect("a thread").join().expect("two answers");
        assert!(outside > 3 << 20, "{outside}");
        assert!(outside - inside >= 1 << 20 && inside > 0, "{outside} {inside}");
    }
}
