//! A thread with little stack, for calls that must not need much.

use std::thread;

const STACK: usize = 64 * 1024;

/// What a call gives on a thread with a stack of 64 KiB.
pub fn run<T: Send>(call: impl FnOnce() -> T + Send) -> T {
    thread::scope(|scope| {
        let thread = thread::Builder::new().stack_size(STACK).spawn_scoped(scope, call);
        thread.expect("a thread").join().expect("an answer")
    })
}
