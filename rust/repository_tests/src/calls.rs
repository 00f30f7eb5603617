//! Calls whose condition may not hold: they may panic, and if a check is lost, also write outside of their buffer or
//! not return.

use std::panic::{AssertUnwindSafe, catch_unwind, resume_unwind};
use std::sync::mpsc::{self, RecvTimeoutError};
use std::thread;
use std::time::Duration;

/// Runs some calls in a thread. Fails as they do, or if they take more than this number of seconds.
pub fn check_in_time(what: &str, seconds: u64, calls: impl FnOnce() + Send + 'static) {
    let (sender, receiver) = mpsc::channel();
    let thread = thread::spawn(move || {
        calls();
        sender.send(()).ok();
    });
    match receiver.recv_timeout(Duration::from_secs(seconds)) {
        Err(RecvTimeoutError::Timeout) => panic!("{what}: a call does not return"),
        _ => thread.join().unwrap_or_else(|failure| resume_unwind(failure)),
    }
}

/// Calls with a buffer of this length, the middle of a larger one, and checks that the bytes around it do not change.
/// Returns the result of the call and the buffer, or `None` if the call panics.
pub fn with_buffer(length: usize, call: impl FnOnce(&mut [u8]) -> usize) -> Option<(usize, Vec<u8>)> {
    let mut around = [7; 300];
    let result = catch_unwind(AssertUnwindSafe(|| call(&mut around[50..50 + length])));
    assert!(around[..50].iter().chain(&around[50 + length..]).all(|byte| *byte == 7));
    Some((result.ok()?, around[50..50 + length].to_vec()))
}

/// Returns the message with which a call panics, or `None` if it returns.
pub fn panic_message<T>(call: impl FnOnce() -> T) -> Option<String> {
    let panic = catch_unwind(AssertUnwindSafe(|| drop(call()))).err()?;
    panic
        .downcast::<String>()
        .map_or_else(|panic| panic.downcast().ok().map(|text: Box<&str>| text.to_string()), |text| Some(*text))
}
