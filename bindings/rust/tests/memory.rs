//! Memory that is refused between a commit and its capture.
//!
//! `malloc` and `realloc` of this program are those of glibc, and refuse one request of a thread. The sanitizer of
//! addresses has its own: it runs the other tests.
#![cfg(all(target_os = "linux", target_env = "gnu"))]
use changecap::*;
use std::cell::Cell;
use std::ffi::c_void;

unsafe extern "C" {
    fn __libc_malloc(size: usize) -> *mut c_void;
    fn __libc_realloc(at: *mut c_void, size: usize) -> *mut c_void;
}

thread_local! {
    /// How many requests of the thread are granted before one is refused. None is while it is negative.
    static GRANTED: Cell<i64> = const { Cell::new(-1) };
}

fn is_refused() -> bool {
    let granted = GRANTED.get();
    GRANTED.set(granted.max(0) - 1);
    granted == 0
}

/// # Safety
///
/// As of the C library's.
#[no_mangle]
pub unsafe extern "C" fn malloc(size: usize) -> *mut c_void {
    // SAFETY: the caller sees to what the C library asks for.
    if is_refused() {
        std::ptr::null_mut()
    } else {
        unsafe { __libc_malloc(size) }
    }
}

/// # Safety
///
/// As of the C library's.
#[no_mangle]
pub unsafe extern "C" fn realloc(at: *mut c_void, size: usize) -> *mut c_void {
    // SAFETY: the caller sees to what the C library asks for.
    if is_refused() {
        std::ptr::null_mut()
    } else {
        unsafe { __libc_realloc(at, size) }
    }
}

/// What a call answers with the request refused that comes behind so many others, and whether there was one.
fn refused<T>(requests: i64, call: impl FnOnce() -> T) -> (T, bool) {
    GRANTED.set(requests);
    let made = call();
    (made, GRANTED.replace(-1) < 0)
}

#[test]
fn a_commit_without_memory_for_its_capture() {
    let server = Server::open_in_memory().unwrap();
    server.client().unwrap().create_table("t", &[true, false]).unwrap();
    let session = Session::new(&server).unwrap();
    session.attach(None).unwrap();
    let (mut uncommitted, mut uncaptured) = (0, 0);
    for requests in 0.. {
        let client = server.client().unwrap();
        let before = client.snapshot().unwrap().version();
        let mut batch = Batch::new().unwrap();
        batch.insert("t", (requests, "x"), Cause::Direct).unwrap();
        let (made, is_refused) = refused(requests, || session.commit(&mut batch));
        let after = client.snapshot().unwrap().version();
        match made {
            Ok(_) if !is_refused => break,
            Ok(_) => {}
            Err(Error::OutOfMemory) => {
                uncommitted += 1;
                assert_eq!(after, before);
            }
            Err(Error::NotCaptured { version, cause }) => {
                uncaptured += 1;
                assert!(matches!(*cause, Error::OutOfMemory));
                assert_eq!((version, after), (before + 1, before + 1));
                // The session has its records still.
                let changeset = session.restart().unwrap().changeset(KeyFlags::Places).unwrap();
                assert_eq!(
                    changeset.iter().unwrap().next().unwrap().new_value(0),
                    Some(ValueRef::Integer(requests))
                );
            }
            Err(why) => panic!("{why}"),
        }
    }
    assert!(uncommitted > 0 && uncaptured > 0, "{uncommitted} {uncaptured}");
}

#[test]
fn the_text_of_a_commit_that_is_not_captured() {
    let error = Error::NotCaptured { version: 7, cause: Box::new(Error::OutOfMemory) };
    assert_eq!(error.to_string(), "committed as version 7 and not captured: out of memory");
    assert!(matches!(std::error::Error::source(&error), Some(cause) if cause.to_string() == "out of memory"));
}
