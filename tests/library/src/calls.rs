//! The calls under test: the library's, or those of the shared object that `ZC_OBJECT` names. So one
//! build of this test runs on the library and on calls by hand with a fault in them.

use std::env;
use std::ffi::{c_char, c_int, c_void, CString};
use std::process::exit;
use std::sync::OnceLock;

/// The status of a test that could not be made.
const NOT_MADE: i32 = 3;

const RTLD_NOW: c_int = 2;

extern "C" {
    fn dlopen(name: *const c_char, flags: c_int) -> *mut c_void;
    fn dlsym(object: *mut c_void, name: *const c_char) -> *mut c_void;
}

/// Whether the calls are a shared object's.
pub fn are_an_object() -> bool {
    env::var_os("ZC_OBJECT").is_some()
}

fn stop(what: &str) -> ! {
    eprintln!("ZC_OBJECT: {what}");
    exit(NOT_MADE)
}

/// The shared object's call of this name, if there is an object.
pub fn of_object(name: &str) -> Option<usize> {
    static OBJECT: OnceLock<usize> = OnceLock::new();
    let file = env::var("ZC_OBJECT").ok()?;
    let word = |text: &str| CString::new(text).unwrap_or_else(|_| stop("a name with a zero byte"));
    // SAFETY: both names end with a zero byte, and an object is never closed.
    let object = *OBJECT.get_or_init(|| unsafe { dlopen(word(&file).as_ptr(), RTLD_NOW) as usize });
    if object == 0 {
        stop(&format!("{file} cannot be loaded"));
    }
    match unsafe { dlsym(object as *mut c_void, word(name).as_ptr()) as usize } {
        0 => stop(&format!("{file} has no {name}")),
        call => Some(call),
    }
}

/// The function at an address, of the type that another has.
///
/// # Safety
/// There is a function of this type at the address.
pub unsafe fn like<F: Copy>(_: F, address: usize) -> F {
    assert_eq!(size_of::<F>(), size_of::<usize>());
    unsafe { std::mem::transmute_copy(&address) }
}

/// `called!(zc_pop(a, b))`: the call of that name, of the library or of the object.
macro_rules! called {
    (@hole $argument:expr) => { _ };
    ($name:ident($($argument:expr),* $(,)?)) => {{
        static CALL: std::sync::OnceLock<usize> = std::sync::OnceLock::new();
        let own: unsafe extern "C" fn($(crate::calls::called!(@hole $argument)),*) -> _ = raw::$name;
        let found = || crate::calls::of_object(stringify!($name)).unwrap_or(own as usize);
        let call = crate::calls::like(own, *CALL.get_or_init(found));
        call($($argument),*)
    }};
}
pub(crate) use called;
