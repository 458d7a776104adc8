//! The report of the library in a file that is loaded when it is called for.

use comparison::library::Buffer;
use std::ffi::{c_char, c_int, c_void, CStr, CString};

/// As `include/baguymo.h` declares it.
type Report = unsafe extern "C" fn(*const u8, usize, *mut u8) -> usize;

const REPORT: &CStr = c"baguymo_report";
const RTLD_NOW: c_int = 2;

extern "C" {
    fn dlopen(path: *const c_char, flags: c_int) -> *mut c_void;
    fn dlsym(library: *mut c_void, name: *const c_char) -> *mut c_void;
}

/// The function `baguymo_report` of a shared library.
pub fn loaded(path: &str) -> impl Fn(&[u8], &mut Buffer) -> usize {
    let name = CString::new(path).expect("a path");
    // SAFETY: both names end with a zero byte; a library that has the function has it as the header declares it.
    let report: Report = unsafe {
        let library = dlopen(name.as_ptr(), RTLD_NOW);
        assert!(!library.is_null(), "no library: {path}");
        let function = dlsym(library, REPORT.as_ptr());
        assert!(!function.is_null(), "no report in {path}");
        std::mem::transmute(function)
    };
    // SAFETY: both pointers are valid for the lengths that the header states.
    move |file, out| unsafe { report(file.as_ptr(), file.len(), out.as_mut_ptr()) }
}
