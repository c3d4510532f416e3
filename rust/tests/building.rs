//! The folder that `build.rs` links the library from.

#[allow(dead_code)]
#[path = "../build.rs"]
mod build;

use std::ffi::OsStr;
use std::os::unix::ffi::OsStrExt;

#[test]
fn a_folder_without_the_library_is_refused() {
    let wrong = |folder: &[u8]| build::folder_of(OsStr::from_bytes(folder)).unwrap_err();
    assert!(wrong(b"dist").ends_with("is a relative path: name an absolute one"));
    assert!(wrong(b"").ends_with("is a relative path: name an absolute one"));
    assert!(wrong(b"/nonexistent").ends_with("has no libdebctl.a: make it with libs/build"));
    assert!(wrong(b"/\xff").ends_with("isn't a path that cargo can print"));
    assert!(wrong(b"/\n").ends_with("isn't a path that cargo can print"));
}
