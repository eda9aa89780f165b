//! Where the calls of a run that is kept come from.
use core::ffi::c_char;
use core::panic::Location;
use std::ffi::CString;
use std::path::Path;

/// The place that was told last: the library keeps no copy of a file's name.
pub(crate) struct Places {
    /// Whether lines have places.
    pub(crate) are_told: bool,
    /// Whether the place that was told last stays.
    pub(crate) are_held: bool,
    file: &'static str,
    name: CString,
}

impl Places {
    pub(crate) fn new() -> Places {
        Places { are_told: true, are_held: false, file: "", name: CString::default() }
    }

    /// What the library is told of a place, if it is: it lives until the next one is asked for.
    pub(crate) fn of(&mut self, at: &'static Location<'static>) -> Option<(*const c_char, u32)> {
        if !self.are_told || self.are_held {
            return None;
        }
        // (most calls come from the file of the call before)
        if !core::ptr::eq(self.file, at.file()) {
            self.name = CString::new(at.file()).unwrap_or_default();
            self.file = at.file();
        }
        Some((self.name.as_ptr(), at.line()))
    }
}

/// A path as the library takes it; none with a zero octet is one.
pub(crate) fn c_path(path: &Path) -> Option<CString> {
    use std::os::unix::ffi::OsStrExt;
    CString::new(path.as_os_str().as_bytes()).ok()
}
