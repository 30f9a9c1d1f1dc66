//! The test wrappers of inner functions, from `libwirescript_parts.a` (feature `parts`; the
//! archive is looked for where `libwirescript.a` is). The programs `parts` and `leaves` take
//! this file in; the library of this crate does not, since nothing else links the archive.

/// What is open: 0 code, 1 a block comment of this depth, 2 a prefab.
#[repr(C)]
#[derive(Clone, Copy, Debug, PartialEq, Eq)]
pub struct Open {
    pub carry: u64,
    pub depth: u64,
}

#[rustfmt::skip]
unsafe extern "C" {
    fn wirescript_test_classify(
        line: *const u8, line_length: usize, carry: u64, depth: u32,
        classes: *mut u8, classes_length: usize,
    ) -> Open;
    fn wirescript_test_normalize_spacing(
        line: *const u8, line_length: usize, scratch: *mut u8, scratch_length: usize,
    ) -> u64;
    fn wirescript_test_is_spaced(
        line: *const u8, line_length: usize, classes: *const u8, classes_length: usize,
    ) -> bool;
    fn wirescript_test_scan_brackets(
        line: *const u8, line_length: usize, scratch: *mut u8, scratch_length: usize, depth: u64,
    ) -> u64;
}

/// Writes a class for each byte of the line: 0 code, 1 string, 2 line comment, 3 block
/// comment, 4 prefab.
pub fn classify(line: &[u8], open: Open, classes: &mut [u8]) -> Open {
    let (to, room) = (classes.as_mut_ptr(), classes.len());
    let (carry, depth) = (open.carry, open.depth as u32);
    // SAFETY: pointers and lengths of slices; only `classes` is written.
    unsafe { wirescript_test_classify(line.as_ptr(), line.len(), carry, depth, to, room) }
}

/// `scratch` holds the line's class bytes, and takes the respaced line after them. Gives
/// its length.
pub fn normalize_spacing(line: &[u8], scratch: &mut [u8]) -> u64 {
    let (to, room) = (scratch.as_mut_ptr(), scratch.len());
    // SAFETY: pointers and lengths of slices; only `scratch` is written.
    unsafe { wirescript_test_normalize_spacing(line.as_ptr(), line.len(), to, room) }
}

/// Whether respacing leaves the line as it is.
pub fn is_spaced(line: &[u8], classes: &[u8]) -> bool {
    // SAFETY: pointers and lengths of slices; nothing is written.
    unsafe { wirescript_test_is_spaced(line.as_ptr(), line.len(), classes.as_ptr(), classes.len()) }
}

/// `scratch` holds the line's class bytes and then the stack, three bytes an entry. Gives its new depth.
pub fn scan_brackets(line: &[u8], scratch: &mut [u8], depth: u64) -> u64 {
    let (to, room) = (scratch.as_mut_ptr(), scratch.len());
    // SAFETY: pointers and lengths of slices; only `scratch` is written.
    unsafe { wirescript_test_scan_brackets(line.as_ptr(), line.len(), to, room, depth) }
}
