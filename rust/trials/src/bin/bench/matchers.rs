//! Masks matched by others, to be timed beside the core: a matcher that goes back to every star, and
//! C's own.

use std::ffi::{c_char, c_int, CString};

use model::names::fold;

/// The steps after which a matcher that goes back to every star is stopped.
pub const CAP: u32 = 1_000_000;

/// The matcher that one writes first: a star tries every run, and each run the rest of the mask.
/// Nothing where it has taken `CAP` steps.
pub fn backtracking(mask: &[u8], text: &[u8]) -> Option<bool> {
    let mut left = CAP;
    covers(mask, text, &mut left)
}

fn covers(mask: &[u8], text: &[u8], left: &mut u32) -> Option<bool> {
    *left = left.checked_sub(1)?;
    let Some((&m, rest)) = mask.split_first() else {
        return Some(text.is_empty());
    };
    if m == b'*' {
        for run in 0..=text.len() {
            if covers(rest, &text[run..], left)? {
                return Some(true);
            }
        }
        return Some(false);
    }
    match text.split_first() {
        Some((&b, others)) if m == b'?' || fold(m) == fold(b) => covers(rest, others, left),
        _ => Some(false),
    }
}

extern "C" {
    /// C's own: 0 where the pattern matches.
    fn fnmatch(pattern: *const c_char, string: *const c_char, flags: c_int) -> c_int;
}

/// A mask and a text as C has them.
pub struct Fnmatch {
    mask: CString,
    text: CString,
}

impl Fnmatch {
    /// No escapes, and letters without case: as Linux numbers them.
    const FLAGS: c_int = 2 | 16;

    /// Neither holds a NUL, and the mask no '[', which C reads otherwise.
    pub fn new(mask: &[u8], text: &[u8]) -> Fnmatch {
        assert!(!mask.contains(&b'['), "a class to C");
        let c = |bytes: &[u8]| CString::new(bytes).expect("no NUL");
        Fnmatch { mask: c(mask), text: c(text) }
    }

    /// Whether the mask matches the text.
    pub fn matches(&self) -> bool {
        // SAFETY: both are C's strings.
        unsafe { fnmatch(self.mask.as_ptr(), self.text.as_ptr(), Fnmatch::FLAGS) == 0 }
    }
}
