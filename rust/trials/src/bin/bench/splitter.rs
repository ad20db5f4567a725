//! Bytes made into lines as a program would do it by hand, to be timed beside the core.

use std::ffi::{c_int, c_void};

use model::line::LINE;

extern "C" {
    /// C's own: the place of the first byte of that value, or null.
    fn memchr(bytes: *const c_void, byte: c_int, count: usize) -> *const c_void;
}

/// What is kept of an unfinished line. A line that is whole in a chunk is handed on where it stands.
#[derive(Default)]
pub struct Splitter {
    kept: Vec<u8>,
    dropping: bool,
}

impl Splitter {
    /// Hands on each line that is whole with these bytes, and nothing in the place of one that is
    /// too long.
    pub fn split(&mut self, bytes: &[u8], sink: &mut dyn FnMut(Option<&[u8]>)) {
        let mut rest = bytes;
        while let Some(length) = length_of_line(rest) {
            let (end, others) = rest.split_at(length);
            self.finish(end, sink);
            rest = others;
        }
        self.keep(rest, sink);
    }

    /// The line ends with these bytes.
    fn finish(&mut self, end: &[u8], sink: &mut dyn FnMut(Option<&[u8]>)) {
        if self.dropping {
            self.dropping = false;
        } else if self.kept.len() + end.len() > LINE {
            sink(None);
        } else if self.kept.is_empty() {
            sink(Some(end));
        } else {
            self.kept.extend(end);
            sink(Some(&self.kept));
        }
        self.kept.clear();
    }

    /// The line goes on with these bytes.
    fn keep(&mut self, bytes: &[u8], sink: &mut dyn FnMut(Option<&[u8]>)) {
        if !self.dropping && self.kept.len() + bytes.len() > LINE {
            self.dropping = true;
            self.kept.clear();
            sink(None);
        }
        if !self.dropping {
            self.kept.extend(bytes);
        }
    }
}

/// The number of bytes up to and with the first LF.
fn length_of_line(bytes: &[u8]) -> Option<usize> {
    // SAFETY: so many bytes can be read there.
    let found = unsafe { memchr(bytes.as_ptr().cast(), c_int::from(b'\n'), bytes.len()) };
    (!found.is_null()).then(|| found as usize - bytes.as_ptr() as usize + 1)
}
