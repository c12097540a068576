//! An image, and calls of its handler.

use crate::code::errors;
use crate::raw::*;
use std::ffi::c_void;
use std::fmt;
use std::ptr::null_mut;

/// By which rule a file is refused, and at which slot; slot 0 of a header.
#[allow(missing_docs)]
#[derive(Clone, Copy, Debug, PartialEq, Eq)]
pub struct Fault {
    pub rule: u32,
    pub slot: u32,
}

impl From<Fault> for u32 {
    /// The number of the rule.
    fn from(fault: Fault) -> u32 {
        fault.rule
    }
}

impl fmt::Display for Fault {
    fn fmt(&self, f: &mut fmt::Formatter) -> fmt::Result {
        write!(f, "rule {}, slot {}", self.rule, self.slot)
    }
}

errors! {
    /// Why a file or a call is refused. Other codes of the library can't come: messages and buffers have their sizes by type.
    ImageError by sblog_code_text: Memory = 1, Header(Fault) = 2, Code(Fault) = 3, Rules(Fault) = 4, State = 5, Who = 7, Form = 9
}

/// As which process a handler is called, from 1, by whose message (0 is the outside), of how many processes, up to 15.
#[allow(missing_docs)]
#[derive(Clone, Copy, Debug, PartialEq, Eq)]
pub struct Who {
    pub me: u8,
    pub from: u8,
    pub count: u8,
}

/// What one call of a handler answered: what it returned, how many instructions were executed, to whom it sent which messages,
/// and its outputs. Of a longer message or output the first 64 bytes are here; a shorter one is filled up with zeros.
#[allow(missing_docs)]
#[derive(Clone, Debug, PartialEq, Eq)]
pub struct Report {
    pub r0: u64,
    pub steps: u64,
    pub sends: Vec<(u8, [u8; 64])>,
    pub outputs: Vec<[u8; 64]>,
}

impl Report {
    /// A report has at most so many bytes.
    const LIMIT: usize = 1064;

    /// The report at the front of these bytes, and what comes after it.
    fn split(bytes: &[u8]) -> (Report, &[u8]) {
        let [r0, steps, sends, outputs] = [0, 8, 16, 24].map(|at| u64::from_le_bytes(*bytes[at..].first_chunk().unwrap()));
        let (sent, rest) = bytes[32..].split_at(65 * sends as usize);
        let (given, rest) = rest.split_at(64 * outputs as usize);
        let sends = sent.chunks_exact(65).map(|it| (it[0], *it.last_chunk().unwrap())).collect();
        (Report { r0, steps, sends, outputs: given.chunks_exact(64).map(|it| *it.first_chunk().unwrap()).collect() }, rest)
    }
}

/// The image of a handler, which was checked once: whatever its message, a call ends, and reads and writes nothing of others.
///
/// ```no_run
/// use sblog::{Image, Who};
/// let mut adder = Image::open(&std::fs::read("examples/adder.sbi")?)?;
/// let (mut state, mut message) = (vec![0; adder.state_len()], [0; 64]);
/// message[0] = 5;
/// let reports = adder.run(&mut state, &[message], Who { me: 1, from: 0, count: 1 })?;
/// assert_eq!((state[0], reports[0].steps), (5, 6));
/// # Ok::<(), Box<dyn std::error::Error>>(())
/// ```
#[derive(Debug)]
pub struct Image(*mut c_void);

impl Image {
    /// Checks the bytes of an image file, of form 1, 2 or 3.
    pub fn open(file: &[u8]) -> Result<Image, ImageError> {
        let (at, len, mut handle, mut fault) = (file.as_ptr(), file.len(), null_mut(), [0; 16]);
        let code = unsafe { sblog_open(at, len, &mut handle) };
        if code == 0 {
            return Ok(Image(handle));
        }
        unsafe { sblog_check(at, len, fault.as_mut_ptr(), fault.len()) };
        let [rule, slot] = [0, 8].map(|at| u32::from_le_bytes(*fault[at..].first_chunk().unwrap()));
        Err(Refused(code, Fault { rule, slot }).into())
    }

    /// How many bytes the state has.
    pub fn state_len(&self) -> usize {
        unsafe { sblog_state_len(self.0) }
    }

    /// Calls the handler by one message after another, each on the state that the one before left. A handler of form 2 is
    /// refused, and so is a state of another length.
    pub fn run(&mut self, state: &mut [u8], messages: &[[u8; 64]], who: Who) -> Result<Vec<Report>, ImageError> {
        let mut reports = vec![0; Report::LIMIT * messages.len()];
        let (sent, out, len, Who { me, from, count }) = (messages.as_flattened(), reports.as_mut_ptr(), reports.len(), who);
        let (state, state_len) = (state.as_mut_ptr(), state.len());
        done(unsafe { sblog_run(self.0, state, state_len, sent.as_ptr(), sent.len(), me, from, count, out, len) })?;
        let mut rest = &reports[..];
        let next = |_| {
            let (report, after) = Report::split(rest);
            rest = after;
            report
        };
        Ok(messages.iter().map(next).collect())
    }

    /// The machine code of the handler for x86-64. To call it is beyond what this crate keeps safe.
    pub fn compile(&self) -> Result<Vec<u8>, ImageError> {
        Ok(written(1024, 8, |out, room, size| unsafe { sblog_compile(self.0, out, room, size) })?)
    }
}

impl Drop for Image {
    fn drop(&mut self) {
        unsafe { sblog_close(self.0) }
    }
}
