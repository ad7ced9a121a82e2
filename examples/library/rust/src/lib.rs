//! Makes and verifies plans of sagas, and audits their logs, with the proved calls of `libsagas`.
//!
//! ```
//! let definition = "format = 1\nname = \"trip\"\nstep = [{ name = \"car\", undo = 5, keep = 3 }]\n";
//! let answer = sagas::plan(definition, r#"{"states":["committed"]}"#).unwrap();
//! assert!(answer.yes);
//! assert_eq!(sagas::check(definition, r#"{"states":["committed"]}"#, &answer.text).unwrap().text, "least 3\n");
//! ```
use std::fmt;
use std::os::raw::c_uint;

/// The result of a call: yes or no, and the text that the program prints.
#[derive(Debug, Clone, PartialEq, Eq)]
pub struct Answer {
    pub yes: bool,
    pub text: String,
}

#[derive(Debug, Clone, PartialEq, Eq)]
pub enum Error {
    /// An input text is not valid. The text is the error line of the program.
    BadText(String),
    /// There is not enough memory. The same call may succeed later.
    NoMemory,
}

impl fmt::Display for Error {
    fn fmt(&self, to: &mut fmt::Formatter<'_>) -> fmt::Result {
        match self {
            Error::BadText(line) => to.write_str(line.trim_end()),
            Error::NoMemory => to.write_str("sagas: out of memory"),
        }
    }
}

impl std::error::Error for Error {}

const OK: c_uint = 0;
const REJECTED: c_uint = 1;
const INVALID: c_uint = 3;
const BUFFER_TOO_SMALL: c_uint = 5;
const FIRST_SIZE: usize = 4096;

extern "C" {
    fn sagas_plan(definition: *const u8, definition_size: usize, case: *const u8, case_size: usize, buffer: *mut u8, buffer_size: usize, used: *mut usize) -> c_uint;
    fn sagas_check(
        definition: *const u8, definition_size: usize, case: *const u8, case_size: usize, answer: *const u8, answer_size: usize, buffer: *mut u8,
        buffer_size: usize, used: *mut usize,
    ) -> c_uint;
    fn sagas_audit(log: *const u8, log_size: usize, definition: *const u8, definition_size: usize, buffer: *mut u8, buffer_size: usize, used: *mut usize) -> c_uint;
}

/// Makes a call. If the buffer is too small, makes it again with a buffer of the required size.
fn with_buffer(call: impl Fn(*mut u8, usize, *mut usize) -> c_uint) -> Result<Answer, Error> {
    let mut buffer = vec![0; FIRST_SIZE];
    loop {
        let mut used = 0;
        let status = call(buffer.as_mut_ptr(), buffer.len(), &mut used);
        if status == BUFFER_TOO_SMALL {
            buffer = vec![0; used];
            continue;
        }
        buffer.truncate(used);
        let text = String::from_utf8_lossy(&buffer).into_owned();
        return match status {
            OK | REJECTED => Ok(Answer { yes: status == OK, text }),
            INVALID => Err(Error::BadText(text)),
            _ => Err(Error::NoMemory),
        };
    }
}

/// Makes an answer for a case: yes with a minimum-cost plan, or no with a chain, which proves that no
/// plan is feasible.
pub fn plan(definition: impl AsRef<[u8]>, case: impl AsRef<[u8]>) -> Result<Answer, Error> {
    let (definition, case) = (definition.as_ref(), case.as_ref());
    // SAFETY: The lengths are those of the slices, and nothing else borrows the buffer.
    with_buffer(|buffer, size, used| unsafe { sagas_plan(definition.as_ptr(), definition.len(), case.as_ptr(), case.len(), buffer, size, used) })
}

/// Verifies an answer: yes with `least N` or `blocked`, or no with `no FAULT`.
pub fn check(definition: impl AsRef<[u8]>, case: impl AsRef<[u8]>, answer: impl AsRef<[u8]>) -> Result<Answer, Error> {
    let (definition, case, answer) = (definition.as_ref(), case.as_ref(), answer.as_ref());
    // SAFETY: As in `plan`.
    with_buffer(|buffer, size, used| unsafe {
        sagas_check(definition.as_ptr(), definition.len(), case.as_ptr(), case.len(), answer.as_ptr(), answer.len(), buffer, size, used)
    })
}

/// Audits the log of sagas of a definition: yes with totals, or no with the first event that was not
/// allowed.
pub fn audit(log: impl AsRef<[u8]>, definition: impl AsRef<[u8]>) -> Result<Answer, Error> {
    let (log, definition) = (log.as_ref(), definition.as_ref());
    // SAFETY: As in `plan`.
    with_buffer(|buffer, size, used| unsafe { sagas_audit(log.as_ptr(), log.len(), definition.as_ptr(), definition.len(), buffer, size, used) })
}
