//! flow, a workflow engine whose answers are proved, from Rust: safe functions over `libflow.a`.
//!
//! ```no_run
//! let step = flow::step(b"event a, b; goal a * b;", b"", b"", 1, b"take 0").unwrap();
//! assert_eq!(step.status, flow::Status::Ok);
//! // store the record of `entries` behind the history before the step counts
//! println!("{}", step.json);
//! ```

use std::fmt;

/// How many bytes an entry of a history has.
pub const RECORD: usize = 16;

/// The greatest length of a history where a caller names none.
pub const USUAL_STEPS: u32 = 65_536;

/// What `answer` is to do with its input.
#[derive(Clone, Copy, Debug, PartialEq, Eq)]
#[repr(u32)]
pub enum Mode {
    Check = 0,
    Verify = 1,
    Trace = 2,
    Drive = 3,
    Duty = 4,
}

/// How a call ended.
#[derive(Clone, Copy, Debug, PartialEq, Eq)]
pub enum Status {
    /// `answer`: as the program ends with 0. `step`: the line was taken, or shows something.
    Ok,
    /// `answer`: as the program ends with 1. `step`: the run or a duty refuses the line.
    No,
    /// A text or the line is refused; the answer says why.
    Input,
    /// The history of a session is as long as its steps.
    Spent,
    /// The history is not legal.
    History,
}

/// Why there is no answer.
#[derive(Clone, Copy, Debug, PartialEq, Eq)]
pub enum Error {
    /// The steps are 0 or more than 1,000,000.
    Call,
    /// There was not enough memory.
    Memory,
}

impl fmt::Display for Error {
    fn fmt(&self, f: &mut fmt::Formatter<'_>) -> fmt::Result {
        f.write_str(match self {
            Error::Call => "flow takes not so many steps",
            Error::Memory => "flow: not enough memory",
        })
    }
}

impl std::error::Error for Error {}

/// What `answer` writes.
#[derive(Clone, Debug, PartialEq, Eq)]
pub struct Answer {
    pub status: Status,
    pub text: Vec<u8>,
}

/// What came of a step.
#[derive(Clone, Debug, PartialEq, Eq)]
pub struct Step {
    pub status: Status,
    /// The object of JSON, as `flow.h` describes it.
    pub json: String,
    /// The record that is to be stored behind the history before the step counts, if there is one.
    pub entry: Option<[u8; RECORD]>,
}

extern "C" {
    fn flow_answer(
        mode: u32,
        steps: u32,
        input: *const u8,
        input_length: usize,
        room: *mut u8,
        room_length: usize,
        length: *mut usize,
    ) -> u32;

    #[allow(clippy::too_many_arguments)]
    fn flow_step(
        text: *const u8,
        text_length: usize,
        policy: *const u8,
        policy_length: usize,
        history: *const u8,
        history_length: usize,
        by: u32,
        line: *const u8,
        line_length: usize,
        room: *mut u8,
        room_length: usize,
        length: *mut usize,
    ) -> u32;
}

/// What is answered first into this much, and where that is too little, into as much as is asked for.
const FIRST_ROOM: usize = 16_384;

const NO_ROOM: u32 = 9;

/// Calls with a room that is large enough for the answer.
fn whole(mut call: impl FnMut(&mut [u8], &mut usize) -> u32) -> Result<(Status, Vec<u8>), Error> {
    let mut room = vec![0; FIRST_ROOM];
    let mut length = 0;
    let mut code = call(&mut room, &mut length);
    while code == NO_ROOM {
        room.resize(length, 0);
        code = call(&mut room, &mut length);
    }
    room.truncate(length);
    let status = match code {
        0 => Status::Ok,
        1 => Status::No,
        2 => return Err(Error::Call),
        3 => Status::Input,
        7 => Status::Spent,
        10 => Status::History,
        _ => return Err(Error::Memory),
    };
    Ok((status, room))
}

/// What the program `flow` writes to an input in that mode, and its status.
pub fn answer(mode: Mode, steps: u32, input: &[u8]) -> Result<Answer, Error> {
    let (status, text) = whole(|room, length| unsafe {
        // SAFETY: each slice is given by its pointer and its length; the room and the length are borrowed for this call alone
        flow_answer(
            mode as u32,
            steps,
            input.as_ptr(),
            input.len(),
            room.as_mut_ptr(),
            room.len(),
            length,
        )
    })?;
    Ok(Answer { status, text })
}

/// One step of a case: the texts of its workflow and of its policy (an empty one is none), the records of its history so far, who calls,
/// and one command or look of a session.
pub fn step(text: &[u8], policy: &[u8], history: &[u8], by: u32, line: &[u8]) -> Result<Step, Error> {
    let (status, json) = whole(|room, length| unsafe {
        // SAFETY: as in `answer`
        flow_step(
            text.as_ptr(),
            text.len(),
            policy.as_ptr(),
            policy.len(),
            history.as_ptr(),
            history.len(),
            by,
            line.as_ptr(),
            line.len(),
            room.as_mut_ptr(),
            room.len(),
            length,
        )
    })?;
    let json = String::from_utf8_lossy(&json).into_owned();
    let entry = entry_in(&json);
    Ok(Step { status, json, entry })
}

/// The record in the object of a step: the only text in it that follows `"entries":["`.
fn entry_in(json: &str) -> Option<[u8; RECORD]> {
    const HEAD: &str = "\"entries\":[\"";
    let digits = json.get(json.find(HEAD)? + HEAD.len()..)?;
    let mut record = [0; RECORD];
    for (place, byte) in record.iter_mut().enumerate() {
        *byte = u8::from_str_radix(digits.get(2 * place..2 * place + 2)?, 16).ok()?;
    }
    Some(record)
}

#[cfg(test)]
mod tests {
    use super::*;

    const TEXT: &[u8] = b"event pack, card, bill; goal pack | (card + bill); constraint precedes pack bill;";

    #[test]
    fn a_case_goes_to_its_commit() {
        let mut history = Vec::new();
        for line in ["take 0", "take 1", "fail 2", "done 1", "take 2", "done 3", "commit"] {
            let step = step(TEXT, b"", &history, 7, line.as_bytes()).unwrap();
            assert_eq!(step.status, Status::Ok, "{}", step.json);
            history.extend(step.entry.unwrap());
        }
        let step = step(TEXT, b"", &history, 7, b"next").unwrap();
        assert!(step.json.contains("\"reply\":\"ended\""), "{}", step.json);
    }

    #[test]
    fn refusals_make_no_entry() {
        assert_eq!(step(TEXT, b"", b"", 0, b"take 2").unwrap().status, Status::No);
        assert_eq!(step(TEXT, b"", b"", 0, b"fetch 2").unwrap().status, Status::Input);
        assert_eq!(step(TEXT, b"", &[0; 16], 0, b"next").unwrap().status, Status::History);
        assert_eq!(step(TEXT, b"", b"", 0, b"take 2").unwrap().entry, None);
    }

    #[test]
    fn an_answer_is_that_of_the_program() {
        let answer = answer(Mode::Check, USUAL_STEPS, b"event a; goal a;").unwrap();
        assert_eq!(answer.status, Status::Ok);
        assert!(answer.text.ends_with(b"consistent\n"));
        assert_eq!(super::answer(Mode::Drive, 0, b""), Err(Error::Call));
    }
}
