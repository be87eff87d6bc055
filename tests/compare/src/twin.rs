//! The second implementation behind C's record. It knows sessions only: what include/hiomap.h says of records that stand for none is here.

use crate::{record_of, session_of, BoardPair, Lengths, Record};
use second::{messages, Session};

/// A number that is no window's, or a yes or no that is neither 0 nor 1, stands for no session.
fn stands_for_a_session(record: &Record) -> bool {
    record.window <= 2 && record.numbered <= 1 && record.suspended <= 1
}

pub fn command(record: &mut Record, registers: &mut [u8; 16], lpc: u16, timeout: u16, flash: &mut [u8], worn: &[u8], memory: &mut [u8]) -> u32 {
    if !stands_for_a_session(record) {
        registers[2..13].fill(0);
        registers[13] = second::SYSTEM_ERROR;
        registers[15] = record.events;
        return 0;
    }
    let mut session = session_of(record);
    let (after, actions) = second::command(&mut session, *registers, lpc, timeout, flash, worn, memory);
    *registers = after;
    *record = record_of(&session, record.previous);
    actions
}

/// The response's bytes, and the number of chip actions. A record that stands for no session is answered as its version has it, and the command
/// of a message that is taken with SYSTEM_ERROR.
pub fn message(
    record: &mut Record,
    board: BoardPair,
    message: &[u8],
    lpc: u16,
    timeout: u16,
    flash: &mut [u8],
    worn: &[u8],
    memory: &mut [u8],
) -> (Vec<u8>, u32) {
    if !stands_for_a_session(record) {
        return match messages::transport(record.version, board, message) {
            Err(refusal) => (refusal, 0),
            Ok(mut registers) => {
                let actions = command(record, &mut registers, lpc, timeout, flash, worn, memory);
                (messages::pack(message, record.version, &registers), actions)
            }
        };
    }
    let mut session = session_of(record);
    let answer = messages::message(&mut session, board, lpc, timeout, message, flash, worn, memory);
    *record = record_of(&session, record.previous);
    answer
}

pub fn mark_list(record: &mut Record, list: &[u16], lpc: u16, lengths: Lengths) -> (u8, Option<usize>) {
    if !stands_for_a_session(record) {
        return (second::SYSTEM_ERROR, None);
    }
    let mut session = session_of(record);
    let answer = second::mark_list(&mut session, lengths.flash, lengths.worn, lengths.memory, lpc, list);
    *record = record_of(&session, record.previous);
    answer
}

pub fn step(record: &Record, flash: &mut [u8], worn: &[u8], memory: &[u8], done: u64) -> (u8, bool) {
    if !stands_for_a_session(record) {
        return (second::SYSTEM_ERROR, false);
    }
    second::step(&session_of(record), flash, worn, memory, done)
}

/// Takes every record: it looks at the marks and their numbers alone.
pub fn pending(record: &Record) -> Option<(u32, u32)> {
    second::pending(&session_of(&Record { window: record.window % 3, ..*record }))
}

pub fn suspend(record: &mut Record) -> bool {
    access(record, second::suspend, false)
}

pub fn resume(record: &mut Record) -> bool {
    access(record, second::resume, false)
}

pub fn resume_changed(record: &mut Record) -> bool {
    access(record, second::resume_changed, true)
}

/// Takes every record. Whether there is a previous number stays as it is, and so does the window number unless the window is dropped.
fn access(record: &mut Record, call: fn(&mut Session) -> bool, drops: bool) -> bool {
    let mut session = session_of(&Record { window: record.window % 3, ..*record });
    let done = call(&mut session);
    if done {
        let next = record_of(&session, record.previous);
        *record = Record { numbered: record.numbered, window: if drops { next.window } else { record.window }, ..next };
    }
    done
}
