//! Both implementations side by side: the same record, flash, map of worn blocks and window memory, and every call made on both and compared. After
//! each, both are asked how much is pending.

use crate::{twin, BoardPair, Lengths, Record};
use std::fmt::{Arguments, Debug};
use std::hint::black_box;

/// Bytes around what is lent that no call may touch. Odd numbers of them, so that the lent part has any alignment.
const BEFORE: usize = 33;
const AFTER: usize = 31;
const GUARD: u8 = 0xc7;
const BLOCK: usize = 4096;

/// Bytes to lend, with guards around them.
#[derive(Clone, PartialEq)]
pub struct Buffer(Vec<u8>);

impl Buffer {
    pub fn new(content: &[u8]) -> Buffer {
        let mut all = vec![GUARD; BEFORE];
        all.extend_from_slice(content);
        all.extend_from_slice(&[GUARD; AFTER]);
        Buffer(all)
    }

    pub fn part(&mut self) -> &mut [u8] {
        let end = self.0.len() - AFTER;
        &mut self.0[BEFORE..end]
    }
}

/// The record and the registers as C would have them, with guards around each.
#[repr(C)]
struct Lent {
    before: [u8; 64],
    record: Record,
    between: [u8; 64],
    registers: [u8; 16],
    after: [u8; 64],
}

impl Lent {
    fn new(record: Record, registers: [u8; 16]) -> Lent {
        Lent { before: [GUARD; 64], record, between: [GUARD; 64], registers, after: [GUARD; 64] }
    }

    fn is_guarded(&self) -> bool {
        [self.before, self.between, self.after] == [[GUARD; 64]; 3]
    }
}

#[derive(Clone, Copy, Debug)]
pub enum Access {
    Suspend,
    Resume,
    ResumeChanged,
}

/// Ours is first, the second implementation's second. The second's map is only read, so that ours must stay like it.
#[derive(Clone)]
pub struct Pair {
    pub record: [Record; 2],
    pub flash: [Buffer; 2],
    pub worn: [Buffer; 2],
    pub memory: [Buffer; 2],
    pub lpc: u16,
    pub timeout: u16,
}

impl Pair {
    /// With every block good.
    pub fn new(record: Record, flash: &[u8], memory: &[u8], lpc: u16, timeout: u16) -> Pair {
        let good = Buffer::new(&vec![0; flash.len() / BLOCK]);
        let (flash, memory) = (Buffer::new(flash), Buffer::new(memory));
        let [flash, worn, memory] = [flash, good, memory].map(|buffer| [buffer.clone(), buffer]);
        Pair { record: [record; 2], flash, worn, memory, lpc, timeout }
    }

    /// The driver gives another map.
    pub fn wear(&mut self, map: &[u8]) {
        self.worn = [Buffer::new(map), Buffer::new(map)];
    }

    /// The response.
    pub fn command(&mut self, registers: [u8; 16]) -> Result<u8, String> {
        let mut lent = Lent::new(self.record[0], registers);
        // lent as a whole goes out of the compiler's sight, so that its guards are read again
        let lent = black_box(&mut lent);
        let (flash, worn, memory) = (self.flash[0].part(), self.worn[0].part(), self.memory[0].part());
        let ours = crate::command(&mut lent.record, &mut lent.registers, self.lpc, self.timeout, flash, worn, memory);
        let lent = black_box(lent);
        if !lent.is_guarded() {
            return Err(format!("command {registers:02X?}: bytes around the record or the registers changed"));
        }
        self.record[0] = lent.record;
        let mut after = registers;
        let (flash, worn, memory) = (self.flash[1].part(), self.worn[1].part(), self.memory[1].part());
        let theirs = twin::command(&mut self.record[1], &mut after, self.lpc, self.timeout, flash, worn, memory);
        self.same(format_args!("command {registers:02X?}"), (lent.registers, ours), (after, theirs))?;
        Ok(after[13])
    }

    /// The completion code, if there is one. The message too stands between guards, and must stay.
    pub fn message(&mut self, board: BoardPair, message: &[u8]) -> Result<Option<u8>, String> {
        let mut lent = Buffer::new(message);
        let lent = black_box(&mut lent);
        let code = self.message_of(board, lent.part())?;
        if *black_box(lent) != Buffer::new(message) {
            return Err(format!("message {message:02X?}: it changed, or bytes around it"));
        }
        Ok(code)
    }

    /// With a message of any length, as it stands.
    pub fn message_of(&mut self, board: BoardPair, message: &[u8]) -> Result<Option<u8>, String> {
        let mut lent = Lent::new(self.record[0], [GUARD; 16]);
        let lent = black_box(&mut lent);
        let (flash, worn, memory) = (self.flash[0].part(), self.worn[0].part(), self.memory[0].part());
        let ours = crate::message(&mut lent.record, board, message, self.lpc, self.timeout, flash, worn, memory);
        let lent = black_box(lent);
        let front = &message[..message.len().min(70)];
        if !lent.is_guarded() || lent.registers != [GUARD; 16] {
            return Err(format!("message {front:02X?}: bytes around the record changed"));
        }
        self.record[0] = lent.record;
        let (flash, worn, memory) = (self.flash[1].part(), self.worn[1].part(), self.memory[1].part());
        let theirs = twin::message(&mut self.record[1], board, message, self.lpc, self.timeout, flash, worn, memory);
        let (network_function, command) = (board.network_function, board.command);
        let what = format_args!("message of {} bytes, {front:02X?}, to {network_function:02X} {command:02X}", message.len());
        self.same(what, (ours.bytes(), ours.actions), (&theirs.0[..], theirs.1))?;
        Ok(theirs.0.get(2).copied())
    }

    pub fn mark_list(&mut self, list: &[u16]) -> Result<(), String> {
        let [flash, worn, memory] = [&mut self.flash, &mut self.worn, &mut self.memory].map(|both| both[0].part().len());
        self.mark_list_of(list, Lengths { flash, worn, memory })
    }

    /// With any lengths of the buffers and the map, which the call does not touch.
    pub fn mark_list_of(&mut self, list: &[u16], lengths: Lengths) -> Result<(), String> {
        let mut lent = Lent::new(self.record[0], [GUARD; 16]);
        let lent = black_box(&mut lent);
        let ours = crate::mark_list(&mut lent.record, list, self.lpc, self.timeout, lengths);
        let lent = black_box(lent);
        // a list may have any length, so that its front alone is shown
        let front = &list[..list.len().min(128)];
        if !lent.is_guarded() || lent.registers != [GUARD; 16] {
            return Err(format!("list {front:?}: bytes around the record changed"));
        }
        self.record[0] = lent.record;
        let theirs = twin::mark_list(&mut self.record[1], list, self.lpc, lengths);
        self.same(format_args!("list of {} numbers, {front:?}, {lengths:?}", list.len()), ours, theirs)
    }

    /// What it answers.
    pub fn step(&mut self, done: u64) -> Result<u8, String> {
        let ours = crate::step(&self.record[0], self.flash[0].part(), self.worn[0].part(), self.memory[0].part(), done);
        let theirs = twin::step(&self.record[1], self.flash[1].part(), self.worn[1].part(), self.memory[1].part(), done);
        self.same(format_args!("step {done}"), ours, theirs)?;
        Ok(ours.0)
    }

    pub fn access(&mut self, call: Access) -> Result<(), String> {
        let [ours, theirs] = &mut self.record;
        let (ours, theirs) = match call {
            Access::Suspend => (crate::suspend(ours), twin::suspend(theirs)),
            Access::Resume => (crate::resume(ours), twin::resume(theirs)),
            Access::ResumeChanged => (crate::resume_changed(ours), twin::resume_changed(theirs)),
        };
        self.same(format_args!("{call:?}"), ours, theirs)
    }

    /// The host writes these bytes to the window memory.
    pub fn host_write(&mut self, at: usize, bytes: &[u8]) {
        for memory in &mut self.memory {
            memory.part()[at..at + bytes.len()].copy_from_slice(bytes);
        }
    }

    fn same<T: PartialEq + Debug>(&self, what: Arguments, ours: T, theirs: T) -> Result<(), String> {
        if ours != theirs {
            return Err(format!("{what}: answered {ours:02X?}, the second implementation {theirs:02X?} (in hex)"));
        }
        if self.record[0] != self.record[1] {
            return Err(format!("{what}: record {:?}, the second implementation {:?}", self.record[0], self.record[1]));
        }
        let pending = (crate::pending(&self.record[0]), twin::pending(&self.record[1]));
        if pending.0 != pending.1 {
            return Err(format!("{what}: pending {:?}, the second implementation {:?}", pending.0, pending.1));
        }
        if self.flash[0] != self.flash[1] {
            return Err(format!("{what}: flash differs"));
        }
        if self.worn[0] != self.worn[1] {
            return Err(format!("{what}: the map of worn blocks changed, or bytes around it"));
        }
        if self.memory[0] != self.memory[1] {
            return Err(format!("{what}: window memory differs"));
        }
        Ok(())
    }
}
