//! The proved libraries as Rust sees them: the C boundary of the crates `board` and `ipmiboard`, wrapped in safe functions, and in `kcs` that of `kcsboard`.

pub mod kcs;
pub mod messages;
pub mod pair;
pub mod program;
pub mod twin;

/// The network function, without a LUN, and the command that a board reserves for hiomap.
pub use second::messages::Pair as BoardPair;
use second::{Kind, Session};

/// Which of the two answers.
#[derive(Clone, Copy)]
pub enum Side {
    Ours,
    Second,
}

/// C's record. Yes and no are numbers here, so that a byte that is neither 0 nor 1 has a meaning.
#[repr(C)]
#[derive(Clone, Copy, Debug, PartialEq)]
pub struct Record {
    pub version: u8,
    pub numbered: u8,
    pub previous: u8,
    pub events: u8,
    pub suspended: u8,
    pub window: u8,
    pub first: u16,
    pub size: u16,
    pub dirty: u8,
    pub erased: u8,
    pub marks: [u8; 64],
}

impl Record {
    /// The record with the numbers that its marks have.
    pub fn counted(self) -> Record {
        let of = |kind| self.marks.iter().filter(|mark| **mark == kind).count() as u8;
        Record { dirty: of(1), erased: of(2), ..self }
    }
}

#[repr(C)]
pub struct Bytes {
    data: *mut u8,
    len: usize,
}

#[repr(C)]
struct Numbers {
    data: *const u16,
    len: usize,
}

#[repr(C)]
pub struct ListReply {
    pub code: u8,
    pub named: u8,
    pub place: u8,
}

/// What a message gives back: the response in its first `length` bytes.
#[repr(C)]
#[derive(Clone, Copy, Debug, PartialEq)]
pub struct MessageReply {
    pub response: [u8; 16],
    pub length: u32,
    pub actions: u32,
}

impl MessageReply {
    /// The response ends within its 16 bytes, and nothing but 0 stands behind it.
    pub fn bytes(&self) -> &[u8] {
        let (response, behind) = self.response.split_at(self.length as usize);
        assert!(behind.iter().all(|byte| *byte == 0), "bytes behind the response are not 0: {self:02X?}");
        response
    }
}

#[repr(C)]
pub struct Suspended {
    pub done: u8,
    pub record: Record,
}

#[repr(C)]
pub struct Stepped {
    pub code: u8,
    pub acted: u8,
}

#[repr(C)]
#[derive(Clone, Copy, Debug, PartialEq)]
pub struct Work {
    pub unsound: u8,
    pub blocks: u32,
    pub actions: u32,
}

extern "C" {
    pub fn hiomap_fresh() -> Record;
    pub fn hiomap_command(record: *mut Record, registers: *mut [u8; 16], lpc: u16, timeout: u16, flash: Bytes, worn: Bytes, memory: Bytes) -> u32;
    pub fn hiomap_message(
        record: *mut Record,
        netfn: u8,
        command: u8,
        message: Bytes,
        lpc: u16,
        timeout: u16,
        flash: Bytes,
        worn: Bytes,
        memory: Bytes,
    ) -> MessageReply;
    fn hiomap_mark_list(record: *mut Record, list: Numbers, lpc: u16, timeout: u16, flash: usize, worn: usize, memory: usize) -> ListReply;
    pub fn hiomap_suspend(record: Record) -> Suspended;
    pub fn hiomap_resume(record: Record) -> Suspended;
    pub fn hiomap_resume_changed(record: Record) -> Suspended;
    pub fn hiomap_step(record: Record, flash: Bytes, worn: Bytes, memory: Bytes, done: u64) -> Stepped;
    pub fn hiomap_pending(record: Record) -> Work;
}

pub fn bytes(part: &mut [u8]) -> Bytes {
    Bytes { data: part.as_mut_ptr(), len: part.len() }
}

/// Bytes that a call only reads.
pub fn const_bytes(part: &[u8]) -> Bytes {
    bytes_of(part, part.len())
}

/// Bytes that begin as this part does, with any length: for a call that must not read them.
pub fn bytes_of(part: &[u8], len: usize) -> Bytes {
    Bytes { data: part.as_ptr().cast_mut(), len }
}

/// A bool byte of C.
#[inline]
fn yes(byte: u8) -> bool {
    assert!(byte < 2, "a bool byte is {byte}");
    byte == 1
}

pub fn fresh() -> Record {
    unsafe { hiomap_fresh() }
}

pub fn command(record: &mut Record, registers: &mut [u8; 16], lpc: u16, timeout: u16, flash: &mut [u8], worn: &[u8], memory: &mut [u8]) -> u32 {
    unsafe { hiomap_command(record, registers, lpc, timeout, bytes(flash), const_bytes(worn), bytes(memory)) }
}

pub fn message(
    record: &mut Record,
    board: BoardPair,
    message: &[u8],
    lpc: u16,
    timeout: u16,
    flash: &mut [u8],
    worn: &[u8],
    memory: &mut [u8],
) -> MessageReply {
    let BoardPair { network_function, command } = board;
    let (message, worn) = (const_bytes(message), const_bytes(worn));
    unsafe { hiomap_message(record, network_function, command, message, lpc, timeout, bytes(flash), worn, bytes(memory)) }
}

/// The lengths of the flash, of its map of worn blocks and of the window memory, in bytes.
#[derive(Clone, Copy, Debug)]
pub struct Lengths {
    pub flash: usize,
    pub worn: usize,
    pub memory: usize,
}

/// The code, and the place of the first bad pair where one is named. Only lengths are handed over beside the list.
pub fn mark_list(record: &mut Record, list: &[u16], lpc: u16, timeout: u16, lengths: Lengths) -> (u8, Option<usize>) {
    let list = Numbers { data: list.as_ptr(), len: list.len() };
    let Lengths { flash, worn, memory } = lengths;
    let answer = unsafe { hiomap_mark_list(record, list, lpc, timeout, flash, worn, memory) };
    let named = yes(answer.named);
    assert!(named || answer.place == 0, "no pair is named, and its place is {}", answer.place);
    (answer.code, named.then_some(answer.place.into()))
}

pub fn suspend(record: &mut Record) -> bool {
    taken(record, unsafe { hiomap_suspend(*record) })
}

pub fn resume(record: &mut Record) -> bool {
    taken(record, unsafe { hiomap_resume(*record) })
}

pub fn resume_changed(record: &mut Record) -> bool {
    taken(record, unsafe { hiomap_resume_changed(*record) })
}

fn taken(record: &mut Record, answer: Suspended) -> bool {
    *record = answer.record;
    yes(answer.done)
}

pub fn step(record: &Record, flash: &mut [u8], worn: &[u8], memory: &mut [u8], done: u64) -> (u8, bool) {
    let answer = unsafe { hiomap_step(*record, bytes(flash), const_bytes(worn), bytes(memory), done) };
    (answer.code, yes(answer.acted))
}

/// The marked blocks and the chip actions of their flush, unless a kept number disagrees with the marks.
pub fn pending(record: &Record) -> Option<(u32, u32)> {
    let answer = unsafe { hiomap_pending(*record) };
    if yes(answer.unsound) {
        assert!((answer.blocks, answer.actions) == (0, 0), "unsound, with {answer:?}");
        return None;
    }
    Some((answer.blocks, answer.actions))
}

/// The record of a session of the second implementation, with the byte that stands where there is no previous number.
pub fn record_of(s: &Session, spare: u8) -> Record {
    Record {
        version: s.version,
        numbered: u8::from(s.previous.is_some()),
        previous: s.previous.unwrap_or(spare),
        events: s.events,
        suspended: u8::from(s.suspended),
        window: match s.kind {
            Kind::Closed => 0,
            Kind::Read => 1,
            Kind::Write => 2,
        },
        first: s.first,
        size: s.size,
        dirty: s.dirty,
        erased: s.erased,
        marks: s.marks,
    }
}

/// The session of a record whose window number is 0 to 2.
pub fn session_of(r: &Record) -> Session {
    Session {
        version: r.version,
        previous: if r.numbered != 0 { Some(r.previous) } else { None },
        events: r.events,
        suspended: r.suspended != 0,
        kind: match r.window {
            0 => Kind::Closed,
            1 => Kind::Read,
            2 => Kind::Write,
            number => panic!("window number {number}"),
        },
        first: r.first,
        size: r.size,
        marks: r.marks,
        dirty: r.dirty,
        erased: r.erased,
    }
}

/// A small generator of numbers, so that a seed says everything.
pub struct Random(pub u64);

impl Random {
    pub fn next(&mut self) -> u64 {
        self.0 = self.0.wrapping_add(0x9e37_79b9_7f4a_7c15);
        let mut z = self.0;
        z = (z ^ (z >> 30)).wrapping_mul(0xbf58_476d_1ce4_e5b9);
        z = (z ^ (z >> 27)).wrapping_mul(0x94d0_49bb_1331_11eb);
        z ^ (z >> 31)
    }

    /// A number below n.
    pub fn below(&mut self, n: u64) -> u64 {
        self.next() % n
    }

    /// True once in n times.
    pub fn once_in(&mut self, n: u64) -> bool {
        self.below(n) == 0
    }

    /// One of these.
    pub fn one_of<T: Copy>(&mut self, all: &[T]) -> T {
        all[self.below(all.len() as u64) as usize]
    }

    pub fn fill(&mut self, part: &mut [u8]) {
        for byte in part {
            *byte = self.next() as u8;
        }
    }
}
