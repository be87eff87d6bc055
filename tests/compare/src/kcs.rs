//! A KCS port of each implementation: the C boundary of the crate `kcsboard`, wrapped in safe functions, and the second implementation's; and the
//! accesses to a port as words.

use second::kcs;
use std::fmt;
use std::hint::black_box;

/// The most bytes of a request and of a response.
pub const MOST: usize = 64;

/// C's record of a port.
#[repr(C)]
#[derive(Clone, Copy, Debug, PartialEq)]
pub struct Record {
    pub phase: u8,
    pub command: u8,
    pub full: u8,
    pub output: u8,
    pub fault: u8,
    pub length: u8,
    pub next: u8,
    pub end: u8,
    pub request: [u8; MOST],
    pub response: [u8; MOST],
}

#[repr(C)]
struct Bytes {
    start: *const u8,
    length: usize,
}

extern "C" {
    pub fn kcs_fresh() -> Record;
    fn kcs_status(port: *const Record) -> u8;
    fn kcs_read_data(port: *mut Record) -> u8;
    fn kcs_write_command(port: *mut Record, code: u8);
    fn kcs_write_data(port: *mut Record, byte: u8) -> u8;
    fn kcs_respond(port: *mut Record, response: Bytes) -> u8;
}

/// What a host and a board do with a port.
pub trait Port: Clone {
    fn status(&self) -> u8;
    fn read_data(&mut self) -> u8;
    fn write_command(&mut self, code: u8);
    /// The length of the message that this completes, else 0.
    fn write_data(&mut self, byte: u8) -> usize;
    fn respond(&mut self, response: &[u8]) -> bool;
    /// The message of which this length was told.
    fn message(&self, length: usize) -> &[u8];
}

impl Record {
    pub fn fresh() -> Record {
        unsafe { kcs_fresh() }
    }
}

impl Port for Record {
    #[inline]
    fn status(&self) -> u8 {
        unsafe { kcs_status(self) }
    }

    #[inline]
    fn read_data(&mut self) -> u8 {
        unsafe { kcs_read_data(self) }
    }

    #[inline]
    fn write_command(&mut self, code: u8) {
        unsafe { kcs_write_command(self, code) }
    }

    #[inline]
    fn write_data(&mut self, byte: u8) -> usize {
        unsafe { kcs_write_data(self, byte) }.into()
    }

    #[inline]
    fn respond(&mut self, response: &[u8]) -> bool {
        let response = Bytes { start: response.as_ptr(), length: response.len() };
        crate::yes(unsafe { kcs_respond(self, response) })
    }

    #[inline]
    fn message(&self, length: usize) -> &[u8] {
        &self.request[..length]
    }
}

/// A port of the second implementation. No call of it is inlined, as none of ours can be, which are in an archive: the times of both can be compared.
#[derive(Clone)]
pub struct Second(pub kcs::Port);

impl Second {
    pub fn fresh() -> Second {
        Second(kcs::Port::new())
    }
}

impl Port for Second {
    #[inline(never)]
    fn status(&self) -> u8 {
        self.0.status()
    }

    #[inline(never)]
    fn read_data(&mut self) -> u8 {
        self.0.read_data()
    }

    #[inline(never)]
    fn write_command(&mut self, code: u8) {
        self.0.write_command(code)
    }

    #[inline(never)]
    fn write_data(&mut self, byte: u8) -> usize {
        self.0.write_data(byte)
    }

    #[inline(never)]
    fn respond(&mut self, response: &[u8]) -> bool {
        self.0.respond(response)
    }

    #[inline(never)]
    fn message(&self, length: usize) -> &[u8] {
        &self.0.message()[..length]
    }
}

/// A port of ours between bytes that no call may touch. Their number is odd, so that its record stands at any address.
#[repr(C)]
#[derive(Clone)]
pub struct Ours {
    before: [u8; 33],
    pub record: Record,
    after: [u8; 31],
}

const GUARD: u8 = 0xc7;

impl Ours {
    pub fn new(record: Record) -> Ours {
        Ours { before: [GUARD; 33], record, after: [GUARD; 31] }
    }

    /// Whether no call has touched them. The whole goes out of the compiler's sight first, so that it reads them again.
    pub fn is_whole(&self) -> bool {
        let seen = black_box(self);
        seen.before == [GUARD; 33] && seen.after == [GUARD; 31]
    }
}

/// What is done with a port, as tools/kcs_trace.sh has it.
#[derive(Clone, Debug, PartialEq)]
pub enum Access {
    Status,
    Read,
    Command(u8),
    Data(u8),
    Answer(Vec<u8>),
}

impl fmt::Display for Access {
    fn fmt(&self, f: &mut fmt::Formatter) -> fmt::Result {
        match self {
            Access::Status => write!(f, "s"),
            Access::Read => write!(f, "r"),
            Access::Command(code) => write!(f, "c{code:02X}"),
            Access::Data(byte) => write!(f, "d{byte:02X}"),
            Access::Answer(bytes) => bytes.iter().try_fold(write!(f, "a")?, |(), byte| write!(f, "{byte:02X}")),
        }
    }
}

/// What an access gave: the byte that was read, the length that was told, 1 for an answer that was taken, else 0; and the status afterwards.
#[derive(Clone, Copy, Debug, PartialEq)]
pub struct Seen {
    pub gave: usize,
    pub status: u8,
}

pub fn make(port: &mut impl Port, access: &Access) -> Seen {
    let gave = match access {
        Access::Status => port.status().into(),
        Access::Read => port.read_data().into(),
        Access::Command(code) => {
            port.write_command(*code);
            0
        }
        Access::Data(byte) => port.write_data(*byte),
        Access::Answer(bytes) => port.respond(bytes).into(),
    };
    Seen { gave, status: port.status() }
}

/// The accesses of words; behind a letter also two bytes with two dots between them, which stand for all from one to the other: data one by
/// one, of an answer all together. A star and a number repeats a word.
pub fn accesses(words: &str) -> Vec<Access> {
    words.split_whitespace().flat_map(word).collect()
}

pub fn word(word: &str) -> Vec<Access> {
    let (once, times) = word.split_once('*').map_or((word, 1), |(once, times)| (once, times.parse().expect(word)));
    let bytes = bytes_of(&once[1..]);
    let all: Vec<Access> = match &once[..1] {
        "s" => vec![Access::Status],
        "r" => vec![Access::Read],
        "c" => bytes.into_iter().map(Access::Command).collect(),
        "d" => bytes.into_iter().map(Access::Data).collect(),
        "a" => vec![Access::Answer(bytes)],
        _ => panic!("{word} is no access"),
    };
    vec![all; times].concat()
}

fn bytes_of(text: &str) -> Vec<u8> {
    let byte = |pair: &str| u8::from_str_radix(pair, 16).expect(pair);
    match text.split_once("..") {
        Some((first, last)) => (byte(first)..=byte(last)).collect(),
        None => (0..text.len()).step_by(2).map(|at| byte(&text[at..at + 2])).collect(),
    }
}
