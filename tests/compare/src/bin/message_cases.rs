//! Prints how a controller answers fixed messages, rule by rule of Ticket 6.
//!
//! message_cases ours|second: the proved library or the second implementation. tests/cases.sh compares what both print with the stored
//! tests/cases/messages.txt.

use compare::messages::{asked, message};
use compare::{twin, BoardPair, Record, Side};

const BLOCK: usize = 4096;
const BOARD: BoardPair = BoardPair { network_function: 0x3a, command: 0x5c };
/// Numbers whose two bytes differ.
const LPC: u16 = 0x0310;
const TIMEOUT: u16 = 0x0408;

/// A board with its record and buffers.
#[derive(Clone)]
struct Machine {
    side: Side,
    board: BoardPair,
    record: Record,
    lpc: u16,
    flash: Vec<u8>,
    worn: Vec<u8>,
    memory: Vec<u8>,
}

impl Machine {
    /// A fresh session, four flash blocks, all good, and two window blocks.
    fn new(side: Side) -> Machine {
        let (flash, worn, memory) = (pattern(4 * BLOCK, 0x10), vec![0; 4], pattern(2 * BLOCK, 0x80));
        Machine { side, board: BOARD, record: compare::fresh(), lpc: LPC, flash, worn, memory }
    }

    /// A version, a previous number, and a write window at blocks 1 and 2 whose second block is dirty.
    fn with_window(side: Side, version: u8) -> Machine {
        let mut m = Machine::new(side);
        m.record = Record { version, numbered: 1, previous: 9, window: 2, first: 1, size: 2, ..m.record };
        m.record.marks[1] = 1;
        m.record = m.record.counted();
        m
    }

    fn message(&mut self, message: &[u8]) -> (Vec<u8>, u32) {
        let Machine { side, board, record, lpc, flash, worn, memory } = self;
        match side {
            Side::Ours => {
                let reply = compare::message(record, *board, message, *lpc, TIMEOUT, flash, worn, memory);
                (reply.bytes().to_vec(), reply.actions)
            }
            Side::Second => twin::message(record, *board, message, *lpc, TIMEOUT, flash, worn, memory),
        }
    }

    /// Each part of the record and of the buffers by its name.
    fn parts(&self) -> Vec<(&'static str, String)> {
        let r = &self.record;
        vec![
            ("version", r.version.to_string()),
            ("numbered", r.numbered.to_string()),
            ("previous", r.previous.to_string()),
            ("events", format!("{:02X}", r.events)),
            ("suspended", r.suspended.to_string()),
            ("window", r.window.to_string()),
            ("first", r.first.to_string()),
            ("size", r.size.to_string()),
            ("dirty", r.dirty.to_string()),
            ("erased", r.erased.to_string()),
            ("marks", marks_text(&r.marks)),
            ("flash", blocks_text(&self.flash)),
            ("memory", blocks_text(&self.memory)),
        ]
    }

    fn print(&self) {
        let parts: Vec<String> = self.parts().into_iter().map(|(name, value)| format!("{name} {value}")).collect();
        let BoardPair { network_function, command } = self.board;
        println!("  from {}, pair {network_function:02X} {command:02X}, B {:04X}, T {TIMEOUT:04X}", parts.join(", "), self.lpc);
    }

    /// A message on what the one before left, with its response, its actions and what it changed.
    fn send(&mut self, message: &[u8]) {
        let before = self.parts();
        let (response, actions) = self.message(message);
        let differing = before.into_iter().zip(self.parts()).filter(|(old, new)| old != new);
        let changes: Vec<String> = differing.map(|((name, old), (_, new))| format!("{name} {old} to {new}")).collect();
        let changed = if changes.is_empty() { "nothing changed".into() } else { changes.join(", ") };
        println!("    {} -> {}; actions {actions}; {changed}", hex(message), hex(&response));
    }

    /// Each message by itself, from this state.
    fn send_each<T: AsRef<[u8]>>(&self, messages: impl IntoIterator<Item = T>) {
        self.print();
        for message in messages {
            self.clone().send(message.as_ref());
        }
    }
}

fn pattern(length: usize, base: u8) -> Vec<u8> {
    (0..length).map(|i| base + (i / BLOCK % 16) as u8).collect()
}

/// Each marked block with its mark, neighbours that are marked alike together.
fn marks_text(marks: &[u8; 64]) -> String {
    let mut from = 0;
    let runs = marks.chunk_by(|a, b| a == b).filter_map(|run| {
        from += run.len();
        match (run[0], run.len()) {
            (0, _) => None,
            (mark, 1) => Some(format!("{}:{mark}", from - 1)),
            (mark, count) => Some(format!("{}..{}:{mark}", from - count, from - 1)),
        }
    });
    let runs: Vec<String> = runs.collect();
    if runs.is_empty() { "none".into() } else { runs.join(" ") }
}

/// Each block's byte, all of its bytes being alike; with how many there are, where they are no whole block or many blocks alike.
fn blocks_text(bytes: &[u8]) -> String {
    let blocks: Vec<(u8, usize)> = bytes.chunks(BLOCK).map(|block| (block[0], block.len())).collect();
    assert!(bytes.chunks(BLOCK).all(|block| block.iter().all(|byte| *byte == block[0])), "a block of several bytes");
    let runs = blocks.chunk_by(|a, b| a == b).map(|run| match (run[0], run.len()) {
        ((byte, BLOCK), 1) => format!("{byte:02X}"),
        ((byte, BLOCK), count) => format!("{byte:02X}*{count}"),
        ((byte, length), _) => format!("{byte:02X}({length} bytes)"),
    });
    if blocks.is_empty() { "none".into() } else { runs.collect::<Vec<_>>().join(" ") }
}

/// Bytes; eight and more that rise one by one are written as the first and the last.
fn hex(bytes: &[u8]) -> String {
    let runs = bytes.chunk_by(|a, b| a.checked_add(1) == Some(*b)).map(|run| match run {
        [first, .., last] if run.len() >= 8 => format!("{first:02X}..{last:02X}"),
        few => few.iter().map(|byte| format!("{byte:02X}")).collect::<Vec<_>>().join(" "),
    });
    if bytes.is_empty() { "none".into() } else { runs.collect::<Vec<_>>().join(" ") }
}

/// Parameters of each command at its edges, as the version has them: every byte of a parameter counts somewhere.
fn parameters(version: u8, code: u8) -> Vec<Vec<u8>> {
    let all: &[&[u8]] = match (code, version) {
        (2, 0..=2) => &[&[0], &[1], &[2], &[3], &[255]],
        (4 | 6, 1) => &[&[0, 0], &[3, 0], &[4, 0], &[0, 1]],
        (4 | 6, 2) => &[&[0, 0, 0, 0], &[2, 0, 1, 0], &[0, 0, 0, 1], &[3, 0, 2, 0], &[4, 0, 1, 0], &[0, 1, 1, 0]],
        (5, 2) => &[&[0], &[1], &[2], &[128]],
        (7 | 8, 1) => &[
            &[1, 0, 0, 0x10, 0, 0], &[1, 0, 1, 0x10, 0, 0], &[2, 0, 1, 0, 0, 0], &[2, 0, 1, 0x10, 0, 0], &[1, 0, 0, 0, 1, 0], &[1, 0, 0, 0, 0, 1],
            &[1, 1, 1, 0, 0, 0], &[0, 0, 1, 0, 0, 0], &[0, 0, 0, 0, 0, 0],
        ],
        (7 | 10, 2) => &[&[0, 0, 1, 0], &[0, 0, 2, 0], &[1, 0, 1, 0], &[2, 0, 0, 0], &[1, 0, 2, 0], &[0, 1, 1, 0], &[0, 0, 1, 1]],
        (9, 0..=2) => &[&[0], &[1], &[0xc2], &[0xff]],
        _ if asked(version, code) == Some(0) => &[&[]],
        _ => &[&[], &[1, 0, 1, 0]],
    };
    all.iter().map(|parameters| parameters.to_vec()).collect()
}

/// Each command at its edges, and two lengths of those that the version does not know.
fn each_command(side: Side) {
    println!("each command at each version");
    for version in [0, 1, 2, 3, 255] {
        let sent = (0..=12).chain([255]).flat_map(|code| parameters(version, code).into_iter().map(move |some| message(BOARD, code, 5, &some)));
        Machine::with_window(side, version).send_each(sent);
    }
}

fn lengths(side: Side) {
    println!("under two bytes, under four, and a wrong length for a known command: every length up to two bytes past the right one");
    for version in [0, 1, 2, 3, 255] {
        let known: Vec<u8> = if version < 3 { (0..=12).filter(|code| asked(version, *code).is_some()).collect() } else { vec![2, 7] };
        let sent = known.into_iter().flat_map(|code| {
            let most = 4 + asked(version, code).unwrap_or(4) + 2;
            let long = message(BOARD, code, 5, &[1, 0, 1, 0, 0, 0, 0, 0]);
            (0..=most).map(move |length| long[..length].to_vec())
        });
        Machine::with_window(side, version).send_each(sent);
    }
}

fn pairs(side: Side) {
    println!("a foreign pair: before the length, whatever the LUN; the network function made odd with the request's LUN");
    Machine::with_window(side, 2).send_each(listed(
        "E8 5D|EC 5C|E8 5D 02|EC 5C 02|EC 5C 02 05|E8 5D 08 05 00|E4 5C 02 05 02|E8 5B 02 05 02|5C E8 02 05 02|3A 5C 02 05 02|68 5C 02 05 02|\
         E8 5C 02 05 02|E9 5C 02 05 02|EA 5C 02 05 02|EB 5C 02 05 02|EC 5C 02 05 02|ED 5C 02 05 02|EF 5C 02 05 02|E7 5C 02 05 02|\
         E9 5C 08|EA 5C 08|EB 5C 08|E9 5C 00 05|EA 5C 00 05|EB 5C 00 05",
    ));
    for network_function in [0x3b, 0x00, 0x01, 0x3e, 0x3f, 0x40, 0x7a, 0xba, 0xe8, 0xff] {
        let board = BoardPair { network_function, command: 0xff - network_function };
        let own = network_function << 2;
        let sent = [own, own | 3, own ^ 4, network_function].map(|first| vec![first, board.command, 9, 5, 1]);
        Machine { board, ..Machine::with_window(side, 2) }.send_each(sent.into_iter().chain([vec![own, network_function, 9, 5, 1]]));
    }
}

/// Two digits a byte.
fn bytes(text: &str) -> Vec<u8> {
    text.split(' ').map(|byte| u8::from_str_radix(byte, 16).expect("a byte")).collect()
}

/// Messages with bars between them.
fn listed(text: &str) -> Vec<Vec<u8>> {
    text.split('|').map(bytes).collect()
}

fn unknown(side: Side) {
    println!("a command unknown at the version goes to the mediator at any length");
    let long: Vec<u8> = (1..=66).collect();
    for (version, codes) in [(0, &[0, 3, 4, 8, 10, 255][..]), (1, &[0, 10, 11]), (2, &[0, 11, 12, 255]), (3, &[1, 2, 11])] {
        let sent = codes.iter().flat_map(|code| [0, 10, 11, 12, 60, 66].map(|count| message(BOARD, *code, 5, &long[..count])));
        Machine::with_window(side, version).send_each(sent);
    }
}

/// What makes a record or the board unsound, or keeps it at its edge. The last five records stand for no session.
type Change = fn(&mut Machine);
const UNSOUND: [(&str, Change); 22] = [
    ("nothing", |_| {}),
    ("no window with a first block", |m| (m.record.window, m.record.size, m.record.marks, m.record.dirty) = (0, 0, [0; 64], 0)),
    ("a window of size 0", |m| m.record.size = 0),
    ("a window larger than the memory", |m| m.record.size = 3),
    ("a window that ends at the end", |m| m.record.first = 2),
    ("a window that ends past the end", |m| m.record.first = 3),
    ("mark 3", |m| m.record.marks[0] = 3),
    ("a mark past the window", |m| (m.record.marks[2], m.record.erased) = (2, 1)),
    ("marks in a read window", |m| m.record.window = 1),
    ("one dirty block too many", |m| m.record.dirty = 2),
    ("a mark that is not counted", |m| m.record.marks[0] = 2),
    ("suspended and 0x40 clear", |m| m.record.suspended = 1),
    ("0x40 set and not suspended", |m| m.record.events = 0xc1),
    ("B + C = 65,536", |m| m.lpc = 65534),
    ("B + C = 65,537", |m| m.lpc = 65535),
    ("flash of a byte more", |m| m.flash.push(0x20)),
    ("no window memory", |m| m.memory.clear()),
    ("window number 3", |m| m.record.window = 3),
    ("window number 255 at version 1", |m| (m.record.window, m.record.version) = (255, 1)),
    ("numbered 2", |m| m.record.numbered = 2),
    ("suspended 2 at version 0", |m| (m.record.suspended, m.record.events, m.record.version) = (2, 0xc1, 0)),
    ("all of these", |m| (m.record.window, m.record.numbered, m.record.suspended, m.record.version) = (9, 255, 3, 77)),
];

fn unsound(side: Side) {
    println!("records and boards that are not sound: a message is looked at by the record's version, and a command that is taken is SYSTEM_ERROR");
    for (name, change) in UNSOUND {
        println!(" {name}");
        let mut m = Machine::with_window(side, 2);
        change(&mut m);
        m.send_each(listed("E8 5C 02 05 01|E8 5C 08 05|E8 5C 09 05 01 00|E8 5C 07 05 00 00 01 00|E8 5C 0B 05 01|E8 5C 02|EC 5C 02 05 01|E8"));
    }
}

/// Commands 0 to 10 at this version, with parameters that are good while there is a window.
fn good_ones(version: u8, sequence: u8) -> Vec<Vec<u8>> {
    let good = |code| {
        let all = parameters(version, code);
        message(BOARD, code, sequence, if code == 2 || code == 9 { &all[1] } else { &all[0] })
    };
    (0..=10).map(good).collect()
}

fn suspended(side: Side) {
    println!("suspended, with a new number and with the previous one");
    for version in 0..3 {
        let mut m = Machine::with_window(side, version);
        compare::suspend(&mut m.record);
        m.send_each(good_ones(version, 5).into_iter().chain(good_ones(version, 9)));
    }
}

fn sequences(side: Side) {
    println!("the previous number again, and no previous number; without a window");
    for version in 0..3 {
        let m = Machine { record: Record { version, numbered: 1, previous: 9, ..compare::fresh() }, ..Machine::new(side) };
        m.send_each(good_ones(version, 9));
        let m = Machine { record: Record { numbered: 0, ..m.record }, ..m };
        m.send_each(good_ones(version, 9));
    }
}

fn wide(side: Side) {
    println!("one after another: numbers of which both bytes count, and the most actions");
    let mut m = Machine { flash: vec![0x11; 0x1238 * BLOCK], worn: vec![0; 0x1238], memory: vec![0x99; 64 * BLOCK], ..Machine::new(side) };
    m.print();
    for sent in listed(
        "E8 5C 02 01 02|E8 5C 03 02|E8 5C 06 03 36 12 00 00|E8 5C 07 04 01 00 01 00|E8 5C 0A 05 00 00 01 00|E8 5C 06 06 34 11 00 01|\
         E8 5C 07 07 00 00 40 00|E8 5C 04 08 34 12 03 00|E8 5C 04 09 38 12 01 00|E8 5C 02 0A 01|E8 5C 03 0B|E8 5C 06 0C 35 12|\
         E8 5C 07 0D 36 12 01 10 00 00|E8 5C 08 0E 35 12 01 00 00 00|E8 5C 07 0F 35 12 00 30 00 00|E8 5C 08 10 35 12 01 30 00 00|E8 5C 05 11",
    ) {
        m.send(&sent);
    }
}

/// Whole conversations, each message on what the one before left; the host writes to the window between them.
const CONVERSATIONS: [(&str, &str); 5] = [
    (
        "version 2, from GET_INFO to FLUSH",
        "E8 5C 02 01 02|E8 5C 03 02|E8 5C 06 03 01 00 02 00|host A5 5A|E8 5C 07 04 00 00 01 00|E8 5C 0A 05 01 00 01 00|E8 5C 08 06|E8 5C 05 07 00",
    ),
    (
        "version 1, from GET_INFO to FLUSH, which marks the second block",
        "E8 5C 02 01 01|E8 5C 03 02|E8 5C 04 03 03 00|E8 5C 06 04 02 00|host A5 5A|\
         E8 5C 07 05 02 00 00 10 00 00|E8 5C 08 06 03 00 01 00 00 00|E8 5C 05 07|E8 5C 01 08",
    ),
    (
        "a refusal takes no number and leaves the window, a refused create drops it; LUNs change",
        "E8 5C 06 01 00 00 00 00|E9 5C 02 02 FF|EA 5C 06 03 00 00 00 00|host A5 5A|EB 5C 07 04 00 00 02 00|\
         E8 5C 08 05 00|EC 5C 08 05|E8 5C 08|E8|E8 5C 0B 06|E8 5C 08 06|E8 5C 08 05|E8 5C 06 06 04 00 00 00|E8 5C 07 07 00 00 01 00",
    ),
    (
        "versions that change: the length of a command is that of the version before it, GET_INFO's response that of the version agreed",
        "E8 5C 02 01 01|E8 5C 06 02 00 00 00 00|E8 5C 06 02 00 00|host A5 5A|E8 5C 07 03 00 00 01 00 00 00|\
         E8 5C 02 04 02|E8 5C 08 05 00 00 00 00 00 00|E8 5C 0A 05 01 00 01 00|E8 5C 02 06 01|\
         E8 5C 08 07|E8 5C 08 07 00 00 00 00 00 00|E8 5C 02 08 00|E8 5C 05 08 00|E8 5C 05 08",
    ),
    (
        "worn blocks: an erase that fails is 83; what stays marked is flushed with a good map, or dropped by a create",
        "E8 5C 02 01 02|E8 5C 06 02 01 00 02 00|host A5 5A|E8 5C 07 03 00 00 02 00|driver 00 00 80 00|E8 5C 08 04|E8 5C 08 04|E8 5C 05 05 00|\
         E8 5C 05 06 02|driver 00 00 00 00|E8 5C 08 07|E8 5C 0A 08 00 00 01 00|driver 00 01 00|E8 5C 08 09|E8 5C 08 09 00|driver 00 01 00 00|\
         E9 5C 04 09 04 00 00 00|E8 5C 08 0A|E8 5C 02 0B 01|E8 5C 06 0C 01 00|E8 5C 08 0D 02 00 01 00 00 00|E8 5C 08 0E 01 00 01 00 00 00|E8 5C 05 0F",
    ),
];

fn conversations(side: Side) {
    for (name, lines) in CONVERSATIONS {
        println!("one after another: {name}");
        let mut m = Machine::new(side);
        m.print();
        for line in lines.split('|') {
            match line.split_once(' ') {
                Some(("host", blocks)) => host_fills(&mut m, &bytes(blocks)),
                Some(("driver", map)) => driver_gives(&mut m, bytes(map)),
                _ => m.send(&bytes(line)),
            }
        }
    }
}

/// The host fills each window block with its byte.
fn host_fills(m: &mut Machine, blocks: &[u8]) {
    m.memory = blocks.iter().flat_map(|byte| [*byte; BLOCK]).collect();
    println!("    the host fills the window blocks: {}", blocks_text(&m.memory));
}

/// The driver gives another map of worn blocks.
fn driver_gives(m: &mut Machine, map: Vec<u8>) {
    println!("    the driver's map: {}", hex(&map));
    m.worn = map;
}

fn main() {
    let side = match std::env::args().nth(1).as_deref() {
        Some("ours") => Side::Ours,
        Some("second") => Side::Second,
        _ => panic!("message_cases ours|second"),
    };
    println!("a message -> its response; chip actions; what it changed. Each from the state above it, unless one after another is said");
    for section in [each_command, lengths, pairs, unknown, unsound, suspended, sequences] {
        section(side);
    }
    wide(side);
    conversations(side);
}
