//! Prints what a controller answers on a fixed set of cases, one section for each group of rules of 01.
//!
//! cases ours|second SECTION: the proved library or the second implementation. tests/cases.sh compares what both print with the stored
//! tests/cases/SECTION.txt.

use compare::{record_of, session_of, Lengths, Side};
use second::{Kind, Session};

const BLOCK: usize = 4096;
const LPC: u16 = 16;
const TIMEOUT: u16 = 8;

/// A session with its buffers.
#[derive(Clone)]
struct Machine {
    side: Side,
    session: Session,
    lpc: u16,
    flash: Vec<u8>,
    worn: Vec<u8>,
    memory: Vec<u8>,
}

impl Machine {
    /// No two of 16 blocks are alike, no byte of them is FF, and all are good.
    fn new(side: Side, flash: usize, memory: usize) -> Machine {
        let machine = Machine { side, session: Session::fresh(), lpc: LPC, flash: vec![], worn: vec![], memory: pattern(memory, 0x80) };
        machine.with_flash(pattern(flash, 0x10))
    }

    /// With another flash, all of its blocks good.
    fn with_flash(self, flash: Vec<u8>) -> Machine {
        Machine { worn: vec![0; flash.len() / BLOCK], flash, ..self }
    }

    fn command(&mut self, mut registers: [u8; 16]) -> ([u8; 16], u32) {
        match self.side {
            Side::Ours => {
                let mut record = record_of(&self.session, 0);
                let actions = compare::command(&mut record, &mut registers, self.lpc, TIMEOUT, &mut self.flash, &self.worn, &mut self.memory);
                self.session = session_of(&record);
                (registers, actions)
            }
            Side::Second => second::command(&mut self.session, registers, self.lpc, TIMEOUT, &mut self.flash, &self.worn, &mut self.memory),
        }
    }

    /// A command with two-byte arguments, in order.
    fn send(&mut self, code: u8, sequence: u8, arguments: &[u16]) -> ([u8; 16], u32) {
        let mut registers = [0; 16];
        registers[0] = code;
        registers[1] = sequence;
        for (i, argument) in arguments.iter().enumerate() {
            registers[2 + 2 * i..4 + 2 * i].copy_from_slice(&argument.to_le_bytes());
        }
        self.command(registers)
    }

    fn step(&mut self, done: u64) -> (u8, bool) {
        match self.side {
            Side::Ours => compare::step(&record_of(&self.session, 0), &mut self.flash, &self.worn, &mut self.memory, done),
            Side::Second => second::step(&self.session, &mut self.flash, &self.worn, &self.memory, done),
        }
    }

    fn mark_list(&mut self, list: &[u16]) -> (u8, Option<usize>) {
        let (flash, worn, memory) = (self.flash.len(), self.worn.len(), self.memory.len());
        match self.side {
            Side::Ours => {
                let mut record = record_of(&self.session, 0);
                let answer = compare::mark_list(&mut record, list, self.lpc, TIMEOUT, Lengths { flash, worn, memory });
                self.session = session_of(&record);
                answer
            }
            Side::Second => second::mark_list(&mut self.session, flash, worn, memory, self.lpc, list),
        }
    }

    fn pending(&self) -> String {
        let answer = match self.side {
            Side::Ours => compare::pending(&record_of(&self.session, 0)),
            Side::Second => second::pending(&self.session),
        };
        answer.map_or("unsound".into(), |(blocks, actions)| format!("{blocks} blocks {actions} actions"))
    }

    /// Marks from this block on, with the numbers that all marks have then.
    fn mark(&mut self, first: usize, marks: &[u8]) {
        self.session.marks[first..first + marks.len()].copy_from_slice(marks);
        self.session = session_of(&record_of(&self.session, 0).counted());
    }

    fn access(&mut self, call: Access) -> bool {
        let mut record = record_of(&self.session, 0);
        let ours = match call {
            Access::Suspend => compare::suspend as fn(&mut compare::Record) -> bool,
            Access::Resume => compare::resume,
            Access::ResumeChanged => compare::resume_changed,
        };
        let theirs = match call {
            Access::Suspend => second::suspend as fn(&mut Session) -> bool,
            Access::Resume => second::resume,
            Access::ResumeChanged => second::resume_changed,
        };
        match self.side {
            Side::Ours => {
                let done = ours(&mut record);
                self.session = session_of(&record);
                done
            }
            Side::Second => theirs(&mut self.session),
        }
    }
}

#[derive(Clone, Copy, Debug)]
enum Access {
    Suspend,
    Resume,
    ResumeChanged,
}

fn pattern(length: usize, base: u8) -> Vec<u8> {
    (0..length).map(|i| base + (i / BLOCK % 16) as u8).collect()
}

fn hex(bytes: &[u8]) -> String {
    bytes.iter().map(|b| format!("{b:02X}")).collect::<Vec<_>>().join(" ")
}

/// Four flash blocks and two window blocks, at this version, with a window at blocks 1 and 2.
fn with_window(side: Side, version: u8, kind: Kind) -> Machine {
    let mut m = Machine::new(side, 4 * BLOCK, 2 * BLOCK);
    m.session.version = version;
    m.session.previous = Some(9);
    m.session.kind = kind;
    if kind != Kind::Closed {
        m.session.first = 1;
        m.session.size = 2;
    }
    m
}

fn session_text(s: &Session) -> String {
    let previous = s.previous.map_or("none".to_string(), |n| n.to_string());
    let marks: Vec<String> = s.marks.iter().enumerate().filter(|(_, m)| **m != 0).map(|(i, m)| format!("{i}:{m}")).collect();
    format!(
        "version {} previous {previous} events {:02X} suspended {} window {:?} {}+{} dirty {} erased {} marks {}",
        s.version, s.events, s.suspended, s.kind, s.first, s.size, s.dirty, s.erased, if marks.is_empty() { "none".into() } else { marks.join(" ") }
    )
}

/// Suspended as the calls leave it: the event byte tells it.
fn suspend(m: &mut Machine) {
    m.session.suspended = true;
    m.session.events |= 0x40;
}

fn is_as_before(m: &Machine, before: &Machine) -> bool {
    m.session == before.session && m.flash == before.flash && m.memory == before.memory
}

/// Every command from 0 to 11 and 255, at each version, with each window, suspended and not: the response code, and `~` where the session,
/// the flash or the window memory changed in more than the previous number.
fn refusals(side: Side) {
    println!("commands 0 to 11 and 255; ~ where more than the previous number changed");
    for version in 0..3 {
        for kind in [Kind::Closed, Kind::Read, Kind::Write] {
            for suspended in [false, true] {
                for (name, sequence, argument) in [("new number", 1, 1), ("same number", 9, 1), ("bad arguments", 1, 9)] {
                    let codes: Vec<String> = (0..12).chain([255]).map(|code| refusal(side, (version, kind, suspended), code, sequence, argument)).collect();
                    println!("version {version} window {kind:?} suspended {suspended}, {name}: {}", codes.join(" "));
                }
            }
        }
    }
}

fn refusal(side: Side, (version, kind, suspended): (u8, Kind, bool), code: u8, sequence: u8, argument: u16) -> String {
    let mut m = with_window(side, version, kind);
    if suspended {
        suspend(&mut m);
    }
    if kind == Kind::Write {
        m.mark(1, &[1]);
    }
    // GET_INFO refuses only 0; CLOSE_WINDOW gets flags, the others a block outside or inside the window
    let first = if code == 2 { argument % 9 } else { argument };
    let before = m.clone();
    let (registers, actions) = m.send(code, sequence, &[first, 1]);
    let mut aside = m.session.clone();
    aside.previous = before.session.previous;
    let changed = aside != before.session || m.flash != before.flash || m.memory != before.memory || actions != 0;
    format!("{}{}", registers[13], if changed { "~" } else { "" })
}

fn print_command(m: &mut Machine, code: u8, arguments: &[u16]) {
    let (registers, actions) = m.send(code, 1, arguments);
    println!("  {code} {arguments:?}: {} actions {actions}; {}", hex(&registers), session_text(&m.session));
}

/// Each block's byte, where all of its bytes are alike.
fn bytes_text(bytes: &[u8]) -> String {
    let blocks = bytes.chunks(BLOCK).map(|block| if block.iter().all(|b| *b == block[0]) { format!("{:02X}", block[0]) } else { "mixed".into() });
    blocks.collect::<Vec<_>>().join(" ")
}

/// Each command at its edges, each on a session of its own.
fn edges(side: Side) {
    for version in 0..3 {
        println!("version {version}, window 1 to 2 of 4 blocks, window memory of 2, the second window block dirty");
        let mut cases: Vec<(u8, Vec<u16>)> = vec![(1, vec![])];
        cases.extend([0, 1, 2, 3, 255, 256].map(|r| (2, vec![r])));
        cases.push((3, vec![]));
        for code in [4, 6] {
            for (first, hint) in [(0, 0), (0, 1), (0, 2), (0, 3), (0, 65535), (2, 0), (3, 0), (3, 2), (4, 0), (4, 1), (65535, 65535)] {
                cases.push((code, vec![first, hint]));
            }
        }
        cases.extend([0, 1, 2, 3, 128, 255, 256, 257, 258].map(|flags| (5, vec![flags])));
        cases.extend(ranges(version).into_iter().flat_map(|range| [7, 8, 10].map(|code| (code, range.clone()))));
        cases.extend([0, 1, 2, 4, 0x40, 0x80, 0xfe, 0xff].map(|bits| (9, vec![bits])));
        for (code, arguments) in cases {
            let mut m = with_window(side, version, Kind::Write);
            m.mark(1, &[1]);
            print_command(&mut m, code, &arguments);
            println!("    flash {} memory {}", bytes_text(&m.flash), bytes_text(&m.memory));
        }
    }
}

/// Numbers from 0 on, those that are answered alike together.
fn runs_text(answers: &[String]) -> String {
    let mut from = 0;
    let runs = answers.chunk_by(|a, b| a == b).map(|run| {
        from += run.len();
        format!("{} to {}: {}", from - run.len(), from - 1, run[0])
    });
    runs.collect::<Vec<_>>().join(", ")
}

/// CLOSE_WINDOW with every value of its flags, at each version, with each window: the values that get one answer, and the answer as in `refusals`.
fn flags(side: Side) {
    println!("CLOSE_WINDOW; ~ where more than the previous number changed");
    for version in 0..3 {
        for kind in [Kind::Closed, Kind::Read, Kind::Write] {
            let answers: Vec<String> = (0..256).map(|flags| refusal(side, (version, kind, false), 5, 1, flags)).collect();
            println!("version {version} window {kind:?}, flags {}", runs_text(&answers));
        }
    }
}

/// Ranges for MARK_DIRTY, FLUSH and ERASE: of flash block and bytes at version 1, of window block and blocks otherwise.
fn ranges(version: u8) -> Vec<Vec<u16>> {
    if version != 1 {
        return [[0, 0], [0, 1], [0, 2], [0, 3], [1, 1], [1, 2], [2, 0], [2, 1], [3, 0], [65535, 1], [65535, 2], [1, 65535]].map(|r| r.to_vec()).to_vec();
    }
    let lengths = [0u32, 1, 4095, 4096, 4097, 8192, 8193, 12288, 0xffff_f000, 0xffff_f001, 0xffff_ffff];
    let mut all = Vec::new();
    for first in [0u16, 1, 2, 3, 4, 65535] {
        for length in lengths {
            all.push(vec![first, length as u16, (length >> 16) as u16]);
        }
    }
    all
}

/// Sessions that break the rules on version, window, marks, event byte and B, or keep them at their edge.
const SOUNDNESS: [(&str, fn(&mut Machine)); 21] = [
    ("nothing", |_| {}),
    ("version 3", |m| m.session.version = 3),
    ("version 255", |m| m.session.version = 255),
    ("no window with a first block", |m| { m.session.kind = Kind::Closed; m.session.size = 0 }),
    ("no window with a size", |m| { m.session.kind = Kind::Closed; m.session.first = 0 }),
    ("a window of size 0", |m| m.session.size = 0),
    ("a window larger than the memory", |m| m.session.size = 3),
    ("a window that ends at the end", |m| m.session.first = 2),
    ("a window that ends past the end", |m| m.session.first = 3),
    ("a window at the last number", |m| m.session.first = 65535),
    ("mark 3", |m| m.mark(0, &[3])),
    ("mark 255 past the window", |m| m.mark(63, &[255])),
    ("a mark past the window", |m| m.mark(2, &[1])),
    ("a mark in a read window", |m| { m.session.kind = Kind::Read; m.mark(0, &[2]) }),
    ("B + C = 65,536", |m| m.lpc = 65534),
    ("B + C = 65,537", |m| m.lpc = 65535),
    ("suspended", suspend),
    ("suspended and 0x40 clear", |m| m.session.suspended = true),
    ("0x40 set and not suspended", |m| m.session.events |= 0x40),
    ("suspended and every event bit set", |m| { m.session.suspended = true; m.session.events = 0xff }),
    ("no event bit set", |m| m.session.events = 0),
];

/// Kept numbers that are right, and that are not.
const COUNTS: [(&str, fn(&mut Machine)); 9] = [
    ("a dirty and an erased block", |m| m.mark(0, &[1, 2])),
    ("one dirty block too many", |m| { m.mark(0, &[1, 2]); m.session.dirty = 2 }),
    ("one dirty block too few", |m| { m.mark(0, &[1, 2]); m.session.dirty = 0 }),
    ("one erased block too many", |m| { m.mark(0, &[1, 2]); m.session.erased = 2 }),
    ("one erased block too few", |m| { m.mark(0, &[1, 2]); m.session.erased = 0 }),
    ("the two numbers exchanged", |m| { m.mark(0, &[1, 1]); (m.session.dirty, m.session.erased) = (0, 2) }),
    ("255 dirty blocks", |m| m.session.dirty = 255),
    ("a mark that is not counted", |m| m.session.marks[0] = 1),
    ("a mark past the window that is not counted", |m| m.session.marks[63] = 2),
];

/// Records and sizes that break the numbers: the code of GET_INFO and of a step, whether all stayed, and how much was pending.
fn unsound(side: Side) {
    for (name, change) in SOUNDNESS.into_iter().chain(COUNTS) {
        let mut m = with_window(side, 2, Kind::Write);
        change(&mut m);
        print_soundness(name, m);
    }
    for flash in [0, 1, BLOCK - 1, BLOCK, BLOCK + 1, 65535 * BLOCK, 65535 * BLOCK + 1, 65536 * BLOCK] {
        print_soundness(&format!("flash of {flash} bytes"), Machine::new(side, 0, BLOCK).with_flash(vec![0; flash]));
    }
    for memory in [0, 1, BLOCK - 1, BLOCK, BLOCK + 1, 64 * BLOCK, 64 * BLOCK + 1, 65 * BLOCK] {
        print_soundness(&format!("window memory of {memory} bytes"), Machine::new(side, BLOCK, memory));
    }
}

fn print_soundness(name: &str, mut m: Machine) {
    let before = m.clone();
    let (code, acted) = m.step(0);
    let (registers, actions) = m.send(2, 3, &[1]);
    let kept = is_as_before(&m, &before);
    println!("{name}: step {code} {acted}, GET_INFO {} actions {actions}, all kept {kept}, pending {}", registers[13], before.pending());
}

/// Suspend and resume, twice each, with each window and several event bytes, suspended at first or not, on sound and unsound sessions.
fn suspensions(side: Side) {
    for kind in [Kind::Closed, Kind::Read, Kind::Write] {
        for (events, suspended, version) in [(0x81, false, 2), (0xff, false, 1), (0x00, false, 77), (0xc1, true, 2), (0x81, true, 1), (0xc1, false, 2)] {
            for last in [Access::Resume, Access::ResumeChanged] {
                let mut m = with_window(side, version, kind);
                (m.session.events, m.session.suspended) = (events, suspended);
                m.mark(0, &[u8::from(kind == Kind::Write)]);
                for call in [last, Access::Suspend, Access::Suspend, last, last] {
                    let done = m.access(call);
                    println!("{call:?} {done}: {}", session_text(&m.session));
                }
            }
        }
    }
}

/// ACK of each argument on each event byte, suspended and not, at each version: the event byte in the registers and in the session, or the code
/// of a refusal. Then each command and a step on a record whose bit 0x40 disagrees with its suspension.
fn events(side: Side) {
    for version in 0..3 {
        for (events, suspended) in [(0x83, false), (0x81, false), (0xbf, false), (0x00, false), (0xc3, true), (0xff, true), (0x40, true), (0xc3, false), (0xbf, true)] {
            let mut line = format!("version {version} events {events:02X} suspended {suspended}:");
            for named in [0x00u16, 0x01, 0x02, 0x03, 0x04, 0x40, 0x80, 0xc0, 0xfc, 0xfe, 0xff] {
                let mut m = with_window(side, version, Kind::Closed);
                (m.session.events, m.session.suspended) = (events, suspended);
                let (registers, _) = m.send(9, 1, &[named]);
                let shown = if registers[15] == m.session.events { format!("{:02X}", registers[15]) } else { "differs".into() };
                line += &format!(" {named:02X}->{shown}{}", if registers[13] == 1 { "".into() } else { format!(" code {}", registers[13]) });
            }
            println!("{line}");
        }
        for (events, suspended) in [(0xc1, false), (0x81, true)] {
            let mut m = with_window(side, version, Kind::Write);
            (m.session.events, m.session.suspended) = (events, suspended);
            m.mark(1, &[1]);
            let before = m.clone();
            let codes: Vec<String> = (0..12).flat_map(|code| [1, 9].map(|sequence| m.send(code, sequence, &[1, 1]).0[13].to_string())).collect();
            let step = m.step(0);
            let kept = is_as_before(&m, &before);
            println!("version {version} events {events:02X} suspended {suspended}: commands 0 to 11, new and same number {}, step {step:?}, all kept {kept}", codes.join(" "));
        }
    }
}

/// Each page of each block: o old, F all FF, n new, ? something else.
fn pages_text(flash: &[u8], old: &[u8], memory: &[u8], first: usize) -> String {
    let mut text = String::new();
    for (p, page) in flash.chunks(256).enumerate() {
        let at = p * 256;
        let new = at.checked_sub(first * BLOCK).and_then(|w| memory.get(w..w + 256));
        if p % 16 == 0 && p > 0 {
            text.push(' ');
        }
        text.push(if page == &old[at..at + 256] { 'o' } else if page.iter().all(|b| *b == 0xff) { 'F' } else if Some(page) == new { 'n' } else { '?' });
    }
    text
}

/// A flush of marks dirty, clean, erased, dirty, cut at every action, and the second run after it.
fn cuts(side: Side) {
    println!("window 1 to 4 of 6 blocks, marks 1 0 2 1; each page after the cut: o old, F all FF, n new");
    let mut start = Machine::new(side, 6 * BLOCK, 4 * BLOCK);
    start.memory = start.memory.chunks(256).enumerate().flat_map(|(p, page)| page.iter().map(move |b| b ^ p as u8)).collect();
    start.session = Session { version: 2, kind: Kind::Write, first: 1, size: 4, ..Session::fresh() };
    start.mark(0, &[1, 0, 2, 1]);
    let mut whole = start.clone();
    let (registers, n) = whole.send(8, 1, &[]);
    println!("whole flush: {} actions {n}; {}", hex(&registers), pages_text(&whole.flash, &start.flash, &start.memory, 1));
    for cut in 0..=u64::from(n) + 1 {
        let mut m = start.clone();
        let acted = (0..cut).filter(|j| m.step(*j).1).count();
        let flash = m.flash.clone();
        let answer = m.step(cut);
        let kept = m.session == start.session && m.memory == start.memory;
        let after = pages_text(&flash, &start.flash, &start.memory, 1);
        let again = second_run(Machine { flash, ..m }, &start, &whole);
        println!("cut after {cut}: {acted} done, next {answer:?}, kept {kept}; {after}; second run {again}");
    }
}

/// Opens the same window on this flash with a fresh session and another window memory, marks and writes the same, and flushes.
fn second_run(mut m: Machine, start: &Machine, whole: &Machine) -> String {
    m.session = Session::fresh();
    m.memory = vec![0x33; start.memory.len()];
    let calls: [(u8, &[u16]); 6] = [(2, &[2]), (6, &[1, 4]), (10, &[0, 1]), (7, &[0, 1]), (7, &[2, 2]), (10, &[2, 1])];
    let mut codes: Vec<u8> = (1..).zip(calls).map(|(sequence, (code, arguments))| m.send(code, sequence, arguments).0[13]).collect();
    for block in [0, 3] {
        m.memory[block * BLOCK..(block + 1) * BLOCK].copy_from_slice(&start.memory[block * BLOCK..(block + 1) * BLOCK]);
    }
    let (registers, actions) = m.send(8, 7, &[]);
    codes.push(registers[13]);
    format!("{codes:?} actions {actions}, as the whole flush {}", m.flash == whole.flash)
}

/// How much is pending after each call of a list: at version 2, and at version 1, where a FLUSH may add marks of its own. Then the same marks in
/// records that are wrong elsewhere.
fn pending(side: Side) {
    let lists: [(&str, &[(u8, &[u16])]); 3] = [
        ("marks", &[(2, &[2]), (6, &[0, 4]), (7, &[0, 2]), (10, &[1, 2]), (7, &[1, 0]), (7, &[1, 1]), (10, &[0, 4]), (10, &[1, 1]), (7, &[3, 1]), (7, &[3, 2]), (8, &[]), (8, &[])]),
        ("where they are dropped", &[(2, &[2]), (6, &[0, 4]), (10, &[0, 3]), (6, &[1, 2]), (7, &[0, 2]), (6, &[6]), (6, &[2, 3]), (7, &[2, 1]), (5, &[2]), (5, &[0]), (4, &[0, 4]), (7, &[0, 1]), (6, &[0, 4]), (7, &[0, 4]), (1, &[])]),
        ("version 1", &[(2, &[2]), (6, &[1, 3]), (10, &[0, 2]), (2, &[1]), (7, &[2, 4097, 0]), (8, &[1, 12289, 0]), (8, &[1, 4096, 0]), (7, &[1, 1, 0]), (8, &[0, 0, 0])]),
    ];
    for (name, calls) in lists {
        println!("{name}, 6 flash blocks, window memory of 4");
        let mut m = Machine::new(side, 6 * BLOCK, 4 * BLOCK);
        for (sequence, (code, arguments)) in (1..).zip(calls) {
            let before = m.pending();
            let (registers, actions) = m.send(*code, sequence, arguments);
            println!("  {code} {arguments:?}: {} actions {actions}; pending before {before}, after {}; {}", registers[13], m.pending(), session_text(&m.session));
        }
    }
    let changes: [(&str, fn(&mut Machine)); 7] = [
        ("nothing", |_| {}),
        ("version 7", |m| m.session.version = 7),
        ("0x40 set and not suspended", |m| m.session.events |= 0x40),
        ("no window", |m| (m.session.kind, m.session.first, m.session.size) = (Kind::Closed, 0, 0)),
        ("a read window of no blocks past the end", |m| (m.session.kind, m.session.first, m.session.size) = (Kind::Read, 65535, 0)),
        ("mark 9 past the window", |m| m.mark(63, &[9])),
        ("wrong numbers", |m| m.session.erased = 9),
    ];
    println!("marks 1 2, and wrong elsewhere; then a step, a suspend and a resume with changed flash");
    for (name, change) in changes {
        let mut m = with_window(side, 2, Kind::Write);
        m.mark(0, &[1, 2]);
        change(&mut m);
        let first = m.pending();
        let (code, acted) = m.step(0);
        let stepped = m.pending();
        let suspends = m.access(Access::Suspend);
        let suspended = m.pending();
        let resumes = m.access(Access::ResumeChanged);
        let after = format!("{}; {}", m.pending(), session_text(&m.session));
        println!("  {name}: pending {first}; step {code} {acted}, {stepped}; suspend {suspends}, {suspended}; resume {resumes}, {after}");
    }
}

/// The code of a list of marks, and the pair that it names.
fn list_text((code, place): (u8, Option<usize>)) -> String {
    place.map_or(format!("{code}"), |place| format!("{code} at {place}"))
}

/// Each check of a list of marks by itself and before the others: the answers to a good list, none, a number too many, 65 pairs, a bad pair, that
/// with a number too many, and 65 bad pairs; `~` where anything changed.
fn list_checks(side: Side) {
    let lists = [vec![1, 1], vec![], vec![1, 1, 0], [0, 1].repeat(65), vec![0, 1, 1, 2], vec![0, 1, 1, 2, 0], [9, 9].repeat(65)];
    for version in 0..4 {
        for kind in [Kind::Closed, Kind::Read, Kind::Write] {
            for (suspended, lpc) in [(false, 65534), (true, 65534), (false, 65535), (true, 65535)] {
                let answers = lists.iter().map(|list| {
                    let mut m = Machine { lpc, ..with_window(side, version, kind) };
                    if suspended {
                        suspend(&mut m);
                    }
                    let before = m.clone();
                    let answer = list_text(m.mark_list(list));
                    format!("{answer}{}", if is_as_before(&m, &before) { "" } else { "~" })
                });
                println!("version {version} window {kind:?} suspended {suspended} B {lpc}: {}", answers.collect::<Vec<_>>().join(", "));
            }
        }
    }
}

/// A list of marks in one call, and the same pairs as single commands with numbers that never repeat, up to the first that is refused.
fn print_list(m: &Machine, list: &[u16], name: &str) {
    let (mut listed, mut single) = (m.clone(), m.clone());
    let answer = list_text(listed.mark_list(list));
    let mut codes = (10..).zip(list.chunks_exact(2)).map(|(sequence, pair)| single.send(7, sequence, pair).0[13]);
    let refused = codes.position(|code| code != 1).map_or("none refused".into(), |place| format!("refused at {place}"));
    single.session.previous = m.session.previous;
    println!("  {name}: {answer}; {}; single commands {refused}, as they leave it {}", session_text(&listed.session), listed.session == single.session);
}

/// Lists of marks: each check, then lists about the edges of a window of three blocks and of 64.
fn lists(side: Side) {
    println!("window 1 to 2 of 4 blocks, window memory of 2: 1,1; none; 1,1,0; 65 times 0,1; 0,1,1,2; 0,1,1,2,0; 65 times 9,9; ~ where anything changed");
    list_checks(side);
    println!("window 2 to 4 of 6 blocks, window memory of 4, marks 2 1 0");
    let mut m = Machine::new(side, 6 * BLOCK, 4 * BLOCK);
    m.session = Session { version: 2, previous: Some(9), kind: Kind::Write, first: 2, size: 3, ..Session::fresh() };
    m.mark(0, &[2, 1, 0]);
    let lists: [&[u16]; 18] = [
        &[], &[0, 1], &[2, 1], &[0, 3], &[2, 1, 0, 1], &[0, 2, 1, 2], &[1, 1, 1, 1, 1, 1], &[0, 0], &[3, 0], &[4, 0], &[0, 4], &[2, 2],
        &[65535, 1], &[65535, 2], &[1, 65535], &[2, 65535], &[0, 1, 3, 0, 3, 1, 2, 1], &[0, 3, 9, 9, 0, 4],
    ];
    for list in lists {
        print_list(&m, list, &format!("{list:?}"));
    }
    println!("window 1 to 64 of 66 blocks, window memory of 64, all marks 2");
    let mut m = Machine::new(side, 66 * BLOCK, 64 * BLOCK);
    m.session = Session { version: 2, kind: Kind::Write, first: 1, size: 64, ..Session::fresh() };
    m.mark(0, &[2; 64]);
    let single: Vec<u16> = (0..64).flat_map(|block| [63 - block, 1]).collect();
    print_list(&m, &single, "64 pairs of one block");
    print_list(&m, &single[..80], "40 pairs of one block");
    print_list(&m, &[0, 64].repeat(64), "64 pairs of all blocks");
    print_list(&m, &[&single[..126], &[64, 1]].concat(), "64 pairs, the last one bad");
    print_list(&m, &[&single[..126], &[64, 0]].concat(), "64 pairs, the last one at the end");
    print_list(&m, &[&single[..], &[0]].concat(), "129 numbers");
    print_list(&m, &[&single[..], &[0, 1]].concat(), "65 pairs");
}

/// A window of 64 blocks: all marks, the last mark alone, and the most actions.
fn full(side: Side) {
    let mut m = Machine::new(side, 66 * BLOCK, 64 * BLOCK);
    m.session.version = 2;
    for (code, arguments) in [(6u8, [1, 0]), (7, [0, 64]), (8, [0, 0]), (7, [63, 1]), (7, [63, 2]), (8, [0, 0]), (10, [0, 64]), (7, [62, 1]), (8, [0, 0])] {
        m.memory[63 * BLOCK..].fill(0xa0 + code);
        m.session.previous = None;
        print_command(&mut m, code, &arguments);
        println!("    flash {}", bytes_text(&m.flash));
    }
}

/// The largest chip at version 1: sizes in bytes, and its last block.
fn largest(side: Side) {
    let mut m = Machine::new(side, 0, 64 * BLOCK).with_flash(vec![0x11; 65535 * BLOCK]);
    for (code, arguments) in [(2, vec![1]), (3, vec![]), (6, vec![65534]), (7, vec![65534, 4096, 0]), (7, vec![65535, 0, 0])] {
        m.session.previous = None;
        print_command(&mut m, code, &arguments);
    }
    m.memory[..BLOCK].fill(0x22);
    m.session.previous = None;
    print_command(&mut m, 8, &[]);
    let last = m.flash.iter().rposition(|b| *b == 0x11).unwrap();
    println!("new bytes: {}, the last old byte is {last}", m.flash.iter().filter(|b| **b == 0x22).count());
}

/// Five flash blocks and three window blocks, at this version, with a write window at blocks 1 to 3 that has these marks. These flash blocks are worn.
fn with_worn(side: Side, version: u8, marks: [u8; 3], worn: &[usize]) -> Machine {
    let mut m = Machine::new(side, 5 * BLOCK, 3 * BLOCK);
    m.session = Session { version, previous: Some(9), kind: Kind::Write, first: 1, size: 3, ..Session::fresh() };
    m.mark(0, &marks);
    worn.iter().for_each(|block| m.worn[*block] = 1);
    m
}

/// A command by itself, on one line with what it leaves.
fn print_flush(mut m: Machine, code: u8, arguments: &[u16]) {
    let (registers, actions) = m.send(code, 1, arguments);
    let bytes = format!("flash {} memory {}", bytes_text(&m.flash), bytes_text(&m.memory));
    println!("  {code} {arguments:?}: {} actions {actions}; {}; {bytes}", hex(&registers), session_text(&m.session));
}

/// Each command that flushes, a create inside the flash and past it, with worn blocks in every place.
fn worn_places(side: Side) {
    let places: [&[usize]; 7] = [&[], &[0, 4], &[1], &[2], &[3], &[1, 3], &[2, 3]];
    let commands: [(u8, &[u16]); 6] = [(8, &[]), (5, &[]), (4, &[0]), (4, &[5]), (6, &[2]), (6, &[65535])];
    for version in [1, 2] {
        for marks in [[1, 2, 1], [2, 1, 2], [1, 0, 2], [0, 1, 1]] {
            for worn in places {
                println!("version {version} marks {marks:?} worn {worn:?}");
                for (code, arguments) in commands {
                    print_flush(with_worn(side, version, marks, worn), code, arguments);
                }
            }
        }
    }
}

/// FLUSH of version 1 with marks of its own: flash block and bytes.
fn worn_own_marks(side: Side) {
    let ranges = [[1, 4096, 0], [2, 4096, 0], [3, 1, 0], [1, 12288, 0], [2, 4097, 0], [3, 4097, 0], [0, 1, 0], [9, 0, 0]];
    for worn in [&[][..], &[1], &[2], &[3]] {
        println!("version 1 marks [0, 2, 0] worn {worn:?}");
        for range in ranges {
            print_flush(with_worn(side, 1, [0, 2, 0], worn), 8, &range);
        }
    }
}

/// Every command with all blocks of the window worn: what comes before WRITE_ERROR, and what does not flush. As in `refusals`.
fn worn_order(side: Side) {
    println!("marks [1, 2, 1], all blocks worn, commands 0 to 11; ~ where more than the previous number changed");
    for (version, suspended) in (0..3).flat_map(|version| [(version, false), (version, true)]) {
        for (sequence, argument) in [(1, 1), (1, 2), (1, 9), (9, 1)] {
            let codes = (0..12).map(|code| {
                let mut m = with_worn(side, version, [1, 2, 1], &[0, 1, 2, 3, 4]);
                if suspended {
                    suspend(&mut m);
                }
                let before = m.clone();
                let answer = m.send(code, sequence, &[argument, 1]).0[13];
                m.session.previous = before.session.previous;
                format!("{answer}{}", if is_as_before(&m, &before) { "" } else { "~" })
            });
            let codes = codes.collect::<Vec<_>>().join(" ");
            println!("version {version} suspended {suspended}, number {sequence}, arguments {argument} and 1: {codes}");
        }
    }
}

/// Every value of the map at a marked block, and at one without a mark.
fn worn_values(side: Side) {
    for (block, what) in [(1, "dirty"), (2, "clean"), (3, "erased"), (0, "before the window"), (4, "behind it")] {
        for (code, arguments) in [(8, &[][..]), (5, &[1]), (4, &[5])] {
            let answers: Vec<String> = (0..=255).map(|value| {
                let mut m = with_worn(side, 2, [1, 0, 2], &[]);
                m.worn[block] = value;
                let (registers, actions) = m.send(code, 1, arguments);
                format!("{} actions {actions}", registers[13])
            }).collect();
            println!("version 2 marks [1, 0, 2], the map at block {block}, {what}; {code} {arguments:?}: {}", runs_text(&answers));
        }
    }
}

/// Steps: each count by itself, then one after another up to the first that does nothing.
fn worn_steps(side: Side) {
    let places: [&[usize]; 7] = [&[], &[0, 4], &[1], &[2], &[3], &[1, 3], &[2, 3]];
    for (version, suspended) in [(0, false), (1, false), (2, false), (2, true)] {
        for worn in places {
            let mut start = with_worn(side, version, [1, 2, 1], worn);
            if suspended {
                suspend(&mut start);
            }
            let answer = |done| start.clone().step(done);
            let each: Vec<String> = (0..40).map(|done| format!("{:?}", answer(done))).collect();
            let far = [1087, 1 << 32, u64::MAX].map(|done| format!("{:?}", answer(done))).join(" ");
            println!("version {version} suspended {suspended} worn {worn:?}: steps {}; 1087, 2^32, 2^64 - 1: {far}", runs_text(&each));
        }
    }
    println!("one after another, worn [3]; each page: o old, F all FF, n new");
    let start = with_worn(side, 2, [1, 2, 1], &[3]);
    let mut m = start.clone();
    for done in 0..21 {
        let answer = m.step(done);
        let kept = m.session == start.session && m.memory == start.memory;
        println!("  step {done}: {answer:?}, kept {kept}; {}", pages_text(&m.flash, &start.flash, &start.memory, 1));
    }
}

/// Maps of every wrong kind of length, and of the right one: the codes of commands 0 to 11, of a step and of a list of marks.
fn worn_lengths(side: Side) {
    for (version, suspended) in [(0, false), (1, false), (2, false), (2, true)] {
        for (length, value) in [(0, 0), (4, 0), (4, 1), (5, 0), (5, 1), (6, 0), (6, 1), (10, 0), (261, 0)] {
            let mut start = with_worn(side, version, [1, 2, 1], &[]);
            start.worn = vec![value; length];
            if suspended {
                suspend(&mut start);
            }
            let mut m = start.clone();
            let codes: Vec<String> = (0..12).map(|code| start.clone().send(code, 1, &[1, 1]).0[13].to_string()).collect();
            let (step, list) = (m.step(0), list_text(m.mark_list(&[0, 2])));
            let kept = is_as_before(&m, &start);
            println!("version {version} suspended {suspended} map of {length} bytes {value}: {}; step {step:?}, list {list}, kept by both {kept}", codes.join(" "));
        }
    }
}

/// Whole sessions: a map that the driver gives, a step by its count, what the host fills the window blocks with, and commands.
const WORN_SESSIONS: [(&str, &str); 6] = [
    ("FLUSH", "2 2|6 1 3|fill 161 162 163|7 0 3|map 0 0 1 0 0|8|8|step 0|map 0 0 0 0 0|step 0|8|8"),
    ("CLOSE_WINDOW", "2 2|6 1 3|fill 161 162 163|7 0 1|10 1 1|7 2 1|map 0 0 255 0 0|5 0|5 2|5 1|7 1 1|map 0 0 0 0 0|5 1|5 0"),
    ("creates", "2 2|6 1 3|fill 161 162 163|7 0 3|map 0 0 2 0 0|4 0 2|8|6 1 3|7 0 3|6 9|7 0 1|4 9|6 1 3|10 1 1|map 0 0 0 0 0|4 0 2"),
    ("FLUSH of version 1", "2 1|6 1|fill 161 162 163|7 1 4096|map 0 0 0 128 0|8 2 8192|8|8 9 1|8 3 4096|map 0 0 0 0 0|8|5"),
    ("blocks that wear one after another", "2 2|6 1 3|fill 161 162 163|10 0 3|map 0 0 0 1 0|8|map 0 1 1 0 0|8|7 0 2|8|map 0 1 0 0 0|8|1|8"),
    ("lengths", "2 2|6 1 3|fill 161 162 163|7 0 3|map 0 0 0 0|8|5 0|6 1 3|step 0|2 1|map|8|map 0 0 0 0 0 0|8|map 0 0 0 0 0|8"),
];

/// Words with a space between them: a name and numbers, or numbers alone, which are a command's.
fn worn_session(side: Side, name: &str, events: &str) {
    println!("{name}, 5 flash blocks, window memory of 3");
    let mut m = Machine::new(side, 5 * BLOCK, 3 * BLOCK);
    for (sequence, event) in (1..).zip(events.split('|')) {
        let numbers: Vec<u16> = event.split(' ').filter_map(|word| word.parse().ok()).collect();
        let bytes: Vec<u8> = numbers.iter().map(|number| *number as u8).collect();
        let answer = match event.split(' ').next() {
            Some("map") => {
                m.worn = bytes;
                "the driver's".into()
            }
            Some("fill") => {
                m.memory = bytes.iter().flat_map(|byte| [*byte; BLOCK]).collect();
                "the host's".into()
            }
            Some("step") => format!("{:?}", m.step(numbers[0].into())),
            _ => {
                let (registers, actions) = m.send(bytes[0], sequence, &numbers[1..]);
                format!("{} actions {actions}", registers[13])
            }
        };
        println!("  {event}: {answer}; pending {}; {}; flash {}", m.pending(), session_text(&m.session), bytes_text(&m.flash));
    }
}

/// 64 dirty blocks of which one is worn, or the one behind them: FLUSH, and all steps.
fn worn_full(side: Side) {
    println!("window 1 to 64 of 66 blocks, all dirty");
    for block in [1, 2, 33, 64, 65] {
        let mut m = Machine::new(side, 66 * BLOCK, 64 * BLOCK);
        m.session = Session { version: 2, kind: Kind::Write, first: 1, size: 64, ..Session::fresh() };
        m.mark(0, &[1; 64]);
        m.worn[block] = 1;
        let mut stepped = m.clone();
        let steps = (0..1100).take_while(|done| stepped.step(*done).1).count();
        let (registers, actions) = m.send(8, 1, &[]);
        let same = m.flash == stepped.flash;
        println!("  worn {block}: {} actions {actions}, as {steps} steps {same}; pending {}; flash {}", registers[13], m.pending(), bytes_text(&m.flash));
    }
}

/// Worn blocks.
fn worn(side: Side) {
    println!("window 1 to 3 of 5 blocks, window memory of 3; each command by itself");
    worn_places(side);
    worn_own_marks(side);
    worn_order(side);
    worn_values(side);
    worn_steps(side);
    worn_lengths(side);
    for (name, events) in WORN_SESSIONS {
        worn_session(side, name, events);
    }
    worn_full(side);
}

fn main() {
    let arguments: Vec<String> = std::env::args().skip(1).collect();
    let side = match arguments.first().map(String::as_str) {
        Some("ours") => Side::Ours,
        Some("second") => Side::Second,
        _ => panic!("cases ours|second SECTION"),
    };
    match arguments.get(1).map(String::as_str) {
        Some("refusals") => refusals(side),
        Some("edges") => edges(side),
        Some("flags") => flags(side),
        Some("unsound") => unsound(side),
        Some("suspensions") => suspensions(side),
        Some("events") => events(side),
        Some("cuts") => cuts(side),
        Some("pending") => pending(side),
        Some("lists") => lists(side),
        Some("full") => full(side),
        Some("largest") => largest(side),
        Some("worn") => worn(side),
        _ => panic!("no such section"),
    }
}
