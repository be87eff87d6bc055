//! Runs the proved library and the second implementation side by side on random and edge inputs, and stops at the first difference.
//!
//! compare [SEED [ROUNDS]]: one seed, or many; the line that a difference prints runs it again.

use compare::pair::{Access, Pair};
use compare::{messages, program, session_of, twin, BoardPair, Lengths, Random, Record};
use std::collections::BTreeMap;

const BLOCK: usize = 4096;
const WRITE_ERROR: u8 = 3;
const CONTROL_LOST: u8 = 0x40;

fn random_pair(r: &mut Random) -> Pair {
    let full = r.once_in(50);
    let (s, c) = if full { (60 + r.below(10) as usize, 64) } else { (1 + r.below(8) as usize, 1 + r.below(4) as usize) };
    let mut flash = vec![0; length(r, s)];
    let mut memory = vec![0; length(r, c)];
    r.fill(&mut flash);
    r.fill(&mut memory);
    let record = random_record(r, s as u64, c as u64);
    let lpc = if r.once_in(12) { (65536 - c as u64 - 1 + r.below(3)) as u16 } else { r.next() as u16 };
    let mut pair = Pair::new(record, &flash, &memory, lpc, r.next() as u16);
    wear(r, &mut pair);
    pair
}

/// Another map: mostly of good blocks, or with a few worn ones, most of these in the window or beside it; now and then of a wrong length.
fn wear(r: &mut Random, pair: &mut Pair) {
    let blocks = pair.flash[0].part().len() / BLOCK;
    let mut map = worn_map(r, blocks, &pair.record[0]);
    match r.below(40) {
        0 => drop(map.pop()),
        1 => map.push(0),
        2 => map.clear(),
        3 => map.resize(r.below(300) as usize, 0),
        _ => {}
    }
    pair.wear(&map);
}

fn worn_map(r: &mut Random, blocks: usize, record: &Record) -> Vec<u8> {
    let mut map = vec![0; blocks];
    let count = r.one_of(&[0, 0, 0, 0, 1, 1, 1, 2, 3]);
    for _ in 0..count {
        let near = (u64::from(record.first) + r.below(u64::from(record.size) + 2)).saturating_sub(1);
        let block = if r.once_in(5) { r.next() } else { near };
        let any = 1 + r.below(255) as u8;
        if let Some(worn) = map.get_mut(block as usize % blocks.max(1)) {
            *worn = r.one_of(&[1, 2, 128, 255, any]);
        }
    }
    map
}

/// Mostly whole blocks, now and then any length.
fn length(r: &mut Random, blocks: usize) -> usize {
    match r.below(60) {
        0 => r.below(3 * BLOCK as u64) as usize,
        1 => blocks * BLOCK + 1,
        2 => blocks * BLOCK - 1,
        3 if r.once_in(4) => 0,
        _ => blocks * BLOCK,
    }
}

fn random_record(r: &mut Random, s: u64, c: u64) -> Record {
    let mut record = compare::fresh();
    record.version = r.below(3) as u8;
    record.suspended = u8::from(r.once_in(6));
    record.events = r.next() as u8 & !CONTROL_LOST | if record.suspended == 1 { CONTROL_LOST } else { 0 };
    record.numbered = u8::from(!r.once_in(4));
    record.previous = if r.once_in(8) { r.next() as u8 } else { r.below(4) as u8 };
    record.window = [0, 1, 2, 2][r.below(4) as usize];
    if record.window != 0 {
        record.first = r.below(s) as u16;
        record.size = 1 + r.below(c.min(s - record.first as u64)) as u16;
    }
    if record.window == 2 {
        for mark in &mut record.marks[..record.size as usize] {
            *mark = r.below(3) as u8;
        }
    }
    record = record.counted();
    if r.once_in(8) {
        spoil(r, &mut record);
    }
    record
}

/// A record that no command would leave.
fn spoil(r: &mut Random, record: &mut Record) {
    match r.below(10) {
        0 => {
            let any = r.next() as u8;
            record.version = r.one_of(&[3, 255, any]);
        }
        1 => record.first = r.next() as u16,
        2 => record.size = r.next() as u16,
        3 => {
            record.marks[r.below(64) as usize] = r.next() as u8;
            recount(r, record);
        }
        4 => record.window = 0,
        5 => record.window = r.next() as u8,
        6 => record.events ^= CONTROL_LOST,
        7 => record.dirty = near(r, record.dirty),
        8 => record.erased = near(r, record.erased),
        _ => {
            record.marks = [1; 64];
            recount(r, record);
        }
    }
}

/// Half of the time the numbers fit the spoilt marks, so that nothing but these is wrong.
fn recount(r: &mut Random, record: &mut Record) {
    if r.once_in(2) {
        *record = record.counted();
    }
}

/// One more, one less or any other.
fn near(r: &mut Random, number: u8) -> u8 {
    let any = r.next() as u8;
    r.one_of(&[number.wrapping_add(1), number.wrapping_sub(1), any])
}

fn registers(r: &mut Random, record: &Record) -> [u8; 16] {
    let code = if r.once_in(20) { r.next() as u8 } else { r.below(12) as u8 };
    registers_of(r, record, code)
}

fn registers_of(r: &mut Random, record: &Record, code: u8) -> [u8; 16] {
    let mut registers = [0; 16];
    r.fill(&mut registers);
    registers[0] = code;
    registers[1] = if r.once_in(16) { record.previous } else { r.below(5) as u8 };
    for i in (2..13).step_by(2) {
        match r.below(6) {
            0 => {}
            1 => registers[i..i + 2].copy_from_slice(&[255, 255]),
            _ => registers[i..i + 2].copy_from_slice(&[r.below(9) as u8, 0]),
        }
    }
    if r.once_in(3) {
        // a version 1 length near whole blocks, within arguments 2 to 5
        let length = (r.below(4) as u32) * 4096 + r.below(3) as u32;
        registers[4..8].copy_from_slice(&length.to_le_bytes());
    }
    if registers[0] == 5 && r.once_in(2) {
        // flags of CLOSE_WINDOW: those that are defined, and the first that are not
        registers[2] = r.below(4) as u8;
    }
    if [7, 8, 10].contains(&registers[0]) && r.once_in(2) {
        registers[2..8].copy_from_slice(&inside(r, record));
    }
    registers
}

/// A range in the window for MARK_DIRTY, FLUSH and ERASE: a flash block and bytes at version 1, else a window block and blocks.
fn inside(r: &mut Random, record: &Record) -> [u8; 6] {
    let block = r.below(u64::from(record.size) + 1) as u16;
    let count = r.below(u64::from(record.size - block) + 1) as u16;
    let mut range = [0; 6];
    if record.version == 1 {
        let length = (u32::from(count) * 4096).saturating_sub(r.below(2) as u32);
        range[..2].copy_from_slice(&record.first.wrapping_add(block).to_le_bytes());
        range[2..].copy_from_slice(&length.to_le_bytes());
    } else {
        range[..2].copy_from_slice(&block.to_le_bytes());
        range[2..4].copy_from_slice(&count.to_le_bytes());
    }
    range
}

/// A number of actions done that is none the step before left: within a flush, at its end, or a multiple of a power of two above one.
fn jump(r: &mut Random) -> u64 {
    let near = r.below(80);
    match r.below(4) {
        0 => r.next(),
        1 => near,
        2 => 1000 + r.below(100),
        _ => ((1 + r.below(3)) << r.one_of(&[8, 16, 31, 32, 33, 48, 61])) + near,
    }
}

/// A list of marks: mostly pairs inside the window, now and then one that is not, an odd length, or about the most pairs.
fn pairs(r: &mut Random, size: u16) -> Vec<u16> {
    let few = r.below(8) as usize;
    let most = r.one_of(&[few, few, few, 63, 64, 65, 100]);
    let bad = r.once_in(2);
    let mut list = Vec::new();
    for _ in 0..most {
        let block = r.below(u64::from(size) + 1) as u16;
        let count = r.below(u64::from(size.saturating_sub(block)) + 1) as u16;
        match r.below(20) {
            0 if bad => list.extend([block, size.saturating_sub(block) + 1]),
            1 if bad => list.extend([r.next() as u16, r.next() as u16]),
            _ => list.extend([block, count]),
        }
    }
    if r.once_in(12) {
        list.pop();
    }
    list
}

/// A board's pair, now and then with a network function that no message meets.
fn random_board(r: &mut Random) -> BoardPair {
    let network_function = if r.once_in(20) { r.next() as u8 } else { r.below(64) as u8 };
    BoardPair { network_function, command: r.next() as u8 }
}

/// A message: mostly to the board's pair and of the length that the version has for its command, now and then with a bit of the pair changed, of
/// about that length or of any.
fn message(r: &mut Random, board: BoardPair, record: &Record) -> Vec<u8> {
    let mut sent = [0; 70];
    r.fill(&mut sent);
    sent[0] = board.network_function << 2 | r.below(4) as u8;
    sent[1] = board.command;
    sent[2..15].copy_from_slice(&registers(r, record)[..13]);
    if r.once_in(12) {
        sent[2] = 12;
    }
    if r.once_in(8) {
        sent[r.below(2) as usize] ^= 1 << r.below(8);
    }
    let any = r.below(71) as usize;
    let right = messages::asked(record.version, sent[2]).map_or(any, |count| 4 + count);
    let length = r.one_of(&[right, right, right, right, right, right.saturating_sub(1), right + 1, any]);
    sent[..length.min(70)].to_vec()
}

/// A command of the proved library by mailbox and by message, from the same state: the same record, flash, window memory and number of actions,
/// and the answer that the table of parameters makes of the registers.
fn both_ways(r: &mut Random, pair: &Pair, board: BoardPair) -> Result<(), String> {
    let board = BoardPair { network_function: board.network_function % 64, ..board };
    let sent = registers(r, &pair.record[0]);
    let mut message = messages::of_registers(board, pair.record[0].version, &sent);
    message[0] |= r.below(4) as u8;
    let (mut mailbox, mut messaged, mut after) = (pair.clone(), pair.clone(), sent);
    let (flash, worn, memory) = (mailbox.flash[0].part(), mailbox.worn[0].part(), mailbox.memory[0].part());
    let actions = compare::command(&mut mailbox.record[0], &mut after, pair.lpc, pair.timeout, flash, worn, memory);
    let (flash, worn, memory) = (messaged.flash[0].part(), messaged.worn[0].part(), messaged.memory[0].part());
    let reply = compare::message(&mut messaged.record[0], board, &message, pair.lpc, pair.timeout, flash, worn, memory);
    if (mailbox.record[0], &mailbox.flash[0], &mailbox.memory[0]) != (messaged.record[0], &messaged.flash[0], &messaged.memory[0]) {
        return Err(format!("command {sent:02X?} and message {message:02X?} leave different records, flash or window memory"));
    }
    let expected = messages::response_of(&message, mailbox.record[0].version, &after);
    if (reply.bytes(), reply.actions) != (&expected[..], actions) {
        return Err(format!("message {message:02X?} is answered {reply:02X?}, the command {after:02X?} with {actions} actions: {expected:02X?}"));
    }
    Ok(())
}

/// How often a flush failed, by the call that showed it.
type Failures = BTreeMap<String, u64>;

/// Everything that can show it: each command that flushes, at both versions that know it, a create with its block inside the flash and past it; a
/// message; and a step.
fn all_failures() -> Failures {
    let commands = ["FLUSH", "CLOSE_WINDOW", "create read", "create read past", "create write", "create write past"];
    let at = |version| commands.map(|name| format!("{name} {version}"));
    let others = ["FLUSH with marks 1", "message", "step"].map(String::from);
    at(1).into_iter().chain(at(2)).chain(others).map(|name| (name, 0)).collect()
}

fn command_name(registers: &[u8; 16], version: u8, blocks: usize) -> String {
    let first = u16::from_le_bytes([registers[2], registers[3]]);
    let past = if usize::from(first) >= blocks { " past" } else { "" };
    match registers[0] {
        4 => format!("create read{past} {version}"),
        5 => format!("CLOSE_WINDOW {version}"),
        6 => format!("create write{past} {version}"),
        _ if version == 1 && registers[4..8] != [0; 4] => "FLUSH with marks 1".into(),
        _ => format!("FLUSH {version}"),
    }
}

/// A command, the same on both sides.
fn command(pair: &mut Pair, sent: [u8; 16], failures: &mut Failures) -> Result<(), String> {
    let version = pair.record[0].version;
    if pair.command(sent)? == WRITE_ERROR {
        let blocks = pair.flash[0].part().len() / BLOCK;
        *failures.entry(command_name(&sent, version, blocks)).or_default() += 1;
    }
    Ok(())
}

/// A write window with marks, another map, and a command that flushes.
fn flush(r: &mut Random, pair: &mut Pair, failures: &mut Failures) -> Result<(), String> {
    let [s, c] = [&mut pair.flash, &mut pair.memory].map(|both| both[0].part().len() / BLOCK);
    if s == 0 || c == 0 {
        return Ok(());
    }
    let record = Record { version: 1 + r.below(2) as u8, ..write_window(r, s, c) };
    pair.record = [record; 2];
    wear(r, pair);
    let code = r.one_of(&[4, 5, 6, 8, 8]);
    command(pair, registers_of(r, &record, code), failures)
}

/// A session without a previous number, with a write window somewhere in the flash and any marks.
fn write_window(r: &mut Random, s: usize, c: usize) -> Record {
    let mut record = Record { window: 2, first: r.below(s as u64) as u16, ..compare::fresh() };
    record.size = 1 + r.below(c.min(s - record.first as usize).min(64) as u64) as u16;
    for mark in &mut record.marks[..record.size as usize] {
        *mark = r.below(3) as u8;
    }
    record.counted()
}

/// A list of calls, the same on both sides.
fn calls(r: &mut Random, failures: &mut Failures) -> Result<(), String> {
    let (mut pair, board) = (random_pair(r), random_board(r));
    let mut done = 0;
    for _ in 0..40 {
        match r.below(22) {
            0 => pair.access(r.one_of(&[Access::Suspend, Access::Resume, Access::ResumeChanged]))?,
            1 => host_write(r, &mut pair),
            2 | 3 => {
                let failed = pair.step(done)? == WRITE_ERROR;
                *failures.entry("step".into()).or_default() += u64::from(failed);
                done = if r.once_in(2) { jump(r) } else { done.wrapping_add(1) };
            }
            4 | 5 => {
                let list = pairs(r, pair.record[0].size);
                pair.mark_list(&list)?;
            }
            6..=9 => {
                let sent = message(r, board, &pair.record[0]);
                let failed = pair.message(board, &sent)? == Some(0x80 + WRITE_ERROR);
                *failures.entry("message".into()).or_default() += u64::from(failed);
            }
            10 => both_ways(r, &pair, board)?,
            11 | 12 => wear(r, &mut pair),
            13 | 14 => flush(r, &mut pair, failures)?,
            _ => {
                let sent = registers(r, &pair.record[0]);
                command(&mut pair, sent, failures)?;
            }
        }
    }
    Ok(())
}

fn host_write(r: &mut Random, pair: &mut Pair) {
    let most = pair.memory[0].part().len();
    if most == 0 {
        return;
    }
    let at = r.below(most as u64) as usize;
    let mut bytes = vec![0; (1 + r.below(5000) as usize).min(most - at)];
    r.fill(&mut bytes);
    pair.host_write(at, &bytes);
}

/// How many actions a flush of these marks takes up to the first block whose erase fails, and whether there is one.
fn reached(record: &Record, worn: &[u8]) -> (u64, bool) {
    let blocks = record.marks[..record.size as usize].iter().zip(&worn[record.first as usize..]);
    let mut actions = 0;
    for (mark, worn) in blocks {
        if *mark != 0 && *worn != 0 {
            return (actions, true);
        }
        actions += [0, 17, 1][*mark as usize];
    }
    (actions, false)
}

/// Demand 3 on the proved library: cut at any action or at a worn block, open again, mark, write and flush, with no worn block among the marked
/// ones. The steps up to the cut run beside the second's.
fn cut(r: &mut Random) -> Result<(), String> {
    let (s, c) = (2 + r.below(6) as usize, 1 + r.below(4) as usize);
    let mut flash = vec![0; s * BLOCK];
    let mut memory = vec![0; c * BLOCK];
    r.fill(&mut flash);
    r.fill(&mut memory);
    let record = Record { version: r.below(3) as u8, ..write_window(r, s, c) };
    let size = record.size as usize;
    let n = second::flush_actions(&session_of(&record)) as u64;
    let (mut whole, good) = (flash.clone(), vec![0; s]);
    for j in 0..n {
        compare::step(&record, &mut whole, &good, &mut memory, j);
    }
    let mut worn = worn_map(r, s, &record);
    let (most, fails) = reached(&record, &worn);
    let cut = r.below(n + 1);
    let mut theirs = flash.clone();
    for step in 0..cut {
        // the count stays where an erase fails
        let j = step.min(most);
        let expected = if step < most || !fails { (1, true) } else { (WRITE_ERROR, false) };
        let answer = compare::step(&record, &mut flash, &worn, &mut memory, j);
        if answer != twin::step(&record, &mut theirs, &worn, &memory, j) || answer != expected || flash != theirs {
            return Err(format!("cut: step {step} of {n} differs"));
        }
    }
    for (mark, worn) in record.marks[..size].iter().zip(&mut worn[record.first as usize..]) {
        *worn = if *mark == 0 { *worn } else { 0 };
    }
    let mut other = vec![0; c * BLOCK];
    r.fill(&mut other);
    let mut again = compare::fresh();
    let send = |again: &mut Record, code: u8, sequence: u8, arguments: [u16; 2], flash: &mut Vec<u8>, other: &mut Vec<u8>| {
        let mut registers = [0; 16];
        registers[0] = code;
        registers[1] = sequence;
        registers[2..4].copy_from_slice(&arguments[0].to_le_bytes());
        registers[4..6].copy_from_slice(&arguments[1].to_le_bytes());
        compare::command(again, &mut registers, 16, 8, flash, &worn, other);
        registers[13]
    };
    send(&mut again, 2, 1, [2, 0], &mut flash, &mut other);
    send(&mut again, 6, 2, [record.first, record.size], &mut flash, &mut other);
    // dirty blocks by single commands, or all of them in one call
    let listed = r.once_in(2);
    let mut list = Vec::new();
    for block in 0..size {
        match record.marks[block] {
            1 if listed => list.extend([block as u16, 1]),
            0 => {}
            mark => drop(send(&mut again, [7, 10][mark as usize - 1], 3 + block as u8, [block as u16, 1], &mut flash, &mut other)),
        }
        if record.marks[block] == 1 {
            other[block * BLOCK..(block + 1) * BLOCK].copy_from_slice(&memory[block * BLOCK..(block + 1) * BLOCK]);
        }
    }
    if compare::mark_list(&mut again, &list, 16, 8, Lengths { flash: flash.len(), worn: s, memory: other.len() }) != (1, None) {
        return Err("cut: the second run's list of marks was refused".into());
    }
    if send(&mut again, 8, 200, [0, 0], &mut flash, &mut other) != 1 {
        return Err("cut: the second flush was refused".into());
    }
    if flash != whole {
        return Err(format!("cut: after {cut} of {n} actions the second run ends otherwise"));
    }
    Ok(())
}

/// Records of all kinds for the bench: mostly a write window is opened first, so that fills and marks find one.
fn records(r: &mut Random) -> Vec<u8> {
    let mut input = Vec::new();
    let (window, version, first) = (!r.once_in(8), 1 + r.below(2), r.below(3));
    if window {
        put_command(&mut input, &[2, 1, version]);
        put_command(&mut input, &[6, 2, first, 0, r.below(4), 0]);
    }
    for sequence in 3..3 + r.below(30) {
        match r.below(24) {
            0..=5 if window => put_fill(&mut input, r),
            6 => put(&mut input, 2),
            7..=9 => put(&mut input, 3),
            10 if r.once_in(8) => put(&mut input, 4),
            11 if r.once_in(8) => {
                let any = [r.below(12), r.below(250), r.below(260), r.below(260), r.below(260), r.below(260), 0, 0, 0, 0, 0, 0, 0, 0];
                put_command(&mut input, &any[..2 + r.below(13) as usize]);
            }
            12 => put_command(&mut input, &[r.one_of(&[1, 2, 3, 4, 5, 6, 9]), sequence, r.below(4), 0, r.below(4), 0]),
            _ => {
                let code = r.one_of(&[7, 7, 8, 8, 10]);
                put_command(&mut input, &range(r, code, sequence, version, first));
            }
        }
    }
    input
}

/// A range about the window's, as the version has it: a flash block and bytes, or a window block and blocks.
fn range(r: &mut Random, code: u64, sequence: u64, version: u64, first: u64) -> [u64; 8] {
    if version == 1 {
        [code, sequence, first + r.below(2), 0, r.below(2), 16 * r.below(3), 0, 0]
    } else {
        [code, sequence, r.below(2), 0, r.below(3), 0, 0, 0]
    }
}

fn put_command(input: &mut Vec<u8>, registers: &[u64]) {
    put(input, 0);
    put(input, registers.len() as u64);
    for register in registers {
        put(input, *register);
    }
}

/// A fill, mostly within one block of the window, now and then at its end or past it.
fn put_fill(input: &mut Vec<u8>, r: &mut Random) {
    put(input, 1);
    let (offset, count) = match r.below(80) {
        0 => (8192, 0),
        1 => (4096, 4096),
        2 => (8192, 1),
        3 => (r.below(9000), r.next() >> 31),
        4 => (0, 0),
        _ => (r.below(3000), r.below(1000)),
    };
    put(input, offset);
    put(input, count);
    put(input, if r.once_in(80) { 256 } else { r.below(256) });
}

/// The bench program against the second implementation's, on records of all kinds and on damaged ones. Says whether the flash was written.
fn bench(r: &mut Random, program: &str) -> Result<bool, String> {
    let mut input = records(r);
    if r.once_in(4) && !input.is_empty() {
        let at = r.below(input.len() as u64) as usize;
        input[at] = r.next() as u8;
    }
    if r.once_in(40) {
        input.resize(16383 + r.below(3) as usize, 2);
    }
    let ours = program::printed(program, &parts(r, &input)).map_err(|e| format!("bench on {input:02x?}: {e}"))?;
    let theirs = second::bench(&input);
    if ours != theirs {
        return Err(format!("bench on {input:02x?}: {:?}, the second implementation {:?}", String::from_utf8_lossy(&ours), String::from_utf8_lossy(&theirs)));
    }
    Ok(!theirs.ends_with(b"flash 0 0 0 0\n") && !theirs.starts_with(b"too long"))
}

/// An input at once, or now and then in a few parts of any lengths.
fn parts<'a>(r: &mut Random, input: &'a [u8]) -> Vec<&'a [u8]> {
    let mut parts = Vec::new();
    let mut rest = input;
    if r.once_in(8) {
        for _ in 0..1 + r.below(3) {
            let (part, more) = rest.split_at(r.below(rest.len() as u64 + 1) as usize);
            parts.push(part);
            rest = more;
        }
    }
    parts.push(rest);
    parts
}

/// A number in seven-bit groups.
fn put(out: &mut Vec<u8>, mut n: u64) {
    while n >= 128 {
        out.push((n % 128) as u8 + 128);
        n /= 128;
    }
    out.push(n as u8);
}

fn number(argument: Option<String>) -> u64 {
    argument.expect("compare SEED ROUNDS").parse().expect("a number")
}

fn main() {
    let mut arguments = std::env::args().skip(1);
    let (first, rounds) = (number(arguments.next()), number(arguments.next()));
    let program = std::env::var("BENCH").expect("BENCH names the bench program");
    println!("compare: seeds {first} to {}", first + rounds - 1);
    let (mut runs, mut written, mut failures) = (0, 0, all_failures());
    for seed in first..first + rounds {
        let mut r = Random(seed.wrapping_mul(0x1234_5678_9abc_def1));
        let mut result = calls(&mut r, &mut failures).and_then(|()| cut(&mut r));
        if result.is_ok() && seed % 4 == 0 {
            runs += 1;
            result = bench(&mut r, &program).map(|wrote| written += u64::from(wrote));
        }
        if let Err(difference) = result {
            println!("seed {seed}: {difference}");
            println!("again: tests/compare.sh {seed} 1");
            std::process::exit(1);
        }
    }
    println!("compare: {rounds} rounds, {runs} of them with the bench program, {written} of these wrote to its flash; no difference");
    println!("compare: flushes that failed: {}", failures.iter().map(|(name, count)| format!("{name} {count}")).collect::<Vec<_>>().join(", "));
    assert!(runs < 100 || written > runs / 20, "the bench program is hardly tried");
    assert!(rounds < 10_000 || failures.values().all(|count| *count >= 100), "failing flushes are hardly tried");
}
