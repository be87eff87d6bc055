//! What no contract holds: which argument and which field stands where and how wide it is, and what the bench program reads and writes. Fixed
//! cases, each on both implementations; it stops at the first difference.
//!
//! boundary: BENCH names the bench program.

use compare::kcs::{self, accesses, make, Port};
use compare::pair::{Access, Pair};
use compare::{bytes, bytes_of, const_bytes, messages, program, twin, BoardPair, Bytes, Lengths, ListReply, MessageReply, Record, Suspended, Work};
use std::fs::File;
use std::mem::{offset_of, size_of, transmute, MaybeUninit};

const BLOCK: usize = 4096;

/// The record is as include/hiomap.h has it.
const _: () = assert!(offset_of!(Record, version) == 0 && offset_of!(Record, numbered) == NUMBERED && offset_of!(Record, previous) == 2);
const _: () = assert!(offset_of!(Record, events) == 3 && offset_of!(Record, suspended) == SUSPENDED && offset_of!(Record, window) == 5);
const _: () = assert!(offset_of!(Record, first) == 6 && offset_of!(Record, size) == 8 && offset_of!(Record, dirty) == DIRTY);
const _: () = assert!(offset_of!(Record, erased) == ERASED && offset_of!(Record, marks) == MARKS && size_of::<Record>() == RECORD);
const _: () = assert!(offset_of!(Suspended, record) == 2 && size_of::<Suspended>() == SUSPENDED_ANSWER);
const _: () = assert!(offset_of!(Work, blocks) == 4 && offset_of!(Work, actions) == 8 && size_of::<Work>() == 12);
const _: () = assert!(offset_of!(ListReply, named) == 1 && offset_of!(ListReply, place) == 2 && size_of::<ListReply>() == 3);
const _: () = assert!(offset_of!(MessageReply, response) == 0 && offset_of!(MessageReply, length) == 16);
const _: () = assert!(offset_of!(MessageReply, actions) == 20 && size_of::<MessageReply>() == MESSAGE_ANSWER);
/// And a KCS port as include/kcs.h has it.
const _: () = assert!(offset_of!(kcs::Record, phase) == 0 && offset_of!(kcs::Record, command) == 1 && offset_of!(kcs::Record, full) == 2);
const _: () = assert!(offset_of!(kcs::Record, output) == 3 && offset_of!(kcs::Record, fault) == 4 && offset_of!(kcs::Record, length) == 5);
const _: () = assert!(offset_of!(kcs::Record, next) == 6 && offset_of!(kcs::Record, end) == 7 && offset_of!(kcs::Record, request) == 8);
const _: () = assert!(offset_of!(kcs::Record, response) == 72 && size_of::<kcs::Record>() == PORT);
const NUMBERED: usize = 1;
const SUSPENDED: usize = 4;
const DIRTY: usize = 10;
const ERASED: usize = 11;
const MARKS: usize = 12;
const RECORD: usize = 76;
const SUSPENDED_ANSWER: usize = 78;
const MESSAGE_ANSWER: usize = 24;
const PORT: usize = 136;

/// Each of its two numbers has bits that the other has not.
const BOARD: BoardPair = BoardPair { network_function: 0x3a, command: 0x5c };

/// Every page of 15 blocks has a byte of its own, and none is FF.
fn pattern(length: usize, base: usize) -> Vec<u8> {
    (0..length).map(|i| ((i / 256 + base) % 251) as u8).collect()
}

/// A version, a window at blocks 1 and 2 (0 none, 1 read, 2 write and marked), and a previous number.
fn record(version: u8, window: u8) -> Record {
    let mut record = Record { version, numbered: 1, previous: 9, window, ..compare::fresh() };
    if window != 0 {
        (record.first, record.size) = (1, 2);
    }
    if window == 2 {
        record.marks[..2].copy_from_slice(&[2, 1]);
    }
    record.counted()
}

/// Three flash blocks and two window blocks.
fn pair(record: Record) -> Pair {
    Pair::new(record, &pattern(3 * BLOCK, 10), &pattern(2 * BLOCK, 90), 0xa1b2, 0xc3d4)
}

/// The same, with this byte of the map at this block.
fn worn_pair(record: Record, block: usize, worn: u8) -> Pair {
    let (mut pair, mut map) = (pair(record), [0; 3]);
    map[block] = worn;
    pair.wear(&map);
    pair
}

fn registers(code: u8, sequence: u8, arguments: &[u8]) -> [u8; 16] {
    let mut registers = [0; 16];
    registers[..2].copy_from_slice(&[code, sequence]);
    registers[2..2 + arguments.len()].copy_from_slice(arguments);
    registers
}

/// A command by mailbox and as a message of the length that the version has for it, each on a copy of the pair.
fn both_ways(pair: &Pair, registers: [u8; 16]) -> Result<(), String> {
    pair.clone().command(registers)?;
    pair.clone().message(BOARD, &messages::of_registers(BOARD, pair.record[0].version, &registers)).map(drop)
}

/// Each call by itself on a copy of the pair.
fn every_call(pair: &Pair) -> Result<(), String> {
    let commands: [(u8, &[u8]); 12] = [
        (1, &[]), (2, &[1]), (2, &[2]), (3, &[]), (4, &[2, 0, 1]), (5, &[]), (6, &[0]), (7, &[1, 0, 1]), (8, &[]), (8, &[1, 0, 1]), (9, &[0x41]),
        (10, &[1, 0, 1]),
    ];
    for (code, arguments) in commands {
        both_ways(pair, registers(code, 5, arguments))?;
    }
    // too short, of another pair, and of a wrong length
    for refused in [&[0xe8][..], &[0xec, 0x5c, 2, 5, 2], &[0xe8, 0x5c, 2, 5, 2, 0]] {
        pair.clone().message(BOARD, refused)?;
    }
    // the previous number again
    both_ways(pair, registers(8, 9, &[]))?;
    both_ways(pair, registers(2, 9, &[1]))?;
    pair.clone().command(registers(9, 8, &[0xff]))?;
    for done in [0, 1, 17] {
        pair.clone().step(done)?;
    }
    for list in [&[][..], &[0, 2], &[1, 1, 2, 0], &[0, 1, 1, 2, 9, 9], &[0]] {
        pair.clone().mark_list(list)?;
    }
    for access in [Access::Suspend, Access::Resume, Access::ResumeChanged] {
        pair.clone().access(access)?;
    }
    Ok(())
}

fn with_byte(record: Record, at: usize, value: u8) -> Record {
    let mut bytes: [u8; RECORD] = unsafe { transmute(record) };
    bytes[at] = value;
    unsafe { transmute(bytes) }
}

/// Each byte of the record by itself, with values that mean something else in every other field, in each call.
fn fields() -> Result<(), String> {
    for (version, window, suspended) in [(2, 2, 0), (2, 2, 1), (1, 2, 0), (2, 1, 0), (1, 0, 1), (0, 0, 0)] {
        let base = Record { suspended, events: if suspended == 1 { 0xc1 } else { 0x81 }, ..record(version, window) };
        for at in 0..RECORD {
            let values: &[u8] = match at {
                NUMBERED | SUSPENDED => &[0, 1],
                MARKS.. => &[1, 2, 3],
                _ => &[0, 1, 2, 3, 4, 5, 9, 0x40, 0x43, 0x7f, 0x80, 0x81, 0x83, 0xbf, 0xc0, 0xff],
            };
            for value in values {
                let record = with_byte(base, at, *value);
                every_call(&pair(record)).map_err(|e| format!("byte {at} of the record is {value}: {e}"))?;
                every_call(&worn_pair(record, 2, 1)).map_err(|e| format!("byte {at} of the record is {value}, block 2 worn: {e}"))?;
                // a mark by itself, with the numbers that fit it
                if at >= MARKS {
                    every_call(&pair(record.counted())).map_err(|e| format!("byte {at} of the record is {value}, counted: {e}"))?;
                }
            }
        }
    }
    Ok(())
}

/// A yes or no above 1 stands for no session; suspend and resume take it.
fn wide_answers() -> Result<(), String> {
    for (version, window) in [(2, 2), (1, 2), (2, 1), (2, 0), (0, 0), (3, 2), (2, 7)] {
        for (at, other) in [(NUMBERED, SUSPENDED), (SUSPENDED, NUMBERED)] {
            for value in [2, 3, 4, 0x7f, 0x80, 0xfe, 0xff] {
                for beside in [0, 1, value] {
                    let record = with_byte(with_byte(record(version, window), at, value), other, beside);
                    every_call(&pair(record)).map_err(|e| format!("byte {at} of the record is {value}, the other {beside}: {e}"))?;
                }
            }
        }
    }
    Ok(())
}

/// The first LPC block and the timeout: each byte of both, and the limit of the first.
fn lpc_and_timeout() -> Result<(), String> {
    let values = [(0xa1b2, 0xc3d4), (0xc3d4, 0xa1b2), (0, 65535), (255, 256), (256, 255), (0x7fff, 0x8000), (0x8000, 0x7fff)];
    for c in [1, 2, 3, 64] {
        let last = (65536 - c as u32) as u16;
        let edges = [(last - 1, 65535), (last, 65534), (last, 0), (last.wrapping_add(1), 0), (65535, 65534), (65534, 65535)];
        for (lpc, timeout) in values.into_iter().chain(edges) {
            for version in 0..3 {
                let mut pair = Pair::new(record(version, 0), &pattern(3 * BLOCK, 10), &pattern(c * BLOCK, 90), lpc, timeout);
                for (code, argument) in [(2, 1), (4, 1), (6, 0), (2, 2), (4, 1), (6, 2)] {
                    pair.record.iter_mut().for_each(|record| record.numbered = 0);
                    both_ways(&pair, registers(code, 5, &[argument])).map_err(|e| format!("lpc {lpc}, timeout {timeout}, {c} window blocks: {e}"))?;
                    pair.command(registers(code, 5, &[argument]))?;
                }
                pair.mark_list(&[0, 1]).map_err(|e| format!("lpc {lpc}, timeout {timeout}, {c} window blocks: {e}"))?;
            }
        }
    }
    Ok(())
}

/// Each register by itself, of each command, at each version and with each window.
fn each_register() -> Result<(), String> {
    for version in 0..3 {
        for window in 0..3 {
            let pair = pair(record(version, window));
            for code in 0..12 {
                for at in 1..16 {
                    for value in [1, 2, 0x10, 0x7f, 0x80, 0xff] {
                        let mut sent = registers(code, 5, &[1, 0, 1]);
                        sent[at] = value;
                        pair.clone().command(sent)?;
                    }
                }
            }
        }
    }
    Ok(())
}

/// Lengths of the flash and of the window memory that differ, 0 among them.
fn lengths() -> Result<(), String> {
    let lengths = [0, 1, BLOCK - 1, BLOCK, BLOCK + 1, 2 * BLOCK, 3 * BLOCK, 64 * BLOCK, 65 * BLOCK];
    for flash in lengths {
        for memory in lengths {
            for window in [0, 2] {
                let pair = Pair::new(record(2, window), &pattern(flash, 10), &pattern(memory, 90), 0xa1b2, 0xc3d4);
                every_call(&pair).map_err(|e| format!("flash of {flash} bytes, window memory of {memory}: {e}"))?;
            }
        }
    }
    Ok(())
}

/// Zero bytes that can only be read, and take no memory until they are.
struct Zeros {
    start: *mut u8,
    length: usize,
}

extern "C" {
    fn mmap(start: *mut u8, length: usize, protection: i32, flags: i32, file: i32, offset: i64) -> *mut u8;
    fn mprotect(start: *mut u8, length: usize, protection: i32) -> i32;
    fn munmap(start: *mut u8, length: usize) -> i32;
}

const READ_ONLY: i32 = 1;
const READ_WRITE: i32 = 3;
const PRIVATE_ANONYMOUS_NORESERVE: i32 = 0x4022;

impl Zeros {
    fn new(length: usize) -> Zeros {
        let start = unsafe { mmap(std::ptr::null_mut(), length, READ_ONLY, PRIVATE_ANONYMOUS_NORESERVE, -1, 0) };
        assert!(start as isize != -1, "{length} bytes of addresses: {}", std::io::Error::last_os_error());
        Zeros { start, length }
    }

    /// Other bytes at the front, which then can only be read as well.
    fn put(&mut self, front: &[u8]) {
        assert!(front.len() <= BLOCK && BLOCK <= self.length);
        unsafe {
            assert_eq!(mprotect(self.start, BLOCK, READ_WRITE), 0);
            self.start.copy_from(front.as_ptr(), front.len());
            assert_eq!(mprotect(self.start, BLOCK, READ_ONLY), 0);
        }
    }

    /// Whoever writes there ends the program.
    fn part(&mut self, length: usize) -> &mut [u8] {
        assert!(length <= self.length);
        unsafe { std::slice::from_raw_parts_mut(self.start, length) }
    }
}

impl Drop for Zeros {
    fn drop(&mut self) {
        unsafe { munmap(self.start, self.length) };
    }
}

/// Lengths of which only the last bits, or the last bits of their blocks, are those of a good length.
fn large_lengths() -> Result<(), String> {
    let [mut flash, mut worn, mut memory] = [(); 3].map(|()| Zeros::new((1 << 44) + 3 * BLOCK));
    for more in [1 << 20, 1 << 28, 1 << 31, 1 << 32, 1 << 33, 1 << 40, 1 << 44] {
        let (s, c) = (3 * BLOCK, 2 * BLOCK);
        for (s, c) in [(s + more, c), (s, c + more), (s + more, c + more), (more, c), (s, more)] {
            // a byte of the map for each block, and for each of a few
            for w in [s / BLOCK, 3] {
                large(flash.part(s), worn.part(w), memory.part(c)).map_err(|e| format!("flash of {s} bytes, map of {w}, window memory of {c}: {e}"))?;
            }
        }
    }
    for shift in 2..45 {
        for w in [(1 << shift) + 3, 1 << shift] {
            large(flash.part(3 * BLOCK), worn.part(w), memory.part(2 * BLOCK)).map_err(|e| format!("map of {w} bytes: {e}"))?;
        }
    }
    Ok(())
}

/// Lists of marks: each number with bytes that both count, lengths about the most pairs and about powers of two, and lengths of both buffers and of
/// the map of which only the last bits are those of a good length.
fn lists() -> Result<(), String> {
    // the buffers are not touched, so that none are needed
    let wide = Pair::new(Record { size: 64, marks: [2; 64], ..record(2, 2) }.counted(), &[], &[], 0xa1b2, 0xc3d4);
    let ask = |list: &[u16]| wide.clone().mark_list_of(list, Lengths { flash: 65 * BLOCK, worn: 65, memory: 64 * BLOCK });
    let single: Vec<u16> = (0..64).flat_map(|block| [63 - block, 1]).collect();
    for at in 0..128 {
        for value in [0, 1, 2, 63, 64, 65, 0x0100, 0x0140, 0x4000, 0x8000, 0xff00, 0xffff] {
            let mut list = single.clone();
            list[at] = value;
            ask(&list)?;
            ask(&list[..at + 1])?;
        }
    }
    let any = vec![0; (1 << 20) + 2];
    let near = (0..21).flat_map(|shift| [(1 << shift) - 1, 1 << shift, (1 << shift) + 1, (1 << shift) + 2]);
    for length in near.chain(0..140) {
        ask(&any[..length])?;
    }
    // a length of which only the last bits are those of few pairs: addresses that can only be read
    let zeros = Zeros::new((1 << 44) + 16);
    for shift in [16, 31, 32, 33, 43] {
        for more in [0, 1, 2, 4] {
            ask(unsafe { std::slice::from_raw_parts(zeros.start.cast(), (1 << shift) + more) })?;
        }
    }
    let small = pair(record(2, 2));
    for shift in 0..64 {
        for (flash, memory) in [(3, 2), (0, 2), (3, 0), (0, 0)] {
            let (flash, memory) = (flash * BLOCK, memory * BLOCK);
            let more = 1usize << shift;
            for (flash, memory) in [(flash + more, memory), (flash, memory + more), (flash + more, memory + more), (flash, memory)] {
                for worn in [3, flash / BLOCK, 3 + more, more] {
                    small.clone().mark_list_of(&[0, 1], Lengths { flash, worn, memory })?;
                }
            }
        }
    }
    small.clone().mark_list_of(&[0, 1], Lengths { flash: usize::MAX, worn: usize::MAX, memory: usize::MAX })
}

/// Calls that do not write there.
fn large(flash: &mut [u8], worn: &[u8], memory: &mut [u8]) -> Result<(), String> {
    for code in [2, 3] {
        let (mut ours, mut theirs) = ((record(2, 0), registers(code, 5, &[1])), (record(2, 0), registers(code, 5, &[1])));
        let actions = compare::command(&mut ours.0, &mut ours.1, 16, 8, flash, worn, memory);
        let their_actions = twin::command(&mut theirs.0, &mut theirs.1, 16, 8, flash, worn, memory);
        if (ours, actions) != (theirs, their_actions) {
            return Err(format!("command {code}: {:02X?}, the second implementation {:02X?}", ours.1, theirs.1));
        }
    }
    for code in [2, 3] {
        let message = messages::of_registers(BOARD, 2, &registers(code, 5, &[1]));
        let (mut held, mut their) = (record(2, 0), record(2, 0));
        let ours = compare::message(&mut held, BOARD, &message, 16, 8, flash, worn, memory);
        let theirs = twin::message(&mut their, BOARD, &message, 16, 8, flash, worn, memory);
        if (held, ours.bytes(), ours.actions) != (their, &theirs.0[..], theirs.1) {
            return Err(format!("message {message:02X?}: {ours:02X?}, the second implementation {theirs:02X?}"));
        }
    }
    // past the end of its flush
    let (record, done) = (record(2, 2), 100);
    let (ours, theirs) = (compare::step(&record, flash, worn, memory, done), twin::step(&record, flash, worn, memory, done));
    if ours != theirs {
        return Err(format!("step: {ours:?}, the second implementation {theirs:?}"));
    }
    Ok(())
}

/// Numbers of actions done of which only the last bits are those of an action that is left.
fn counts() -> Result<(), String> {
    let pair = pair(record(2, 2));
    let mut counts: Vec<u64> = (0..20).chain(1080..1100).chain([u64::MAX]).collect();
    for left in [0, 1, 2, 16, 17] {
        counts.extend((5..64).map(|shift| (1 << shift) + left));
        counts.extend((2..6).flat_map(|times| [8, 16, 31, 32].map(|shift| (times << shift) + left)));
        counts.push(u64::MAX - left);
        counts.push((1 << 63) - 1 - left);
    }
    let worn = worn_pair(record(2, 2), 2, 1);
    counts.into_iter().try_for_each(|done| {
        pair.clone().step(done)?;
        worn.clone().step(done).map(drop)
    })
}

/// A window whose first block needs both of its bytes, and a flash whose number of blocks does.
fn far_window() -> Result<(), String> {
    let blocks = 0x1238;
    let far = Record { first: 0x1234, size: 2, ..record(2, 2) };
    let mut pair = Pair::new(far, &pattern(blocks * BLOCK, 10), &pattern(2 * BLOCK, 90), 0xa1b2, 0xc3d4);
    pair.step(0)?;
    pair.step(1)?;
    let commands: [(u8, &[u8]); 8] =
        [(8, &[]), (3, &[]), (6, &[0x36, 0x12, 1]), (7, &[0, 0, 1]), (2, &[1]), (3, &[]), (7, &[0x36, 0x12, 1]), (5, &[])];
    // worn where a byte of a block's number would lead, and in the window
    for block in [0x34, 0x35, 0x12, 1, 0x1234, 0x1235] {
        let (mut worn, mut map) = (pair.clone(), vec![0; blocks]);
        map[block] = 1;
        worn.wear(&map);
        both_ways(&worn, registers(8, 1, &[]))?;
        worn.step(1)?;
    }
    for (sequence, (code, arguments)) in (1..).zip(commands) {
        both_ways(&pair, registers(code, sequence, arguments))?;
        pair.command(registers(code, sequence, arguments))?;
    }
    Ok(())
}

/// 64 dirty blocks: the most actions, a number of two bytes, and every mark.
fn most_actions() -> Result<(), String> {
    let full = Record { first: 1, size: 64, marks: [1; 64], ..record(2, 2) }.counted();
    let pair = Pair::new(full, &pattern(66 * BLOCK, 10), &pattern(64 * BLOCK, 90), 0xa1b2, 0xc3d4);
    both_ways(&pair, registers(8, 5, &[]))?;
    both_ways(&pair, registers(4, 5, &[66]))?;
    let mut last = pair.clone();
    last.wear(&[&[0; 64][..], &[1, 0]].concat());
    both_ways(&last, registers(8, 5, &[]))?;
    both_ways(&last, registers(4, 5, &[66]))?;
    [1070, 1071, 1072, 1086, 1087, 1088].into_iter().try_for_each(|done| {
        pair.clone().step(done)?;
        last.clone().step(done).map(drop)
    })
}

/// Five flash blocks, a window at blocks 1 to 3, with these marks.
fn marked(version: u8, marks: [u8; 3]) -> Pair {
    let mut held = Record { size: 3, marks: [0; 64], ..record(version, 2) };
    held.marks[..3].copy_from_slice(&marks);
    Pair::new(held.counted(), &pattern(5 * BLOCK, 10), &pattern(3 * BLOCK, 90), 0xa1b2, 0xc3d4)
}

/// What each call that flushes answers and leaves, by mailbox and by message, and then a few steps.
fn flushes(pair: &Pair) -> Result<Vec<(Option<u8>, Pair)>, String> {
    let commands: [(u8, &[u8]); 7] = [(4, &[0]), (4, &[5]), (5, &[]), (5, &[2]), (6, &[4]), (6, &[0xff, 0xff]), (8, &[])];
    let mut all = Vec::new();
    for (code, arguments) in commands {
        let sent = registers(code, 5, arguments);
        let (mut mailbox, mut messaged) = (pair.clone(), pair.clone());
        let answer = mailbox.command(sent)?;
        let completion = messaged.message(BOARD, &messages::of_registers(BOARD, pair.record[0].version, &sent))?;
        all.extend([(Some(answer), mailbox), (completion, messaged)]);
    }
    for done in [0, 1, 17, 18, 40] {
        let mut stepped = pair.clone();
        all.push((Some(stepped.step(done)?), stepped));
    }
    Ok(all)
}

fn same_effect((answer, pair): &(Option<u8>, Pair), (other_answer, other): &(Option<u8>, Pair)) -> bool {
    answer == other_answer && (pair.record, &pair.flash, &pair.memory) == (other.record, &other.flash, &other.memory)
}

/// Each value of the map at each flash block: one that is not 0 fails the erase of a marked block, and has no effect elsewhere.
fn worn_values() -> Result<(), String> {
    for (version, marks) in [(1, [1, 0, 2]), (2, [2, 0, 1]), (2, [0, 1, 0])] {
        let good = marked(version, marks);
        let expected = flushes(&good)?;
        for (block, value) in (0..5).flat_map(|block| (0..=255).map(move |value| (block, value))) {
            let (mut pair, mut map) = (good.clone(), [0; 5]);
            map[block] = value;
            pair.wear(&map);
            let after = flushes(&pair).map_err(|e| format!("the map has {value} at block {block}: {e}"))?;
            let no_effect = after.iter().zip(&expected).all(|(one, other)| same_effect(one, other));
            let is_marked = (1..4).contains(&block) && marks[block - 1] != 0;
            if no_effect == (value != 0 && is_marked) {
                return Err(format!("marks {marks:?}, the map has {value} at block {block}: no effect is {no_effect}"));
            }
        }
    }
    Ok(())
}

/// Every set of worn blocks beside several marks, and FLUSH at version 1 with marks of its own.
fn worn_places() -> Result<(), String> {
    let all_marks = [[1, 2, 1], [2, 1, 2], [2, 0, 1], [0, 0, 1], [0; 3]];
    for (version, marks) in [1, 2].into_iter().flat_map(|version| all_marks.map(|marks| (version, marks))) {
        for set in 0..32 {
            let mut pair = marked(version, marks);
            pair.wear(&[0, 1, 2, 3, 4].map(|block| (set >> block & 1) * 0x81));
            flushes(&pair)?;
            for (first, bytes) in [(1, 0x10), (2, 0x10), (2, 0x11), (3, 0x10), (3, 0x11), (1, 0x30)] {
                both_ways(&pair, registers(8, 5, &[first, 0, 0, bytes]))?;
            }
        }
    }
    Ok(())
}

/// Maps that are too short or too long by a few bytes, in each call.
fn map_lengths() -> Result<(), String> {
    for (version, window) in [(1, 2), (2, 2), (2, 0), (0, 0)] {
        for length in 0..20 {
            for value in [0, 1] {
                let mut pair = pair(record(version, window));
                pair.wear(&vec![value; length]);
                every_call(&pair).map_err(|e| format!("map of {length} bytes: {e}"))?;
            }
        }
    }
    Ok(())
}

/// Maps with lengths of one bit too much, of which no byte may be read: SYSTEM_ERROR, and nothing is written.
fn endless_maps() -> Result<(), String> {
    let message = messages::of_registers(BOARD, 2, &registers(8, 5, &[]));
    for (shift, more) in (16..64).flat_map(|shift| [0, 3].map(|more| (shift, more))) {
        let worn = || bytes_of(&[0; 3], (1 << shift) + more);
        let (mut held, mut sent) = (record(2, 2), registers(8, 5, &[]));
        let (mut flash, mut memory) = (pattern(3 * BLOCK, 10), pattern(2 * BLOCK, 90));
        let actions = unsafe { compare::hiomap_command(&mut held, &mut sent, 16, 8, bytes(&mut flash), worn(), bytes(&mut memory)) };
        let step = unsafe { compare::hiomap_step(held, bytes(&mut flash), worn(), bytes(&mut memory), 0) };
        let (whole, window) = (bytes(&mut flash), bytes(&mut memory));
        let reply = unsafe { compare::hiomap_message(&mut held, 0x3a, 0x5c, const_bytes(&message), 16, 8, whole, worn(), window) };
        let answers = (sent[13], actions, step.code, step.acted, reply.bytes().to_vec(), reply.actions);
        let kept = held == record(2, 2) && flash == pattern(3 * BLOCK, 10) && memory == pattern(2 * BLOCK, 90);
        if !kept || answers != (4, 0, 4, 0, vec![0xec, 0x5c, 0x84], 0) {
            return Err(format!("a map of 2^{shift} and {more} bytes: {answers:?}, all kept {kept}"));
        }
    }
    Ok(())
}

/// An answer and room behind it that no call may touch.
#[repr(C)]
struct Guarded<T> {
    value: T,
    after: [u8; 64],
}

/// What the x86-64 convention makes of an answer in memory: its place is handed over as a first argument.
fn guarded<T: Copy>(what: &str, call: impl Fn(*mut T)) -> Result<T, String> {
    let mut room = MaybeUninit::<Guarded<T>>::zeroed();
    let place = room.as_mut_ptr();
    unsafe { (*place).after = [0xc7; 64] };
    call(std::hint::black_box(place).cast());
    let room = std::hint::black_box(unsafe { room.assume_init() });
    if room.after == [0xc7; 64] { Ok(room.value) } else { Err(format!("{what}: bytes behind the answer changed")) }
}

/// The answers in memory end where the header says, and a fresh record has exactly the bytes of 01.
fn answers() -> Result<(), String> {
    type Fresh = unsafe extern "C" fn(*mut Record);
    type Call = unsafe extern "C" fn(*mut [u8; SUSPENDED_ANSWER], Record);
    let fresh: Fresh = unsafe { transmute(compare::hiomap_fresh as unsafe extern "C" fn() -> Record) };
    let bytes: [u8; RECORD] = unsafe { transmute(guarded("hiomap_fresh", |place| fresh(place))?) };
    let mut expected = [0; RECORD];
    expected[3] = 0x81;
    if bytes != expected {
        return Err(format!("hiomap_fresh: {bytes:02X?}"));
    }
    let calls: [(&str, unsafe extern "C" fn(Record) -> Suspended); 3] =
        [("hiomap_suspend", compare::hiomap_suspend), ("hiomap_resume", compare::hiomap_resume), ("hiomap_resume_changed", compare::hiomap_resume_changed)];
    for (name, call) in calls {
        let call: Call = unsafe { transmute(call) };
        guarded(name, |place| unsafe { call(place, record(2, 2)) })?;
    }
    message_answer()
}

/// The longest response that there is, and the empty one: what a message gives back ends where the header says.
fn message_answer() -> Result<(), String> {
    type Message = unsafe extern "C" fn(*mut Record, u8, u8, Bytes, u16, u16, Bytes, Bytes, Bytes) -> MessageReply;
    type Call = unsafe extern "C" fn(*mut [u8; MESSAGE_ANSWER], *mut Record, u8, u8, Bytes, u16, u16, Bytes, Bytes, Bytes);
    let call: Call = unsafe { transmute(compare::hiomap_message as Message) };
    for message in [&[0xe8, 0x5c, 3, 5][..], &[]] {
        let bytes = guarded("hiomap_message", |place| {
            let (mut held, mut flash, mut memory) = (record(1, 0), [0; BLOCK], [0; BLOCK]);
            unsafe { call(place, &mut held, 0x3a, 0x5c, const_bytes(message), 16, 8, bytes(&mut flash), const_bytes(&[0]), bytes(&mut memory)) }
        })?;
        let mut expected = [0; MESSAGE_ANSWER];
        if !message.is_empty() {
            expected[..13].copy_from_slice(&[0xec, 0x5c, 0, 3, 5, 0, 0x10, 0, 0, 0, 0x10, 0, 0]);
            expected[16] = 13;
        }
        if bytes != expected {
            return Err(format!("hiomap_message on {message:02X?}: {bytes:02X?}"));
        }
    }
    Ok(())
}

/// A fresh KCS port has no byte but 0 and ends where the header says, and no response is taken of whose length only the last bits are good.
fn port() -> Result<(), String> {
    type Fresh = unsafe extern "C" fn(*mut [u8; PORT]);
    let fresh: Fresh = unsafe { transmute(kcs::kcs_fresh as unsafe extern "C" fn() -> kcs::Record) };
    let bytes = guarded("kcs_fresh", |place| unsafe { fresh(place) })?;
    if bytes != [0; PORT] {
        return Err(format!("kcs_fresh: {bytes:02X?}"));
    }
    let mut awaiting = kcs::Record::fresh();
    for access in accesses("c61 c62 d05") {
        make(&mut awaiting, &access);
    }
    let mut zeros = Zeros::new(1 << 44);
    for (shift, more) in (8..44).flat_map(|shift| [(shift, 0), (shift, 1), (shift, 64)]) {
        let mut port = awaiting;
        if port.respond(zeros.part((1 << shift) + more)) || port != awaiting {
            return Err(format!("a response of 2^{shift} and {more} bytes is taken, or changes the record"));
        }
    }
    Ok(())
}

/// The board's pair: each of its numbers with every value, of messages whose first byte is the number's last six bits, the number itself or always
/// the same, with every LUN.
fn board_pairs() -> Result<(), String> {
    let pair = pair(record(2, 2));
    for value in 0..=255u8 {
        for first in [value << 2, value, 0xe8] {
            for lun in 0..4 {
                let board = BoardPair { network_function: value, ..BOARD };
                pair.clone().message(board, &[first & !3 | lun, 0x5c, 2, 5, 1])?;
            }
        }
        let board = BoardPair { command: value, ..BOARD };
        for second in [value, !value, value << 2, value >> 2, 0x5c] {
            pair.clone().message(board, &[0xe9, second, 2, 5, 1])?;
        }
    }
    Ok(())
}

/// Each byte of a message by itself, of each command, at each version and with each window: the first three of GET_INFO's with every value. Then
/// every length up to 70, of the board's pair and of another.
fn each_byte() -> Result<(), String> {
    const SOME: [u8; 7] = [0, 1, 2, 0x10, 0x7f, 0x80, 0xff];
    let all: Vec<u8> = (0..=255).collect();
    for (version, window) in [0, 1, 2, 3, 255].into_iter().flat_map(|version| [0, 1, 2].map(|window| (version, window))) {
        let pair = pair(record(version, window));
        for code in 0..13 {
            let right = messages::of_registers(BOARD, version, &registers(code, 5, &[1, 0, 1]));
            for at in 0..right.len() {
                let every = at < 3 && code == 2;
                for value in if every { &all[..] } else { &SOME } {
                    let mut sent = right.clone();
                    sent[at] = *value;
                    pair.clone().message(BOARD, &sent)?;
                }
            }
            if window == 2 {
                let own = [&right[..], &[0xff; 70]].concat();
                let foreign = [&[0xec], &own[1..]].concat();
                for length in 0..=70 {
                    pair.clone().message(BOARD, &own[..length])?;
                    pair.clone().message(BOARD, &foreign[..length])?;
                }
            }
        }
    }
    Ok(())
}

/// Messages of whose length only the last bits are those of a good length, or of a short message: addresses that can only be read.
fn long_messages() -> Result<(), String> {
    let mut zeros = Zeros::new((1 << 43) + BLOCK);
    for version in 0..3 {
        let pair = pair(record(version, 0));
        for code in 0..12 {
            let right = messages::of_registers(BOARD, version, &registers(code, 5, &[1]));
            for first in [0xe8, 0xec] {
                zeros.put(&[&[first], &right[1..]].concat());
                for (shift, more) in (8..44).flat_map(|shift| [0, 1, 2, 3, 4, right.len()].map(|more| (shift, more))) {
                    pair.clone().message_of(BOARD, zeros.part((1 << shift) + more))?;
                }
            }
        }
    }
    Ok(())
}

/// How much is pending, of every pair of kept numbers beside several marks, and with everything else in the record wrong.
fn pending() -> Result<(), String> {
    let mut marks = [[0; 64], [1; 64], [2; 64], [3; 64], [0; 64], [0; 64]];
    marks[4][..6].copy_from_slice(&[1, 2, 1, 0, 2, 1]);
    marks[5][60..].copy_from_slice(&[2, 255, 1, 2]);
    for marks in marks {
        for numbers in 0..=u16::MAX {
            let [dirty, erased] = numbers.to_le_bytes();
            let right = Record { marks, dirty, erased, ..record(2, 2) };
            let wrong = Record { version: 255, numbered: 2, events: 0x40, suspended: 3, window: 9, first: 65535, size: 0, ..right };
            for record in [right, wrong] {
                let (ours, theirs) = (compare::pending(&record), twin::pending(&record));
                if ours != theirs {
                    return Err(format!("{record:?}: pending {ours:?}, the second implementation {theirs:?}"));
                }
            }
        }
    }
    Ok(())
}

/// The worked input of 01.
const WORKED: [u8; 43] = [
    0, 3, 2, 1, 2, 0, 6, 6, 2, 3, 0, 2, 0, 1, 0, 0xac, 2, 0xa5, 1, 0, 6, 7, 3, 0, 0, 2, 0, 0, 6, 7, 4, 0, 0, 1, 0, 0, 2, 8, 4, 0, 2, 8, 5,
];

fn same_text(how: &str, printed: Result<Vec<u8>, String>, input: &[u8]) -> Result<(), String> {
    let (ours, theirs) = (printed.map_err(|e| format!("bench, {how}: {e}"))?, second::bench(input));
    if ours == theirs {
        return Ok(());
    }
    let (ours, theirs) = (String::from_utf8_lossy(&ours).into_owned(), String::from_utf8_lossy(&theirs).into_owned());
    let line = 1 + ours.lines().zip(theirs.lines()).take_while(|(ours, theirs)| ours == theirs).count();
    Err(format!("bench, {how}: {} bytes printed and {} expected, the first difference in line {line}", ours.len(), theirs.len()))
}

/// The bench program: its input in two parts, byte by byte, up to its limit and past it, and a long text.
fn bench(program: &str) -> Result<(), String> {
    for at in 0..=WORKED.len() {
        let (front, rest) = WORKED.split_at(at);
        same_text(&format!("its input in two parts, {at} bytes first"), program::printed(program, &[front, rest]), &WORKED)?;
    }
    let single: Vec<&[u8]> = WORKED.chunks(1).collect();
    same_text("its input byte by byte", program::printed(program, &single), &WORKED)?;
    for length in [16383, 16384, 16385, 16386, 200_000] {
        let input = vec![0; length];
        for size in [length, 4095, 4096, 4097, 8192, 16384] {
            let parts: Vec<&[u8]> = input.chunks(size).collect();
            same_text(&format!("{length} bytes of input in parts of {size}"), program::printed(program, &parts), &input)?;
        }
    }
    same_text("stopped within its first write", program::printed_with_a_stop(program, &[0; 16384]), &[0; 16384])?;
    let directory = File::open("/").map_err(|e| e.to_string())?;
    same_text("an input that cannot be read", program::printed_from(program, directory), &[])
}

fn main() {
    let program = std::env::var("BENCH").expect("BENCH names the bench program");
    type Section = Box<dyn Fn() -> Result<(), String>>;
    let sections: Vec<(&str, Section)> = vec![
        ("answers", Box::new(answers)),
        ("fields", Box::new(fields)),
        ("lpc and timeout", Box::new(lpc_and_timeout)),
        ("registers", Box::new(each_register)),
        ("lengths", Box::new(lengths)),
        ("large lengths", Box::new(large_lengths)),
        ("counts", Box::new(counts)),
        ("far window", Box::new(far_window)),
        ("most actions", Box::new(most_actions)),
        ("wide answers", Box::new(wide_answers)),
        ("pending", Box::new(pending)),
        ("worn blocks", Box::new(worn_values)),
        ("their places", Box::new(worn_places)),
        ("lengths of the map", Box::new(map_lengths)),
        ("maps without an end", Box::new(endless_maps)),
        ("lists", Box::new(lists)),
        ("board's pair", Box::new(board_pairs)),
        ("messages", Box::new(each_byte)),
        ("long messages", Box::new(long_messages)),
        ("KCS port", Box::new(port)),
        ("bench", Box::new(move || bench(&program))),
    ];
    for (name, section) in &sections {
        if let Err(difference) = section() {
            println!("boundary, {name}: {difference}");
            std::process::exit(1);
        }
    }
    println!("boundary: {}; no difference", sections.iter().map(|(name, _)| *name).collect::<Vec<_>>().join(", "));
}
