//! Measures the proved libraries in one run beside the machine's own limits and the second implementation, as times and their ratio.

use compare::kcs::{accesses, make, Port, Second, MOST};
use compare::{kcs, messages, record_of, session_of, BoardPair, Lengths, Record};
use second::{Kind, Session};
use std::hint::black_box;
use std::time::Instant;

const BLOCK: usize = 4096;
const BOARD: BoardPair = BoardPair { network_function: 0x3a, command: 0x5c };

/// What the measured calls work on.
struct Room {
    flash: Vec<u8>,
    worn: Vec<u8>,
    memory: Vec<u8>,
}

/// The least time of one call of each, in nanoseconds, over many rounds that take turns.
fn least(rounds: usize, calls: usize, room: &mut Room, ours: impl Fn(&mut Room), other: impl Fn(&mut Room)) -> [f64; 2] {
    let mut best = [f64::MAX; 2];
    for _ in 0..rounds {
        best[0] = best[0].min(mean(calls, room, &ours));
        best[1] = best[1].min(mean(calls, room, &other));
    }
    best
}

fn mean(calls: usize, room: &mut Room, work: &impl Fn(&mut Room)) -> f64 {
    let begin = Instant::now();
    for _ in 0..calls {
        work(room);
    }
    begin.elapsed().as_nanos() as f64 / calls as f64
}

fn write_window(first: u16, size: u16, mark: u8) -> Session {
    let mut session = Session::fresh();
    session.version = 2;
    session.kind = Kind::Write;
    session.first = first;
    session.size = size;
    session.marks[..size as usize].fill(mark);
    session_of(&record_of(&session, 0).counted())
}

fn request(code: u8, a: u16, b: u16) -> [u8; 16] {
    let mut registers = [0; 16];
    registers[0] = code;
    registers[1] = 1;
    registers[2..4].copy_from_slice(&a.to_le_bytes());
    registers[4..6].copy_from_slice(&b.to_le_bytes());
    registers
}

/// One command of the proved library on a copy of a record, with so much of the flash.
fn ours(record: &Record, registers: [u8; 16], room: &mut Room, flash: usize) {
    assert_eq!(answered(record, registers, room, flash), 1);
}

fn answered(record: &Record, mut registers: [u8; 16], room: &mut Room, flash: usize) -> u8 {
    let mut record = *record;
    compare::command(&mut record, &mut registers, 16, 8, &mut room.flash[..flash], &room.worn[..flash / BLOCK], &mut room.memory);
    black_box(record.events);
    registers[13]
}

fn theirs(session: &Session, registers: [u8; 16], room: &mut Room) {
    let mut session = session.clone();
    black_box(second::command(&mut session, registers, 16, 8, &mut room.flash, &room.worn, &mut room.memory));
}

/// One look at all marks of a record that is handed over as the library's is: how many are dirty, and how many erased.
#[inline(never)]
extern "C" fn looked(record: Record) -> u16 {
    let of = |kind: u8| record.marks.iter().fold(0u8, |count, mark| count + u8::from(*mark == kind));
    u16::from_be_bytes([of(1), of(2)])
}

/// One row: the times in the first place, and the least and the largest ratio of all places, which the aim is held to.
fn line(what: &str, other: &str, places: &[[f64; 2]], aim: f64) {
    let [ours, theirs] = places[0];
    let ratios = places.iter().map(|[ours, theirs]| ours / theirs);
    let (least, most) = ratios.fold((f64::MAX, 0.0), |(least, most): (f64, f64), ratio| (least.min(ratio), most.max(ratio)));
    let ratio = if places.len() == 1 { format!("{most:.2}") } else { format!("{least:.2} to {most:.2}") };
    let verdict = if most <= aim { "within" } else { "OVER" };
    println!("| {what} | {} | {other} | {} | {ratio} | {aim:.2} | {verdict} |", time_text(ours), time_text(theirs));
}

/// A short time to a tenth.
fn time_text(time: f64) -> String {
    format!("{time:.*} ns", usize::from(time < 10.0))
}

/// The work on bytes, against the machine's own: in several buffers, since the times depend on the pages that a buffer got.
fn against_the_machine(rooms: &mut [Room], closed: &Record) {
    let dirty = record_of(&write_window(0, 64, 1), 0);
    let flush = |room: &mut Room| ours(&dirty, request(8, 0, 0), room, 64 * BLOCK);
    let fill = |room: &mut Room| {
        room.flash.fill(0xff);
        black_box(&mut room.flash);
        for (byte, new) in room.flash.iter_mut().zip(&room.memory) {
            *byte &= *new;
        }
        black_box(&mut room.flash);
    };
    let flushes: Vec<_> = rooms.iter_mut().map(|room| least(200, 5, room, flush, fill)).collect();
    line("flush of 64 dirty blocks", "memset and AND of the same bytes", &flushes, 1.5);
    let create = |room: &mut Room| ours(closed, request(4, 0, 64), room, 64 * BLOCK);
    let copy = |room: &mut Room| {
        room.memory.copy_from_slice(black_box(&room.flash));
        black_box(&mut room.memory);
    };
    let creates: Vec<_> = rooms.iter_mut().map(|room| least(200, 5, room, create, copy)).collect();
    line("create of a 64-block window", "memcpy of the same bytes", &creates, 1.3);
}

/// The work on registers and marks, against the second implementation.
fn against_the_second(room: &mut Room) {
    let clean = write_window(0, 64, 0);
    let record = record_of(&clean, 0);
    for (what, registers) in [("GET_INFO", request(2, 2, 0)), ("MARK_DIRTY of one block", request(7, 1, 1)), ("MARK_DIRTY of 64 blocks", request(7, 0, 64))] {
        let both = least(200, 20_000, room, |room| ours(&record, registers, room, 64 * BLOCK), |room| theirs(&clean, registers, room));
        line(what, "the second implementation", &[both], 1.0);
    }
}

/// So many single commands of one block each, each on what the one before left.
fn single_marks(record: &Record, room: &mut Room, blocks: u16) {
    let mut record = *record;
    for block in 0..blocks {
        let mut registers = request(7, block, 1);
        registers[1] = block as u8 + 1;
        compare::command(&mut record, &mut registers, 16, 8, &mut room.flash, &room.worn, &mut room.memory);
        assert_eq!(registers[13], 1);
    }
    black_box(record.events);
}

/// Lists of marks, against single commands and against the second implementation's list.
fn against_single_commands(room: &mut Room) {
    let clean = write_window(0, 64, 0);
    let record = record_of(&clean, 0);
    let single: Vec<u16> = (0..64).flat_map(|block| [block, 1]).collect();
    let all: Vec<u16> = [0, 64].repeat(64);
    let lengths = Lengths { flash: 64 * BLOCK, worn: 64, memory: 64 * BLOCK };
    let ours = |list: &[u16]| {
        let mut record = record;
        assert_eq!(compare::mark_list(&mut record, black_box(list), 16, 8, lengths), (1, None));
        black_box(record.events);
    };
    let theirs = |list: &[u16]| {
        let mut session = clean.clone();
        let answer = second::mark_list(&mut session, lengths.flash, lengths.worn, lengths.memory, 16, black_box(list));
        assert_eq!(answer, (1, None));
        black_box(session.events);
    };
    let eight = least(200, 2_000, room, |_| ours(&single), |room| single_marks(&record, room, 8));
    line("a list of 64 pairs of one block", "8 commands of one block", &[eight], 1.0);
    let one = least(200, 20_000, room, |_| ours(&single[..2]), |room| single_marks(&record, room, 1));
    line("a list of one pair", "one command", &[one], 2.0);
    for (what, list) in [("a list of 64 pairs of one block", &single), ("a list of 64 pairs of 64 blocks", &all)] {
        let both = least(200, 2_000, room, |_| ours(list), |_| theirs(list));
        line(what, "the second implementation", &[both], 1.0);
    }
}

/// One message to the proved library on a copy of a record: the length of its response is this.
fn our_message(record: &Record, message: &[u8], room: &mut Room, length: usize) {
    let mut record = *record;
    let reply = compare::message(&mut record, BOARD, black_box(message), 16, 8, &mut room.flash, &room.worn, &mut room.memory);
    assert_eq!(reply.length as usize, length);
    // by reference: a copy would wait for the single bytes that were just written
    black_box(&reply);
    black_box(record.events);
}

fn their_message(session: &Session, message: &[u8], room: &mut Room, length: usize) {
    let mut session = session.clone();
    let (response, _) = second::messages::message(&mut session, BOARD, 16, 8, black_box(message), &mut room.flash, &room.worn, &mut room.memory);
    assert_eq!(response.len(), length);
    black_box((session.events, response));
}

/// Messages, against the second implementation, and those that hold a command against the same command by mailbox.
fn messages_against_both(room: &mut Room) {
    let clean = write_window(0, 64, 0);
    let record = record_of(&clean, 0);
    let (info, mark) = (request(2, 2, 0), request(7, 1, 1));
    let [get_info, mark_dirty] = [info, mark].map(|registers| messages::of_registers(BOARD, 2, &registers));
    let long = [&mark_dirty[..], &[0]].concat();
    for (what, message, length) in [
        ("message: GET_INFO", &get_info[..], 9),
        ("message: MARK_DIRTY of one block", &mark_dirty, 5),
        ("message: of another pair", &[0xec, 0x5c, 8, 1], 3),
        ("message: of a wrong length", &long, 3),
        ("message: one byte", &[0xe8], 0),
    ] {
        let both = least(200, 20_000, room, |room| our_message(&record, message, room, length), |room| their_message(&clean, message, room, length));
        line(what, "the second implementation", &[both], 1.0);
    }
    for (what, message, length, registers) in [("GET_INFO", &get_info, 9, info), ("MARK_DIRTY of one block", &mark_dirty, 5, mark)] {
        let both = least(200, 20_000, room, |room| our_message(&record, message, room, length), |room| ours(&record, registers, room, 64 * BLOCK));
        line(&format!("message: {what}"), "the same command by mailbox", &[both], 1.5);
    }
}

/// How much is pending, against one look at the marks: both are handed the record by value.
fn against_a_look(room: &mut Room) {
    let full = record_of(&write_window(0, 64, 1), 0);
    let ours = |_: &mut Room| assert_eq!(unsafe { compare::hiomap_pending(*black_box(&full)) }.actions, 1088);
    let look = |_: &mut Room| assert_eq!(looked(*black_box(&full)), 64 << 8);
    line("how much is pending", "one look at the marks of the same record", &[least(200, 20_000, room, ours, look)], 1.1);
}

/// A flush that fails at the second of 64 dirty blocks, against one of the first alone.
fn against_one_block(room: &mut Room) {
    let (all, one) = (record_of(&write_window(0, 64, 1), 0), record_of(&write_window(0, 1, 1), 0));
    room.worn[1] = 1;
    let failing = |room: &mut Room| assert_eq!(answered(&all, request(8, 0, 0), room, 64 * BLOCK), 3);
    let whole = |room: &mut Room| ours(&one, request(8, 0, 0), room, 64 * BLOCK);
    line("flush of 64 dirty blocks, the second one worn", "flush of one dirty block", &[least(200, 1_000, room, failing, whole)], 1.5);
    room.worn[1] = 0;
}

/// The largest chip against a small one, which is its front.
fn against_a_small_chip(closed: &Record) {
    let mut room = Room { flash: vec![0xff; 65_535 * BLOCK], worn: vec![0; 65_535], memory: vec![0; 2 * BLOCK] };
    let two = record_of(&write_window(0, 2, 1), 0);
    let none = record_of(&write_window(0, 2, 0), 0);
    for (what, record, registers, calls) in [
        ("GET_INFO", &none, request(2, 2, 0), 20_000),
        ("MARK_DIRTY", &none, request(7, 0, 1), 20_000),
        ("create of 2 blocks", closed, request(6, 0, 2), 500),
        ("flush of 2 dirty blocks", &two, request(8, 0, 0), 500),
    ] {
        let both = least(200, calls, &mut room, |room| ours(record, registers, room, 65_535 * BLOCK), |room| ours(record, registers, room, 4 * BLOCK));
        line(&format!("{what}, S = 65,535"), "S = 4", &[both], 1.1);
    }
}

fn read_status<P: Port>(port: &mut P) {
    black_box(port.status());
}

fn read_data<P: Port>(port: &mut P) {
    black_box(port.read_data());
}

fn command<const CODE: u8, P: Port>(port: &mut P) {
    port.write_command(black_box(CODE));
}

fn datum<const BYTE: u8, P: Port>(port: &mut P) {
    black_box(port.write_data(black_box(BYTE)));
}

fn answer<P: Port>(port: &mut P) {
    assert!(port.respond(black_box(&[0xaa; MOST])));
}

/// What a host does after a write: it looks at the status, and reads.
fn look_and_read<P: Port>(port: &mut P) {
    read_status(port);
    read_data(port);
}

/// A request and a response of 64 bytes each.
fn exchange<P: Port>(port: &mut P) {
    command::<0x61, _>(port);
    look_and_read(port);
    for _ in 1..MOST {
        datum::<0x55, _>(port);
        look_and_read(port);
    }
    command::<0x62, _>(port);
    look_and_read(port);
    datum::<0x55, _>(port);
    answer(port);
    for _ in 0..MOST {
        look_and_read(port);
        datum::<0x68, _>(port);
    }
    look_and_read(port);
}

/// The time of a call on each of many ports that all are as this one, in nanoseconds.
fn on_each<P: Port>(ports: &mut [P], start: &P, call: &impl Fn(&mut P)) -> f64 {
    ports.fill(start.clone());
    let begin = Instant::now();
    for port in black_box(&mut *ports) {
        call(port);
    }
    begin.elapsed().as_nanos() as f64 / ports.len() as f64
}

/// One row: the least time of a call on ports that these words lead to, over many rounds that take turns.
fn port_line(what: &str, words: &str, ours: impl Fn(&mut kcs::Record), theirs: impl Fn(&mut Second)) {
    let (mut one, mut other) = (kcs::Record::fresh(), Second::fresh());
    for access in accesses(words) {
        assert_eq!(make(&mut one, &access), make(&mut other, &access));
    }
    let (mut ones, mut others) = (vec![one; 128], vec![other.clone(); 128]);
    let mut best = [f64::MAX; 2];
    for _ in 0..2_000 {
        best[0] = best[0].min(on_each(&mut ones, &one, &ours));
        best[1] = best[1].min(on_each(&mut others, &other, &theirs));
    }
    line(what, "the second implementation", &[best], 1.0);
}

/// The accesses to a KCS port.
fn against_the_second_port() {
    port_line("KCS: read of the status", "c61", read_status, read_status);
    port_line("KCS: read of Data_Out", "c61", read_data, read_data);
    port_line("KCS: write of 61", "c61 r", command::<0x61, _>, command::<0x61, _>);
    port_line("KCS: write of a byte that is kept", "c61 d01 d02 r", datum::<0x55, _>, datum::<0x55, _>);
    port_line("KCS: write of 62", "c61 d01 d02 r", command::<0x62, _>, command::<0x62, _>);
    port_line("KCS: write of a message's last byte", "c61 d01 d02 c62 r", datum::<0x55, _>, datum::<0x55, _>);
    port_line("KCS: response of 64 bytes", "c61 c62 d01", answer, answer);
    port_line("KCS: READ, to the next byte", "c61 c62 d01 aAABBCC r", datum::<0x68, _>, datum::<0x68, _>);
    port_line("KCS: READ, to idle", "c61 c62 d01 aAA r", datum::<0x68, _>, datum::<0x68, _>);
    port_line("KCS: write of 60", "c61 r", command::<0x60, _>, command::<0x60, _>);
    port_line("KCS: 00 after it", "c60 r", datum::<0x00, _>, datum::<0x00, _>);
    port_line("KCS: a wrong code", "c60 r", datum::<0x55, _>, datum::<0x55, _>);
    port_line("KCS: exchange of 64 bytes each way", "", exchange, exchange);
}

fn main() {
    println!("| what | ours | against | that | ratio | aim | |");
    println!("|---|---|---|---|---|---|---|");
    let mut rooms: Vec<_> = (0..8).map(|_| Room { flash: vec![0x5a; 64 * BLOCK], worn: vec![0; 64], memory: vec![0xa5; 64 * BLOCK] }).collect();
    let closed = record_of(&Session { version: 2, ..Session::fresh() }, 0);
    against_the_machine(&mut rooms, &closed);
    against_the_second(&mut rooms[0]);
    against_single_commands(&mut rooms[0]);
    messages_against_both(&mut rooms[0]);
    against_a_look(&mut rooms[0]);
    against_one_block(&mut rooms[0]);
    against_a_small_chip(&closed);
    against_the_second_port();
}
