//! An independent second implementation of the controller's side of hiomap
//! versions 1 and 2, written from document 01 and QUESTIONS.md alone, then
//! brought to tickets 1, 7, 2 and 4 of 02, beside which only what the source
//! documents 000, 002 and 004 say of events, ACK, windows, CLOSE and MARK_DIRTY
//! was read, what ticket 2's issue decides, from a brief that relayed it, and
//! ticket 4's issue with the brief that named the call's form; then to ticket 8,
//! from 02 and a brief with the readings that were decided for it.
//! Ticket 5 changes no answer. No other ticket is in.
//! Module kcs was written from 001, ticket 3 of 02 and that ticket's readings
//! alone; the host in it, for tests, from the charts as they are generally known.
//! Module messages was written from 01, ticket 6 of 02, that ticket's readings and
//! the I columns of 000 and 002.
//! It is plain on purpose: it is there to be compared with.

/// The controller's side of a KCS port (ticket 3).
pub mod kcs;
/// hiomap messages through that port (ticket 6).
pub mod messages;

/// Bytes in a block, which is also the erase granule.
pub const BLOCK: usize = 4096;
/// The block size as a power of two.
pub const SHIFT: u8 = 12;
/// Bytes in a page.
pub const PAGE: usize = 256;
/// Pages in a block.
pub const PAGES: usize = BLOCK / PAGE;
/// Most blocks of window memory, and the number of marks.
pub const MARKS: usize = 64;
/// Most pairs in a list of marks (ticket 4).
pub const PAIRS: usize = 64;

pub const CLEAN: u8 = 0;
pub const DIRTY: u8 = 1;
pub const ERASED: u8 = 2;

pub const EVENT_PROTOCOL_RESET: u8 = 0x01;
pub const EVENT_WINDOW_RESET: u8 = 0x02;
pub const EVENT_FLASH_LOST: u8 = 0x40;
pub const EVENT_DAEMON_READY: u8 = 0x80;
/// The bits that ACK can clear; the other two named ones are conditions, not
/// events (ticket 1).
const ACK_CLEARS: u8 = EVENT_PROTOCOL_RESET | EVENT_WINDOW_RESET;

pub const SUCCESS: u8 = 1;
pub const PARAM_ERROR: u8 = 2;
pub const WRITE_ERROR: u8 = 3;
pub const SYSTEM_ERROR: u8 = 4;
pub const TIMEOUT: u8 = 5;
pub const BUSY: u8 = 6;
pub const WINDOW_ERROR: u8 = 7;
pub const SEQ_ERROR: u8 = 8;

pub const RESET: u8 = 1;
pub const GET_INFO: u8 = 2;
pub const GET_FLASH_INFO: u8 = 3;
pub const CREATE_READ: u8 = 4;
pub const CLOSE: u8 = 5;
pub const CREATE_WRITE: u8 = 6;
pub const MARK_DIRTY: u8 = 7;
pub const FLUSH: u8 = 8;
pub const ACK: u8 = 9;
pub const ERASE: u8 = 10;

// ---------------------------------------------------------------- session

#[derive(Clone, Copy, Debug, PartialEq, Eq)]
pub enum Kind {
    Closed,
    Read,
    Write,
}

#[derive(Clone, Debug, PartialEq, Eq)]
pub struct Session {
    pub version: u8,
    pub previous: Option<u8>,
    pub events: u8,
    pub suspended: bool,
    pub kind: Kind,
    pub first: u16,
    pub size: u16,
    pub marks: [u8; 64],
    /// The number of marks that are 1 (ticket 2).
    pub dirty: u8,
    /// The number of marks that are 2 (ticket 2).
    pub erased: u8,
}

impl Session {
    pub fn fresh() -> Session {
        Session {
            version: 0,
            previous: None,
            events: EVENT_DAEMON_READY | EVENT_PROTOCOL_RESET,
            suspended: false,
            kind: Kind::Closed,
            first: 0,
            size: 0,
            marks: [CLEAN; MARKS],
            dirty: 0,
            erased: 0,
        }
    }

    /// No window, first block 0, size 0, all marks 0, whatever was there.
    fn drop_window(&mut self) {
        self.kind = Kind::Closed;
        self.first = 0;
        self.size = 0;
        self.clear_marks();
    }

    /// All marks 0, and so both kept numbers, whatever they were (ticket 2).
    fn clear_marks(&mut self) {
        self.marks = [CLEAN; MARKS];
        self.dirty = 0;
        self.erased = 0;
    }
}

/// The number of blocks in a buffer, if it is whole blocks, 1 to `most`.
fn whole_blocks(len: usize, most: usize) -> Option<usize> {
    let blocks = len / BLOCK;
    let good = len % BLOCK == 0 && blocks >= 1 && blocks <= most;
    good.then_some(blocks)
}

fn window_sound(s: &Session, flash_blocks: usize, window_blocks: usize) -> bool {
    let (first, size) = (usize::from(s.first), usize::from(s.size));
    match s.kind {
        Kind::Closed => first == 0 && size == 0,
        Kind::Read | Kind::Write => {
            size >= 1 && size <= window_blocks && first + size <= flash_blocks
        }
    }
}

fn marks_sound(s: &Session) -> bool {
    s.marks.iter().enumerate().all(|(block, &mark)| match mark {
        CLEAN => true,
        DIRTY | ERASED => s.kind == Kind::Write && block < usize::from(s.size),
        _ => false,
    })
}

/// How many of these marks are `mark`. They are 64 at most, so a byte holds it.
fn count(marks: &[u8], mark: u8) -> u8 {
    marks.iter().map(|&one| u8::from(one == mark)).sum()
}

/// The kept numbers equal a full count of the 64 marks (ticket 2), wherever
/// these stand: `marks_sound` alone looks at the window.
fn numbers_sound(s: &Session) -> bool {
    s.dirty == count(&s.marks, DIRTY) && s.erased == count(&s.marks, ERASED)
}

/// Bit 0x40 is set exactly while access is suspended (ticket 1). The other
/// bits are free.
fn events_sound(s: &Session) -> bool {
    (s.events & EVENT_FLASH_LOST != 0) == s.suspended
}

/// The sizes keep 01's numbers, the map of worn blocks has one byte for each
/// block of the flash (ticket 8), and the session is sound for them, by 01 and
/// tickets 1 and 2.
pub fn sound(s: &Session, flash_len: usize, worn_len: usize, window_len: usize) -> bool {
    match (whole_blocks(flash_len, 65_535), whole_blocks(window_len, MARKS)) {
        (Some(flash_blocks), Some(window_blocks)) => {
            worn_len == flash_blocks
                && s.version <= 2
                && events_sound(s)
                && window_sound(s, flash_blocks, window_blocks)
                && marks_sound(s)
                && numbers_sound(s)
        }
        _ => false,
    }
}

/// As `sound`, and B + C <= 65,536.
pub fn sound_with_lpc(
    s: &Session,
    flash_len: usize,
    worn_len: usize,
    window_len: usize,
    b: u16,
) -> bool {
    sound(s, flash_len, worn_len, window_len) && usize::from(b) + window_len / BLOCK <= 65_536
}

/// What is pending (ticket 2): how many blocks are marked and how many chip actions a
/// flush would take, from the kept numbers. None, "unsound", exactly where these
/// disagree with the marks; nothing else in the record is looked at. It counts as
/// if no block were worn (ticket 8).
pub fn pending(s: &Session) -> Option<(u32, u32)> {
    let (dirty, erased) = (u32::from(s.dirty), u32::from(s.erased));
    numbers_sound(s).then_some((dirty + erased, 17 * dirty + erased))
}

/// Suspends access. This and both resumes go by the suspension and not by bit
/// 0x40, on any session, sound or not.
pub fn suspend(s: &mut Session) -> bool {
    if s.suspended {
        return false;
    }
    s.suspended = true;
    s.events |= EVENT_FLASH_LOST;
    true
}

pub fn resume(s: &mut Session) -> bool {
    if !s.suspended {
        return false;
    }
    s.suspended = false;
    s.events &= !EVENT_FLASH_LOST;
    true
}

/// Resume with changed flash.
pub fn resume_changed(s: &mut Session) -> bool {
    if !resume(s) {
        return false;
    }
    s.drop_window();
    s.events |= EVENT_WINDOW_RESET;
    true
}

// ----------------------------------------------------------- chip actions

/// One chip action on a window block.
#[derive(Clone, Copy, Debug, PartialEq, Eq)]
enum Action {
    Erase(usize),
    Page(usize, usize),
}

/// The marks of the window's blocks; none without a write window.
fn window_marks(s: &Session) -> &[u8] {
    let size = usize::from(s.size).min(MARKS);
    match s.kind {
        Kind::Write => &s.marks[..size],
        Kind::Closed | Kind::Read => &[],
    }
}

/// The first window block whose erase fails: marked, and worn by the map of the
/// flash's blocks (ticket 8). Page actions never fail, and a block without a mark
/// is not erased. The session is sound for this map.
fn failing_block(s: &Session, worn: &[u8]) -> Option<usize> {
    let worn = &worn[usize::from(s.first)..];
    window_marks(s).iter().zip(worn).position(|(&mark, &worn)| mark != CLEAN && worn != 0)
}

/// All actions for the window's first blocks, which have these marks, in their
/// order.
fn actions(marks: &[u8]) -> Vec<Action> {
    let mut list = Vec::new();
    for (block, &mark) in marks.iter().enumerate() {
        if mark == DIRTY || mark == ERASED {
            list.push(Action::Erase(block));
        }
        if mark == DIRTY {
            list.extend((0..PAGES).map(|page| Action::Page(block, page)));
        }
    }
    list
}

/// 17 for each dirty and 1 for each erased block of the window, worn or not.
pub fn flush_actions(s: &Session) -> u32 {
    let cost = |mark: &u8| match *mark {
        DIRTY => 17,
        ERASED => 1,
        _ => 0,
    };
    window_marks(s).iter().map(cost).sum()
}

/// Does one action; the session is sound for these buffers.
fn perform(action: Action, first: u16, flash: &mut [u8], window: &[u8]) {
    let base = usize::from(first) * BLOCK;
    match action {
        Action::Erase(block) => {
            let from = base + block * BLOCK;
            erase(&mut flash[from..from + BLOCK]);
        }
        Action::Page(block, page) => {
            let from = block * BLOCK + page * PAGE;
            let new = &window[from..from + PAGE];
            program(&mut flash[base + from..base + from + PAGE], new);
        }
    }
}

fn erase(block: &mut [u8]) {
    block.fill(0xFF);
}

fn program(page: &mut [u8], new: &[u8]) {
    for (old, new) in page.iter_mut().zip(new) {
        *old &= *new;
    }
}

/// How far the session's flush comes with this map (ticket 8).
struct Course {
    /// The window blocks that it goes through, from the first on.
    blocks: usize,
    /// Their actions. The erase that fails behind them is not one of these.
    actions: Vec<Action>,
    /// Whether such an erase ends it.
    fails: bool,
}

/// The flush stops at the first failure, so that nothing is done for the failing
/// block and those behind it, good or not.
fn course(s: &Session, worn: &[u8]) -> Course {
    let marks = window_marks(s);
    let failing = failing_block(s, worn);
    let blocks = failing.unwrap_or(marks.len());
    Course { blocks, actions: actions(&marks[..blocks]), fails: failing.is_some() }
}

/// The flush advanced by one action, `done` of them being done already. From the
/// erase of a worn block on, past the end too, it answers WRITE_ERROR (ticket 8).
pub fn step(
    s: &Session,
    flash: &mut [u8],
    worn: &[u8],
    window: &[u8],
    done: u64,
) -> (u8, bool) {
    if !sound(s, flash.len(), worn.len(), window.len()) {
        return (SYSTEM_ERROR, false);
    }
    if s.suspended {
        return (BUSY, false);
    }
    let Course { actions, fails, .. } = course(s, worn);
    if done < actions.len() as u64 {
        perform(actions[done as usize], s.first, flash, window);
        return (SUCCESS, true);
    }
    (if fails { WRITE_ERROR } else { SUCCESS }, false)
}

/// The flush as far as it comes, as the answer of a command that does no more.
/// The finished blocks are clean afterwards; where it fails, the failing block and
/// those behind it keep their marks (ticket 8).
fn flush(s: &mut Session, flash: &mut [u8], worn: &[u8], window: &[u8]) -> Answer {
    let Course { blocks, actions, fails } = course(s, worn);
    for &action in &actions {
        perform(action, s.first, flash, window);
    }
    set_marks(s, Range { from: 0, to: blocks }, CLEAN);
    let actions = actions.len() as u32;
    if fails {
        return Answer { actions, ..refused(WRITE_ERROR) };
    }
    done(actions)
}

// --------------------------------------------------------------- mediator

/// What a command answers, before it is put into the registers.
struct Answer {
    code: u8,
    args: [u8; 11],
    actions: u32,
}

fn refused(code: u8) -> Answer {
    Answer { code, args: [0; 11], actions: 0 }
}

fn success(args: [u8; 11], actions: u32) -> Answer {
    Answer { code: SUCCESS, args, actions }
}

fn done(actions: u32) -> Answer {
    success([0; 11], actions)
}

/// Argument i as an 8-bit number.
fn arg8(regs: &[u8; 16], i: usize) -> u8 {
    regs[2 + i]
}

/// Arguments i and i + 1 as a 16-bit number.
fn arg16(regs: &[u8; 16], i: usize) -> u16 {
    u16::from_le_bytes([regs[2 + i], regs[3 + i]])
}

/// Arguments i to i + 3 as a 32-bit number.
fn arg32(regs: &[u8; 16], i: usize) -> u32 {
    u32::from_le_bytes([regs[2 + i], regs[3 + i], regs[4 + i], regs[5 + i]])
}

fn put16(args: &mut [u8; 11], i: usize, value: u16) {
    args[i..i + 2].copy_from_slice(&value.to_le_bytes());
}

fn put32(args: &mut [u8; 11], i: usize, value: u32) {
    args[i..i + 4].copy_from_slice(&value.to_le_bytes());
}

/// The registers after a command with this answer.
fn registers(regs: &[u8; 16], answer: &Answer, events: u8) -> [u8; 16] {
    let mut out = *regs;
    out[2..13].copy_from_slice(&answer.args);
    out[13] = answer.code;
    out[15] = events;
    out
}

/// One mailbox command: the registers afterwards and the chip actions done.
pub fn command(
    s: &mut Session,
    regs: [u8; 16],
    b: u16,
    t: u16,
    flash: &mut [u8],
    worn: &[u8],
    window: &mut [u8],
) -> ([u8; 16], u32) {
    if !sound_with_lpc(s, flash.len(), worn.len(), window.len(), b) {
        return (registers(&regs, &refused(SYSTEM_ERROR), s.events), 0);
    }
    let answer = match early_refusal(s, regs[0], regs[1]) {
        Some(code) => refused(code),
        None => serve(s, &regs, b, t, flash, worn, window),
    };
    s.previous = Some(regs[1]);
    (registers(&regs, &answer, s.events), answer.actions)
}

/// The refusals after SYSTEM_ERROR that do not look at arguments, in order.
fn early_refusal(s: &Session, code: u8, sequence: u8) -> Option<u8> {
    let old = s.version < 2;
    if code != GET_INFO && s.previous == Some(sequence) {
        return Some(if old { PARAM_ERROR } else { SEQ_ERROR });
    }
    if !known(s.version, code) {
        return Some(PARAM_ERROR);
    }
    if s.suspended && code != GET_INFO && code != ACK {
        return Some(if old { TIMEOUT } else { BUSY });
    }
    if needs_write_window(code) && s.kind != Kind::Write {
        return Some(if old { PARAM_ERROR } else { WINDOW_ERROR });
    }
    None
}

fn known(version: u8, code: u8) -> bool {
    match version {
        0 => code == RESET || code == GET_INFO || code == ACK,
        1 => (RESET..=ACK).contains(&code),
        _ => (RESET..=ERASE).contains(&code),
    }
}

fn needs_write_window(code: u8) -> bool {
    code == MARK_DIRTY || code == FLUSH || code == ERASE
}

/// A command that no early check refused.
fn serve(
    s: &mut Session,
    regs: &[u8; 16],
    b: u16,
    t: u16,
    flash: &mut [u8],
    worn: &[u8],
    window: &mut [u8],
) -> Answer {
    match regs[0] {
        RESET => reset(s),
        GET_INFO => get_info(s, regs, window.len() / BLOCK, t),
        GET_FLASH_INFO => get_flash_info(s.version, flash.len() / BLOCK),
        CREATE_READ => create(s, Kind::Read, regs, b, flash, worn, window),
        CLOSE => close(s, regs, flash, worn, window),
        CREATE_WRITE => create(s, Kind::Write, regs, b, flash, worn, window),
        MARK_DIRTY => mark_dirty(s, regs),
        FLUSH => flush_command(s, regs, flash, worn, window),
        ACK => ack(s, regs),
        _ => erase_command(s, regs, window),
    }
}

fn reset(s: &mut Session) -> Answer {
    s.drop_window();
    done(0)
}

fn get_info(s: &mut Session, regs: &[u8; 16], window_blocks: usize, t: u16) -> Answer {
    let highest = arg8(regs, 0);
    if highest == 0 {
        return refused(PARAM_ERROR);
    }
    s.version = highest.min(2);
    let mut args = [0; 11];
    args[0] = s.version;
    if s.version == 1 {
        put16(&mut args, 1, window_blocks as u16);
        put16(&mut args, 3, window_blocks as u16);
    } else {
        args[5] = SHIFT;
        put16(&mut args, 6, t);
    }
    success(args, 0)
}

fn get_flash_info(version: u8, flash_blocks: usize) -> Answer {
    let mut args = [0; 11];
    if version == 1 {
        put32(&mut args, 0, flash_blocks as u32 * BLOCK as u32);
        put32(&mut args, 4, BLOCK as u32);
    } else {
        put16(&mut args, 0, flash_blocks as u16);
        put16(&mut args, 2, 1);
    }
    success(args, 0)
}

/// Where the old window's flush fails, the create is refused for that, whatever
/// its own argument, and leaves no window all the same (ticket 8).
fn create(
    s: &mut Session,
    kind: Kind,
    regs: &[u8; 16],
    b: u16,
    flash: &mut [u8],
    worn: &[u8],
    window: &mut [u8],
) -> Answer {
    let flushed = flush(s, flash, worn, window);
    s.drop_window();
    if flushed.code != SUCCESS {
        return flushed;
    }
    let actions = flushed.actions;
    let first = usize::from(arg16(regs, 0));
    let flash_blocks = flash.len() / BLOCK;
    if first >= flash_blocks {
        return Answer { actions, ..refused(PARAM_ERROR) };
    }
    let hint = if s.version == 2 { arg16(regs, 2) } else { 0 };
    let size = window_size(window.len() / BLOCK, flash_blocks - first, hint);
    copy_in(first, size, flash, window);
    s.kind = kind;
    s.first = first as u16;
    s.size = size as u16;
    success(create_args(s, b), actions)
}

/// The smallest of C, S - o and, where it is not 0, the hint.
fn window_size(window_blocks: usize, left: usize, hint: u16) -> usize {
    let most = window_blocks.min(left);
    match hint {
        0 => most,
        n => most.min(usize::from(n)),
    }
}

fn copy_in(first: usize, size: usize, flash: &[u8], window: &mut [u8]) {
    let (from, len) = (first * BLOCK, size * BLOCK);
    window[..len].copy_from_slice(&flash[from..from + len]);
}

fn create_args(s: &Session, b: u16) -> [u8; 11] {
    let mut args = [0; 11];
    put16(&mut args, 0, b);
    if s.version == 2 {
        put16(&mut args, 2, s.size);
        put16(&mut args, 4, s.first);
    }
    args
}

/// From version 2 on the flags, argument 0, are 0 or 1, neither with an effect;
/// any other value is refused before the flush, window or not (ticket 7).
/// Version 1 has no flags and does not look at the byte. Where the flush fails,
/// the window stays (ticket 8).
fn close(
    s: &mut Session,
    regs: &[u8; 16],
    flash: &mut [u8],
    worn: &[u8],
    window: &[u8],
) -> Answer {
    if s.version >= 2 && arg8(regs, 0) > 1 {
        return refused(PARAM_ERROR);
    }
    let flushed = flush(s, flash, worn, window);
    if flushed.code == SUCCESS {
        s.drop_window();
    }
    flushed
}

/// Window blocks from `from` up to but without `to`.
#[derive(Clone, Copy)]
struct Range {
    from: usize,
    to: usize,
}

/// k blocks from window block w on; none if past the window's end.
fn window_range(s: &Session, w: u16, k: u16) -> Option<Range> {
    let from = usize::from(w);
    let to = from + usize::from(k);
    (to <= usize::from(s.size)).then_some(Range { from, to })
}

/// Version 2: w blocks into the window, k blocks; none if past its end.
fn range_in_blocks(s: &Session, regs: &[u8; 16]) -> Option<Range> {
    window_range(s, arg16(regs, 0), arg16(regs, 2))
}

/// Version 1: flash block a and L bytes, rounded up to blocks.
fn range_in_bytes(s: &Session, regs: &[u8; 16]) -> Option<Range> {
    let a = u64::from(arg16(regs, 0));
    let k = u64::from(arg32(regs, 2)).div_ceil(BLOCK as u64);
    let first = u64::from(s.first);
    let end = first + u64::from(s.size);
    let inside = first <= a && a + k <= end;
    inside.then(|| Range { from: (a - first) as usize, to: (a + k - first) as usize })
}

/// Marks these blocks, dirty, erased or clean. The latest mark counts, so the old
/// ones leave the kept numbers (ticket 2); the session being sound, they are in
/// them.
fn set_marks(s: &mut Session, range: Range, mark: u8) {
    let marks = &mut s.marks[range.from..range.to];
    s.dirty -= count(marks, DIRTY);
    s.erased -= count(marks, ERASED);
    marks.fill(mark);
    let blocks = marks.len() as u8;
    match mark {
        CLEAN => (),
        DIRTY => s.dirty += blocks,
        _ => s.erased += blocks,
    }
}

fn mark_dirty(s: &mut Session, regs: &[u8; 16]) -> Answer {
    let range = match s.version {
        1 => range_in_bytes(s, regs),
        _ => range_in_blocks(s, regs),
    };
    match range {
        None => refused(PARAM_ERROR),
        Some(range) => {
            set_marks(s, range, DIRTY);
            done(0)
        }
    }
}

/// What version 1 marks here stays marked on a failing block and behind it.
fn flush_command(
    s: &mut Session,
    regs: &[u8; 16],
    flash: &mut [u8],
    worn: &[u8],
    window: &[u8],
) -> Answer {
    if s.version == 1 && arg32(regs, 2) != 0 {
        match range_in_bytes(s, regs) {
            None => return refused(PARAM_ERROR),
            Some(range) => set_marks(s, range, DIRTY),
        }
    }
    flush(s, flash, worn, window)
}

/// Clears those of the bits 0x01 and 0x02 that argument 0 names (ticket 1).
fn ack(s: &mut Session, regs: &[u8; 16]) -> Answer {
    s.events &= !(arg8(regs, 0) & ACK_CLEARS);
    done(0)
}

fn erase_command(s: &mut Session, regs: &[u8; 16], window: &mut [u8]) -> Answer {
    match range_in_blocks(s, regs) {
        None => refused(PARAM_ERROR),
        Some(range) => {
            set_marks(s, range, ERASED);
            window[range.from * BLOCK..range.to * BLOCK].fill(0xFF);
            done(0)
        }
    }
}

// ---------------------------------------------------------- list of marks

/// Marks a list of pairs, window block and count, dirty at version 2 (ticket 4).
/// Answers the code, and the place (from 0) of the first bad pair where the last
/// check refuses. Every pair is checked before the first is marked, so a refusal
/// changes nothing. No sequence number is used or remembered. The buffers and the
/// map of worn blocks count by their lengths alone.
pub fn mark_list(
    s: &mut Session,
    flash_len: usize,
    worn_len: usize,
    window_len: usize,
    b: u16,
    list: &[u16],
) -> (u8, Option<usize>) {
    if !sound_with_lpc(s, flash_len, worn_len, window_len, b) {
        return (SYSTEM_ERROR, None);
    }
    if s.version != 2 {
        return (PARAM_ERROR, None);
    }
    if s.suspended {
        return (BUSY, None);
    }
    if s.kind != Kind::Write {
        return (WINDOW_ERROR, None);
    }
    if list.len() % 2 == 1 || list.len() > 2 * PAIRS {
        return (PARAM_ERROR, None);
    }
    let mut ranges = Vec::new();
    for (place, pair) in list.chunks(2).enumerate() {
        match window_range(s, pair[0], pair[1]) {
            None => return (PARAM_ERROR, Some(place)),
            Some(range) => ranges.push(range),
        }
    }
    for range in ranges {
        set_marks(s, range, DIRTY);
    }
    (SUCCESS, None)
}

// ------------------------------------------------------------------ bench

const BENCH_INPUT: usize = 16_384;
const BENCH_FLASH_BLOCKS: usize = 4;
/// The chip has no worn blocks (ticket 8).
const BENCH_WORN: [u8; BENCH_FLASH_BLOCKS] = [0; BENCH_FLASH_BLOCKS];
const BENCH_WINDOW_BLOCKS: usize = 2;
const BENCH_B: u16 = 16;
const BENCH_T: u16 = 8;

/// Reads the row of numbers.
struct Numbers<'a> {
    input: &'a [u8],
    at: usize,
}

impl Numbers<'_> {
    fn byte(&mut self) -> Option<u8> {
        let byte = *self.input.get(self.at)?;
        self.at += 1;
        Some(byte)
    }

    /// A number in its shortest form, below 2^32 and at most `most`.
    fn up_to(&mut self, most: u32) -> Option<u32> {
        let mut value = 0u64;
        for group in 0..5 {
            let byte = self.byte()?;
            value |= u64::from(byte & 0x7F) << (7 * group);
            if byte < 0x80 {
                let shortest = group == 0 || byte != 0;
                let small = value <= u64::from(most);
                return (shortest && small).then_some(value as u32);
            }
        }
        None
    }

    fn any(&mut self) -> Option<u32> {
        self.up_to(u32::MAX)
    }

    fn small(&mut self) -> Option<u8> {
        self.up_to(255).map(|value| value as u8)
    }
}

enum Record {
    Command([u8; 16]),
    Fill { offset: u32, count: u32, value: u8 },
    Suspend,
    Resume,
    ResumeChanged,
}

fn read_record(numbers: &mut Numbers) -> Option<Record> {
    match numbers.any()? {
        0 => read_command(numbers),
        1 => read_fill(numbers),
        2 => Some(Record::Suspend),
        3 => Some(Record::Resume),
        4 => Some(Record::ResumeChanged),
        _ => None,
    }
}

fn read_command(numbers: &mut Numbers) -> Option<Record> {
    let count = numbers.up_to(13)? as usize;
    let mut regs = [0; 16];
    for register in &mut regs[..count] {
        *register = numbers.small()?;
    }
    Some(Record::Command(regs))
}

fn read_fill(numbers: &mut Numbers) -> Option<Record> {
    let offset = numbers.any()?;
    let count = numbers.any()?;
    let value = numbers.small()?;
    Some(Record::Fill { offset, count, value })
}

/// The bench's board.
struct Board {
    session: Session,
    flash: Vec<u8>,
    window: Vec<u8>,
    out: Vec<u8>,
}

impl Board {
    fn new() -> Board {
        Board {
            session: Session::fresh(),
            flash: vec![0xFF; BENCH_FLASH_BLOCKS * BLOCK],
            window: vec![0; BENCH_WINDOW_BLOCKS * BLOCK],
            out: Vec::new(),
        }
    }

    fn line(&mut self, text: &str) {
        self.out.extend_from_slice(text.as_bytes());
        self.out.push(b'\n');
    }

    /// Does one record; none if it breaks a rule.
    fn apply(&mut self, record: Record) -> Option<()> {
        match record {
            Record::Command(regs) => self.command(regs),
            Record::Fill { offset, count, value } => self.fill(offset, count, value)?,
            Record::Suspend => {
                suspend(&mut self.session);
            }
            Record::Resume => {
                resume(&mut self.session);
            }
            Record::ResumeChanged => {
                resume_changed(&mut self.session);
            }
        }
        Some(())
    }

    fn command(&mut self, regs: [u8; 16]) {
        let (s, flash, window) = (&mut self.session, &mut self.flash, &mut self.window);
        let (after, _) = command(s, regs, BENCH_B, BENCH_T, flash, &BENCH_WORN, window);
        let hex: Vec<String> = after.iter().map(|byte| format!("{byte:02X}")).collect();
        self.line(&hex.join(" "));
    }

    /// The host writes into an active write window.
    fn fill(&mut self, offset: u32, count: u32, value: u8) -> Option<()> {
        let end = u64::from(offset) + u64::from(count);
        let bytes = u64::from(self.session.size) * BLOCK as u64;
        if self.session.kind != Kind::Write || end > bytes {
            return None;
        }
        self.window[offset as usize..end as usize].fill(value);
        Some(())
    }

    fn flash_line(&mut self) {
        let mut text = String::from("flash");
        for block in self.flash.chunks(BLOCK) {
            let count = block.iter().filter(|&&byte| byte != 0xFF).count();
            text.push_str(&format!(" {count}"));
        }
        self.line(&text);
    }
}

/// The bench program's standard output for this standard input.
pub fn bench(input: &[u8]) -> Vec<u8> {
    if input.len() > BENCH_INPUT {
        return b"too long\n".to_vec();
    }
    let mut board = Board::new();
    let mut numbers = Numbers { input, at: 0 };
    while numbers.at < input.len() {
        let start = numbers.at;
        if read_record(&mut numbers).and_then(|record| board.apply(record)).is_none() {
            board.line(&format!("bad input at {start}"));
            break;
        }
    }
    board.flash_line();
    board.out
}

#[cfg(test)]
mod tests {
    use super::*;

    // ------------------------------------------------------------- helpers

    const WORKED_INPUT: &str = "00 03 02 01 02 00 06 06 02 03 00 02 00 01 00 AC 02 A5 01 00 06 \
        07 03 00 00 02 00 00 06 07 04 00 00 01 00 00 02 08 04 00 02 08 05";
    const WORKED_OUTPUT: &str = "\
02 01 02 00 00 00 00 0C 08 00 00 00 00 01 00 81
06 02 10 00 01 00 03 00 00 00 00 00 00 01 00 81
07 03 00 00 00 00 00 00 00 00 00 00 00 02 00 81
07 04 00 00 00 00 00 00 00 00 00 00 00 01 00 81
08 04 00 00 00 00 00 00 00 00 00 00 00 08 00 81
08 05 00 00 00 00 00 00 00 00 00 00 00 01 00 81
flash 0 0 0 300
";
    const EMPTY_FLASH: &str = "flash 0 0 0 0\n";

    fn hex(text: &str) -> Vec<u8> {
        text.split_whitespace().map(|two| u8::from_str_radix(two, 16).unwrap()).collect()
    }

    fn bench_text(input: &[u8]) -> String {
        String::from_utf8(bench(input)).unwrap()
    }

    fn bench_hex(text: &str) -> String {
        bench_text(&hex(text))
    }

    /// A board of any size, for tests.
    #[derive(Clone, Debug, PartialEq, Eq)]
    struct Rig {
        s: Session,
        flash: Vec<u8>,
        worn: Vec<u8>,
        window: Vec<u8>,
        b: u16,
        t: u16,
        next: u8,
        actions: u32,
    }

    impl Rig {
        /// S = 4, C = 2, B = 16, T = 8, that version, flash and window patterned.
        fn new(version: u8) -> Rig {
            Rig::sized(version, 4, 2)
        }

        fn sized(version: u8, flash_blocks: usize, window_blocks: usize) -> Rig {
            Rig {
                s: Session { version, ..Session::fresh() },
                flash: pattern(flash_blocks * BLOCK, 1),
                worn: good_map(flash_blocks * BLOCK),
                window: pattern(window_blocks * BLOCK, 99),
                b: 16,
                t: 8,
                next: 1,
                actions: 0,
            }
        }

        /// With an open window.
        fn open(version: u8, kind: Kind, first: u16, size: u16) -> Rig {
            let mut rig = Rig::new(version);
            rig.s.kind = kind;
            rig.s.first = first;
            rig.s.size = size;
            copy_in(first.into(), size.into(), &rig.flash, &mut rig.window);
            rig
        }

        /// Sends registers as they are.
        fn raw(&mut self, regs: [u8; 16]) -> [u8; 16] {
            let (flash, window) = (&mut self.flash, &mut self.window);
            let (after, actions) =
                command(&mut self.s, regs, self.b, self.t, flash, &self.worn, window);
            self.actions = actions;
            after
        }

        /// Sends a command with a new sequence number.
        fn send(&mut self, code: u8, args: &[u8]) -> [u8; 16] {
            let sequence = self.next;
            self.next = self.next.wrapping_add(1);
            self.raw(regs(code, sequence, args))
        }

        /// As `send`, the response code alone.
        fn code(&mut self, code: u8, args: &[u8]) -> u8 {
            self.send(code, args)[13]
        }

        fn step(&mut self, done: u64) -> (u8, bool) {
            step(&self.s, &mut self.flash, &self.worn, &self.window, done)
        }

        fn list(&mut self, list: &[u16]) -> (u8, Option<usize>) {
            let [flash_len, worn_len, window_len] = self.lengths();
            mark_list(&mut self.s, flash_len, worn_len, window_len, self.b, list)
        }

        fn lengths(&self) -> [usize; 3] {
            [self.flash.len(), self.worn.len(), self.window.len()]
        }

        fn sound(&self) -> bool {
            let [flash_len, worn_len, window_len] = self.lengths();
            sound_with_lpc(&self.s, flash_len, worn_len, window_len, self.b)
        }
    }

    /// The map of a flash of so many bytes without worn blocks.
    fn good_map(flash_len: usize) -> Vec<u8> {
        vec![0; flash_len / BLOCK]
    }

    fn regs(code: u8, sequence: u8, args: &[u8]) -> [u8; 16] {
        let mut regs = [0; 16];
        regs[0] = code;
        regs[1] = sequence;
        regs[2..2 + args.len()].copy_from_slice(args);
        regs
    }

    /// Two 16-bit arguments.
    fn wk(w: u16, k: u16) -> Vec<u8> {
        [w.to_le_bytes(), k.to_le_bytes()].concat()
    }

    /// Version 1's flash block and length in bytes.
    fn al(a: u16, l: u32) -> Vec<u8> {
        let mut args = a.to_le_bytes().to_vec();
        args.extend_from_slice(&l.to_le_bytes());
        args
    }

    /// Bytes that differ from place to place.
    fn pattern(len: usize, seed: usize) -> Vec<u8> {
        (0..len).map(|i| ((i + seed) * 31 + (i / 251) * 7 + (i / BLOCK) * 13) as u8).collect()
    }

    fn block(bytes: &[u8], n: usize) -> &[u8] {
        &bytes[n * BLOCK..(n + 1) * BLOCK]
    }

    fn marks(rig: &Rig, n: usize) -> Vec<u8> {
        assert!(rig.s.marks[n..].iter().all(|&m| m == 0));
        rig.s.marks[..n].to_vec()
    }

    /// Marks 1 and marks 2, counted one by one over all 64.
    fn full_count(s: &Session) -> (u8, u8) {
        let mut counts = (0, 0);
        for mark in s.marks {
            match mark {
                1 => counts.0 += 1,
                2 => counts.1 += 1,
                _ => (),
            }
        }
        counts
    }

    /// Makes the kept numbers right.
    fn recount(s: &mut Session) {
        (s.dirty, s.erased) = full_count(s);
    }

    /// Sets one mark by hand; the kept numbers are right afterwards.
    fn put_mark(s: &mut Session, block: usize, mark: u8) {
        s.marks[block] = mark;
        recount(s);
    }

    /// Something done to a session by hand.
    type Change<'a> = &'a dyn Fn(&mut Session);

    /// Sends, expects this refusal, and that it changed only the previous number.
    fn refuses(rig: &mut Rig, code: u8, args: &[u8], answer: u8) {
        let mut before = rig.clone();
        let after = rig.send(code, args);
        let mut expected = regs(code, before.next, &[]);
        expected[13] = answer;
        expected[15] = before.s.events;
        assert_eq!(after, expected);
        before.s.previous = Some(before.next);
        before.next = before.next.wrapping_add(1);
        before.actions = 0;
        assert!(*rig == before, "a refusal changed something");
    }

    // -------------------------------------------------------- worked bench

    #[test]
    fn worked_bench() {
        assert_eq!(bench_hex(WORKED_INPUT), WORKED_OUTPUT);
    }

    // -------------------------------------------------------- the examples

    #[test]
    fn example_01_versions() {
        refuses(&mut Rig::new(2), GET_INFO, &[0], PARAM_ERROR);
        let mut rig = Rig::new(2);
        let after = rig.send(GET_INFO, &[1]);
        assert_eq!(after, [2, 1, 1, 2, 0, 2, 0, 0, 0, 0, 0, 0, 0, 1, 0, 0x81]);
        assert_eq!(rig.s.version, 1);
        let after = rig.send(GET_INFO, &[255]);
        assert_eq!(after, [2, 2, 2, 0, 0, 0, 0, 12, 8, 0, 0, 0, 0, 1, 0, 0x81]);
        assert_eq!(rig.s.version, 2);
    }

    #[test]
    fn example_02_create_near_the_end() {
        for code in [CREATE_READ, CREATE_WRITE] {
            let mut rig = Rig::new(2);
            let after = rig.send(code, &wk(3, 0));
            assert_eq!(after, [code, 1, 16, 0, 1, 0, 3, 0, 0, 0, 0, 0, 0, 1, 0, 0x81]);
            assert_eq!((rig.s.first, rig.s.size), (3, 1));
            let after = rig.send(code, &wk(4, 0));
            assert_eq!(after, [code, 2, 0, 0, 0, 0, 0, 0, 0, 0, 0, 0, 0, 2, 0, 0x81]);
            assert_eq!((rig.s.kind, rig.s.first, rig.s.size), (Kind::Closed, 0, 0));
        }
    }

    #[test]
    fn example_03_hints() {
        for (hint, size) in [(0, 2), (1, 1), (2, 2), (3, 2), (65_535, 2)] {
            let mut rig = Rig::new(2);
            let after = rig.send(CREATE_WRITE, &wk(0, hint));
            assert_eq!(&after[2..8], &[16, 0, size, 0, 0, 0]);
            assert_eq!(rig.s.size, size.into());
        }
    }

    #[test]
    fn example_04_whole_number_sum() {
        let mut rig = Rig::open(2, Kind::Write, 0, 2);
        refuses(&mut rig, MARK_DIRTY, &wk(65_535, 2), PARAM_ERROR);
        refuses(&mut rig, ERASE, &wk(65_535, 2), PARAM_ERROR);
        refuses(&mut rig, MARK_DIRTY, &wk(2, 65_535), PARAM_ERROR);
        refuses(&mut rig, MARK_DIRTY, &wk(65_535, 65_535), PARAM_ERROR);
    }

    #[test]
    fn example_05_nothing_to_mark() {
        for code in [MARK_DIRTY, ERASE] {
            let mut rig = Rig::open(2, Kind::Write, 0, 2);
            let before = rig.clone();
            assert_eq!(rig.code(code, &wk(2, 0)), SUCCESS);
            assert_eq!(rig.s.marks, before.s.marks);
            assert!(rig.window == before.window);
            refuses(&mut rig, code, &wk(3, 0), PARAM_ERROR);
        }
    }

    #[test]
    fn example_06_version_1_lengths() {
        let cases = [(4_096, vec![1, 0]), (4_097, vec![1, 1]), (8_192, vec![1, 1]), (1, vec![1, 0])];
        for (l, expected) in cases {
            let mut rig = Rig::open(1, Kind::Write, 1, 2);
            assert_eq!(rig.code(MARK_DIRTY, &al(1, l)), SUCCESS);
            assert_eq!(marks(&rig, 2), expected);
        }
        let mut rig = Rig::open(1, Kind::Write, 1, 2);
        refuses(&mut rig, MARK_DIRTY, &al(1, 8_193), PARAM_ERROR);
        refuses(&mut rig, MARK_DIRTY, &al(0, 1), PARAM_ERROR);
    }

    #[test]
    fn example_07_read_window() {
        for (version, code) in [(2, WINDOW_ERROR), (1, PARAM_ERROR)] {
            refuses(&mut Rig::open(version, Kind::Read, 0, 2), MARK_DIRTY, &wk(0, 1), code);
            refuses(&mut Rig::open(version, Kind::Read, 0, 2), FLUSH, &[], code);
            refuses(&mut Rig::new(version), MARK_DIRTY, &wk(0, 0), code);
            refuses(&mut Rig::new(version), FLUSH, &[], code);
        }
        refuses(&mut Rig::open(2, Kind::Read, 0, 2), ERASE, &wk(0, 1), WINDOW_ERROR);
        refuses(&mut Rig::new(2), ERASE, &wk(0, 1), WINDOW_ERROR);
    }

    #[test]
    fn example_08_latest_mark_counts() {
        for (codes, count) in [([ERASE, MARK_DIRTY], 17), ([MARK_DIRTY, ERASE], 1)] {
            let mut rig = Rig::open(2, Kind::Write, 0, 2);
            for code in codes {
                assert_eq!(rig.code(code, &wk(1, 1)), SUCCESS);
                assert_eq!(rig.actions, 0);
            }
            assert_eq!(flush_actions(&rig.s), count);
            assert_eq!(rig.code(FLUSH, &[]), SUCCESS);
            assert_eq!(rig.actions, count);
            assert_eq!(flush_actions(&rig.s), 0);
        }
    }

    #[test]
    fn example_09_states_between() {
        let mut rig = Rig::open(2, Kind::Write, 2, 2);
        let old = rig.flash.clone();
        rig.window = pattern(2 * BLOCK, 7);
        let new = block(&rig.window, 1).to_vec();
        put_mark(&mut rig.s, 1, DIRTY);
        let mut states = vec![block(&rig.flash, 3).to_vec()];
        for j in 0..17 {
            assert_eq!(rig.step(j), (SUCCESS, true));
            states.push(block(&rig.flash, 3).to_vec());
        }
        assert!(states[0] == block(&old, 3));
        assert!(states[1] == vec![0xFF; BLOCK]);
        assert!(states[2][..PAGE] == new[..PAGE]);
        assert!(states[2][PAGE..].iter().all(|&byte| byte == 0xFF));
        assert!(states[17] == new);
        assert_eq!(rig.step(17), (SUCCESS, false));
        assert!(rig.flash[..3 * BLOCK] == old[..3 * BLOCK]);
        assert!(block(&rig.flash, 3) == new);
    }

    #[test]
    fn example_10_suspended_flush() {
        for (version, code) in [(2, 6), (1, 5)] {
            let mut rig = Rig::open(version, Kind::Write, 0, 2);
            put_mark(&mut rig.s, 0, DIRTY);
            assert!(suspend(&mut rig.s));
            refuses(&mut rig, FLUSH, &[], code);
        }
    }

    #[test]
    fn example_11_repeated_sequence() {
        for (version, code) in [(2, 8), (1, 2), (0, 2)] {
            let mut rig = Rig::new(version);
            assert_eq!(rig.raw(regs(ACK, 9, &[0]))[13], SUCCESS);
            assert_eq!(rig.raw(regs(ACK, 9, &[0xFF]))[13], code);
            assert_eq!(rig.s.events, 0x81);
            assert_eq!(rig.raw(regs(GET_INFO, 9, &[2]))[13], SUCCESS);
            assert_eq!(rig.s.previous, Some(9));
        }
    }

    #[test]
    fn example_12_bitwise_and() {
        let mut page = [0xF0, 0xFF];
        program(&mut page, &[0x0F, 0xF0]);
        assert_eq!(page, [0x00, 0xF0]);
        let mut rig = Rig::open(2, Kind::Write, 0, 1);
        put_mark(&mut rig.s, 0, DIRTY);
        (rig.flash[0], rig.flash[1]) = (0xF0, 0xFF);
        (rig.window[0], rig.window[1]) = (0x0F, 0xF0);
        assert_eq!(rig.step(1), (SUCCESS, true));
        assert_eq!(rig.flash[..2], [0x00, 0xF0]);
    }

    #[test]
    fn largest_flash_at_version_1() {
        let mut rig = Rig::new(1);
        rig.flash = vec![0; 65_535 * BLOCK];
        rig.worn = good_map(rig.flash.len());
        let after = rig.send(GET_FLASH_INFO, &[]);
        assert_eq!(&after[2..13], &hex("00 F0 FF 0F 00 10 00 00 00 00 00")[..]);
        assert_eq!(after[13], SUCCESS);
        rig.s.version = 2;
        let after = rig.send(GET_FLASH_INFO, &[]);
        assert_eq!(&after[2..13], &hex("FF FF 01 00 00 00 00 00 00 00 00")[..]);
        let after = rig.send(CREATE_READ, &wk(65_534, 0));
        assert_eq!(&after[2..9], &hex("10 00 01 00 FE FF 00")[..]);
        assert_eq!(rig.code(CREATE_READ, &wk(65_535, 0)), PARAM_ERROR);
        assert_eq!(rig.s.kind, Kind::Closed);
    }

    // ---------------------------------------------------- order of refusals

    #[test]
    fn order_system_error_first() {
        let mut rig = Rig::new(2);
        rig.s.previous = Some(5);
        assert!(suspend(&mut rig.s));
        put_mark(&mut rig.s, 0, DIRTY);
        for code in [GET_INFO, 200, MARK_DIRTY] {
            let before = rig.clone();
            let mut sent = [0xAB; 16];
            sent[0] = code;
            sent[1] = 5;
            let after = rig.raw(sent);
            let mut expected = regs(code, 5, &[]);
            expected[13] = SYSTEM_ERROR;
            expected[14] = 0xAB;
            expected[15] = 0xC1;
            assert_eq!(after, expected);
            assert!(rig == before);
        }
    }

    #[test]
    fn order_sequence_before_unknown() {
        for (version, sequence_code) in [(2, 8), (1, 2), (0, 2)] {
            let mut rig = Rig::new(version);
            assert!(suspend(&mut rig.s));
            rig.s.previous = Some(5);
            assert_eq!(rig.raw(regs(11, 5, &[]))[13], sequence_code);
            assert_eq!(rig.raw(regs(0, 5, &[]))[13], sequence_code);
        }
    }

    #[test]
    fn order_unknown_before_suspended() {
        let unknown = [(2, vec![0, 11, 255]), (1, vec![0, 10, 11]), (0, vec![0, 3, 4, 5, 6, 7, 8, 10])];
        for (version, codes) in unknown {
            for code in codes {
                let mut rig = Rig::open(version, Kind::Read, 0, 1);
                assert!(suspend(&mut rig.s));
                refuses(&mut rig, code, &[1, 1, 1], PARAM_ERROR);
            }
        }
    }

    #[test]
    fn order_suspended_before_window_and_arguments() {
        for (version, busy) in [(2, 6), (1, 5)] {
            let mut rig = Rig::open(version, Kind::Read, 0, 2);
            assert!(suspend(&mut rig.s));
            refuses(&mut rig, MARK_DIRTY, &wk(9, 9), busy);
            refuses(&mut rig, CREATE_READ, &wk(4, 0), busy);
            refuses(&mut rig, CLOSE, &[], busy);
            refuses(&mut rig, GET_FLASH_INFO, &[], busy);
        }
    }

    #[test]
    fn order_window_before_arguments() {
        let mut rig = Rig::open(2, Kind::Read, 0, 2);
        refuses(&mut rig, MARK_DIRTY, &wk(9, 9), WINDOW_ERROR);
        refuses(&mut rig, ERASE, &wk(9, 9), WINDOW_ERROR);
    }

    #[test]
    fn get_info_is_refused_for_its_argument_while_suspended() {
        let mut rig = Rig::new(1);
        assert!(suspend(&mut rig.s));
        rig.s.previous = Some(rig.next);
        refuses(&mut rig, GET_INFO, &[0], PARAM_ERROR);
    }

    // ----------------------------------------------------------------- cuts

    /// What the first j actions make of the flash, by arithmetic over bytes.
    fn flash_after(rig: &Rig, j: usize) -> Vec<u8> {
        let mut flash = rig.flash.clone();
        let mut before = 0;
        for n in 0..usize::from(rig.s.size) {
            let total = [0, 17, 1][usize::from(rig.s.marks[n])];
            let own = j.saturating_sub(before).min(total);
            before += total;
            for i in 0..BLOCK {
                let at = (usize::from(rig.s.first) + n) * BLOCK + i;
                if own >= 1 {
                    flash[at] = 0xFF;
                }
                if own >= 2 + i / PAGE {
                    flash[at] = rig.window[n * BLOCK + i];
                }
            }
        }
        flash
    }

    /// S = 6, C = 4, a write window of 4 blocks at 1, the host wrote everywhere.
    fn cut_rig(marks: [u8; 4]) -> Rig {
        let mut rig = Rig::sized(2, 6, 4);
        assert_eq!(rig.code(CREATE_WRITE, &wk(1, 4)), SUCCESS);
        host_work(&mut rig, marks);
        rig
    }

    fn host_work(rig: &mut Rig, marks: [u8; 4]) {
        for (n, mark) in marks.into_iter().enumerate() {
            let code = [ACK, MARK_DIRTY, ERASE][usize::from(mark)];
            let args = if mark == CLEAN { vec![0] } else { wk(n as u16, 1) };
            assert_eq!(rig.code(code, &args), SUCCESS);
        }
        rig.window = pattern(4 * BLOCK, 177);
    }

    fn all_marks() -> Vec<[u8; 4]> {
        (0..81).map(|n| [n % 3, n / 3 % 3, n / 9 % 3, n / 27]).collect()
    }

    #[test]
    fn every_cut_of_a_small_window() {
        for marks in [[1, 0, 2, 1], [2, 1, 0, 2], [1, 1, 1, 1], [0, 0, 0, 0], [2, 2, 2, 2]] {
            let start = cut_rig(marks);
            let total = flush_actions(&start.s) as usize;
            let mut rig = start.clone();
            for j in 0..total {
                assert!(rig.flash == flash_after(&start, j));
                assert_eq!(rig.step(j as u64), (SUCCESS, true));
            }
            for past in [total as u64, total as u64 + 1, u64::MAX] {
                assert_eq!(rig.step(past), (SUCCESS, false));
            }
            assert!(rig.flash == flash_after(&start, total));
            assert!(rig.s == start.s && rig.window == start.window);
        }
    }

    #[test]
    fn steps_make_what_flush_makes() {
        for marks in all_marks() {
            let start = cut_rig(marks);
            let mut stepped = start.clone();
            let mut count = 0;
            while stepped.step(count).1 {
                count += 1;
            }
            let mut flushed = start.clone();
            assert_eq!(flushed.code(FLUSH, &[]), SUCCESS);
            assert_eq!(u64::from(flushed.actions), count);
            assert_eq!(flush_actions(&start.s), flushed.actions);
            assert!(flushed.flash == stepped.flash && flushed.window == start.window);
            assert_eq!(flushed.s.marks, [0; 64]);
            assert_eq!((flushed.s.kind, flushed.s.first, flushed.s.size), (Kind::Write, 1, 4));
        }
    }

    #[test]
    fn second_run_after_every_cut() {
        let marks = [1, 2, 0, 1];
        let start = cut_rig(marks);
        let total = flush_actions(&start.s);
        let mut never_stopped = start.clone();
        assert_eq!(never_stopped.code(FLUSH, &[]), SUCCESS);
        let mut cut = start.clone();
        for j in 0..=u64::from(total) {
            let mut again = Rig::sized(0, 6, 4);
            again.flash = cut.flash.clone();
            assert_eq!(again.code(GET_INFO, &[2]), SUCCESS);
            assert_eq!(again.code(CREATE_WRITE, &wk(1, 4)), SUCCESS);
            host_work(&mut again, marks);
            assert_eq!(again.code(FLUSH, &[]), SUCCESS);
            assert_eq!(again.actions, total);
            assert!(again.flash == never_stopped.flash);
            cut.step(j);
        }
    }

    #[test]
    fn most_actions() {
        let mut rig = Rig::sized(2, 64, 64);
        assert_eq!(rig.code(CREATE_WRITE, &wk(0, 0)), SUCCESS);
        rig.window = pattern(64 * BLOCK, 5);
        assert_eq!(rig.code(MARK_DIRTY, &wk(0, 64)), SUCCESS);
        assert_eq!(flush_actions(&rig.s), 1_088);
        assert_eq!(rig.code(FLUSH, &[]), SUCCESS);
        assert_eq!(rig.actions, 1_088);
        assert!(rig.flash == rig.window);
    }

    #[test]
    fn step_refusals() {
        let start = cut_rig([1, 2, 0, 1]);
        for version in 0..=2 {
            let mut rig = start.clone();
            rig.s.version = version;
            assert!(suspend(&mut rig.s));
            assert_eq!(rig.step(0), (BUSY, false));
            assert_eq!(rig.step(u64::MAX), (BUSY, false));
            assert!(rig.flash == start.flash);
            assert!(resume(&mut rig.s));
            assert_eq!(rig.step(0), (SUCCESS, true));
        }
        let mut rig = start.clone();
        rig.s.version = 3;
        assert!(suspend(&mut rig.s));
        assert_eq!(rig.step(0), (SYSTEM_ERROR, false));
        assert_eq!(step(&start.s, &mut [], &[], &[], 0), (SYSTEM_ERROR, false));
        let mut flash = start.flash.clone();
        let shorter = &start.window[1..];
        assert_eq!(step(&start.s, &mut flash, &start.worn, shorter, 0), (SYSTEM_ERROR, false));
        assert!(flash == start.flash);
    }

    #[test]
    fn step_without_a_write_window_has_nothing_to_do() {
        assert_eq!(Rig::new(2).step(0), (SUCCESS, false));
        assert_eq!(Rig::open(2, Kind::Read, 0, 2).step(0), (SUCCESS, false));
    }

    // ------------------------------------- QUESTIONS.md, more than one reading

    #[test]
    fn question_2_nothing_at_the_windows_end_at_version_1() {
        let mut rig = Rig::open(1, Kind::Write, 1, 2);
        for a in [1, 2, 3] {
            assert_eq!(rig.code(MARK_DIRTY, &al(a, 0)), SUCCESS);
        }
        assert_eq!(rig.s.marks, [0; 64]);
        refuses(&mut rig, MARK_DIRTY, &al(4, 0), PARAM_ERROR);
        refuses(&mut rig, MARK_DIRTY, &al(0, 0), PARAM_ERROR);
    }

    #[test]
    fn question_3_dropping_an_unsound_window() {
        let mut s = Session {
            version: 77,
            previous: Some(3),
            events: 0x40,
            suspended: true,
            kind: Kind::Closed,
            first: 9,
            size: 999,
            marks: [200; 64],
            dirty: 64,
            erased: 255,
        };
        assert!(resume_changed(&mut s));
        let expected =
            Session { version: 77, previous: Some(3), events: 0x02, ..Session::fresh() };
        assert_eq!(s, expected);
        assert!(!resume_changed(&mut s));
        assert_eq!(s, expected);
    }

    #[test]
    fn question_4_version_0_with_a_window() {
        let mut rig = Rig::open(0, Kind::Write, 0, 2);
        put_mark(&mut rig.s, 0, DIRTY);
        assert!(rig.sound());
        refuses(&mut rig, FLUSH, &[], PARAM_ERROR);
        refuses(&mut rig, CLOSE, &[], PARAM_ERROR);
        assert_eq!(rig.step(0), (SUCCESS, true));
    }

    #[test]
    fn question_6_silent_records_and_fills() {
        assert_eq!(bench_hex("02 02 03 03 04 02 04"), EMPTY_FLASH);
        assert_eq!(bench_hex("01 00 00 00"), "bad input at 0\nflash 0 0 0 0\n");
        let open = "00 03 02 01 02 00 06 06 02 03 00 02 00 ";
        let ends = |rest: &str| bench_hex(&(open.to_owned() + rest));
        assert!(ends("01 00 00 00").ends_with("81\nflash 0 0 0 0\n"));
        assert!(ends("02 01 80 20 00 00 01 00 80 20 00").ends_with("81\nflash 0 0 0 0\n"));
        assert!(ends("01 81 20 00 00").ends_with("81\nbad input at 13\nflash 0 0 0 0\n"));
        let read = bench_hex("00 03 02 01 02 00 06 04 02 03 00 02 00 01 00 00 00");
        assert!(read.ends_with("81\nbad input at 13\nflash 0 0 0 0\n"));
    }

    // ---------------------- QUESTIONS.md, decided by the text, easily got wrong

    #[test]
    fn repeated_unknown_while_suspended_is_a_sequence_error() {
        let mut rig = Rig::new(2);
        assert!(suspend(&mut rig.s));
        rig.s.previous = Some(7);
        let after = rig.raw(regs(99, 7, &[1, 2, 3]));
        assert_eq!(after, [99, 7, 0, 0, 0, 0, 0, 0, 0, 0, 0, 0, 0, 8, 0, 0xC1]);
    }

    #[test]
    fn only_get_info_is_free_from_the_sequence_check() {
        for code in [RESET, ACK] {
            let mut rig = Rig::open(2, Kind::Write, 0, 2);
            rig.s.previous = Some(rig.next);
            refuses(&mut rig, code, &[0xFF], SEQ_ERROR);
        }
    }

    #[test]
    fn reset_while_suspended_is_refused() {
        for (version, code) in [(2, 6), (1, 5), (0, 5)] {
            let mut rig = Rig::open(version, Kind::Write, 0, 2);
            assert!(suspend(&mut rig.s));
            refuses(&mut rig, RESET, &[], code);
        }
    }

    #[test]
    fn reset_drops_without_a_flush() {
        for version in 0..=2 {
            let mut rig = Rig::open(version, Kind::Write, 1, 2);
            put_mark(&mut rig.s, 1, DIRTY);
            let before = rig.clone();
            let after = rig.send(RESET, &[5; 11]);
            assert_eq!(after, [1, 1, 0, 0, 0, 0, 0, 0, 0, 0, 0, 0, 0, 1, 0, 0x81]);
            let expected = Session { version, previous: Some(1), ..Session::fresh() };
            assert_eq!((rig.s.clone(), rig.actions), (expected, 0));
            assert!(rig.flash == before.flash && rig.window == before.window);
        }
    }

    #[test]
    fn system_error_is_4_at_every_version() {
        for version in 0..=3 {
            let mut rig = Rig::new(version);
            rig.s.size = 1;
            rig.s.previous = Some(1);
            rig.s.events = 0x9A;
            let before = rig.clone();
            let mut sent = [0xEE; 16];
            sent[1] = 1;
            let mut expected = [0; 16];
            (expected[0], expected[1]) = (0xEE, 1);
            (expected[13], expected[14], expected[15]) = (4, 0xEE, 0x9A);
            assert_eq!(rig.raw(sent), expected);
            assert!(rig == before);
        }
    }

    #[test]
    fn bytes_14_and_15() {
        let mut rig = Rig::new(2);
        let mut sent = regs(ACK, 1, &[0x01]);
        sent[13] = 0x77;
        sent[14] = 0xA1;
        sent[15] = 0xB2;
        let after = rig.raw(sent);
        assert_eq!(&after[13..], &[1, 0xA1, 0x80]);
    }

    #[test]
    fn every_answered_command_sets_the_previous_number() {
        let mut rig = Rig::new(0);
        assert_eq!(rig.raw(regs(ACK, 0, &[0]))[13], SUCCESS);
        assert_eq!(rig.s.previous, Some(0));
        assert_eq!(rig.raw(regs(CLOSE, 1, &[]))[13], PARAM_ERROR);
        assert_eq!(rig.s.previous, Some(1));
        assert_eq!(rig.raw(regs(ACK, 1, &[0]))[13], PARAM_ERROR);
        assert_eq!(rig.s.previous, Some(1));
        assert_eq!(rig.raw(regs(GET_INFO, 2, &[0]))[13], PARAM_ERROR);
        assert_eq!(rig.s.previous, Some(2));
        rig.flash.push(0);
        assert_eq!(rig.raw(regs(ACK, 3, &[0]))[13], SYSTEM_ERROR);
        assert_eq!(rig.s.previous, Some(2));
    }

    #[test]
    fn get_info_zero_leaves_the_version() {
        for version in 0..=2 {
            refuses(&mut Rig::new(version), GET_INFO, &[0, 2], PARAM_ERROR);
        }
    }

    #[test]
    fn get_info_keeps_window_and_marks() {
        let mut rig = Rig::open(2, Kind::Write, 1, 2);
        assert_eq!(rig.code(ERASE, &wk(1, 1)), SUCCESS);
        let before = rig.clone();
        let after = rig.send(GET_INFO, &[1]);
        assert_eq!(&after[2..13], &[1, 2, 0, 2, 0, 0, 0, 0, 0, 0, 0]);
        assert_eq!(marks(&rig, 2), [0, 2]);
        assert_eq!((rig.s.kind, rig.s.first, rig.s.size), (Kind::Write, 1, 2));
        assert_eq!(rig.code(FLUSH, &al(9, 0)), SUCCESS);
        assert_eq!(rig.actions, 1);
        assert!(block(&rig.flash, 2) == vec![0xFF; BLOCK]);
        assert!(block(&rig.flash, 1) == block(&before.flash, 1));
    }

    #[test]
    fn create_flushes_before_it_copies() {
        let mut rig = Rig::open(2, Kind::Write, 0, 2);
        rig.window = pattern(2 * BLOCK, 55);
        let host = rig.window.clone();
        let before = rig.clone();
        assert_eq!(rig.code(MARK_DIRTY, &wk(1, 1)), SUCCESS);
        let after = rig.send(CREATE_READ, &wk(1, 0));
        assert_eq!(&after[2..8], &[16, 0, 2, 0, 1, 0]);
        assert_eq!(rig.actions, 17);
        assert!(block(&rig.flash, 1) == block(&host, 1));
        assert!(block(&rig.window, 0) == block(&host, 1));
        assert!(block(&rig.window, 1) == block(&before.flash, 2));
        assert_eq!((rig.s.kind, rig.s.marks), (Kind::Read, [0; 64]));
    }

    #[test]
    fn create_leaves_the_rest_of_window_memory() {
        let mut rig = Rig::new(2);
        let before = rig.clone();
        assert_eq!(rig.code(CREATE_WRITE, &wk(2, 1)), SUCCESS);
        assert!(block(&rig.window, 0) == block(&before.flash, 2));
        assert!(block(&rig.window, 1) == block(&before.window, 1));
        assert!(rig.flash == before.flash);
    }

    #[test]
    fn create_refused_for_its_argument_has_flushed() {
        let mut rig = Rig::open(2, Kind::Write, 0, 2);
        rig.window = pattern(2 * BLOCK, 55);
        assert_eq!(rig.code(ERASE, &wk(0, 1)), SUCCESS);
        assert_eq!(rig.code(MARK_DIRTY, &wk(1, 1)), SUCCESS);
        let before = rig.clone();
        let after = rig.send(CREATE_WRITE, &wk(4, 1));
        assert_eq!(after, [6, 3, 0, 0, 0, 0, 0, 0, 0, 0, 0, 0, 0, 2, 0, 0x81]);
        assert_eq!(rig.actions, 18);
        assert!(block(&rig.flash, 0) == vec![0xFF; BLOCK]);
        assert!(block(&rig.flash, 1) == block(&before.window, 1));
        assert!(rig.window == before.window);
        assert_eq!(rig.s, Session { version: 2, previous: Some(3), ..Session::fresh() });
    }

    #[test]
    fn create_refused_for_its_argument_drops_a_read_window() {
        for version in 1..=2 {
            let mut rig = Rig::open(version, Kind::Read, 0, 2);
            let before = rig.clone();
            assert_eq!(rig.code(CREATE_READ, &wk(65_535, 0)), PARAM_ERROR);
            assert_eq!(rig.s, Session { version, previous: Some(1), ..Session::fresh() });
            assert!(rig.flash == before.flash && rig.window == before.window);
        }
    }

    #[test]
    fn create_refused_earlier_keeps_everything() {
        let mut rig = Rig::open(2, Kind::Write, 0, 2);
        put_mark(&mut rig.s, 0, DIRTY);
        rig.window = pattern(2 * BLOCK, 55);
        rig.s.previous = Some(rig.next);
        refuses(&mut rig, CREATE_WRITE, &wk(4, 0), SEQ_ERROR);
        assert!(suspend(&mut rig.s));
        refuses(&mut rig, CREATE_WRITE, &wk(4, 0), BUSY);
        rig.s.version = 0;
        refuses(&mut rig, CREATE_WRITE, &wk(4, 0), PARAM_ERROR);
    }

    #[test]
    fn create_at_version_1_has_no_hint() {
        for hint in [0, 1, 65_535] {
            let mut rig = Rig::new(1);
            let after = rig.send(CREATE_WRITE, &wk(1, hint));
            assert_eq!(after, [6, 1, 16, 0, 0, 0, 0, 0, 0, 0, 0, 0, 0, 1, 0, 0x81]);
            assert_eq!((rig.s.first, rig.s.size), (1, 2));
        }
    }

    #[test]
    fn flush_at_version_1() {
        let mut rig = Rig::open(1, Kind::Write, 1, 2);
        rig.window = pattern(2 * BLOCK, 55);
        put_mark(&mut rig.s, 0, ERASED);
        refuses(&mut rig, FLUSH, &al(0, 1), PARAM_ERROR);
        refuses(&mut rig, FLUSH, &al(3, 1), PARAM_ERROR);
        refuses(&mut rig, FLUSH, &al(2, 4_097), PARAM_ERROR);
        let mut marked = rig.clone();
        assert_eq!(marked.code(FLUSH, &al(2, 1)), SUCCESS);
        assert_eq!(marked.actions, 18);
        assert!(block(&marked.flash, 2) == block(&rig.window, 1));
        assert_eq!(marked.s.marks, [0; 64]);
        for a in [0, 1, 3, 4, 65_535] {
            let mut unmarked = rig.clone();
            assert_eq!(unmarked.code(FLUSH, &al(a, 0)), SUCCESS);
            assert_eq!(unmarked.actions, 1);
            assert!(block(&unmarked.flash, 2) == block(&rig.flash, 2));
        }
    }

    #[test]
    fn flush_at_version_2_has_no_arguments() {
        let mut rig = Rig::open(2, Kind::Write, 1, 2);
        let before = rig.clone();
        assert_eq!(rig.code(FLUSH, &[0xFF; 11]), SUCCESS);
        assert_eq!(rig.actions, 0);
        assert!(rig.flash == before.flash);
    }

    #[test]
    fn version_1_lengths_to_the_largest() {
        let mut rig = Rig::open(1, Kind::Write, 1, 2);
        for l in [u32::MAX, u32::MAX - 4_094, 0xFFFF_F000, 0x1000_0000, 65_536 * 4_096 - 4_096] {
            for a in [1, 2, 65_535] {
                refuses(&mut rig, MARK_DIRTY, &al(a, l), PARAM_ERROR);
                refuses(&mut rig, FLUSH, &al(a, l), PARAM_ERROR);
            }
        }
    }

    #[test]
    fn nothing_to_mark_is_still_checked() {
        for size in 1..=2 {
            let mut rig = Rig::open(2, Kind::Write, 0, size);
            assert_eq!(rig.code(MARK_DIRTY, &wk(size, 0)), SUCCESS);
            refuses(&mut rig, MARK_DIRTY, &wk(size + 1, 0), PARAM_ERROR);
            refuses(&mut rig, MARK_DIRTY, &wk(65_535, 0), PARAM_ERROR);
        }
    }

    #[test]
    fn flush_takes_window_memory_as_it_is() {
        let mut rig = Rig::sized(2, 4, 3);
        assert_eq!(rig.code(CREATE_WRITE, &wk(1, 0)), SUCCESS);
        assert_eq!(rig.code(MARK_DIRTY, &wk(0, 1)), SUCCESS);
        assert_eq!(rig.code(ERASE, &wk(1, 1)), SUCCESS);
        assert!(block(&rig.window, 1) == vec![0xFF; BLOCK]);
        let before = rig.clone();
        rig.window = pattern(3 * BLOCK, 200);
        assert_eq!(rig.code(FLUSH, &[]), SUCCESS);
        assert_eq!(rig.actions, 18);
        assert!(block(&rig.flash, 0) == block(&before.flash, 0));
        assert!(block(&rig.flash, 1) == block(&rig.window, 0));
        assert!(block(&rig.flash, 2) == vec![0xFF; BLOCK]);
        assert!(block(&rig.flash, 3) == block(&before.flash, 3));
    }

    #[test]
    fn close_flushes_and_drops() {
        let mut rig = Rig::open(2, Kind::Write, 1, 2);
        rig.window = pattern(2 * BLOCK, 55);
        put_mark(&mut rig.s, 1, DIRTY);
        assert_eq!(rig.code(CLOSE, &[1]), SUCCESS);
        assert_eq!(rig.actions, 17);
        assert!(block(&rig.flash, 2) == block(&rig.window, 1));
        assert_eq!(rig.s, Session { version: 2, previous: Some(1), ..Session::fresh() });
        let before = rig.clone();
        assert_eq!(rig.code(CLOSE, &[]), SUCCESS);
        assert_eq!(rig.actions, 0);
        assert!(rig.flash == before.flash && rig.window == before.window);
    }

    #[test]
    fn suspend_and_resume_go_by_the_suspension() {
        let mut s = Session { events: 0x40, ..Session::fresh() };
        let before = s.clone();
        assert!(!resume(&mut s));
        assert!(!resume_changed(&mut s));
        assert_eq!(s, before);
        assert!(suspend(&mut s));
        assert_eq!((s.suspended, s.events), (true, 0x40));
        assert!(!suspend(&mut s));
        assert!(resume(&mut s));
        assert_eq!((s.suspended, s.events), (false, 0));
    }

    #[test]
    fn resume_keeps_the_window_unless_the_flash_changed() {
        let mut rig = Rig::open(2, Kind::Write, 1, 2);
        put_mark(&mut rig.s, 1, ERASED);
        let before = rig.s.clone();
        assert!(suspend(&mut rig.s));
        assert!(resume(&mut rig.s));
        assert_eq!(rig.s, before);
        assert!(suspend(&mut rig.s));
        assert!(resume_changed(&mut rig.s));
        assert_eq!(rig.s, Session { version: 2, events: 0x83, ..Session::fresh() });
    }

    #[test]
    fn lent_sizes() {
        let s = Session::fresh();
        let good = |flash_len, window_len, b| {
            sound_with_lpc(&s, flash_len, flash_len / BLOCK, window_len, b)
        };
        assert!(good(BLOCK, BLOCK, 0));
        assert!(good(65_535 * BLOCK, 64 * BLOCK, 0));
        assert!(good(BLOCK, BLOCK, 65_535));
        assert!(good(BLOCK, 64 * BLOCK, 65_472));
        assert!(!good(BLOCK, 2 * BLOCK, 65_535));
        assert!(!good(BLOCK, 64 * BLOCK, 65_473));
        assert!(!good(0, BLOCK, 0));
        assert!(!good(BLOCK, 0, 0));
        assert!(!good(BLOCK + 1, BLOCK, 0));
        assert!(!good(BLOCK, BLOCK - 1, 0));
        assert!(!good(BLOCK, 64 * BLOCK + 1, 0));
        assert!(!good(65_536 * BLOCK, BLOCK, 0));
        assert!(!good(BLOCK, 65 * BLOCK, 0));
        assert!(sound(&s, BLOCK, 1, 64 * BLOCK));
    }

    #[test]
    fn lent_sizes_answer_system_error() {
        for (flash_len, window_len, b) in
            [(0, BLOCK, 0), (BLOCK, 0, 0), (0, 0, 0), (100, BLOCK, 0), (BLOCK, 2 * BLOCK, 65_535)]
        {
            let mut rig = Rig::new(2);
            rig.flash.truncate(flash_len);
            rig.worn = good_map(flash_len);
            rig.window.truncate(window_len);
            rig.b = b;
            let before = rig.clone();
            let after = rig.raw(regs(GET_INFO, 3, &[2]));
            assert_eq!(after, [2, 3, 0, 0, 0, 0, 0, 0, 0, 0, 0, 0, 0, 4, 0, 0x81]);
            assert!(rig == before);
        }
    }

    #[test]
    fn unsound_sessions() {
        let base = Rig::open(2, Kind::Write, 2, 2).s;
        let is_sound = |s: &Session| sound(s, 4 * BLOCK, 4, 2 * BLOCK);
        assert!(is_sound(&base));
        let with = |change: &dyn Fn(&mut Session)| {
            let mut s = base.clone();
            change(&mut s);
            recount(&mut s);
            is_sound(&s)
        };
        assert!(with(&|s| s.marks = { let mut m = [0; 64]; m[0] = 1; m[1] = 2; m }));
        assert!(!with(&|s| s.version = 3));
        assert!(!with(&|s| s.first = 3));
        assert!(!with(&|s| s.first = 65_535));
        assert!(!with(&|s| s.size = 0));
        assert!(!with(&|s| { s.first = 0; s.size = 3 }));
        assert!(!with(&|s| s.marks[2] = 1));
        assert!(!with(&|s| s.marks[63] = 2));
        assert!(!with(&|s| s.marks[0] = 3));
        assert!(!with(&|s| { s.kind = Kind::Read; s.marks[0] = 1 }));
        assert!(with(&|s| s.kind = Kind::Read));
        assert!(!with(&|s| s.kind = Kind::Closed));
        assert!(!with(&|s| { s.kind = Kind::Closed; s.first = 0 }));
        assert!(!with(&|s| { s.kind = Kind::Closed; s.size = 0 }));
        assert!(with(&|s| { s.kind = Kind::Closed; s.size = 0; s.first = 0 }));
        assert!(!with(&|s| { s.kind = Kind::Closed; s.size = 0; s.first = 0; s.marks[0] = 1 }));
        assert!(!with(&|s| s.events |= 0x40));
        assert!(!with(&|s| s.suspended = true));
        assert!(with(&|s| { s.events |= 0x40; s.suspended = true }));
        assert!(with(&|s| s.events = 0));
        assert!(with(&|s| s.events = 0xBF));
    }

    // --------------------------------------------------------- 02, ticket 1

    /// The event byte after an ACK, bit by bit.
    fn after_ack(events: u8, mask: u8) -> u8 {
        let stays = |bit: &u8| {
            let named = mask >> bit & 1 == 1;
            let an_event = *bit == 0 || *bit == 1;
            events >> bit & 1 == 1 && !(named && an_event)
        };
        (0..8).filter(stays).map(|bit| 1 << bit).sum()
    }

    /// A write window with marks, that event byte and suspension.
    fn with_events(version: u8, events: u8, suspended: bool) -> Rig {
        let mut rig = Rig::open(version, Kind::Write, 1, 2);
        rig.window = pattern(2 * BLOCK, 55);
        put_mark(&mut rig.s, 0, DIRTY);
        put_mark(&mut rig.s, 1, ERASED);
        rig.s.events = events;
        rig.s.suspended = suspended;
        rig
    }

    /// Bit 0x40 without suspension, and suspension without bit 0x40.
    const DISAGREEING: [(u8, bool); 6] =
        [(0xC1, false), (0x40, false), (0xFF, false), (0x81, true), (0x00, true), (0xBF, true)];

    #[test]
    fn ticket_1_case() {
        for version in 0..=2 {
            let mut rig = Rig::new(version);
            rig.s.events = 0x83;
            let after = rig.send(ACK, &[0xFF]);
            assert_eq!(after, [9, 1, 0, 0, 0, 0, 0, 0, 0, 0, 0, 0, 0, 1, 0, 0x80]);
            let expected =
                Session { version, previous: Some(1), events: 0x80, ..Session::fresh() };
            assert_eq!(rig.s, expected);
        }
    }

    #[test]
    fn ack_every_event_byte_and_argument() {
        for version in 0..=2 {
            let mut rig = with_events(version, 0, false);
            let before = rig.clone();
            for events in 0..=255u8 {
                for mask in 0..=255 {
                    rig.s.events = events;
                    rig.s.suspended = events / 0x40 % 2 == 1;
                    let mut expected = rig.s.clone();
                    expected.previous = Some(rig.next);
                    expected.events = after_ack(events, mask);
                    let mut answer = regs(ACK, rig.next, &[]);
                    (answer[13], answer[15]) = (SUCCESS, expected.events);
                    assert_eq!(rig.send(ACK, &[mask, 0xFF, 0xFF]), answer);
                    assert_eq!((&rig.s, rig.actions), (&expected, 0));
                }
            }
            assert!(rig.flash == before.flash && rig.window == before.window);
        }
    }

    #[test]
    fn ack_leaves_the_suspension_and_its_bit() {
        for (version, busy) in [(2, 6), (1, 5), (0, 5)] {
            let mut rig = Rig::new(version);
            assert!(suspend(&mut rig.s));
            assert_eq!(rig.send(ACK, &[0xC0])[15], 0xC1);
            assert_eq!(rig.send(ACK, &[0xFF])[15], 0xC0);
            assert!(rig.s.suspended);
            assert!(!suspend(&mut rig.s));
            refuses(&mut rig, RESET, &[], busy);
            assert!(resume(&mut rig.s));
            assert_eq!(rig.send(ACK, &[0xFF])[15], 0x80);
            assert_eq!(rig.code(RESET, &[]), SUCCESS);
        }
    }

    #[test]
    fn flash_lost_tells_the_suspension_in_a_sound_session() {
        for version in 0..=2 {
            for kind in [Kind::Closed, Kind::Read, Kind::Write] {
                let size = if kind == Kind::Closed { 0 } else { 2 };
                for events in 0..=255 {
                    let lost = events / 0x40 % 2 == 1;
                    for suspended in [false, true] {
                        let s = Session {
                            version,
                            events,
                            suspended,
                            kind,
                            size,
                            ..Session::fresh()
                        };
                        let good = lost == suspended;
                        assert_eq!(sound(&s, 4 * BLOCK, 4, 2 * BLOCK), good);
                        assert_eq!(sound_with_lpc(&s, 4 * BLOCK, 4, 2 * BLOCK, 16), good);
                    }
                }
            }
        }
    }

    #[test]
    fn disagreement_is_system_error_for_every_command() {
        for version in 0..=2 {
            for (events, suspended) in DISAGREEING {
                let mut rig = with_events(version, events, suspended);
                rig.s.previous = Some(4);
                let before = rig.clone();
                for code in 0..=255 {
                    for sequence in [4, 5] {
                        let mut sent = [0xAB; 16];
                        (sent[0], sent[1]) = (code, sequence);
                        let mut expected = regs(code, sequence, &[]);
                        (expected[13], expected[14], expected[15]) = (4, 0xAB, events);
                        assert_eq!(rig.raw(sent), expected);
                        assert!(rig == before, "SYSTEM_ERROR changed something");
                    }
                }
            }
        }
    }

    #[test]
    fn order_disagreement_before_everything_else() {
        for (version, repeated, busy) in [(2, 8, 6), (1, 2, 5), (0, 2, 5)] {
            for code in [RESET, CREATE_WRITE, MARK_DIRTY, FLUSH, ACK, ERASE, 0, 99] {
                let mut rig = with_events(version, 0x81, true);
                rig.s.previous = Some(7);
                assert_eq!(rig.raw(regs(code, 7, &[0xFF; 11]))[13], SYSTEM_ERROR);
                assert_eq!(rig.s.previous, Some(7));
                rig.s.events = 0xC1;
                assert_eq!(rig.raw(regs(code, 7, &[0xFF; 11]))[13], repeated);
            }
            let mut rig = with_events(version, 0x81, true);
            assert_eq!(rig.raw(regs(99, 7, &[]))[13], SYSTEM_ERROR);
            assert_eq!(rig.raw(regs(RESET, 7, &[]))[13], SYSTEM_ERROR);
            assert_eq!(rig.raw(regs(GET_INFO, 7, &[0]))[13], SYSTEM_ERROR);
            rig.s.events = 0xC1;
            refuses(&mut rig, 99, &[], PARAM_ERROR);
            refuses(&mut rig, RESET, &[], busy);
            refuses(&mut rig, GET_INFO, &[0], PARAM_ERROR);
        }
    }

    #[test]
    fn disagreement_is_4_for_every_step() {
        for version in 0..=2 {
            for (events, suspended) in DISAGREEING {
                let mut rig = with_events(version, events, suspended);
                let before = rig.clone();
                for done in [0, 1, 16, 17, 18, 19, u64::MAX] {
                    assert_eq!(rig.step(done), (SYSTEM_ERROR, false));
                    assert!(rig == before);
                }
                rig.s.events ^= 0x40;
                let (code, did) = if suspended { (BUSY, false) } else { (SUCCESS, true) };
                assert_eq!(rig.step(0), (code, did));
                assert_eq!(rig.flash != before.flash, did);
                assert_eq!(rig.step(18), (code, false));
            }
        }
    }

    /// They go by the suspension, so a yes always makes the bit agree with it.
    #[test]
    fn suspend_and_resume_on_any_event_byte() {
        for version in [0, 1, 2, 77] {
            for events in 0..=255 {
                for suspended in [false, true] {
                    let start = marked_session(version, events, suspended);
                    let mut s = start.clone();
                    assert_eq!(suspend(&mut s), !suspended);
                    let lost = if suspended { events } else { events | 0x40 };
                    assert_eq!(s, Session { events: lost, suspended: true, ..start.clone() });
                    let mut s = start.clone();
                    assert_eq!(resume(&mut s), suspended);
                    let back = if suspended { events & 0xBF } else { events };
                    assert_eq!(s, Session { events: back, suspended: false, ..start.clone() });
                    let mut s = start.clone();
                    assert_eq!(resume_changed(&mut s), suspended);
                    let mut expected = start.clone();
                    if suspended {
                        let events = events & 0xBF | 0x02;
                        expected = Session { version, events, ..Session::fresh() };
                    }
                    assert_eq!(s, expected);
                }
            }
        }
    }

    fn marked_session(version: u8, events: u8, suspended: bool) -> Session {
        let (marks, dirty) = ([DIRTY; 64], 64);
        let (kind, first, size) = (Kind::Write, 1, 64);
        Session { version, events, suspended, kind, first, size, marks, dirty, ..Session::fresh() }
    }

    #[test]
    fn ticket_1_at_the_bench() {
        let line = |sequence: &str, events: &str| {
            format!("09 {sequence} 00 00 00 00 00 00 00 00 00 00 00 01 00 {events}\n")
        };
        let changed = bench_hex("02 04 00 03 09 01 00 00 03 09 02 FF 01");
        assert_eq!(changed, line("01", "83") + &line("02", "80") + EMPTY_FLASH);
        let suspended = bench_hex("02 00 03 09 01 FF 01 03 00 03 09 02 FF 01");
        assert_eq!(suspended, line("01", "C0") + &line("02", "80") + EMPTY_FLASH);
        let named = bench_hex("02 04 00 03 09 01 02 00 03 09 02 01");
        assert_eq!(named, line("01", "81") + &line("02", "80") + EMPTY_FLASH);
    }

    // --------------------------------------------------------- 02, ticket 7

    /// Without a window, with a read window, and with a marked write window.
    fn to_be_closed(version: u8) -> [Rig; 3] {
        let read = Rig::open(version, Kind::Read, 1, 2);
        [Rig::new(version), read, with_events(version, 0x81, false)]
    }

    #[test]
    fn close_flags_above_1_are_refused_at_version_2() {
        for mut rig in to_be_closed(2) {
            for flags in 2..=255 {
                refuses(&mut rig, CLOSE, &[flags], PARAM_ERROR);
                refuses(&mut rig, CLOSE, &[flags; 11], PARAM_ERROR);
            }
        }
    }

    /// 0 and 1 at version 2, any flags at version 1; no other argument counts.
    #[test]
    fn close_flags_allowed_have_no_effect() {
        for (version, most) in [(2, 1), (1, 255)] {
            for before in to_be_closed(version) {
                let mut plain = before.clone();
                let answer = plain.send(CLOSE, &[]);
                assert_eq!(answer[13], SUCCESS);
                assert_eq!(plain.actions, flush_actions(&before.s));
                assert_eq!(plain.flash != before.flash, plain.actions > 0);
                assert_eq!(plain.s.kind, Kind::Closed);
                for flags in 0..=most {
                    for rest in [0, 0xFF] {
                        let mut args = [rest; 11];
                        args[0] = flags;
                        let mut rig = before.clone();
                        assert_eq!(rig.send(CLOSE, &args), answer);
                        assert!(rig == plain);
                    }
                }
            }
        }
    }

    #[test]
    fn close_flags_are_looked_at_last() {
        for mut rig in to_be_closed(2) {
            rig.s.events = 0xC1;
            rig.s.previous = Some(7);
            assert_eq!(rig.raw(regs(CLOSE, 7, &[2]))[13], SYSTEM_ERROR);
            assert_eq!(rig.raw(regs(CLOSE, 8, &[2]))[13], SYSTEM_ERROR);
            assert_eq!(rig.s.previous, Some(7));
            rig.s.suspended = true;
            assert_eq!(rig.raw(regs(CLOSE, 7, &[2]))[13], SEQ_ERROR);
            refuses(&mut rig, CLOSE, &[2], BUSY);
            assert!(resume(&mut rig.s));
            refuses(&mut rig, CLOSE, &[2], PARAM_ERROR);
            let refused = rig.next.wrapping_sub(1);
            assert_eq!(rig.raw(regs(CLOSE, refused, &[0]))[13], SEQ_ERROR);
            assert_eq!(rig.code(CLOSE, &[0]), SUCCESS);
        }
    }

    /// The refused close keeps the fill and the mark; the next one flushes them.
    #[test]
    fn ticket_7_at_the_bench() {
        let text = bench_hex(
            "00 03 02 01 02 00 03 06 02 03 01 00 AC 02 A5 01 00 05 07 03 00 00 01 \
             00 03 05 04 03 00 03 05 05 01 00 03 05 06 02",
        );
        let lines = "\
02 01 02 00 00 00 00 0C 08 00 00 00 00 01 00 81
06 02 10 00 01 00 03 00 00 00 00 00 00 01 00 81
07 03 00 00 00 00 00 00 00 00 00 00 00 01 00 81
05 04 00 00 00 00 00 00 00 00 00 00 00 02 00 81
05 05 00 00 00 00 00 00 00 00 00 00 00 01 00 81
05 06 00 00 00 00 00 00 00 00 00 00 00 02 00 81
flash 0 0 0 300
";
        assert_eq!(text, lines);
    }

    // --------------------------------------------------------- 02, ticket 2

    /// The kept numbers are a full count, and `pending` answers by 17 and 1.
    fn pending_is_right(s: &Session) {
        let (dirty, erased) = full_count(s);
        assert_eq!((s.dirty, s.erased), (dirty, erased));
        let (dirty, erased) = (u32::from(dirty), u32::from(erased));
        assert_eq!(pending(s), Some((dirty + erased, dirty * 17 + erased)));
    }

    /// S = 6, C = 4, a write window of 4 blocks at 1: dirty, clean, erased, dirty.
    fn pending_rig(version: u8) -> Rig {
        let mut rig = cut_rig([1, 0, 2, 1]);
        rig.s.version = version;
        assert_eq!((rig.s.dirty, rig.s.erased), (2, 1));
        rig
    }

    /// Kept numbers for `pending_rig` that are not (2, 1).
    const WRONG: [(u8, u8); 10] = [
        (1, 1), (3, 1), (2, 0), (2, 2), (1, 2), (3, 0), (0, 0), (255, 1), (2, 255), (255, 255),
    ];

    #[test]
    fn pending_of_a_fresh_session() {
        let s = Session::fresh();
        assert_eq!((s.dirty, s.erased), (0, 0));
        assert_eq!(pending(&s), Some((0, 0)));
    }

    #[test]
    fn pending_takes_the_latest_mark() {
        let (d, e) = (MARK_DIRTY, ERASE);
        let cases: [(&[u8], _, _); 6] = [
            (&[d], (1, 0), (1, 17)),
            (&[e], (0, 1), (1, 1)),
            (&[d, e], (0, 1), (1, 1)),
            (&[e, d], (1, 0), (1, 17)),
            (&[d, d], (1, 0), (1, 17)),
            (&[e, d, e, e], (0, 1), (1, 1)),
        ];
        for (codes, numbers, told) in cases {
            let mut rig = Rig::open(2, Kind::Write, 0, 2);
            for &code in codes {
                assert_eq!(rig.code(code, &wk(1, 1)), SUCCESS);
            }
            assert_eq!((rig.s.dirty, rig.s.erased), numbers);
            assert_eq!(pending(&rig.s), Some(told));
            assert_eq!(rig.code(FLUSH, &[]), SUCCESS);
            assert_eq!(rig.actions, told.1);
            assert_eq!(pending(&rig.s), Some((0, 0)));
        }
    }

    /// Every command with every range over every row of marks, refused ones too.
    #[test]
    fn pending_after_every_range() {
        for marks in all_marks() {
            let start = cut_rig(marks);
            for code in [MARK_DIRTY, ERASE] {
                for (w, k) in (0..36).map(|n| (n % 6, n / 6)) {
                    let mut rig = start.clone();
                    let good = w + k <= 4;
                    assert_eq!(rig.code(code, &wk(w, k)) == SUCCESS, good);
                    pending_is_right(&rig.s);
                    if !good || k == 0 {
                        assert_eq!(pending(&rig.s), pending(&start.s));
                    }
                }
            }
        }
    }

    #[test]
    fn most_pending() {
        let mut rig = Rig::sized(2, 64, 64);
        assert_eq!(rig.code(CREATE_WRITE, &wk(0, 0)), SUCCESS);
        for (code, numbers, told) in [
            (MARK_DIRTY, (64, 0), (64, 1_088)),
            (ERASE, (0, 64), (64, 64)),
            (MARK_DIRTY, (64, 0), (64, 1_088)),
        ] {
            assert_eq!(rig.code(code, &wk(0, 64)), SUCCESS);
            assert_eq!((rig.s.dirty, rig.s.erased), numbers);
            assert_eq!(pending(&rig.s), Some(told));
            assert_eq!(rig.code(code, &wk(64, 0)), SUCCESS);
            assert_eq!(pending(&rig.s), Some(told));
        }
        assert_eq!(rig.code(CLOSE, &[]), SUCCESS);
        assert_eq!((rig.actions, pending(&rig.s)), (1_088, Some((0, 0))));
    }

    #[test]
    fn pending_at_version_1() {
        let mut rig = Rig::open(1, Kind::Write, 1, 2);
        assert_eq!(rig.code(MARK_DIRTY, &al(1, 0)), SUCCESS);
        assert_eq!(pending(&rig.s), Some((0, 0)));
        assert_eq!(rig.code(MARK_DIRTY, &al(1, 4_096)), SUCCESS);
        assert_eq!(pending(&rig.s), Some((1, 17)));
        refuses(&mut rig, MARK_DIRTY, &al(1, 8_193), PARAM_ERROR);
        refuses(&mut rig, FLUSH, &al(2, 4_097), PARAM_ERROR);
        assert_eq!(rig.code(MARK_DIRTY, &al(1, 4_097)), SUCCESS);
        assert_eq!(pending(&rig.s), Some((2, 34)));
        assert_eq!(rig.code(FLUSH, &al(9, 0)), SUCCESS);
        assert_eq!((rig.actions, rig.s.dirty, rig.s.erased), (34, 0, 0));
        put_mark(&mut rig.s, 0, ERASED);
        assert_eq!(rig.code(FLUSH, &al(1, 1)), SUCCESS);
        assert_eq!((rig.actions, rig.s.dirty, rig.s.erased), (17, 0, 0));
    }

    /// Of all pairs of kept numbers only the right one is answered.
    #[test]
    fn pending_is_unsound_for_any_other_number() {
        let mut s = pending_rig(2).s;
        for dirty in 0..=255 {
            for erased in 0..=255 {
                (s.dirty, s.erased) = (dirty, erased);
                let right = (dirty, erased) == (2, 1);
                assert_eq!(pending(&s), right.then_some((3, 35)));
                assert_eq!(sound(&s, 6 * BLOCK, 6, 4 * BLOCK), right);
                assert_eq!(sound_with_lpc(&s, 6 * BLOCK, 6, 4 * BLOCK, 16), right);
            }
        }
    }

    /// `pending` looks at nothing but marks and kept numbers.
    #[test]
    fn pending_answers_other_unsound_records() {
        let changes: [(Change, (u32, u32)); 9] = [
            (&|s| s.version = 7, (3, 35)),
            (&|s| s.events ^= 0x40, (3, 35)),
            (&|s| s.kind = Kind::Read, (3, 35)),
            (&|s| s.kind = Kind::Closed, (3, 35)),
            (&|s| s.size = 1, (3, 35)),
            (&|s| (s.first, s.size) = (65_535, 65_535), (3, 35)),
            (&|s| put_mark(s, 63, DIRTY), (4, 52)),
            (&|s| put_mark(s, 4, ERASED), (4, 36)),
            (&|s| put_mark(s, 1, 9), (3, 35)),
        ];
        for (change, told) in changes {
            let mut s = pending_rig(2).s;
            change(&mut s);
            assert!(!sound(&s, 6 * BLOCK, 6, 4 * BLOCK));
            assert_eq!(pending(&s), Some(told));
            s.erased -= 1;
            assert_eq!(pending(&s), None);
            s.erased += 2;
            assert_eq!(pending(&s), None);
        }
        let mut s = pending_rig(2).s;
        s.marks[63] = DIRTY;
        assert_eq!(pending(&s), None);
        s.marks = [255; 64];
        assert_eq!(pending(&s), None);
        (s.dirty, s.erased) = (0, 0);
        assert_eq!(pending(&s), Some((0, 0)));
    }

    #[test]
    fn wrong_numbers_are_system_error_for_every_command() {
        for version in 0..=2 {
            for numbers in WRONG {
                let mut rig = pending_rig(version);
                (rig.s.dirty, rig.s.erased) = numbers;
                rig.s.previous = Some(4);
                let before = rig.clone();
                for code in 0..=255 {
                    for sequence in [4, 5] {
                        let mut sent = [0xAB; 16];
                        (sent[0], sent[1]) = (code, sequence);
                        let mut expected = regs(code, sequence, &[]);
                        (expected[13], expected[14], expected[15]) = (4, 0xAB, 0x81);
                        assert_eq!(rig.raw(sent), expected);
                    }
                }
                assert!(rig == before, "SYSTEM_ERROR changed something");
            }
        }
    }

    /// Without a window too, where both are 0.
    #[test]
    fn wrong_numbers_without_marks() {
        for kind in [Kind::Closed, Kind::Read, Kind::Write] {
            let size = if kind == Kind::Closed { 0 } else { 2 };
            for (dirty, erased) in [(1, 0), (0, 1), (64, 0), (255, 255)] {
                let mut rig = Rig::open(2, kind, 0, size);
                assert_eq!(rig.step(0), (SUCCESS, false));
                (rig.s.dirty, rig.s.erased) = (dirty, erased);
                assert_eq!(rig.code(RESET, &[]), SYSTEM_ERROR);
                assert_eq!((rig.s.dirty, rig.s.erased), (dirty, erased));
                assert_eq!(rig.step(0), (SYSTEM_ERROR, false));
                assert_eq!(pending(&rig.s), None);
            }
        }
    }

    #[test]
    fn order_wrong_numbers_before_everything_else() {
        for (version, repeated, busy) in [(2, 8, 6), (1, 2, 5), (0, 2, 5)] {
            let mut rig = pending_rig(version);
            assert!(suspend(&mut rig.s));
            rig.s.previous = Some(7);
            rig.s.erased = 0;
            for code in [RESET, GET_INFO, CREATE_READ, CLOSE, FLUSH, ACK, 99] {
                assert_eq!(rig.raw(regs(code, 7, &[]))[13], SYSTEM_ERROR);
                assert_eq!(rig.raw(regs(code, 8, &[]))[13], SYSTEM_ERROR);
            }
            rig.s.erased = 1;
            assert_eq!(rig.raw(regs(99, 7, &[]))[13], repeated);
            refuses(&mut rig, 99, &[], PARAM_ERROR);
            refuses(&mut rig, RESET, &[], busy);
        }
    }

    #[test]
    fn wrong_numbers_are_4_for_every_step() {
        for version in 0..=2 {
            for numbers in WRONG {
                let mut rig = pending_rig(version);
                (rig.s.dirty, rig.s.erased) = numbers;
                let before = rig.clone();
                for done in [0, 1, 17, 18, 34, 35, 36, u64::MAX] {
                    assert_eq!(rig.step(done), (SYSTEM_ERROR, false));
                }
                assert!(rig == before);
                assert!(suspend(&mut rig.s));
                assert_eq!(rig.step(0), (SYSTEM_ERROR, false));
                recount(&mut rig.s);
                assert_eq!(rig.step(0), (BUSY, false));
            }
        }
    }

    /// Steps change the flash, never the marks: as much stays pending.
    #[test]
    fn steps_keep_what_is_pending() {
        let mut rig = pending_rig(2);
        let before = rig.s.clone();
        for done in 0..36 {
            assert_eq!(rig.step(done), (SUCCESS, done < 35));
            assert_eq!((&rig.s, pending(&rig.s)), (&before, Some((3, 35))));
        }
    }

    /// Whatever drops or flushes the marks, a refused create too, leaves 0 and 0.
    #[test]
    fn numbers_are_0_where_marks_are_dropped() {
        let commands = [
            (RESET, vec![], SUCCESS, 0),
            (CREATE_READ, wk(0, 0), SUCCESS, 35),
            (CREATE_WRITE, wk(1, 4), SUCCESS, 35),
            (CREATE_READ, wk(6, 0), PARAM_ERROR, 35),
            (CREATE_WRITE, wk(65_535, 1), PARAM_ERROR, 35),
            (CLOSE, vec![], SUCCESS, 35),
            (FLUSH, vec![], SUCCESS, 35),
        ];
        for version in 1..=2 {
            for (code, args, answer, actions) in &commands {
                let mut rig = pending_rig(version);
                assert_eq!(pending(&rig.s), Some((3, 35)));
                assert_eq!(rig.code(*code, args), *answer);
                assert_eq!(rig.actions, *actions);
                assert_eq!((rig.s.marks, rig.s.dirty, rig.s.erased), ([0; 64], 0, 0));
                assert_eq!(pending(&rig.s), Some((0, 0)));
                assert_eq!(rig.code(ACK, &[0]), SUCCESS);
            }
        }
        let mut rig = pending_rig(0);
        assert_eq!(rig.code(RESET, &[]), SUCCESS);
        assert_eq!((rig.s.dirty, rig.s.erased), (0, 0));
    }

    #[test]
    fn other_commands_keep_the_numbers() {
        for version in 0..=2 {
            for highest in [1, 2, 255] {
                let mut rig = pending_rig(version);
                assert_eq!(rig.code(GET_INFO, &[highest]), SUCCESS);
                assert_eq!((rig.s.dirty, rig.s.erased), (2, 1));
                assert_eq!(rig.code(GET_FLASH_INFO, &[]), SUCCESS);
                assert_eq!(rig.code(ACK, &[0xFF]), SUCCESS);
                assert_eq!(pending(&rig.s), Some((3, 35)));
            }
            let mut rig = pending_rig(version);
            refuses(&mut rig, GET_INFO, &[0], PARAM_ERROR);
            refuses(&mut rig, 99, &[], PARAM_ERROR);
            assert!(suspend(&mut rig.s));
            let busy = if version == 2 { BUSY } else { TIMEOUT };
            refuses(&mut rig, RESET, &[], busy);
            assert_eq!(rig.code(GET_INFO, &[2]), SUCCESS);
            assert_eq!(pending(&rig.s), Some((3, 35)));
            assert!(resume(&mut rig.s));
            assert_eq!(pending(&rig.s), Some((3, 35)));
        }
        let mut rig = pending_rig(2);
        refuses(&mut rig, CLOSE, &[2], PARAM_ERROR);
        refuses(&mut rig, ERASE, &wk(3, 2), PARAM_ERROR);
        pending_is_right(&rig.s);
    }

    /// They act on any record: the drop makes wrong numbers 0, nothing else does.
    #[test]
    fn suspend_and_resume_on_wrong_numbers() {
        for (dirty, erased) in WRONG {
            for version in [2, 7] {
                let mut start = pending_rig(version).s;
                (start.dirty, start.erased) = (dirty, erased);
                let mut s = start.clone();
                assert!(!resume(&mut s) && !resume_changed(&mut s));
                assert_eq!(s, start);
                assert!(suspend(&mut s));
                assert!(!suspend(&mut s));
                assert_eq!((s.marks, s.dirty, s.erased), (start.marks, dirty, erased));
                let mut same = s.clone();
                assert!(resume(&mut same));
                assert_eq!(same, start);
                assert!(resume_changed(&mut s));
                assert_eq!((s.marks, s.dirty, s.erased), ([0; 64], 0, 0));
                assert_eq!(pending(&s), Some((0, 0)));
            }
        }
    }

    // --------------------------------------------------------- 02, ticket 4

    /// Calls, expects this refusal, and that it changed nothing at all.
    fn list_refuses(rig: &mut Rig, list: &[u16], code: u8, place: Option<usize>) {
        let before = rig.clone();
        assert_eq!(rig.list(list), (code, place));
        assert!(*rig == before, "a refusal changed something");
    }

    /// Calls, expects success and these first marks, the kept numbers right and
    /// nothing else changed.
    fn list_marks(rig: &mut Rig, list: &[u16], expected: &[u8]) {
        let mut before = rig.clone();
        assert_eq!(rig.list(list), (SUCCESS, None));
        assert_eq!(marks(rig, expected.len()), expected);
        pending_is_right(&rig.s);
        before.s.marks = rig.s.marks;
        recount(&mut before.s);
        assert!(*rig == before, "more than the marks changed");
    }

    /// S = C = 64 and a write window of all of them, no marks.
    fn wide_rig() -> Rig {
        let mut rig = Rig::sized(2, 64, 64);
        (rig.s.kind, rig.s.size) = (Kind::Write, 64);
        rig
    }

    /// That many pairs of one block each, from block 0 on and round again.
    fn single_blocks(pairs: usize) -> Vec<u16> {
        (0..pairs).flat_map(|n| [(n % 64) as u16, 1]).collect()
    }

    #[test]
    fn list_marks_every_pair() {
        list_marks(&mut cut_rig([0; 4]), &[1, 2], &[0, 1, 1, 0]);
        list_marks(&mut cut_rig([0; 4]), &[3, 1, 0, 1], &[1, 0, 0, 1]);
        list_marks(&mut cut_rig([0; 4]), &[0, 4], &[1, 1, 1, 1]);
        list_marks(&mut cut_rig([1, 0, 2, 1]), &[1, 1], &[1, 1, 2, 1]);
        list_marks(&mut cut_rig([2, 2, 2, 2]), &[2, 0, 1, 1], &[2, 1, 2, 2]);
    }

    #[test]
    fn list_empty_succeeds_and_marks_nothing() {
        for marks in all_marks() {
            list_marks(&mut cut_rig(marks), &[], &marks);
        }
        list_marks(&mut wide_rig(), &[], &[0; 64]);
    }

    /// The refusals that do not look at the list come to an empty one too.
    #[test]
    fn list_empty_is_refused_for_the_session() {
        list_refuses(&mut Rig { b: 65_535, ..pending_rig(2) }, &[], SYSTEM_ERROR, None);
        list_refuses(&mut pending_rig(0), &[], PARAM_ERROR, None);
        list_refuses(&mut pending_rig(1), &[], PARAM_ERROR, None);
        let mut rig = pending_rig(2);
        assert!(suspend(&mut rig.s));
        list_refuses(&mut rig, &[], BUSY, None);
        list_refuses(&mut Rig::new(2), &[], WINDOW_ERROR, None);
        list_refuses(&mut Rig::open(2, Kind::Read, 0, 2), &[], WINDOW_ERROR, None);
    }

    #[test]
    fn list_order_system_error_before_version() {
        for version in [0, 1] {
            let mut rig = pending_rig(version);
            rig.b = 65_533;
            list_refuses(&mut rig, &[0, 1], SYSTEM_ERROR, None);
            rig.b = 65_532;
            list_refuses(&mut rig, &[0, 1], PARAM_ERROR, None);
            rig.s.dirty = 3;
            list_refuses(&mut rig, &[0, 1], SYSTEM_ERROR, None);
        }
        list_refuses(&mut pending_rig(3), &[0, 1], SYSTEM_ERROR, None);
        list_refuses(&mut pending_rig(255), &[0, 1], SYSTEM_ERROR, None);
    }

    #[test]
    fn list_order_version_before_suspended() {
        for version in [0, 1] {
            let mut rig = pending_rig(version);
            assert!(suspend(&mut rig.s));
            list_refuses(&mut rig, &[0, 1], PARAM_ERROR, None);
            rig.s.version = 2;
            list_refuses(&mut rig, &[0, 1], BUSY, None);
        }
    }

    #[test]
    fn list_order_suspended_before_window() {
        for mut rig in [Rig::new(2), Rig::open(2, Kind::Read, 0, 2)] {
            assert!(suspend(&mut rig.s));
            list_refuses(&mut rig, &[0, 1], BUSY, None);
            assert!(resume(&mut rig.s));
            list_refuses(&mut rig, &[0, 1], WINDOW_ERROR, None);
        }
    }

    #[test]
    fn list_order_window_before_length() {
        for mut rig in [Rig::new(2), Rig::open(2, Kind::Read, 0, 2)] {
            for list in [vec![0], vec![0, 1, 0], vec![0; 129], vec![0; 130]] {
                list_refuses(&mut rig, &list, WINDOW_ERROR, None);
                let mut open = Rig::open(2, Kind::Write, 0, 2);
                list_refuses(&mut open, &list, PARAM_ERROR, None);
            }
        }
    }

    /// Bad from the first pair on, and no place is named until the length is good.
    #[test]
    fn list_order_length_before_pairs() {
        let mut rig = pending_rig(2);
        for length in [1, 3, 127, 129, 130, 131, 132, 1_000] {
            list_refuses(&mut rig, &vec![65_535; length], PARAM_ERROR, None);
        }
        for length in [2, 4, 126, 128] {
            list_refuses(&mut rig, &vec![65_535; length], PARAM_ERROR, Some(0));
        }
        let mut list = vec![0; 128];
        list[126] = 5;
        list_refuses(&mut rig, &list, PARAM_ERROR, Some(63));
        list.extend([0, 0]);
        list_refuses(&mut rig, &list, PARAM_ERROR, None);
    }

    /// Every choice of the six refusals' causes: the first in order answers.
    #[test]
    fn list_order_of_any_causes() {
        let answers = [
            (SYSTEM_ERROR, None),
            (PARAM_ERROR, None),
            (BUSY, None),
            (WINDOW_ERROR, None),
            (PARAM_ERROR, None),
            (PARAM_ERROR, Some(1)),
        ];
        for causes in 0..64u32 {
            let given = |cause: usize| causes >> cause & 1 == 1;
            let mut rig = Rig::open(2, Kind::Write, 1, 2);
            let mut list = vec![0, 1, 1, 1, 2, 0];
            if given(0) {
                rig.b = 65_535;
            }
            if given(1) {
                rig.s.version = 1;
            }
            if given(2) {
                assert!(suspend(&mut rig.s));
            }
            if given(3) {
                rig.s.kind = Kind::Read;
            }
            if given(4) {
                list.push(0);
            }
            if given(5) {
                list[3] = 2;
            }
            match (0..6).find(|&cause| given(cause)) {
                None => list_marks(&mut rig, &list, &[1, 1]),
                Some(first) => list_refuses(&mut rig, &list, answers[first].0, answers[first].1),
            }
        }
    }

    /// The lengths and B, as `command` asks them; S to 65,535 and C to 64.
    #[test]
    fn list_lent_sizes() {
        let good = |flash_len, window_len, b| {
            let start = Session { previous: Some(9), ..Rig::open(2, Kind::Write, 0, 1).s };
            let mut s = start.clone();
            let worn_len = flash_len / BLOCK;
            let answer = mark_list(&mut s, flash_len, worn_len, window_len, b, &[0, 1]);
            let good = sound_with_lpc(&start, flash_len, worn_len, window_len, b);
            assert_eq!(answer, (if good { SUCCESS } else { SYSTEM_ERROR }, None));
            assert_eq!(s != start, good);
            good
        };
        assert!(good(BLOCK, BLOCK, 0));
        assert!(good(65_535 * BLOCK, 64 * BLOCK, 65_472));
        assert!(good(BLOCK, BLOCK, 65_535));
        assert!(!good(65_535 * BLOCK, 64 * BLOCK, 65_473));
        assert!(!good(BLOCK, 2 * BLOCK, 65_535));
        assert!(!good(0, BLOCK, 0));
        assert!(!good(BLOCK, 0, 0));
        assert!(!good(BLOCK + 1, BLOCK, 0));
        assert!(!good(BLOCK, 2 * BLOCK - 1, 0));
        assert!(!good(65_536 * BLOCK, BLOCK, 0));
        assert!(!good(BLOCK, 65 * BLOCK, 0));
        assert!(!good(usize::MAX, usize::MAX, 65_535));
        assert!(!good(usize::MAX - (BLOCK - 1), BLOCK, 0));
        assert!(!good(BLOCK, usize::MAX - (BLOCK - 1), 65_535));
    }

    /// What is SYSTEM_ERROR for a command is so for every list.
    #[test]
    fn list_unsound_sessions() {
        let changes: [Change; 16] = [
            &|s| s.version = 3,
            &|s| s.events ^= 0x40,
            &|s| s.suspended = true,
            &|s| s.first = 3,
            &|s| s.first = 65_535,
            &|s| s.size = 0,
            &|s| s.size = 5,
            &|s| s.size = 65_535,
            &|s| s.kind = Kind::Read,
            &|s| s.kind = Kind::Closed,
            &|s| put_mark(s, 0, 3),
            &|s| put_mark(s, 4, DIRTY),
            &|s| put_mark(s, 63, ERASED),
            &|s| s.dirty += 1,
            &|s| s.erased = 0,
            &|s| s.marks[1] = DIRTY,
        ];
        for change in changes {
            let mut rig = pending_rig(2);
            change(&mut rig.s);
            for list in [vec![], vec![0], vec![0, 1], vec![4, 1], vec![0, 0, 65_535, 65_535]] {
                list_refuses(&mut rig, &list, SYSTEM_ERROR, None);
            }
            list_refuses(&mut rig, &single_blocks(64), SYSTEM_ERROR, None);
            list_refuses(&mut rig, &single_blocks(65), SYSTEM_ERROR, None);
            assert_eq!(rig.code(MARK_DIRTY, &wk(0, 1)), SYSTEM_ERROR);
        }
        for (dirty, erased) in WRONG {
            let mut rig = pending_rig(2);
            (rig.s.dirty, rig.s.erased) = (dirty, erased);
            list_refuses(&mut rig, &[0, 1], SYSTEM_ERROR, None);
        }
        for (events, suspended) in DISAGREEING {
            let mut rig = with_events(2, events, suspended);
            list_refuses(&mut rig, &[0, 1], SYSTEM_ERROR, None);
            rig.s.events ^= 0x40;
            let code = if suspended { BUSY } else { SUCCESS };
            assert_eq!(rig.list(&[0, 1]), (code, None));
        }
    }

    #[test]
    fn list_64_and_65_pairs() {
        list_marks(&mut wide_rig(), &single_blocks(63), &[[1; 63].as_slice(), &[0]].concat());
        list_marks(&mut wide_rig(), &single_blocks(64), &[1; 64]);
        list_refuses(&mut wide_rig(), &single_blocks(65), PARAM_ERROR, None);
        list_refuses(&mut wide_rig(), &single_blocks(66), PARAM_ERROR, None);
        list_marks(&mut cut_rig([2; 4]), &[0; 128], &[2; 4]);
        list_refuses(&mut cut_rig([2; 4]), &[0; 130], PARAM_ERROR, None);
    }

    /// Every length up to 300 of pairs that are all good.
    #[test]
    fn list_lengths() {
        let start = pending_rig(2);
        for length in 0..300 {
            let mut rig = start.clone();
            let list: Vec<u16> = (0..length).map(|n| n as u16 % 2).collect();
            if length % 2 == 1 || length > 128 {
                list_refuses(&mut rig, &list, PARAM_ERROR, None);
            } else {
                list_marks(&mut rig, &list, &[1, 0, 2, 1]);
            }
        }
        let mut rig = wide_rig();
        for length in [1, 3, 129] {
            list_refuses(&mut rig, &single_blocks(65)[..length], PARAM_ERROR, None);
        }
    }

    #[test]
    fn list_very_long() {
        for length in [1 << 20, (1 << 20) - 1, (1 << 20) + 1, 65_536, 65_536 + 2, 65_536 + 128] {
            for value in [0, 65_535] {
                let list = vec![value; length];
                list_refuses(&mut pending_rig(2), &list, PARAM_ERROR, None);
                list_refuses(&mut Rig::new(2), &list, WINDOW_ERROR, None);
                list_refuses(&mut pending_rig(1), &list, PARAM_ERROR, None);
                list_refuses(&mut pending_rig(3), &list, SYSTEM_ERROR, None);
            }
        }
    }

    #[test]
    fn list_count_0_is_checked_and_marks_nothing() {
        for size in 1..=4 {
            let mut rig = Rig::sized(2, 6, 4);
            (rig.s.kind, rig.s.first, rig.s.size) = (Kind::Write, 1, size);
            put_mark(&mut rig.s, 0, ERASED);
            for w in 0..=size {
                list_marks(&mut rig, &[w, 0], &[2]);
            }
            list_marks(&mut rig, &[size, 0, size, 0, 0, 0], &[2]);
            for w in [size + 1, size + 2, 256, 32_768, 65_535] {
                list_refuses(&mut rig, &[w, 0], PARAM_ERROR, Some(0));
                list_refuses(&mut rig, &[0, 1, size, 0, w, 0], PARAM_ERROR, Some(2));
            }
        }
        list_marks(&mut wide_rig(), &[64, 0], &[0; 64]);
        list_refuses(&mut wide_rig(), &[65, 0], PARAM_ERROR, Some(0));
    }

    #[test]
    fn list_sums_are_whole_numbers() {
        let past = [
            (65_535, 1),
            (65_535, 2),
            (65_535, 65_535),
            (1, 65_535),
            (2, 65_535),
            (0, 65_535),
            (32_768, 32_768),
            (32_769, 32_768),
            (65_534, 4),
        ];
        let (mut rig, mut wide) = (pending_rig(2), wide_rig());
        for (w, k) in past {
            list_refuses(&mut rig, &[w, k], PARAM_ERROR, Some(0));
            list_refuses(&mut rig, &[1, 1, w, k, 1, 1], PARAM_ERROR, Some(1));
            list_refuses(&mut wide, &[0, 64, 64, 0, w, k], PARAM_ERROR, Some(2));
        }
    }

    /// The first bad pair is named, wherever it is and whatever follows; the
    /// good ones before it are not marked.
    #[test]
    fn list_names_the_first_bad_pair() {
        let mut rig = wide_rig();
        for place in 0..64 {
            let mut list = single_blocks(64);
            list[2 * place] = 64;
            list_refuses(&mut rig, &list, PARAM_ERROR, Some(place));
            list_refuses(&mut rig, &list[..2 * place + 2], PARAM_ERROR, Some(place));
            for later in place + 1..64 {
                list[2 * later + 1] = 65_535;
            }
            list_refuses(&mut rig, &list, PARAM_ERROR, Some(place));
        }
        list_refuses(&mut pending_rig(2), &[0, 4, 0, 5, 1, 4], PARAM_ERROR, Some(1));
        list_refuses(&mut pending_rig(2), &[0, 4, 4, 0, 1, 4], PARAM_ERROR, Some(2));
    }

    #[test]
    fn list_overlapping_pairs() {
        list_marks(&mut cut_rig([0; 4]), &[0, 2, 1, 2], &[1, 1, 1, 0]);
        list_marks(&mut cut_rig([2; 4]), &[1, 2, 0, 2, 1, 1], &[1, 1, 1, 2]);
        list_marks(&mut cut_rig([1, 0, 2, 1]), &[0, 4, 0, 4, 3, 1, 2, 2], &[1; 4]);
        list_marks(&mut cut_rig([0; 4]), &[2, 1].repeat(64), &[0, 0, 1, 0]);
        let mut rig = wide_rig();
        list_marks(&mut rig, &[0, 64].repeat(64), &[1; 64]);
        assert_eq!(pending(&rig.s), Some((64, 1_088)));
    }

    /// None stays none and a number stays that number, refused or not; then a
    /// command is judged by it as if there had been no list.
    #[test]
    fn list_keeps_the_previous_number() {
        for previous in [None, Some(0), Some(1), Some(7), Some(255)] {
            let mut rig = pending_rig(2);
            rig.s.previous = previous;
            list_marks(&mut rig, &[1, 1], &[1, 1, 2, 1]);
            list_marks(&mut rig, &[], &[1, 1, 2, 1]);
            list_refuses(&mut rig, &[1, 4], PARAM_ERROR, Some(0));
            list_refuses(&mut rig, &[1], PARAM_ERROR, None);
            assert_eq!(rig.s.previous, previous);
            for sequence in [0, 1, 7, 8, 255] {
                let mut after = rig.clone();
                let repeated = previous == Some(sequence);
                let code = if repeated { SEQ_ERROR } else { SUCCESS };
                assert_eq!(after.raw(regs(MARK_DIRTY, sequence, &wk(0, 1)))[13], code);
            }
        }
    }

    /// Every row of marks under every pair and two lists of more.
    #[test]
    fn list_makes_erased_blocks_dirty() {
        for row in all_marks() {
            let start = cut_rig(row);
            for (w, k) in (0..36).map(|n| (n % 6, n / 6)) {
                let mut rig = start.clone();
                if w + k > 4 {
                    list_refuses(&mut rig, &[w, k], PARAM_ERROR, Some(0));
                    continue;
                }
                let mut expected = row;
                expected[w.into()..(w + k).into()].fill(1);
                list_marks(&mut rig, &[w, k], &expected);
                list_marks(&mut rig, &[w, k, 4, 0, w, k], &expected);
            }
            list_marks(&mut start.clone(), &[0, 1, 3, 1], &[1, row[1], row[2], 1]);
            list_marks(&mut start.clone(), &[2, 2, 1, 2], &[row[0], 1, 1, 1]);
        }
        let mut rig = cut_rig([2, 2, 0, 1]);
        assert_eq!((rig.s.dirty, rig.s.erased), (1, 2));
        list_marks(&mut rig, &[1, 2], &[2, 1, 1, 1]);
        assert_eq!((rig.s.dirty, rig.s.erased, pending(&rig.s)), (3, 1, Some((4, 52))));
        assert_eq!(rig.code(FLUSH, &[]), SUCCESS);
        assert_eq!((rig.actions, pending(&rig.s)), (52, Some((0, 0))));
    }

    #[test]
    fn list_at_the_most_pending() {
        let mut rig = wide_rig();
        assert_eq!(rig.code(ERASE, &wk(0, 64)), SUCCESS);
        assert_eq!(pending(&rig.s), Some((64, 64)));
        list_marks(&mut rig, &single_blocks(64), &[1; 64]);
        assert_eq!((rig.s.dirty, rig.s.erased), (64, 0));
        assert_eq!(pending(&rig.s), Some((64, 1_088)));
        assert_eq!(rig.code(ERASE, &wk(0, 64)), SUCCESS);
        assert_eq!((rig.s.dirty, rig.s.erased), (0, 64));
    }

    // --------------------------------------------------------- 02, ticket 8

    /// The first block of the window that is marked and worn, and how many actions
    /// come before its erase.
    fn stop(rig: &Rig) -> Option<(usize, usize)> {
        let mut before = 0;
        for n in 0..usize::from(rig.s.size) {
            let total = [0, 17, 1][usize::from(rig.s.marks[n])];
            if total > 0 && rig.worn[usize::from(rig.s.first) + n] > 0 {
                return Some((n, before));
            }
            before += total;
        }
        None
    }

    /// What ticket 8 makes of a flush, by arithmetic; the previous number stays.
    struct Flushed {
        code: u8,
        actions: usize,
        flash: Vec<u8>,
        s: Session,
    }

    fn flushed(rig: &Rig) -> Flushed {
        let mut s = rig.s.clone();
        let (code, actions) = match stop(rig) {
            Some((block, before)) => {
                s.marks[..block].fill(0);
                (3, before)
            }
            None => {
                s.marks = [0; 64];
                (1, flush_actions(&rig.s) as usize)
            }
        };
        recount(&mut s);
        Flushed { code, actions, flash: flash_after(rig, actions), s }
    }

    /// Without a window.
    fn dropped(s: &Session) -> Session {
        let Session { version, previous, events, suspended, .. } = *s;
        Session { version, previous, events, suspended, ..Session::fresh() }
    }

    /// Sends, expects this of the flush, this session but for the previous number,
    /// zero arguments and window memory as it was.
    fn flushes_as(start: &Rig, code: u8, args: &[u8], flushed: &Flushed, s: &Session) {
        let mut rig = start.clone();
        let mut expected = regs(code, start.next, &[]);
        (expected[13], expected[15]) = (flushed.code, start.s.events);
        assert_eq!(rig.send(code, args), expected);
        assert_eq!(rig.s, Session { previous: Some(start.next), ..s.clone() });
        assert_eq!(rig.actions as usize, flushed.actions);
        assert!(rig.flash == flushed.flash && rig.window == start.window);
        assert!(rig.sound());
        pending_is_right(&rig.s);
    }

    /// The maps of `cut_rig`'s chip with any of the window's blocks worn; the two
    /// blocks outside the window have this value.
    fn window_maps(outside: u8) -> Vec<Vec<u8>> {
        let worn = |set: u8, n: usize| (set >> n & 1) * [1, 2, 0x80, 0xFF][n];
        let inside = |set: u8| [0, 1, 2, 3].map(|n| worn(set, n));
        (0..16).map(|set| [&[outside], &inside(set)[..], &[outside]].concat()).collect()
    }

    /// Every row of marks in a window of 4 blocks at 1 under every such map.
    fn each_worn(version: u8, outside: u8, check: &dyn Fn(&Rig)) {
        for marks in all_marks() {
            let mut rig = cut_rig(marks);
            rig.s.version = version;
            for map in window_maps(outside) {
                rig.worn = map;
                check(&rig);
            }
        }
    }

    /// A marked window of which every block is worn, and the chip's others too.
    fn all_worn(version: u8) -> Rig {
        Rig { worn: vec![1; 6], ..pending_rig(version) }
    }

    /// Blocks 1 to 4 are the window's: dirty, erased, dirty, erased.
    #[test]
    fn worn_flush_by_hand() {
        let cases = [
            (1, 0, [1, 2, 1, 2], (4, 36)),
            (2, 17, [0, 2, 1, 2], (3, 19)),
            (3, 18, [0, 0, 1, 2], (2, 18)),
            (4, 35, [0, 0, 0, 2], (1, 1)),
        ];
        for (worn, actions, left, told) in cases {
            let mut rig = cut_rig([1, 2, 1, 2]);
            let old = rig.flash.clone();
            rig.worn[worn] = 1;
            assert_eq!(pending(&rig.s), Some((4, 36)));
            let mut expected = regs(FLUSH, rig.next, &[]);
            (expected[13], expected[15]) = (3, 0x81);
            assert_eq!(rig.send(FLUSH, &[]), expected);
            assert_eq!((rig.actions, marks(&rig, 4)), (actions, left.to_vec()));
            assert_eq!(pending(&rig.s), Some(told));
            assert_eq!((rig.s.kind, rig.s.first, rig.s.size), (Kind::Write, 1, 4));
            let news = [&rig.window[..BLOCK], &[0xFF; BLOCK], block(&rig.window, 2)];
            for (n, new) in (1..4).zip(news) {
                assert!(block(&rig.flash, n) == if n < worn { new } else { block(&old, n) });
            }
            for n in [0, 4, 5] {
                assert!(block(&rig.flash, n) == block(&old, n));
            }
        }
    }

    #[test]
    fn worn_flush_at_every_place() {
        for (version, outside) in [(1, 0), (1, 7), (2, 0), (2, 7)] {
            each_worn(version, outside, &|start| {
                let flushed = flushed(start);
                flushes_as(start, FLUSH, &al(9, 0), &flushed, &flushed.s);
            });
        }
    }

    #[test]
    fn worn_close_at_every_place() {
        for (version, outside) in [(1, 7), (2, 0), (2, 7)] {
            each_worn(version, outside, &|start| {
                let flushed = flushed(start);
                let s = if flushed.code == 3 { flushed.s.clone() } else { dropped(&start.s) };
                for flags in [0, 1] {
                    flushes_as(start, CLOSE, &[flags], &flushed, &s);
                }
            });
        }
    }

    /// Where the flush fails, 3 for every o; otherwise as a create that finds the
    /// flash flushed and no window.
    #[test]
    fn worn_creates_at_every_place() {
        for (version, code) in (2..6).map(|n| (n / 2, [CREATE_READ, CREATE_WRITE][n % 2])) {
            each_worn(version as u8, 7, &|start| {
                let flushed = flushed(start);
                for o in [1, 5, 6, 65_535] {
                    if flushed.code == 3 {
                        flushes_as(start, code, &wk(o, 2), &flushed, &dropped(&start.s));
                        continue;
                    }
                    let mut rig = start.clone();
                    let mut later = Rig { flash: flushed.flash.clone(), ..start.clone() };
                    later.s = dropped(&start.s);
                    let answer = rig.send(code, &wk(o, 2));
                    assert_eq!(answer, later.send(code, &wk(o, 2)));
                    assert_eq!(answer[13], if o < 6 { 1 } else { 2 });
                    assert_eq!(rig.actions as usize, flushed.actions);
                    later.actions = rig.actions;
                    assert!(rig == later);
                }
            });
        }
    }

    /// What FLUSH adds at version 1 is flushed or stays with the other marks.
    #[test]
    fn worn_flush_adds_its_marks_first() {
        for (w, k) in [(0, 1), (1, 1), (3, 1), (0, 2), (1, 3), (0, 4)] {
            each_worn(1, 0, &|start| {
                let mut marked = start.clone();
                marked.s.marks[w..w + k].fill(DIRTY);
                recount(&mut marked.s);
                let flushed = flushed(&marked);
                let args = al(1 + w as u16, (k * BLOCK - 4_095) as u32);
                flushes_as(start, FLUSH, &args, &flushed, &flushed.s);
            });
        }
        let mut rig = cut_rig([0; 4]);
        rig.s.version = 1;
        rig.worn[3] = 1;
        assert_eq!(rig.code(FLUSH, &al(2, 12_288)), WRITE_ERROR);
        assert_eq!((rig.actions, marks(&rig, 4)), (17, vec![0, 0, 1, 1]));
    }

    /// Each of 64 blocks, dirty or erased, and a window at the chip's end.
    #[test]
    fn worn_at_each_of_64_blocks() {
        for (code, mark, cost) in [(MARK_DIRTY, DIRTY, 17), (ERASE, ERASED, 1)] {
            let mut start = Rig::sized(2, 65, 64);
            (start.s.kind, start.s.first, start.s.size) = (Kind::Write, 1, 64);
            start.window = pattern(64 * BLOCK, 5);
            assert_eq!(start.code(code, &wk(0, 64)), SUCCESS);
            for place in 0..64 {
                let mut rig = start.clone();
                rig.worn[0] = 1;
                rig.worn[1 + place] = 1;
                assert_eq!(rig.code(FLUSH, &[]), WRITE_ERROR);
                assert_eq!(rig.actions as usize, cost * place);
                assert!(rig.s.marks[..place].iter().all(|&one| one == CLEAN));
                assert!(rig.s.marks[place..].iter().all(|&one| one == mark));
                pending_is_right(&rig.s);
                let (done, end) = (place * BLOCK, (1 + place) * BLOCK);
                assert!(rig.flash[..BLOCK] == start.flash[..BLOCK]);
                assert!(rig.flash[BLOCK..end] == start.window[..done]);
                assert!(rig.flash[end..] == start.flash[end..]);
            }
        }
    }

    #[test]
    fn any_value_but_0_is_worn() {
        for value in 0..=255 {
            let mut rig = cut_rig([0, 2, 1, 0]);
            rig.worn[3] = value;
            let code = if value == 0 { 1 } else { 3 };
            assert_eq!(rig.step(1), (code, value == 0));
            assert_eq!(rig.code(FLUSH, &[]), code);
            assert_eq!(rig.actions, if value == 0 { 18 } else { 1 });
        }
    }

    /// Commands with arguments that they take, and some that they refuse.
    fn any_commands() -> Vec<(u8, Vec<u8>)> {
        let arguments = [al(0, 0), al(1, 1), al(2, 4_097), al(1, 3), vec![2], vec![0xFF; 11]];
        let with = |code: u8| arguments.clone().map(|args| (code, args));
        (0..=11).flat_map(with).collect()
    }

    /// Sends, expects the answer and the effect that it has with a good map.
    fn as_with_a_good_map(start: &Rig, code: u8, args: &[u8]) {
        let mut good = Rig { worn: vec![0; start.worn.len()], ..start.clone() };
        let mut rig = start.clone();
        assert_eq!(rig.send(code, args), good.send(code, args));
        good.worn = rig.worn.clone();
        assert!(rig == good);
    }

    /// Without a window, in a read window and in a write window without marks
    /// nothing is erased, so that the map does not matter to any command.
    #[test]
    fn worn_blocks_without_marks_have_no_effect() {
        for version in 0..=2 {
            for (kind, size) in [(Kind::Closed, 0), (Kind::Read, 2), (Kind::Write, 2)] {
                let mut start = Rig::open(version, kind, 0, size);
                start.worn = vec![1; 4];
                for (code, args) in any_commands() {
                    if (version, code) == (1, FLUSH) && kind == Kind::Write {
                        continue; // it can mark
                    }
                    as_with_a_good_map(&start, code, &args);
                }
                for done in [0, 1, 17, u64::MAX] {
                    assert_eq!(start.clone().step(done), (SUCCESS, false));
                }
            }
        }
    }

    /// All but the marked blocks are worn, inside the window and outside it.
    #[test]
    fn worn_blocks_beside_the_marked_ones_have_no_effect() {
        for row in all_marks() {
            let mut start = cut_rig(row);
            start.worn = vec![255; 6];
            for (n, _) in row.iter().enumerate().filter(|(_, &mark)| mark > 0) {
                start.worn[1 + n] = 0;
            }
            for version in 1..=2 {
                start.s.version = version;
                for o in [2, 6] {
                    as_with_a_good_map(&start, CREATE_READ, &wk(o, 0));
                    as_with_a_good_map(&start, CREATE_WRITE, &wk(o, 0));
                }
                as_with_a_good_map(&start, FLUSH, &al(9, 0));
                as_with_a_good_map(&start, CLOSE, &[1]);
            }
            let total = u64::from(flush_actions(&start.s));
            let mut rig = start.clone();
            for done in 0..total {
                assert_eq!(rig.step(done), (SUCCESS, true));
            }
            assert_eq!(rig.step(total), (SUCCESS, false));
            assert!(rig.flash == flash_after(&start, total as usize));
        }
    }

    /// Marks are taken on worn blocks, and only a flush meets them.
    #[test]
    fn commands_that_do_not_flush_have_no_map() {
        for version in 0..=2 {
            for (code, args) in any_commands() {
                if !matches!(code, CREATE_READ | CREATE_WRITE | CLOSE | FLUSH) {
                    as_with_a_good_map(&all_worn(version), code, &args);
                }
            }
        }
        list_marks(&mut all_worn(2), &[1, 2], &[1, 1, 1, 1]);
        list_refuses(&mut all_worn(2), &[1, 4], PARAM_ERROR, Some(0));
        let mut rig = all_worn(2);
        assert_eq!(rig.code(RESET, &[]), SUCCESS);
        assert_eq!(rig.s.kind, Kind::Closed);
        let mut rig = all_worn(2);
        assert!(suspend(&mut rig.s) && resume_changed(&mut rig.s));
        assert_eq!(rig.code(CREATE_WRITE, &wk(1, 4)), SUCCESS);
        assert!(rig.window == rig.flash[BLOCK..5 * BLOCK]);
    }

    /// FLUSH's and CLOSE_WINDOW's own arguments come before the flush.
    #[test]
    fn order_arguments_before_write_error() {
        let mut rig = all_worn(1);
        for (a, l) in [(0, 1), (5, 1), (4, 4_097), (1, 16_385), (1, u32::MAX), (65_535, 1)] {
            refuses(&mut rig, FLUSH, &al(a, l), PARAM_ERROR);
        }
        for flags in [0, 1, 2, 255] {
            assert_eq!(rig.code(CLOSE, &[flags]), WRITE_ERROR);
        }
        let mut rig = all_worn(2);
        for flags in 2..=255 {
            refuses(&mut rig, CLOSE, &[flags], PARAM_ERROR);
        }
        assert_eq!(rig.code(FLUSH, &[0xFF; 11]), WRITE_ERROR);
    }

    #[test]
    fn order_other_refusals_before_write_error() {
        let flushing = [(FLUSH, 0), (CLOSE, 0), (CREATE_READ, 0), (CREATE_WRITE, 6)];
        for (version, repeated, busy) in [(2, 8, 6), (1, 2, 5)] {
            for (code, argument) in flushing {
                let mut rig = all_worn(version);
                rig.s.previous = Some(rig.next);
                refuses(&mut rig, code, &[argument], repeated);
                assert!(suspend(&mut rig.s));
                refuses(&mut rig, code, &[argument], busy);
                assert!(resume(&mut rig.s));
                rig.s.version = 0;
                refuses(&mut rig, code, &[argument], PARAM_ERROR);
                rig.s.version = version;
                assert_eq!(rig.code(code, &[argument]), WRITE_ERROR);
            }
            let window = if version == 2 { 7 } else { 2 };
            let read = Rig::open(version, Kind::Read, 0, 2);
            refuses(&mut Rig { worn: vec![1; 4], ..read }, FLUSH, &[], window);
        }
    }

    /// Its number is the previous one, so that it cannot be sent again.
    #[test]
    fn write_error_makes_its_number_the_previous_one() {
        for (version, repeated) in [(2, 8), (1, 2)] {
            for code in [FLUSH, CLOSE, CREATE_READ, CREATE_WRITE] {
                let mut rig = all_worn(version);
                assert_eq!(rig.raw(regs(code, 200, &[]))[13], WRITE_ERROR);
                assert_eq!(rig.s.previous, Some(200));
                assert_eq!(rig.raw(regs(code, 200, &[]))[13], repeated);
            }
        }
    }

    /// The marks went with the window: nothing is left to fail.
    #[test]
    fn worn_create_leaves_no_window() {
        for kind in [CREATE_READ, CREATE_WRITE] {
            for o in [0, 6] {
                let mut rig = all_worn(2);
                let window = rig.window.clone();
                assert_eq!(rig.code(kind, &wk(o, 0)), WRITE_ERROR);
                assert_eq!((rig.s.kind, rig.s.first, rig.s.size), (Kind::Closed, 0, 0));
                assert_eq!((rig.s.marks, pending(&rig.s)), ([0; 64], Some((0, 0))));
                assert!(rig.window == window);
                assert_eq!(rig.step(0), (SUCCESS, false));
                refuses(&mut rig, FLUSH, &[], WINDOW_ERROR);
                assert_eq!(rig.code(CLOSE, &[]), SUCCESS);
                assert_eq!(rig.code(kind, &wk(o, 0)), if o == 0 { 1 } else { 2 });
            }
        }
    }

    /// The map's length is asked for first, for every command, step and list, with
    /// every kind of window and without one.
    #[test]
    fn map_of_another_length_is_system_error() {
        let maps = [(0, 0), (1, 0), (2, 0), (3, 0), (3, 1), (5, 0), (5, 1), (4 * BLOCK, 0)];
        for version in 0..=2 {
            for mut rig in to_be_closed(version) {
                for (length, value) in maps {
                    rig.worn = vec![value; length];
                    rig.s.previous = Some(4);
                    refused_for_its_map(&rig);
                    assert!(suspend(&mut rig.s));
                    refused_for_its_map(&rig);
                    assert!(resume(&mut rig.s));
                }
            }
        }
    }

    fn refused_for_its_map(start: &Rig) {
        let mut rig = start.clone();
        assert!(!rig.sound());
        for code in (0..=12).chain([255]) {
            for sequence in [4, 5] {
                let mut sent = [0xAB; 16];
                (sent[0], sent[1]) = (code, sequence);
                let mut expected = regs(code, sequence, &[]);
                (expected[13], expected[14], expected[15]) = (4, 0xAB, start.s.events);
                assert_eq!(rig.raw(sent), expected);
            }
        }
        for done in [0, 1, 16, 17, 18, 19, u64::MAX] {
            assert_eq!(rig.step(done), (SYSTEM_ERROR, false));
        }
        for list in [&[][..], &[0], &[0, 1], &[9, 9]] {
            assert_eq!(rig.list(list), (SYSTEM_ERROR, None));
        }
        assert!(rig == *start, "SYSTEM_ERROR changed something");
    }

    /// By the lengths alone, from the smallest chip to the largest.
    #[test]
    fn map_lengths() {
        for blocks in [1, 2, 6, 64, 256, 4_096, 65_535] {
            for (kind, size) in [(Kind::Closed, 0), (Kind::Read, 1), (Kind::Write, 1)] {
                let s = Session { version: 2, kind, size, ..Session::fresh() };
                let is_sound = |flash_len, worn_len| {
                    let lpc = sound_with_lpc(&s, flash_len, worn_len, BLOCK, 9);
                    assert_eq!(sound(&s, flash_len, worn_len, BLOCK), lpc);
                    let (code, _) = mark_list(&mut s.clone(), flash_len, worn_len, BLOCK, 9, &[]);
                    assert_eq!(code != SYSTEM_ERROR, lpc);
                    lpc
                };
                for length in [0, 1, blocks - 1, blocks, blocks + 1, 65_536, usize::MAX] {
                    assert_eq!(is_sound(blocks * BLOCK, length), length == blocks);
                }
                assert!(!is_sound(blocks * BLOCK + 1, blocks));
                assert!(!is_sound(blocks * BLOCK + 1, blocks + 1));
            }
        }
    }

    /// From each cut on the way: yes before the failing erase, 3 from it on, past
    /// the end too; 6 comes before it, and 4 before that.
    #[test]
    fn worn_steps_at_every_count() {
        for row in [[1, 0, 2, 1], [2, 1, 0, 2], [1, 1, 1, 1], [2, 2, 2, 2], [0, 1, 2, 0], [0; 4]] {
            for (n, map) in window_maps(7).into_iter().enumerate() {
                let mut start = Rig { worn: map, ..cut_rig(row) };
                start.s.version = n as u8 % 3;
                let total = flush_actions(&start.s) as usize;
                let (last, end) = match stop(&start) {
                    Some((_, before)) => (before, WRITE_ERROR),
                    None => (total, SUCCESS),
                };
                let mut rig = start.clone();
                for done in 0..total + 3 {
                    let expected = if done < last { (SUCCESS, true) } else { (end, false) };
                    refused_steps(&rig, done as u64);
                    assert_eq!(rig.step(done as u64), expected);
                    assert!(rig.flash == flash_after(&start, last.min(done + 1)));
                }
                refused_steps(&rig, u64::MAX);
                assert_eq!(rig.step(u64::MAX), (end, false));
                rig.flash = start.flash.clone();
                assert_eq!(rig.step(last as u64), (end, false));
                assert!(rig == start, "past the end, or a change of more than the flash");
            }
        }
    }

    /// 6 while suspended and 4 for an unsound record, whatever the map.
    fn refused_steps(start: &Rig, done: u64) {
        let mut rig = start.clone();
        assert!(suspend(&mut rig.s));
        assert_eq!(rig.step(done), (BUSY, false));
        rig.s.dirty += 1;
        assert_eq!(rig.step(done), (SYSTEM_ERROR, false));
        assert!(resume(&mut rig.s));
        assert_eq!(rig.step(done), (SYSTEM_ERROR, false));
        assert!(rig.flash == start.flash);
    }

    #[test]
    fn worn_steps_make_what_a_failed_flush_makes() {
        each_worn(2, 0, &|start| {
            let mut stepped = start.clone();
            let mut count = 0;
            while count < 100 && stepped.step(count).1 {
                count += 1;
            }
            let (code, _) = stepped.step(count);
            let mut flushed = start.clone();
            assert_eq!(flushed.code(FLUSH, &[]), code);
            assert_eq!(u64::from(flushed.actions), count);
            assert!(flushed.flash == stepped.flash && stepped.s == start.s);
        });
    }

    /// The same map stops it again with nothing done; a good one lets it finish,
    /// and the two counts are those of one flush.
    #[test]
    fn worn_flush_and_then_a_good_map() {
        each_worn(2, 7, &|start| {
            let total = flush_actions(&start.s);
            let mut rig = start.clone();
            let code = rig.code(FLUSH, &[]);
            let first = rig.actions;
            if code == WRITE_ERROR {
                refuses(&mut rig, FLUSH, &[], WRITE_ERROR);
                refuses(&mut rig, CLOSE, &[], WRITE_ERROR);
            }
            rig.worn = good_map(rig.flash.len());
            let mut closed = rig.clone();
            assert_eq!(rig.code(FLUSH, &[]), SUCCESS);
            assert_eq!(first + rig.actions, total);
            assert!(rig.flash == flash_after(start, total as usize));
            assert_eq!((rig.s.marks, rig.s.dirty, rig.s.erased), ([0; 64], 0, 0));
            assert_eq!((rig.s.kind, rig.s.first, rig.s.size), (Kind::Write, 1, 4));
            assert_eq!(closed.code(CLOSE, &[]), SUCCESS);
            assert_eq!(closed.actions, rig.actions);
            assert!(closed.flash == rig.flash && closed.s.kind == Kind::Closed);
        });
    }

    /// One block after the other becomes good, and the flush comes further.
    #[test]
    fn worn_blocks_made_good_one_by_one() {
        let start = cut_rig([1, 2, 0, 1]);
        let mut rig = Rig { worn: vec![1; 6], ..start.clone() };
        let cases = [(0, 0, [1, 2, 0, 1]), (1, 17, [0, 2, 0, 1]), (2, 1, [0, 0, 0, 1])];
        for (good, actions, left) in cases {
            rig.worn[good] = 0;
            assert_eq!(rig.code(FLUSH, &[]), WRITE_ERROR);
            assert_eq!((rig.actions, marks(&rig, 4)), (actions, left.to_vec()));
        }
        rig.worn[4] = 0;
        assert_eq!(rig.code(CLOSE, &[]), SUCCESS);
        assert_eq!(rig.actions, 17);
        assert!(rig.flash == flash_after(&start, 35));
    }

    #[test]
    fn the_benchs_chip_has_no_worn_blocks() {
        let text = bench_hex(
            "00 03 02 01 02 00 06 06 02 00 00 02 00 01 00 80 40 00 00 06 07 03 00 00 02 00 \
             00 06 06 04 02 00 02 00 01 00 80 40 00 00 06 07 05 00 00 02 00 00 02 05 06",
        );
        let closed = "05 06 00 00 00 00 00 00 00 00 00 00 00 01 00 81\n";
        assert!(text.ends_with(&(closed.to_owned() + "flash 4096 4096 4096 4096\n")));
    }

    // ---------------------------------------------------------------- bench

    #[test]
    fn bench_longest_input() {
        assert_eq!(bench_text(&[2; 16_384]), EMPTY_FLASH);
        assert_eq!(bench_text(&[2; 16_385]), "too long\n");
        assert_eq!(bench_text(&[]), EMPTY_FLASH);
    }

    #[test]
    fn bench_empty_command() {
        let line = "00 00 00 00 00 00 00 00 00 00 00 00 00 02 00 81\n";
        assert_eq!(bench_hex("00 00"), line.to_owned() + EMPTY_FLASH);
        let twice = bench_hex("00 00 00 00");
        assert_eq!(twice, line.repeat(2) + EMPTY_FLASH);
    }

    #[test]
    fn bench_thirteen_registers() {
        let text = bench_hex("00 0D 09 01 01 02 03 04 05 06 07 08 09 0A FF 01");
        assert_eq!(text, "09 01 00 00 00 00 00 00 00 00 00 00 00 01 00 80\n".to_owned() + EMPTY_FLASH);
    }

    #[test]
    fn bench_bad_records() {
        let bad = [
            "05",                            // an unknown kind
            "80",                            // a number cut short
            "80 00",                         // a longer form of 0
            "82 00",                         // a longer form of 2
            "82 80 00",                      // a longer form of 2
            "00",                            // cut short
            "00 0E 00 00 00 00 00 00 00 00 00 00 00 00 00 00", // count 14
            "00 02 09",                      // too few values
            "00 01 80 02",                   // a value of 256
            "00 01 89 00",                   // a longer form of a value
            "01 00 00",                      // a fill cut short
            "80 80 80 80 10",                // 2^32
            "FF FF FF FF 7F",                // above 2^32
            "80 80 80 80 80 01",             // six groups
            "FF FF FF FF 0F",                // an unknown kind, the largest number
        ];
        for text in bad {
            assert_eq!(bench_hex(text), "bad input at 0\nflash 0 0 0 0\n", "{text}");
            let later = bench_hex(&format!("02 03 {text}"));
            assert_eq!(later, "bad input at 2\nflash 0 0 0 0\n", "{text}");
        }
    }

    #[test]
    fn bench_fill_sum_is_a_whole_number() {
        let open = "00 03 02 01 02 00 06 06 02 00 00 02 00 ";
        let ends = |rest: &str| bench_hex(&(open.to_owned() + rest));
        let bad = "81\nbad input at 13\nflash 0 0 0 0\n";
        assert!(ends("01 FF FF FF FF 0F 01 00").ends_with(bad));
        assert!(ends("01 01 FF FF FF FF 0F 00").ends_with(bad));
        assert!(ends("01 01 80 40 00").ends_with(bad));
        assert!(ends("01 00 80 40 80 02").ends_with(bad));
        let both = ends("01 00 80 40 00 00 06 07 03 00 00 02 00 00 02 05 04");
        let closed = "05 04 00 00 00 00 00 00 00 00 00 00 00 01 00 81\nflash 4096 4096 0 0\n";
        assert!(both.ends_with(closed));
    }

    #[test]
    fn bench_bad_record_has_no_effect_and_ends_the_run() {
        let open = "00 03 02 01 02 00 06 06 02 00 00 02 00 00 06 07 03 00 00 02 00 ";
        let text = bench_hex(&(open.to_owned() + "01 00 81 40 00 00 02 05 04"));
        assert!(text.ends_with("81\nbad input at 21\nflash 0 0 0 0\n"));
        assert_eq!(text.lines().count(), 5);
    }

    #[test]
    fn numbers_in_seven_bit_groups() {
        let read = |bytes: &[u8]| Numbers { input: bytes, at: 0 }.any();
        assert_eq!(read(&[0]), Some(0));
        assert_eq!(read(&[0x7F]), Some(127));
        assert_eq!(read(&[0x80, 1]), Some(128));
        assert_eq!(read(&[0xAC, 2]), Some(300));
        assert_eq!(read(&[0xFF, 0xFF, 0xFF, 0xFF, 0x0F]), Some(u32::MAX));
        assert_eq!(read(&[0xFF, 0xFF, 0xFF, 0xFF, 0x1F]), None);
        for n in [0, 1, 127, 128, 255, 16_383, 16_384, 2_097_151, 2_097_152, u32::MAX] {
            assert_eq!(read(&written(n)), Some(n));
        }
    }

    fn written(n: u32) -> Vec<u8> {
        if n < 128 {
            return vec![n as u8];
        }
        let mut bytes = vec![(n % 128) as u8 | 0x80];
        bytes.extend(written(n / 128));
        bytes
    }

    // ---------------------------------------------------------- random walks

    struct Random(u64);

    impl Random {
        fn below(&mut self, n: u64) -> u64 {
            self.0 = self.0.wrapping_mul(6364136223846793005).wrapping_add(1442695040888963407);
            (self.0 >> 33) % n
        }
    }

    fn random_registers(random: &mut Random) -> [u8; 16] {
        let mut regs = [0; 16];
        regs[0] = random.below(13) as u8;
        regs[1] = random.below(4) as u8;
        for (i, register) in regs.iter_mut().enumerate().skip(2) {
            let most = if i == 5 { 24 } else { 5 };
            let wild = random.below(40) == 0;
            *register = random.below(if wild { 256 } else { most }) as u8;
            if i % 2 == 1 && i != 5 && !wild {
                *register = 0;
            }
        }
        regs
    }

    /// A sound session stays sound; refusals keep everything; steps foretell
    /// what a closing or flushing command makes of the flash.
    #[test]
    fn random_walks() {
        let mut random = Random(20);
        let mut codes = [0u32; 9];
        for _ in 0..40 {
            let mut rig = Rig::sized(0, 4, 3);
            for _ in 0..150 {
                match random.below(30) {
                    0 => drop(suspend(&mut rig.s)),
                    1..=3 => drop(resume(&mut rig.s)),
                    4 => drop(resume_changed(&mut rig.s)),
                    _ => codes[usize::from(walk_one(&mut rig, &mut random))] += 1,
                }
                assert!(rig.sound());
                pending_is_right(&rig.s);
                let at = random.below(rig.window.len() as u64) as usize;
                rig.window[at] = random.below(256) as u8;
            }
        }
        for code in [1, 2, 5, 6, 7, 8] {
            assert!(codes[code] > 0, "code {code} never came up");
        }
    }

    /// What ticket 1 says of the event byte along a list from a fresh session.
    struct Told {
        suspended: bool,
        events: u8,
    }

    /// From a fresh session every list keeps it sound: 0x40 tells the
    /// suspension, 0x80 stays set, and no call answers SYSTEM_ERROR.
    #[test]
    fn random_walks_of_ticket_1() {
        let mut random = Random(83);
        let mut seen = [[0u32; 2]; 7];
        for _ in 0..60 {
            let mut rig = Rig::sized(0, 4, 3);
            assert_eq!(rig.s, Session::fresh());
            let mut told = Told { suspended: false, events: 0x01 };
            for _ in 0..200 {
                let was = usize::from(told.suspended);
                seen[told_one(&mut rig, &mut told, &mut random)][was] += 1;
                let lost = if told.suspended { 0x40 } else { 0 };
                assert_eq!(rig.s.suspended, told.suspended);
                assert_eq!(rig.s.events, 0x80 | lost | told.events);
                assert!(rig.sound());
            }
        }
        assert!(seen.iter().flatten().all(|&times| times > 20), "{seen:?}");
    }

    /// Does one call, answers its kind: 0 to 2 suspend and the resumes, 3 a
    /// step, 4 a host write, 5 a command, 6 an ACK that succeeded.
    fn told_one(rig: &mut Rig, told: &mut Told, random: &mut Random) -> usize {
        let was = told.suspended;
        let kind = random.below(16).min(5) as usize;
        match kind {
            0 => {
                assert_eq!(suspend(&mut rig.s), !was);
                told.suspended = true;
            }
            1 => {
                assert_eq!(resume(&mut rig.s), was);
                told.suspended = false;
            }
            2 => {
                assert_eq!(resume_changed(&mut rig.s), was);
                told.suspended = false;
                told.events |= if was { 0x02 } else { 0 };
            }
            3 => {
                let before = rig.s.clone();
                let total = u64::from(flush_actions(&rig.s));
                let done = random.below(total + 2);
                let expected = if was { (BUSY, false) } else { (SUCCESS, done < total) };
                assert_eq!(rig.step(done), expected);
                assert_eq!(rig.s, before);
            }
            4 => {
                let at = random.below(rig.window.len() as u64) as usize;
                rig.window[at] = random.below(256) as u8;
            }
            _ => return told_command(rig, told, random),
        }
        kind
    }

    fn told_command(rig: &mut Rig, told: &mut Told, random: &mut Random) -> usize {
        let mut sent = random_registers(random);
        if sent[0] == ACK || random.below(8) == 0 {
            let any = random.below(256) as u8;
            (sent[0], sent[2]) = (ACK, if any < 64 { 0xFF } else { any });
        }
        let after = rig.raw(sent);
        assert_ne!(after[13], SYSTEM_ERROR);
        assert_eq!(after[15], rig.s.events);
        if (sent[0], after[13]) != (ACK, SUCCESS) {
            return 5;
        }
        told.events = after_ack(told.events, sent[2]);
        6
    }

    fn walk_one(rig: &mut Rig, random: &mut Random) -> u8 {
        let before = rig.clone();
        let sent = random_registers(random);
        let after = rig.raw(sent);
        assert_eq!((after[0], after[1], after[14]), (sent[0], sent[1], sent[14]));
        assert_eq!(after[15], rig.s.events);
        assert_eq!(rig.s.previous, Some(sent[1]));
        let mut stepped = before.clone();
        let mut count = 0;
        while stepped.step(count).1 {
            count += 1;
        }
        if !before.s.suspended {
            assert_eq!(pending(&before.s).map(|(_, actions)| u64::from(actions)), Some(count));
        }
        if after[13] != SUCCESS {
            assert_eq!(after[2..13], [0; 11]);
        }
        let closes = matches!(sent[0], CREATE_READ | CREATE_WRITE | CLOSE);
        let creates = closes && sent[0] != CLOSE;
        let create_refused = creates && after[13] == PARAM_ERROR && rig.s.kind != before.s.kind;
        if closes && (after[13] == SUCCESS || create_refused) {
            assert!(rig.flash == stepped.flash);
            assert_eq!(u64::from(rig.actions), count);
        } else if after[13] != SUCCESS {
            let kept = Session { previous: Some(sent[1]), ..before.s };
            assert_eq!(rig.s, kept);
            assert!(rig.flash == before.flash && rig.window == before.window);
            assert_eq!(rig.actions, 0);
        }
        after[13]
    }

    /// Sound, version 2, a write window; size, marks, event byte and previous
    /// number are any.
    fn random_write_window(random: &mut Random, flash_blocks: u16, window_blocks: u16) -> Session {
        let size = 1 + random.below(window_blocks.into()) as u16;
        let first = random.below(u64::from(flash_blocks - size) + 1) as u16;
        let mut s = Session { version: 2, kind: Kind::Write, first, size, ..Session::fresh() };
        for mark in &mut s.marks[..size.into()] {
            *mark = random.below(3) as u8;
        }
        recount(&mut s);
        s.events = random.below(256) as u8 & 0xBF;
        s.previous = u8::try_from(random.below(300)).ok();
        s
    }

    /// Up to 64 pairs; in some lists all are inside the window, in others a few
    /// end just past it or are any numbers.
    fn random_pairs(random: &mut Random, size: u16) -> Vec<u16> {
        let most = if random.below(2) == 0 { 64 } else { 4 };
        let pairs = random.below(most + 1);
        let bad = random.below(3) > 0;
        let mut list = Vec::new();
        for _ in 0..pairs {
            let w = random.below(u64::from(size) + 1) as u16;
            let k = random.below(u64::from(size - w) + 1) as u16;
            list.extend(match random.below(60) {
                0 if bad => [w, size - w + 1],
                1 if bad => [size + 1, 0],
                2 if bad => [random.below(65_536) as u16, random.below(65_536) as u16],
                _ => [w, k],
            });
        }
        list
    }

    /// Sends the pairs as MARK_DIRTY in order, with these sequence numbers and any
    /// other register bytes, up to the first refusal: how many succeeded, and its
    /// code.
    fn send_pairs(
        rig: &mut Rig,
        list: &[u16],
        sequences: &[u8],
        random: &mut Random,
    ) -> (usize, Option<u8>) {
        for (place, pair) in list.chunks(2).enumerate() {
            let mut sent = [0; 16].map(|_: u8| random.below(256) as u8);
            (sent[0], sent[1]) = (MARK_DIRTY, sequences[place]);
            sent[2..6].copy_from_slice(&wk(pair[0], pair[1]));
            let code = rig.raw(sent)[13];
            if code != SUCCESS {
                return (place, Some(code));
            }
        }
        (list.len() / 2, None)
    }

    /// 64 sequence numbers, none of them twice and none the previous one.
    fn never_repeating(previous: Option<u8>, random: &mut Random) -> Vec<u8> {
        let from = previous.unwrap_or(random.below(256) as u8);
        (1..=64).map(|n| from.wrapping_add(n)).collect()
    }

    /// Where all the single commands succeed, whatever their numbers, the list
    /// answers 1 and leaves their session but for the previous number; where it
    /// names place p, p of them succeed and the next is PARAM_ERROR.
    #[test]
    fn random_lists_equal_the_single_commands() {
        let mut random = Random(64);
        let (mut all, mut all_with_any, mut bad, mut bad_later) = (0, 0, 0, 0);
        for (flash_blocks, window_blocks) in [(1, 1), (4, 2), (9, 5), (65, 64)] {
            let mut rig = Rig::sized(2, flash_blocks.into(), window_blocks.into());
            let before = rig.clone();
            for _ in 0..1_500 {
                let start = random_write_window(&mut random, flash_blocks, window_blocks);
                let list = random_pairs(&mut random, start.size);
                rig.s = start.clone();
                let answer = rig.list(&list);
                let listed = rig.s.clone();
                pending_is_right(&listed);

                rig.s = start.clone();
                let sequences = never_repeating(start.previous, &mut random);
                let sent = send_pairs(&mut rig, &list, &sequences, &mut random);
                match answer.1 {
                    None => {
                        assert_eq!(sent, (list.len() / 2, None));
                        all += 1;
                    }
                    Some(place) => {
                        assert_eq!((answer.0, sent), (PARAM_ERROR, (place, Some(PARAM_ERROR))));
                        assert_eq!(listed, start);
                        bad += 1;
                        bad_later += u32::from(place > 0);
                    }
                }
                if sent.1.is_none() {
                    assert_eq!(answer, (SUCCESS, None));
                    assert_eq!(listed, Session { previous: start.previous, ..rig.s.clone() });
                }

                rig.s = start.clone();
                let any: Vec<u8> = (0..64).map(|_| random.below(256) as u8).collect();
                if send_pairs(&mut rig, &list, &any, &mut random).1.is_none() {
                    assert_eq!(answer, (SUCCESS, None));
                    assert_eq!(listed, Session { previous: start.previous, ..rig.s.clone() });
                    all_with_any += 1;
                }
            }
            assert!(rig.flash == before.flash && rig.window == before.window);
        }
        let seen = [all, all_with_any, bad, bad_later];
        assert!(seen.iter().all(|&times| times > 500), "{seen:?}");
    }

    /// Lists between other calls, in every state that they come to: refused for
    /// the session with the code of a single command, otherwise as above.
    #[test]
    fn random_walks_of_ticket_4() {
        let mut random = Random(40);
        let mut codes = [0u32; 9];
        let mut named = 0;
        for _ in 0..60 {
            let mut rig = Rig::sized(0, 4, 3);
            for _ in 0..150 {
                match random.below(30) {
                    0 => drop(suspend(&mut rig.s)),
                    1..=3 => drop(resume(&mut rig.s)),
                    4 => drop(resume_changed(&mut rig.s)),
                    5..=14 => {
                        let (code, place) = walk_list(&mut rig, &mut random);
                        codes[usize::from(code)] += 1;
                        named += u32::from(place.is_some());
                    }
                    _ => drop(walk_one(&mut rig, &mut random)),
                }
                assert!(rig.sound());
                pending_is_right(&rig.s);
            }
        }
        assert!([1, 2, 4, 6, 7].iter().all(|&code| codes[code] > 20), "{codes:?}");
        assert!(named > 20 && codes[2] > named + 20, "{named} of {codes:?}");
    }

    fn walk_list(rig: &mut Rig, random: &mut Random) -> (u8, Option<usize>) {
        let start = rig.clone();
        let list = random_pairs(random, rig.s.size);
        rig.b = if random.below(10) == 0 { 65_534 } else { 16 };
        let mut single = rig.clone();
        let answer = rig.list(&list);
        rig.b = start.b;
        if answer.0 != SUCCESS {
            assert!(*rig == start, "a refusal changed something");
        }
        if single.b != 16 {
            assert_eq!(answer, (SYSTEM_ERROR, None));
        } else if single.s.version != 2 {
            assert_eq!(answer, (PARAM_ERROR, None));
        }
        if start.s.version == 2 && !list.is_empty() {
            let sequences = never_repeating(start.s.previous, random);
            let expected = match send_pairs(&mut single, &list, &sequences, random) {
                (_, None) => (SUCCESS, None),
                (place, Some(PARAM_ERROR)) => (PARAM_ERROR, Some(place)),
                (place, Some(code)) => {
                    assert_eq!(place, 0);
                    (code, None)
                }
            };
            assert_eq!(answer, expected);
            if answer.0 == SUCCESS {
                assert_eq!(rig.s, Session { previous: start.s.previous, ..single.s });
                assert!(rig.flash == start.flash && rig.window == start.window);
            }
        }
        answer
    }

    /// Demand 3 with one map throughout its first list: the count stays before the
    /// failing erase, and the second run, which meets no worn block, ends as the
    /// flush never stopped with every block good.
    #[test]
    fn random_lists_of_ticket_8() {
        let mut random = Random(8);
        let mut seen = [0u32; 9];
        for _ in 0..150 {
            let row = all_marks()[random.below(81) as usize];
            let map = window_maps(7)[random.below(16) as usize].clone();
            let start = Rig { worn: map, ..cut_rig(row) };
            let total = flush_actions(&start.s) as usize;
            let (last, end) = stop(&start).map_or((total, 1), |(_, before)| (before, 3));
            let mut rig = start.clone();
            let mut j = 0;
            for _ in 0..random.below(120) {
                match random.below(12) {
                    0 => drop(suspend(&mut rig.s)),
                    1..=2 => drop(resume(&mut rig.s)),
                    _ => {
                        let expected = match j < last {
                            _ if rig.s.suspended => (6, false),
                            true => (1, true),
                            false => (end, false),
                        };
                        assert_eq!(rig.step(j as u64), expected);
                        j += usize::from(expected.1);
                        seen[usize::from(expected.0)] += 1;
                    }
                }
            }
            assert!(rig.flash == flash_after(&start, j));
            let mut again = Rig::sized(0, 6, 4);
            again.flash = rig.flash;
            assert_eq!(again.code(GET_INFO, &[2]), SUCCESS);
            assert_eq!(again.code(CREATE_WRITE, &wk(1, 4)), SUCCESS);
            host_work(&mut again, row);
            assert_eq!(again.code(FLUSH, &[]), SUCCESS);
            assert!(again.flash == flash_after(&start, total));
        }
        assert!([1, 3, 6].iter().all(|&code| seen[code] > 100), "{seen:?}");
    }

    /// Any commands and steps, with another map lent to each.
    #[test]
    fn random_walks_of_ticket_8() {
        let mut random = Random(88);
        let mut failed = [[0u32; 3]; 11];
        for walk in 0..100 {
            let mut rig = Rig::sized(walk % 3, 4, 3);
            for _ in 0..200 {
                let often = 2 + random.below(5);
                rig.worn = [0; 4].map(|_: u8| (random.below(often) / 2) as u8).to_vec();
                match random.below(30) {
                    0 => drop(suspend(&mut rig.s)),
                    1..=3 => drop(resume(&mut rig.s)),
                    4 => drop(resume_changed(&mut rig.s)),
                    5..=7 => walk_step(&mut rig, &mut random),
                    _ => {
                        let version = usize::from(rig.s.version);
                        if let Some(code) = walk_worn(&mut rig, &mut random) {
                            failed[usize::from(code)][version] += 1;
                        }
                    }
                }
                assert!(rig.sound());
                pending_is_right(&rig.s);
                let at = random.below(rig.window.len() as u64) as usize;
                rig.window[at] = random.below(256) as u8;
            }
        }
        for code in [CREATE_READ, CLOSE, CREATE_WRITE, FLUSH] {
            let times = failed[usize::from(code)];
            assert!(times[0] == 0 && times[1] > 5 && times[2] > 5, "{failed:?}");
        }
    }

    fn walk_step(rig: &mut Rig, random: &mut Random) {
        let start = rig.clone();
        let total = flush_actions(&rig.s) as usize;
        let (last, end) = stop(rig).map_or((total, 1), |(_, before)| (before, 3));
        let done = random.below(total as u64 + 2);
        let expected = match (done as usize) < last {
            _ if rig.s.suspended => (6, false),
            true => (1, true),
            false => (end, false),
        };
        assert_eq!(rig.step(done), expected);
        assert_eq!(rig.flash != start.flash || expected.1, expected.1);
        assert_eq!(rig.s, start.s);
    }

    /// Most of these mark, flush or open and close windows, with ranges that often fit.
    fn fitting_registers(s: &Session, random: &mut Random) -> [u8; 16] {
        let codes = [CREATE_READ, CLOSE, CREATE_WRITE, MARK_DIRTY, MARK_DIRTY, FLUSH, ERASE, ERASE];
        let Some(&code) = codes.get(random.below(10) as usize) else {
            return random_registers(random);
        };
        let small = random.below(3) as u16;
        let args = match (s.version, code) {
            (1, MARK_DIRTY | FLUSH) => al(s.first + small, random.below(8_193) as u32),
            _ => wk(small, random.below(3) as u16),
        };
        regs(code, random.below(16) as u8, &args)
    }

    /// As with a good map, unless the command would flush and that map stops it;
    /// then the command's code.
    fn walk_worn(rig: &mut Rig, random: &mut Random) -> Option<u8> {
        let sent = fitting_registers(&rig.s, random);
        let start = rig.clone();
        let after = rig.raw(sent);
        let mut good = Rig { worn: vec![0; 4], ..start.clone() };
        let good_after = good.raw(sent);
        let succeeds = good_after[13] == SUCCESS;
        let mut marked = start.clone();
        if sent[0] == FLUSH && start.s.version == 1 && succeeds && sent[4..8] != [0; 4] {
            let other = sent[1].wrapping_add(100);
            assert_eq!(marked.raw(regs(MARK_DIRTY, other, &sent[2..8]))[13], SUCCESS);
        }
        let creates = sent[0] == CREATE_READ || sent[0] == CREATE_WRITE;
        let closed = creates && good.s.kind != start.s.kind;
        let flushes = creates || sent[0] == FLUSH || sent[0] == CLOSE;
        if stop(&marked).is_none() || !(closed || flushes && succeeds) {
            assert_eq!(after, good_after);
            good.worn = start.worn;
            assert!(*rig == good);
            return None;
        }
        let flushed = flushed(&marked);
        let mut expected = regs(sent[0], sent[1], &[]);
        (expected[13], expected[14], expected[15]) = (3, sent[14], start.s.events);
        assert_eq!(after, expected);
        let s = if creates { dropped(&start.s) } else { flushed.s };
        assert_eq!(rig.s, Session { previous: Some(sent[1]), ..s });
        assert_eq!(rig.actions as usize, flushed.actions);
        assert!(rig.flash == flushed.flash && rig.window == start.window);
        Some(sent[0])
    }
}
