//! The KCS port of the proved library and of the second implementation side by side: every access in every phase, random lists of accesses, and
//! records that no access leaves. It stops at the first difference.
//!
//! kcs SEED ROUNDS: seeds SEED to SEED + ROUNDS - 1 of the random lists. A difference prints the accesses that show it, as tools/kcs_trace.sh
//! takes them.

use compare::kcs::{accesses, make, Access, Ours, Port, Record, Second, Seen, MOST};
use compare::Random;
use second::kcs::{Phase, PHASES};
use std::collections::BTreeMap;

/// Ways into each phase. Each is tried as it is, with OBF set where a write does that, and after a read, with OBF clear.
const WAYS: [&str; 47] = [
    // idle: fresh, after a recovery of each status, after an empty response, after the last byte of others
    "",
    "c60 d00 d68",
    "c61 c60 d00 d68",
    "c63 c60 d00 d68",
    "c61 d10..50 c60 d00 d68",
    "c61 c62 d05 a",
    "c61 c62 d05 aAA d68",
    "c61 d10..4E c62 d4F a10..4F d68*64",
    // writing: requests of 0, 1, 63 and 64 bytes, after a command and after data, after errors and after a transfer
    "c61",
    "c61 d05",
    "c61 d10..4E",
    "c61 d10..4F",
    "c63 c61",
    "c61 d10..50 c61",
    "c61 d10..4F c61 d05",
    "c61 d05 c62 d06 aAABB c61",
    // ending
    "c61 c62",
    "c61 d05 c62",
    "c61 d10..4E c62",
    "c61 d10..4F c62",
    // awaiting: messages of 1, 2 and 64 bytes
    "c61 c62 d05",
    "c61 d05 c62 d06",
    "c61 d10..4E c62 d4F",
    "c63 c61 c62 d05",
    // reading: no byte left, one, many; the first byte, one in the middle, the last
    "c61 c62 d05 aAA",
    "c61 c62 d05 aAABB",
    "c61 c62 d05 aAABB d68",
    "c61 c62 d05 a10..4F",
    "c61 c62 d05 a10..4F d68*31",
    "c61 c62 d05 a10..4F d68*62",
    "c61 c62 d05 a10..4F d68*63",
    // aborting, with each status, and in the middle of a response
    "c60",
    "c61 c60",
    "c63 c60",
    "c61 d10..50 c60",
    "c61 c62 d05 a10..4F d68 c60",
    // the status told
    "c60 d00",
    "c61 c62 d05 c60 d00",
    "c63 c60 d00",
    "c61 d10..4F c62 d50 c60 d00",
    "c61 c62 d05 a10..4F d68 c60 d00",
    // errors: after a command, after data, by the 65th byte before 62 and after it, and in the middle of a response
    "c63",
    "d05",
    "c61 c62 c62",
    "c61 d10..50",
    "c61 d10..4F c62 d50",
    "c61 c62 d05 a10..4F d68 d00",
];

/// The statuses that a port can have in each phase.
const STATUSES: [(Phase, &[u8]); 8] = [
    (Phase::Idle, &[0x00, 0x01]),
    (Phase::Write, &[0x80, 0x81, 0x88, 0x89]),
    (Phase::Last, &[0x88, 0x89]),
    (Phase::Awaited, &[0x40]),
    (Phase::Read, &[0x40, 0x41]),
    (Phase::Abort, &[0x88, 0x89]),
    (Phase::Told, &[0x40, 0x41]),
    (Phase::Error, &[0xc0, 0xc1, 0xc8, 0xc9]),
];

/// Lists that bring hidden state to light, each done on a copy: the recovery, twice; the response read out, with reads and without; a whole exchange;
/// data up to a length error; the end of a request and its response; a response.
const PROBES: [&str; 7] = [
    "c60 r d00 r d68 r c60 d00 r d68 r",
    "r d68 r d68 r d68 r d68 r c60 d00 r",
    "d68*66 r c60 d00 r",
    "c61 r d20..5E r c62 r d5F aA0..AF r d68 r d68*15 r",
    "d20..60 c60 d00 r",
    "c62 r d77 aAABB r d68 r d68 r",
    "aCCDD r d68 r d68 r",
];

const KINDS: [&str; 11] = ["c60", "c61", "c62", "other c", "d00", "d68", "other d", "status", "read", "taken", "refused"];
const TAKEN: usize = 9;
const REFUSED: usize = 10;

/// Which of the kinds an access is, by what it gave.
fn kind(access: &Access, gave: usize) -> usize {
    match access {
        Access::Command(code @ 0x60..=0x62) => usize::from(code - 0x60),
        Access::Command(_) => 3,
        Access::Data(0x00) => 4,
        Access::Data(0x68) => 5,
        Access::Data(_) => 6,
        Access::Status => 7,
        Access::Read => 8,
        Access::Answer(_) if gave == 1 => TAKEN,
        Access::Answer(_) => REFUSED,
    }
}

/// How often each kind of access was tried in each phase, at each status.
#[derive(Default)]
struct Coverage(BTreeMap<(Phase, u8), [u64; KINDS.len()]>);

impl Coverage {
    fn count(&mut self, phase: Phase, status: u8, kind: usize) {
        self.0.entry((phase, status)).or_default()[kind] += 1;
    }

    /// Prints the table, and says whether a cell of it is empty that can be filled: a response is taken where one is awaited, and nowhere else.
    fn is_full(&self) -> bool {
        let mut full = self.0.len() == STATUSES.iter().map(|(_, statuses)| statuses.len()).sum::<usize>();
        println!("| phase | status | {} |", KINDS.join(" | "));
        println!("|---|---|{}", "---|".repeat(KINDS.len()));
        for (phase, statuses) in STATUSES {
            for status in statuses {
                let counts = self.0.get(&(phase, *status)).copied().unwrap_or_default();
                let can = |kind: usize| kind != TAKEN || phase == Phase::Awaited;
                full &= counts.iter().enumerate().all(|(kind, count)| can(kind) == (*count != 0));
                println!("| {phase:?} | {status:02X} | {} |", counts.map(|count| count.to_string()).join(" | "));
            }
        }
        full
    }
}

/// The number of a phase in C's record.
fn number(phase: Phase) -> u8 {
    match phase {
        Phase::Idle => 0,
        Phase::Write => 1,
        Phase::Last => 2,
        Phase::Awaited => 3,
        Phase::Read | Phase::Told => 4,
        Phase::Abort => 5,
        Phase::Error => 6,
    }
}

/// Where the two differ: what was seen, and the accesses that led to it.
struct Difference {
    what: String,
    list: Vec<Access>,
}

impl Difference {
    fn after(mut self, past: &[Access]) -> Difference {
        self.list.splice(0..0, past.iter().cloned());
        self
    }
}

/// Both implementations' ports, and the length of the message that was told last, 0 from the next 61 on.
#[derive(Clone)]
struct Pair {
    ours: Ours,
    second: Second,
    told: usize,
}

impl Pair {
    fn new(record: Record) -> Pair {
        Pair { ours: Ours::new(record), second: Second::fresh(), told: 0 }
    }

    /// An access to both; what is different, if anything is.
    fn make(&mut self, access: &Access, coverage: &mut Coverage) -> Option<String> {
        let (phase, status, before) = (self.second.0.phase(), self.second.status(), self.ours.record);
        let (seen, theirs) = (make(&mut self.ours.record, access), make(&mut self.second, access));
        coverage.count(phase, status, kind(access, theirs.gave));
        if seen != theirs {
            return Some(format!("{seen:02X?}, the second implementation {theirs:02X?} (in hex)"));
        }
        match access {
            Access::Command(0x61) => self.told = 0,
            Access::Data(_) if seen.gave != 0 => self.told = seen.gave,
            _ => {}
        }
        let record = &self.ours.record;
        let (message, theirs) = (record.message(self.told), self.second.0.message());
        if message != theirs {
            return Some(format!("message {message:02X?}, the second implementation {theirs:02X?}"));
        }
        if record.phase != number(self.second.0.phase()) {
            return Some(format!("phase {}, the second implementation {:?}", record.phase, self.second.0.phase()));
        }
        if changes_nothing(access, status, seen.gave) && *record != before {
            return Some(format!("changed to {record:02X?} (in hex)"));
        }
        (!self.ours.is_whole()).then(|| "bytes around the record changed".into())
    }

    fn make_all(&mut self, list: &[Access], coverage: &mut Coverage) -> Result<(), Difference> {
        for (at, access) in list.iter().enumerate() {
            if let Some(what) = self.make(access, coverage) {
                return Err(Difference { what, list: list[..=at].to_vec() });
            }
        }
        Ok(())
    }
}

/// The status is only looked at, a read with OBF clear "changes nothing", and a response is refused, "changing nothing".
fn changes_nothing(access: &Access, status: u8, gave: usize) -> bool {
    match access {
        Access::Status => true,
        Access::Read => status & 1 == 0,
        Access::Answer(_) => gave == 0,
        Access::Command(_) | Access::Data(_) => false,
    }
}

/// Every access, and responses about the lengths that count.
fn every_access() -> Vec<Access> {
    let writes = (0..=255).flat_map(|byte| [Access::Command(byte), Access::Data(byte)]);
    let answers = [0, 1, 2, 63, 64, 65, 200].map(|length| Access::Answer((1..=length).collect()));
    writes.chain(answers).chain([Access::Status, Access::Read]).collect()
}

/// How a random list goes on: once in so many times a request ends, and an access is not what the phase is for.
struct Manner {
    ends: u64,
    errs: u64,
}

/// An access as a host or a board would do it in this phase, now and then any other.
fn random_access(r: &mut Random, manner: &Manner, phase: Phase) -> Access {
    let any = r.next() as u8;
    if r.once_in(manner.errs) {
        return match r.below(4) {
            0 => Access::Command(r.one_of(&[0x60, 0x61, 0x62, 0x62, 0x68, any])),
            1 => Access::Data(r.one_of(&[0x00, 0x68, any])),
            2 => Access::Answer(random_answer(r)),
            _ => Access::Status,
        };
    }
    if r.once_in(3) {
        return Access::Read;
    }
    match phase {
        Phase::Idle => Access::Command(0x61),
        Phase::Write if r.once_in(manner.ends) => Access::Command(0x62),
        Phase::Write | Phase::Last => Access::Data(any),
        Phase::Awaited => Access::Answer(random_answer(r)),
        Phase::Read | Phase::Told => Access::Data(0x68),
        Phase::Abort => Access::Data(0x00),
        Phase::Error => Access::Command(r.one_of(&[0x60, 0x61])),
    }
}

fn random_answer(r: &mut Random) -> Vec<u8> {
    let few = r.below(6);
    let length = r.one_of(&[0, few, few, few, 63, 64, 65, 300]);
    let mut bytes = vec![0; length as usize];
    r.fill(&mut bytes);
    bytes
}

/// What is tried on ports that accesses lead to.
struct Reached {
    coverage: Coverage,
    probes: [Vec<Access>; PROBES.len()],
}

impl Reached {
    /// Each probe on a copy.
    fn probe(&mut self, pair: &Pair) -> Result<(), Difference> {
        self.probes.iter().try_for_each(|probe| pair.clone().make_all(probe, &mut self.coverage))
    }

    /// Every access in every phase, each followed by the probes.
    fn in_every_phase(&mut self) -> Result<(), Difference> {
        for way in WAYS {
            for way in [accesses(way), accesses(&format!("{way} r"))] {
                let mut start = Pair::new(Record::fresh());
                start.make_all(&way, &mut self.coverage)?;
                for access in every_access() {
                    let mut pair = start.clone();
                    let access = [access];
                    pair.make_all(&access, &mut self.coverage).map_err(|d| d.after(&way))?;
                    self.probe(&pair).map_err(|d| d.after(&access).after(&way))?;
                }
            }
        }
        Ok(())
    }

    /// Requests and responses of every length, with the probes after each byte.
    fn of_every_length(&mut self) -> Result<(), Difference> {
        self.step_by_step(&accesses("c61 d80..C1"))?;
        for length in 0..=65 {
            let response = Access::Answer((1..=length).collect());
            let reads = vec![Access::Data(0x68); length.into()];
            self.step_by_step(&[accesses("c61 c62 d05"), vec![response], reads].concat())?;
        }
        Ok(())
    }

    fn step_by_step(&mut self, list: &[Access]) -> Result<(), Difference> {
        let mut pair = Pair::new(Record::fresh());
        for at in 0..list.len() {
            pair.make_all(&list[at..=at], &mut self.coverage).map_err(|d| d.after(&list[..at]))?;
            self.probe(&pair).map_err(|d| d.after(&list[..=at]))?;
        }
        Ok(())
    }

    /// A list of accesses that goes deep, with the probes at its end.
    fn at_random(&mut self, r: &mut Random) -> Result<(), Difference> {
        let manner = Manner { ends: r.one_of(&[2, 20, 80]), errs: r.one_of(&[6, 50, 400]) };
        let mut pair = Pair::new(Record::fresh());
        let mut list = Vec::new();
        for _ in 0..r.below(300) {
            list.push(random_access(r, &manner, pair.second.0.phase()));
            pair.make_all(&list[list.len() - 1..], &mut self.coverage).map_err(|d| d.after(&list[..list.len() - 1]))?;
        }
        self.probe(&pair).map_err(|d| d.after(&list))
    }
}

/// The record that the rules take this one for: an unknown phase is the error phase, a number that stands for a bit is 0 or 1, a request has 64
/// bytes at most, and so has a response, of which none is left where the next would be behind the last.
fn plain(record: &Record) -> Record {
    let end = record.end.min(MOST as u8);
    let (next, end) = if record.next < end { (record.next, end) } else { (0, 0) };
    let is_set = |number: u8| u8::from(number != 0);
    let (phase, length) = (record.phase.min(6), record.length.min(MOST as u8));
    Record { phase, command: is_set(record.command), full: is_set(record.full), length, next, end, ..*record }
}

/// An access to a record that no access leaves, and to the plain one; what is different, if anything is.
fn make_alike(ours: &mut Ours, plain: &mut Record, access: &Access) -> Option<String> {
    let (seen, wanted) = (make(&mut ours.record, access), make(plain, access));
    if seen != wanted {
        return Some(format!("{seen:02X?}, of the plain record {wanted:02X?} (in hex)"));
    }
    if matches!(access, Access::Data(_)) && ours.record.message(seen.gave) != plain.message(seen.gave) {
        return Some("another message than of the plain record".into());
    }
    if seen.status & 0x36 != 0 {
        return Some(format!("IBF, SMS_ATN or OEM in status {:02X}", seen.status));
    }
    (!ours.is_whole()).then(|| "bytes around the record changed".into())
}

/// What is tried on records that no access leaves: an access, each of the lists after it, and an exchange after a recovery.
struct Damaged {
    firsts: Vec<Access>,
    lists: [Vec<Access>; 4],
    recovery: Vec<Access>,
    exchange: Vec<Access>,
}

impl Damaged {
    fn new(firsts: &str) -> Damaged {
        Damaged {
            firsts: accesses(firsts),
            lists: ["c60 d00 r", "c62 d77", "d68 r d68 r", "aCCDD r d68 r"].map(accesses),
            recovery: accesses("c60 r d00 r d68 r"),
            exchange: accesses("c61 r d20..5E r c62 r d5F aA0..A3 r d68 r d68 d68 d68 r c60 d00 r"),
        }
    }

    fn on(&self, record: Record, coverage: &mut Coverage) -> Result<(), Difference> {
        for first in &self.firsts {
            for list in &self.lists {
                let (mut ours, mut other) = (Ours::new(record), plain(&record));
                let list: Vec<Access> = [first].into_iter().chain(list).cloned().collect();
                let different = list.iter().enumerate().find_map(|(at, access)| Some((at, make_alike(&mut ours, &mut other, access)?)));
                if let Some((at, what)) = different {
                    return Err(Difference { what, list: list[..=at].to_vec() });
                }
            }
        }
        self.recovers(record, coverage)
    }

    /// A read gives Data_Out; the published recovery is idle after six accesses, having told the record's status, and then all is as on a fresh port.
    fn recovers(&self, record: Record, coverage: &mut Coverage) -> Result<(), Difference> {
        let (mut ours, mut copy) = (Ours::new(record), record);
        let (read, output) = (copy.read_data(), if record.full == 0 { 0 } else { record.output });
        let seen: Vec<Seen> = self.recovery.iter().map(|access| make(&mut ours.record, access)).collect();
        let told = record.fault.into();
        let wanted = [(0, 0x89), (0, 0x88), (0, 0x41), (told, 0x40), (0, 0x01), (0, 0x00)].map(|(gave, status)| Seen { gave, status });
        if read != output || seen != wanted || !ours.is_whole() {
            return Err(Difference { what: format!("a read gives {read:02X}, the recovery {seen:02X?} (in hex)"), list: self.recovery.clone() });
        }
        Pair::new(ours.record).make_all(&self.exchange, coverage).map_err(|d| d.after(&self.recovery))
    }
}

/// Every value of each control of a record, in each phase and in some that are none, and every pair of the response's two numbers. Answers how many
/// records these are.
fn of_damaged_records(coverage: &mut Coverage) -> Result<u64, Difference> {
    let (all, few) = (Damaged::new("s r c60 c61 c62 c63 d00 d68 d55 a aAA a10..4F a10..50"), Damaged::new("d68"));
    let (request, response) = (std::array::from_fn(|i| i as u8 + 1), std::array::from_fn(|i| i as u8 + 0x81));
    let base = Record { phase: 0, command: 1, full: 1, output: 0x99, fault: 6, length: 3, next: 2, end: 5, request, response };
    let mut count = 0;
    let mut hold = |damaged: &Damaged, record: Record| {
        count += 1;
        damaged.on(record, coverage).map_err(|d| Difference { what: format!("{}, of {record:02X?}", d.what), ..d })
    };
    for value in 0..=255 {
        hold(&all, Record { phase: value, ..base })?;
        for phase in [0, 1, 2, 3, 4, 5, 6, 7, 8, 0x7f, 0x80, 0xff] {
            let base = Record { phase, ..base };
            hold(&all, Record { command: value, ..base })?;
            hold(&all, Record { full: value, ..base })?;
            hold(&all, Record { output: value, ..base })?;
            hold(&all, Record { fault: value, ..base })?;
            hold(&all, Record { length: value, ..base })?;
        }
        for end in 0..=255 {
            hold(&few, Record { phase: 4, next: value, end, ..base })?;
        }
    }
    Ok(count)
}

fn compare(first: u64, rounds: u64) -> Result<Coverage, Difference> {
    let mut reached = Reached { coverage: Coverage::default(), probes: PROBES.map(accesses) };
    reached.in_every_phase()?;
    reached.of_every_length()?;
    let records = of_damaged_records(&mut reached.coverage)?;
    for seed in first..first + rounds {
        reached.at_random(&mut Random(seed.wrapping_mul(0x1234_5678_9abc_def1)))?;
    }
    let last = first + rounds - 1;
    println!(
        "kcs: {} ways into {} phases, {records} records that no access leaves, seeds {first} to {last}: no difference",
        2 * WAYS.len(),
        PHASES.len()
    );
    Ok(reached.coverage)
}

fn main() {
    let numbers: Vec<u64> = std::env::args().skip(1).map(|argument| argument.parse().expect("kcs SEED ROUNDS")).collect();
    let [first, rounds] = numbers[..] else { panic!("kcs SEED ROUNDS") };
    let coverage = compare(first, rounds).unwrap_or_else(|Difference { what, list }| {
        println!("kcs: {what}\nby: {}", list.iter().map(Access::to_string).collect::<Vec<_>>().join(" "));
        std::process::exit(1);
    });
    assert!(coverage.is_full(), "an access was not tried in some phase, or a phase was reached with another status");
}
