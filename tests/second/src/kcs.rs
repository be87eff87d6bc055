//! The controller's side of a KCS port: section 9 of 001 under the house rules of
//! ticket 3 of 02 and that ticket's readings. What stands in quotes is the
//! ticket's wording. Its codes are in hex, and so are they here.

/// Most bytes in a request and in a response.
pub const MOST: usize = 64;

/// Control codes for the command register.
const GET_STATUS: u8 = 0x60;
const WRITE_START: u8 = 0x61;
const WRITE_END: u8 = 0x62;
/// The control code that is written as data.
const READ: u8 = 0x68;
/// What the published recovery writes as data after 60.
const TELL: u8 = 0x00;

/// Bits 7 and 6 of the status register.
const STATE: u8 = 0xC0;
const IDLE_STATE: u8 = 0x00;
const READ_STATE: u8 = 0x40;
const WRITE_STATE: u8 = 0x80;
const ERROR_STATE: u8 = 0xC0;
/// C/D#: the last write was a command.
const COMMAND: u8 = 0x08;
/// A write is not yet seen by the controller. Here each is seen at once, so that
/// only the host knows the bit.
const IBF: u8 = 0x02;
/// Data_Out has a byte that the host has not read.
const OBF: u8 = 0x01;

/// What Data_Out gets "where the standard names no byte".
const DUMMY: u8 = 0x00;

/// The status codes that 60 and 00 fetch.
const NO_ERROR: u8 = 0x00;
const ABORTED: u8 = 0x01;
const WRONG_CODE: u8 = 0x02;
const TOO_LONG: u8 = 0x06;

/// Where the host is in the published flows.
#[derive(Clone, Copy, Debug, PartialEq, Eq, Hash, PartialOrd, Ord)]
pub enum Phase {
    Idle,
    /// 61 came, 62 did not.
    Write,
    /// 62 came, the last byte did not.
    Last,
    /// A message is complete, its response did not come.
    Awaited,
    /// A byte of the response is in Data_Out, or was and has been read.
    Read,
    /// 60 came, its 00 did not.
    Abort,
    /// The status code is in Data_Out, or was and has been read.
    Told,
    /// A write was refused.
    Error,
}

pub const PHASES: &[Phase] = &[
    Phase::Idle,
    Phase::Write,
    Phase::Last,
    Phase::Awaited,
    Phase::Read,
    Phase::Abort,
    Phase::Told,
    Phase::Error,
];

impl Phase {
    /// Bits 7 and 6 of the status register in this phase.
    #[inline]
    fn state(self) -> u8 {
        match self {
            Phase::Idle => IDLE_STATE,
            Phase::Write | Phase::Last | Phase::Abort => WRITE_STATE,
            Phase::Awaited | Phase::Read | Phase::Told => READ_STATE,
            Phase::Error => ERROR_STATE,
        }
    }
}

#[derive(Clone, Debug, PartialEq, Eq)]
pub struct Port {
    phase: Phase,
    /// The register as the host reads it.
    status: u8,
    /// Data_Out. It is 00 whenever OBF is clear, so that a read need not ask.
    out: u8,
    /// What 60 and 00 tell: "that of the last error since idle or 61, otherwise
    /// 01 if 61 came since idle, else 00". So idle makes it 00, 61 makes it 01, an
    /// error its own code, and nothing else touches it.
    told: u8,
    /// The bytes of the request that came since 61.
    taken: usize,
    /// The length of the message last completed, 0 from 61 on.
    length: usize,
    /// The length of the response.
    answer: usize,
    /// The bytes of the response that have been put into Data_Out.
    sent: usize,
    request: [u8; MOST],
    response: [u8; MOST],
}

impl Port {
    /// "all status bits are 0 at first"
    pub fn new() -> Port {
        Port {
            phase: Phase::Idle,
            status: 0,
            out: DUMMY,
            told: NO_ERROR,
            taken: 0,
            length: 0,
            answer: 0,
            sent: 0,
            request: [0; MOST],
            response: [0; MOST],
        }
    }

    /// For comparisons and a coverage table: no host sees it.
    #[inline]
    pub fn phase(&self) -> Phase {
        self.phase
    }

    /// The host reads the status register.
    #[inline]
    pub fn status(&self) -> u8 {
        self.status
    }

    /// The host reads Data_Out. "a read with OBF clear gives 00 and changes
    /// nothing": bit and byte are 0 already then.
    #[inline]
    pub fn read_data(&mut self) -> u8 {
        self.status &= !OBF;
        std::mem::replace(&mut self.out, DUMMY)
    }

    /// The host writes the command register. "60 and 61 are taken in every state,
    /// 62 once in the write phase that 61 opens; any other command [...] is a wrong
    /// code". C/D# follows the write whether it is taken or not.
    #[inline]
    pub fn write_command(&mut self, code: u8) {
        self.status |= COMMAND;
        match (code, self.phase) {
            (GET_STATUS, _) => self.put(Phase::Abort, DUMMY),
            (WRITE_START, _) => self.start(),
            (WRITE_END, Phase::Write) => self.put(Phase::Last, DUMMY),
            _ => self.refuse(WRONG_CODE),
        }
    }

    /// The host writes Data_In; answers the length of the message that this
    /// completes, otherwise 0. "data while a response is awaited, and data the
    /// published flow doesn't write there, is a wrong code, OBF aside": nothing here
    /// looks at OBF. C/D# follows the write whether it is taken or not.
    #[inline]
    pub fn write_data(&mut self, byte: u8) -> usize {
        self.status &= !COMMAND;
        match (self.phase, byte) {
            (Phase::Write | Phase::Last, _) => return self.take(byte),
            (Phase::Read, READ) => self.next(),
            (Phase::Abort, TELL) => self.put(Phase::Told, self.told),
            (Phase::Told, READ) => self.idle(),
            _ => self.refuse(WRONG_CODE),
        }
        0
    }

    /// The bytes of the message last completed, "exactly the bytes of its write
    /// phase", until the next 61; none before the first one and after 61.
    #[inline]
    pub fn message(&self) -> &[u8] {
        &self.request[..self.length]
    }

    /// The controller's answer to the message. "one over 64 bytes or not awaited is
    /// refused, changing nothing". C/D# tells of writes, so it stays.
    #[inline]
    pub fn respond(&mut self, response: &[u8]) -> bool {
        if self.phase != Phase::Awaited || response.len() > MOST {
            return false;
        }
        self.response[..response.len()].copy_from_slice(response);
        self.answer = response.len();
        self.sent = 0;
        // "An empty response leads to idle with OBF set on 00", just as going past
        // the last byte of any other does.
        self.next();
        true
    }

    /// The end of each write but the one that completes a message: "each other sets
    /// it [OBF], with 00 where the standard names no byte".
    #[inline]
    fn put(&mut self, phase: Phase, byte: u8) {
        self.phase = phase;
        self.out = byte;
        self.status = phase.state() | (self.status & COMMAND) | OBF;
    }

    /// 61 opens a write phase. Errors before it count no longer.
    #[inline]
    fn start(&mut self) {
        self.told = ABORTED;
        self.taken = 0;
        self.length = 0;
        self.put(Phase::Write, DUMMY);
    }

    /// Takes a byte of the request, whatever it is. "a request beyond 64 bytes (06)":
    /// the 65th is refused, before 62 and after it.
    #[inline]
    fn take(&mut self, byte: u8) -> usize {
        let Some(place) = self.request.get_mut(self.taken) else {
            self.refuse(TOO_LONG);
            return 0;
        };
        *place = byte;
        self.taken += 1;
        if self.phase == Phase::Write {
            self.put(Phase::Write, DUMMY);
            return 0;
        }
        self.complete()
    }

    /// "a write that completes a message clears OBF": it is the last byte's, and the
    /// state is READ from here on, though there is nothing to read yet.
    #[inline]
    fn complete(&mut self) -> usize {
        self.phase = Phase::Awaited;
        self.out = DUMMY;
        self.status = READ_STATE;
        self.length = self.taken;
        self.length
    }

    /// Puts out the next byte of the response; after the last one the port is idle.
    #[inline]
    fn next(&mut self) {
        if self.sent == self.answer {
            return self.idle();
        }
        let byte = self.response[self.sent];
        self.sent += 1;
        self.put(Phase::Read, byte);
    }

    /// Errors and 61 count "since idle", so that coming here forgets them. The OBF
    /// lets the host see the change (001, 9.14).
    #[inline]
    fn idle(&mut self) {
        self.told = NO_ERROR;
        self.put(Phase::Idle, DUMMY);
    }

    /// "Refusals: [...] both the error state, with that status after 60."
    #[inline]
    fn refuse(&mut self, code: u8) {
        self.told = code;
        self.put(Phase::Error, DUMMY);
    }
}

/// A host that follows the published flow charts, for tests: 001's 9.11 and 9.15
/// to 9.18 and the figures 9-6 to 9-8 of IPMI 2.0 that they refer to. 001's text
/// has not the figures themselves: they are followed as generally known. The host
/// knows the port by its four accesses only.
pub mod host {
    use super::{Port, TELL, WRITE_END, WRITE_START, WRITE_STATE};
    use super::{GET_STATUS, IBF, IDLE_STATE, OBF, READ, READ_STATE, STATE};

    /// Looks after which a wait loop is given up: "All system software wait loops
    /// should include error timeouts" (001, 9.15).
    pub const LOOKS: usize = 1000;

    /// The host's accesses.
    pub trait Registers {
        fn status(&mut self) -> u8;
        fn read_data(&mut self) -> u8;
        fn write_command(&mut self, code: u8);
        fn write_data(&mut self, byte: u8);
    }

    /// A port without more; its message tells what a write transfer completed.
    impl Registers for Port {
        fn status(&mut self) -> u8 {
            Port::status(self)
        }

        fn read_data(&mut self) -> u8 {
            Port::read_data(self)
        }

        fn write_command(&mut self, code: u8) {
            Port::write_command(self, code);
        }

        fn write_data(&mut self, byte: u8) {
            Port::write_data(self, byte);
        }
    }

    #[derive(Clone, Copy, Debug, PartialEq, Eq)]
    pub enum Failure {
        /// The chart's error exit: this status has not the state that it asks for.
        State(u8),
        /// A wait loop was given up; this is the last status that it saw.
        Wait(u8),
        /// The charts write no message without a last byte. No access was made.
        Empty,
        /// The response has more bytes than there is room for.
        Room,
    }

    /// A wait loop: looks until these bits are so.
    fn wait<R: Registers>(port: &mut R, bits: u8, value: u8) -> Result<u8, Failure> {
        let mut status = 0;
        for _ in 0..LOOKS {
            status = port.status();
            if status & bits == value {
                return Ok(status);
            }
        }
        Err(Failure::Wait(status))
    }

    /// "Wait for IBF=0", then the question for the state.
    fn expect<R: Registers>(port: &mut R, state: u8) -> Result<u8, Failure> {
        let status = wait(port, IBF, 0)?;
        if status & STATE != state {
            return Err(Failure::State(status));
        }
        Ok(status)
    }

    /// "If OBF=1, Clear OBF by reading Data_Out register" (001, 9.18).
    fn clear<R: Registers>(port: &mut R, status: u8) {
        if status & OBF != 0 {
            port.read_data();
        }
    }

    /// What follows each write of a write transfer but the last.
    fn writing<R: Registers>(port: &mut R) -> Result<(), Failure> {
        let status = expect(port, WRITE_STATE)?;
        clear(port, status);
        Ok(())
    }

    /// "Wait for OBF=1", then the read.
    fn fetch<R: Registers>(port: &mut R) -> Result<u8, Failure> {
        wait(port, OBF, OBF)?;
        Ok(port.read_data())
    }

    /// Figure 9-6, up to and with the write of the last byte: what is seen after
    /// that belongs to figure 9-7.
    pub fn write_transfer<R: Registers>(port: &mut R, message: &[u8]) -> Result<(), Failure> {
        let (&last, others) = message.split_last().ok_or(Failure::Empty)?;
        let status = wait(port, IBF, 0)?;
        clear(port, status);
        port.write_command(WRITE_START);
        writing(port)?;
        for &byte in others {
            port.write_data(byte);
            writing(port)?;
        }
        port.write_command(WRITE_END);
        writing(port)?;
        port.write_data(last);
        Ok(())
    }

    /// Figure 9-7: the length of the response, which is put into `response`.
    pub fn read_transfer<R: Registers>(
        port: &mut R,
        response: &mut [u8],
    ) -> Result<usize, Failure> {
        let mut length = 0;
        loop {
            let status = wait(port, IBF, 0)?;
            match status & STATE {
                READ_STATE => {
                    let byte = fetch(port)?;
                    *response.get_mut(length).ok_or(Failure::Room)? = byte;
                    length += 1;
                    port.write_data(READ);
                }
                IDLE_STATE => {
                    fetch(port)?;
                    return Ok(length);
                }
                _ => return Err(Failure::State(status)),
            }
        }
    }

    /// Figure 9-8 without its retries: the status code that it fetched.
    pub fn abort<R: Registers>(port: &mut R) -> Result<u8, Failure> {
        wait(port, IBF, 0)?;
        port.write_command(GET_STATUS);
        writing(port)?;
        port.write_data(TELL);
        expect(port, READ_STATE)?;
        let code = fetch(port)?;
        port.write_data(READ);
        expect(port, IDLE_STATE)?;
        fetch(port)?;
        Ok(code)
    }
}

#[cfg(test)]
mod tests {
    use super::host::{abort, read_transfer, write_transfer, Failure, Registers, LOOKS};
    use super::{Phase, Port, MOST, PHASES};

    // ------------------------------------------------------------ lists

    fn hex(digits: &str) -> Vec<u8> {
        let pairs = digits.as_bytes().chunks(2);
        pairs
            .map(|pair| u8::from_str_radix(std::str::from_utf8(pair).unwrap(), 16).unwrap())
            .collect()
    }

    /// Does the accesses of a list: c61 is a command, d05 data, d05*64 that 64
    /// times, r a read, aAABB the controller's answer.
    fn go(port: &mut Port, list: &str) {
        for word in list.split_whitespace() {
            let (access, times) = word.split_once('*').unwrap_or((word, "1"));
            let bytes = hex(&access[1..]);
            for _ in 0..times.parse().unwrap() {
                match &access[..1] {
                    "c" => port.write_command(bytes[0]),
                    "d" => Registers::write_data(port, bytes[0]),
                    "r" => {
                        port.read_data();
                    }
                    "a" => assert!(port.respond(&bytes)),
                    _ => panic!("{word}"),
                }
            }
        }
    }

    fn after(list: &str) -> Port {
        let mut port = Port::new();
        go(&mut port, list);
        port
    }

    /// What a list leads to: the phase, the status register, Data_Out, and what 60
    /// and 00 tell then.
    struct Row(Phase, &'static str, u8, u8, u8);

    /// All of it from the ticket and its readings.
    const ROWS: &[Row] = &[
        // "all status bits are 0 at first"
        Row(Phase::Idle, "", 0x00, 0x00, 0x00),
        Row(Phase::Idle, "r", 0x00, 0x00, 0x00),
        // The recovery leads to idle, which forgets 61 and errors.
        Row(Phase::Idle, "c60 d00 d68", 0x01, 0x00, 0x00),
        Row(Phase::Idle, "c60 r d00 r d68 r", 0x00, 0x00, 0x00),
        Row(Phase::Idle, "c61 c60 d00 d68", 0x01, 0x00, 0x00),
        Row(Phase::Idle, "c63 c60 d00 d68", 0x01, 0x00, 0x00),
        Row(Phase::Idle, "c61 d5A*65 c60 d00 d68", 0x01, 0x00, 0x00),
        // "An empty response leads to idle with OBF set on 00"
        Row(Phase::Idle, "c61 c62 d01 a", 0x01, 0x00, 0x00),
        Row(Phase::Idle, "c61 c62 d01 a r", 0x00, 0x00, 0x00),
        // Idle also after the last byte of any other.
        Row(Phase::Idle, "c61 c62 d01 aAA d68", 0x01, 0x00, 0x00),
        Row(Phase::Idle, "c61 r d01 r c62 r d02 aAABB r d68 r d68 r", 0x00, 0x00, 0x00),
        Row(Phase::Idle, "c63 c61 c62 d01 aAA r d68", 0x01, 0x00, 0x00),
        // 61 "in every state"; it forgets errors, and is told as 01.
        Row(Phase::Write, "c61", 0x89, 0x00, 0x01),
        Row(Phase::Write, "c61 r", 0x88, 0x00, 0x01),
        Row(Phase::Write, "c61 d01", 0x81, 0x00, 0x01),
        Row(Phase::Write, "c61 r d01 r", 0x80, 0x00, 0x01),
        Row(Phase::Write, "c61 d5A*64", 0x81, 0x00, 0x01),
        Row(Phase::Write, "c63 c61", 0x89, 0x00, 0x01),
        Row(Phase::Write, "c61 d5A*65 c61", 0x89, 0x00, 0x01),
        Row(Phase::Write, "c61 d01 c62 c61 d02", 0x81, 0x00, 0x01),
        Row(Phase::Write, "c60 c61", 0x89, 0x00, 0x01),
        Row(Phase::Write, "c60 d00 c61", 0x89, 0x00, 0x01),
        Row(Phase::Write, "c61 c62 d01 c61", 0x89, 0x00, 0x01),
        Row(Phase::Write, "c61 c62 d01 aAABB c61", 0x89, 0x00, 0x01),
        // "62 once in the write phase that 61 opens", and straight after 61 too.
        Row(Phase::Last, "c61 c62", 0x89, 0x00, 0x01),
        Row(Phase::Last, "c61 c62 r", 0x88, 0x00, 0x01),
        Row(Phase::Last, "c61 r d01 r c62 r", 0x88, 0x00, 0x01),
        Row(Phase::Last, "c61 d5A*64 c62", 0x89, 0x00, 0x01),
        // "a write that completes a message clears OBF", the state being READ.
        Row(Phase::Awaited, "c61 c62 d01", 0x40, 0x00, 0x01),
        Row(Phase::Awaited, "c61 c62 d01 r", 0x40, 0x00, 0x01),
        Row(Phase::Awaited, "c61 r d01 r c62 r d02", 0x40, 0x00, 0x01),
        Row(Phase::Awaited, "c61 d5A*63 c62 d5A", 0x40, 0x00, 0x01),
        Row(Phase::Awaited, "c63 c61 c62 d01", 0x40, 0x00, 0x01),
        // The response; a 68 with OBF still set goes on to the next byte.
        Row(Phase::Read, "c61 c62 d01 aAA", 0x41, 0xAA, 0x01),
        Row(Phase::Read, "c61 c62 d01 aAABB", 0x41, 0xAA, 0x01),
        Row(Phase::Read, "c61 c62 d01 aAABB r", 0x40, 0x00, 0x01),
        Row(Phase::Read, "c61 c62 d01 aAABB r d68", 0x41, 0xBB, 0x01),
        Row(Phase::Read, "c61 c62 d01 aAABB d68", 0x41, 0xBB, 0x01),
        Row(Phase::Read, "c61 c62 d01 aAABB r d68 r", 0x40, 0x00, 0x01),
        Row(Phase::Read, "c63 c61 c62 d01 aAABB", 0x41, 0xAA, 0x01),
        // "60 leads to the write state", from every state, and forgets nothing.
        Row(Phase::Abort, "c60", 0x89, 0x00, 0x00),
        Row(Phase::Abort, "c60 r", 0x88, 0x00, 0x00),
        Row(Phase::Abort, "c60 c60", 0x89, 0x00, 0x00),
        Row(Phase::Abort, "c61 c60", 0x89, 0x00, 0x01),
        Row(Phase::Abort, "c61 c60 c60", 0x89, 0x00, 0x01),
        Row(Phase::Abort, "c61 c62 c60", 0x89, 0x00, 0x01),
        Row(Phase::Abort, "c61 c62 d01 c60", 0x89, 0x00, 0x01),
        Row(Phase::Abort, "c61 c62 d01 aAABB c60", 0x89, 0x00, 0x01),
        Row(Phase::Abort, "c61 c60 d00 c60", 0x89, 0x00, 0x01),
        Row(Phase::Abort, "c63 c60", 0x89, 0x00, 0x02),
        Row(Phase::Abort, "c63 c60 c60", 0x89, 0x00, 0x02),
        Row(Phase::Abort, "c61 c60 d68 c60", 0x89, 0x00, 0x02),
        Row(Phase::Abort, "c61 d5A*65 c60 r", 0x88, 0x00, 0x06),
        Row(Phase::Abort, "c61 d5A*65 c60 d00 c60", 0x89, 0x00, 0x06),
        // Its status is read after 00.
        Row(Phase::Told, "c60 d00", 0x41, 0x00, 0x00),
        Row(Phase::Told, "c60 d00 r", 0x40, 0x00, 0x00),
        Row(Phase::Told, "c61 c60 r d00", 0x41, 0x01, 0x01),
        Row(Phase::Told, "c61 c60 c60 d00", 0x41, 0x01, 0x01),
        Row(Phase::Told, "c63 c60 d00", 0x41, 0x02, 0x02),
        Row(Phase::Told, "c61 d5A*65 c60 d00", 0x41, 0x06, 0x06),
        Row(Phase::Told, "c61 d5A*65 c60 d00 r", 0x40, 0x00, 0x06),
        // "a wrong code (02)": any other command, 62 a second time or elsewhere.
        Row(Phase::Error, "c63", 0xC9, 0x00, 0x02),
        Row(Phase::Error, "c63 r", 0xC8, 0x00, 0x02),
        Row(Phase::Error, "c62", 0xC9, 0x00, 0x02),
        Row(Phase::Error, "c61 c68", 0xC9, 0x00, 0x02),
        Row(Phase::Error, "c61 c62 c62", 0xC9, 0x00, 0x02),
        Row(Phase::Error, "c61 d5A*64 c62 c62", 0xC9, 0x00, 0x02),
        Row(Phase::Error, "c61 c62 d01 c62", 0xC9, 0x00, 0x02),
        Row(Phase::Error, "c61 c62 d01 aAABB c62", 0xC9, 0x00, 0x02),
        Row(Phase::Error, "c60 c62", 0xC9, 0x00, 0x02),
        Row(Phase::Error, "c60 d00 c62", 0xC9, 0x00, 0x02),
        // "data while a response is awaited", 68 too.
        Row(Phase::Error, "c61 c62 d01 d68", 0xC1, 0x00, 0x02),
        Row(Phase::Error, "c61 c62 d01 d00", 0xC1, 0x00, 0x02),
        // "data the published flow doesn't write there"
        Row(Phase::Error, "d00", 0xC1, 0x00, 0x02),
        Row(Phase::Error, "d68", 0xC1, 0x00, 0x02),
        Row(Phase::Error, "d68 r", 0xC0, 0x00, 0x02),
        Row(Phase::Error, "c63 d68", 0xC1, 0x00, 0x02),
        Row(Phase::Error, "c60 d68", 0xC1, 0x00, 0x02),
        Row(Phase::Error, "c60 d00 d00", 0xC1, 0x00, 0x02),
        Row(Phase::Error, "c60 d00 d68 d68", 0xC1, 0x00, 0x02),
        Row(Phase::Error, "c61 c62 d01 aAABB d00", 0xC1, 0x00, 0x02),
        Row(Phase::Error, "c61 c62 d01 a d68", 0xC1, 0x00, 0x02),
        // "a request beyond 64 bytes (06)"; what follows in the error state is a
        // wrong code, and that is the last error then.
        Row(Phase::Error, "c61 d5A*65", 0xC1, 0x00, 0x06),
        Row(Phase::Error, "c61 d5A*65 r", 0xC0, 0x00, 0x06),
        Row(Phase::Error, "c61 d5A*64 c62 d5A", 0xC1, 0x00, 0x06),
        Row(Phase::Error, "c61 d5A*66", 0xC1, 0x00, 0x02),
        Row(Phase::Error, "c61 d5A*65 c62", 0xC9, 0x00, 0x02),
    ];

    #[test]
    fn the_rows_come_true() {
        for &Row(phase, list, status, out, told) in ROWS {
            let mut port = after(list);
            assert_eq!((port.phase(), port.status()), (phase, status), "{list}");
            for asking in ["c60 d00", "c60 r d00", "c60 c60 d00", "c60 d00 c60 d00"] {
                let mut port = port.clone();
                go(&mut port, asking);
                assert_eq!((port.status(), port.read_data()), (0x41, told), "{list} {asking}");
            }
            assert_eq!(port.read_data(), out, "{list}");
            assert_eq!(port.status(), status & 0xFE, "{list}");
        }
        for phase in PHASES {
            assert!(ROWS.iter().filter(|row| row.0 == *phase).count() > 3, "{phase:?}");
        }
    }

    // ------------------------------------------- each access in each state

    /// "60 and 61 are taken in every state, 62 once in the write phase that 61
    /// opens; any other command [...] is a wrong code"; C/D# and OBF are set.
    #[test]
    fn any_command_after_each_row() {
        for &Row(phase, list, ..) in ROWS {
            for code in 0..=255 {
                let mut port = after(list);
                port.write_command(code);
                let taken = code == 0x60 || code == 0x61 || (code == 0x62 && phase == Phase::Write);
                let status = if taken { 0x89 } else { 0xC9 };
                assert_eq!(port.status(), status, "{list} c{code:02X}");
                assert_eq!(port.read_data(), 0x00, "{list} c{code:02X}");
                if !taken {
                    assert_eq!(abort(&mut port), Ok(0x02), "{list} c{code:02X}");
                }
            }
        }
    }

    /// Which data the published flow writes in each phase, and the state after it;
    /// none: a wrong code.
    fn state_after_data(phase: Phase, byte: u8) -> Option<&'static [u8]> {
        match (phase, byte) {
            (Phase::Write, _) => Some(&[0x81, 0xC1]),
            (Phase::Last, _) => Some(&[0x40, 0xC1]),
            (Phase::Read, 0x68) => Some(&[0x41, 0x01]),
            (Phase::Abort, 0x00) => Some(&[0x41]),
            (Phase::Told, 0x68) => Some(&[0x01]),
            _ => None,
        }
    }

    /// C/D# is clear after it; what exactly it leads to where two things are
    /// possible is in the rows and in the tests of lengths.
    #[test]
    fn any_data_after_each_row() {
        for &Row(phase, list, ..) in ROWS {
            for byte in 0..=255 {
                let mut port = after(list);
                let length = port.write_data(byte);
                let status = port.status();
                let Some(possible) = state_after_data(phase, byte) else {
                    assert_eq!((status, length), (0xC1, 0), "{list} d{byte:02X}");
                    assert_eq!(port.read_data(), 0x00, "{list} d{byte:02X}");
                    assert_eq!(abort(&mut port), Ok(0x02), "{list} d{byte:02X}");
                    continue;
                };
                assert!(possible.contains(&status), "{list} d{byte:02X}: {status:02X}");
                assert_eq!(length > 0, status == 0x40, "{list} d{byte:02X}");
            }
        }
    }

    /// "a read with OBF clear gives 00 and changes nothing"; one with OBF set clears
    /// OBF and changes nothing else, so that a second one changes nothing.
    #[test]
    fn reads_after_each_row() {
        for &Row(phase, list, status, out, _) in ROWS {
            let start = after(list);
            let mut port = start.clone();
            assert_eq!(port.read_data(), out);
            if status & 0x01 == 0 {
                assert_eq!((port.clone(), out), (start, 0x00), "{list}");
            }
            assert_eq!((port.phase(), port.status()), (phase, status & 0xFE), "{list}");
            let once = port.clone();
            assert_eq!((port.read_data(), port), (0x00, once), "{list}");
        }
    }

    /// "OBF aside": what follows is the same whether the host read before or not.
    #[test]
    fn unread_bytes_hinder_no_write() {
        for &Row(_, list, ..) in ROWS {
            for next in ["c60", "c61", "c62", "c63", "d00", "d68", "d5A"] {
                let (mut read, mut unread) = (after(list), after(list));
                read.read_data();
                go(&mut read, next);
                go(&mut unread, next);
                assert_eq!(read, unread, "{list} {next}");
            }
        }
    }

    /// "one over 64 bytes or not awaited is refused, changing nothing"
    #[test]
    fn answers_after_each_row() {
        for &Row(phase, list, ..) in ROWS {
            let start = after(list);
            for length in [0, 1, 2, 63, 64, 65, 66, 1000] {
                let mut port = start.clone();
                let response: Vec<u8> = (1..=length).map(|n| n as u8).collect();
                let taken = phase == Phase::Awaited && length <= 64;
                assert_eq!(port.respond(&response), taken, "{list} {length}");
                let expected = match (taken, length) {
                    (false, _) => (start.status(), start.clone().read_data()),
                    (true, 0) => (0x01, 0x00),
                    (true, _) => (0x41, 0x01),
                };
                assert!(taken || port == start, "{list} {length}");
                assert_eq!((port.status(), port.read_data()), expected, "{list} {length}");
                assert_eq!(port.respond(&[]), phase == Phase::Awaited && !taken, "{list} {length}");
            }
        }
    }

    // ------------------------------------------------------------ lengths

    /// "A message is handed over with its last byte, as exactly the bytes of its
    /// write phase", control codes among them; the 65th is the length error.
    #[test]
    fn requests_of_all_lengths() {
        let codes = [0x60, 0x61, 0x62, 0x68, 0x00, 0xFF];
        let bytes: Vec<u8> = (0..66).map(|n| codes.get(n).map_or(n as u8, |&code| code)).collect();
        let mut port = after("c61 d11 d22 c62 d33");
        for length in 1..=66 {
            port.write_command(0x61);
            for (place, &byte) in bytes[..length - 1].iter().enumerate() {
                assert_eq!(port.write_data(byte), 0);
                let status = if place < 64 { 0x81 } else { 0xC1 };
                assert_eq!(port.status(), status);
            }
            port.write_command(0x62);
            if length <= 64 {
                assert_eq!(port.write_data(bytes[length - 1]), length);
                assert_eq!((port.status(), port.message()), (0x40, &bytes[..length]));
            } else {
                assert_eq!(port.write_data(bytes[length - 1]), 0);
                assert_eq!((port.status(), port.read_data()), (0xC1, 0x00));
                // 65: the last byte itself. 66: 62 and the byte came in the error
                // state already.
                assert_eq!(abort(&mut port), Ok(if length == 65 { 0x06 } else { 0x02 }));
            }
        }
    }

    /// It is a new message that 61 opens, also in the middle of another one.
    #[test]
    fn a_second_61_starts_anew() {
        let port = after("c61 d01 d02 c61 d03 c62 d04");
        assert_eq!(port.message(), [0x03, 0x04]);
        let port = after("c61 d5A*64 c61 d5B*63 c62 d5C");
        assert_eq!((port.message().len(), port.status()), (64, 0x40));
        let port = after("c61 d5A*65 c61 c62 d5C");
        assert_eq!(port.message(), [0x5C]);
    }

    #[test]
    fn a_message_stays_until_61() {
        assert_eq!(Port::new().message(), []);
        let mut port = after("c61 d01 c62 d02");
        for list in ["", "r", "aAABB", "r d68", "d68", "r", "d05", "c62", "c60", "d00", "d68"] {
            go(&mut port, list);
            assert_eq!(port.message(), [0x01, 0x02], "{list}");
        }
        go(&mut port, "c61");
        assert_eq!(port.message(), []);
    }

    /// "the published read gets exactly the response's" bytes.
    #[test]
    fn responses_of_all_lengths() {
        let codes = [0x68, 0x60, 0x61, 0x62, 0x00, 0xFF];
        let bytes: Vec<u8> = (0..64).map(|n| codes.get(n).map_or(n as u8, |&code| code)).collect();
        for length in 0..=64 {
            let mut port = after("c61 c62 d01");
            assert!(port.respond(&bytes[..length]));
            let mut got = [0; MOST];
            assert_eq!(read_transfer(&mut port, &mut got), Ok(length));
            assert_eq!((&got[..length], port.status()), (&bytes[..length], 0x00));
            // Idle, so that neither 61 nor an error is told.
            assert_eq!(abort(&mut port), Ok(0x00));
        }
    }

    // ---------------------------------------------------------- the host

    #[derive(Clone, Debug, PartialEq, Eq)]
    enum Access {
        Look,
        Read,
        Command(u8),
        Data(u8),
    }

    use Access::{Command, Data, Look, Read};

    /// A port that keeps its accesses and the messages that it handed over.
    struct Wire {
        port: Port,
        log: Vec<Access>,
        messages: Vec<Vec<u8>>,
    }

    impl Wire {
        fn to(port: Port) -> Wire {
            Wire { port, log: Vec::new(), messages: Vec::new() }
        }

        fn without_looks(&self) -> Vec<Access> {
            self.log.iter().filter(|access| **access != Look).cloned().collect()
        }
    }

    impl Registers for Wire {
        fn status(&mut self) -> u8 {
            self.log.push(Look);
            self.port.status()
        }

        fn read_data(&mut self) -> u8 {
            self.log.push(Read);
            self.port.read_data()
        }

        fn write_command(&mut self, code: u8) {
            self.log.push(Command(code));
            self.port.write_command(code);
        }

        fn write_data(&mut self, byte: u8) {
            self.log.push(Data(byte));
            let length = self.port.write_data(byte);
            if length > 0 {
                assert_eq!(self.port.message().len(), length);
                self.messages.push(self.port.message().to_vec());
            }
        }
    }

    /// The charts' accesses, a look before each.
    #[test]
    fn the_host_follows_the_charts() {
        let mut wire = Wire::to(Port::new());
        assert_eq!(write_transfer(&mut wire, &[0x18, 0x01]), Ok(()));
        let mut expected = vec![Look, Command(0x61)];
        expected.extend([Look, Read, Data(0x18), Look, Read, Command(0x62)]);
        expected.extend([Look, Read, Data(0x01)]);
        assert_eq!(wire.log, expected);
        assert_eq!(wire.messages, [[0x18, 0x01]]);

        assert!(wire.port.respond(&[0x1C, 0x05]));
        wire.log.clear();
        let mut response = [0; 2];
        assert_eq!(read_transfer(&mut wire, &mut response), Ok(2));
        assert_eq!(response, [0x1C, 0x05]);
        let byte = [Look, Look, Read, Data(0x68)];
        let expected = [&byte[..], &byte[..], &[Look, Look, Read]].concat();
        assert_eq!(wire.log, expected);

        wire.log.clear();
        assert_eq!(abort(&mut wire), Ok(0x00));
        let mut expected = vec![Look, Command(0x60), Look, Read, Data(0x00)];
        expected.extend([Look, Look, Read, Data(0x68), Look, Look, Read]);
        assert_eq!(wire.log, expected);
    }

    /// "the published recovery, its 60 included, returns to idle from any state
    /// within six host accesses, status reads not counted".
    #[test]
    fn recovery_after_each_row() {
        for &Row(_, list, _, _, told) in ROWS {
            let mut wire = Wire::to(after(list));
            recovers(&mut wire, told);
        }
    }

    fn recovers(wire: &mut Wire, told: u8) {
        assert_eq!(abort(wire), Ok(told));
        let six = [Command(0x60), Read, Data(0x00), Read, Data(0x68), Read];
        assert_eq!(wire.without_looks(), six);
        assert_eq!((wire.port.phase(), wire.port.status()), (Phase::Idle, 0x00));
        assert_eq!(wire.messages.len(), 0);
        assert_eq!(abort(wire), Ok(0x00));
    }

    #[test]
    fn transfers_after_each_row() {
        for &Row(_, list, ..) in ROWS {
            for length in [1, 2, 63, 64] {
                let request: Vec<u8> = (0..length).map(|n| 0x60 + n).collect();
                let response: Vec<u8> = (0..64 - length).map(|n| 0x68 - n).collect();
                transfers(&mut Wire::to(after(list)), &request, &response);
            }
        }
    }

    /// A whole exchange by the charts; it ends idle with all forgotten.
    fn transfers(wire: &mut Wire, request: &[u8], response: &[u8]) {
        assert_eq!(write_transfer(wire, request), Ok(()));
        assert_eq!(wire.messages, [request]);
        assert_eq!(wire.port.status(), 0x40);
        assert!(wire.port.respond(response));
        let mut got = [0; MOST];
        assert_eq!(read_transfer(wire, &mut got), Ok(response.len()));
        assert_eq!(&got[..response.len()], response);
        assert_eq!(wire.port.status(), 0x00);
        assert_eq!(wire.messages.len(), 1);
        assert_eq!(abort(wire), Ok(0x00));
    }

    /// The state that the charts ask for is missing after the 65th byte.
    #[test]
    fn too_long_transfers_end_in_the_error_exit() {
        let mut port = Port::new();
        assert_eq!(write_transfer(&mut port, &[0x5A; 65]), Ok(()));
        assert_eq!(read_transfer(&mut port, &mut [0; 64]), Err(Failure::State(0xC1)));
        assert_eq!(abort(&mut port), Ok(0x06));
        assert_eq!(write_transfer(&mut port, &[0x5A; 66]), Err(Failure::State(0xC1)));
        assert_eq!(abort(&mut port), Ok(0x06));
    }

    #[test]
    fn the_host_gives_up() {
        // No response comes.
        let mut wire = Wire::to(after("c61 c62 d01"));
        assert_eq!(read_transfer(&mut wire, &mut [0; 64]), Err(Failure::Wait(0x40)));
        assert_eq!(wire.log, vec![Look; 1 + LOOKS]);
        // There is room for one byte of two.
        assert!(wire.port.respond(&[0xAA, 0xBB]));
        assert_eq!(read_transfer(&mut wire, &mut [0; 1]), Err(Failure::Room));
        // No last byte to write: no access.
        let mut wire = Wire::to(Port::new());
        assert_eq!(write_transfer(&mut wire, &[]), Err(Failure::Empty));
        assert_eq!(wire.log, []);
    }

    /// Registers that always tell the same.
    struct Stuck(u8, Vec<Access>);

    impl Registers for Stuck {
        fn status(&mut self) -> u8 {
            self.0
        }

        fn read_data(&mut self) -> u8 {
            self.1.push(Read);
            0x00
        }

        fn write_command(&mut self, code: u8) {
            self.1.push(Command(code));
        }

        fn write_data(&mut self, byte: u8) {
            self.1.push(Data(byte));
        }
    }

    #[test]
    fn the_host_sees_stuck_registers() {
        // IBF never clears: nothing is written.
        let mut stuck = Stuck(0x82, Vec::new());
        let wait = Failure::Wait(0x82);
        assert_eq!(write_transfer(&mut stuck, &[1]), Err(wait));
        assert_eq!(read_transfer(&mut stuck, &mut [0; 64]), Err(wait));
        assert_eq!(abort(&mut stuck), Err(wait));
        assert_eq!(stuck.1, []);
        // Always WRITE: all is written, nothing is read, and 00 gives no status.
        let mut stuck = Stuck(0x80, Vec::new());
        assert_eq!(write_transfer(&mut stuck, &[1]), Ok(()));
        assert_eq!(stuck.1, [Command(0x61), Command(0x62), Data(1)]);
        assert_eq!(read_transfer(&mut stuck, &mut [0; 64]), Err(Failure::State(0x80)));
        assert_eq!(abort(&mut stuck), Err(Failure::State(0x80)));
        assert_eq!(stuck.1[3..], [Command(0x60), Data(0x00)]);
        // Always READ, ERROR or IDLE: no further than the first command.
        for status in [0x41, 0xC1, 0x01] {
            let mut stuck = Stuck(status, Vec::new());
            let state = Failure::State(status);
            assert_eq!(write_transfer(&mut stuck, &[1]), Err(state));
            assert_eq!(abort(&mut stuck), Err(state));
            assert_eq!(stuck.1, [Read, Command(0x61), Command(0x60)]);
        }
        // A response without an end.
        let mut stuck = Stuck(0x41, Vec::new());
        assert_eq!(read_transfer(&mut stuck, &mut [0; 64]), Err(Failure::Room));
        // Idle, but the byte that tells of it never comes.
        let mut stuck = Stuck(0x00, Vec::new());
        assert_eq!(read_transfer(&mut stuck, &mut [0; 64]), Err(Failure::Wait(0x00)));
    }

    /// Registers that show a write only after some looks: IBF is set until then.
    struct Slow {
        port: Port,
        shown: u8,
        looks: usize,
    }

    impl Registers for Slow {
        fn status(&mut self) -> u8 {
            if self.looks > 0 {
                self.looks -= 1;
                return self.shown | 0x02;
            }
            self.port.status()
        }

        fn read_data(&mut self) -> u8 {
            self.port.read_data()
        }

        fn write_command(&mut self, code: u8) {
            (self.shown, self.looks) = (self.port.status(), 7);
            self.port.write_command(code);
        }

        fn write_data(&mut self, byte: u8) {
            (self.shown, self.looks) = (self.port.status(), 7);
            self.port.write_data(byte);
        }
    }

    /// The charts ask for the state only after IBF, so old states do not matter.
    #[test]
    fn the_host_waits_for_a_slow_controller() {
        for &Row(_, list, _, _, told) in ROWS {
            let mut slow = Slow { port: after(list), shown: 0x00, looks: 0 };
            assert_eq!(abort(&mut slow), Ok(told));
            assert_eq!(write_transfer(&mut slow, &[0x18, 0x01]), Ok(()));
            assert!(slow.port.respond(&[0x1C, 0x01, 0x00]));
            let mut response = [0; MOST];
            assert_eq!(read_transfer(&mut slow, &mut response), Ok(3));
            assert_eq!(response[..3], [0x1C, 0x01, 0x00]);
        }
    }

    // ------------------------------------------------------- random lists

    struct Random(u64);

    impl Random {
        fn below(&mut self, n: u64) -> u64 {
            self.0 = self.0.wrapping_mul(6364136223846793005).wrapping_add(1442695040888963407);
            (self.0 >> 33) % n
        }

        fn bytes(&mut self, most: u64) -> Vec<u8> {
            (0..self.below(most + 1)).map(|_| self.below(256) as u8).collect()
        }
    }

    /// What the ticket counts the told status by.
    #[derive(Clone, Copy, Debug, PartialEq, Eq)]
    enum Event {
        Idle,
        Start,
        Error(u8),
    }

    /// What a port should tell, from its past and what the host saw of it only.
    struct Past {
        port: Port,
        events: Vec<Event>,
        /// The data written since the last 61, none but it and 62 having come since.
        request: Option<Vec<u8>>,
        /// What the host has to get by 68 still.
        response: Vec<u8>,
        command: bool,
    }

    impl Past {
        /// "that of the last error since idle or 61, otherwise 01 if 61 came since
        /// idle, else 00"
        fn told(&self) -> u8 {
            let past =
                |event| self.events.iter().rposition(|one| *one == event).map_or(0, |at| at + 1);
            let (idle, start) = (past(Event::Idle), past(Event::Start));
            match self.events[idle.max(start)..].last() {
                Some(Event::Error(code)) => *code,
                _ => u8::from(start > idle),
            }
        }

        fn state(&self) -> u8 {
            self.port.status() & 0xC0
        }

        fn command(&mut self, code: u8) {
            self.port.write_command(code);
            self.command = true;
            assert_eq!(self.port.status() & 0x01, 0x01);
            match code {
                0x61 => {
                    self.events.push(Event::Start);
                    self.request = Some(Vec::new());
                }
                0x62 if self.state() == 0x80 => assert!(self.request.is_some()),
                0x60 => self.request = None,
                _ => self.refused(0x02),
            }
        }

        fn refused(&mut self, code: u8) {
            assert_eq!((self.state(), self.port.status() & 0x01), (0xC0, 0x01));
            self.events.push(Event::Error(code));
            self.request = None;
        }

        fn data(&mut self, byte: u8) {
            let phase = self.port.phase();
            let length = self.port.write_data(byte);
            self.command = false;
            assert_eq!(self.port.status() & 0x01, u8::from(length == 0));
            match self.request.take() {
                Some(request) if request.len() == 64 => self.refused(0x06),
                Some(mut request) => {
                    request.push(byte);
                    if phase == Phase::Last {
                        assert_eq!((length, self.port.message()), (request.len(), &request[..]));
                    } else {
                        assert_eq!((length, self.state()), (0, 0x80));
                        self.request = Some(request);
                    }
                }
                None if self.state() == 0xC0 => self.refused(0x02),
                None => self.moved_on(phase, byte),
            }
        }

        /// Data outside of the write phase was taken.
        fn moved_on(&mut self, phase: Phase, byte: u8) {
            let out = self.port.clone().read_data();
            if phase == Phase::Abort {
                return assert_eq!((byte, self.state(), out), (0x00, 0x40, self.told()));
            }
            assert_eq!(byte, 0x68);
            if phase == Phase::Read && !self.response.is_empty() {
                return assert_eq!((self.state(), out), (0x40, self.response.remove(0)));
            }
            assert_eq!((self.state(), out), (0x00, 0x00));
            self.events.push(Event::Idle);
        }

        fn read(&mut self) {
            let before = self.port.clone();
            let byte = self.port.read_data();
            if before.status() & 0x01 == 0 {
                assert_eq!((byte, &self.port), (0x00, &before));
            }
            assert_eq!(self.port.status(), before.status() & 0xFE);
        }

        fn answer(&mut self, response: &[u8]) {
            let before = self.port.clone();
            let taken = self.port.respond(response);
            assert_eq!(taken, before.phase() == Phase::Awaited && response.len() <= 64);
            if !taken {
                return assert_eq!(self.port, before);
            }
            let out = response.first().copied().unwrap_or(0x00);
            assert_eq!(self.port.clone().read_data(), out);
            self.response = response.iter().skip(1).copied().collect();
            let status = if response.is_empty() { 0x01 } else { 0x41 };
            assert_eq!(self.port.status(), status);
            if response.is_empty() {
                self.events.push(Event::Idle);
            }
        }

        /// One access, mostly one that the charts would make here.
        fn step(&mut self, random: &mut Random) {
            let byte = random.below(256) as u8;
            match random.below(40) {
                0..=9 => self.read(),
                10 => self.command(0x60),
                11..=12 => self.command(0x61),
                13..=15 => self.command(0x62),
                16 if random.below(8) == 0 => self.command(byte),
                17 if random.below(8) == 0 => self.data(byte),
                18..=20 => {
                    let most = if random.below(4) == 0 { 70 } else { 3 };
                    self.answer(&random.bytes(most));
                }
                21 if self.request.is_some() => {
                    (0..60).for_each(|_| self.data_or_stop(random));
                }
                _ => match self.port.phase() {
                    Phase::Read | Phase::Told => self.data(0x68),
                    Phase::Abort => self.data(0x00),
                    Phase::Write | Phase::Last => self.data(byte),
                    Phase::Idle => self.command(0x61),
                    Phase::Error => self.command(0x60),
                    Phase::Awaited => self.answer(&random.bytes(3)),
                },
            }
        }

        fn data_or_stop(&mut self, random: &mut Random) {
            if self.port.phase() == Phase::Write {
                self.data(random.below(256) as u8);
            }
        }

        /// What holds after each access.
        fn holds(&self, random: &mut Random) {
            let status = self.port.status();
            assert_eq!(status & 0x36, 0, "IBF, SMS_ATN or OEM");
            assert_eq!(status & 0x08 != 0, self.command, "C/D#");
            recovers(&mut Wire::to(self.port.clone()), self.told());
            let mut request = random.bytes(63);
            request.push(random.below(256) as u8);
            transfers(&mut Wire::to(self.port.clone()), &request, &random.bytes(64));
            if self.port.phase() == Phase::Awaited {
                assert_eq!(status, 0x40);
            }
        }
    }

    fn fresh_past() -> Past {
        Past {
            port: Port::new(),
            events: Vec::new(),
            request: None,
            response: Vec::new(),
            command: false,
        }
    }

    #[test]
    fn random_lists() {
        let mut random = Random(3);
        let mut phases = [0u32; 8];
        let mut told = [0u32; 7];
        let mut completed = 0;
        for _ in 0..200 {
            let mut past = fresh_past();
            for _ in 0..500 {
                past.step(&mut random);
                past.holds(&mut random);
                let phase = past.port.phase();
                phases[PHASES.iter().position(|one| *one == phase).unwrap()] += 1;
                told[usize::from(past.told())] += 1;
                completed += u32::from(phase == Phase::Awaited && past.port.message().len() > 32);
            }
        }
        assert!(phases.iter().all(|&times| times > 500), "{phases:?}");
        assert!([0, 1, 2, 6].iter().all(|&code| told[code] > 100), "{told:?}");
        assert!(completed > 100, "{completed}");
    }
}
