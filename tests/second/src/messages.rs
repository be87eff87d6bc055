//! hiomap messages through the KCS port (ticket 6): the IPMI transport of 000 and
//! 002 under 01, ticket 6 of 02 and that ticket's readings. What stands in quotes
//! is the ticket's wording. Its codes are in hex, and so are they here.
//!
//! A request is the network function (high six bits) with the LUN (low two), the
//! command, the hiomap command, its sequence, its parameters. A response is the
//! network function made odd with the request's LUN, the command, the completion
//! code and, after a success alone, the hiomap command, its sequence, its parameters.

use crate::{command, Session, SUCCESS};
use crate::{ACK, CLOSE, CREATE_READ, CREATE_WRITE, ERASE};
use crate::{FLUSH, GET_FLASH_INFO, GET_INFO, MARK_DIRTY, RESET};

/// The board's network function, without a LUN, and its command. A message's
/// network function has six bits, so that no message meets one above 63.
#[derive(Clone, Copy, Debug, PartialEq, Eq)]
pub struct Pair {
    pub network_function: u8,
    pub command: u8,
}

/// Completion codes.
const COMPLETED: u8 = 0x00;
/// "any other status s becomes 80 hex + s"
const HOUSE: u8 = 0x80;
const FOREIGN_PAIR: u8 = 0xC1;
const WRONG_LENGTH: u8 = 0xC7;

/// The lowest bit of the network function, where it stands in byte 0.
const ODD: u8 = 0x04;
/// Bytes of a request before its hiomap command.
const REQUEST_HEAD: usize = 2;
/// Bytes of a request before its parameters.
const REQUEST_PARAMETERS: usize = 4;
/// The register of argument 0, and the number of arguments.
const ARGUMENTS: usize = 2;
const MOST_ARGUMENTS: usize = 11;
/// The register of the mediator's status.
const STATUS: usize = 13;

// --------------------------------------------------------------- the table

/// A row of a table 'Parameter | Unit | Size | M | I | D'. Both offsets leave out
/// the command and the sequence: m counts arguments, i parameter bytes.
#[derive(Clone, Copy, Debug, PartialEq, Eq)]
struct Parameter {
    size: usize,
    m: usize,
    i: usize,
}

/// The columns Size, M and I.
const fn p(size: usize, m: usize, i: usize) -> Parameter {
    Parameter { size, m, i }
}

/// The two tables of a command at a version.
#[derive(Debug)]
struct Row {
    version: u8,
    command: u8,
    request: &'static [Parameter],
    response: &'static [Parameter],
}

/// The commands known at each version. Versions 1 and 2 are the tables of 000 and
/// 002, which are the same in both. They have none for version 0: there the
/// unversioned commands are known, whose requests are the same at 1 and at 2, and
/// of GET_INFO's response "the version field is unversioned" alone (000). Other
/// versions do not exist, so no command is known there.
const TABLE: &[Row] = &[
    Row { version: 0, command: RESET, request: &[], response: &[] },
    Row {
        version: 0,
        command: GET_INFO,
        request: &[
            p(1, 0, 0), // Version
        ],
        response: &[
            p(1, 0, 0), // Version
        ],
    },
    Row {
        version: 0,
        command: ACK,
        request: &[
            p(1, 0, 0), // Ack Mask
        ],
        response: &[],
    },
    Row { version: 1, command: RESET, request: &[], response: &[] },
    Row {
        version: 1,
        command: GET_INFO,
        request: &[
            p(1, 0, 0), // Version
        ],
        response: &[
            p(1, 0, 0), // Version
            p(2, 1, 1), // Read Window Size
            p(2, 3, 3), // Write Window Size
        ],
    },
    Row {
        version: 1,
        command: GET_FLASH_INFO,
        request: &[],
        response: &[
            p(4, 0, 0), // Flash Size
            p(4, 4, 4), // Erase Granule
        ],
    },
    Row {
        version: 1,
        command: CREATE_READ,
        request: &[
            p(2, 0, 0), // Flash Offset
        ],
        response: &[
            p(2, 0, 0), // LPC FW Offset
        ],
    },
    Row { version: 1, command: CLOSE, request: &[], response: &[] },
    Row {
        version: 1,
        command: CREATE_WRITE,
        request: &[
            p(2, 0, 0), // Flash Offset
        ],
        response: &[
            p(2, 0, 0), // LPC FW Offset
        ],
    },
    Row {
        version: 1,
        command: MARK_DIRTY,
        request: &[
            p(2, 0, 0), // Flash Offset
            p(4, 2, 2), // Length
        ],
        response: &[],
    },
    Row {
        version: 1,
        command: FLUSH,
        request: &[
            p(2, 0, 0), // Flash Offset
            p(4, 2, 2), // Length
        ],
        response: &[],
    },
    Row {
        version: 1,
        command: ACK,
        request: &[
            p(1, 0, 0), // Ack Mask
        ],
        response: &[],
    },
    Row { version: 2, command: RESET, request: &[], response: &[] },
    Row {
        version: 2,
        command: GET_INFO,
        request: &[
            p(1, 0, 0), // Version
        ],
        // The only place where M and I differ.
        response: &[
            p(1, 0, 0), // Version
            p(1, 5, 1), // Block Size Shift
            p(2, 6, 2), // Timeout
        ],
    },
    Row {
        version: 2,
        command: GET_FLASH_INFO,
        request: &[],
        response: &[
            p(2, 0, 0), // Flash Size
            p(2, 2, 2), // Erase Granule
        ],
    },
    Row {
        version: 2,
        command: CREATE_READ,
        request: &[
            p(2, 0, 0), // Flash Address
            p(2, 2, 2), // Length
        ],
        response: &[
            p(2, 0, 0), // LPC FW Address
            p(2, 2, 2), // Length
            p(2, 4, 4), // Flash Address
        ],
    },
    Row {
        version: 2,
        command: CLOSE,
        request: &[
            p(1, 0, 0), // Flags
        ],
        response: &[],
    },
    Row {
        version: 2,
        command: CREATE_WRITE,
        request: &[
            p(2, 0, 0), // Flash Address
            p(2, 2, 2), // Length
        ],
        response: &[
            p(2, 0, 0), // LPC FW Address
            p(2, 2, 2), // Length
            p(2, 4, 4), // Flash Address
        ],
    },
    Row {
        version: 2,
        command: MARK_DIRTY,
        request: &[
            p(2, 0, 0), // Window Offset
            p(2, 2, 2), // Length
        ],
        response: &[],
    },
    Row { version: 2, command: FLUSH, request: &[], response: &[] },
    Row {
        version: 2,
        command: ACK,
        request: &[
            p(1, 0, 0), // Ack Mask
        ],
        response: &[],
    },
    Row {
        version: 2,
        command: ERASE,
        request: &[
            p(2, 0, 0), // Window Offset
            p(2, 2, 2), // Length
        ],
        response: &[],
    },
];

/// The command's tables at this version; none where it is unknown there.
fn row(version: u8, command: u8) -> Option<&'static Row> {
    TABLE.iter().find(|row| row.version == version && row.command == command)
}

/// The bytes of these parameters in a message: they are "Packed (no padding)"
/// there (000), which the mailbox's arguments are not everywhere.
fn length(parameters: &[Parameter]) -> usize {
    parameters.iter().map(|parameter| parameter.size).sum()
}

// ---------------------------------------------------------- the two ways

/// The start of each response that is not empty: "the network function made odd
/// and the request's LUN, unchecked", the command, the completion code. The
/// request has two bytes at least.
fn three(message: &[u8], code: u8) -> Vec<u8> {
    vec![message[0] | ODD, message[1], code]
}

/// The registers with which a message reaches the mediator, or the response of
/// the transport itself, "in order: under two bytes, the empty response; foreign
/// pair, C1 hex; under four bytes, or a wrong length for a known command at its
/// version, C7 hex". `version` is the session's before the command. Registers 13
/// to 15 are 0.
pub fn transport(version: u8, pair: Pair, message: &[u8]) -> Result<[u8; 16], Vec<u8>> {
    if message.len() < REQUEST_HEAD {
        return Err(Vec::new());
    }
    let network_function = message[0] >> 2;
    if network_function != pair.network_function || message[1] != pair.command {
        return Err(three(message, FOREIGN_PAIR));
    }
    if message.len() < REQUEST_PARAMETERS {
        return Err(three(message, WRONG_LENGTH));
    }
    let (code, sequence) = (message[2], message[3]);
    let bytes = &message[REQUEST_PARAMETERS..];
    let arguments = match row(version, code) {
        None => first_bytes(bytes),
        Some(row) if bytes.len() == length(row.request) => to_arguments(row.request, bytes),
        Some(_) => return Err(three(message, WRONG_LENGTH)),
    };
    let mut registers = [0; 16];
    registers[0] = code;
    registers[1] = sequence;
    registers[ARGUMENTS..ARGUMENTS + MOST_ARGUMENTS].copy_from_slice(&arguments);
    Ok(registers)
}

/// "A command unknown at the version goes to the mediator at any length": its
/// first eleven bytes are the arguments, missing ones 0, further ones dropped.
fn first_bytes(bytes: &[u8]) -> [u8; MOST_ARGUMENTS] {
    let mut arguments = [0; MOST_ARGUMENTS];
    for (argument, byte) in arguments.iter_mut().zip(bytes) {
        *argument = *byte;
    }
    arguments
}

/// From the I offsets to the M offsets; there are just these parameters' bytes.
fn to_arguments(parameters: &[Parameter], bytes: &[u8]) -> [u8; MOST_ARGUMENTS] {
    let mut arguments = [0; MOST_ARGUMENTS];
    for &Parameter { size, m, i } in parameters {
        arguments[m..m + size].copy_from_slice(&bytes[i..i + size]);
    }
    arguments
}

/// From the M offsets to the I offsets.
fn from_arguments(parameters: &[Parameter], arguments: &[u8]) -> Vec<u8> {
    let mut bytes = vec![0; length(parameters)];
    for &Parameter { size, m, i } in parameters {
        bytes[i..i + size].copy_from_slice(&arguments[m..m + size]);
    }
    bytes
}

/// The response to a message that reached the mediator, from the registers that
/// it leaves. "Status 1 becomes completion code 00; any other status s becomes 80
/// hex + s (house), in three bytes." The parameters are laid out as at the version
/// after the command, so that GET_INFO's are as at the version just agreed.
///
/// What never comes from a mediator is answered too: a message under two bytes
/// with the empty response, a status above 7F with the sum's low byte, the success
/// of a command unknown at the version without parameters.
pub fn pack(message: &[u8], version_after: u8, registers: &[u8; 16]) -> Vec<u8> {
    if message.len() < REQUEST_HEAD {
        return Vec::new();
    }
    let status = registers[STATUS];
    if status != SUCCESS {
        return three(message, HOUSE.wrapping_add(status));
    }
    let (code, sequence) = (registers[0], registers[1]);
    let arguments = &registers[ARGUMENTS..ARGUMENTS + MOST_ARGUMENTS];
    let mut response = three(message, COMPLETED);
    response.push(code);
    response.push(sequence);
    if let Some(row) = row(version_after, code) {
        response.extend(from_arguments(row.response, arguments));
    }
    response
}

/// One message: the response's bytes (none, three, or five and more; 16 at most),
/// and the number of chip actions. What the transport itself refuses touches
/// neither session nor buffers; all else is what the mediator makes of it.
pub fn message(
    session: &mut Session,
    pair: Pair,
    b: u16,
    t: u16,
    message: &[u8],
    flash: &mut [u8],
    worn: &[u8],
    window: &mut [u8],
) -> (Vec<u8>, u32) {
    let registers = match transport(session.version, pair, message) {
        Ok(registers) => registers,
        Err(response) => return (response, 0),
    };
    let (after, actions) = command(session, registers, b, t, flash, worn, window);
    (pack(message, session.version, &after), actions)
}

#[cfg(test)]
mod tests {
    use super::*;
    use crate::kcs::host::{read_transfer, write_transfer};
    use crate::kcs::Port;
    use crate::{resume, resume_changed, sound_with_lpc, suspend};
    use crate::{Kind, BLOCK, DIRTY, ERASED, PARAM_ERROR, SYSTEM_ERROR};

    // ------------------------------------------------------------- helpers

    /// Any pair will do; its byte 0 is E8 with LUN 0, EC in the response.
    const PAIR: Pair = Pair { network_function: 0x3A, command: 0x5A };

    /// The versions that exist and some that do not.
    const VERSIONS: [u8; 7] = [0, 1, 2, 3, 4, 128, 255];

    fn hex(text: &str) -> Vec<u8> {
        text.split_whitespace().map(|two| u8::from_str_radix(two, 16).unwrap()).collect()
    }

    /// Bytes that differ from place to place.
    fn pattern(len: usize, seed: usize) -> Vec<u8> {
        (0..len).map(|i| ((i + seed) * 31 + (i / 251) * 7 + (i / BLOCK) * 13) as u8).collect()
    }

    /// A request of the board's pair with LUN 0.
    fn request(code: u8, sequence: u8, parameters: &[u8]) -> Vec<u8> {
        let mut sent = vec![0xE8, 0x5A, code, sequence];
        sent.extend_from_slice(parameters);
        sent
    }

    fn regs(code: u8, sequence: u8, args: &[u8]) -> [u8; 16] {
        let mut regs = [0; 16];
        regs[0] = code;
        regs[1] = sequence;
        regs[2..2 + args.len()].copy_from_slice(args);
        regs
    }

    /// The parameter bytes of a request, counted by hand in 000; none where the
    /// command is unknown at the version.
    fn known_bytes(version: u8, code: u8) -> Option<usize> {
        match (version, code) {
            (0..=2, RESET) => Some(0),
            (0..=2, GET_INFO | ACK) => Some(1),
            (1 | 2, GET_FLASH_INFO) => Some(0),
            (1, CREATE_READ | CREATE_WRITE) => Some(2),
            (2, CREATE_READ | CREATE_WRITE) => Some(4),
            (1, CLOSE) => Some(0),
            (2, CLOSE) => Some(1),
            (1, MARK_DIRTY | FLUSH) => Some(6),
            (2, MARK_DIRTY | ERASE) => Some(4),
            (2, FLUSH) => Some(0),
            _ => None,
        }
    }

    /// Which arguments are a successful response's parameter bytes, in the order
    /// of the I column, written down by hand from 000.
    fn response_places(version: u8, code: u8) -> &'static [usize] {
        match (version, code) {
            (1, GET_INFO) => &[0, 1, 2, 3, 4],
            (2, GET_INFO) => &[0, 5, 6, 7],
            (1, GET_FLASH_INFO) => &[0, 1, 2, 3, 4, 5, 6, 7],
            (2, GET_FLASH_INFO) => &[0, 1, 2, 3],
            (1, CREATE_READ | CREATE_WRITE) => &[0, 1],
            (2, CREATE_READ | CREATE_WRITE) => &[0, 1, 2, 3, 4, 5],
            _ => &[],
        }
    }

    /// What the message gives back if the mailbox shows these registers.
    fn expected(sent: &[u8], version_after: u8, after: &[u8; 16]) -> Vec<u8> {
        let mut response = vec![sent[0] | 4, sent[1]];
        if after[13] != 1 {
            response.push(0x80 + after[13]);
            return response;
        }
        response.extend([0, sent[2], sent[3]]);
        response.extend(response_places(version_after, sent[2]).iter().map(|&n| after[2 + n]));
        response
    }

    #[derive(Clone, Debug, PartialEq, Eq)]
    struct Rig {
        s: Session,
        flash: Vec<u8>,
        worn: Vec<u8>,
        window: Vec<u8>,
        b: u16,
        t: u16,
    }

    impl Rig {
        /// S = 4, C = 2, B = 0210 hex, T = 1234 hex, that version, no window.
        fn new(version: u8) -> Rig {
            Rig {
                s: Session { version, ..Session::fresh() },
                flash: pattern(4 * BLOCK, 1),
                worn: good_map(4 * BLOCK),
                window: pattern(2 * BLOCK, 99),
                b: 0x0210,
                t: 0x1234,
            }
        }

        /// With a window on blocks 1 and 2, whose memory differs from the flash.
        fn open(version: u8, kind: Kind) -> Rig {
            let mut rig = Rig::new(version);
            (rig.s.kind, rig.s.first, rig.s.size) = (kind, 1, 2);
            rig
        }

        /// With a write window, its first block dirty and its second erased.
        fn marked(version: u8) -> Rig {
            let mut rig = Rig::open(version, Kind::Write);
            (rig.s.marks[0], rig.s.marks[1]) = (DIRTY, ERASED);
            (rig.s.dirty, rig.s.erased) = (1, 1);
            rig
        }

        fn send_to(&mut self, pair: Pair, sent: &[u8]) -> (Vec<u8>, u32) {
            let (flash, window) = (&mut self.flash, &mut self.window);
            message(&mut self.s, pair, self.b, self.t, sent, flash, &self.worn, window)
        }

        fn send(&mut self, sent: &[u8]) -> (Vec<u8>, u32) {
            self.send_to(PAIR, sent)
        }

        fn mailbox(&mut self, sent: [u8; 16]) -> ([u8; 16], u32) {
            let (flash, window) = (&mut self.flash, &mut self.window);
            command(&mut self.s, sent, self.b, self.t, flash, &self.worn, window)
        }

        /// Sends, expects this response and number of actions.
        fn gives(&mut self, sent: &str, response: &str, actions: u32) {
            assert_eq!(self.send(&hex(sent)), (hex(response), actions), "{sent}");
        }

        /// Sends, expects this response, and that nothing changed at all.
        fn keeps(&mut self, pair: Pair, sent: &[u8], response: &[u8]) {
            let before = self.clone();
            assert_eq!(self.send_to(pair, sent), (response.to_vec(), 0), "{sent:X?}");
            assert!(*self == before, "{sent:X?} changed something");
        }

        fn sound(&self) -> bool {
            let (flash_len, worn_len) = (self.flash.len(), self.worn.len());
            sound_with_lpc(&self.s, flash_len, worn_len, self.window.len(), self.b)
        }
    }

    /// The map of a flash of so many bytes without worn blocks.
    fn good_map(flash_len: usize) -> Vec<u8> {
        vec![0; flash_len / BLOCK]
    }

    /// The same command by message and by mailbox from the same state, which is
    /// left behind: session, buffers, actions and answer values are the same. Every
    /// request parameter has the same M and I offset, so that the parameters are the
    /// mailbox's arguments; `others` fill the arguments that the command has not, and
    /// registers 13 to 15, which no answer may depend on. Answers the status.
    fn both_ways(rig: &mut Rig, code: u8, sequence: u8, parameters: &[u8], others: u8) -> u8 {
        let mut by_mailbox = rig.clone();
        let mut registers = [others; 16];
        (registers[0], registers[1]) = (code, sequence);
        let taken = parameters.len().min(11);
        registers[2..2 + taken].copy_from_slice(&parameters[..taken]);
        let (after, mailbox_actions) = by_mailbox.mailbox(registers);

        let sent = request(code, sequence, parameters);
        let (response, actions) = rig.send(&sent);
        assert!(*rig == by_mailbox, "{sent:X?} left another state");
        assert_eq!(actions, mailbox_actions, "{sent:X?}");
        assert_eq!(response, expected(&sent, rig.s.version, &after), "{sent:X?}");
        assert!(response.len() <= 16);
        after[13]
    }

    struct Random(u64);

    impl Random {
        fn below(&mut self, n: u64) -> u64 {
            self.0 = self.0.wrapping_mul(6364136223846793005).wrapping_add(1442695040888963407);
            (self.0 >> 33) % n
        }

        fn byte(&mut self) -> u8 {
            self.below(256) as u8
        }
    }

    // ----------------------------------------------------------- the table

    /// Every line of 000 that is a heading or a row of the commands' tables at
    /// versions 1 and 2, as it stands there. 002's are the same but for spaces.
    const PAPER: &str = "\
## `RESET` Command
| v1 | v2 | v3 | M | I | D |
| ✓ | ✓ | ✓ | 1 | 1 | Reset |
### v1 Parameters
| Parameter | Unit | Size | M | I | D |
| Parameter | Unit | Size | M | I | D |
### v2 Parameters
| Parameter | Unit | Size | M | I | D |
| Parameter | Unit | Size | M | I | D |
## `GET_INFO` Command
| v1 | v2 | v3 | M | I | D |
| ✓ | ✓ | ✓ | 2 | 2 | GetInfo |
### v1 Parameters
| Parameter | Unit | Size | M | I | D |
| Version | Version | 1 | 0 | 0 | y |
| Parameter | Unit | Size | M | I | D |
| Version | Version | 1 | 0 | 0 | y |
| Read Window Size | Blocks | 2 | 1 | 1 | q |
| Write Window Size | Blocks | 2 | 3 | 3 | q |
### v2 Parameters
| Parameter | Unit | Size | M | I | D |
| Version | Version | 1 | 0 | 0 | y |
| Parameter | Unit | Size | M | I | D |
| Version | Version | 1 | 0 | 0 | y |
| Block Size Shift | Count | 1 | 5 | 1 | y |
| Timeout | Seconds | 2 | 6 | 2 | q |
## `GET_FLASH_INFO` Command
| v1 | v2 | v3 | M | I | D |
| ✓ | ✓ | ✓ | 3 | 3 | GetFlashInfo |
### v1 Parameters
| Parameter | Unit | Size | M | I | D |
| Parameter | Unit | Size | M | I | D |
| Flash Size | Bytes | 4 | 0 | 0 | u |
| Erase Granule | Bytes | 4 | 4 | 4 | u |
### v2 Parameters
| Parameter | Unit | Size | M | I | D |
| Parameter | Unit | Size | M | I | D |
| Flash Size | Blocks | 2 | 0 | 0 | q |
| Erase Granule | Blocks | 2 | 2 | 2 | q |
## `CREATE_READ_WINDOW` Command
| v1 | v2 | v3 | M | I | D |
| ✓ | ✓ | ✓ | 4 | 4 | CreateReadWindow |
### v1 Parameters
| Parameter | Unit | Size | M | I | D |
| Flash Offset | Blocks | 2 | 0 | 0 | q |
| Parameter | Unit | Size | M | I | D |
| LPC FW Offset | Blocks | 2 | 0 | 0 | q |
### v2 Parameters
| Parameter | Unit | Size | M | I | D |
| Flash Address | Blocks | 2 | 0 | 0 | q |
| Length | Blocks | 2 | 2 | 2 | q |
| Parameter | Unit | Size | M | I | D |
| LPC FW Address | Blocks | 2 | 0 | 0 | q |
| Length | Blocks | 2 | 2 | 2 | q |
| Flash Address | blocks | 2 | 4 | 4 | q |
## `CLOSE` Command
| v1 | v2 | v3 | M | I | D |
| ✓ | ✓ | ✓ | 5 | 5 | Close |
### v1 Parameters
| Parameter | Unit | Size | M | I | D |
| Parameter | Unit | Size | M | I | D |
### v2 Parameters
| Parameter | Unit | Size | M | I | D |
| Flags | Field | 1 | 0 | 0 | y |
| Parameter | Unit | Size | M | I | D |
## `CREATE_WRITE_WINDOW` Command
| v1 | v2 | v3 | M | I | D |
| ✓ | ✓ | ✓ | 6 | 6 | CreateWriteWindow |
### v1 Parameters
| Parameter | Unit | Size | M | I | D |
| Flash Offset | Blocks | 2 | 0 | 0 | q |
| Parameter | Unit | Size | M | I | D |
| LPC FW Offset | Blocks | 2 | 0 | 0 | q |
### v2 Parameters
| Parameter | Unit | Size | M | I | D |
| Flash Address | Blocks | 2 | 0 | 0 | q |
| Length | Blocks | 2 | 2 | 2 | q |
| Parameter | Unit | Size | M | I | D |
| LPC FW Address | Blocks | 2 | 0 | 0 | q |
| Length | Blocks | 2 | 2 | 2 | q |
| Flash Address | blocks | 2 | 4 | 4 | q |
## `MARK_DIRTY` Command
| v1 | v2 | v3 | M | I | D |
| ✓ | ✓ | ✓ | 7 | 7 | MarkDirty |
### v1 Parameters
| Parameter | Unit | Size | M | I | D |
| Flash Offset | Blocks | 2 | 0 | 0 | q |
| Length | Bytes | 4 | 2 | 2 | u |
| Parameter | Unit | Size | M | I | D |
### v2 Parameters
| Parameter | Unit | Size | M | I | D |
| Window Offset | Blocks | 2 | 0 | 0 | q |
| Length | Blocks | 2 | 2 | 2 | q |
| Parameter | Unit | Size | M | I | D |
## `FLUSH` Command
| v1 | v2 | v3 | M | I | D |
| ✓ | ✓ | ✓ | 8 | 8 | Flush |
### v1 Parameters
| Parameter | Unit | Size | M | I | D |
| Flash Offset | Blocks | 2 | 0 | 0 | q |
| Length | Bytes | 4 | 2 | 2 | u |
| Parameter | Unit | Size | M | I | D |
### v2 Parameters
| Parameter | Unit | Size | M | I | D |
| Parameter | Unit | Size | M | I | D |
## `ACK` Command
| v1 | v2 | v3 | M | I | D |
| ✓ | ✓ | ✓ | 9 | 9 | Ack |
### v1 Parameters
| Parameter | Unit | Size | M | I | D |
| Ack Mask | Field | 1 | 0 | 0 | y |
| Parameter | Unit | Size | M | I | D |
### v2 Parameters
| Parameter | Unit | Size | M | I | D |
| Ack Mask | Field | 1 | 0 | 0 | y |
| Parameter | Unit | Size | M | I | D |
## `ERASE` Command
| v1 | v2 | v3 | M | I | D |
| | ✓ | ✓ | 10 | 10 | Erase |
### v2 Parameters
| Parameter | Unit | Size | M | I | D |
| Window Offset | Blocks | 2 | 0 | 0 | q |
| Length | Blocks | 2 | 2 | 2 | q |
| Parameter | Unit | Size | M | I | D |
";

    /// A command at a version in the paper: the columns Size, M and I of its tables.
    struct Listed {
        version: u8,
        command: u8,
        tables: Vec<Vec<Parameter>>,
    }

    fn paper() -> Vec<Listed> {
        let mut all: Vec<Listed> = Vec::new();
        let mut command = 0;
        for line in PAPER.lines() {
            let cells: Vec<&str> = line.split('|').map(str::trim).collect();
            if let Some(rest) = line.strip_prefix("### v") {
                let version = rest[..1].parse().unwrap();
                all.push(Listed { version, command, tables: Vec::new() });
            } else if line.starts_with("## ") || cells[1] == "v1" {
                continue;
            } else if cells[2] == "✓" {
                assert_eq!(cells[4], cells[5], "a command's number is the same by M and by I");
                command = cells[5].parse().unwrap();
            } else if cells[1] == "Parameter" {
                all.last_mut().unwrap().tables.push(Vec::new());
            } else {
                let [size, m, i] = [3, 4, 5].map(|n: usize| cells[n].parse().unwrap());
                let tables = &mut all.last_mut().unwrap().tables;
                tables.last_mut().unwrap().push(Parameter { size, m, i });
            }
        }
        all
    }

    #[test]
    fn table_is_the_papers() {
        let listed = paper();
        assert_eq!(listed.len(), 9 + 10);
        for one in &listed {
            let row = row(one.version, one.command).unwrap();
            assert_eq!(one.tables.len(), 2);
            assert_eq!(row.request, one.tables[0], "{row:?}");
            assert_eq!(row.response, one.tables[1], "{row:?}");
        }
        assert_eq!(TABLE.iter().filter(|row| row.version > 0).count(), listed.len());
    }

    /// "Version 0 knows 1, 2 and 9; version 1 knows 1 to 9; version 2 knows 1 to 10."
    #[test]
    fn commands_known_at_each_version() {
        assert_eq!(TABLE.len(), 3 + 9 + 10);
        for version in 0..=255 {
            let codes: Vec<u8> = (0..=255).filter(|&code| row(version, code).is_some()).collect();
            let expected = match version {
                0 => vec![1, 2, 9],
                1 => (1..=9).collect(),
                2 => (1..=10).collect(),
                _ => Vec::new(),
            };
            assert_eq!(codes, expected, "version {version}");
        }
    }

    /// Of an unversioned command the request is the same at every version.
    #[test]
    fn unversioned_requests() {
        for code in [RESET, GET_INFO, ACK] {
            let [zero, one, two] = [0, 1, 2].map(|version| row(version, code).unwrap());
            assert_eq!(zero.request, one.request);
            assert_eq!(zero.request, two.request);
        }
    }

    /// Both columns stay in the eleven arguments, the I column fills its bytes
    /// without a gap, and M and I differ in GET_INFO's response at version 2 alone.
    #[test]
    fn offsets_are_in_range() {
        for row in TABLE {
            for parameters in [row.request, row.response] {
                let mut next = 0;
                for parameter in parameters {
                    assert_eq!(parameter.i, next, "{row:?}");
                    assert!(parameter.m + parameter.size <= 11, "{row:?}");
                    next += parameter.size;
                }
                assert_eq!(length(parameters), next);
                assert!(5 + next <= 16);
            }
            assert!(row.request.iter().all(|parameter| parameter.m == parameter.i));
            let same = row.response.iter().all(|parameter| parameter.m == parameter.i);
            assert_eq!(same, (row.version, row.command) != (2, GET_INFO));
        }
    }

    #[test]
    fn lengths_are_those_counted_by_hand() {
        for version in VERSIONS {
            for code in 0..=255 {
                let row = row(version, code);
                assert_eq!(row.map(|row| length(row.request)), known_bytes(version, code));
                if version > 0 {
                    let bytes = row.map_or(0, |row| length(row.response));
                    assert_eq!(bytes, response_places(version, code).len());
                }
            }
        }
    }

    // ------------------------------------------------ layouts, byte by byte

    #[test]
    fn layouts_at_version_0() {
        let mut rig = Rig::new(0);
        rig.gives("E8 5A 01 01", "EC 5A 00 01 01", 0);
        rig.gives("E8 5A 09 02 01", "EC 5A 00 09 02", 0);
        assert_eq!(rig.s.events, 0x80);
        assert_eq!(rig.s.version, 0);
        rig.gives("E8 5A 02 03 01", "EC 5A 00 02 03 01 02 00 02 00", 0);
        assert_eq!(rig.s.version, 1);
        let mut rig = Rig::new(0);
        rig.gives("E8 5A 02 03 02", "EC 5A 00 02 03 02 0C 34 12", 0);
        assert_eq!(rig.s.version, 2);
    }

    #[test]
    fn layouts_at_version_1() {
        let mut rig = Rig::new(1);
        let old = rig.flash.clone();
        rig.gives("E8 5A 02 01 01", "EC 5A 00 02 01 01 02 00 02 00", 0);
        rig.gives("E8 5A 03 02", "EC 5A 00 03 02 00 40 00 00 00 10 00 00", 0);
        rig.gives("E8 5A 04 03 03 00", "EC 5A 00 04 03 10 02", 0);
        assert_eq!((rig.s.kind, rig.s.first, rig.s.size), (Kind::Read, 3, 1));
        rig.gives("E8 5A 05 04", "EC 5A 00 05 04", 0);
        assert_eq!(rig.s.kind, Kind::Closed);
        rig.gives("E8 5A 06 05 02 00", "EC 5A 00 06 05 10 02", 0);
        assert_eq!((rig.s.kind, rig.s.first, rig.s.size), (Kind::Write, 2, 2));
        assert!(rig.window == old[2 * BLOCK..]);
        // Block 3 and 4,096 bytes; then block 2 and 4,097, which are both.
        rig.gives("E8 5A 07 06 03 00 00 10 00 00", "EC 5A 00 07 06", 0);
        assert_eq!(rig.s.marks[..3], [0, 1, 0]);
        rig.gives("E8 5A 07 07 02 00 01 10 00 00", "EC 5A 00 07 07", 0);
        assert_eq!(rig.s.marks[..3], [1, 1, 0]);
        rig.window = pattern(2 * BLOCK, 5);
        rig.gives("E8 5A 08 08 00 00 00 00 00 00", "EC 5A 00 08 08", 34);
        assert!(rig.flash == [&old[..2 * BLOCK], &rig.window].concat());
        // A FLUSH that marks block 3 itself.
        rig.gives("E8 5A 08 09 03 00 01 00 00 00", "EC 5A 00 08 09", 17);
        rig.gives("E8 5A 09 0A 01", "EC 5A 00 09 0A", 0);
        assert_eq!(rig.s.events, 0x80);
        rig.gives("E8 5A 01 0B", "EC 5A 00 01 0B", 0);
        assert_eq!(rig.s.kind, Kind::Closed);
        assert_eq!((rig.s.version, rig.s.previous), (1, Some(0x0B)));
    }

    #[test]
    fn layouts_at_version_2() {
        let mut rig = Rig::new(2);
        let old = rig.flash.clone();
        rig.gives("E8 5A 02 01 02", "EC 5A 00 02 01 02 0C 34 12", 0);
        rig.gives("E8 5A 03 02", "EC 5A 00 03 02 04 00 01 00", 0);
        rig.gives("E8 5A 04 03 01 00 01 00", "EC 5A 00 04 03 10 02 01 00 01 00", 0);
        assert_eq!((rig.s.kind, rig.s.first, rig.s.size), (Kind::Read, 1, 1));
        rig.gives("E8 5A 05 04 01", "EC 5A 00 05 04", 0);
        assert_eq!(rig.s.kind, Kind::Closed);
        rig.gives("E8 5A 06 05 02 00 00 00", "EC 5A 00 06 05 10 02 02 00 02 00", 0);
        assert_eq!((rig.s.kind, rig.s.first, rig.s.size), (Kind::Write, 2, 2));
        rig.gives("E8 5A 07 06 00 00 02 00", "EC 5A 00 07 06", 0);
        assert_eq!(rig.s.marks[..3], [1, 1, 0]);
        rig.gives("E8 5A 0A 07 01 00 01 00", "EC 5A 00 0A 07", 0);
        assert_eq!(rig.s.marks[..3], [1, 2, 0]);
        rig.window[0] = 0x77;
        rig.gives("E8 5A 08 08", "EC 5A 00 08 08", 18);
        assert_eq!(rig.flash[2 * BLOCK], 0x77);
        assert!(rig.flash[2 * BLOCK + 1..3 * BLOCK] == old[2 * BLOCK + 1..3 * BLOCK]);
        assert!(rig.flash[3 * BLOCK..].iter().all(|&byte| byte == 0xFF));
        rig.gives("E8 5A 09 09 01", "EC 5A 00 09 09", 0);
        assert_eq!(rig.s.events, 0x80);
        rig.gives("E8 5A 01 0A", "EC 5A 00 01 0A", 0);
        assert_eq!(rig.s.kind, Kind::Closed);
        assert_eq!((rig.s.version, rig.s.previous), (2, Some(0x0A)));
    }

    /// The response's layout is that of the version just agreed, from each version;
    /// the request is the same. Bytes 1 to 4 of the arguments, which version 2 does
    /// not use, are not in its message.
    #[test]
    fn get_info_is_laid_out_by_the_agreed_version() {
        for version in [0, 1, 2] {
            for r in 1..=255u8 {
                let mut rig = Rig::new(version);
                let sent = [0xE8, 0x5A, 0x02, 0x09, r];
                let response = match r {
                    1 => "EC 5A 00 02 09 01 02 00 02 00",
                    _ => "EC 5A 00 02 09 02 0C 34 12",
                };
                assert_eq!(rig.send(&sent), (hex(response), 0));
                assert_eq!(rig.s.version, r.min(2));
            }
            let mut rig = Rig::new(version);
            rig.gives("E8 5A 02 09 00", "EC 5A 82", 0);
            assert_eq!(rig.s.version, version);
            assert_eq!(rig.s.previous, Some(9));
        }
        let mut rig = Rig { t: 0xFFFE, ..Rig::new(1) };
        rig.gives("E8 5A 02 09 03", "EC 5A 00 02 09 02 0C FE FF", 0);
        rig.t = 0;
        rig.gives("E8 5A 02 09 02", "EC 5A 00 02 09 02 0C 00 00", 0);
        rig.window = vec![0; 64 * BLOCK];
        rig.gives("E8 5A 02 09 01", "EC 5A 00 02 09 01 40 00 40 00", 0);
    }

    /// "S = 65,535 at version 1 reports 268,431,360 bytes", the longest response.
    #[test]
    fn largest_flash() {
        let mut rig = Rig::new(1);
        rig.flash = vec![0; 65_535 * BLOCK];
        rig.worn = good_map(rig.flash.len());
        rig.gives("E8 5A 03 01", "EC 5A 00 03 01 00 F0 FF 0F 00 10 00 00", 0);
        rig.s.version = 2;
        rig.gives("E8 5A 03 02", "EC 5A 00 03 02 FF FF 01 00", 0);
        rig.gives("E8 5A 04 03 FE FF 00 00", "EC 5A 00 04 03 10 02 01 00 FE FF", 0);
    }

    /// Both bytes of each 16-bit and all of each 32-bit parameter count.
    #[test]
    fn every_byte_of_a_request_arrives() {
        for version in [0, 1, 2] {
            for code in 1..=10 {
                let Some(bytes) = known_bytes(version, code) else { continue };
                let parameters: Vec<u8> = (0..bytes as u8).map(|n| 0xA1 + n).collect();
                let expected = regs(code, 0xFE, &parameters);
                let sent = request(code, 0xFE, &parameters);
                assert_eq!(transport(version, PAIR, &sent), Ok(expected));
            }
        }
        let sent = hex("E8 5A 07 05 11 22 33 44 55 66");
        let expected = [7, 5, 0x11, 0x22, 0x33, 0x44, 0x55, 0x66, 0, 0, 0, 0, 0, 0, 0, 0];
        assert_eq!(transport(1, PAIR, &sent), Ok(expected));
    }

    // -------------------------------------------------- refusals, in order

    /// Sessions of all kinds, sound and unsound, that a refusal must not touch.
    fn any_rigs() -> Vec<Rig> {
        let mut rigs = Vec::new();
        for version in VERSIONS {
            rigs.extend([Rig::new(version), Rig::marked(version)]);
            let mut suspended = Rig::open(version, Kind::Read);
            assert!(suspend(&mut suspended.s));
            suspended.s.previous = Some(3);
            let mut unsound = Rig::marked(version);
            unsound.s.dirty = 60;
            let mut empty = Rig::new(version);
            (empty.flash, empty.worn, empty.window) = (Vec::new(), Vec::new(), Vec::new());
            rigs.extend([suspended, unsound, empty]);
        }
        rigs
    }

    #[test]
    fn under_two_bytes_the_empty_response() {
        for mut rig in any_rigs() {
            rig.keeps(PAIR, &[], &[]);
            for byte in 0..=255 {
                rig.keeps(PAIR, &[byte], &[]);
            }
        }
    }

    #[test]
    fn foreign_pairs_give_c1_at_any_length() {
        for mut rig in any_rigs() {
            for start in ["E4 5A", "EC 5A", "00 5A", "E8 59", "E8 5B", "E8 00", "5A 3A", "FF FF"] {
                let head = hex(start);
                for length in [2, 3, 4, 5, 6, 8, 10, 20, 64, 300] {
                    let mut sent = request(GET_INFO, 3, &[1; 296]);
                    sent[..2].copy_from_slice(&head);
                    let response = [head[0] | 4, head[1], 0xC1];
                    rig.keeps(PAIR, &sent[..length], &response);
                }
            }
        }
    }

    /// Every first and second byte against several pairs, also such as no message
    /// meets. The message is one that would be refused for its length otherwise.
    #[test]
    fn only_the_boards_pair_is_met() {
        for network_function in [0, 1, 2, 0x3A, 0x3B, 62, 63, 64, 64 + 0x3A, 128, 255] {
            for command in [0, 0x5A, 255] {
                let pair = Pair { network_function, command };
                let mut met = 0;
                for first in 0..=255 {
                    for second in 0..=255 {
                        let own = first / 4 == network_function && second == command;
                        let code = if own { 0xC7 } else { 0xC1 };
                        let response = vec![first | 4, second, code];
                        assert_eq!(transport(2, pair, &[first, second]), Err(response));
                        met += u32::from(own);
                    }
                }
                assert_eq!(met, if network_function < 64 { 4 } else { 0 });
            }
        }
    }

    #[test]
    fn under_four_bytes_c7() {
        for mut rig in any_rigs() {
            for lun in 0..4 {
                let response = [0xEC | lun, 0x5A, 0xC7];
                rig.keeps(PAIR, &[0xE8 | lun, 0x5A], &response);
                for code in 0..=255 {
                    rig.keeps(PAIR, &[0xE8 | lun, 0x5A, code], &response);
                }
            }
        }
    }

    /// Every length from 0 to 20 and some longer ones, for every command number and
    /// version: what the transport answers.
    #[test]
    fn every_length_in_the_transport() {
        for version in VERSIONS {
            for code in 0..=255 {
                let whole = request(code, 0x33, &pattern(296, 40));
                for length in (0..=20).chain([21, 63, 64, 65, 256, 260, 261, 300]) {
                    let sent = &whole[..length];
                    let wrong = Err(hex("EC 5A C7"));
                    let expected = match (length, known_bytes(version, code)) {
                        (0 | 1, _) => Err(Vec::new()),
                        (2 | 3, _) => wrong,
                        (_, Some(bytes)) if length != 4 + bytes => wrong,
                        _ => Ok(regs(code, 0x33, &sent[4..length.min(15)])),
                    };
                    assert_eq!(transport(version, PAIR, sent), expected);
                }
            }
        }
    }

    /// The same lengths through the mediator: a message that is taken does just what
    /// the mailbox command does, any other changes nothing.
    #[test]
    fn every_length_through_the_mediator() {
        let parameters = [[1, 0, 1, 0], [0; 4], [9; 4], [9; 4]].concat();
        for start in any_rigs() {
            let version = start.s.version;
            for code in (0..=12).chain([128, 255]) {
                for length in 0..=20 {
                    let mut rig = start.clone();
                    let whole = request(code, 0x33, &parameters);
                    let sent = &whole[..length];
                    match (length, known_bytes(version, code)) {
                        (0 | 1, _) => rig.keeps(PAIR, sent, &[]),
                        (2 | 3, _) => rig.keeps(PAIR, sent, &[0xEC, 0x5A, 0xC7]),
                        (_, Some(bytes)) if length != 4 + bytes => {
                            rig.keeps(PAIR, sent, &[0xEC, 0x5A, 0xC7]);
                        }
                        _ => {
                            both_ways(&mut rig, code, 0x33, &sent[4..], 0xAB);
                        }
                    }
                }
            }
        }
    }

    /// The length asked for is that of the version before the command.
    #[test]
    fn length_follows_the_version() {
        let mut rig = Rig::new(0);
        // CREATE_READ with two bytes: unknown at version 0, right at 1, wrong at 2.
        rig.gives("E8 5A 04 01 00 00", "EC 5A 82", 0);
        rig.gives("E8 5A 02 02 01", "EC 5A 00 02 02 01 02 00 02 00", 0);
        rig.gives("E8 5A 04 03 00 00", "EC 5A 00 04 03 10 02", 0);
        rig.gives("E8 5A 04 04 00 00 00 00", "EC 5A C7", 0);
        rig.gives("E8 5A 02 05 02", "EC 5A 00 02 05 02 0C 34 12", 0);
        rig.gives("E8 5A 04 06 00 00", "EC 5A C7", 0);
        rig.gives("E8 5A 04 07 00 00 00 00", "EC 5A 00 04 07 10 02 02 00 00 00", 0);
    }

    /// A message that the transport refuses has no sequence number that counts.
    #[test]
    fn a_refusal_of_the_transport_keeps_the_previous_number() {
        let mut rig = Rig::new(2);
        rig.gives("E8 5A 03 05", "EC 5A 00 03 05 04 00 01 00", 0);
        rig.gives("E8 5A 03 06 00", "EC 5A C7", 0);
        assert_eq!(rig.s.previous, Some(5));
        rig.gives("E8 5A 03 06", "EC 5A 00 03 06 04 00 01 00", 0);
        // C7 comes before the mediator's refusal of the repeated number.
        rig.gives("E8 5A 03 06 00", "EC 5A C7", 0);
        rig.gives("E8 5A 03 06", "EC 5A 88", 0);
    }

    // --------------------------------------------- LUNs, network functions

    /// "the network function made odd and the request's LUN, unchecked", in every
    /// kind of response.
    #[test]
    fn luns_come_back() {
        for lun in 0..4u8 {
            let (sent, back) = (0xE8 + lun, 0xEC + lun);
            let mut rig = Rig::new(2);
            let mut gives = |rest: &str, response: &str| {
                let sent = [vec![sent], hex(rest)].concat();
                let response = [vec![back], hex(response)].concat();
                assert_eq!(rig.send(&sent), (response, 0));
            };
            gives("5A 03 01", "5A 00 03 01 04 00 01 00");
            gives("5A 03 01", "5A 88");
            gives("5A 03 02 00", "5A C7");
            gives("5A 03", "5A C7");
            gives("5A", "5A C7");
            gives("5B 03 02", "5B C1");
            gives("5A 0B 03", "5A 82");
        }
    }

    #[test]
    fn odd_network_functions_stay() {
        for network_function in 0..64u8 {
            let pair = Pair { network_function, command: 0xFF };
            for lun in 0..4u8 {
                let first = network_function * 4 + lun;
                let odd = network_function - network_function % 2 + 1;
                let back = odd * 4 + lun;
                let mut rig = Rig::new(1);
                let answer = rig.send_to(pair, &[first, 0xFF, ACK, 1, 0]);
                assert_eq!(answer, (vec![back, 0xFF, 0, ACK, 1], 0));
                let answer = rig.send_to(pair, &[first, 0xFF, ERASE, 2, 0]);
                assert_eq!(answer, (vec![back, 0xFF, 0x82], 0));
                rig.keeps(pair, &[first, 0xFF, ACK, 3], &[back, 0xFF, 0xC7]);
                rig.keeps(pair, &[first, 0xFE, ACK, 3, 0], &[back, 0xFE, 0xC1]);
            }
        }
    }

    // ----------------------------------------------------- unknown commands

    #[test]
    fn unknown_commands_at_any_length() {
        let unknown: [(u8, &[u8]); 3] = [
            (0, &[0, 3, 4, 5, 6, 7, 8, 10, 11, 12, 128, 255]),
            (1, &[0, 10, 11, 12, 128, 255]),
            (2, &[0, 11, 12, 128, 255]),
        ];
        for (version, codes) in unknown {
            for &code in codes {
                for bytes in [0, 1, 4, 10, 11, 12, 13, 60, 300] {
                    let parameters = pattern(bytes, 17);
                    let sent = request(code, 0x44, &parameters);
                    let first = &parameters[..bytes.min(11)];
                    assert_eq!(transport(version, PAIR, &sent), Ok(regs(code, 0x44, first)));
                    let mut rig = Rig::marked(version);
                    let mut kept = rig.clone();
                    kept.s.previous = Some(0x44);
                    assert_eq!(rig.send(&sent), (hex("EC 5A 82"), 0));
                    assert!(rig == kept, "only the previous number changes");
                    let repeated = if version == 2 { "EC 5A 88" } else { "EC 5A 82" };
                    assert_eq!(rig.send(&sent), (hex(repeated), 0));
                    assert!(rig == kept);
                }
            }
        }
    }

    /// The arguments in full, with eleven, twelve and no bytes.
    #[test]
    fn unknown_commands_byte_by_byte() {
        let gives = |sent: &str, registers: &str| {
            assert_eq!(transport(2, PAIR, &hex(sent)).unwrap().to_vec(), hex(registers));
        };
        gives("E8 5A 0B 07", "0B 07 00 00 00 00 00 00 00 00 00 00 00 00 00 00");
        gives("E8 5A 0B 07 01 02 03", "0B 07 01 02 03 00 00 00 00 00 00 00 00 00 00 00");
        let eleven = "0B 07 01 02 03 04 05 06 07 08 09 0A 0B 00 00 00";
        gives("E8 5A 0B 07 01 02 03 04 05 06 07 08 09 0A 0B", eleven);
        gives("E8 5A 0B 07 01 02 03 04 05 06 07 08 09 0A 0B 0C", eleven);
        gives("E8 5A 0B 07 01 02 03 04 05 06 07 08 09 0A 0B 0C 0D 0E 0F 10", eleven);
    }

    // ----------------------------------------------------- unsound sessions

    /// Something done to a rig by hand.
    type Change<'a> = &'a dyn Fn(&mut Rig);

    /// SYSTEM_ERROR is 84, and changes nothing; the transport's refusals still come
    /// first, and by the version that the session shows.
    #[test]
    fn unsound_sessions_and_sizes() {
        let changes: [Change; 22] = [
            &|rig| rig.s.events |= 0x40,
            &|rig| rig.s.suspended = true,
            &|rig| rig.s.first = 3,
            &|rig| rig.s.size = 0,
            &|rig| rig.s.size = 3,
            &|rig| rig.s.kind = Kind::Closed,
            &|rig| rig.s.kind = Kind::Read,
            &|rig| rig.s.marks[0] = 3,
            &|rig| rig.s.marks[63] = DIRTY,
            &|rig| rig.s.dirty = 0,
            &|rig| rig.s.erased = 255,
            &|rig| rig.flash.truncate(4 * BLOCK - 1),
            &|rig| (rig.flash, rig.worn) = (vec![0; 4 * BLOCK + 1], good_map(4 * BLOCK)),
            &|rig| (rig.flash, rig.worn) = (Vec::new(), Vec::new()),
            &|rig| rig.worn.clear(),
            &|rig| rig.worn = vec![0; 3],
            &|rig| rig.worn = vec![0; 5],
            &|rig| rig.worn = vec![1; 5],
            &|rig| rig.window.push(0),
            &|rig| rig.window.clear(),
            &|rig| rig.window = vec![0; 65 * BLOCK],
            &|rig| rig.b = 65_535,
        ];
        for version in [0, 1, 2] {
            for change in changes {
                let mut rig = Rig::marked(version);
                change(&mut rig);
                assert!(!rig.sound());
                for code in (0..=12).chain([255]) {
                    let bytes = known_bytes(version, code);
                    let parameters = vec![1; bytes.unwrap_or(3)];
                    let sent = request(code, 1, &parameters);
                    rig.keeps(PAIR, &sent, &[0xEC, 0x5A, 0x84]);
                    let mut registers = regs(code, 1, &[]);
                    (registers[13], registers[15]) = (SYSTEM_ERROR, rig.s.events);
                    let (after, actions) = rig.clone().mailbox(regs(code, 1, &parameters));
                    assert_eq!((after, actions), (registers, 0));
                    let longer = [&sent[..], &[0]].concat();
                    let code = if bytes.is_some() { 0xC7 } else { 0x84 };
                    rig.keeps(PAIR, &longer, &[0xEC, 0x5A, code]);
                    rig.keeps(PAIR, &sent[..3], &[0xEC, 0x5A, 0xC7]);
                    rig.keeps(PAIR, &sent[..1], &[]);
                    let mut foreign = sent;
                    foreign[1] = 0x5B;
                    rig.keeps(PAIR, &foreign, &[0xEC, 0x5B, 0xC1]);
                }
            }
        }
    }

    /// "a version that does not exist (3 and above) knows no command": of four bytes
    /// and more, all reach the mediator and are answered 84.
    #[test]
    fn versions_that_do_not_exist() {
        for version in [3, 4, 5, 127, 128, 254, 255] {
            for start in [Rig::new(version), Rig::marked(version)] {
                let mut rig = start;
                for code in (0..=12).chain([255]) {
                    for bytes in [0, 1, 2, 3, 4, 5, 6, 7, 11, 12, 60] {
                        let parameters = pattern(bytes, 3);
                        let sent = request(code, 8, &parameters);
                        let first = &parameters[..bytes.min(11)];
                        assert_eq!(transport(version, PAIR, &sent), Ok(regs(code, 8, first)));
                        rig.keeps(PAIR, &sent, &[0xEC, 0x5A, 0x84]);
                    }
                    rig.keeps(PAIR, &[0xE8, 0x5A, code], &[0xEC, 0x5A, 0xC7]);
                }
                rig.keeps(PAIR, &[0xE8, 0x5A], &[0xEC, 0x5A, 0xC7]);
                rig.keeps(PAIR, &[0xE8, 0x5B, GET_INFO, 8, 2], &[0xEC, 0x5B, 0xC1]);
                rig.keeps(PAIR, &[0xE8], &[]);
            }
        }
    }

    // ---------------------------------------------------------- pack alone

    /// "any other status s becomes 80 hex + s (house), in three bytes"
    #[test]
    fn every_status() {
        for version in VERSIONS {
            for code in 0..=255 {
                let sent = request(code, 0x21, &[9; 11]);
                let mut after = regs(code, 0x21, &[1, 2, 3, 4, 5, 6, 7, 8, 9, 10, 11]);
                for status in (0..=127).filter(|&status| status != 1) {
                    after[13] = status;
                    assert_eq!(pack(&sent, version, &after), [0xEC, 0x5A, 0x80 + status]);
                }
                after[13] = 1;
                (after[14], after[15]) = (0xAA, 0xBB);
                let response = pack(&sent, version, &after);
                if (version, code) == (0, GET_INFO) {
                    assert_eq!(response, hex("EC 5A 00 02 21 01"));
                } else {
                    assert_eq!(response, expected(&sent, version, &after));
                }
            }
        }
    }

    #[test]
    fn success_byte_by_byte() {
        let after = |code| {
            let mut after = regs(code, 0x21, &[1, 2, 3, 4, 5, 6, 7, 8, 9, 10, 11]);
            after[13..].copy_from_slice(&[1, 0xAA, 0xBB]);
            after
        };
        let response = |version, code| pack(&[0xE9, 0x5A, code, 0x21], version, &after(code));
        assert_eq!(response(1, 2), hex("ED 5A 00 02 21 01 02 03 04 05"));
        assert_eq!(response(2, 2), hex("ED 5A 00 02 21 01 06 07 08"));
        assert_eq!(response(1, 3), hex("ED 5A 00 03 21 01 02 03 04 05 06 07 08"));
        assert_eq!(response(2, 3), hex("ED 5A 00 03 21 01 02 03 04"));
        for code in [4, 6] {
            let head = [0xED, 0x5A, 0, code, 0x21];
            assert_eq!(response(1, code), [&head[..], &[1, 2]].concat());
            assert_eq!(response(2, code), [&head[..], &[1, 2, 3, 4, 5, 6]].concat());
        }
        for code in [1, 5, 7, 8, 9, 10] {
            for version in [1, 2] {
                assert_eq!(response(version, code), [0xED, 0x5A, 0, code, 0x21]);
            }
        }
    }

    /// What no mediator leaves is answered all the same.
    #[test]
    fn pack_answers_all_inputs() {
        assert!(pack(&[], 2, &[1; 16]).is_empty());
        assert!(pack(&[0xE8], 2, &[1; 16]).is_empty());
        assert_eq!(pack(&[0xE8, 0x5A], 2, &[1; 16]), hex("EC 5A 00 01 01"));
        assert_eq!(pack(&[0xE8, 0x5A], 2, &[0x80; 16]), hex("EC 5A 00"));
        assert_eq!(pack(&[0xE8, 0x5A], 2, &[0xFF; 16]), hex("EC 5A 7F"));
    }

    // ---------------------------------------------- by message, by mailbox

    /// The states from which each command is sent both ways.
    fn states(version: u8) -> Vec<Rig> {
        let mut all = vec![
            Rig::new(version),
            Rig::open(version, Kind::Read),
            Rig::open(version, Kind::Write),
            Rig::marked(version),
        ];
        for n in [1, 2] {
            let mut rig = Rig::marked(version);
            rig.worn[n] = 1;
            all.push(rig);
        }
        for mut rig in all.clone() {
            rig.s.previous = Some(7);
            all.push(rig);
        }
        for mut rig in all.clone() {
            assert!(suspend(&mut rig.s));
            all.push(rig);
        }
        assert!(all.iter().all(Rig::sound));
        all
    }

    /// Each command at each version, from every state above, with parameters that it
    /// takes and such as it refuses. Every command known succeeds somewhere, and
    /// every status is seen.
    #[test]
    fn each_command_both_ways() {
        let parameters: [[u8; 6]; 9] = [
            [0, 0, 0, 0, 0, 0],
            [1, 0, 0, 0, 0, 0],
            [1, 0, 1, 0, 0, 0],
            [0, 0, 2, 0, 0, 0],
            [2, 0, 0, 16, 0, 0],
            [1, 0, 1, 16, 0, 0],
            [3, 0, 0, 1, 0, 0],
            [4, 0, 0, 0, 1, 0],
            [255, 255, 255, 255, 255, 255],
        ];
        let mut statuses = [0u32; 9];
        for version in [0, 1, 2] {
            for code in (0..=12).chain([128, 255]) {
                let bytes = known_bytes(version, code);
                let mut succeeded = 0;
                for state in states(version) {
                    for sequence in [7, 8] {
                        for list in parameters {
                            for others in [0, 0xFF] {
                                let mut rig = state.clone();
                                let list = &list[..bytes.unwrap_or(6)];
                                let status = both_ways(&mut rig, code, sequence, list, others);
                                statuses[usize::from(status)] += 1;
                                succeeded += u32::from(status == 1);
                            }
                        }
                    }
                }
                assert_eq!(succeeded > 0, bytes.is_some(), "version {version}, command {code}");
            }
        }
        let seen: Vec<usize> = (0..9).filter(|&status| statuses[status] > 0).collect();
        assert_eq!(seen, [1, 2, 3, 5, 6, 7, 8]);
    }

    /// A create refused for its argument has closed and flushed the old window, and
    /// its message tells the refusal in three bytes with the flush's actions.
    #[test]
    fn refused_create_counts_its_flush() {
        let mut rig = Rig::marked(2);
        let mut by_mailbox = rig.clone();
        rig.gives("E8 5A 04 01 04 00 00 00", "EC 5A 82", 18);
        assert_eq!(rig.s.kind, Kind::Closed);
        let (after, actions) = by_mailbox.mailbox(regs(CREATE_READ, 1, &[4]));
        assert_eq!((after[13], actions), (PARAM_ERROR, 18));
        assert!(rig == by_mailbox);
    }

    /// Window blocks 0 and 1, dirty and erased, are the chip's 1 and 2. WRITE_ERROR
    /// is 83 in three bytes, with the actions before the failed erase (ticket 8).
    #[test]
    fn write_error_is_83() {
        let flushing = [
            (2, "08 01", Kind::Write),
            (2, "05 01 00", Kind::Write),
            (2, "05 01 01", Kind::Write),
            (2, "04 01 00 00 00 00", Kind::Closed),
            (2, "06 01 04 00 01 00", Kind::Closed),
            (1, "08 01 00 00 00 00 00 00", Kind::Write),
            (1, "08 01 01 00 01 00 00 00", Kind::Write),
            (1, "05 01", Kind::Write),
            (1, "04 01 FF FF", Kind::Closed),
            (1, "06 01 03 00", Kind::Closed),
        ];
        for (version, sent, kind) in flushing {
            for (worn, actions, left) in [(1, 0, [1, 2]), (2, 17, [0, 2])] {
                let mut rig = Rig::marked(version);
                rig.worn[worn] = 0x80;
                let before = rig.clone();
                rig.gives(&format!("E8 5A {sent}"), "EC 5A 83", actions);
                assert_eq!((rig.s.kind, rig.s.previous), (kind, Some(1)));
                let stays = kind == Kind::Write;
                assert_eq!(rig.s.marks[..2], if stays { left } else { [0, 0] });
                let flushed = if worn == 2 { &rig.window[..BLOCK] } else { &[] };
                let old = &before.flash[BLOCK + flushed.len()..];
                assert!(rig.flash == [&before.flash[..BLOCK], flushed, old].concat());
                assert!(rig.window == before.window && rig.sound());
            }
        }
    }

    /// The transport and the argument check come first, and a good map ends it.
    #[test]
    fn write_error_between_other_answers() {
        let mut rig = Rig::marked(2);
        rig.worn[2] = 1;
        rig.keeps(PAIR, &hex("E8 5A 08 01 00"), &hex("EC 5A C7"));
        rig.keeps(PAIR, &hex("E8 5B 08 01"), &hex("EC 5B C1"));
        rig.gives("E8 5A 05 01 02", "EC 5A 82", 0);
        rig.gives("EB 5A 08 02", "EF 5A 83", 17);
        rig.gives("E8 5A 08 02", "EC 5A 88", 0);
        rig.gives("E8 5A 08 03", "EC 5A 83", 0);
        rig.worn[2] = 0;
        rig.gives("E8 5A 05 04 00", "EC 5A 00 05 04", 1);
        assert_eq!(rig.s.kind, Kind::Closed);
    }

    #[test]
    fn refusals_of_the_mediator() {
        let mut rig = Rig::new(2);
        rig.gives("E8 5A 08 01", "EC 5A 87", 0);
        rig.gives("E8 5A 08 01", "EC 5A 88", 0);
        rig.gives("E8 5A 05 02 02", "EC 5A 82", 0);
        assert!(suspend(&mut rig.s));
        rig.gives("E8 5A 08 03", "EC 5A 86", 0);
        rig.gives("E8 5A 02 03 01", "EC 5A 00 02 03 01 02 00 02 00", 0);
        rig.gives("E8 5A 05 04", "EC 5A 85", 0);
        rig.gives("E8 5A 09 05 FF", "EC 5A 00 09 05", 0);
        assert_eq!(rig.s.events, 0xC0);
    }

    /// Long lists of commands from a fresh session, each both ways, with the board's
    /// and the host's doings between them.
    #[test]
    fn random_walks_both_ways() {
        let mut random = Random(6);
        let mut seen = [[[0u32; 2]; 14]; 3];
        for _ in 0..80 {
            let mut rig = Rig::new(0);
            for _ in 0..150 {
                match random.below(30) {
                    0 => drop(suspend(&mut rig.s)),
                    1..=3 => drop(resume(&mut rig.s)),
                    4 => drop(resume_changed(&mut rig.s)),
                    _ => {
                        let version = usize::from(rig.s.version);
                        let (code, status) = walk_one(&mut rig, &mut random);
                        seen[version][usize::from(code)][usize::from(status == 1)] += 1;
                    }
                }
                assert!(rig.sound());
                let at = random.below(rig.window.len() as u64) as usize;
                rig.window[at] = random.byte();
                rig.worn[random.below(4) as usize] = random.below(4) as u8 / 2;
            }
        }
        for version in [0, 1, 2] {
            for code in 0..14 {
                let [refused, succeeded] = seen[usize::from(version)][usize::from(code)];
                assert!(refused > 0, "version {version}, command {code}");
                let known = known_bytes(version, code).is_some();
                assert_eq!(succeeded > 0, known, "version {version}, command {code}");
            }
        }
    }

    /// One command with mostly small values; now and then a wrong length or a foreign
    /// pair comes first, which leaves everything as it was.
    fn walk_one(rig: &mut Rig, random: &mut Random) -> (u8, u8) {
        let code = random.below(14) as u8;
        let sequence = random.below(4) as u8;
        let known = known_bytes(rig.s.version, code);
        let bytes = known.unwrap_or(random.below(20) as usize);
        let wild = random.below(20) == 0;
        let mut parameters = vec![0; bytes];
        for (place, parameter) in parameters.iter_mut().enumerate() {
            *parameter = match place % 2 {
                _ if wild => random.byte(),
                0 => random.below(4) as u8,
                _ if place == 3 && rig.s.version == 1 => random.below(20) as u8,
                _ => 0,
            };
        }
        if random.below(10) == 0 {
            let mut sent = request(code, sequence, &parameters);
            sent[1] = 0x5A ^ (1u8 << random.below(8));
            let response = [0xEC, sent[1], 0xC1];
            rig.keeps(PAIR, &sent, &response);
        }
        if known.is_some() && random.below(10) == 0 {
            let longer = [&parameters[..], &[random.byte()]].concat();
            rig.keeps(PAIR, &request(code, sequence, &longer), &[0xEC, 0x5A, 0xC7]);
        }
        (code, both_ways(rig, code, sequence, &parameters, random.byte()))
    }

    // ------------------------------------------------------ through the port

    /// A host that follows the published charts sends the message and reads the
    /// response; the controller answers each message as it comes.
    fn through_port(port: &mut Port, rig: &mut Rig, sent: &[u8]) -> Vec<u8> {
        write_transfer(port, sent).unwrap();
        assert_eq!(port.message(), sent);
        let (response, _) = rig.send(port.message());
        assert!(port.respond(&response));
        let mut room = [0; 64];
        let length = read_transfer(port, &mut room).unwrap();
        room[..length].to_vec()
    }

    #[test]
    fn through_the_kcs_port() {
        let mut port = Port::new();
        let mut rig = Rig::new(0);
        let talk = [
            ("E8", ""),
            ("E8 5A", "EC 5A C7"),
            ("E8 5B 02 01 02", "EC 5B C1"),
            ("E8 5A 02 01", "EC 5A C7"),
            ("E9 5A 02 01 02", "ED 5A 00 02 01 02 0C 34 12"),
            ("E8 5A 03 02", "EC 5A 00 03 02 04 00 01 00"),
            ("EA 5A 06 03 03 00 02 00", "EE 5A 00 06 03 10 02 01 00 03 00"),
            ("E8 5A 07 03 00 00 01 00", "EC 5A 88"),
            ("E8 5A 07 04 00 00 02 00", "EC 5A 82"),
            ("E8 5A 07 05 00 00 01 00", "EC 5A 00 07 05"),
            ("EB 5A 08 06", "EF 5A 00 08 06"),
            ("E8 5A 05 07 00", "EC 5A 00 05 07"),
            ("E8 5A 0C 08 00", "EC 5A 82"),
        ];
        for (sent, response) in talk {
            assert_eq!(through_port(&mut port, &mut rig, &hex(sent)), hex(response), "{sent}");
        }
        rig.worn[3] = 1;
        let worn = [
            ("E8 5A 06 09 02 00 00 00", "EC 5A 00 06 09 10 02 02 00 02 00"),
            ("E8 5A 07 0A 00 00 02 00", "EC 5A 00 07 0A"),
            ("E8 5A 08 0B", "EC 5A 83"),
            ("E8 5A 04 0C 00 00 00 00", "EC 5A 83"),
            ("E8 5A 08 0D", "EC 5A 87"),
        ];
        for (sent, response) in worn {
            assert_eq!(through_port(&mut port, &mut rig, &hex(sent)), hex(response), "{sent}");
        }
        // The longest message of a port: 60 parameter bytes.
        let longest = request(0xFF, 9, &[0x68; 60]);
        assert_eq!(through_port(&mut port, &mut rig, &longest), hex("EC 5A 82"));
    }
}
