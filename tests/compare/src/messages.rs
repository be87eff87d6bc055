//! Messages as 000 has them, by a table of the parameters that was read from its I columns by hand: it is neither the proved library's nor the
//! second implementation's.

use crate::BoardPair;

/// The lowest bit of the network function, above the two bits of the LUN.
const ODD: u8 = 4;
/// The most arguments of a mailbox command.
const MOST_ARGUMENTS: usize = 11;

/// How many bytes a command's parameters have at a version; none where the version does not know it.
pub fn asked(version: u8, code: u8) -> Option<usize> {
    match (code, version) {
        (1, 0..=2) | (3, 1 | 2) | (5, 1) | (8, 2) => Some(0),
        (2 | 9, 0..=2) | (5, 2) => Some(1),
        (4 | 6, 1) => Some(2),
        (4 | 6 | 7 | 10, 2) => Some(4),
        (7 | 8, 1) => Some(6),
        _ => None,
    }
}

/// The arguments of the mailbox (M) that a response has as its parameters, in the order in which they stand there (I).
fn told(version: u8, code: u8) -> &'static [usize] {
    match (code, version) {
        (2, 1) => &[0, 1, 2, 3, 4],
        (2, 2) => &[0, 5, 6, 7],
        (3, 1) => &[0, 1, 2, 3, 4, 5, 6, 7],
        (3, 2) => &[0, 1, 2, 3],
        (4 | 6, 1) => &[0, 1],
        (4 | 6, 2) => &[0, 1, 2, 3, 4, 5],
        _ => &[],
    }
}

/// A message to the board, with LUN 0.
pub fn message(board: BoardPair, code: u8, sequence: u8, parameters: &[u8]) -> Vec<u8> {
    [&[board.network_function << 2, board.command, code, sequence], parameters].concat()
}

/// The message that asks at this version for what these registers ask. An unknown command has all arguments as its parameters.
pub fn of_registers(board: BoardPair, version: u8, registers: &[u8; 16]) -> Vec<u8> {
    let count = asked(version, registers[0]).unwrap_or(MOST_ARGUMENTS);
    message(board, registers[0], registers[1], &registers[2..2 + count])
}

/// The response to a message whose command left this version and these registers.
pub fn response_of(message: &[u8], version: u8, registers: &[u8; 16]) -> Vec<u8> {
    let (first, second) = (message[0] | ODD, message[1]);
    if registers[13] != 1 {
        return vec![first, second, 0x80 + registers[13]];
    }
    let mut response = vec![first, second, 0x00, registers[0], registers[1]];
    response.extend(told(version, registers[0]).iter().map(|argument| registers[2 + argument]));
    response
}
