/*
 * The hiomap mediator for C: what crates/board_c and crates/ipmiboard_c export of the crates board and ipmiboard. Build
 * the archives with `bash tests/staticlib.sh board` and, for hiomap_message, `bash tests/staticlib.sh ipmiboard`, and
 * link target/staticlib/libboard.a and libipmiboard.a (x86-64 Linux).
 *
 * Ownership. The caller owns everything: the record of the session, the registers, a message, the flash image, its map
 * of worn blocks, the window memory and a list of marks. A call borrows what it is given and keeps nothing of it when
 * it returns; there is no hidden state and no allocation, so several records may be in use side by side. Functions that
 * take a record by value leave the caller's alone; a suspend or resume gives the new one back.
 *
 * Worn blocks. The flash driver keeps a map of them, one byte for each flash block: 0 good, any other value worn. The
 * map is only read, and the driver may change it between the calls (between the steps of one flush see hiomap_step).
 * Its length must be the number of flash blocks. An erase of a worn block fails and changes nothing, and a flush stops
 * there; writing pages never fails.
 *
 * What the caller must see to, since nothing here can check it:
 *   - pointers are not null, aligned for their type, and lead to initialised memory of the stated size,
 *     also where a length is 0;
 *   - no two of the things that one call borrows overlap (record, registers, message, flash, map, window memory,
 *     list), and nobody else writes to them during the call: an interrupt or another thread must wait. The window
 *     memory is written by the host between the calls, and not during one.
 * Every value is taken: any content of the record, the registers, a message, the map and a list and any length gets the
 * answer that the rules give it: for a command, a list of marks and a step SYSTEM_ERROR (4) where the record or the
 * sizes, the map's among them, are not sound, and for a command and a list also where lpc and the blocks of the window
 * memory together are above 65,536; a message that holds a command is answered as the command is.
 */
#ifndef HIOMAP_H
#define HIOMAP_H

#include <stdbool.h>
#include <stddef.h>
#include <stdint.h>

#ifdef __cplusplus
#define HIOMAP_ASSERT(claim, name) static_assert(claim, name)
extern "C" {
#else
#define HIOMAP_ASSERT(claim, name) _Static_assert(claim, name)
#endif

#define HIOMAP_BLOCK_BYTES 4096

/* The most pairs of a list of marks. */
#define HIOMAP_MOST_PAIRS 64

/* The registers. Arguments are little-endian from register 2 on: docs/PROTOCOL.md has each command's. */
#define HIOMAP_REGISTERS 16
#define HIOMAP_COMMAND 0
#define HIOMAP_SEQUENCE 1
#define HIOMAP_ARGUMENTS 2
#define HIOMAP_RESPONSE 13
#define HIOMAP_HOST_STATUS 14
#define HIOMAP_EVENTS 15

/* The commands. */
#define HIOMAP_RESET 1
#define HIOMAP_GET_INFO 2
#define HIOMAP_GET_FLASH_INFO 3
#define HIOMAP_CREATE_READ_WINDOW 4
#define HIOMAP_CLOSE_WINDOW 5
#define HIOMAP_CREATE_WRITE_WINDOW 6
#define HIOMAP_MARK_DIRTY 7
#define HIOMAP_FLUSH 8
#define HIOMAP_ACK 9
#define HIOMAP_ERASE 10

/*
 * The flags of CLOSE_WINDOW, its argument 0 from version 2 on: none, or the hint that the window will hardly be
 * wanted again soon, which has no effect yet. Any other value is PARAM_ERROR, and the window stays as it is.
 */
#define HIOMAP_CLOSE_NO_FLAGS 0x00
#define HIOMAP_CLOSE_SHORT_LIFETIME 0x01

/* The responses. */
#define HIOMAP_SUCCESS 1
#define HIOMAP_PARAM_ERROR 2
#define HIOMAP_WRITE_ERROR 3
#define HIOMAP_SYSTEM_ERROR 4
#define HIOMAP_TIMEOUT 5
#define HIOMAP_BUSY 6
#define HIOMAP_WINDOW_ERROR 7
#define HIOMAP_SEQ_ERROR 8

/*
 * A message: the network function in the high six bits of its first byte, with the LUN in the low two, the command, the
 * hiomap command, its sequence number and its parameters. A response: the network function made odd, with the
 * message's LUN, the command, the completion code, and where that is 00 the hiomap command, its sequence number and the
 * response's parameters. docs/PROTOCOL.md, "Messages", has the parameters of each command and version.
 */
#define HIOMAP_MESSAGE_NETFN 0
#define HIOMAP_MESSAGE_IPMI_COMMAND 1
#define HIOMAP_MESSAGE_COMMAND 2
#define HIOMAP_MESSAGE_SEQUENCE 3
#define HIOMAP_MESSAGE_PARAMETERS 4
#define HIOMAP_RESPONSE_COMPLETION 2
#define HIOMAP_RESPONSE_COMMAND 3
#define HIOMAP_RESPONSE_SEQUENCE 4
#define HIOMAP_RESPONSE_PARAMETERS 5

/* The room for a response. */
#define HIOMAP_MOST_RESPONSE 16

/* The completion codes: HIOMAP_FAILED + s stands for any response s but HIOMAP_SUCCESS. */
#define HIOMAP_COMPLETED 0x00
#define HIOMAP_FAILED 0x80
#define HIOMAP_INVALID_COMMAND 0xC1
#define HIOMAP_INVALID_LENGTH 0xC7

/*
 * The bits of the event byte. The first two are events: an ACK clears those of them that it names. The other two
 * are conditions, which no ACK clears. A suspend sets 0x40, a resume clears it, and one with changed flash also
 * sets 0x02. No call changes any other bit.
 */
#define HIOMAP_EVENT_PROTOCOL_RESET 0x01
#define HIOMAP_EVENT_WINDOW_RESET 0x02
#define HIOMAP_EVENT_FLASH_CONTROL_LOST 0x40
#define HIOMAP_EVENT_DAEMON_READY 0x80

/* The kinds of window. A record with a larger number is not sound. */
#define HIOMAP_WINDOW_NONE 0
#define HIOMAP_WINDOW_READ 1
#define HIOMAP_WINDOW_WRITE 2

/*
 * A session, as the board keeps it. Make one with hiomap_fresh. A record with numbered or suspended above 1 is not
 * sound, nor is one in which bit 0x40 of the event byte is set and access not suspended, or the other way round, nor
 * one in which `dirty` or `erased` is not the number of such marks: whoever changes a mark by hand changes them too.
 */
typedef struct hiomap_record {
    uint8_t version;   /* the agreed version: 0 none, 1, 2 */
    uint8_t numbered;  /* whether there is a previous sequence number: 0 no, 1 yes */
    uint8_t previous;  /* that number; without one the byte has no meaning and is kept */
    uint8_t events;    /* the event byte, HIOMAP_EVENT_.. */
    uint8_t suspended; /* whether flash access is suspended: 0 no, 1 yes */
    uint8_t window;    /* HIOMAP_WINDOW_.. */
    uint16_t first;    /* the window's first flash block; 0 without a window */
    uint16_t size;     /* its size in blocks; 0 without a window */
    uint8_t dirty;     /* how many of the marks are 1, */
    uint8_t erased;    /* and how many are 2 */
    uint8_t marks[64]; /* of each window block: 0 clean, 1 dirty, 2 erased */
} hiomap_record;

/* Bytes that a call may change, and bytes that it only reads: where they are and how many. By value. */
typedef struct hiomap_bytes {
    uint8_t *start;
    size_t length;
} hiomap_bytes;

typedef struct hiomap_const_bytes {
    const uint8_t *start;
    size_t length;
} hiomap_const_bytes;

/* 16-bit numbers that a call only reads: where they are and how many numbers, not bytes. */
typedef struct hiomap_const_numbers {
    const uint16_t *start;
    size_t length;
} hiomap_const_numbers;

/* The answer yes or no of a suspend or resume, and the record afterwards. */
typedef struct hiomap_suspended {
    bool done;
    hiomap_record record;
} hiomap_suspended;

/*
 * What a step answers: 4 SYSTEM_ERROR, 6 BUSY, 3 WRITE_ERROR or 1, and whether it did an action. 1 without an action
 * means that no action is left: all were done, nothing is marked, or there is no window. 3 has no action: those before
 * the erase of a worn block were done, and that erase fails.
 */
typedef struct hiomap_stepped {
    uint8_t code;
    bool acted;
} hiomap_stepped;

/*
 * What a list of marks answers: 1 SUCCESS, 4 SYSTEM_ERROR, 6 BUSY, 7 WINDOW_ERROR or 2 PARAM_ERROR. `named` is true
 * where it is refused for a pair, with code 2, and `place` is then that pair's place, from 0; else `place` is 0 and
 * means nothing. Code 2 that names no pair is a version other than 2, an odd length or more than 64 pairs.
 */
typedef struct hiomap_list_reply {
    uint8_t code;
    bool named;
    uint8_t place;
} hiomap_list_reply;

/*
 * What a message gives back: the bytes of the response, 0 behind them, how many they are (none, 3, or 5 and those of
 * the response's parameters), and the number of chip actions.
 */
typedef struct hiomap_message_reply {
    uint8_t response[HIOMAP_MOST_RESPONSE];
    uint32_t length;
    uint32_t actions;
} hiomap_message_reply;

/*
 * How much is pending: the marked window blocks, and the chip actions that their flush takes if no block is worn.
 * `unsound` where `dirty` or `erased` of the record is not the number of such marks; the two numbers are 0 then and
 * mean nothing. It is no test of the rest of the record: one that is not sound for another reason, to which a command
 * answers SYSTEM_ERROR, is answered as well.
 */
typedef struct hiomap_pending_work {
    bool unsound;
    uint32_t blocks;
    uint32_t actions;
} hiomap_pending_work;

/* Each field stands where the library has it. */
HIOMAP_ASSERT(offsetof(hiomap_record, version) == 0 && offsetof(hiomap_record, numbered) == 1, "hiomap_record");
HIOMAP_ASSERT(offsetof(hiomap_record, previous) == 2 && offsetof(hiomap_record, events) == 3, "hiomap_record");
HIOMAP_ASSERT(offsetof(hiomap_record, suspended) == 4 && offsetof(hiomap_record, window) == 5, "hiomap_record");
HIOMAP_ASSERT(offsetof(hiomap_record, first) == 6 && offsetof(hiomap_record, size) == 8, "hiomap_record");
HIOMAP_ASSERT(offsetof(hiomap_record, dirty) == 10 && offsetof(hiomap_record, erased) == 11, "hiomap_record");
HIOMAP_ASSERT(offsetof(hiomap_record, marks) == 12 && sizeof(hiomap_record) == 76, "hiomap_record");
HIOMAP_ASSERT(offsetof(hiomap_suspended, record) == 2 && sizeof(hiomap_suspended) == 78, "hiomap_suspended");
HIOMAP_ASSERT(offsetof(hiomap_stepped, acted) == 1 && sizeof(hiomap_stepped) == 2, "hiomap_stepped");
HIOMAP_ASSERT(offsetof(hiomap_list_reply, named) == 1, "hiomap_list_reply");
HIOMAP_ASSERT(offsetof(hiomap_list_reply, place) == 2 && sizeof(hiomap_list_reply) == 3, "hiomap_list_reply");
HIOMAP_ASSERT(offsetof(hiomap_message_reply, response) == 0, "hiomap_message_reply");
HIOMAP_ASSERT(offsetof(hiomap_message_reply, length) == 16, "hiomap_message_reply");
HIOMAP_ASSERT(offsetof(hiomap_message_reply, actions) == 20, "hiomap_message_reply");
HIOMAP_ASSERT(sizeof(hiomap_message_reply) == 24, "hiomap_message_reply");
HIOMAP_ASSERT(offsetof(hiomap_pending_work, blocks) == 4, "hiomap_pending_work");
HIOMAP_ASSERT(offsetof(hiomap_pending_work, actions) == 8, "hiomap_pending_work");
HIOMAP_ASSERT(sizeof(hiomap_pending_work) == 12, "hiomap_pending_work");
HIOMAP_ASSERT(offsetof(hiomap_bytes, length) == sizeof(uint8_t *), "hiomap_bytes");
HIOMAP_ASSERT(offsetof(hiomap_const_bytes, length) == sizeof(uint8_t *), "hiomap_const_bytes");
HIOMAP_ASSERT(offsetof(hiomap_const_numbers, length) == sizeof(uint16_t *), "hiomap_const_numbers");

/*
 * A fresh session: version 0, event byte 0x81, no window. Make one when the board starts and at each reset of
 * the host, and write its event byte to register 15: docs/INTEGRATION.md.
 */
hiomap_record hiomap_fresh(void);

/*
 * Serves one mailbox command and returns the number of its chip actions.
 *   record     the session; changed in place. One that is not sound is answered with SYSTEM_ERROR and stays
 *              exactly as it is: a window number above 2, numbered or suspended above 1, 0x40 and
 *              suspended that disagree, and dirty or erased that disagree with the marks, are among these
 *   registers  the 16 registers as received; they hold the response afterwards
 *   lpc        the window's first LPC block (B)
 *   timeout    the suggested timeout in seconds (T)
 *   flash      the whole flash image, 1 to 65,535 blocks; a flush changes it
 *   worn       the map of worn blocks, a byte for each flash block, 0 good; only read. Another length than the number
 *              of flash blocks is answered with SYSTEM_ERROR
 *   memory     the whole window memory, 1 to 64 blocks; a create and an ERASE change it
 * FLUSH and CLOSE_WINDOW answer WRITE_ERROR where the erase of a worn block fails: the blocks before it are flushed and
 * clean, that one and those behind it keep their marks, and the window stays. A create answers it too, before the check
 * of its own argument, and leaves no window and no marks, and the window memory as it was. The number of chip actions
 * leaves out the failed erase.
 */
uint32_t hiomap_command(hiomap_record *record, uint8_t (*registers)[HIOMAP_REGISTERS], uint16_t lpc, uint16_t timeout,
                        hiomap_bytes flash, hiomap_const_bytes worn, hiomap_bytes memory);

/*
 * Serves one message, as a KCS port (kcs.h) or another IPMI interface hands it over: the command that it holds leaves
 * what hiomap_command leaves, and has the same answer.
 *   record     the session; changed in place, as hiomap_command does
 *   netfn      the board's pair: the network function, 0 to 63, without the LUN (a number above 63 is no message's),
 *   command    and the command that the board reserves for hiomap
 *   message    the message's bytes, of any number
 *   lpc, timeout, flash, worn, memory  as hiomap_command has them
 * The first of these that holds refuses it, and nothing of the record and the buffers changes: under two bytes, the
 * empty response; another network function or command than the board's, C1; under four bytes, or a wrong number of
 * parameter bytes for a command that the record's version knows, C7; both in three bytes. The LUN is not looked at.
 * What comes next is the mediator's: a record or a map that is not sound is HIOMAP_FAILED + 4, and an erase that fails
 * HIOMAP_FAILED + 3, completion code 83. A command that the version does not know is handed to it with any number of
 * parameter bytes, those past the eleventh dropped; a version above 2 knows none. The response has the parameters of
 * the version after the command: of GET_INFO those of the version just agreed. No response has the event byte:
 * docs/INTEGRATION.md says what a board does about it. It is in libipmiboard.a.
 */
hiomap_message_reply hiomap_message(hiomap_record *record, uint8_t netfn, uint8_t command, hiomap_const_bytes message,
                                    uint16_t lpc, uint16_t timeout, hiomap_bytes flash, hiomap_const_bytes worn,
                                    hiomap_bytes memory);

/*
 * Marks all pairs of a list dirty, or none of them: what a MARK_DIRTY of version 2 for each pair does, sent in order,
 * where all of these succeed. It is the board's own call: no sequence number is used or remembered, no register is read
 * or written, and no byte of the flash, its map and the window memory: a worn block may be marked.
 *   record     the session; its marks and their numbers are changed in place. A refusal changes no byte of it
 *   list       pairs of a window block and a number of blocks, at most 64 of them: `length` is twice their number.
 *              A pair's blocks all lie in the window, in whole-number sums; 0 blocks are checked and mark nothing;
 *              pairs may overlap. The empty list is one too: a length of 0, and `start` not null
 *   lpc        the window's first LPC block (B), and
 *   timeout    the suggested timeout (T), as hiomap_command has them
 *   flash      the length of the whole flash image, in bytes
 *   worn       the length of the map of worn blocks, in bytes: the number of flash blocks, else the answer is 4
 *   memory     the length of the whole window memory, in bytes
 * The first of these that holds refuses it: the record, the sizes or lpc are not sound, 4; the version is not 2, 2;
 * access is suspended, 6; there is no write window, 7; the length is odd or above 128, 2; a pair does not lie in the
 * window, 2, and the first such pair is named.
 */
hiomap_list_reply hiomap_mark_list(hiomap_record *record, hiomap_const_numbers list, uint16_t lpc, uint16_t timeout,
                                   size_t flash, size_t worn, size_t memory);

/*
 * Flash access is suspended; resumed with the flash as it was; resumed with the flash changed, which drops
 * the window. They act on any record, and go by `suspended`, not by the event bit 0x40. `done` is false where
 * there was nothing to do, and the record is then the one that was given. `suspended` above 0 counts as yes,
 * also above 1: a suspend has nothing to do then, and a resume makes it 0. `numbered` stays, whatever it is. A
 * window number above 2 is kept by the first two, and so are `dirty` and `erased`, right or wrong; the third makes
 * all of them 0, with the marks. The event byte afterwards belongs into register 15.
 */
hiomap_suspended hiomap_suspend(hiomap_record record);
hiomap_suspended hiomap_resume(hiomap_record record);
hiomap_suspended hiomap_resume_changed(hiomap_record record);

/*
 * Advances the flush of the record's window by one chip action.
 *   flash      the whole flash image; the action changes it
 *   worn       the map of worn blocks, a byte for each flash block, else the answer is 4; only read
 *   memory     the whole window memory; only read
 *   done       how many actions were done before: the caller counts one for each answer with `acted` whose action the
 *              chip did
 * Where the erase of a worn block fails, a step answers 3 from that erase on, without an action, and changes nothing;
 * 4 and, while suspended, 6 come before it. Each step goes by the map that it is given, from the first mark on: a block
 * that is done and then called worn stops all steps behind it.
 * The record has no change, and the marks stay: a FLUSH after the steps does all actions again. Whoever clears marks by
 * hand instead clears all of them after an answer 1 without an action, after 3 only those before the worn block, and
 * sets `dirty` and `erased` to the numbers of the marks that are left.
 */
hiomap_stepped hiomap_step(hiomap_record record, hiomap_bytes flash, hiomap_const_bytes worn, hiomap_const_bytes memory,
                           uint64_t done);

/*
 * How much is pending: how many window blocks are marked, and how many chip actions a flush would take that begins
 * now. It looks at the marks and their two numbers alone, and counts as if no block were worn: a flush that stops at
 * one takes fewer. Of a sound record `actions` is the number that hiomap_command returns for a FLUSH that succeeds and
 * adds no mark, for a CLOSE_WINDOW that succeeds, and for a create that succeeds or is refused for its block. Nothing
 * pending does not mean that all was saved: RESET, hiomap_resume_changed and a fresh record drop marks without a flush,
 * and a create that answers WRITE_ERROR those that its flush did not reach. Steps change no mark, so they do not lower
 * it.
 */
hiomap_pending_work hiomap_pending(hiomap_record record);

#ifdef __cplusplus
}
#endif

#endif
