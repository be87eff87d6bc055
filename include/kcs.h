/*
 * The controller's side of a KCS port (IPMI, section 9) for C: what crates/kcsboard_c exports of the crate kcsboard.
 * Build the archive with `bash tests/staticlib.sh kcsboard` and link target/staticlib/libkcsboard.a (x86-64 Linux).
 * What the messages mean is the caller's affair.
 *
 * Ownership. The caller owns everything: the record of the port, and the bytes of a response. A call borrows what it is
 * given and keeps nothing of it when it returns: a response that is taken is copied into the record. There is no hidden
 * state and no allocation, so several ports may be served side by side.
 *
 * What the caller must see to, since nothing here can check it:
 *   - pointers are not null and lead to initialised memory of the stated size, also where a length is 0;
 *   - a response is no part of the record: whoever answers with bytes of the request copies them out first;
 *   - nobody else writes to the record or the response during a call: an interrupt or another thread must wait;
 *   - each access of the host is one call, in the order in which the host made them.
 * Every value is taken: any content of the record, any code, any byte and any length of a response gets the answer that
 * the rules give it, also in a record that no access leaves.
 */
#ifndef KCS_H
#define KCS_H

#include <stdbool.h>
#include <stddef.h>
#include <stdint.h>

#ifdef __cplusplus
#define KCS_ASSERT(claim, name) static_assert(claim, name)
extern "C" {
#else
#define KCS_ASSERT(claim, name) _Static_assert(claim, name)
#endif

/* The most bytes of a request, and of a response. */
#define KCS_MOST 64

/* The control codes: the first three are written to the command register, READ to Data_In. */
#define KCS_GET_STATUS_ABORT 0x60
#define KCS_WRITE_START 0x61
#define KCS_WRITE_END 0x62
#define KCS_READ 0x68

/* The bits of the status register. IBF, SMS_ATN and the two OEM bits, 0x30, are always 0. */
#define KCS_OBF 0x01     /* Data_Out has a byte that the host has not read */
#define KCS_IBF 0x02     /* a write is not yet served; here each is served at once */
#define KCS_SMS_ATN 0x04
#define KCS_COMMAND 0x08 /* C/D#: the last write was to the command register; at first it is 0 */
#define KCS_STATE_MASK 0xC0

/* The states, which are the bits of KCS_STATE_MASK. */
#define KCS_IDLE_STATE 0x00
#define KCS_READ_STATE 0x40
#define KCS_WRITE_STATE 0x80
#define KCS_ERROR_STATE 0xC0

/* The phases of a port, which tell more than its state. Any other number is the error phase too. */
#define KCS_IDLE 0     /* IDLE_STATE */
#define KCS_WRITING 1  /* WRITE_STATE: 61 came, 62 did not */
#define KCS_ENDING 2   /* WRITE_STATE: 62 came, the last byte did not */
#define KCS_AWAITING 3 /* READ_STATE: a message is complete, and its response is awaited */
#define KCS_READING 4  /* READ_STATE: the host reads a response, or the status that it asked for */
#define KCS_ABORTING 5 /* WRITE_STATE: 60 came, the 00 after it did not */
#define KCS_FAILED 6   /* ERROR_STATE: a write was refused */

/*
 * The statuses that a host gets by 60 and 00: that of the last error since the port was idle or 61 came; without one,
 * ABORTED if 61 came since the port was idle; else NO_ERROR. 60 itself forgets nothing.
 */
#define KCS_NO_ERROR 0x00
#define KCS_ABORTED 0x01
#define KCS_WRONG_CODE 0x02
#define KCS_LENGTH_ERROR 0x06

/*
 * A port, as the board keeps it. Make one with kcs_fresh. Between the calls the board may read it; it has no need to
 * write to it.
 */
typedef struct kcs_port {
    uint8_t phase;              /* KCS_IDLE to KCS_FAILED */
    uint8_t command;            /* the status bit C/D#: 0 clear, any other number set */
    uint8_t full;               /* the status bit OBF: 0 clear, any other number set */
    uint8_t output;             /* Data_Out: the byte that a read gets while OBF is set */
    uint8_t fault;              /* the status that 60 and 00 would get: KCS_NO_ERROR to KCS_LENGTH_ERROR */
    uint8_t length;             /* how many bytes of the request there are; with 64 and more there is no room */
    uint8_t next;               /* the place of the response's next byte, from 0, */
    uint8_t end;                /* and how many bytes it has; none is read past the 64th */
    uint8_t request[KCS_MOST];  /* the request; a message that is complete stays here until the next 61 */
    uint8_t response[KCS_MOST]; /* the response that was taken */
} kcs_port;

/* Bytes that a call only reads: where they are and how many. By value. */
typedef struct kcs_bytes {
    const uint8_t *start;
    size_t length;
} kcs_bytes;

/* Each field stands where the library has it. */
KCS_ASSERT(offsetof(kcs_port, phase) == 0 && offsetof(kcs_port, command) == 1, "kcs_port");
KCS_ASSERT(offsetof(kcs_port, full) == 2 && offsetof(kcs_port, output) == 3, "kcs_port");
KCS_ASSERT(offsetof(kcs_port, fault) == 4 && offsetof(kcs_port, length) == 5, "kcs_port");
KCS_ASSERT(offsetof(kcs_port, next) == 6 && offsetof(kcs_port, end) == 7, "kcs_port");
KCS_ASSERT(offsetof(kcs_port, request) == 8 && offsetof(kcs_port, response) == 72, "kcs_port");
KCS_ASSERT(sizeof(kcs_port) == 136, "kcs_port");
KCS_ASSERT(offsetof(kcs_bytes, length) == sizeof(uint8_t *), "kcs_bytes");

/* A fresh port: idle, and all bits of the status register 0. */
kcs_port kcs_fresh(void);

/* The host reads the status register: the state, C/D# and OBF. Nothing changes. */
uint8_t kcs_status(const kcs_port *port);

/*
 * The host reads Data_Out: the byte while OBF is set, and OBF is clear then; 00 where OBF is clear, and nothing
 * changes.
 */
uint8_t kcs_read_data(kcs_port *port);

/*
 * The host writes a code to the command register.
 *   60  in every phase: a transfer under way is given up. The port is aborting
 *   61  in every phase: a new request begins, with no bytes yet. The port is writing
 *   62  while it is writing: the next byte is the last. The port is ending
 * 62 in any other phase and every other code is a wrong code: the error phase, with status 02. Each of them sets OBF,
 * with 00, and C/D#, also where it is refused. Whether OBF was set before plays no part.
 */
void kcs_write_command(kcs_port *port, uint8_t code);

/*
 * The host writes a byte to Data_In; it depends on the phase.
 *   writing   the byte is the request's next, and OBF is set with 00
 *   ending    it is the last: the message is complete, OBF is clear, and the port is awaiting. The answer is the
 *             message's length, 1 to 64, and its bytes are the first ones of `request`, until the next 61
 *   aborting  00: OBF is set with the status, and the port is reading
 *   reading   68: OBF is set with the response's next byte; after its last, and after the status, the port is idle and
 *             OBF is set with 00
 * A 65th byte of a request, before 62 or after it, is refused with status 06. Every other byte is a wrong code, 02: any
 * while the port is idle, awaiting or in the error phase, and any but 00 while it is aborting and 68 while it is
 * reading. Both lead to the error phase, and OBF is set with 00. C/D# is clear afterwards, also where the byte is
 * refused; whether OBF was set before plays no part. Every byte but a message's last answers 0.
 */
uint8_t kcs_write_data(kcs_port *port, uint8_t byte);

/*
 * The controller answers the message that is complete, with a response of 0 to 64 bytes: OBF is set with its first
 * byte, and the port is reading. An empty one leads to idle with OBF set on 00; a host that has seen READ_STATE before
 * and waits for OBF alone takes that 00 for a byte (docs/INTEGRATION.md). C/D# stays as it is. False where the
 * response has more bytes or the port is not awaiting one: it is refused, and nothing changes. A response is for the
 * message that was completed last, so a board that answers late forgets a message when the host writes again.
 */
bool kcs_respond(kcs_port *port, kcs_bytes response);

#ifdef __cplusplus
}
#endif

#endif
