/*
 * An example of a board's loop that serves hiomap through a KCS port: what the port hands over goes to hiomap_message,
 * and the response goes back to the port. The host that talks to it is in the same program. Its transfers are those of
 * IPMI's section 9 (9.16 to 9.18), but that it looks at the state after OBF when it reads, so that an empty response
 * serves it too (examples/kcs/echo.c has them access by access). tests/c_example.sh builds and runs it and compares
 * what it prints with expected.txt.
 */
#include <stdio.h>
#include <string.h>

#include "hiomap.h"
#include "kcs.h"

#define FLASH_BLOCKS 4
#define MEMORY_BLOCKS 2
#define LPC_BLOCK 16
#define TIMEOUT 8
#define NETFN 0x3A /* the pair that OpenPOWER boards reserve for hiomap */
#define IPMI_COMMAND 0x5A
#define LOOKS 100 /* "All system software wait loops should include error timeouts" */

static kcs_port port;
static hiomap_record session;
static uint8_t flash[FLASH_BLOCKS * HIOMAP_BLOCK_BYTES];
static uint8_t worn[FLASH_BLOCKS]; /* the flash driver's map: 0 good */
static uint8_t memory[MEMORY_BLOCKS * HIOMAP_BLOCK_BYTES]; /* what the host sees over LPC */

static hiomap_const_bytes worn_map(void) {
    return (hiomap_const_bytes){worn, sizeof worn};
}

static void print_bytes(const uint8_t *bytes, size_t length) {
    for (size_t i = 0; i < length; i++)
        printf(" %02X", bytes[i]);
}

/* How many bytes of each block are not FF. */
static void print_blocks(const char *name, const uint8_t *bytes, size_t blocks) {
    printf("%s", name);
    for (size_t block = 0; block < blocks; block++) {
        unsigned written = 0;
        for (size_t i = 0; i < HIOMAP_BLOCK_BYTES; i++)
            written += bytes[block * HIOMAP_BLOCK_BYTES + i] != 0xFF;
        printf(" %u", written);
    }
    printf("\n");
}

static const char *yes(bool answer) {
    return answer ? "yes" : "no";
}

/* ---- the board */

/* The length of a message that the board has not taken up yet, else 0. Volatile, for a board whose interrupt writes
 * it. */
static volatile uint8_t waiting;
static uint32_t actions; /* the chip actions of the message that was served last */

/* A turn of the board's loop, in which it gets to serve a message. It serves a copy, and answers only if no newer
 * message came meanwhile: that one's answer is awaited then. Where an interrupt takes the host's accesses it is held
 * off from the first test of `waiting` to the 0, and from the second to the end of the answer. Here nothing comes in
 * between. */
static void board_turn(void) {
    if (waiting == 0)
        return;
    uint8_t message[KCS_MOST];
    size_t length = waiting;
    memcpy(message, port.request, length);
    waiting = 0;
    hiomap_message_reply reply =
        hiomap_message(&session, NETFN, IPMI_COMMAND, (hiomap_const_bytes){message, length}, LPC_BLOCK, TIMEOUT,
                       (hiomap_bytes){flash, sizeof flash}, worn_map(), (hiomap_bytes){memory, sizeof memory});
    actions = reply.actions;
    if (waiting == 0) /* where the host has given up it is refused; what the message did stays done */
        kcs_respond(&port, (kcs_bytes){reply.response, reply.length});
}

/* No response has the event byte, so a board tells of each change. This port's SMS_ATN is always 0, and its host learns
 * of a suspension when a command is refused. */
static void tell_events(void) {
    printf("    a board that has SMS_ATN sets it now, and its host fetches the event byte\n");
}

/* The board starts, or the host is reset. The port needs nothing then: a write transfer begins from every state. What
 * the host had sent before and the board has not served is dropped. A fresh record is not suspended: where another
 * master holds the flash at that time, hiomap_suspend comes next. */
static void host_reset(void) {
    session = hiomap_fresh();
    waiting = 0;
    printf("host reset, events %02X\n", session.events);
    tell_events();
}

static void change_access(const char *name, hiomap_suspended (*call)(hiomap_record)) {
    hiomap_suspended answer = call(session);
    session = answer.record;
    printf("%s %s, events %02X\n", name, yes(answer.done), session.events);
    if (answer.done)
        tell_events();
}

/* ---- between the two: each access of the host is one call, where a board has KCS hardware that tells of it */

/* The board's loop goes on while the host looks. */
static uint8_t read_status(void) {
    uint8_t status = kcs_status(&port);
    board_turn();
    return status;
}

static void write_command(uint8_t code) {
    kcs_write_command(&port, code);
    waiting = 0; /* the host has given the message up: it is not served */
}

static void write_data(uint8_t byte) {
    waiting = kcs_write_data(&port, byte);
}

/* ---- the host's transfers */

static uint8_t response[KCS_MOST];

static bool wait_for(uint8_t bits, uint8_t value) {
    for (unsigned looks = 0; looks < LOOKS; looks++)
        if ((read_status() & bits) == value)
            return true;
    return false;
}

static bool is_state(uint8_t state) {
    return wait_for(KCS_IBF, 0) && (read_status() & KCS_STATE_MASK) == state;
}

static void clear_obf(void) {
    if (read_status() & KCS_OBF)
        kcs_read_data(&port);
}

static bool may_write(void) {
    if (!is_state(KCS_WRITE_STATE))
        return false;
    clear_obf();
    return true;
}

/* 9.16 */
static bool write_transfer(const uint8_t *message, size_t length) {
    if (!wait_for(KCS_IBF, 0))
        return false;
    clear_obf();
    write_command(KCS_WRITE_START);
    for (size_t i = 0; i < length; i++) {
        if (!may_write())
            return false;
        if (i + 1 == length) {
            write_command(KCS_WRITE_END);
            if (!may_write())
                return false;
        }
        write_data(message[i]);
    }
    return true;
}

/* 9.17: bytes while the state is READ, and the 00 that tells of IDLE. */
static bool read_transfer(size_t *length) {
    *length = 0;
    while (wait_for(KCS_OBF, KCS_OBF) && is_state(KCS_READ_STATE) && *length < KCS_MOST) {
        response[(*length)++] = kcs_read_data(&port);
        write_data(KCS_READ);
    }
    if (!is_state(KCS_IDLE_STATE) || !wait_for(KCS_OBF, KCS_OBF))
        return false;
    clear_obf();
    return true;
}

/* 9.18: GET_STATUS/ABORT and 00. The status is then read as a response of one byte is. */
static void recover(void) {
    size_t got;
    if (wait_for(KCS_IBF, 0))
        write_command(KCS_GET_STATUS_ABORT);
    if (may_write())
        write_data(0x00);
    if (read_transfer(&got) && got == 1)
        printf("    recovery done, told %02X\n", response[0]);
    else
        printf("    recovery stopped\n");
}

/* A message and its response; in brackets what the board alone knows. */
static void exchange(const char *name, const uint8_t *message, size_t length) {
    size_t got;
    printf("%s:", name);
    print_bytes(message, length);
    printf("\n");
    if (!write_transfer(message, length) || !read_transfer(&got)) {
        recover();
        return;
    }
    printf("   %s", got == 0 ? " no bytes" : "");
    print_bytes(response, got);
    printf(" (actions %u, events %02X)\n", (unsigned)actions, session.events);
}

#define SEND(way, name, ...)                  \
    do {                                      \
        const uint8_t sent[] = {__VA_ARGS__}; \
        way(name, sent, sizeof sent);         \
    } while (0)

#define MESSAGE(name, ...) SEND(exchange, name, __VA_ARGS__)
#define COMMAND(name, ...) SEND(exchange, name, NETFN << 2, IPMI_COMMAND, __VA_ARGS__)
#define BOTH_WAYS(name, ...) SEND(both_ways, name, NETFN << 2, IPMI_COMMAND, __VA_ARGS__)

/* ---- what the host does */

/* A number of the response at its offset in column I, which is not always that of the mailbox. */
static unsigned parameter(size_t offset, size_t bytes) {
    unsigned number = 0;
    while (bytes-- > 0)
        number = number << 8 | response[HIOMAP_RESPONSE_PARAMETERS + offset + bytes];
    return number;
}

static void version_two(void) {
    printf("version 2\n");
    COMMAND("GET_INFO", 2, 1, 2);
    printf("    version %u, shift %u, timeout %u\n", parameter(0, 1), parameter(1, 1), parameter(2, 2));
    COMMAND("GET_FLASH_INFO", 3, 2);
    printf("    flash %u, granule %u\n", parameter(0, 2), parameter(2, 2)); /* in blocks */
    COMMAND("CREATE_WRITE_WINDOW", 6, 3, 3, 0, 0, 0); /* at block 3, the last: the window has one block */
    memset(memory, 0xA5, 300);
    COMMAND("MARK_DIRTY", 7, 4, 0, 0, 1, 0);
    COMMAND("FLUSH", 8, 5);
    COMMAND("CREATE_READ_WINDOW", 4, 6, 2, 0, 0, 0);
    print_blocks("window", memory, MEMORY_BLOCKS); /* blocks 2 and 3 */
    COMMAND("CLOSE_WINDOW", 5, 7, HIOMAP_CLOSE_NO_FLAGS);
    COMMAND("ACK", 9, 8, 0xFF);
}

/* Sends a message of at most 15 bytes, and its command by mailbox on copies of all that the board has. The parameters
 * of a request have the same offsets both ways. */
static void both_ways(const char *name, const uint8_t *message, size_t length) {
    static uint8_t other_flash[sizeof flash], other_memory[sizeof memory];
    hiomap_record other = session;
    uint8_t registers[HIOMAP_REGISTERS] = {0};
    memcpy(other_flash, flash, sizeof flash);
    memcpy(other_memory, memory, sizeof memory);
    memcpy(registers, message + HIOMAP_MESSAGE_COMMAND, length - HIOMAP_MESSAGE_COMMAND);
    uint32_t acted = hiomap_command(&other, &registers, LPC_BLOCK, TIMEOUT,
                                    (hiomap_bytes){other_flash, sizeof other_flash}, worn_map(),
                                    (hiomap_bytes){other_memory, sizeof other_memory});
    exchange(name, message, length);
    bool same = memcmp(&other, &session, sizeof session) == 0 && memcmp(other_flash, flash, sizeof flash) == 0 &&
                memcmp(other_memory, memory, sizeof memory) == 0;
    printf("    mailbox");
    print_bytes(registers, sizeof registers);
    printf(" (actions %u), leaves the same: %s\n", (unsigned)acted, yes(same));
}

static void by_mailbox_too(void) {
    printf("by message and by mailbox\n");
    COMMAND("CREATE_WRITE_WINDOW", 6, 9, 2, 0, 0, 0);
    memory[0] = 0x5A;
    COMMAND("MARK_DIRTY", 7, 10, 0, 0, 1, 0);
    BOTH_WAYS("CREATE_READ_WINDOW", 4, 11, 0, 0, 1, 0); /* flushes what is marked */
    BOTH_WAYS("GET_INFO", 2, 12, 2);                    /* shift and timeout stand elsewhere in the registers */
    BOTH_WAYS("FLUSH of a read window", 8, 13);         /* 7, and 80 + 7 */
}

static void version_one(void) {
    printf("version 1\n");
    COMMAND("GET_INFO", 2, 14, 1);
    printf("    version %u, read window %u, write window %u\n", parameter(0, 1), parameter(1, 2), parameter(3, 2));
    COMMAND("GET_FLASH_INFO", 3, 15);
    printf("    flash %u, granule %u\n", parameter(0, 4), parameter(4, 4)); /* in bytes */
    COMMAND("CREATE_WRITE_WINDOW", 6, 16, 1, 0);
    memset(memory, 0x11, 10);
    COMMAND("MARK_DIRTY", 7, 17, 1, 0, 1, 0, 0, 0); /* flash block 1, a byte of it */
    COMMAND("a create of version 2", 6, 18, 1, 0, 0, 0); /* the wrong length now: the window and its mark stay, */
    COMMAND("FLUSH that marks", 8, 18, 2, 0, 0, 0x10, 0, 0); /* and the number is free */
    COMMAND("CLOSE_WINDOW", 5, 19);
    COMMAND("ERASE, unknown here", 10, 20);
    COMMAND("a repeated number", 3, 20); /* 2 at version 1 */
}

static void refusals(void) {
    printf("refusals at version 2\n");
    COMMAND("GET_INFO", 2, 20, 2);
    COMMAND("CREATE_WRITE_WINDOW", 6, 21, 3, 0, 1, 0);
    memset(memory + 200, 0xFF, 100);          /* the host takes 100 bytes back; */
    COMMAND("MARK_DIRTY", 7, 22, 0, 0, 1, 0); /* the mark outlives all refusals, and the next section flushes it */
    COMMAND("a repeated number", 8, 22);
    COMMAND("a mark past the window", 7, 23, 0, 0, 2, 0);
    MESSAGE("a foreign command", NETFN << 2, 0x5B, 8, 24);
    MESSAGE("a foreign network function", 0x3C << 2, IPMI_COMMAND, 8, 24);
    MESSAGE("an odd network function", 0x3B << 2, IPMI_COMMAND, 8, 24);
    MESSAGE("Get Device ID", 0x06 << 2, 0x01); /* a board with more IPMI than this looks at the pair itself, before */
    MESSAGE("two bytes", NETFN << 2, IPMI_COMMAND);
    COMMAND("three bytes", 8);
    COMMAND("FLUSH, a parameter too many", 8, 24, 0);
    COMMAND("CREATE_READ_WINDOW, a byte too few", 4, 24, 0, 0, 0);
    COMMAND("command 11", 11, 24); /* 24 is new: nothing from the foreign command on has reached the mediator */
    COMMAND("command 11 with 20 parameters", 11, 25, 0, 1, 2, 3, 4, 5, 6, 7, 8, 9, 10, 11, 12, 13, 14, 15, 16, 17, 18,
            19);
    COMMAND("its number repeated", 11, 25);
    MESSAGE("one byte", NETFN << 2);
}

static void another_lun(void) {
    printf("another LUN\n");
    MESSAGE("FLUSH", NETFN << 2 | 2, IPMI_COMMAND, 8, 26);
    MESSAGE("a repeated number", NETFN << 2 | 2, IPMI_COMMAND, 8, 26);
    MESSAGE("a foreign command", NETFN << 2 | 2, 0x5B);
}

static void suspended(void) {
    printf("suspended\n");
    COMMAND("MARK_DIRTY", 7, 27, 0, 0, 1, 0);
    change_access("suspend", hiomap_suspend);
    COMMAND("FLUSH", 8, 28);
    COMMAND("ACK", 9, 29, 0xFF);
    change_access("resume", hiomap_resume);
    COMMAND("FLUSH", 8, 30);
}

static void not_served(void) {
    printf("messages that are not served\n");
    uint8_t message[KCS_MOST + 1] = {NETFN << 2, IPMI_COMMAND, 8, 31};
    printf("given up after a byte\n");
    write_command(KCS_WRITE_START);
    if (may_write())
        write_data(message[0]);
    recover();
    printf("given up before the board's turn\n");
    if (write_transfer(message, 4))
        write_command(KCS_GET_STATUS_ABORT);
    recover();
    exchange("65 bytes", message, sizeof message);
    COMMAND("FLUSH", 8, 31); /* the number is new */
}

static void worn_block(void) {
    printf("a worn block\n");
    COMMAND("MARK_DIRTY", 7, 32, 0, 0, 1, 0);
    worn[3] = 1;             /* the driver finds the window's block worn, */
    COMMAND("FLUSH", 8, 33); /* 80 + 3: the window and its mark stay, */
    worn[3] = 0;             /* until it has put a spare block in its place */
    COMMAND("FLUSH", 8, 34);
}

int main(void) {
    memset(flash, 0xFF, sizeof flash);
    port = kcs_fresh();
    host_reset();
    version_two();
    by_mailbox_too();
    version_one();
    refusals();
    another_lun();
    suspended();
    not_served();
    worn_block();
    printf("a damaged record\n");
    session.window = 7;
    COMMAND("GET_INFO", 2, 35, 2);
    host_reset(); /* a fresh record mends it, and has no version yet */
    COMMAND("GET_FLASH_INFO, unknown here", 3, 1);
    print_blocks("flash", flash, FLASH_BLOCKS);
    return 0;
}
