/*
 * An example of a board's loop with a KCS port: it answers every message with the message's own bytes. The host that
 * talks to it is in the same program, and follows the transfers of IPMI's section 9 (9.11, 9.15 to 9.18), but for the
 * errors that it makes on purpose, and but that it looks at the state after OBF when it reads: so an empty response
 * serves it too. tests/c_example.sh builds and runs it and compares what it prints with expected.txt.
 */
#include <stdio.h>
#include <string.h>

#include "kcs.h"

#define LOOKS 100 /* "All system software wait loops should include error timeouts" */

static kcs_port port;
static bool shows_access; /* whether each access of the host is printed */

static void print_bytes(const char *what, const uint8_t *bytes, size_t length) {
    printf("%s of %zu byte%s", what, length, length == 1 ? "" : "s");
    for (size_t i = 0; i < length; i++)
        printf("%s%02X", i == 0 ? ": " : " ", bytes[i]);
}

static void print_status(void) {
    printf(", status %02X\n", kcs_status(&port));
}

/* ---- the board */

/* How it answers: with an echo, with no bytes, with an echo after a try of a byte too many, or never. */
static enum { ECHO, EMPTY, LONG, NONE } manner;
static uint8_t waiting; /* the length of a message that is not answered yet, else 0 */

static void answer(const uint8_t *bytes, size_t length) {
    bool taken = kcs_respond(&port, (kcs_bytes){bytes, length});
    printf("board: answer of %zu, %s", length, taken ? "taken" : "refused");
    print_status();
}

/* A turn of the board's loop, in which it gets to answer. The echo is a copy: no response may lie in the record. */
static void board_turn(void) {
    if (waiting == 0 || manner == NONE)
        return;
    uint8_t bytes[KCS_MOST + 1] = {0};
    memcpy(bytes, port.request, waiting);
    if (manner == LONG)
        answer(bytes, sizeof bytes);
    answer(bytes, manner == EMPTY ? 0 : waiting);
    waiting = 0;
}

/* ---- between the two: each access of the host is one call, where a board has KCS hardware that tells of it */

static void print_access(const char *name, uint8_t byte) {
    if (!shows_access)
        return;
    printf("    %s %02X", name, byte);
    print_status();
}

/* The board's loop goes on while the host looks. */
static uint8_t read_status(void) {
    uint8_t status = kcs_status(&port);
    board_turn();
    return status;
}

static uint8_t read_data(void) {
    uint8_t byte = kcs_read_data(&port);
    print_access("read data", byte);
    return byte;
}

static void write_command(uint8_t code) {
    kcs_write_command(&port, code);
    print_access("write command", code);
    waiting = 0; /* a late answer would be taken for that of the next message */
}

static void write_data(uint8_t byte) {
    waiting = kcs_write_data(&port, byte);
    print_access("write data", byte);
    if (waiting != 0) {
        print_bytes("board: message", port.request, waiting);
        print_status();
    }
}

/* ---- the host */

/* Looks until these bits of the status are so. */
static bool wait_for(uint8_t bits, uint8_t value) {
    for (unsigned looks = 0; looks < LOOKS; looks++)
        if ((read_status() & bits) == value)
            return true;
    return false;
}

/* "wait for IBF=0. State should be .." */
static bool is_state(uint8_t state) {
    return wait_for(KCS_IBF, 0) && (read_status() & KCS_STATE_MASK) == state;
}

/* "If OBF=1, Clear OBF by reading Data_Out register" */
static void clear_obf(void) {
    if (read_status() & KCS_OBF)
        read_data();
}

static bool may_write(void) {
    if (!is_state(KCS_WRITE_STATE))
        return false;
    clear_obf();
    return true;
}

/* 9.16: WRITE_START, the bytes, and WRITE_END before the last of them. */
static bool write_transfer(const uint8_t *message, size_t length) {
    if (!wait_for(KCS_IBF, 0))
        return false;
    clear_obf();
    write_command(KCS_WRITE_START);
    for (size_t i = 0; i + 1 < length; i++) {
        if (!may_write())
            return false;
        write_data(message[i]);
    }
    if (!may_write())
        return false;
    write_command(KCS_WRITE_END);
    if (!may_write())
        return false;
    write_data(message[length - 1]);
    return true;
}

/* The byte that tells of the idle state. */
static bool is_idle(void) {
    if (!is_state(KCS_IDLE_STATE) || !wait_for(KCS_OBF, KCS_OBF))
        return false;
    read_data();
    return true;
}

/* 9.17: "Read Data_Out when OBF set", and READ for more, while the state is READ. It is looked at after OBF: with an
 * empty response it changes while the host waits. */
static bool read_transfer(uint8_t *response, size_t *length) {
    *length = 0;
    while (wait_for(KCS_OBF, KCS_OBF) && is_state(KCS_READ_STATE) && *length < KCS_MOST) {
        response[(*length)++] = read_data();
        write_data(KCS_READ);
    }
    return is_idle();
}

/* 9.18: GET_STATUS/ABORT, 00, the status, and READ. */
static bool get_status(uint8_t *status) {
    if (!wait_for(KCS_IBF, 0))
        return false;
    write_command(KCS_GET_STATUS_ABORT);
    if (!may_write())
        return false;
    write_data(0x00);
    if (!is_state(KCS_READ_STATE) || !wait_for(KCS_OBF, KCS_OBF))
        return false;
    *status = read_data();
    write_data(KCS_READ);
    return is_idle();
}

static void recover(void) {
    uint8_t status = 0xFF;
    bool done = get_status(&status);
    printf("host: recovery %s, told %02X", done ? "done" : "stopped", status);
    print_status();
}

/* A request and its response. */
static void exchange(const uint8_t *message, size_t length) {
    uint8_t response[KCS_MOST];
    size_t got;
    if (!write_transfer(message, length))
        printf("host: write transfer stopped");
    else if (!read_transfer(response, &got))
        printf("host: read transfer stopped");
    else
        print_bytes("host: response", response, got);
    print_status();
}

/* ---- what the host does, and how the board answers */

static void errors(const uint8_t *message) {
    printf("a request that is given up\n");
    write_command(KCS_WRITE_START);
    if (may_write())
        write_data(message[0]);
    recover();
    printf("65 bytes, the last of them after WRITE_END\n");
    exchange(message, KCS_MOST + 1);
    recover();
    printf("66 bytes\n");
    exchange(message, KCS_MOST + 2);
    recover();
    printf("a wrong code, and the recovery access by access\n");
    shows_access = true;
    write_command(0x63);
    recover();
    shows_access = false;
    printf("nothing to recover from\n");
    recover();
    printf("data that nobody wants; the host just sends its request again\n");
    write_data(message[0]);
    exchange(message, 2);
}

static void answers(const uint8_t *message) {
    printf("an empty answer\n");
    manner = EMPTY;
    exchange(message, 2);
    printf("an answer of a byte too many\n");
    manner = LONG;
    exchange(message, 2);
    printf("no answer\n");
    manner = NONE;
    exchange(message, 2);
    recover();
    printf("an answer that nobody awaits\n");
    answer(message, 2);
}

int main(void) {
    uint8_t message[KCS_MOST + 2];
    for (size_t i = 0; i < sizeof message; i++)
        message[i] = (uint8_t)(0x30 + i); /* 60, 61, 62 and 68 among them: as data they are bytes like any other */
    port = kcs_fresh();
    printf("a port of %zu bytes", sizeof port);
    print_status();
    printf("a message of 1 byte, access by access\n");
    shows_access = true;
    exchange(message, 1);
    shows_access = false;
    printf("a message of 64 bytes\n");
    exchange(message, KCS_MOST);
    errors(message);
    answers(message);
    return 0;
}
