/*
 * An example of a board's loop: it owns one session record, a flash image of 4 blocks with its driver's map
 * of worn blocks and a window memory of 2, and serves a fixed list of events, as a host might send them.
 * tests/c_example.sh builds and runs it and compares what it prints with expected.txt.
 */
#include <stdio.h>
#include <string.h>

#include "hiomap.h"

#define FLASH_BLOCKS 4
#define MEMORY_BLOCKS 2
#define LPC_BLOCK 16
#define TIMEOUT 8
#define MOST_ACTIONS 1088 /* of a flush: 64 dirty blocks, 17 each */

static hiomap_record session;
static uint8_t mailbox[HIOMAP_REGISTERS]; /* stands for the registers that the host sees */
static uint8_t flash[FLASH_BLOCKS * HIOMAP_BLOCK_BYTES];
static uint8_t worn[FLASH_BLOCKS]; /* the driver's map: 0 good */
static uint8_t memory[MEMORY_BLOCKS * HIOMAP_BLOCK_BYTES];

static hiomap_bytes whole_flash(void) {
    return (hiomap_bytes){flash, sizeof flash};
}

static hiomap_const_bytes worn_map(void) {
    return (hiomap_const_bytes){worn, sizeof worn};
}

static const char *yes(bool answer) {
    return answer ? "yes" : "no";
}

/* The event byte belongs into its register after each change of the record that is no command's. */
static void show_events(void) {
    mailbox[HIOMAP_EVENTS] = session.events;
}

/* The board starts, or the host is reset. A fresh record is not suspended: where another master holds the
 * flash at that time, hiomap_suspend comes next. */
static void host_reset(void) {
    session = hiomap_fresh();
    show_events();
    printf("host reset, events %02X\n", mailbox[HIOMAP_EVENTS]);
}

/* A mailbox command: the host sends the first registers, and 0 in the others up to 14. */
static void command(const uint8_t *sent, size_t count) {
    memset(mailbox, 0, HIOMAP_EVENTS);
    memcpy(mailbox, sent, count);

    uint8_t registers[HIOMAP_REGISTERS];
    memcpy(registers, mailbox, sizeof registers);
    uint32_t actions = hiomap_command(&session, &registers, LPC_BLOCK, TIMEOUT, whole_flash(), worn_map(),
                                      (hiomap_bytes){memory, sizeof memory});
    for (size_t i = 0; i < HIOMAP_REGISTERS; i++)
        if (i != HIOMAP_RESPONSE)
            mailbox[i] = registers[i];
    mailbox[HIOMAP_RESPONSE] = registers[HIOMAP_RESPONSE]; /* last, for it tells the host to read the others */

    for (size_t i = 0; i < HIOMAP_REGISTERS; i++)
        printf("%02X ", mailbox[i]);
    printf("actions %u\n", (unsigned)actions);
}

#define COMMAND(...)                           \
    do {                                       \
        const uint8_t sent[] = {__VA_ARGS__};  \
        command(sent, sizeof sent);            \
    } while (0)

/* Suspend and resume give the record back, and the loop stores it. */
static void change_access(const char *name, hiomap_suspended (*call)(hiomap_record)) {
    hiomap_suspended answer = call(session);
    session = answer.record;
    show_events();
    printf("%s %s, events %02X\n", name, yes(answer.done), mailbox[HIOMAP_EVENTS]);
}

static hiomap_stepped step(uint64_t done) {
    return hiomap_step(session, whole_flash(), worn_map(), (hiomap_const_bytes){memory, sizeof memory}, done);
}

/* What a panel shows: the unsaved work, asked for as often as wanted. */
static void print_pending(void) {
    hiomap_pending_work work = hiomap_pending(session);
    if (work.unsound)
        printf("pending unsound\n");
    else
        printf("pending %u blocks, %u actions\n", (unsigned)work.blocks, (unsigned)work.actions);
}

static const uint16_t many[2 * (HIOMAP_MOST_PAIRS + 1)]; /* pairs of window block 0 and no blocks */

/* A host that has saved many places at once hands over all of its marks: pairs of window block and number of blocks. */
static void mark_list(const uint16_t *pairs, size_t numbers) {
    hiomap_list_reply answer = hiomap_mark_list(&session, (hiomap_const_numbers){pairs, numbers}, LPC_BLOCK, TIMEOUT,
                                                 sizeof flash, sizeof worn, sizeof memory);
    printf("list of %zu numbers: %u", numbers, answer.code);
    if (answer.named)
        printf(", pair %u", answer.place);
    printf("\n");
}

#define MARK_LIST(...)                                    \
    do {                                                  \
        const uint16_t pairs[] = {__VA_ARGS__};           \
        mark_list(pairs, sizeof pairs / sizeof pairs[0]); \
    } while (0)

/* How many bytes of each block are not FF. */
static void print_flash(void) {
    printf("flash");
    for (size_t block = 0; block < FLASH_BLOCKS; block++) {
        unsigned written = 0;
        for (size_t i = 0; i < HIOMAP_BLOCK_BYTES; i++)
            written += flash[block * HIOMAP_BLOCK_BYTES + i] != 0xFF;
        printf(" %u", written);
    }
    printf("\n");
}

/* Both window blocks are marked when the driver finds the second one's flash block worn. What could not be flushed
 * stays in the window until there is a good block for it; a create would lose it. */
static void worn_block(void) {
    memset(memory, 0x3C, 400);
    memset(memory + HIOMAP_BLOCK_BYTES, 0xC3, 50);
    MARK_LIST(0, 2);
    worn[2] = 1;
    COMMAND(8, 31);                   /* FLUSH, WRITE_ERROR: block 1 is done, block 2 keeps its bytes */
    print_flash();
    printf("marks %u %u\n", session.marks[0], session.marks[1]); /* and its mark */
    print_pending();
    hiomap_stepped failed = step(0);
    printf("step %u %s\n", failed.code, yes(failed.acted));
    COMMAND(5, 32, HIOMAP_CLOSE_NO_FLAGS); /* CLOSE_WINDOW, WRITE_ERROR: the window stays */
    worn[2] = 0;                      /* the driver has put a spare block in its place, with the same bytes, */
    COMMAND(8, 33);                   /* and FLUSH ends the job */
    print_flash();
    print_pending();
}

int main(void) {
    memset(flash, 0xFF, sizeof flash);
    printf("record %zu bytes\n", sizeof session);
    host_reset();                     /* before the first command: a host may wait for 0x80 in register 15 */

    COMMAND(2, 1, 2);                 /* GET_INFO, version 2 */
    COMMAND(6, 2, 1, 0, 0, 0);        /* a write window at block 1, no hint: its 2 blocks are 1 and 2 */
    memset(memory, 0xA5, 300);        /* the host writes in the first window block, */
    memory[HIOMAP_BLOCK_BYTES] = 0x5A; /* and in the second, not marked yet: the first FLUSH leaves it */
    COMMAND(7, 3, 0, 0, 1, 0);        /* MARK_DIRTY, the first window block */
    print_pending();
    COMMAND(8, 4);                    /* FLUSH: an erase and 16 pages */
    print_pending();
    print_flash();

    memset(memory + 200, 0xFF, 100);  /* the host takes 100 bytes back */
    COMMAND(7, 5, 0, 0, 1, 0);
    change_access("suspend", hiomap_suspend);
    change_access("suspend", hiomap_suspend);
    COMMAND(8, 6);                    /* BUSY */
    hiomap_stepped busy = step(0);
    printf("step %u %s\n", busy.code, yes(busy.acted));
    COMMAND(9, 7, 0xFF);              /* ACK of every bit: the event 0x01 is cleared, the conditions stay */
    change_access("resume", hiomap_resume);
    change_access("resume", hiomap_resume);

    uint64_t done = 0;                /* the flush, one action at a time */
    hiomap_stepped last = step(done);
    while (last.acted && done < MOST_ACTIONS) {
        done++;
        last = step(done);
    }
    printf("steps %u then %u %s\n", (unsigned)done, last.code, yes(last.acted));
    print_flash();
    print_pending();                  /* steps change no mark */
    COMMAND(8, 8);                    /* the marks are still there: FLUSH does it again */

    COMMAND(7, 9, 1, 0, 1, 0);        /* MARK_DIRTY, the second window block */
    COMMAND(5, 10, 0x02);             /* CLOSE_WINDOW with undefined flags, PARAM_ERROR: nothing is flushed, */
    print_flash();
    COMMAND(5, 11, HIOMAP_CLOSE_SHORT_LIFETIME); /* and the window is still there for one with defined flags */
    print_flash();
    COMMAND(5, 12, 0x02);             /* the flags are looked at without a window too */
    COMMAND(6, 13, 1, 0, 0, 0);       /* the same window again */

    MARK_LIST(0, 1, 1, 2, 0, 3);      /* the second pair ends past the window, and so does the third: none is marked */
    print_pending();
    MARK_LIST(0, 1, 1);               /* an odd length: PARAM_ERROR, and no pair is named */
    mark_list(many, 2 * HIOMAP_MOST_PAIRS);       /* the most pairs; these have no blocks, and mark nothing */
    mark_list(many, 2 * (HIOMAP_MOST_PAIRS + 1)); /* one pair too many */
    MARK_LIST(0, 1, 1, 1, 0, 2, 2, 0); /* both blocks, each twice; 2, 0 lies at the window's end and marks nothing */
    print_pending();
    COMMAND(10, 13, 0, 0, 1, 0);      /* SEQ_ERROR: 13 is still the previous number, for the list has none */
    COMMAND(8, 30);                   /* FLUSH of both */
    worn_block();

    change_access("suspend", hiomap_suspend);
    MARK_LIST(0, 1);                  /* BUSY */
    change_access("resume changed", hiomap_resume_changed);
    MARK_LIST(0, 1);                  /* WINDOW_ERROR: the window was dropped */
    COMMAND(8, 14);                   /* and for a FLUSH too */
    COMMAND(9, 15, 2);                /* ACK, window reset */

    session.window = 7;               /* a damaged record: SYSTEM_ERROR, and it stays as it is */
    hiomap_record before = session;
    COMMAND(2, 16, 2);
    MARK_LIST(0, 1);
    printf("kept %s\n", yes(memcmp(&before, &session, sizeof session) == 0));
    hiomap_stepped broken = step(0);
    printf("step %u %s\n", broken.code, yes(broken.acted));
    session.version = 7;              /* what is pending is told all the same, as long as its numbers are right */
    session.marks[0] = 1;
    session.marks[1] = 2;
    session.dirty = session.erased = 1;
    print_pending();
    session.dirty = 2;                /* here they are not */
    print_pending();
    change_access("suspend", hiomap_suspend); /* suspend and resume act on any record */
    printf("window %u\n", session.window);
    change_access("resume changed", hiomap_resume_changed);
    printf("window %u\n", session.window);
    print_pending();                  /* a window that is dropped leaves nothing */
    session.version = 2;              /* so that nothing is wrong but what comes next: */
    session.suspended = 2;            /* a 2 for yes or no is not sound either; a resume takes it for yes */
    COMMAND(2, 17, 2);
    change_access("resume", hiomap_resume);
    printf("suspended %u\n", session.suspended);
    session.events |= HIOMAP_EVENT_FLASH_CONTROL_LOST; /* nor is 0x40 without a suspension; no command mends it, */
    COMMAND(2, 18, 2);
    change_access("resume", hiomap_resume);
    change_access("suspend", hiomap_suspend); /* a suspend does, or a fresh record */
    change_access("resume", hiomap_resume);

    host_reset();                     /* the host boots again; this one counts from 1 and begins with ACK */
    COMMAND(9, 1, 1);
    COMMAND(2, 2, 2);
    COMMAND(1, 1);                    /* RESET: the last command before the next boot has number 1 */
    COMMAND(9, 1, 1);                 /* without a fresh record that boot begins with SEQ_ERROR, */
    host_reset();
    COMMAND(9, 1, 1);                 /* with one it is served */
    print_flash();
    return 0;
}
