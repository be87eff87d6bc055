/*
 * Shows what a KCS port does, access by access, for whoever debugs a box. tools/kcs_trace.sh builds and runs it, and says
 * which words it takes.
 */
#include <ctype.h>
#include <stdio.h>
#include <stdlib.h>
#include <string.h>

#include "kcs.h"

#define ROOM 1024 /* for a word */

static kcs_port port;

static void refuse(const char *word) {
    fprintf(stderr, "kcs_trace: '%s' is no access; those are s r cNN dNN aNN.. a f, NN two hex digits\n", word);
    exit(2);
}

/* The bytes of pairs of hex digits: how many there are, or -1 where the text is something else. */
static int bytes_of(const char *text, uint8_t *bytes) {
    int count = 0;
    for (; *text != '\0'; text += 2) {
        if (!isxdigit((unsigned char)text[0]) || !isxdigit((unsigned char)text[1]))
            return -1;
        char pair[] = {text[0], text[1], '\0'};
        bytes[count++] = (uint8_t)strtoul(pair, NULL, 16);
    }
    return count;
}

/* The access in words, and the status afterwards. */
static void print_access(const char *words) {
    static const char *const states[] = {"IDLE", "READ", "WRITE", "ERROR"};
    uint8_t status = kcs_status(&port);
    printf("%-33s status %02X  %-5s  C/D#=%d OBF=%d", words, status, states[status >> 6], (status & KCS_COMMAND) != 0,
           (status & KCS_OBF) != 0);
}

/* A refused write leads to the error phase, and no other does. */
static void print_refusal(void) {
    if (port.phase == KCS_FAILED)
        printf("  refused: %s", port.fault == KCS_LENGTH_ERROR ? "request beyond 64 bytes" : "wrong code");
}

static void print_message(uint8_t length) {
    printf("  message of %d byte%s:", length, length == 1 ? "" : "s");
    for (uint8_t i = 0; i < length; i++)
        printf(" %02X", port.request[i]);
}

static void read_register(const char *name, uint8_t byte) {
    char words[32];
    snprintf(words, sizeof words, "read %s %02X", name, byte);
    print_access(words);
}

static void write_command(uint8_t code) {
    static const char *const names[] = {" GET_STATUS/ABORT", " WRITE_START", " WRITE_END"};
    bool is_named = code >= KCS_GET_STATUS_ABORT && code <= KCS_WRITE_END;
    char words[64];
    snprintf(words, sizeof words, "write command %02X%s", code, is_named ? names[code - KCS_GET_STATUS_ABORT] : "");
    kcs_write_command(&port, code);
    print_access(words);
    print_refusal();
}

static void write_data(uint8_t byte) {
    bool is_read = port.phase == KCS_READING && byte == KCS_READ;
    char words[32];
    snprintf(words, sizeof words, "write data %02X%s", byte, is_read ? " READ" : "");
    uint8_t length = kcs_write_data(&port, byte);
    print_access(words);
    print_refusal();
    if (length != 0)
        print_message(length);
}

static void answer(const uint8_t *bytes, int count) {
    char words[32];
    snprintf(words, sizeof words, "answer of %d byte%s", count, count == 1 ? "" : "s");
    bool taken = kcs_respond(&port, (kcs_bytes){bytes, (size_t)count});
    print_access(words);
    if (!taken)
        printf("  answer refused");
}

/* One word is one access and one line. */
static void trace(const char *word) {
    uint8_t bytes[ROOM / 2];
    if (word[0] == '\0' || strlen(word) + 1 >= ROOM) /* with no letter to spare it may be the front of a longer one */
        refuse(word);
    int count = bytes_of(word + 1, bytes);
    if (word[0] == 's' && count == 0)
        read_register("status", kcs_status(&port));
    else if (word[0] == 'r' && count == 0)
        read_register("data", kcs_read_data(&port));
    else if (word[0] == 'c' && count == 1)
        write_command(bytes[0]);
    else if (word[0] == 'd' && count == 1)
        write_data(bytes[0]);
    else if (word[0] == 'a' && count >= 0)
        answer(bytes, count);
    else if (word[0] == 'f' && count == 0) {
        port = kcs_fresh();
        print_access("fresh port");
    } else
        refuse(word);
    printf("\n");
}

int main(int count, char **words) {
    port = kcs_fresh();
    for (int i = 1; i < count; i++)
        trace(words[i]);
    char word[ROOM];
    while (count == 1 && scanf("%1023s", word) == 1)
        trace(word);
    return 0;
}
