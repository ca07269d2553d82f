/* Parses lines `TYPE VERSION HEX CALLS RESULT`, as in crates/sfv_replay/stdin: the field type, the version, the input in
 * hexadecimal (`-` if it is empty), the number of calls of a visitor, and the expected result. */
#ifndef LINES_H
#define LINES_H

#include <stdio.h>
#include <stdlib.h>
#include <string.h>

#include "sfv.h"

typedef struct line {
    char *text; /* the whole line, for messages */
    sfv_type type;
    sfv_version version;
    unsigned char *input; /* `length` bytes between two guards */
    size_t length;
    unsigned long calls;
    const char *result;
} line;

enum { GUARD = 16, GUARD_BYTE = 0xa5 };

/* Returns a buffer of exactly this length between two guards. */
static unsigned char *guarded(size_t length) {
    unsigned char *block = malloc(length + 2 * GUARD);
    if (!block) {
        fprintf(stderr, "out of memory\n");
        exit(2);
    }
    memset(block, GUARD_BYTE, length + 2 * GUARD);
    return block + GUARD;
}

static void release(unsigned char *buffer) { free(buffer - GUARD); }

/* Returns 1 if no call wrote these bytes of a buffer. */
static int is_untouched(const void *buffer, size_t length) {
    for (size_t i = 0; i < length; i++)
        if (((const unsigned char *)buffer)[i] != GUARD_BYTE) return 0;
    return 1;
}

static int is_guarded(const unsigned char *buffer, size_t length) {
    return is_untouched(buffer - GUARD, GUARD) && is_untouched(buffer + length, GUARD);
}

static unsigned char digit(char c) { return (unsigned char)(c <= '9' ? c - '0' : c - 'a' + 10); }

/* Parses the next line of standard input. Returns 0 at the end. The caller frees the line's memory by `end_line`. */
static int next_line(line *l) {
    static char text[1 << 20];
    char type[16], version[16];
    int hex = 0, result = 0;
    if (!fgets(text, sizeof text, stdin)) return 0;
    text[strcspn(text, "\n")] = 0;
    if (sscanf(text, "%15s %15s %n%*s %lu %n", type, version, &hex, &l->calls, &result) < 3 || !result) {
        fprintf(stderr, "malformed line: %s\n", text);
        exit(2);
    }
    l->text = text;
    l->type = type[0] == 'i' ? SFV_ITEM : type[0] == 'l' ? SFV_LIST : SFV_DICTIONARY;
    l->version = strcmp(version, "8941") == 0 ? SFV_RFC8941 : SFV_RFC9651;
    l->result = text + result;
    l->length = text[hex] == '-' ? 0 : strcspn(text + hex, " ") / 2;
    l->input = guarded(l->length);
    for (size_t i = 0; i < l->length; i++)
        l->input[i] = (unsigned char)(digit(text[hex + 2 * i]) << 4 | digit(text[hex + 2 * i + 1]));
    return 1;
}

static void end_line(line *l) { release(l->input); }

#endif
