/* Parses fields of 70,000 parts into rows, and writes the rows: the text is the field again. Then it tries buffers that are
 * too small, and damaged rows. */
#include <stdio.h>
#include <stdlib.h>
#include <string.h>

#include "sfv.h"

enum { PARTS = 70000, FIELD = 20 * PARTS, ROWS = 5 * PARTS };

static char field[FIELD], room[FIELD], text[FIELD];
static sfv_row rows[ROWS];

/* Makes a field of numbered parts, with a separator between neighbours. Returns its length. */
static size_t make(const char *start, const char *part, const char *separator, const char *end) {
    char *at = field + sprintf(field, "%s", start);
    for (int n = 0; n < PARTS; n++) {
        at += sprintf(at, "%s", n ? separator : "");
        for (const char *c = part; *c; c++) at += *c == '#' ? sprintf(at, "%d", n) : sprintf(at, "%c", *c);
    }
    return (size_t)(at + sprintf(at, "%s", end) - field);
}

static sfv_answer parse(sfv_type type, size_t length, size_t rows_length, size_t room_length) {
    return sfv_parse(type, SFV_RFC9651, field, length, rows, rows_length, room, room_length);
}

static sfv_answer write(sfv_type type, size_t rows_length, size_t out_length) {
    return sfv_write(type, SFV_RFC9651, rows, rows_length, text, out_length);
}

/* Returns 1 if the rows with row `i` changed to `row` have this status and index. */
static int is_damaged(sfv_type type, size_t count, size_t i, sfv_row row, uint32_t status, size_t index) {
    sfv_row before = rows[i];
    sfv_answer a;
    rows[i] = row;
    a = write(type, count, sizeof text);
    rows[i] = before;
    return a.status == status && a.index == index;
}

/* Changes rows in some places. */
static int are_damaged(sfv_type type, size_t count) {
    int is_right = 1;
    for (size_t i = 0; i < count; i += count / 7) {
        sfv_row tag = rows[i], key = rows[i], bytes = rows[i], value = rows[i], null = rows[i];
        tag.tag = SFV_END_INNER + 1;
        key.key.data = "A";
        key.key.length = 1;
        bytes.bytes.data = "\x80";
        bytes.bytes.length = 1;
        value.kind = SFV_DISPLAY_STRING + 1;
        null.bytes.data = NULL;
        is_right &= is_damaged(type, count, i, tag, SFV_WRONG_ROW, i);
        is_right &= is_damaged(type, count, i, key, SFV_WRONG_ROW, i);
        is_right &= is_damaged(type, count, i, bytes, SFV_WRONG_ROW, i);
        is_right &= is_damaged(type, count, i, value, SFV_WRONG_ROW, i);
        is_right &= is_damaged(type, count, i, null, SFV_BAD_ARGUMENT, i);
    }
    return is_right;
}

static void check(const char *name, sfv_type type, size_t length, size_t count, size_t decoded) {
    sfv_answer a, b, c, d;
    a = parse(type, length, count - 1, sizeof room);
    b = parse(type, length, ROWS, decoded > 0 ? decoded - 1 : 0);
    int is_small = a.status == SFV_TOO_SMALL && a.rows == count && a.length == decoded;
    is_small &= b.status == (decoded == 0 ? SFV_OK : SFV_TOO_SMALL) && b.rows == count && b.length == decoded;
    a = parse(type, length, count, decoded);
    int is_parsed = a.status == SFV_OK && a.rows == count && a.length == decoded;
    c = write(type, count, length - 1);
    is_small &= c.status == SFV_TOO_SMALL && c.length == length && text[0] == 0;
    d = write(type, count, length);
    int is_written = d.status == SFV_OK && d.length == length && memcmp(text, field, length) == 0;
    d = write(type, count - 1, length);
    int is_missing = d.status == SFV_WRONG_ROW && d.index == count - 1;
    printf("%s: parsed %d, written %d, too small %d, damaged %d\n", name, is_parsed, is_written, is_small,
           is_missing && are_damaged(type, count));
    memset(text, 0, sizeof text);
}

int main(void) {
    size_t digits = 10 + 90 * 2 + 900 * 3 + 9000 * 4 + 60000 * 5;
    check("70,000 members of a list", SFV_LIST, make("", "t#", ", ", ""), 4 * PARTS, 0);
    check("70,000 strings with escapes", SFV_LIST, make("", "\"#\\\"\"", ", ", ""), 4 * PARTS, digits + PARTS);
    check("70,000 members of a dictionary", SFV_DICTIONARY, make("", "k#", ", ", ""), 4 * PARTS, 0);
    check("70,000 items of an inner list", SFV_LIST, make("(", "t#", " ", ")"), 3 * PARTS + 4, 0);
    check("70,000 parameters", SFV_ITEM, make("1;", "p#", ";", ""), PARTS + 2, 0);
    return 0;
}
