/* Usage: fuzz SECONDS SEED
 * Makes every call for random fields and random rows. Each buffer has exactly the needed size, and ends at a page that no
 * code can read or write. Prints each field for which two calls disagree, and the number of fields. */
#define _GNU_SOURCE
#include <stdio.h>
#include <stdlib.h>
#include <sys/mman.h>
#include <time.h>

#include "rows.h"

enum { PAGE = 4096, LIMIT = 1 << 20, FIELD = 4096 };

static uint64_t state;

static uint64_t next(void) {
    state ^= state >> 12;
    state ^= state << 25;
    state ^= state >> 27;
    return state * 0x2545f4914f6cdd1du;
}

static size_t below(size_t limit) { return (size_t)(next() >> 32) % limit; }

#define ONE_OF(values) (values)[below(sizeof(values) / sizeof *(values))]

static const char *const PIECES[] = {
    "a", "*", "a1", "key-_.*", "A", "0", "-", "-0", "007", "1.5", "1.50", "123456789012345", "999999999999.999",
    "1234567890123456", ".", "\"", "\"a\"", "\"\\\"\"", "\\", "%\"", "%\"a%c3%bc\"", "%\"%ff\"", "%2", "%", ":", ":YQ==:",
    ":YWI=:", ":YQ:", "::", "@", "@1", "@1.5", "?1", "?", "(", ")", "()", "(a b)", "( 1  2 );x", ";", ";a", "; b=1", "=",
    ",", ", ", " ,\t", " ", "\t", "\xc3\xa9", "\n", "~", "#", "/",
};

static const char *const KEYS[] = {"a", "b", "c", "aa", "*k", "x-1", "longer_key.of-some*letters", "u", "i"};

static const char *const VALUES[] = {
    "1", "-42", "0", "999999999999999", "-0", "1.0", "-0.125", "3.14", "tok", "*t/k:e~n", "\"\"", "\"text\"",
    "\"a\\\"b\\\\c\"", "?0", "?1", "::", ":aGVsbG8=:", ":/+A=:", "@0", "@1659578233", "%\"\"", "%\"plain\"",
    "%\"f%c3%bc%20\"",
};

static char field[FIELD];
static size_t field_length;
static unsigned long errors;

static void push(const char *text) {
    size_t length = strlen(text);
    if (field_length + length > FIELD) return;
    memcpy(field + field_length, text, length);
    field_length += length;
}

static void push_parameters(void) {
    for (size_t n = below(8) / 3 * below(3); n > 0; n--) {
        push(below(2) ? ";" : "; ");
        push(ONE_OF(KEYS));
        if (below(3) > 0) push("="), push(ONE_OF(VALUES));
    }
}

static void push_item(void) {
    push(ONE_OF(VALUES));
    push_parameters();
}

static void push_member(void) {
    if (below(3) > 0) {
        push_item();
        return;
    }
    push("(");
    for (size_t n = below(4); n > 0; n--) {
        push_item();
        if (n > 1 || below(2)) push(" ");
    }
    push(")");
    push_parameters();
}

static void push_members(int is_keyed) {
    static const char *const SEPARATORS[] = {",", ", ", " ,\t"};
    for (size_t n = 0, count = below(6); n < count; n++) {
        if (n > 0) push(ONE_OF(SEPARATORS));
        if (is_keyed) push(ONE_OF(KEYS));
        if (is_keyed && below(4) == 0) push_parameters();
        else if (is_keyed) push("="), push_member();
        else push_member();
    }
}

/* Changes, removes or inserts a byte. */
static void change(void) {
    size_t at = field_length ? below(field_length) : 0;
    size_t rest = field_length - at;
    switch (below(3)) {
    case 0: if (rest) field[at] = (char)next(); break;
    case 1: if (rest) memmove(field + at, field + at + 1, rest - 1), field_length--; break;
    default:
        if (field_length == FIELD) return;
        memmove(field + at + 1, field + at, rest);
        field[at] = *ONE_OF(PIECES);
        field_length++;
    }
}

static void make_field(sfv_type type) {
    field_length = 0;
    if (below(4) == 0)
        for (size_t n = below(12); n > 0; n--) push(ONE_OF(PIECES));
    else if (type == SFV_ITEM) push_item();
    else push_members(type == SFV_DICTIONARY);
    for (size_t n = below(6) / 2 * below(2); n > 0; n--) change();
}

/* A buffer that ends at a page without access. */
typedef struct region { char *end; } region;

static region make_region(void) {
    region r;
    char *start = mmap(NULL, LIMIT + PAGE, PROT_READ | PROT_WRITE, MAP_PRIVATE | MAP_ANONYMOUS, -1, 0);
    if (start == MAP_FAILED || mprotect(start + LIMIT, PAGE, PROT_NONE) != 0) exit(2);
    r.end = start + LIMIT;
    return r;
}

static void *last(region r, size_t length) { return r.end - length; }

static void expect(int holds, const char *name) {
    if (holds || errors++ >= 20) return;
    printf("%s: ", name);
    for (size_t i = 0; i < field_length; i++) printf("%02x", (unsigned char)field[i]);
    printf("\n");
}

static int is_same(const sfv_row *a, const sfv_row *b) {
    return a->tag == b->tag && a->kind == b->kind && a->number == b->number && is_same_bytes(a->key, b->key)
        && is_same_bytes(a->bytes, b->bytes);
}

static region input_end, rows_end, room_end, out_end, again_end, again_room_end;

/* Every parsed row is found by its key. */
static void find_each(const sfv_row *rows, size_t count) {
    char key[FIELD + 1];
    const sfv_row *owner = NULL, *found;
    for (size_t i = 0; i < count; i++) {
        if (rows[i].tag == SFV_BARE_ITEM || rows[i].tag == SFV_BEGIN_INNER) owner = &rows[i];
        if (rows[i].tag == SFV_END_INNER) owner = NULL;
        if (rows[i].tag != SFV_KEYED_ENTRY && (rows[i].tag != SFV_PARAMETER || owner == NULL)) continue;
        memcpy(key, rows[i].key.data, rows[i].key.length);
        key[rows[i].key.length] = 0;
        found = rows[i].tag == SFV_PARAMETER ? sfv_parameter(owner, key) : sfv_member(rows, count, key);
        expect(found != NULL && found > &rows[i] - 1, "a key is not found");
        if (found == NULL || rows[i].tag == SFV_KEYED_ENTRY) continue;
        for (const sfv_row *later = found + 1; later->tag == SFV_PARAMETER; later++)
            expect(!sfv_is(later->key, key), "not the last parameter");
    }
}

/* Writes rows, and parses the text. The parts are the same. Returns the status. */
static uint32_t write_rows(sfv_type type, sfv_version version, const sfv_row *rows, size_t count) {
    sfv_answer a = sfv_write(type, version, rows, count, NULL, 0), b;
    char *out;
    sfv_row *again;
    size_t length = a.length;
    if (a.status != SFV_TOO_SMALL) return a.status;
    if (length > LIMIT || count * sizeof *rows > LIMIT) return a.status;
    out = last(out_end, length);
    a = sfv_write(type, version, rows, count, out, length);
    expect(a.status == SFV_OK && a.length == length, "written");
    a = sfv_parse(type, version, out, length, NULL, 0, NULL, 0);
    expect((a.status == SFV_OK || a.status == SFV_TOO_SMALL) && a.rows == count, "as many rows again");
    if (a.rows != count) return SFV_OK;
    again = last(again_end, count * sizeof *again);
    b = sfv_parse(type, version, out, length, again, count, last(again_room_end, a.length), a.length);
    expect(b.status == SFV_OK && b.rows == count, "parsed again");
    for (size_t i = 0; i < b.rows; i++) expect(is_same(&rows[i], &again[i]), "the same rows again");
    return SFV_OK;
}

/* Changes some rows at random. */
static void damage(sfv_row *rows, size_t count, const char *input, size_t length) {
    for (size_t n = 1 + below(3); n > 0; n--) {
        sfv_row *row = &rows[below(count)];
        size_t from = below(length + 1);
        switch (below(6)) {
        case 0: row->tag = (uint32_t)below(10); break;
        case 1: row->kind = (uint32_t)below(10); break;
        case 2: row->number = (int64_t)next() >> below(64); break;
        case 3: row->key.data = input + from, row->key.length = below(length - from + 1); break;
        case 4: row->bytes.data = input + from, row->bytes.length = below(length - from + 1); break;
        default: *row = rows[below(count)];
        }
    }
}

/* An accepted field: its rows, its canonical text, and damaged rows. */
static int try_accepted(sfv_type type, sfv_version version, const char *input, sfv_answer counted) {
    sfv_row *rows = last(rows_end, counted.rows * sizeof *rows);
    size_t spare = below(2) * below(FIELD);
    char *room = last(room_end, counted.length + spare), *text = last(again_room_end, 2 * FIELD);
    sfv_answer a = sfv_parse(type, version, input, field_length, rows, counted.rows, room, counted.length + spare), b;
    char canonical[2 * FIELD];
    expect(a.status == SFV_OK && a.rows == counted.rows && a.length == counted.length, "rows");
    if (a.status != SFV_OK) return 0;
    for (size_t i = 0; i < a.rows; i++)
        expect(is_parsed_row(&rows[i], input, field_length, room, a.length), "a row");
    find_each(rows, a.rows);
    b = sfv_canonical(type, version, SFV_RFC9651, input, field_length, canonical, sizeof canonical);
    expect(b.status == (a.rows ? SFV_OK : SFV_NOTHING), "canonical");
    expect(write_rows(type, version, rows, a.rows) == b.status, "written as canonical");
    if (a.rows == 0) return 1;
    a = sfv_write(type, SFV_RFC9651, rows, counted.rows, text, 2 * FIELD);
    if (!repeats_a_key(rows, counted.rows))
        expect(a.length == b.length && memcmp(text, canonical, b.length) == 0, "the canonical text");
    damage(rows, counted.rows, input, field_length);
    return write_rows(type, below(2) ? version : SFV_RFC8941, rows, counted.rows) == SFV_OK ? 2 : 1;
}

/* Returns 0 for a rejected field and 1 for an accepted one. Returns 2 if its damaged rows have a text. */
static int try_field(sfv_type type, sfv_version version) {
    char *input = last(input_end, field_length);
    sfv_answer checked, counted, written;
    memcpy(input, field, field_length);
    checked = sfv_check(type, version, input, field_length);
    counted = sfv_parse(type, version, input, field_length, NULL, 0, NULL, 0);
    written = sfv_canonical(type, version, SFV_RFC9651, input, field_length, NULL, 0);
    if (checked.status == SFV_REJECTED) {
        expect(counted.status == SFV_REJECTED && counted.kind == checked.kind && counted.index == checked.index, "parse");
        expect(written.status == SFV_REJECTED && written.kind == checked.kind && written.index == checked.index, "text");
        expect(checked.index <= field_length && checked.kind > SFV_ERR_INVALID_CHARACTER, "index and kind");
        return 0;
    }
    expect(checked.status == SFV_OK, "check");
    expect(counted.status == (counted.rows ? SFV_TOO_SMALL : SFV_OK), "counted");
    expect(counted.rows <= SFV_ROWS_FOR(field_length) && counted.length <= field_length, "enough");
    return try_accepted(type, version, input, counted);
}

int main(int count, char **arguments) {
    static const sfv_type TYPES[] = {SFV_ITEM, SFV_LIST, SFV_DICTIONARY};
    static const sfv_version VERSIONS[] = {SFV_RFC8941, SFV_RFC9651, SFV_RFC9651};
    time_t end = time(NULL) + (count > 1 ? atol(arguments[1]) : 5);
    unsigned long fields = 0, accepted = 0, others = 0;
    state = (count > 2 ? strtoull(arguments[2], NULL, 10) : 1) * 0x9e3779b97f4a7c15u | 1;
    input_end = make_region(), rows_end = make_region(), room_end = make_region();
    out_end = make_region(), again_end = make_region(), again_room_end = make_region();
    while (time(NULL) < end && errors == 0)
        for (int n = 0; n < 1000; n++, fields++) {
            sfv_type type = ONE_OF(TYPES);
            sfv_version version = ONE_OF(VERSIONS);
            int kind;
            make_field(type);
            kind = try_field(type, version);
            accepted += kind > 0;
            others += kind == 2;
        }
    printf("%lu fields, %lu accepted, %lu changed to other fields, %lu errors\n", fields, accepted, others, errors);
    return errors != 0 || accepted == 0 || accepted == fields || others == 0;
}
