/* sfv.h: Structured Field Values for HTTP (RFC 9651 and the older RFC 8941), for C and C++.
 *
 *     sfv_check        checks that an input is a field
 *     sfv_parse        parses a field into rows, one for each of its parts
 *     sfv_member       finds a member of a dictionary in the rows
 *     sfv_parameter    finds a parameter in the rows
 *     sfv_write        writes a field from rows
 *     sfv_canonical    parses a field, and writes it in its canonical form
 *     sfv_lines        joins several lines of one field
 *     sfv_error_text   returns the text of an error
 *     sfv_processor_error  says whether the processor can run the library
 *
 * Pointers. The library keeps no pointer after a call, and returns no memory to free. An input can contain any bytes and
 * needs no NUL. A buffer that a call writes must not overlap another argument, nor the bytes of a row or line.
 * A pointer can be NULL if its length is 0, except in a row. For NULL with a length above 0, and for a length of more than
 * PTRDIFF_MAX bytes, a call that returns an sfv_answer returns SFV_BAD_ARGUMENT. A text without a length ends with a NUL,
 * and is not NULL.
 *
 * Memory. The library calls malloc, realloc and free, and frees all its memory before it returns. If an allocation fails
 * that a call needs, the status is SFV_OUT_OF_MEMORY. sfv_write and sfv_canonical request some memory that they can do
 * without. No call recurses. A call uses less than 4.5 KB of stack, or 6 KB if the dynamic linker binds functions lazily.
 *
 * Threads. Any number of calls can run at once. The only state is the seed of sfv_canonical. Do not call from a signal
 * handler, or after fork in a process with threads.
 *
 * Linking. cc program.c $(pkg-config --cflags --libs sfv). Builds are for x86-64-v2 processors (SSE4.2, POPCNT), which
 * sfv_processor_error checks, and for glibc 2.16 or later.
 *
 * Proved for all arguments: the answers of the exported calls, the contents of rows, and the texts. Only tested: the
 * functions of this header, that SFV_ROWS_FOR rows and `input_length` bytes of room suffice, where rows point, and what a
 * call allocates. Only measured: the sizes of the stack. Nothing checks the caller.
 */
#ifndef SFV_H
#define SFV_H

#include <stddef.h>
#include <stdint.h>
#include <string.h>

#ifdef __cplusplus
extern "C" {
#endif

/* The version of the library, and of its binary interface. A change of a number, a struct or a signature raises SFV_ABI. */
#define SFV_VERSION_MAJOR 0
#define SFV_VERSION_MINOR 16
#define SFV_VERSION_PATCH 0
#define SFV_VERSION "0.16.0"
#define SFV_ABI 1

#if defined(__cplusplus) || (defined(__STDC_VERSION__) && __STDC_VERSION__ >= 199901L)
#define SFV_INLINE static inline
#elif defined(__GNUC__)
#define SFV_INLINE static __inline__ __attribute__((unused))
#else
#define SFV_INLINE static
#endif

/* The type of a field. */
typedef enum sfv_type { SFV_ITEM = 1, SFV_LIST = 2, SFV_DICTIONARY = 3 } sfv_type;

/* RFC 8941 has no dates and no display strings. */
typedef enum sfv_version { SFV_RFC8941 = 8941, SFV_RFC9651 = 9651 } sfv_version;

typedef enum sfv_status {
    SFV_OK = 0,
    SFV_NOTHING = 1,       /* a list or dictionary without members has no text: do not send the field */
    SFV_TOO_SMALL = 2,     /* a buffer is too small */
    SFV_REJECTED = 3,      /* the input is no such field */
    SFV_OUT_OF_MEMORY = 4, /* an allocation failed that the call needs */
    SFV_BAD_ARGUMENT = 5,  /* a number names no type or version; or a pointer or length is wrong */
    SFV_UNSUPPORTED = 6,   /* the version lacks a value */
    SFV_WRONG_ROW = 7      /* no field of this type has these rows */
} sfv_status;

/* The kinds of error. No call returns the kinds 2, 3 and 4. */
typedef enum sfv_error_kind {
    SFV_ERR_NONE = 0,
    SFV_ERR_OUT_OF_MEMORY = 1,
    SFV_ERR_OUT_OF_RANGE = 2,
    SFV_ERR_EMPTY = 3,
    SFV_ERR_INVALID_CHARACTER = 4,
    SFV_ERR_TRAILING_CHARACTERS_AFTER_MEMBER = 5,
    SFV_ERR_TRAILING_COMMA = 6,
    SFV_ERR_TRAILING_CHARACTERS_AFTER_PARSED_VALUE = 7,
    SFV_ERR_EXPECTED_INNER_LIST_DELIMITER = 8,
    SFV_ERR_UNTERMINATED_INNER_LIST = 9,
    SFV_ERR_EXPECTED_START_OF_BARE_ITEM = 10,
    SFV_ERR_EXPECTED_BOOLEAN = 11,
    SFV_ERR_INVALID_STRING_CHARACTER = 12,
    SFV_ERR_UNTERMINATED_STRING = 13,
    SFV_ERR_UNTERMINATED_ESCAPE_SEQUENCE = 14,
    SFV_ERR_INVALID_ESCAPE_SEQUENCE = 15,
    SFV_ERR_UNTERMINATED_BYTE_SEQUENCE = 16,
    SFV_ERR_INVALID_BYTE_SEQUENCE = 17,
    SFV_ERR_EXPECTED_DIGIT = 18,
    SFV_ERR_TOO_MANY_DIGITS = 19,
    SFV_ERR_TOO_MANY_DIGITS_BEFORE_DECIMAL_POINT = 20,
    SFV_ERR_TOO_MANY_DIGITS_AFTER_DECIMAL_POINT = 21,
    SFV_ERR_TRAILING_DECIMAL_POINT = 22,
    SFV_ERR_RFC8941_DATE = 23,
    SFV_ERR_NON_INTEGER_DATE = 24,
    SFV_ERR_RFC8941_DISPLAY_STRING = 25,
    SFV_ERR_EXPECTED_QUOTE = 26,
    SFV_ERR_INVALID_UTF8_IN_DISPLAY_STRING = 27,
    SFV_ERR_INVALID_DISPLAY_STRING_CHARACTER = 28,
    SFV_ERR_UNTERMINATED_DISPLAY_STRING = 29,
    SFV_ERR_EXPECTED_START_OF_KEY = 30
} sfv_error_kind;

/* The result of a call. The table names the members that a status uses. Each other member is 0.
 *
 *     SFV_OK              sfv_parse: `length`, the used bytes of room, and `rows`, the number of rows
 *                         sfv_write, sfv_canonical, sfv_lines: `length`, the bytes of the text
 *     SFV_TOO_SMALL       the same members: the needed sizes
 *     SFV_REJECTED        `kind`, an sfv_error_kind, and `index`, at most `input_length`
 *     SFV_OUT_OF_MEMORY   `kind`, which is SFV_ERR_OUT_OF_MEMORY
 *     SFV_BAD_ARGUMENT    sfv_write, sfv_lines: `index`, of the first bad row or line, or 0 for another argument
 *     SFV_UNSUPPORTED     `kind`, the sfv_value_kind of the first value that the version lacks
 *     SFV_WRONG_ROW       `index`, of the first wrong row, or `rows_length` */
typedef struct sfv_answer {
    uint32_t status; /* an sfv_status */
    uint32_t kind;
    size_t index;
    size_t length;
    size_t rows;
} sfv_answer;

/* Bytes without a NUL at their end. A string or byte sequence can contain NUL. */
typedef struct sfv_bytes {
    const char *data;
    size_t length;
} sfv_bytes;

/* The parts of a field in order. For example, `a=1;x, b=(c)` has the rows
 *     KEYED_ENTRY a, BEGIN_ITEM, BARE_ITEM 1, PARAMETER x true, END_PARAMETERS,
 *     KEYED_ENTRY b, BEGIN_INNER, BEGIN_ITEM, BARE_ITEM c, END_PARAMETERS, END_INNER, END_PARAMETERS. */
typedef enum sfv_tag {
    SFV_ENTRY = 1,          /* a member of a list follows */
    SFV_KEYED_ENTRY = 2,    /* a member of a dictionary follows; this is its `key` */
    SFV_BEGIN_ITEM = 3,     /* an item follows */
    SFV_BEGIN_INNER = 4,    /* an inner list follows: its items, SFV_END_INNER, its parameters */
    SFV_BARE_ITEM = 5,      /* the value of an item; the rows of an SFV_ITEM begin with it */
    SFV_PARAMETER = 6,      /* `key` and value of a parameter */
    SFV_END_PARAMETERS = 7, /* the last row of an item or inner list */
    SFV_END_INNER = 8       /* the items of an inner list end */
} sfv_tag;

/* The kinds of value, and the member of sfv_row for each. */
typedef enum sfv_value_kind {
    SFV_NO_VALUE = 0,
    SFV_INTEGER = 1,       /* `number` */
    SFV_DECIMAL = 2,       /* `number`, in thousandths: 1500 for 1.5 */
    SFV_STRING = 3,        /* `bytes`, without quotes and escapes */
    SFV_TOKEN = 4,         /* `bytes` */
    SFV_BYTE_SEQUENCE = 5, /* `bytes`, decoded */
    SFV_BOOLEAN = 6,       /* `number`, 0 or 1 */
    SFV_DATE = 7,          /* `number`, in seconds since 1970 */
    SFV_DISPLAY_STRING = 8 /* `bytes`, decoded: UTF-8 */
} sfv_value_kind;

/* A part of a field. Each member that it lacks is 0 or empty. No pointer is NULL. */
typedef struct sfv_row {
    uint32_t tag;  /* an sfv_tag */
    uint32_t kind; /* an sfv_value_kind */
    sfv_bytes key;
    sfv_bytes bytes;
    int64_t number;
} sfv_row;

/* Does not compile unless the structs have the layout of the library. */
typedef char sfv_check_layout[sizeof(size_t) == 8 && sizeof(sfv_answer) == 32 && offsetof(sfv_answer, kind) == 4
        && offsetof(sfv_answer, index) == 8 && offsetof(sfv_answer, length) == 16 && offsetof(sfv_answer, rows) == 24
        && sizeof(sfv_row) == 48 && offsetof(sfv_row, kind) == 4 && offsetof(sfv_row, key) == 8
        && offsetof(sfv_row, bytes) == 24 && offsetof(sfv_row, number) == 40 && offsetof(sfv_bytes, length) == 8
    ? 1 : -1];

/* So many rows suffice for `n` bytes. The product with sizeof(sfv_row) does not overflow. */
#define SFV_MAX_ROWS ((size_t)-1 / sizeof(sfv_row))
#define SFV_ROWS_FOR(n) ((size_t)(n) > SFV_MAX_ROWS / 2 - 1 ? SFV_MAX_ROWS : (size_t)(n) * 2 + 2)

/* Each text of sfv_error_text fits, with its NUL. */
#define SFV_TEXT_SIZE 64

/* The exported functions, for other languages. They accept no NULL. */
uint32_t sfv_c_abi(void);
sfv_answer sfv_c_canonical(uint32_t type, uint32_t reading, uint32_t writing, uint64_t seed, const uint8_t *input,
                           size_t input_length, uint8_t *out, size_t out_length);
sfv_answer sfv_c_check(uint32_t type, uint32_t version, const uint8_t *input, size_t input_length);
sfv_answer sfv_c_spans(uint32_t type, uint32_t version, const uint8_t *input, size_t input_length, sfv_row *rows,
                       size_t rows_length, uint8_t *room, size_t room_length);
sfv_answer sfv_c_write_spans(uint32_t type, uint32_t version, const sfv_row *rows, size_t rows_length, uint8_t *out,
                             size_t out_length);
sfv_answer sfv_c_message(uint32_t kind, uint8_t *out, size_t out_length);

/* Returns the number that its first call chooses. Its lowest bit is 1. The other 63 bits are random: from getrandom(2), or
 * from the kernel's AT_RANDOM if getrandom fails. Without either the number is 1. A forked child keeps the number. */
uint64_t sfv_seed(void);

/* Returns NULL if the processor can run the library, and otherwise one line that says what it lacks. Then every call but
 * this one, sfv_abi and sfv_seed may end the program with SIGILL. */
const char *sfv_processor_error(void);

/* Returns the SFV_ABI of the library that the program runs with. */
SFV_INLINE uint32_t sfv_abi(void) { return sfv_c_abi(); }

SFV_INLINE sfv_answer sfv_make_answer(sfv_status status, size_t index, size_t length) {
    sfv_answer a;
    a.status = (uint32_t)status;
    a.kind = 0;
    a.index = index;
    a.length = length;
    a.rows = 0;
    return a;
}

SFV_INLINE int sfv_is_buffer(const void *data, size_t length, size_t size) {
    return (data != NULL || length == 0) && length <= (size_t)-1 / 2 / size;
}

/* Returns 1 if no pointer of the row is NULL, and no length is above PTRDIFF_MAX. */
SFV_INLINE int sfv_has_bytes(const sfv_row *row) {
    return row->key.data != NULL && row->bytes.data != NULL && (row->key.length | row->bytes.length) <= (size_t)-1 / 2;
}

/* Checks that the input is a field.
 *
 * Returns SFV_OK, SFV_REJECTED, SFV_OUT_OF_MEMORY or SFV_BAD_ARGUMENT. Allocates only if the input contains a
 * backslash, a percent sign or a colon: up to 3 bytes per byte of input. */
SFV_INLINE sfv_answer sfv_check(sfv_type type, sfv_version version, const void *input, size_t input_length) {
    uint8_t none = 0;
    if (!sfv_is_buffer(input, input_length, 1)) return sfv_make_answer(SFV_BAD_ARGUMENT, 0, 0);
    return sfv_c_check((uint32_t)type, (uint32_t)version, input ? (const uint8_t *)input : &none, input_length);
}

/* Parses a field into rows.
 *
 * Rows point into `input`. Byte sequences and texts with an escape are decoded into the used part of `room`, and their
 * rows point there. So rows are valid as long as both. A repeated key has a row each time; the last counts.
 *
 * Returns SFV_OK with the number of rows and the used length of `room`. Returns SFV_TOO_SMALL with the needed sizes;
 * SFV_ROWS_FOR(input_length) rows and `input_length` bytes suffice. Otherwise returns SFV_REJECTED, SFV_OUT_OF_MEMORY
 * or SFV_BAD_ARGUMENT. Unless the status is SFV_OK, `rows` and `room` can contain anything. Allocates only if the input
 * contains a backslash, a percent sign or a colon: up to 8 bytes, and 3 per byte of the longest decoded value. */
SFV_INLINE sfv_answer sfv_parse(sfv_type type, sfv_version version, const void *input, size_t input_length, sfv_row *rows,
                                size_t rows_length, void *room, size_t room_length) {
    static uint8_t no_room;
    uint8_t none = 0;
    sfv_row no_row;
    if (!sfv_is_buffer(input, input_length, 1) || !sfv_is_buffer(rows, rows_length, sizeof *rows)
        || !sfv_is_buffer(room, room_length, 1))
        return sfv_make_answer(SFV_BAD_ARGUMENT, 0, 0);
    return sfv_c_spans((uint32_t)type, (uint32_t)version, input ? (const uint8_t *)input : &none, input_length,
                       rows ? rows : &no_row, rows_length, room ? (uint8_t *)room : &no_room, room_length);
}

/* Returns 1 if the bytes are this text, otherwise 0. */
SFV_INLINE int sfv_is(sfv_bytes bytes, const char *text) {
    size_t length = strlen(text);
    return bytes.length == length && (length == 0 || memcmp(bytes.data, text, length) == 0);
}

/* Returns the value of the last member with this key, or NULL: its SFV_BARE_ITEM or SFV_BEGIN_INNER. The rows are a
 * whole dictionary. If they are not, the result is one of them or NULL. */
SFV_INLINE const sfv_row *sfv_member(const sfv_row *rows, size_t rows_length, const char *key) {
    const sfv_row *found = NULL;
    size_t i;
    for (i = 0; i + 2 < rows_length; i++)
        if (rows[i].tag == SFV_KEYED_ENTRY && sfv_is(rows[i].key, key))
            found = &rows[rows[i + 1].tag == SFV_BEGIN_INNER ? i + 1 : i + 2];
    return found;
}

/* Returns the last parameter with this key, or NULL. `owner` is an SFV_BARE_ITEM or SFV_BEGIN_INNER of a parsed field,
 * or NULL. */
SFV_INLINE const sfv_row *sfv_parameter(const sfv_row *owner, const char *key) {
    const sfv_row *found = NULL;
    if (owner == NULL) return NULL;
    if (owner->tag == SFV_BEGIN_INNER)
        while (owner->tag != SFV_END_INNER) owner++;
    for (owner++; owner->tag == SFV_PARAMETER; owner++)
        if (sfv_is(owner->key, key)) found = owner;
    return found;
}

/* Returns a row without key and value. */
SFV_INLINE sfv_row sfv_tag_row(sfv_tag tag) {
    sfv_row row;
    row.tag = (uint32_t)tag;
    row.kind = SFV_NO_VALUE;
    row.key.data = row.bytes.data = "";
    row.key.length = row.bytes.length = 0;
    row.number = 0;
    return row;
}

/* Returns an SFV_KEYED_ENTRY. */
SFV_INLINE sfv_row sfv_key_row(const char *key) {
    sfv_row row = sfv_tag_row(SFV_KEYED_ENTRY);
    row.key.data = key;
    row.key.length = strlen(key);
    return row;
}

/* Returns an SFV_BARE_ITEM with a number. */
SFV_INLINE sfv_row sfv_number_row(sfv_value_kind kind, int64_t number) {
    sfv_row row = sfv_tag_row(SFV_BARE_ITEM);
    row.kind = (uint32_t)kind;
    row.number = number;
    return row;
}

/* Returns an SFV_BARE_ITEM with bytes, which the row points to. NULL with the length 0 is the empty text. */
SFV_INLINE sfv_row sfv_bytes_row(sfv_value_kind kind, const void *data, size_t length) {
    sfv_row row = sfv_tag_row(SFV_BARE_ITEM);
    row.kind = (uint32_t)kind;
    if (data != NULL || length > 0) row.bytes.data = (const char *)data;
    row.bytes.length = length;
    return row;
}

/* Returns an SFV_PARAMETER with the value of an SFV_BARE_ITEM. */
SFV_INLINE sfv_row sfv_parameter_row(const char *key, sfv_row value) {
    value.tag = SFV_PARAMETER;
    value.key.data = key;
    value.key.length = strlen(key);
    return value;
}

/* Writes the canonical text of the field of these rows to the start of `out`. A repeated key is written each time.
 *
 * Returns SFV_OK or SFV_TOO_SMALL with the length of the text, or SFV_NOTHING. Returns SFV_WRONG_ROW with the index
 * of the first row that no field of this type has there; if a row is missing, the index is `rows_length`. Returns
 * SFV_UNSUPPORTED, only for SFV_RFC8941, with the kind of the first value that it lacks. Returns SFV_BAD_ARGUMENT with the
 * index of the first row with NULL, also for the length 0, or with a length above PTRDIFF_MAX. Returns
 * SFV_OUT_OF_MEMORY, only if the first two rows begin a field. Unless the status is SFV_OK, `out` is unchanged. Allocates
 * up to 128 bytes, 8 per row and 3 per byte of text. */
SFV_INLINE sfv_answer sfv_write(sfv_type type, sfv_version version, const sfv_row *rows, size_t rows_length, void *out,
                                size_t out_length) {
    uint8_t nothing = 0;
    sfv_row no_row = sfv_tag_row(SFV_ENTRY);
    size_t i;
    if (!sfv_is_buffer(rows, rows_length, sizeof *rows) || !sfv_is_buffer(out, out_length, 1))
        return sfv_make_answer(SFV_BAD_ARGUMENT, 0, 0);
    for (i = 0; i < rows_length; i++)
        if (!sfv_has_bytes(&rows[i])) return sfv_make_answer(SFV_BAD_ARGUMENT, i, 0);
    return sfv_c_write_spans((uint32_t)type, (uint32_t)version, rows ? rows : &no_row, rows_length,
                             out ? (uint8_t *)out : &nothing, out_length);
}

/* Parses a field under the version `reading`, and writes its canonical text for the version `writing` to the start of
 * `out`. A repeated key keeps its first position and takes its last value. Maps hash under `seed`. An attacker with the
 * seed can make keys collide.
 *
 * Returns SFV_OK or SFV_TOO_SMALL with the length of the text, SFV_NOTHING, SFV_REJECTED, SFV_UNSUPPORTED,
 * SFV_OUT_OF_MEMORY or SFV_BAD_ARGUMENT. Unless the status is SFV_OK, `out` is unchanged. Allocates up to 2 KB and 300
 * bytes per byte of input. */
SFV_INLINE sfv_answer sfv_canonical_with_seed(sfv_type type, sfv_version reading, sfv_version writing, uint64_t seed,
                                              const void *input, size_t input_length, void *out, size_t out_length) {
    uint8_t none = 0, nothing = 0;
    if (!sfv_is_buffer(input, input_length, 1) || !sfv_is_buffer(out, out_length, 1))
        return sfv_make_answer(SFV_BAD_ARGUMENT, 0, 0);
    return sfv_c_canonical((uint32_t)type, (uint32_t)reading, (uint32_t)writing, seed,
                           input ? (const uint8_t *)input : &none, input_length, out ? (uint8_t *)out : &nothing,
                           out_length);
}

/* The same with sfv_seed(). */
SFV_INLINE sfv_answer sfv_canonical(sfv_type type, sfv_version reading, sfv_version writing, const void *input,
                                    size_t input_length, void *out, size_t out_length) {
    return sfv_canonical_with_seed(type, reading, writing, sfv_seed(), input, input_length, out, out_length);
}

/* Joins the lines of one field with a comma and a space, for the other calls.
 *
 * Returns SFV_OK or SFV_TOO_SMALL with the length, or SFV_BAD_ARGUMENT. Unless the status is SFV_OK, `out` is
 * unchanged. Allocates nothing. */
SFV_INLINE sfv_answer sfv_lines(const sfv_bytes *lines, size_t lines_length, void *out, size_t out_length) {
    char *end = (char *)out;
    size_t length = 0, i;
    if (!sfv_is_buffer(lines, lines_length, sizeof *lines) || !sfv_is_buffer(out, out_length, 1))
        return sfv_make_answer(SFV_BAD_ARGUMENT, 0, 0);
    for (i = 0; i < lines_length; i++) {
        size_t rest = (size_t)-1 - length, size = lines[i].length;
        if (!sfv_is_buffer(lines[i].data, size, 1)) return sfv_make_answer(SFV_BAD_ARGUMENT, i, 0);
        if (i > 0) size += 2;
        length += size < rest ? size : rest;
    }
    if (length > out_length) return sfv_make_answer(SFV_TOO_SMALL, 0, length);
    if (length == 0) return sfv_make_answer(SFV_OK, 0, 0);
    for (i = 0; i < lines_length; i++) {
        if (i > 0) {
            *end++ = ',';
            *end++ = ' ';
        }
        if (lines[i].length > 0) memcpy(end, lines[i].data, lines[i].length);
        end += lines[i].length;
    }
    return sfv_make_answer(SFV_OK, 0, length);
}

/* Writes the text of a status or error to `text`, with a NUL, and returns it. */
SFV_INLINE const char *sfv_error_text(sfv_answer a, char text[SFV_TEXT_SIZE]) {
    const char *known = "unknown status";
    sfv_answer m;
    switch (a.status) {
    case SFV_OK: known = "ok"; break;
    case SFV_NOTHING: known = "no members"; break;
    case SFV_TOO_SMALL: known = "buffer too small"; break;
    case SFV_REJECTED:
        m = sfv_c_message(a.kind, (uint8_t *)text, SFV_TEXT_SIZE - 1);
        if (m.status == SFV_OK) {
            text[m.length] = 0;
            return text;
        }
        known = "no such field";
        break;
    case SFV_OUT_OF_MEMORY: known = "out of memory"; break;
    case SFV_BAD_ARGUMENT: known = "bad argument"; break;
    case SFV_UNSUPPORTED:
        known = a.kind == SFV_DATE ? "RFC 8941 does not support dates" : "RFC 8941 does not support display strings";
        break;
    case SFV_WRONG_ROW: known = "no field has these rows"; break;
    default: break;
    }
    memcpy(text, known, strlen(known) + 1);
    return text;
}

#ifdef __cplusplus
}
#endif

#endif
