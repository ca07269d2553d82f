/* Checks the functions of sfv.h: answers, rows, look-ups, joined lines, wrong arguments, sizes, texts and numbers. Prints
 * each check that fails, and `ok` if none does. */
#include <stdio.h>
#include <stdlib.h>
#include <string.h>

#include "sfv.h"

static int errors;

static void expect(int holds, int line, size_t row) {
    if (!holds) printf("line %d, row %lu\n", line, (unsigned long)row), errors++;
}

#define CHECK(holds) expect((holds), __LINE__, 0)
#define CHECK_ROW(holds) expect((holds), __LINE__, i)
#define COUNT(table) (sizeof(table) / sizeof *(table))

enum { ROWS = SFV_ROWS_FOR(100) };

static const size_t LONGEST = (size_t)-1 / 2;

static sfv_row rows[ROWS];
static char room[100], out[200];

static sfv_answer parse(sfv_type type, const char *field, size_t rows_length, void *to, size_t room_length) {
    return sfv_parse(type, SFV_RFC9651, field, strlen(field), rows, rows_length, to, room_length);
}

static int is_answer(sfv_answer a, uint32_t status, uint32_t kind, size_t index, size_t length, size_t count) {
    return a.status == status && a.kind == kind && a.index == index && a.length == length && a.rows == count;
}

static void clear_out(void) { memset(out, '#', sizeof out); }

/* Returns 1 if `out` begins with this text, and the rest of it is as `clear_out` left it. */
static int is_out(const char *text) {
    size_t i = strlen(text);
    if (memcmp(out, text, i) != 0) return 0;
    for (; i < sizeof out; i++)
        if (out[i] != '#') return 0;
    return 1;
}

/* A call for a field, its whole answer, and the text that it writes. */
typedef struct called {
    enum { CHECKED, PARSED, WRITTEN, CANONICAL } call;
    sfv_type type;
    sfv_version version;
    const char *field;
    size_t rows_length, size; /* of the rows, and of the room or `out` */
    sfv_answer expected;
    const char *text;
} called;

static const called CALLED[] = {
    {CHECKED, SFV_LIST, SFV_RFC9651, "a, :aGk=:", 0, 0, {SFV_OK, 0, 0, 0, 0}, ""},
    {CHECKED, SFV_ITEM, SFV_RFC9651, "@1", 0, 0, {SFV_OK, 0, 0, 0, 0}, ""},
    {CHECKED, SFV_ITEM, SFV_RFC8941, "@1", 0, 0, {SFV_REJECTED, SFV_ERR_RFC8941_DATE, 0, 0, 0}, ""},
    {CHECKED, SFV_LIST, SFV_RFC9651, "a,", 0, 0, {SFV_REJECTED, SFV_ERR_TRAILING_COMMA, 1, 0, 0}, ""},
    {CHECKED, SFV_DICTIONARY, SFV_RFC9651, "a=\"", 0, 0, {SFV_REJECTED, SFV_ERR_UNTERMINATED_STRING, 3, 0, 0}, ""},
    {CHECKED, (sfv_type)4, SFV_RFC9651, "a", 0, 0, {SFV_BAD_ARGUMENT, 0, 0, 0, 0}, ""},
    {CHECKED, SFV_LIST, (sfv_version)1, "a", 0, 0, {SFV_BAD_ARGUMENT, 0, 0, 0, 0}, ""},
    {PARSED, SFV_LIST, SFV_RFC9651, "a, :aGk=:", 8, 2, {SFV_OK, 0, 0, 2, 8}, ""},
    {PARSED, SFV_LIST, SFV_RFC9651, "a, :aGk=:", 8, 3, {SFV_OK, 0, 0, 2, 8}, ""},
    {PARSED, SFV_LIST, SFV_RFC9651, "a, :aGk=:", 8, 1, {SFV_TOO_SMALL, 0, 0, 2, 8}, ""},
    {PARSED, SFV_LIST, SFV_RFC9651, "a, :aGk=:", 7, 2, {SFV_TOO_SMALL, 0, 0, 2, 8}, ""},
    {PARSED, SFV_LIST, SFV_RFC9651, "", 8, 2, {SFV_OK, 0, 0, 0, 0}, ""},
    {PARSED, SFV_ITEM, SFV_RFC8941, "@1", 8, 2, {SFV_REJECTED, SFV_ERR_RFC8941_DATE, 0, 0, 0}, ""},
    {PARSED, SFV_DICTIONARY, SFV_RFC9651, "a=\"", 8, 2, {SFV_REJECTED, SFV_ERR_UNTERMINATED_STRING, 3, 0, 0}, ""},
    {PARSED, (sfv_type)0, SFV_RFC9651, "a", 8, 2, {SFV_BAD_ARGUMENT, 0, 0, 0, 0}, ""},
    {PARSED, SFV_LIST, (sfv_version)1, "a", 8, 2, {SFV_BAD_ARGUMENT, 0, 0, 0, 0}, ""},
    {WRITTEN, SFV_LIST, SFV_RFC9651, "a,  b", 8, 9, {SFV_OK, 0, 0, 4, 0}, "a, b"},
    {WRITTEN, SFV_LIST, SFV_RFC9651, "a,  b", 8, 4, {SFV_OK, 0, 0, 4, 0}, "a, b"},
    {WRITTEN, SFV_LIST, SFV_RFC9651, "a,  b", 8, 3, {SFV_TOO_SMALL, 0, 0, 4, 0}, ""},
    {WRITTEN, SFV_LIST, SFV_RFC9651, "", 0, 9, {SFV_NOTHING, 0, 0, 0, 0}, ""},
    {WRITTEN, SFV_LIST, SFV_RFC9651, "a, b", 7, 9, {SFV_WRONG_ROW, 0, 7, 0, 0}, ""},
    {WRITTEN, SFV_ITEM, SFV_RFC9651, "@1", 2, 9, {SFV_OK, 0, 0, 2, 0}, "@1"},
    {WRITTEN, SFV_ITEM, SFV_RFC8941, "@1", 2, 9, {SFV_UNSUPPORTED, SFV_DATE, 0, 0, 0}, ""},
    {WRITTEN, SFV_LIST, SFV_RFC8941, "%\"\", @1", 8, 9, {SFV_UNSUPPORTED, SFV_DISPLAY_STRING, 0, 0, 0}, ""},
    {WRITTEN, SFV_LIST, (sfv_version)1, "a", 4, 9, {SFV_BAD_ARGUMENT, 0, 0, 0, 0}, ""},
    {CANONICAL, SFV_DICTIONARY, SFV_RFC9651, "a=1,b, a=2", 0, 9, {SFV_OK, 0, 0, 6, 0}, "a=2, b"},
    {CANONICAL, SFV_DICTIONARY, SFV_RFC9651, "a=1,b, a=2", 0, 6, {SFV_OK, 0, 0, 6, 0}, "a=2, b"},
    {CANONICAL, SFV_DICTIONARY, SFV_RFC9651, "a=1,b, a=2", 0, 5, {SFV_TOO_SMALL, 0, 0, 6, 0}, ""},
    {CANONICAL, SFV_LIST, SFV_RFC9651, "  ", 0, 9, {SFV_NOTHING, 0, 0, 0, 0}, ""},
    {CANONICAL, SFV_ITEM, SFV_RFC8941, "@1", 0, 9, {SFV_UNSUPPORTED, SFV_DATE, 0, 0, 0}, ""},
    {CANONICAL, SFV_LIST, SFV_RFC9651, "a,", 0, 9, {SFV_REJECTED, SFV_ERR_TRAILING_COMMA, 1, 0, 0}, ""},
    {CANONICAL, (sfv_type)4, SFV_RFC9651, "a", 0, 9, {SFV_BAD_ARGUMENT, 0, 0, 0, 0}, ""},
    {CANONICAL, SFV_LIST, (sfv_version)1, "a", 0, 9, {SFV_BAD_ARGUMENT, 0, 0, 0, 0}, ""},
};

static sfv_answer answer_of(const called *c) {
    size_t length = strlen(c->field);
    switch (c->call) {
    case CHECKED: return sfv_check(c->type, c->version, c->field, length);
    case PARSED: return sfv_parse(c->type, c->version, c->field, length, rows, c->rows_length, room, c->size);
    case CANONICAL: return sfv_canonical(c->type, SFV_RFC9651, c->version, c->field, length, out, c->size);
    default: parse(c->type, c->field, ROWS, room, sizeof room);
    }
    return sfv_write(c->type, c->version, rows, c->rows_length, out, c->size);
}

/* Each answer has the members that the header's table names, and the others are 0. */
static void check_answers(void) {
    for (size_t i = 0; i < COUNT(CALLED); i++) {
        sfv_answer a, e = CALLED[i].expected;
        clear_out();
        a = answer_of(&CALLED[i]);
        CHECK_ROW(is_answer(a, e.status, e.kind, e.index, e.length, e.rows));
        CHECK_ROW(is_out(CALLED[i].text));
    }
    CHECK(sfv_canonical(SFV_ITEM, SFV_RFC8941, SFV_RFC9651, "@1", 2, out, 9).status == SFV_REJECTED);
    CHECK(sfv_canonical(SFV_ITEM, (sfv_version)1, SFV_RFC9651, "1", 1, out, 9).status == SFV_BAD_ARGUMENT);
}

static void check_find(void) {
    static const char field[] = "a=1, s=(\"a\";x=1 \"b\";z);x=2;x=7, a=2;y, b=:aGk=:, c=\"q\\\"r\", d=%\"f%c3%bc\", "
                                "t=\"in\"";
    sfv_answer a = parse(SFV_DICTIONARY, field, ROWS, room, sizeof room);
    const sfv_row *m = sfv_member(rows, a.rows, "a"), *p;
    CHECK(a.status == SFV_OK && a.length == 2 + 3 + 3);
    CHECK(m && m->number == 2 && sfv_parameter(m, "y") && !sfv_parameter(m, "x"));
    m = sfv_member(rows, a.rows, "s");
    p = sfv_parameter(m, "x");
    CHECK(m && m->tag == SFV_BEGIN_INNER && p && p->number == 7 && !sfv_parameter(m, "z") && !sfv_parameter(m, "y"));
    CHECK(!sfv_member(rows, a.rows, "x") && !sfv_member(rows, a.rows, "") && !sfv_parameter(NULL, "x"));
    CHECK(!sfv_member(NULL, 0, "a"));
    m = sfv_member(rows, a.rows, "b");
    CHECK(m && m->kind == SFV_BYTE_SEQUENCE && sfv_is(m->bytes, "hi") && m->bytes.data >= room);
    m = sfv_member(rows, a.rows, "c");
    CHECK(m && m->kind == SFV_STRING && sfv_is(m->bytes, "q\"r"));
    m = sfv_member(rows, a.rows, "d");
    CHECK(m && m->kind == SFV_DISPLAY_STRING && sfv_is(m->bytes, "f\xc3\xbc"));
    m = sfv_member(rows, a.rows, "t");
    CHECK(m && sfv_is(m->bytes, "in") && m->bytes.data > field && m->bytes.data < field + sizeof field);
    a = sfv_write(SFV_DICTIONARY, SFV_RFC9651, rows, a.rows, out, sizeof out);
    CHECK(a.status == SFV_OK && a.length == strlen(field) && memcmp(out, field, a.length) == 0);
}

/* Looks up keys in a copy of the rows, after which no row follows, also if its end is cut off. */
static void check_ends(void) {
    sfv_answer a = parse(SFV_DICTIONARY, "a;x, b=(c;y);z", ROWS, room, sizeof room);
    sfv_row *copy = malloc(a.rows * sizeof *copy);
    const sfv_row *m, *p;
    if (!copy) exit(2);
    memcpy(copy, rows, a.rows * sizeof *copy);
    m = sfv_member(copy, a.rows, "a");
    p = sfv_parameter(m, "x");
    CHECK(m == copy + 2 && p == copy + 3 && !sfv_parameter(m, "b"));
    m = sfv_member(copy, a.rows, "b");
    p = sfv_parameter(m, "z");
    CHECK(m == copy + 6 && p == copy + a.rows - 2 && !sfv_parameter(m, "c") && !sfv_parameter(m, "y"));
    for (size_t i = a.rows; i > 0; i--) {
        copy = realloc(copy, i * sizeof *copy);
        if (!copy) exit(2);
        m = sfv_member(copy, i, "b");
        CHECK_ROW(!m || (size_t)(m - copy) < i);
        m = sfv_member(copy, i, "a");
        CHECK_ROW(!m || (size_t)(m - copy) < i);
    }
    free(copy);
    a = parse(SFV_DICTIONARY, "c=()", ROWS, room, sizeof room);
    CHECK(sfv_member(rows, a.rows, "c") == rows + 1 && !sfv_parameter(rows + 1, "c"));
    a = parse(SFV_ITEM, "1;x=2;y=3;x=4", ROWS, room, sizeof room);
    p = sfv_parameter(rows, "x");
    CHECK(a.rows == 5 && p == rows + 3 && p->number == 4 && !sfv_parameter(rows, "z"));
}

static void check_is(void) {
    static const struct { sfv_bytes bytes; const char *text; int is_same; } TEXTS[] = {
        {{"abc", 3}, "abc", 1}, {{"abc", 2}, "ab", 1}, {{"abc", 2}, "abc", 0}, {{"abc", 3}, "ab", 0},
        {{"abc", 3}, "abd", 0}, {{"abd", 3}, "abc", 0}, {{"abc", 3}, "bbc", 0}, {{"bbc", 3}, "abc", 0},
        {{"abc", 3}, "", 0},    {{"abc", 0}, "a", 0},
        {{"a\0b", 3}, "a", 0},  {{"a\0b", 1}, "a", 1},  {{"abc", 0}, "", 1},   {{NULL, 0}, "", 1},
        {{NULL, 0}, "a", 0},    {{"\xff", 1}, "\xff", 1},
    };
    for (size_t i = 0; i < COUNT(TEXTS); i++) CHECK_ROW(sfv_is(TEXTS[i].bytes, TEXTS[i].text) == TEXTS[i].is_same);
}

static int is_row(sfv_row row, uint32_t tag, const char *key, uint32_t kind, const void *bytes, size_t length,
                  int64_t number) {
    return row.tag == tag && sfv_is(row.key, key) && row.key.data && row.kind == kind && row.bytes.length == length
        && (bytes ? row.bytes.data == bytes : row.bytes.data != NULL) && row.number == number;
}

static void check_rows(void) {
    static const char key[] = "key", bytes[] = "bytes";
    sfv_row number = sfv_number_row(SFV_DATE, -5), text = sfv_bytes_row(SFV_TOKEN, bytes, 5);
    CHECK(is_row(sfv_tag_row(SFV_END_INNER), SFV_END_INNER, "", SFV_NO_VALUE, NULL, 0, 0));
    CHECK(is_row(sfv_key_row(key), SFV_KEYED_ENTRY, key, SFV_NO_VALUE, NULL, 0, 0) && sfv_key_row(key).key.data == key);
    CHECK(is_row(number, SFV_BARE_ITEM, "", SFV_DATE, NULL, 0, -5));
    CHECK(is_row(text, SFV_BARE_ITEM, "", SFV_TOKEN, bytes, 5, 0));
    CHECK(is_row(sfv_bytes_row(SFV_STRING, bytes, 0), SFV_BARE_ITEM, "", SFV_STRING, bytes, 0, 0));
    CHECK(is_row(sfv_bytes_row(SFV_STRING, NULL, 0), SFV_BARE_ITEM, "", SFV_STRING, NULL, 0, 0));
    CHECK(is_row(sfv_parameter_row(key, number), SFV_PARAMETER, key, SFV_DATE, NULL, 0, -5));
    CHECK(is_row(sfv_parameter_row(key, text), SFV_PARAMETER, key, SFV_TOKEN, bytes, 5, 0));
    CHECK(sfv_parameter_row(key, text).key.data == key);
}

/* Writes an item with this value, or the item 1 with this value as its parameter. */
static sfv_answer write_value(sfv_row value, int is_parameter) {
    sfv_row item[3];
    size_t n = 0;
    item[n++] = is_parameter ? sfv_number_row(SFV_INTEGER, 1) : value;
    if (is_parameter) item[n++] = sfv_parameter_row("x", value);
    item[n++] = sfv_tag_row(SFV_END_PARAMETERS);
    clear_out();
    return sfv_write(SFV_ITEM, SFV_RFC9651, item, n, out, sizeof out);
}

static void check_written(void) {
    const struct { sfv_row value; const char *item, *parameter; } values[] = {
        {sfv_number_row(SFV_INTEGER, -7), "-7", "1;x=-7"},
        {sfv_number_row(SFV_DECIMAL, 1500), "1.5", "1;x=1.5"},
        {sfv_number_row(SFV_BOOLEAN, 0), "?0", "1;x=?0"},
        {sfv_number_row(SFV_BOOLEAN, 1), "?1", "1;x"},
        {sfv_number_row(SFV_DATE, -1), "@-1", "1;x=@-1"},
        {sfv_bytes_row(SFV_STRING, "a\"b", 3), "\"a\\\"b\"", "1;x=\"a\\\"b\""},
        {sfv_bytes_row(SFV_STRING, "ab", 1), "\"a\"", "1;x=\"a\""},
        {sfv_bytes_row(SFV_STRING, NULL, 0), "\"\"", "1;x=\"\""},
        {sfv_bytes_row(SFV_TOKEN, "tok", 3), "tok", "1;x=tok"},
        {sfv_bytes_row(SFV_BYTE_SEQUENCE, "hi", 2), ":aGk=:", "1;x=:aGk=:"},
        {sfv_bytes_row(SFV_BYTE_SEQUENCE, "\0", 1), ":AA==:", "1;x=:AA==:"},
        {sfv_bytes_row(SFV_BYTE_SEQUENCE, NULL, 0), "::", "1;x=::"},
        {sfv_bytes_row(SFV_DISPLAY_STRING, "\xc3\xbc", 2), "%\"%c3%bc\"", "1;x=%\"%c3%bc\""},
    };
    for (size_t i = 0; i < COUNT(values); i++) {
        CHECK_ROW(is_answer(write_value(values[i].value, 0), SFV_OK, 0, 0, strlen(values[i].item), 0));
        CHECK_ROW(is_out(values[i].item));
        CHECK_ROW(is_answer(write_value(values[i].value, 1), SFV_OK, 0, 0, strlen(values[i].parameter), 0));
        CHECK_ROW(is_out(values[i].parameter));
    }
}

/* No value has these rows. */
static void check_wrong_rows(void) {
    const struct { sfv_row value; uint32_t status; } values[] = {
        {sfv_number_row(SFV_BOOLEAN, 2), SFV_WRONG_ROW},
        {sfv_number_row(SFV_BOOLEAN, -1), SFV_WRONG_ROW},
        {sfv_number_row(SFV_INTEGER, 1000000000000000), SFV_WRONG_ROW},
        {sfv_number_row(SFV_TOKEN, 1), SFV_WRONG_ROW},
        {sfv_number_row(SFV_NO_VALUE, 0), SFV_WRONG_ROW},
        {sfv_number_row((sfv_value_kind)9, 0), SFV_WRONG_ROW},
        {sfv_bytes_row(SFV_STRING, "\x80", 1), SFV_WRONG_ROW},
        {sfv_bytes_row(SFV_TOKEN, NULL, 0), SFV_WRONG_ROW},
        {sfv_bytes_row(SFV_INTEGER, "1", 1), SFV_WRONG_ROW},
        {sfv_bytes_row(SFV_STRING, NULL, 1), SFV_BAD_ARGUMENT},
        {sfv_bytes_row(SFV_BYTE_SEQUENCE, NULL, 200), SFV_BAD_ARGUMENT},
        {sfv_bytes_row(SFV_STRING, "a", LONGEST + 1), SFV_BAD_ARGUMENT},
        {sfv_bytes_row(SFV_STRING, "a", (size_t)-1), SFV_BAD_ARGUMENT},
    };
    for (size_t i = 0; i < COUNT(values); i++)
        for (int is_parameter = 0; is_parameter < 2; is_parameter++) {
            sfv_answer a = write_value(values[i].value, is_parameter);
            CHECK_ROW(is_answer(a, values[i].status, 0, (size_t)is_parameter, 0, 0) && is_out(""));
        }
}

/* A row with NULL or with a length above the longest is bad, at each place and in each of its pointers. */
static void check_bad_rows(void) {
    sfv_answer a = parse(SFV_DICTIONARY, "a=\"b\", c", ROWS, room, sizeof room);
    size_t count = a.rows;
    for (size_t i = 0; i < count; i++)
        for (int part = 0; part < 4; part++) {
            sfv_row row = rows[i];
            sfv_bytes *bytes = part < 2 ? &rows[i].key : &rows[i].bytes;
            if (part % 2 == 0) bytes->data = NULL;
            else bytes->length = LONGEST + 1;
            clear_out();
            a = sfv_write(SFV_DICTIONARY, SFV_RFC9651, rows, count, out, sizeof out);
            CHECK_ROW(is_answer(a, SFV_BAD_ARGUMENT, 0, i, 0, 0) && is_out(""));
            rows[i] = row;
        }
    rows[count - 1].key.data = rows[0].bytes.data = NULL;
    CHECK(sfv_write(SFV_DICTIONARY, SFV_RFC9651, rows, count, out, sizeof out).index == 0);
}

static void check_buffers(void) {
    sfv_answer a = parse(SFV_LIST, "a, \"b\"", ROWS, NULL, 0);
    CHECK(a.status == SFV_OK && a.rows == 8 && a.length == 0);
    CHECK(is_answer(parse(SFV_LIST, "a, :aGk=:", ROWS, NULL, 0), SFV_TOO_SMALL, 0, 0, 2, 8));
    a = parse(SFV_ITEM, "::", ROWS, NULL, 0);
    CHECK(a.status == SFV_OK && a.rows == 2 && rows[0].bytes.data && rows[0].bytes.length == 0);
    CHECK(is_answer(sfv_parse(SFV_LIST, SFV_RFC9651, "a", 1, NULL, 0, NULL, 0), SFV_TOO_SMALL, 0, 0, 0, 4));
    CHECK(is_answer(sfv_parse(SFV_LIST, SFV_RFC9651, NULL, 0, NULL, 0, NULL, 0), SFV_OK, 0, 0, 0, 0));
    CHECK(is_answer(sfv_write(SFV_LIST, SFV_RFC9651, NULL, 0, NULL, 0), SFV_NOTHING, 0, 0, 0, 0));
    CHECK(is_answer(sfv_write(SFV_ITEM, SFV_RFC9651, NULL, 0, NULL, 0), SFV_WRONG_ROW, 0, 0, 0, 0));
    CHECK(is_answer(sfv_write(SFV_ITEM, SFV_RFC9651, rows, 2, NULL, 0), SFV_TOO_SMALL, 0, 0, 2, 0));
    CHECK(is_answer(sfv_check(SFV_LIST, SFV_RFC9651, NULL, 0), SFV_OK, 0, 0, 0, 0));
    CHECK(sfv_check(SFV_ITEM, SFV_RFC9651, NULL, 0).status == SFV_REJECTED);
    CHECK(sfv_canonical(SFV_LIST, SFV_RFC9651, SFV_RFC9651, NULL, 0, NULL, 0).status == SFV_NOTHING);
    CHECK(is_answer(sfv_canonical(SFV_ITEM, SFV_RFC9651, SFV_RFC9651, "1", 1, NULL, 0), SFV_TOO_SMALL, 0, 0, 1, 0));
}

/* Each pointer is NULL with a length above 0, or its length is above the longest. */
static void check_arguments(void) {
    const sfv_version v = SFV_RFC9651;
    const size_t most = LONGEST + 1, most_rows = LONGEST / sizeof *rows + 1, most_lines = LONGEST / sizeof(sfv_bytes) + 1;
    const sfv_bytes line = {"a", 1};
    const sfv_answer answers[] = {
        sfv_check(SFV_LIST, v, NULL, 5),
        sfv_check(SFV_LIST, v, "a", most),
        sfv_parse(SFV_LIST, v, NULL, 1, rows, ROWS, room, 1),
        sfv_parse(SFV_LIST, v, "a", most, rows, ROWS, room, 1),
        sfv_parse(SFV_LIST, v, "a", 1, NULL, 1, room, 1),
        sfv_parse(SFV_LIST, v, "a", 1, rows, most_rows, room, 1),
        sfv_parse(SFV_LIST, v, "a", 1, rows, ROWS, NULL, 1),
        sfv_parse(SFV_LIST, v, "a", 1, rows, ROWS, room, most),
        sfv_write(SFV_LIST, v, NULL, 1, out, sizeof out),
        sfv_write(SFV_LIST, v, rows, most_rows, out, sizeof out),
        sfv_write(SFV_LIST, v, rows, 0, NULL, 1),
        sfv_write(SFV_LIST, v, rows, 0, out, most),
        sfv_canonical(SFV_LIST, v, v, NULL, 1, out, 1),
        sfv_canonical(SFV_LIST, v, v, "a", most, out, 1),
        sfv_canonical(SFV_LIST, v, v, "a", 1, NULL, 1),
        sfv_canonical(SFV_LIST, v, v, "a", 1, out, most),
        sfv_lines(NULL, 1, out, sizeof out),
        sfv_lines(&line, most_lines, out, sizeof out),
        sfv_lines(&line, 1, NULL, sizeof out),
        sfv_lines(&line, 1, out, most),
    };
    for (size_t i = 0; i < COUNT(answers); i++) CHECK_ROW(is_answer(answers[i], SFV_BAD_ARGUMENT, 0, 0, 0, 0));
    CHECK(is_answer(sfv_lines(&line, 1, out, LONGEST), SFV_OK, 0, 0, 1, 0));
}

static void check_lines(void) {
    static const struct { size_t count; const char *lines[3], *text; } JOINED[] = {
        {0, {NULL, NULL, NULL}, ""},     {1, {"a", NULL, NULL}, "a"},  {1, {NULL, NULL, NULL}, ""},
        {1, {"", NULL, NULL}, ""},       {2, {"a", "bc", NULL}, "a, bc"}, {2, {"", "a", NULL}, ", a"},
        {2, {NULL, "a", NULL}, ", a"},   {2, {"a", "", NULL}, "a, "},  {3, {"a", NULL, "bc"}, "a, , bc"},
        {3, {"a=1", "b", "c"}, "a=1, b, c"},
    };
    for (size_t i = 0; i < COUNT(JOINED); i++) {
        size_t count = JOINED[i].count, length = strlen(JOINED[i].text);
        sfv_bytes lines[3];
        for (size_t n = 0; n < 3; n++) {
            lines[n].data = JOINED[i].lines[n];
            lines[n].length = lines[n].data ? strlen(lines[n].data) : 0;
        }
        clear_out();
        CHECK_ROW(is_answer(sfv_lines(lines, count, out, length), SFV_OK, 0, 0, length, 0) && is_out(JOINED[i].text));
        clear_out();
        CHECK_ROW(is_answer(sfv_lines(lines, count, out, 50), SFV_OK, 0, 0, length, 0) && is_out(JOINED[i].text));
        if (length == 0) continue;
        clear_out();
        CHECK_ROW(is_answer(sfv_lines(lines, count, out, length - 1), SFV_TOO_SMALL, 0, 0, length, 0) && is_out(""));
        CHECK_ROW(is_answer(sfv_lines(lines, count, NULL, 0), SFV_TOO_SMALL, 0, 0, length, 0));
    }
    CHECK(is_answer(sfv_lines(NULL, 0, NULL, 0), SFV_OK, 0, 0, 0, 0));
}

/* The index is that of the first bad line. */
static void check_bad_lines(void) {
    for (size_t i = 0; i < 3; i++) {
        sfv_bytes lines[3] = {{"a", 1}, {"b", 1}, {"c", 1}};
        clear_out();
        lines[i].data = NULL;
        CHECK_ROW(is_answer(sfv_lines(lines, 3, out, sizeof out), SFV_BAD_ARGUMENT, 0, i, 0, 0) && is_out(""));
        lines[2].data = NULL;
        CHECK_ROW(is_answer(sfv_lines(lines, 3, NULL, 0), SFV_BAD_ARGUMENT, 0, i, 0, 0));
        lines[i].data = "a", lines[i].length = LONGEST + 1;
        CHECK_ROW(is_answer(sfv_lines(lines, 3, out, sizeof out), SFV_BAD_ARGUMENT, 0, i, 0, 0) && is_out(""));
        lines[0].data = "a", lines[0].length = LONGEST;
        lines[1] = lines[2] = lines[0];
        CHECK_ROW(is_answer(sfv_lines(lines, 3, out, sizeof out), SFV_TOO_SMALL, 0, 0, (size_t)-1, 0) && is_out(""));
    }
}

/* An input for each kind of error. */
static void check_kinds(void) {
    static const struct { sfv_error_kind kind; sfv_type type; sfv_version version; const char *field; } KINDS[] = {
        {SFV_ERR_TRAILING_CHARACTERS_AFTER_MEMBER, SFV_LIST, SFV_RFC9651, "a b"},
        {SFV_ERR_TRAILING_COMMA, SFV_LIST, SFV_RFC9651, "a,"},
        {SFV_ERR_TRAILING_CHARACTERS_AFTER_PARSED_VALUE, SFV_ITEM, SFV_RFC9651, "a b"},
        {SFV_ERR_EXPECTED_INNER_LIST_DELIMITER, SFV_LIST, SFV_RFC9651, "(a,b)"},
        {SFV_ERR_UNTERMINATED_INNER_LIST, SFV_LIST, SFV_RFC9651, "(a"},
        {SFV_ERR_EXPECTED_START_OF_BARE_ITEM, SFV_ITEM, SFV_RFC9651, "="},
        {SFV_ERR_EXPECTED_BOOLEAN, SFV_ITEM, SFV_RFC9651, "?2"},
        {SFV_ERR_INVALID_STRING_CHARACTER, SFV_ITEM, SFV_RFC9651, "\"\x7f\""},
        {SFV_ERR_UNTERMINATED_STRING, SFV_ITEM, SFV_RFC9651, "\"a"},
        {SFV_ERR_UNTERMINATED_ESCAPE_SEQUENCE, SFV_ITEM, SFV_RFC9651, "\"\\"},
        {SFV_ERR_INVALID_ESCAPE_SEQUENCE, SFV_ITEM, SFV_RFC9651, "\"\\a\""},
        {SFV_ERR_UNTERMINATED_BYTE_SEQUENCE, SFV_ITEM, SFV_RFC9651, ":YQ=="},
        {SFV_ERR_INVALID_BYTE_SEQUENCE, SFV_ITEM, SFV_RFC9651, ":a:"},
        {SFV_ERR_EXPECTED_DIGIT, SFV_ITEM, SFV_RFC9651, "-"},
        {SFV_ERR_TOO_MANY_DIGITS, SFV_ITEM, SFV_RFC9651, "1234567890123456"},
        {SFV_ERR_TOO_MANY_DIGITS_BEFORE_DECIMAL_POINT, SFV_ITEM, SFV_RFC9651, "1234567890123.1"},
        {SFV_ERR_TOO_MANY_DIGITS_AFTER_DECIMAL_POINT, SFV_ITEM, SFV_RFC9651, "1.1234"},
        {SFV_ERR_TRAILING_DECIMAL_POINT, SFV_ITEM, SFV_RFC9651, "1."},
        {SFV_ERR_RFC8941_DATE, SFV_ITEM, SFV_RFC8941, "@1"},
        {SFV_ERR_NON_INTEGER_DATE, SFV_ITEM, SFV_RFC9651, "@1.5"},
        {SFV_ERR_RFC8941_DISPLAY_STRING, SFV_ITEM, SFV_RFC8941, "%\"\""},
        {SFV_ERR_EXPECTED_QUOTE, SFV_ITEM, SFV_RFC9651, "%a"},
        {SFV_ERR_INVALID_UTF8_IN_DISPLAY_STRING, SFV_ITEM, SFV_RFC9651, "%\"%ff\""},
        {SFV_ERR_INVALID_DISPLAY_STRING_CHARACTER, SFV_ITEM, SFV_RFC9651, "%\"\x7f\""},
        {SFV_ERR_UNTERMINATED_DISPLAY_STRING, SFV_ITEM, SFV_RFC9651, "%\"a"},
        {SFV_ERR_EXPECTED_START_OF_KEY, SFV_DICTIONARY, SFV_RFC9651, "A"},
    };
    for (size_t i = 0; i < COUNT(KINDS); i++) {
        sfv_answer a = sfv_check(KINDS[i].type, KINDS[i].version, KINDS[i].field, strlen(KINDS[i].field));
        CHECK_ROW(a.status == SFV_REJECTED && a.kind == (uint32_t)KINDS[i].kind);
    }
}

/* Every text fits, and every kind has its own. */
static void check_texts(void) {
    static const char *const TEXTS[] = {"ok", "no members", "buffer too small", "no such field", "out of memory",
                                        "bad argument", "RFC 8941 does not support dates", "no field has these rows",
                                        "unknown status"};
    char text[SFV_TEXT_SIZE], last[SFV_TEXT_SIZE] = "";
    sfv_answer a = sfv_check(SFV_ITEM, SFV_RFC9651, "\"a", 2);
    CHECK(a.status == SFV_REJECTED && a.index == 2 && strcmp(sfv_error_text(a, text), "unterminated string") == 0);
    for (a.kind = SFV_ERR_OUT_OF_MEMORY; a.kind <= SFV_ERR_EXPECTED_START_OF_KEY; a.kind++) {
        memset(text, '#', sizeof text);
        CHECK(sfv_error_text(a, text) == text && memchr(text, 0, sizeof text) && strcmp(text, last) != 0);
        CHECK(sfv_c_message(a.kind, (uint8_t *)text, strlen(text) - 1).status == SFV_TOO_SMALL);
        memcpy(last, text, sizeof text);
    }
    for (size_t i = 0; i < COUNT(TEXTS); i++) {
        a.status = (uint32_t)i;
        a.kind = i == SFV_UNSUPPORTED ? SFV_DATE : SFV_NO_VALUE;
        memset(text, '#', sizeof text);
        CHECK_ROW(sfv_error_text(a, text) == text && strcmp(text, TEXTS[i]) == 0);
    }
}

/* The kinds that no syntax error has. */
static void check_other_kinds(void) {
    static const struct { sfv_error_kind kind; const char *text; } KINDS[] = {
        {SFV_ERR_NONE, "no such field"},        {SFV_ERR_OUT_OF_MEMORY, "out of memory"},
        {SFV_ERR_OUT_OF_RANGE, "out of range"}, {SFV_ERR_EMPTY, "cannot be empty"},
        {SFV_ERR_INVALID_CHARACTER, "invalid character"},
    };
    for (size_t i = 0; i < COUNT(KINDS); i++) {
        char text[SFV_TEXT_SIZE];
        sfv_answer a = {SFV_REJECTED, 0, 0, 0, 0};
        a.kind = (uint32_t)KINDS[i].kind;
        CHECK_ROW(strcmp(sfv_error_text(a, text), KINDS[i].text) == 0);
    }
}

/* One error has one text. */
static void check_unsupported(void) {
    char text[SFV_TEXT_SIZE], other[SFV_TEXT_SIZE];
    sfv_answer date = sfv_canonical(SFV_ITEM, SFV_RFC9651, SFV_RFC8941, "@1", 2, out, sizeof out);
    sfv_answer display = sfv_canonical(SFV_ITEM, SFV_RFC9651, SFV_RFC8941, "%\"\"", 3, out, sizeof out);
    sfv_answer no_date = sfv_check(SFV_ITEM, SFV_RFC8941, "@1", 2);
    sfv_answer no_display = sfv_check(SFV_ITEM, SFV_RFC8941, "%\"\"", 3);
    CHECK(strcmp(sfv_error_text(date, text), sfv_error_text(no_date, other)) == 0);
    CHECK(strcmp(sfv_error_text(display, text), sfv_error_text(no_display, other)) == 0);
}

/* A list of members of one byte needs all SFV_ROWS_FOR rows of its length. */
static void check_rows_for(void) {
    char field[100];
    for (size_t i = 0; i < sizeof field; i++) {
        sfv_type type = i % 4 < 2 ? SFV_LIST : SFV_DICTIONARY;
        size_t count = SFV_ROWS_FOR(i);
        sfv_answer less;
        for (size_t n = 0; n < i; n++) field[n] = n % 2 == 0 || n + 1 == i ? 'a' : ',';
        CHECK_ROW(sfv_parse(type, SFV_RFC9651, field, i, rows, count, NULL, 0).status == SFV_OK);
        less = sfv_parse(type, SFV_RFC9651, field, i, rows, count - 1, NULL, 0);
        CHECK_ROW(i % 2 == 0 || is_answer(less, SFV_TOO_SMALL, 0, 0, 0, count));
    }
    CHECK(SFV_ROWS_FOR(1 + 2) == 8 && SFV_ROWS_FOR(0) >= 2);
    CHECK(SFV_ROWS_FOR((size_t)-1) == SFV_MAX_ROWS && SFV_ROWS_FOR(SFV_MAX_ROWS / 2) == SFV_MAX_ROWS);
    CHECK(SFV_ROWS_FOR(SFV_MAX_ROWS / 2 - 1) <= SFV_MAX_ROWS && SFV_ROWS_FOR(SFV_MAX_ROWS / 2 - 1) >= SFV_MAX_ROWS - 1);
    CHECK(SFV_MAX_ROWS * sizeof(sfv_row) / sizeof(sfv_row) == SFV_MAX_ROWS);
}

static void check_numbers(void) {
    char version[64];
    sprintf(version, "%d.%d.%d", SFV_VERSION_MAJOR, SFV_VERSION_MINOR, SFV_VERSION_PATCH);
    CHECK(strcmp(version, SFV_VERSION) == 0);
    CHECK(sfv_processor_error() == NULL);
    CHECK(sfv_abi() == SFV_ABI && sfv_c_abi() == SFV_ABI && sfv_seed() % 2 == 1 && sfv_seed() == sfv_seed());
}

int main(void) {
    check_answers();
    check_find();
    check_ends();
    check_is();
    check_rows();
    check_written();
    check_wrong_rows();
    check_bad_rows();
    check_buffers();
    check_arguments();
    check_lines();
    check_bad_lines();
    check_kinds();
    check_texts();
    check_other_kinds();
    check_unsupported();
    check_rows_for();
    check_numbers();
    if (errors == 0) puts("ok");
    return errors != 0;
}
