/* Checks what the functions of sfv.h pass to the library. In place of the exported functions it has its own, which record
 * their arguments. Prints each check that fails, and `ok` if none does. */
#include <stdio.h>

#include "sfv.h"

static int errors;

static void expect(int holds, int line) {
    if (!holds) printf("line %d\n", line), errors++;
}

#define CHECK(holds) expect((holds), __LINE__)

/* The arguments of a call, and 0 or NULL for those that it lacks. */
typedef struct arguments {
    uint32_t type, version, writing;
    uint64_t seed;
    const void *input, *rows, *out;
    size_t input_length, rows_length, out_length;
} arguments;

static arguments last;
static const sfv_answer ANSWER = {91, 92, 93, 94, 95};

static sfv_answer record(arguments given) {
    last = given;
    return ANSWER;
}

uint32_t sfv_c_abi(void) { return 77; }

uint64_t sfv_seed(void) { return 78; }

sfv_answer sfv_c_canonical(uint32_t type, uint32_t reading, uint32_t writing, uint64_t seed, const uint8_t *input,
                           size_t input_length, uint8_t *out, size_t out_length) {
    arguments given = {type, reading, writing, seed, input, NULL, out, input_length, 0, out_length};
    return record(given);
}

sfv_answer sfv_c_check(uint32_t type, uint32_t version, const uint8_t *input, size_t input_length) {
    arguments given = {type, version, 0, 0, input, NULL, NULL, input_length, 0, 0};
    return record(given);
}

sfv_answer sfv_c_spans(uint32_t type, uint32_t version, const uint8_t *input, size_t input_length, sfv_row *rows,
                       size_t rows_length, uint8_t *room, size_t room_length) {
    arguments given = {type, version, 0, 0, input, rows, room, input_length, rows_length, room_length};
    return record(given);
}

sfv_answer sfv_c_write_spans(uint32_t type, uint32_t version, const sfv_row *rows, size_t rows_length, uint8_t *out,
                             size_t out_length) {
    arguments given = {type, version, 0, 0, NULL, rows, out, 0, rows_length, out_length};
    return record(given);
}

sfv_answer sfv_c_message(uint32_t kind, uint8_t *out, size_t out_length) {
    arguments given = {kind, 0, 0, 0, NULL, NULL, out, 0, 0, out_length};
    return record(given);
}

/* The last call had these arguments, and its answer is the function's. */
static int is_passed(sfv_answer a, arguments w) {
    return last.type == w.type && last.version == w.version && last.writing == w.writing && last.seed == w.seed
        && last.input == w.input && last.rows == w.rows && last.out == w.out && last.input_length == w.input_length
        && last.rows_length == w.rows_length && last.out_length == w.out_length && memcmp(&a, &ANSWER, sizeof a) == 0;
}

static void check_passed(void) {
    char in[2], out[3];
    sfv_row rows[4] = {sfv_tag_row(SFV_ENTRY), sfv_tag_row(SFV_ENTRY), sfv_tag_row(SFV_ENTRY), sfv_tag_row(SFV_ENTRY)};
    const arguments check = {SFV_LIST, SFV_RFC8941, 0, 0, in, NULL, NULL, 2, 0, 0};
    const arguments parse = {SFV_ITEM, SFV_RFC9651, 0, 0, in, rows, out, 2, 4, 3};
    const arguments write = {SFV_DICTIONARY, SFV_RFC8941, 0, 0, NULL, rows, out, 0, 4, 3};
    const arguments seven = {SFV_ITEM, SFV_RFC8941, SFV_RFC9651, 7, in, NULL, out, 2, 0, 3};
    const arguments random = {SFV_LIST, SFV_RFC9651, SFV_RFC8941, 78, in, NULL, out, 2, 0, 3};
    CHECK(is_passed(sfv_check(SFV_LIST, SFV_RFC8941, in, 2), check));
    CHECK(is_passed(sfv_parse(SFV_ITEM, SFV_RFC9651, in, 2, rows, 4, out, 3), parse));
    CHECK(is_passed(sfv_write(SFV_DICTIONARY, SFV_RFC8941, rows, 4, out, 3), write));
    CHECK(is_passed(sfv_canonical_with_seed(SFV_ITEM, SFV_RFC8941, SFV_RFC9651, 7, in, 2, out, 3), seven));
    CHECK(is_passed(sfv_canonical(SFV_LIST, SFV_RFC9651, SFV_RFC8941, in, 2, out, 3), random));
    CHECK(sfv_abi() == 77);
}

/* Returns 1 if the pointer is within 64 KB of a local variable. */
static int is_on_stack(const void *pointer) {
    char local;
    return (uintptr_t)pointer - (uintptr_t)&local + 0x10000 < 0x20000;
}

/* The exported functions accept no NULL, so none is passed on. Rows can point to the room that replaces NULL, so it stays
 * after the call. */
static void check_null(void) {
    sfv_check(SFV_LIST, SFV_RFC9651, NULL, 0);
    CHECK(last.input && last.input_length == 0);
    sfv_parse(SFV_LIST, SFV_RFC9651, NULL, 0, NULL, 0, NULL, 0);
    CHECK(last.input && last.rows && last.out && last.input_length == 0 && last.rows_length == 0 && last.out_length == 0);
    CHECK(!is_on_stack(last.out));
    sfv_write(SFV_LIST, SFV_RFC9651, NULL, 0, NULL, 0);
    CHECK(last.rows && last.out && last.rows_length == 0 && last.out_length == 0);
    sfv_canonical(SFV_LIST, SFV_RFC9651, SFV_RFC9651, NULL, 0, NULL, 0);
    CHECK(last.input && last.out && last.input_length == 0 && last.out_length == 0);
}

/* A wrong argument calls nothing. */
static void check_not_called(void) {
    const arguments none = {0, 0, 0, 0, NULL, NULL, NULL, 0, 0, 0};
    sfv_row rows[1] = {sfv_bytes_row(SFV_STRING, NULL, 1)};
    char out[1];
    last = none;
    sfv_check(SFV_LIST, SFV_RFC9651, NULL, 1);
    sfv_parse(SFV_LIST, SFV_RFC9651, NULL, 1, rows, 1, out, 1);
    sfv_write(SFV_LIST, SFV_RFC9651, rows, 1, out, 1);
    sfv_canonical(SFV_LIST, SFV_RFC9651, SFV_RFC9651, NULL, 1, out, 1);
    CHECK(is_passed(ANSWER, none));
}

int main(void) {
    check_passed();
    check_null();
    check_not_called();
    if (errors == 0) puts("ok");
    return errors != 0;
}
