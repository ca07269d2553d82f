/* Makes every call for each line of standard input (lines.h), with buffers of exactly the needed size, and with smaller
 * ones. Prints each line whose result is not the expected one, and each for which two calls disagree or a call writes
 * where it must not. Prints the number of lines at the end. */
#include "lines.h"
#include "rows.h"

static const line *current;
static int errors;

static void expect(int holds, const char *name) {
    if (!holds && errors++ < 20) printf("%s: %s\n", name, current->text);
}

static sfv_answer canonical(void *out, size_t length) {
    const line *l = current;
    sfv_answer a = sfv_canonical(l->type, l->version, SFV_RFC9651, l->input, l->length, out, length);
    sfv_answer b = sfv_canonical_with_seed(l->type, l->version, SFV_RFC9651, 1, l->input, l->length, out, length);
    expect(a.status == b.status && a.kind == b.kind && a.index == b.index && a.length == b.length, "another seed");
    return a;
}

/* The text is at the start of a buffer of three more bytes. A buffer of one byte less is unchanged. */
static void check_text(unsigned char *out, size_t length) {
    unsigned char *small = guarded(length - 1);
    sfv_answer a = canonical(out, length + 3), less = canonical(small, length - 1);
    expect(a.status == SFV_OK && a.length == length && is_untouched(out + length, 3), "text");
    expect(less.status == SFV_TOO_SMALL && less.length == length, "a byte less");
    expect(is_untouched(small, length - 1) && is_guarded(small, length - 1), "too small, and written");
    release(small);
}

/* Missing and changed rows are wrong at their index. */
static void check_wrong_rows(sfv_row *rows, size_t count) {
    const line *l = current;
    sfv_answer a = sfv_write(l->type, SFV_RFC9651, rows, count - 1, NULL, 0);
    expect(a.status == SFV_WRONG_ROW && a.index == count - 1, "a row less is written");
    a = sfv_write(l->type == SFV_ITEM ? SFV_LIST : SFV_ITEM, SFV_RFC9651, rows, count, NULL, 0);
    expect(a.status == SFV_WRONG_ROW && a.index == 0, "written as another type");
    for (size_t i = 0; i < count && i < 32; i++) {
        sfv_row row = rows[i];
        rows[i].tag = SFV_END_INNER + 1;
        a = sfv_write(l->type, SFV_RFC9651, rows, count, NULL, 0);
        expect(a.status == SFV_WRONG_ROW && a.index == i, "a row without a tag is written");
        rows[i] = row;
        rows[i].key.data = NULL;
        a = sfv_write(l->type, SFV_RFC9651, rows, count, NULL, 0);
        expect(a.status == SFV_BAD_ARGUMENT && a.index == i, "a row with NULL is written");
        rows[i] = row;
    }
}

/* The text of the rows parses to the same value. It is the canonical text if no key is repeated. */
static void check_write(sfv_row *rows, size_t count) {
    const line *l = current;
    sfv_answer whole = canonical(NULL, 0), a = sfv_write(l->type, SFV_RFC9651, rows, count, NULL, 0);
    size_t size = a.status == SFV_TOO_SMALL ? a.length : 0;
    unsigned char *out = guarded(size + 3), *text = guarded(whole.length + 3), *again = guarded(whole.length + 3);
    expect(a.status == whole.status && a.length >= whole.length, "the length of the written text");
    a = sfv_write(l->type, SFV_RFC9651, rows, count, out, size + 3);
    expect(a.status == (size ? SFV_OK : SFV_NOTHING) && a.length == size && is_untouched(out + size, 3), "written");
    whole = canonical(text, whole.length + 3);
    if (!repeats_a_key(rows, count)) expect(size == whole.length && memcmp(out, text, size) == 0, "not canonical");
    a = sfv_canonical(l->type, SFV_RFC9651, SFV_RFC9651, out, size, again, whole.length + 3);
    expect(a.status == whole.status && a.length == whole.length, "parsed back");
    expect(memcmp(again, text, whole.length + 3) == 0, "parsed back to another value");
    if (count > 0) check_wrong_rows(rows, count);
    expect(is_guarded(out, size + 3), "written outside of the text");
    release(out), release(text), release(again);
}

/* With more room than is needed, each pointer of a row is within the input or within the used part of the room, or it is
 * the empty text. */
static void check_places(size_t count, size_t length) {
    const line *l = current;
    unsigned char *block = guarded(count * sizeof(sfv_row)), *room = guarded(length + 8);
    sfv_row *rows = (sfv_row *)(void *)block;
    sfv_answer a = sfv_parse(l->type, l->version, l->input, l->length, rows, count, room, length + 8);
    expect(a.status == SFV_OK && a.rows == count && a.length == length, "more room");
    for (size_t i = 0; i < count; i++) expect(is_parsed_row(&rows[i], l->input, l->length, room, a.length), "a place");
    release(block), release(room);
}

/* Buffers of the needed sizes suffice. A row or a byte less is too small. */
static void check_parse(size_t count, size_t length) {
    const line *l = current;
    size_t size = count * sizeof(sfv_row);
    unsigned char *block = guarded(size), *room = guarded(length);
    sfv_row *rows = (sfv_row *)(void *)block;
    sfv_answer a;
    if (count > 0) {
        a = sfv_parse(l->type, l->version, l->input, l->length, rows, count - 1, room, length);
        expect(a.status == SFV_TOO_SMALL && a.rows == count && a.length == length, "a row less");
    }
    if (length > 0) {
        a = sfv_parse(l->type, l->version, l->input, l->length, rows, count, room, length - 1);
        expect(a.status == SFV_TOO_SMALL && a.rows == count && a.length == length, "a byte of room less");
    }
    a = sfv_parse(l->type, l->version, l->input, l->length, rows, count, room, length);
    expect(a.status == SFV_OK && a.rows == count && a.length == length, "rows");
    for (size_t i = 0; i < a.rows; i++)
        expect(is_parsed_row(&rows[i], l->input, l->length, room, length), "a row");
    expect(is_guarded(block, size) && is_guarded(room, length), "written outside of the rows");
    check_write(rows, count);
    release(block), release(room);
}

/* All calls reject the input for the same reason. */
static void check_rejected(sfv_answer a, sfv_answer checked, sfv_answer counted) {
    expect(checked.status == SFV_REJECTED && checked.kind == a.kind && checked.index == a.index, "check, rejected");
    expect(counted.status == SFV_REJECTED && counted.kind == a.kind && counted.index == a.index, "parse, rejected");
}

/* An accepted input has one row for each call of a visitor, except the call at the end. */
static void check_accepted(sfv_answer checked, sfv_answer counted) {
    expect(checked.status == SFV_OK, "check");
    expect(counted.rows + 1 == current->calls, "calls");
    expect(counted.rows <= SFV_ROWS_FOR(current->length) && counted.length <= current->length, "enough");
    check_parse(counted.rows, counted.length);
    check_places(counted.rows, counted.length);
}

/* Returns the result in the form of the lines. */
static char *result_text(sfv_answer a, const unsigned char *out) {
    char message[SFV_TEXT_SIZE], *text = malloc(2 * a.length + 128), *end = text;
    if (!text) exit(2);
    if (a.status == SFV_OK) {
        end += sprintf(end, "ok ");
        for (size_t i = 0; i < a.length; i++) end += sprintf(end, "%02x", out[i]);
    } else if (a.status == SFV_NOTHING) {
        sprintf(end, "ok none");
    } else if (a.status == SFV_REJECTED) {
        sprintf(end, "err %s at index %lu", sfv_error_text(a, message), (unsigned long)a.index);
    } else {
        sprintf(end, "status %u", (unsigned)a.status);
    }
    return text;
}

static void replay(const line *l) {
    sfv_answer whole = canonical(NULL, 0), checked = sfv_check(l->type, l->version, l->input, l->length);
    sfv_answer counted = sfv_parse(l->type, l->version, l->input, l->length, NULL, 0, NULL, 0);
    size_t length = whole.status == SFV_TOO_SMALL ? whole.length : 0;
    unsigned char *out = guarded(length + 3);
    sfv_answer a = canonical(out, length + 3);
    char *text = result_text(a, out);
    expect(strcmp(text, l->result) == 0, text);
    if (length > 0) check_text(out, length);
    if (a.status == SFV_REJECTED) check_rejected(a, checked, counted);
    else check_accepted(checked, counted);
    expect(is_guarded(out, length + 3) && is_guarded(l->input, l->length), "written outside of the text");
    free(text);
    release(out);
}

int main(void) {
    line l;
    unsigned long lines = 0;
    for (; next_line(&l); lines++) {
        current = &l;
        replay(&l);
        end_line(&l);
    }
    printf("%lu lines, %d errors\n", lines, errors);
    return errors != 0;
}
