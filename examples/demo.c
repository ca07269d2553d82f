/* Parses a Priority field and a Cache-Status list, and prints canonical texts and syntax errors. Writes a dictionary, and
 * parses it back. The program in rust/src/main.rs does the same. Both print demo.out. */
#include <stdio.h>
#include <string.h>

#include "sfv.h"

/* Prints the field, and the error under its index. */
static void point(const char *field, sfv_answer a) {
    char text[SFV_TEXT_SIZE];
    printf("%s\n%*s^ %s\n", field, (int)a.index, "", sfv_error_text(a, text));
}

/* Prints the canonical text of a field for a version. */
static void canonical(sfv_type type, sfv_version writing, const char *field) {
    char out[128], text[SFV_TEXT_SIZE];
    sfv_answer a = sfv_canonical(type, SFV_RFC9651, writing, field, strlen(field), out, sizeof out);
    if (a.status == SFV_OK) printf("%.*s\n", (int)a.length, out);
    else if (a.status == SFV_REJECTED) point(field, a);
    else printf("(%s)\n", sfv_error_text(a, text));
}

/* Parses Priority (RFC 9218): `u` is an integer from 0 to 7, or 3; `i` is a boolean, or false. */
static sfv_answer priority(const char *field, int *urgency, int *incremental) {
    sfv_row rows[64];
    char room[64];
    sfv_answer a = sfv_parse(SFV_DICTIONARY, SFV_RFC9651, field, strlen(field), rows, 64, room, sizeof room);
    const sfv_row *u = a.status == SFV_OK ? sfv_member(rows, a.rows, "u") : NULL;
    const sfv_row *i = a.status == SFV_OK ? sfv_member(rows, a.rows, "i") : NULL;
    *urgency = u && u->kind == SFV_INTEGER && u->number >= 0 && u->number <= 7 ? (int)u->number : 3;
    *incremental = i && i->kind == SFV_BOOLEAN && i->number;
    return a;
}

static void print_priority(const char *field) {
    int urgency, incremental;
    sfv_answer a = priority(field, &urgency, &incremental);
    if (a.status == SFV_REJECTED) point(field, a);
    printf("urgency %d, incremental %s\n", urgency, incremental ? "yes" : "no");
}

static void print_value(const sfv_row *row) {
    switch (row->kind) {
    case SFV_INTEGER: printf("%ld", (long)row->number); break;
    case SFV_DECIMAL: printf("%ld/1000", (long)row->number); break;
    case SFV_BOOLEAN: printf("%s", row->number ? "true" : "false"); break;
    case SFV_DATE: printf("@%ld", (long)row->number); break;
    case SFV_TOKEN: printf("%.*s", (int)row->bytes.length, row->bytes.data); break;
    case SFV_BYTE_SEQUENCE: printf("%u bytes", (unsigned)row->bytes.length); break;
    default: printf("[%.*s]", (int)row->bytes.length, row->bytes.data);
    }
}

/* Prints Cache-Status (RFC 9211): a list of caches, each with parameters. The field has two lines. */
static void cache_status(const char *first, const char *second) {
    sfv_bytes lines[2];
    sfv_row rows[64];
    char field[256], room[128];
    sfv_answer a;
    size_t i;
    lines[0].data = first;
    lines[0].length = strlen(first);
    lines[1].data = second;
    lines[1].length = strlen(second);
    a = sfv_lines(lines, 2, field, sizeof field);
    a = sfv_parse(SFV_LIST, SFV_RFC9651, field, a.length, rows, 64, room, sizeof room);
    for (i = 0; a.status == SFV_OK && i < a.rows; i++) {
        if (rows[i].tag == SFV_BARE_ITEM) printf("cache ");
        else if (rows[i].tag == SFV_PARAMETER) printf("  %.*s = ", (int)rows[i].key.length, rows[i].key.data);
        else continue;
        print_value(&rows[i]);
        printf("\n");
    }
}

static void statuses(void) {
    sfv_answer a = sfv_canonical(SFV_ITEM, SFV_RFC9651, SFV_RFC9651, "token", 5, NULL, 0);
    printf("%u %u\n", (unsigned)a.status, (unsigned)a.length);
    a = sfv_parse(SFV_LIST, SFV_RFC9651, "a, b;k=:YWI=:", 13, NULL, 0, NULL, 0);
    printf("%u %u %u\n", (unsigned)a.status, (unsigned)a.rows, (unsigned)a.length);
    a = sfv_canonical(SFV_LIST, SFV_RFC9651, SFV_RFC9651, NULL, 0, NULL, 0);
    printf("%u\n", (unsigned)a.status);
    printf("%u %u\n", (unsigned)sfv_check(SFV_ITEM, SFV_RFC8941, "@1", 2).status,
           (unsigned)sfv_check(SFV_ITEM, SFV_RFC9651, "@1", 2).status);
    printf("%u\n", (unsigned)sfv_check((sfv_type)7, SFV_RFC9651, "1", 1).status);
}

/* Writes the dictionary `name="a \"b\"";q=0.5, size=(1)`, parses it, and finds its parts. */
static void dictionary(void) {
    sfv_row rows[16];
    char out[64], room[64];
    const sfv_row *name, *size;
    sfv_answer a;
    size_t n = 0;
    rows[n++] = sfv_key_row("name");
    rows[n++] = sfv_tag_row(SFV_BEGIN_ITEM);
    rows[n++] = sfv_bytes_row(SFV_STRING, "a \"b\"", 5);
    rows[n++] = sfv_parameter_row("q", sfv_number_row(SFV_DECIMAL, 500));
    rows[n++] = sfv_tag_row(SFV_END_PARAMETERS);
    rows[n++] = sfv_key_row("size");
    rows[n++] = sfv_tag_row(SFV_BEGIN_INNER);
    rows[n++] = sfv_tag_row(SFV_BEGIN_ITEM);
    rows[n++] = sfv_number_row(SFV_INTEGER, 1);
    rows[n++] = sfv_tag_row(SFV_END_PARAMETERS);
    rows[n++] = sfv_tag_row(SFV_END_INNER);
    rows[n++] = sfv_tag_row(SFV_END_PARAMETERS);
    a = sfv_write(SFV_DICTIONARY, SFV_RFC9651, rows, n - 1, out, sizeof out);
    printf("%u %u\n", (unsigned)a.status, (unsigned)a.index);
    a = sfv_write(SFV_DICTIONARY, SFV_RFC9651, rows, n, out, sizeof out);
    printf("%u %.*s\n", (unsigned)a.status, (int)a.length, out);
    a = sfv_parse(SFV_DICTIONARY, SFV_RFC9651, out, a.length, rows, 16, room, sizeof room);
    name = sfv_member(rows, a.rows, "name");
    size = sfv_member(rows, a.rows, "size");
    if (a.status != SFV_OK || name == NULL || size == NULL) return;
    print_value(name);
    printf(", ");
    print_value(sfv_parameter(name, "q"));
    printf(", %s, %s\n", size->tag == SFV_BEGIN_INNER ? "an inner list" : "an item",
           sfv_parameter(size, "q") ? "with q" : "without q");
}

int main(void) {
    print_priority("u=1, i");
    print_priority("u=9;x, i=?1, u=5, z=(1 2)");
    print_priority("u=1, i=?2");
    print_priority("");
    cache_status("ExampleCache; hit; ttl=30",
                 "\"the \\\"far\\\" one\"; fwd=uri-miss; fwd-status=304; key=\"/a b\"");
    canonical(SFV_DICTIONARY, SFV_RFC9651, "a=1;x, b=2, a=3.10");
    canonical(SFV_LIST, SFV_RFC9651, "  ");
    canonical(SFV_LIST, SFV_RFC9651, "gzip, br ,");
    canonical(SFV_ITEM, SFV_RFC9651, "\"unfinished");
    canonical(SFV_ITEM, SFV_RFC9651, "@1659578233.5");
    canonical(SFV_LIST, SFV_RFC9651, "(a b");
    canonical(SFV_LIST, SFV_RFC8941, "1, @2, %\"c\"");
    canonical(SFV_LIST, SFV_RFC8941, "1, 2.0, c");
    statuses();
    dictionary();
    return 0;
}
