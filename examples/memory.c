/* Makes every call for each line of standard input (lines.h) with its own heap in place of the kit's. Each allocation fails
 * in turn. Then the call returns SFV_OUT_OF_MEMORY, or the same as if no allocation fails. It leaves its buffers unchanged,
 * unless it parses, and frees all its memory. It allocates no more than sfv.h says, also for long fields. Prints each line
 * for which this does not hold, and the number of lines. */
#include "lines.h"

static unsigned long requests, failing;

/* The blocks, their bytes, and the most bytes at one time. A block that is reallocated counts twice meanwhile. */
static long held;
static size_t held_bytes, most_bytes;

/* Each block follows its length. */
typedef union head {
    size_t length;
    char aligned[16];
} head;

/* The kit's object has the same three functions over malloc, realloc and free. */
struct tried { size_t ok; void *block; };
struct tried rattle_alloc(size_t length, size_t align);
struct tried rattle_realloc(void *block, size_t kept, size_t length, size_t align);
void rattle_dealloc(void *block);

struct tried rattle_alloc(size_t length, size_t align) {
    struct tried t = {0, NULL};
    head *block = ++requests != failing && align <= sizeof *block ? malloc(sizeof *block + length) : NULL;
    if (!block) return t;
    block->length = length;
    held++;
    held_bytes += length;
    if (held_bytes > most_bytes) most_bytes = held_bytes;
    t.ok = 1;
    t.block = block + 1;
    return t;
}

struct tried rattle_realloc(void *block, size_t kept, size_t length, size_t align) {
    struct tried t = rattle_alloc(length, align);
    if (!t.ok) return t;
    memcpy(t.block, block, kept < length ? kept : length);
    rattle_dealloc(block);
    return t;
}

void rattle_dealloc(void *block) {
    if (!block) return;
    held--;
    held_bytes -= ((head *)block - 1)->length;
    free((head *)block - 1);
}

/* LENGTH is sfv_write without a buffer. */
enum call { CHECK, CANONICAL, PARSE, WRITE, LENGTH, CALLS };
enum { CHECKED = 256, ROWS = 1 << 16, LONG_FIELD = 1 << 16 };

static const line *current;
static int errors;
static unsigned char out[1 << 16];
static sfv_row rows[ROWS];

/* The rows of the line, if it is accepted, or none. */
static sfv_row parsed_rows[ROWS];
static unsigned char parsed_room[1 << 16];
static sfv_answer parsed;

static void expect(int holds, const char *name) {
    if (!holds && errors++ < 20) printf("%s: %s\n", name, current->text);
}

/* Makes the call. The request with this number fails. */
static sfv_answer make(enum call call, unsigned long number) {
    const line *l = current;
    requests = 0;
    failing = number;
    most_bytes = 0;
    memset(out, GUARD_BYTE, CHECKED);
    switch (call) {
    case CHECK: return sfv_check(l->type, l->version, l->input, l->length);
    case CANONICAL: return sfv_canonical(l->type, l->version, l->version, l->input, l->length, out, sizeof out);
    case PARSE: return sfv_parse(l->type, l->version, l->input, l->length, rows, ROWS, out, sizeof out);
    default: return sfv_write(l->type, l->version, parsed_rows, parsed.rows, out, call == WRITE ? sizeof out : 0);
    }
}

/* Checks the result of a call with a failing request. */
static void check_failure(enum call call, sfv_answer a, sfv_answer whole) {
    expect(held == 0, "not freed");
    if (a.status != SFV_OUT_OF_MEMORY) {
        expect(a.status == whole.status && a.kind == whole.kind && a.index == whole.index && a.length == whole.length
                   && a.rows == whole.rows, "another result");
        return;
    }
    expect(a.kind == SFV_ERR_OUT_OF_MEMORY && a.index == 0 && a.length == 0 && a.rows == 0, "numbers");
    if (call != PARSE) expect(is_untouched(out, CHECKED), "a text was written");
}

static int has_byte(char byte) { return memchr(current->input, byte, current->length) != NULL; }

/* The length of the longest decoded value, or of the input if it is rejected. */
static size_t longest_value(void) {
    size_t longest = 0;
    if (parsed.status != SFV_OK) return current->length;
    for (size_t i = 0; i < parsed.rows; i++)
        if (parsed_rows[i].bytes.length > longest) longest = parsed_rows[i].bytes.length;
    return longest;
}

/* Returns the most bytes that the call allocates, as sfv.h says. */
static size_t limit_of(enum call call) {
    switch (call) {
    case CHECK: return has_byte('\\') || has_byte('%') || has_byte(':') ? 3 * current->length : 0;
    case PARSE: return has_byte('\\') || has_byte('%') || has_byte(':') ? 8 + 3 * longest_value() : 0;
    case CANONICAL: return 2048 + 300 * current->length;
    default: return 128 + 8 * parsed.rows + 3 * make(LENGTH, 0).length;
    }
}

/* Parses the current line, makes the call, and checks what it allocates. */
static sfv_answer measure(enum call call) {
    const line *l = current;
    sfv_answer whole;
    size_t limit;
    failing = 0;
    parsed = sfv_parse(l->type, l->version, l->input, l->length, parsed_rows, ROWS, parsed_room, sizeof parsed_room);
    limit = limit_of(call);
    whole = make(call, 0);
    expect(held == 0, "not freed");
    expect(most_bytes <= limit, "allocates too much");
    return whole;
}

/* The requests of each call, and those that it can do without. */
static unsigned long made[CALLS], spared[CALLS];

/* Makes each call, and again with each of its requests failing. */
static void try_line(void) {
    for (enum call call = CHECK; call < CALLS; call++) {
        sfv_answer whole = measure(call);
        unsigned long count = requests;
        made[call] += count;
        for (unsigned long number = 1; number <= count; number++) {
            sfv_answer a = make(call, number);
            spared[call] += a.status != SFV_OUT_OF_MEMORY;
            check_failure(call, a, whole);
        }
        expect(is_guarded(current->input, current->length), "the input was written");
    }
}

/* Appends the text with this number in place of each `#`. */
static void append(line *l, const char *text, int number) {
    for (; *text; text++) {
        if (l->length + 16 > LONG_FIELD) exit(2);
        if (*text == '#') l->length += (size_t)sprintf((char *)l->input + l->length, "%d", number);
        else l->input[l->length++] = (unsigned char)*text;
    }
}

/* Measures fields of many parts. */
static void try_long(sfv_type type, const char *start, const char *part, const char *end) {
    static const int PARTS[] = {0, 1, 2, 3, 5, 9, 10, 30, 100, 300, 512, 1000, 3900};
    for (size_t i = 0; i < sizeof PARTS / sizeof *PARTS; i++) {
        line l = {(char *)part, type, SFV_RFC9651, guarded(LONG_FIELD), 0, 0, NULL};
        append(&l, start, 0);
        for (int n = 0; n < PARTS[i]; n++) append(&l, part, n);
        append(&l, end, 0);
        current = &l;
        for (enum call call = CHECK; call < CALLS; call++) measure(call);
        expect(parsed.status == SFV_OK, "rejected");
        end_line(&l);
    }
}

/* Fields that take much memory for their length. */
static void try_long_fields(void) {
    static const struct { sfv_type type; const char *start, *part, *end; } FIELDS[] = {
        {SFV_LIST, "", "a,", "a"},         {SFV_LIST, "", "a;a,", "a"},          {SFV_LIST, "", "(),", "()"},
        {SFV_LIST, "", "(a;a);a,", "a"},   {SFV_LIST, "(", "a ", "a)"},          {SFV_LIST, "(", "a;a ", "a)"},
        {SFV_ITEM, "\"", "\\\"", "\""},     {SFV_ITEM, ":", "AAAA", ":"},         {SFV_ITEM, "%\"", "%c3%bc", "\""},
        {SFV_ITEM, "1", ";p#", ""},        {SFV_DICTIONARY, "", "k#,", "k"},     {SFV_DICTIONARY, "", "k#;a,", "k"},
        {SFV_DICTIONARY, "", "k#=(c;d);e,", "k"},
    };
    for (size_t i = 0; i < sizeof FIELDS / sizeof *FIELDS; i++)
        try_long(FIELDS[i].type, FIELDS[i].start, FIELDS[i].part, FIELDS[i].end);
}

/* sfv_write and sfv_canonical need some of their requests, and sfv_check and sfv_parse all. */
static void check_spared(enum call call) {
    int can_spare = call != CHECK && call != PARSE;
    if (spared[call] < made[call] && (spared[call] > 0) == can_spare) return;
    printf("call %d can do without %lu of %lu requests\n", (int)call, spared[call], made[call]);
    errors++;
}

int main(void) {
    line l;
    unsigned long lines = 0;
    for (; next_line(&l); lines++) {
        current = &l;
        try_line();
        end_line(&l);
    }
    try_long_fields();
    for (enum call call = CHECK; call < CALLS; call++) check_spared(call);
    printf("%lu lines, %d errors\n", lines, errors);
    return errors != 0;
}
