/* Usage: calls CALL TYPE FIELD. Makes a call (check, parse, write) for a field of this type (1, 2, 3), after 40 calls that
 * warm up the heap. With the macro SFPARSE, the call sfparse parses the field with sfparse. bench/calls counts the
 * instructions of `measured_CALL`. */
#include <stdio.h>
#include <stdlib.h>
#include <string.h>

#include "sfv.h"

#define MEASURED __attribute__((noinline))

enum { ROWS = 256, ROOM = 4096 };

static sfv_row rows[ROWS];
static uint8_t room[ROOM], out[ROOM];

#ifdef SFPARSE
/* The interface of sfparse 0.3, whose header is not installed with its archive. */
typedef struct { uint8_t *base; size_t length; } sfparse_vec;
typedef struct {
    int type; /* 6: an inner list */
    uint32_t flags;
    union { int64_t numbers[2]; sfparse_vec bytes; } part;
} sfparse_value;
typedef struct { const uint8_t *pos, *end; uint32_t state; } sfparse_parser;
void sfparse_parser_init(sfparse_parser *parser, const uint8_t *data, size_t length);
int sfparse_parser_item(sfparse_parser *parser, sfparse_value *value);
int sfparse_parser_list(sfparse_parser *parser, sfparse_value *value);
int sfparse_parser_dict(sfparse_parser *parser, sfparse_vec *key, sfparse_value *value);
int sfparse_parser_param(sfparse_parser *parser, sfparse_vec *key, sfparse_value *value);
int sfparse_parser_inner_list(sfparse_parser *parser, sfparse_value *value);

static int skip_parameters(sfparse_parser *parser, sfparse_value *value) {
    sfparse_vec key;
    int status;
    while ((status = sfparse_parser_param(parser, &key, value)) == 0) {}
    return status;
}

/* Returns -2 if the field is accepted. Decodes nothing. */
MEASURED int measured_sfparse(uint32_t type, const uint8_t *field, size_t length) {
    sfparse_parser parser;
    sfparse_value value;
    sfparse_vec key;
    int status;
    sfparse_parser_init(&parser, field, length);
    while ((status = type == SFV_ITEM   ? sfparse_parser_item(&parser, &value)
                     : type == SFV_LIST ? sfparse_parser_list(&parser, &value)
                                        : sfparse_parser_dict(&parser, &key, &value)) == 0) {
        if (value.type == 6)
            while (sfparse_parser_inner_list(&parser, &value) == 0) skip_parameters(&parser, &value);
        status = skip_parameters(&parser, &value);
        if (status != -2) return status;
    }
    return status;
}
#endif

MEASURED sfv_answer measured_check(uint32_t type, const uint8_t *field, size_t length) {
    return sfv_c_check(type, SFV_RFC9651, field, length);
}

MEASURED sfv_answer measured_parse(uint32_t type, const uint8_t *field, size_t length) {
    return sfv_c_spans(type, SFV_RFC9651, field, length, rows, ROWS, room, ROOM);
}

MEASURED sfv_answer measured_write(uint32_t type, size_t count) {
    return sfv_c_write_spans(type, SFV_RFC9651, rows, count, out, ROOM);
}

int main(int count, char **words) {
    if (count != 4) return 2;
    uint32_t type = (uint32_t)atoi(words[2]);
    const uint8_t *field = (const uint8_t *)words[3];
    size_t length = strlen(words[3]);
    sfv_answer parsed, last;
    for (int i = 0; i < 40; i++) {
        parsed = sfv_c_spans(type, SFV_RFC9651, field, length, rows, ROWS, room, ROOM);
        last = sfv_c_write_spans(type, SFV_RFC9651, rows, parsed.rows, out, ROOM);
    }
    switch (words[1][0]) {
    case 'c': last = measured_check(type, field, length); break;
    case 'p': last = measured_parse(type, field, length); break;
    case 'w': last = measured_write(type, parsed.rows); break;
#ifdef SFPARSE
    case 's': return measured_sfparse(type, field, length) != -2;
#endif
    default: return 2;
    }
    return parsed.status != SFV_OK || last.status != SFV_OK;
}
