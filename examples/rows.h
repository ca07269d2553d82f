/* Checks of rows, for the programs that test the library. */
#ifndef ROWS_H
#define ROWS_H

#include <string.h>

#include "sfv.h"

static int is_same_bytes(sfv_bytes a, sfv_bytes b) { return a.length == b.length && memcmp(a.data, b.data, a.length) == 0; }

/* Returns 1 if the bytes are in this buffer. */
static int is_inside(sfv_bytes bytes, const void *buffer, size_t length) {
    uintptr_t start = (uintptr_t)bytes.data, first = (uintptr_t)buffer;
    return start >= first && bytes.length <= length && start - first <= length - bytes.length;
}

/* Returns 1 if the row is one that sfv_parse writes for this input and this used part of the room: its key and bytes are
 * within them, or empty. */
static int is_parsed_row(const sfv_row *row, const void *input, size_t input_length, const void *room, size_t room_length) {
    int has_key = row->tag == SFV_KEYED_ENTRY || row->tag == SFV_PARAMETER;
    int has_value = row->tag == SFV_BARE_ITEM || row->tag == SFV_PARAMETER;
    int has_bytes = row->kind == SFV_STRING || row->kind == SFV_TOKEN || row->kind == SFV_BYTE_SEQUENCE
        || row->kind == SFV_DISPLAY_STRING;
    int is_in_input = is_inside(row->bytes, input, input_length) && row->kind != SFV_BYTE_SEQUENCE;
    int is_in_room = is_inside(row->bytes, room, room_length) && row->kind != SFV_TOKEN;
    if (row->tag < SFV_ENTRY || row->tag > SFV_END_INNER || row->kind > SFV_DISPLAY_STRING) return 0;
    if (has_value != (row->kind != SFV_NO_VALUE) || row->key.data == NULL || row->bytes.data == NULL) return 0;
    if (has_key ? !is_inside(row->key, input, input_length) || row->key.length == 0 : row->key.length != 0) return 0;
    return has_bytes ? row->number == 0 && (is_in_input || is_in_room) : row->bytes.length == 0;
}

/* Returns 1 if a dictionary or a list of parameters repeats a key. */
static int repeats_a_key(const sfv_row *rows, size_t rows_length) {
    for (size_t i = 0; i < rows_length; i++)
        for (size_t j = i + 1; j < rows_length; j++) {
            if (rows[i].tag == SFV_PARAMETER && rows[j].tag != SFV_PARAMETER) break;
            if (rows[i].tag != SFV_PARAMETER && rows[i].tag != SFV_KEYED_ENTRY) break;
            if (rows[i].tag == rows[j].tag && is_same_bytes(rows[i].key, rows[j].key)) return 1;
        }
    return 0;
}

#endif
