/* Random texts; see texts.h. */
#include "texts.h"

#include <string.h>

enum { DEEPEST = 10, ROOM = 1500 };

/* What a text is made of: the largest number, how many items a sequence may have, how many in a hundred of them are
 * brackets, and how large their counts are. */
static struct {
    unsigned commands, brackets, counts;
    size_t items;
} kind;

/* ---- Pieces */

static void put(struct bytes *text, uint8_t byte) {
    if (text->size < MOST_TEXT) text->at[text->size++] = byte;
}

static void put_number(struct bytes *text, unsigned number) {
    if (number >= 10) put_number(text, number / 10);
    put(text, (uint8_t)('0' + number % 10));
}

static void put_blanks(struct bytes *text, size_t least) {
    size_t more = chance(85) ? 0 : below(4);
    for (size_t i = 0; i < least + more; i++) put(text, ' ');
}

static void put_count(struct bytes *text) {
    static const uint8_t special[] = {0, 1, 2, 9, 10, 25, 99, 100, 199, 200, 249, 250, 254, 255};
    if (chance(25)) return;
    if (kind.counts == 0) put_number(text, (unsigned)below(4));
    else if (kind.counts == 1) put_number(text, special[below(sizeof special)]);
    else put_number(text, chance(50) ? 255 : (unsigned)below(256));
}

/* ---- Texts */

static void put_sequence(struct bytes *text, unsigned depth);

static void put_item(struct bytes *text, unsigned depth) {
    if (chance(30)) put(text, '-');
    if (depth == DEEPEST || !chance(kind.brackets) || text->size > ROOM) {
        put_number(text, 1 + (unsigned)below(kind.commands));
        return;
    }
    put(text, '(');
    put_sequence(text, depth + 1);
    put(text, ')');
    put_count(text);
}

static void put_sequence(struct bytes *text, unsigned depth) {
    size_t items = below(kind.items + 1);
    if (depth > 0 && kind.items > 4 && chance(70)) items = below(3);
    put_blanks(text, 0);
    for (size_t i = 0; i < items; i++) {
        if (i > 0) put_blanks(text, 1);
        put_item(text, depth);
    }
    put_blanks(text, 0);
}

/* Brackets in one another, with little else, about as deep as is allowed. */
static void put_nest(struct bytes *text) {
    unsigned depth = chance(50) ? 7 + (unsigned)below(4) : (unsigned)below(8);
    for (unsigned i = 0; i < depth; i++) {
        if (chance(10)) put_item(text, DEEPEST), put(text, ' ');
        if (chance(20)) put(text, '-');
        put(text, '(');
    }
    if (chance(80)) put_item(text, DEEPEST);
    for (unsigned i = 0; i < depth; i++) {
        put(text, ')');
        put_count(text);
        if (chance(10)) put(text, ' '), put_item(text, DEEPEST);
    }
}

/* The length of the plan that a text writes out, if it can be, under the largest catalogue. */
static int64_t length_of(const struct bytes *text) {
    static const uint8_t largest[2 + MOST_COMMANDS] = {MOST_COMMANDS};
    static uint8_t area[MOST_PLAN];
    return solver_write_out(largest, sizeof largest, text->at, text->size, area, sizeof area);
}

/* Makes the plan written out about as long as is allowed. */
static void fill(struct bytes *text) {
    int64_t length = length_of(text), wanted = MOST_PLAN - 2 + (int64_t)below(5);
    while (length >= 0 && length < wanted) {
        int64_t count = wanted - length < 255 ? wanted - length : 1 + (int64_t)below(255);
        put_blanks(text, 1);
        if (chance(30)) put(text, '-');
        put(text, '(');
        put_number(text, 1 + (unsigned)below(kind.commands));
        put(text, ')');
        put_number(text, (unsigned)count);
        length += count;
    }
}

static void draw_kind(unsigned commands) {
    size_t which = below(100);
    kind.commands = which < 75 && commands > 0 ? commands : MOST_COMMANDS;
    if (which >= 97) kind.commands = MOST_COMMANDS + 2;
    kind.items = chance(85) ? 1 + below(5) : 40;
    kind.brackets = 10 + (unsigned)below(50);
    kind.counts = (unsigned)below(3);
}

void random_text(unsigned commands, struct bytes *text) {
    draw_kind(commands);
    text->size = 0;
    if (chance(15)) put_nest(text);
    else put_sequence(text, 0);
    if (chance(12)) fill(text);
}

void lengthen_text(struct bytes *text) {
    static const char *const piece[] = {" ", "        ", " 1", " ()255", " (1 -1)0", " -(()200)0", " (1)"};
    const char *more = piece[below(sizeof piece / sizeof *piece)];
    size_t most = below(MOST_TEXT - 16);
    while (text->size < most)
        for (const char *c = more; *c != '\0'; c++) put(text, (uint8_t)*c);
}

/* ---- Damage */

static uint8_t other_byte(void) {
    static const char bytes[] = "  (()))--0123456789";
    return chance(85) ? (uint8_t)bytes[below(sizeof bytes - 1)] : (uint8_t)below(256);
}

static void take_out(struct bytes *text, size_t place, size_t size) {
    if (size > text->size - place) size = text->size - place;
    memmove(text->at + place, text->at + place + size, text->size - place - size);
    text->size -= size;
}

static void put_in(struct bytes *text, size_t place, const uint8_t *bytes, size_t size) {
    if (text->size + size > MOST_TEXT) return;
    memmove(text->at + place + size, text->at + place, text->size - place);
    memcpy(text->at + place, bytes, size);
    text->size += size;
}

void damage_text(struct bytes *text) {
    uint8_t bytes[64] = {other_byte()};
    size_t place = below(text->size + 1), size = 1 + below(20), left = text->size - place;
    if (size > left) size = left;
    switch (below(8)) {
    case 0: case 1: if (left > 0) text->at[place] = bytes[0]; break;
    case 2: case 3: put_in(text, place, bytes, 1); break;
    case 4: take_out(text, place, 1); break;
    case 5: text->size = place; break;
    case 6: take_out(text, place, size); break;
    default:
        memcpy(bytes, text->at + place, size);
        put_in(text, below(text->size + 1), bytes, size);
        break;
    }
}
