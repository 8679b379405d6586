/* A second reader of the notation; see reader.h. */
#include "reader.h"
#include "solver.h"

#include <string.h>

/* A command, or a bracketed sequence with its count. The whole text is the sequence of an item of its own. */
struct item {
    struct item *around, *before, *behind, *first, *last;
    bool bracket, undone;
    unsigned number, depth;
    size_t length; /* of what it writes out, at most TOO_LONG; for an open bracket, of its items so far */
};

/* A text being read: the innermost open item, whether the next item may begin here, and the places of faults. */
struct reading {
    const uint8_t *text;
    size_t size, at, items;
    struct item *open;
    bool may_begin;
    size_t wrong, deep, above;
};

static const size_t nowhere = (size_t)-1;
enum { TOO_LONG = MOST_PLAN + 1 };

/* The whole text is item 0. */
static struct item item[MOST_TEXT + 1];

/* ---- Reading */

static void note(size_t *place, size_t found) {
    if (*place == nowhere) *place = found;
}

static size_t cut(size_t length) { return length < TOO_LONG ? length : TOO_LONG; }

static bool is_digit(uint8_t byte) { return byte >= '0' && byte <= '9'; }

/* The longest number up to most that is written here without a leading zero; a digit that would spoil it stays. */
static unsigned take_number(struct reading *r, unsigned most) {
    unsigned number = 0;
    for (size_t from = r->at; r->at < r->size && is_digit(r->text[r->at]); r->at++) {
        unsigned longer = 10 * number + (r->text[r->at] - (unsigned)'0');
        if (longer > most || (number == 0 && r->at > from)) break;
        number = longer;
    }
    return number;
}

static struct item *begin(struct reading *r, bool bracket, bool undone) {
    struct item *new = &item[++r->items], *around = r->open;
    *new = (struct item){.around = around, .before = around->last, .bracket = bracket, .undone = undone,
                         .depth = around->depth + bracket};
    if (around->last) around->last->behind = new;
    else around->first = new;
    around->last = new;
    return new;
}

static void end(struct reading *r, const struct item *ended) {
    ended->around->length = cut(ended->around->length + ended->length);
    r->may_begin = false;
}

static void take_command(struct reading *r, bool undone, unsigned commands) {
    struct item *command = begin(r, false, undone);
    size_t first_digit = r->at;
    command->number = take_number(r, MOST_COMMANDS);
    if (command->number > commands) note(&r->above, first_digit);
    command->length = 1;
    end(r, command);
}

static void open_bracket(struct reading *r, bool undone) {
    r->open = begin(r, true, undone);
    if (r->open->depth > MOST_NESTING) note(&r->deep, r->at);
    r->at++;
    r->may_begin = true;
}

static void close_bracket(struct reading *r) {
    struct item *closed = r->open;
    r->at++;
    bool counted = r->at < r->size && is_digit(r->text[r->at]);
    closed->number = counted ? take_number(r, 255) : 1;
    closed->length = cut(closed->number * closed->length);
    r->open = closed->around;
    end(r, closed);
}

/* Takes a minus, a number or a bracket; false if the byte here is none of these or the text ends behind a minus. */
static bool take_item(struct reading *r, unsigned commands) {
    bool undone = r->text[r->at] == '-';
    if (undone && ++r->at == r->size) return false;
    uint8_t byte = r->text[r->at];
    if (byte == '(') open_bracket(r, undone);
    else if (byte >= '1' && byte <= '9') take_command(r, undone, commands);
    else return false;
    return true;
}

/* Takes what stands here; false if nothing can stand here and go on so. */
static bool take(struct reading *r, unsigned commands) {
    uint8_t byte = r->text[r->at];
    if (byte == ' ') {
        r->may_begin = true;
        r->at++;
        return true;
    }
    if (byte == ')') {
        if (r->open == item) return false;
        close_bracket(r);
        return true;
    }
    return r->may_begin && take_item(r, commands);
}

static struct reading read_text(const uint8_t *text, size_t size, unsigned commands) {
    struct reading r = {text, size, 0, 0, item, true, nowhere, nowhere, nowhere};
    item[0] = (struct item){.bracket = true};
    while (r.wrong == nowhere && r.at < size)
        if (!take(&r, commands)) r.wrong = r.at;
    if (r.open != item) note(&r.wrong, size);
    return r;
}

/* ---- Writing */

/* The items inside, from the last to the first where they are undone. A bracket that writes nothing is passed over, or
 * many of them in one another would take for ever. */
static uint8_t *write_inside(const struct item *bracket, bool undone, uint8_t *to) {
    const struct item *next = undone ? bracket->last : bracket->first;
    for (; next; next = undone ? next->before : next->behind) {
        bool both = undone != next->undone;
        if (!next->bracket) *to++ = (uint8_t)(both ? next->number + 128 : next->number);
        else if (next->length > 0)
            for (unsigned i = 0; i < next->number; i++) to = write_inside(next, both, to);
    }
    return to;
}

/* ---- The calls */

static int64_t refuse(int64_t number, uint64_t place, uint64_t fault[2]) {
    fault[0] = 1;
    fault[1] = place;
    return -number;
}

int64_t solver_text_fault(const uint8_t *catalogue, size_t catalogue_size, const uint8_t *text, size_t text_size,
                          uint64_t fault[2]) {
    int64_t answer = solver_fault(catalogue, catalogue_size, NULL, 0, NULL, 0, NULL, 0, fault);
    if (answer != 0) return answer;
    struct reading r = read_text(text, text_size, layout_of(catalogue, catalogue_size).commands);
    if (r.wrong != nowhere) return refuse(13, r.wrong, fault);
    if (r.deep != nowhere) return refuse(14, r.deep, fault);
    if (r.above != nowhere) return refuse(8, r.above, fault);
    return item[0].length == TOO_LONG ? refuse(15, 0, fault) : 0;
}

int64_t solver_write_out(const uint8_t *catalogue, size_t catalogue_size, const uint8_t *text, size_t text_size,
                         uint8_t *area, size_t area_size) {
    uint64_t fault[2];
    int64_t answer = solver_text_fault(catalogue, catalogue_size, text, text_size, fault);
    if (answer != 0) return answer;
    if (area_size < item[0].length) return -9;
    write_inside(&item[0], false, area);
    return (int64_t)item[0].length;
}
