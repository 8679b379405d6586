/* Random catalogues, plans, lead-ins and lists of places; see supply.h. */
#include "supply.h"

#include <string.h>

/* ---- Numbers: xorshift with a multiplication at the end */

static uint64_t state = 1;

void seed_random(uint64_t seed) { state = seed * 0x9E3779B97F4A7C15u + 0xD1B54A32D192ED03u; }

static uint64_t draw(void) {
    if (state == 0) state = 1;
    state ^= state >> 12;
    state ^= state << 25;
    state ^= state >> 27;
    return state * 0x2545F4914F6CDD1Du;
}

size_t below(size_t bound) { return bound == 0 ? 0 : (size_t)((draw() >> 11) % bound); }
bool chance(unsigned percent) { return below(100) < percent; }

/* ---- Catalogues */

/* A catalogue that is being made: most is how many records its edition can count. */
struct records {
    unsigned commands, most, count;
    uint16_t head[MOST_COMMANDS + 1], next[MOST_RECORDS + 1];
    uint8_t command[MOST_RECORDS + 1];
};

static void begin_records(struct records *rs, unsigned commands) {
    rs->commands = commands;
    rs->most = chance(40) ? MOST_RECORDS : 255;
    rs->count = 0;
    memset(rs->head, 0, sizeof rs->head);
}

/* A record for the front of a chain; with sharing set, one that is there already if there is one. 0 if all are used. */
static unsigned add_record(struct records *rs, unsigned command, unsigned next, bool sharing) {
    for (unsigned r = 1; sharing && r <= rs->count; r++)
        if (rs->command[r] == command && rs->next[r] == next) return r;
    if (rs->count == rs->most) return 0;
    rs->count++;
    rs->command[rs->count] = (uint8_t)command;
    rs->next[rs->count] = (uint16_t)next;
    return rs->count;
}

/* Whether a and b, a below b, conflict in a graph of this kind. */
static bool edge(unsigned kind, unsigned a, unsigned b, unsigned commands) {
    switch (kind) {
    case 0: return false;
    case 1: return true;
    case 2: case 7: return b == a + 1;
    case 3: return b == commands;
    case 4: return a == 1;
    case 5: return a % 3 == b % 3;
    case 6: return a % 2 != b % 2;
    default: return chance(12 * (kind - 7));
    }
}

/* Chains for a graph: each pair is listed by its smaller command, its larger one or both, now and then twice. */
static void chains_of_graph(struct records *rs, bool smaller_only, bool sharing) {
    uint8_t list[MOST_COMMANDS + 1][4 * MOST_COMMANDS];
    unsigned size[MOST_COMMANDS + 1] = {0}, kind = (unsigned)below(15), commands = rs->commands;
    for (unsigned b = commands; b >= 1; b--) {
        for (unsigned a = b - 1; a >= 1; a--) {
            if (!edge(kind, a, b, commands)) continue;
            size_t who = smaller_only ? 0 : below(3);
            if (who != 1) list[a][size[a]++] = (uint8_t)b;
            if (who != 0) list[b][size[b]++] = (uint8_t)a;
            if (!smaller_only && chance(4)) list[a][size[a]++] = (uint8_t)b;
        }
    }
    for (unsigned a = 1; a <= commands; a++) {
        unsigned next = 0;
        for (unsigned i = 0; i < size[a]; i++) {
            unsigned r = add_record(rs, list[a][i], next, sharing);
            if (r != 0) next = r;
        }
        rs->head[a] = (uint16_t)next;
    }
}

/* Chains drawn at random: every record leads to an earlier one, now and then to the one before it. A chain begins
 * behind the last place of its command; where no record has command 1, its chain may have all of them. */
static void random_chains(struct records *rs) {
    size_t most = chance(8) ? rs->most : 1 + below(4 * rs->commands);
    unsigned first = rs->commands > 1 && chance(30) ? 2 : 1;
    bool straight = chance(15);
    if (chance(5)) most = 1 + below(rs->most);
    while (rs->count < most) {
        unsigned next = straight ? rs->count : (unsigned)below(rs->count + 1);
        add_record(rs, first + (unsigned)below(rs->commands + 1 - first), next, false);
    }
    for (unsigned a = 1; a <= rs->commands; a++) {
        unsigned start = straight && chance(50) ? rs->count : (unsigned)below(rs->count + 1);
        for (unsigned r = start; r != 0; r = rs->next[r])
            if (rs->command[r] == a) start = rs->next[r];
        rs->head[a] = (uint16_t)start;
    }
}

/* Records that no chain reaches; they may lead anywhere, also to themselves. */
static void add_unreached(struct records *rs) {
    size_t more = chance(5) ? rs->most : below(4), from = rs->count;
    while (rs->count < rs->most && rs->count - from < more)
        add_record(rs, 1 + (unsigned)below(rs->commands), 0, false);
    for (unsigned r = (unsigned)from + 1; r <= rs->count; r++) rs->next[r] = (uint16_t)below(rs->count + 1);
}

static void set_index(struct bytes *catalogue, const struct layout *l, size_t place, unsigned index) {
    catalogue->at[place] = (uint8_t)index;
    if (l->width == 2) catalogue->at[place + 1] = (uint8_t)(index >> 8);
}

/* Sets N, R and with them the size. */
static struct layout set_counts(struct bytes *catalogue, unsigned commands, unsigned records, unsigned width) {
    struct layout l = {catalogue->at, commands, records, width};
    catalogue->at[0] = (uint8_t)(width == 1 ? commands : 128 + commands);
    set_index(catalogue, &l, 1, records);
    catalogue->size = whole_size(&l);
    return l;
}

/* Writes the catalogue with the records numbered anew in random order. */
static void write_catalogue(const struct records *rs, struct bytes *catalogue) {
    struct layout l = set_counts(catalogue, rs->commands, rs->count, rs->most > 255 ? 2 : 1);
    uint16_t number[MOST_RECORDS + 1] = {0};
    for (unsigned r = 1; r <= rs->count; r++) number[r] = (uint16_t)r;
    for (unsigned r = rs->count; r > 1; r--) {
        size_t other = 1 + below(r);
        uint16_t kept = number[r];
        number[r] = number[other];
        number[other] = kept;
    }
    for (unsigned a = 1; a <= rs->commands; a++) set_index(catalogue, &l, head_place(&l, a), number[rs->head[a]]);
    for (unsigned r = 1; r <= rs->count; r++) {
        size_t place = record_place(&l, number[r]);
        catalogue->at[place] = rs->command[r];
        set_index(catalogue, &l, place + 1, number[rs->next[r]]);
    }
}

void random_catalogue(struct bytes *catalogue) {
    static const uint8_t bound[] = {2, 4, 4, 5, 5, 7, 7, 10, 16, 25};
    struct records rs;
    unsigned commands = chance(4) ? MOST_COMMANDS : (unsigned)below(bound[below(sizeof bound)]);
    size_t way = commands == 0 ? 3 : below(4);
    begin_records(&rs, commands);
    if (way == 0) random_chains(&rs);
    if (way == 1) chains_of_graph(&rs, false, chance(50));
    if (way == 2) chains_of_graph(&rs, true, chance(50));
    if (commands > 0 && chance(20)) add_unreached(&rs);
    write_catalogue(&rs, catalogue);
}

/* ---- Damage to a catalogue, which may be damaged already */

/* The number of a record of the chain of command a, at a random step; 0 if there is none. */
static unsigned record_in_chain(const struct layout *l, unsigned a) {
    unsigned r = head_of(l, a), next = r;
    for (size_t steps = below(6) + 1; steps > 0 && next != 0 && next <= l->records; steps--) {
        r = next;
        next = record_next(l, r);
    }
    return r <= l->records ? r : 0;
}

/* A number above a bound that bytes of this width can hold, often the next one, or one whose low byte is not above. */
static unsigned above(unsigned bound, unsigned width) {
    unsigned most = width == 1 ? 255 : 65535;
    if (width == 2 && bound < 256 && chance(30)) return 256 * (1 + (unsigned)below(255)) + (unsigned)below(bound + 1);
    return bound >= most || chance(50) ? bound + 1 : bound + 1 + (unsigned)below(most - bound);
}

/* More than 24 commands, in the right size. */
static void too_many_commands(struct bytes *catalogue, const struct layout *l) {
    unsigned commands = chance(50) ? MOST_COMMANDS + 1 : MOST_COMMANDS + 1 + (unsigned)below(127 - MOST_COMMANDS);
    set_counts(catalogue, commands, l->records, l->width);
    for (size_t i = 1 + l->width; i < catalogue->size; i++) catalogue->at[i] = chance(90) ? 0 : (uint8_t)below(256);
}

/* More than 1,024 records, in the right size and the second edition. */
static void too_many_records(struct bytes *catalogue, const struct layout *l) {
    size_t size = catalogue->size;
    unsigned more = chance(50) ? 0 : (unsigned)below(chance(5) ? 20000 : 500);
    set_counts(catalogue, l->commands, MOST_RECORDS + 1 + more, 2);
    if (catalogue->size > size) memset(catalogue->at + size, 0, catalogue->size - size);
}

/* The first byte of the other edition, and sometimes the size that R then asks for. */
static void other_edition(struct bytes *catalogue) {
    catalogue->at[0] ^= 128;
    struct layout l = layout_of(catalogue->at, catalogue->size);
    if (chance(50) && l.records <= 2 * MOST_RECORDS) catalogue->size = whole_size(&l);
}

void damage_catalogue(struct bytes *catalogue) {
    uint8_t *at = catalogue->at;
    struct layout l = layout_of(at, catalogue->size);
    unsigned bound = l.records, a = 1 + (unsigned)below(l.commands);
    if (l.records > MOST_RECORDS) l.records = MOST_RECORDS;
    unsigned r = 1 + (unsigned)below(l.records), reached = l.commands > 0 ? record_in_chain(&l, a) : 0;
    size_t head = head_place(&l, a), record = record_place(&l, r), in_chain = record_place(&l, reached);
    size_t high = (chance(30) ? 1 : chance(50) ? head : record + 1) + 1;
    switch (below(17)) {
    case 0: catalogue->size = below(4); break;
    case 1: if (catalogue->size > 0) catalogue->size -= chance(50) ? 1 : below(catalogue->size + 1); break;
    case 2: at[catalogue->size++] = (uint8_t)below(3); break;
    case 3: at[below(1 + l.width)] = (uint8_t)below(256); break;
    case 4: too_many_commands(catalogue, &l); break;
    case 5: too_many_records(catalogue, &l); break;
    case 6: if (l.commands > 0) set_index(catalogue, &l, head, above(bound, l.width)); break;
    case 7: if (l.records > 0) set_index(catalogue, &l, record + 1, above(bound, l.width)); break;
    case 8: if (l.records > 0) at[record] = 0; break;
    case 9: if (l.records > 0) at[record] = (uint8_t)above(l.commands, 1); break;
    case 10: if (reached > 0) set_index(catalogue, &l, in_chain + 1, head_of(&l, a)); break;
    case 11: if (reached > 0) set_index(catalogue, &l, in_chain + 1, reached); break;
    case 12: if (reached > 0) at[in_chain] = (uint8_t)a; break;
    case 13: if (reached > 0) set_index(catalogue, &l, in_chain + 1, (unsigned)below(l.records + 1)); break;
    case 14: if (l.width == 2 && l.records > 0) at[high] = (uint8_t)(chance(50) ? 1 + below(4) : below(256)); break;
    case 15: other_edition(catalogue); break;
    default: if (catalogue->size > 0) at[below(catalogue->size)] = (uint8_t)below(256); break;
    }
}

/* ---- Plans */

static uint8_t random_letter(unsigned from, unsigned commands) {
    return (uint8_t)(from + below(commands) + (chance(50) ? 128 : 0));
}

static size_t random_size(void) {
    size_t which = below(1000);
    if (which < 500) return below(9);
    if (which < 800) return below(25);
    if (which < 950) return below(81);
    if (which < 990) return below(301);
    return which < 996 ? below(MOST_PLAN + 1) : MOST_PLAN - below(2);
}

static void put(struct bytes *plan, uint8_t byte, size_t place) {
    if (plan->size >= MOST_PLAN) return;
    memmove(plan->at + place + 1, plan->at + place, plan->size - place);
    plan->at[place] = byte;
    plan->size++;
}

/* Letters of a few commands or of all, of both signs or of one, in runs, in the order of the commands; fillers. */
void random_plan(const struct conflicts *k, struct bytes *plan) {
    size_t size = random_size();
    unsigned few = 1 + (unsigned)below(k->commands), from = 1 + (unsigned)below(k->commands - few + 1);
    unsigned fillers = chance(20) ? (unsigned)below(60) : 0, runs = chance(20) ? 85 : 0;
    bool no_undo = chance(20), in_order = chance(5);
    if (chance(50)) few = k->commands, from = 1;
    plan->size = size;
    for (size_t i = 0; i < size; i++) {
        uint8_t letter = i > 0 && chance(runs) ? plan->at[i - 1] : random_letter(from, few);
        if (in_order) letter = (uint8_t)(from + i * few / size);
        if (no_undo) letter &= 127;
        plan->at[i] = k->commands == 0 || chance(fillers) ? 0 : letter;
    }
}

/* Random steps that keep the effect: swaps of neighbours, pairs put in, fillers put in and swapped about. */
static void rewrite(const struct conflicts *k, struct bytes *plan, size_t steps) {
    while (steps-- > 0) {
        size_t i = below(plan->size + 1);
        if (chance(3) && plan->size + 2 <= MOST_PLAN && k->commands > 0) {
            uint8_t letter = random_letter(1, k->commands);
            put(plan, letter, i);
            put(plan, undo_of(letter), i + 1);
        } else if (chance(2)) {
            put(plan, 0, i);
        } else if (i + 1 < plan->size) {
            uint8_t x = plan->at[i], y = plan->at[i + 1];
            if (x != 0 && y != 0 && conflict(k, x, y)) continue;
            plan->at[i] = y;
            plan->at[i + 1] = x;
        }
    }
}

static void copy(struct bytes *to, const struct bytes *from) {
    to->size = from->size;
    memmove(to->at, from->at, from->size);
}

void equal_plan(const struct conflicts *k, const struct bytes *v, struct bytes *plan) {
    struct word w;
    if (chance(30)) {
        solver_word(v->at, v->size, &w);
        solver_normal(k, &w);
        plan->size = w.size;
        memcpy(plan->at, w.letter, w.size);
    } else {
        copy(plan, v);
    }
    rewrite(k, plan, below(2 * plan->size + 20));
}

/* Conjugates by one letter in place: its undo in front, itself behind, or the first letter moved to the end. */
static void conjugate(struct bytes *plan, uint8_t letter) {
    if (plan->size > 0 && plan->at[0] == letter) {
        memmove(plan->at, plan->at + 1, plan->size - 1);
        plan->at[plan->size - 1] = letter;
    } else {
        put(plan, undo_of(letter), 0);
        put(plan, letter, plan->size);
    }
}

/* Turns the loop, conjugates it by letters, rewrites between; the letters used are the lead-in. */
void joined_plan(const struct conflicts *k, const struct bytes *v, struct bytes *plan, struct bytes *lead_in) {
    size_t letters = chance(60) ? below(8) : below(v->size + 20);
    bool turn = chance(60);
    copy(plan, v);
    lead_in->size = 0;
    if (k->commands == 0) return;
    while (letters-- > 0) {
        if (chance(10)) rewrite(k, plan, below(plan->size + 1));
        if (plan->size + 2 > MOST_PLAN) break;
        bool turns = turn && plan->size > 0 && plan->at[0] != 0;
        uint8_t letter = turns ? plan->at[0] : random_letter(1, k->commands);
        conjugate(plan, letter);
        lead_in->at[lead_in->size++] = letter;
    }
    if (chance(70)) equal_plan(k, plan, plan);
}

/* A small change that often changes the effect: one letter other, one sign turned, or two letters exchanged. */
void spoil_plan(const struct conflicts *k, struct bytes *plan) {
    if (plan->size == 0 || k->commands == 0) return;
    size_t i = below(plan->size), j = chance(50) ? i / 2 : (i + 1) % plan->size;
    uint8_t kept = plan->at[i];
    switch (below(3)) {
    case 0: plan->at[i] = random_letter(1, k->commands); break;
    case 1: plan->at[i] = kept == 0 ? 0 : undo_of(kept); break;
    default: plan->at[i] = plan->at[j], plan->at[j] = kept; break;
    }
}

/* A run of letters for each command in turn, upwards or downwards, of about size letters in all. */
static void runs_in_order(unsigned commands, size_t size, bool upwards, struct bytes *plan) {
    plan->size = 0;
    for (unsigned i = 1; i <= commands; i++) {
        unsigned c = upwards ? i : commands + 1 - i;
        size_t run = size * c / commands - size * (c - 1) / commands;
        memset(plan->at + plan->size, (int)c, run);
        plan->size += run;
    }
}

void long_settling(struct bytes *catalogue, struct bytes *v, struct bytes *w) {
    struct records rs;
    unsigned commands = chance(50) ? MOST_COMMANDS : 2 + (unsigned)below(MOST_COMMANDS - 1);
    size_t size = chance(30) ? MOST_PLAN : commands + below(MOST_PLAN - commands + 1);
    begin_records(&rs, commands);
    for (unsigned a = 1; a < commands; a++) rs.head[a] = (uint16_t)add_record(&rs, a + 1, 0, false);
    write_catalogue(&rs, catalogue);
    runs_in_order(commands, size, true, v);
    runs_in_order(commands, size, chance(20), w);
}

static void append_bytes(struct bytes *to, const struct bytes *more) {
    memcpy(to->at + to->size, more->at, more->size);
    to->size += more->size;
}

void lengthen_lead_in(const struct bytes *v, const struct bytes *w, struct bytes *u) {
    struct bytes longer;
    longer.size = 0;
    size_t most = chance(30) ? MOST_LEAD_IN : u->size + below(MOST_LEAD_IN - u->size + 1);
    size_t front = v->size == 0 ? 0 : below((most - u->size) / v->size + 1);
    while (front-- > 0) append_bytes(&longer, v);
    append_bytes(&longer, u);
    while (w->size > 0 && longer.size + w->size <= most) append_bytes(&longer, w);
    while (longer.size < most) longer.at[longer.size++] = 0;
    copy(u, &longer);
}

void damage_plan(const struct conflicts *k, struct bytes *plan, size_t most) {
    if (chance(30)) {
        size_t size = most + 1 + (chance(50) ? 0 : below(600));
        for (size_t i = plan->size; i < size; i++) plan->at[i] = k->commands > 0 && chance(95) ? 1 : 0;
        plan->size = size;
    }
    if (plan->size == 0) plan->size = 1;
    if (plan->size > most && chance(70)) return;
    size_t place = chance(40) ? plan->size - 1 : below(plan->size);
    switch (below(4)) {
    case 0: plan->at[place] = 128; break;
    case 1: plan->at[place] = (uint8_t)(k->commands + 1); break;
    case 2: plan->at[place] = (uint8_t)(129 + k->commands); break;
    default: plan->at[place] = (uint8_t)(k->commands + 1 + below(128 - k->commands)) | (chance(50) ? 128 : 0); break;
    }
}

/* ---- Lists of places */

enum { MOST_PLACES = MOST_LETTERS / sizeof(uint16_t) };

static size_t places_in(const struct bytes *places) { return places->size / sizeof(uint16_t); }

static void set_place(struct bytes *places, size_t number, size_t place) {
    uint16_t stored = (uint16_t)place;
    memcpy(places->at + number * sizeof stored, &stored, sizeof stored);
}

static void add_place(struct bytes *places, size_t place) {
    if (places_in(places) == MOST_PLACES) return;
    set_place(places, places_in(places), place);
    places->size += sizeof(uint16_t);
}

/* A later letter that conflicts with the one at a place; that place itself if there is none. */
static size_t later_conflict(const struct conflicts *k, const struct word *w, size_t place) {
    size_t found = place, most = below(4);
    for (size_t i = place + 1; i < w->size && most < 4; i++)
        if (conflict(k, w->letter[place], w->letter[i])) found = i, most--;
    return found;
}

/* A pair that a chain leads through, if one is met with soon. */
static void add_led(const struct conflicts *k, const struct word *w, struct bytes *places) {
    size_t from = 0, to = 0;
    for (unsigned tries = 0; tries < 8 && from == to; tries++) {
        from = to = below(w->size);
        do to = later_conflict(k, w, to);
        while (chance(60));
    }
    add_place(places, from);
    add_place(places, from == to ? (from + 1) % w->size : to);
}

static void add_any(const struct word *w, struct bytes *places) {
    size_t from = below(w->size), to = (from + 1 + below(w->size - 1)) % w->size;
    bool upwards = chance(70);
    add_place(places, upwards && from > to ? to : from);
    add_place(places, upwards && from > to ? from : to);
}

void random_places(const struct conflicts *k, const struct word *w, struct bytes *places) {
    size_t pairs = chance(5) ? 0 : 1 + below(chance(70) ? 3 : 24);
    unsigned led = chance(40) ? 100 : chance(50) ? 90 : 0;
    if (w->size < 40 && below(300) == 0) pairs = below(MOST_PLACES / 2);
    places->size = 0;
    for (size_t i = 0; i < pairs && w->size > 1; i++) {
        if (chance(led)) add_led(k, w, places);
        else add_any(w, places);
    }
}

void damage_places(size_t letters, struct bytes *places) {
    size_t size = places_in(places), number = chance(30) && size > 0 ? size - 1 : below(size);
    uint16_t other;
    switch (size == 0 ? 0 : below(6)) {
    case 0: add_place(places, below(letters + 2)); break;
    case 1: places->size -= sizeof(uint16_t); break;
    case 2: set_place(places, number, letters); break;
    case 3: set_place(places, number, letters + below(65536 - letters)); break;
    case 4: set_place(places, number, below(65536)); break;
    default:
        if (size < 2) break;
        memcpy(&other, places->at + (number ^ 1) % size * sizeof other, sizeof other);
        set_place(places, number, other);
        break;
    }
}
