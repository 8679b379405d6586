/* Four calls of docs/MANUAL.md, normal form, equal, loops and lead-in check, on pilings with one byte a bead, written
 * for speed. It reads catalogues of the first edition, keeps nothing between calls, and takes up to 1.4 megabytes of
 * stack. See beads.h. */
#include "beads.h"

#include "busplan.h"

#include <stdbool.h>
#include <string.h>

enum { COMMANDS = BUSPLAN_MAX_COMMANDS, PLAN = BUSPLAN_MAX_PLAN, LEAD_IN = BUSPLAN_MAX_LEAD_IN };

struct slice {
    const uint8_t *at;
    size_t size;
};

/* ---- Catalogue */

/* The commands, 1 to commands, that command c conflicts with, other than c: as bits, and as a list. */
struct conflicts {
    unsigned commands;
    uint32_t with[COMMANDS + 1];
    uint8_t count[COMMANDS + 1], list[COMMANDS + 1][COMMANDS];
};

static void add_conflict(struct conflicts *k, unsigned a, unsigned b) {
    if (k->with[a] >> b & 1) return;
    k->with[a] |= 1u << b;
    k->with[b] |= 1u << a;
    k->list[a][k->count[a]++] = (uint8_t)b;
    k->list[b][k->count[b]++] = (uint8_t)a;
}

/* Record r stands at record[2 * r]. A chain that ends has at most as many steps as there are records. */
static int follow_chains(struct conflicts *k, const uint8_t *head, const uint8_t *record, unsigned records) {
    bool own = false;
    for (unsigned a = 1; a <= k->commands; a++) {
        unsigned steps = 0;
        for (unsigned r = head[a]; r != 0; r = record[2 * r + 1]) {
            if (steps++ == records) return BUSPLAN_ENDLESS_CHAIN;
            if (record[2 * r] == a) own = true;
            else add_conflict(k, a, record[2 * r]);
        }
    }
    return own ? BUSPLAN_OWN_CHAIN : 0;
}

static int read_catalogue(struct slice bytes, struct conflicts *k) {
    if (bytes.size < 2) return BUSPLAN_CATALOGUE_SIZE;
    unsigned commands = bytes.at[0], records = bytes.at[1];
    const uint8_t *head = bytes.at + 1, *record = bytes.at + commands;
    uint8_t index = 0, command = 0;
    if (bytes.size != 2 + commands + 2 * records) return BUSPLAN_CATALOGUE_SIZE;
    if (commands > COMMANDS) return BUSPLAN_COMMAND_COUNT;
    for (unsigned a = 1; a <= commands; a++) index |= head[a] > records;
    for (unsigned r = 1; r <= records; r++) index |= record[2 * r + 1] > records;
    for (unsigned r = 1; r <= records; r++) command |= record[2 * r] == 0 || record[2 * r] > commands;
    if (index) return BUSPLAN_INDEX;
    if (command) return BUSPLAN_RECORD_COMMAND;
    k->commands = commands;
    memset(k->with, 0, sizeof k->with);
    memset(k->count, 0, sizeof k->count);
    return follow_chains(k, head, record, records);
}

static int check_plan(const struct conflicts *k, struct slice plan, size_t most) {
    uint8_t wrong = 0, commands = (uint8_t)k->commands;
    if (plan.size > most) return BUSPLAN_PLAN_SIZE;
    for (size_t i = 0; i < plan.size; i++) {
        uint8_t c = plan.at[i] & 127;
        wrong |= (uint8_t)(c > commands) | (uint8_t)(plan.at[i] == 128);
    }
    return wrong ? BUSPLAN_PLAN_BYTE : 0;
}

static int check(struct slice catalogue, struct slice v, struct slice w, struct conflicts *k) {
    int refusal = read_catalogue(catalogue, k);
    if (!refusal) refusal = check_plan(k, v, PLAN);
    return refusal ? refusal : check_plan(k, w, PLAN);
}

/* ---- Pilings */

/* The row of command c runs from row[c] to end[c]; a bead is 0 or the letter. A 0 stands before and after each row. */
struct piling {
    uint8_t *row[COMMANDS + 1], *end[COMMANDS + 1];
};

static size_t room_for(const struct conflicts *k, size_t letters) { return k->commands * (letters + 2) + 1; }

static void clear(const struct conflicts *k, struct piling *p, uint8_t *room, size_t letters) {
    for (unsigned c = 1; c <= k->commands; c++, room += letters + 2) {
        memset(room, 0, letters + 2);
        p->row[c] = p->end[c] = room + 1;
    }
}

/* Rows are 0 past their ends, so a 0 bead is a step of the end. */
static void pile(const struct conflicts *k, struct piling *p, struct slice plan) {
    for (size_t i = 0; i < plan.size; i++) {
        uint8_t letter = plan.at[i];
        if (letter == 0) continue;
        unsigned c = letter & 127;
        const uint8_t *d = k->list[c], *last = d + k->count[c];
        uint8_t *end = p->end[c];
        if (end[-1] == (letter ^ 128)) {
            end[-1] = 0;
            p->end[c] = end - 1;
            for (; d != last; d++) p->end[*d]--;
        } else {
            end[0] = letter;
            p->end[c] = end + 1;
            for (; d != last; d++) p->end[*d]++;
        }
    }
}

/* Sets a reader to the start of each row, and gives the commands that can come first. */
static uint32_t start_reading(const struct conflicts *k, const struct piling *p, const uint8_t **at) {
    uint32_t ready = 0;
    for (unsigned c = 1; c <= k->commands; c++) {
        at[c] = p->row[c];
        ready |= (uint32_t)(*at[c] != 0) << c;
    }
    return ready;
}

/* Writes the letters from at on, always the smallest command that is ready, and gives their number. */
static size_t read_off(const struct conflicts *k, const uint8_t **at, uint32_t ready, uint8_t *out) {
    uint8_t *first = out;
    while (ready != 0) {
        unsigned c = (unsigned)__builtin_ctz(ready);
        const uint8_t *d = k->list[c], *last = d + k->count[c], *bead = at[c];
        *out++ = bead[0];
        at[c] = bead + 1;
        ready &= ~((uint32_t)(bead[1] == 0) << c);
        for (; d != last; d++) ready |= (uint32_t)(*++at[*d] != 0) << *d;
    }
    return (size_t)(out - first);
}

/* The normal form of v followed by w. */
static size_t normal_form(const struct conflicts *k, struct slice v, struct slice w, uint8_t *out) {
    uint8_t room[room_for(k, v.size + w.size)];
    const uint8_t *at[COMMANDS + 1];
    struct piling p;
    clear(k, &p, room, v.size + w.size);
    pile(k, &p, v);
    pile(k, &p, w);
    return read_off(k, at, start_reading(k, &p, at), out);
}

static bool same_effect(const struct conflicts *k, struct slice v, struct slice w) {
    uint8_t room_v[room_for(k, v.size)], room_w[room_for(k, w.size)];
    struct piling p, q;
    clear(k, &p, room_v, v.size);
    clear(k, &q, room_w, w.size);
    pile(k, &p, v);
    pile(k, &q, w);
    for (unsigned c = 1; c <= k->commands; c++) {
        size_t size = (size_t)(p.end[c] - p.row[c]);
        if ((size_t)(q.end[c] - q.row[c]) != size || memcmp(p.row[c], q.row[c], size) != 0) return false;
    }
    return true;
}

/* ---- Cores */

/* A loop on its way to its rings: its piling, and the letters it was conjugated by, at most 24 times those it has. */
struct loop {
    struct piling p;
    size_t lead_size;
    uint8_t lead[LEAD_IN], room[COMMANDS * (PLAN + 2) + 1];
};

/* Bit c if command c can come first and its undo last. */
static uint32_t pair_of(const struct piling *p, unsigned c) {
    const uint8_t *first = p->row[c], *last = p->end[c] - 1;
    return (uint32_t)(first < last && *first != 0 && *first == (*last ^ 128)) << c;
}

/* Makes the piling of a plan that of its core. */
static void take_off_pairs(const struct conflicts *k, struct loop *l) {
    struct piling *p = &l->p;
    uint32_t pairs = 0;
    for (unsigned c = 1; c <= k->commands; c++) pairs |= pair_of(p, c);
    while (pairs != 0) {
        unsigned c = (unsigned)__builtin_ctz(pairs);
        l->lead[l->lead_size++] = *p->row[c]++;
        p->end[c]--;
        pairs = (pairs & (pairs - 1)) | pair_of(p, c);
        for (unsigned i = 0; i < k->count[c]; i++) {
            unsigned d = k->list[c][i];
            p->row[d]++;
            p->end[d]--;
            pairs |= pair_of(p, d);
        }
    }
}

static void take_core(const struct conflicts *k, struct slice plan, struct loop *l) {
    l->lead_size = 0;
    clear(k, &l->p, l->room, plan.size);
    pile(k, &l->p, plan);
    take_off_pairs(k, l);
}

/* The commands that occur. */
static uint32_t support(const struct conflicts *k, const struct piling *p) {
    uint32_t set = 0;
    for (unsigned c = 1; c <= k->commands; c++) {
        const uint8_t *bead = p->row[c], *end = p->end[c];
        while (bead < end && *bead == 0) bead++;
        set |= (uint32_t)(bead < end) << c;
    }
    return set;
}

/* Rows of the same sizes: true of joined cores. */
static bool same_sizes(const struct conflicts *k, const struct piling *p, const struct piling *q) {
    for (unsigned c = 1; c <= k->commands; c++)
        if (p->end[c] - p->row[c] != q->end[c] - q->row[c]) return false;
    return true;
}

/* ---- Rings */

/* The connected components of a set of commands; gives their number. */
static unsigned split(const struct conflicts *k, uint32_t set, uint32_t *part) {
    unsigned parts = 0;
    for (; set != 0; set &= ~part[parts++]) {
        part[parts] = set & -set;
        for (uint32_t todo = part[parts]; todo != 0;) {
            uint32_t more = k->with[__builtin_ctz(todo)] & set & ~part[parts];
            part[parts] |= more;
            todo = (todo & (todo - 1)) | more;
        }
    }
    return parts;
}

/* Moving a letter to the other end moves the first bead of its rows there: a row is a circle, and at[c] its start. */
static uint32_t turn(const struct piling *p, const uint8_t **at, unsigned c) {
    const uint8_t *next = at[c] + 1;
    at[c] = next = next == p->end[c] ? p->row[c] : next;
    return (uint32_t)(*next != 0) << c;
}

/* Moves letters to the other end until none but an apex can come first. */
static void turn_rows(const struct conflicts *k, struct loop *l, uint32_t ready, uint32_t apexes, const uint8_t **at) {
    for (uint32_t movable = ready & ~apexes; movable != 0; movable &= ~apexes) {
        unsigned c = (unsigned)__builtin_ctz(movable);
        l->lead[l->lead_size++] = *at[c];
        movable = (movable & (movable - 1)) | turn(&l->p, at, c);
        for (unsigned i = 0; i < k->count[c]; i++) movable |= turn(&l->p, at, k->list[c][i]);
    }
}

/* Settles all parts of a core at once: each row is laid out anew, in room, from where its circle starts. */
static void settle(const struct conflicts *k, struct loop *l, uint32_t occur, uint32_t apexes, uint8_t *room) {
    const uint8_t *at[COMMANDS + 1];
    struct piling *p = &l->p;
    turn_rows(k, l, start_reading(k, p, at) & occur, apexes, at);
    for (unsigned c = 1; c <= k->commands; c++) {
        size_t back = (size_t)(p->end[c] - at[c]), front = (size_t)(at[c] - p->row[c]);
        memcpy(room, at[c], back);
        memcpy(room + back, p->row[c], front);
        p->row[c] = room;
        p->end[c] = room + back + front;
        *p->end[c] = 0;
        room = p->end[c] + 1;
    }
}

/* The first place of ring a from which it reads as ring b, or its size if there is none, after Knuth, Morris, Pratt. */
static size_t rotation(const uint8_t *a, const uint8_t *b, size_t size) {
    uint16_t border[PLAN + 1];
    border[0] = border[1] = 0;
    for (size_t i = 1, j = 0; i < size; i++) {
        while (j > 0 && b[i] != b[j]) j = border[j];
        if (b[i] == b[j]) j++;
        border[i + 1] = (uint16_t)j;
    }
    for (size_t i = 0, j = 0; i < 2 * size; i++) {
        uint8_t letter = a[i < size ? i : i - size];
        while (j > 0 && letter != b[j]) j = border[j];
        if (letter == b[j]) j++;
        if (j == size) return i + 1 - size;
    }
    return size;
}

/* Whether each ring of v is a rotation of that of w; the turns go behind the letters that v is conjugated by. */
static bool match_rings(const struct conflicts *k, struct loop *v, const struct loop *w, const uint32_t *part,
                        unsigned parts) {
    const uint8_t *at_v[COMMANDS + 1], *at_w[COMMANDS + 1];
    uint8_t ring_v[PLAN], ring_w[PLAN];
    uint32_t ready_v = start_reading(k, &v->p, at_v), ready_w = start_reading(k, &w->p, at_w);
    for (unsigned i = 0; i < parts; i++) {
        size_t size = read_off(k, at_v, ready_v & part[i], ring_v);
        if (read_off(k, at_w, ready_w & part[i], ring_w) != size) return false;
        size_t start = rotation(ring_v, ring_w, size);
        if (start == size) return false;
        memcpy(v->lead + v->lead_size, ring_v, start);
        v->lead_size += start;
    }
    return true;
}

/* Whether two cores are joined; then v->lead leads from the plan of v to the rings of w. */
static bool joined(const struct conflicts *k, struct loop *v, struct loop *w) {
    uint32_t part[COMMANDS], apexes = 0, occur = support(k, &v->p);
    uint8_t room_v[sizeof v->room], room_w[sizeof w->room];
    if (occur != support(k, &w->p) || !same_sizes(k, &v->p, &w->p)) return false;
    unsigned parts = split(k, occur, part);
    for (unsigned i = 0; i < parts; i++) apexes |= 1u << (31 - __builtin_clz(part[i]));
    settle(k, v, occur, apexes, room_v);
    settle(k, w, occur, apexes, room_w);
    return match_rings(k, v, w, part, parts);
}

/* ---- Calls */

int64_t beads_normal_form(const uint8_t *catalogue, size_t catalogue_size, const uint8_t *plan, size_t plan_size,
                          uint8_t *area, size_t area_size) {
    struct conflicts k;
    struct slice p = {plan, plan_size}, none = {plan, 0};
    int refusal = check((struct slice){catalogue, catalogue_size}, p, none, &k);
    if (!refusal && area_size < plan_size) refusal = BUSPLAN_AREA_SIZE;
    return refusal ? -refusal : (int64_t)normal_form(&k, p, none, area);
}

int64_t beads_equal(const uint8_t *catalogue, size_t catalogue_size, const uint8_t *v, size_t v_size,
                    const uint8_t *w, size_t w_size) {
    struct conflicts k;
    struct slice p = {v, v_size}, q = {w, w_size};
    int refusal = check((struct slice){catalogue, catalogue_size}, p, q, &k);
    return refusal ? -refusal : same_effect(&k, p, q);
}

int64_t beads_loops(const uint8_t *catalogue, size_t catalogue_size, const uint8_t *v, size_t v_size,
                    const uint8_t *w, size_t w_size, uint8_t *area, size_t area_size) {
    struct conflicts k;
    struct loop a, b;
    struct slice p = {v, v_size}, q = {w, w_size};
    int refusal = check((struct slice){catalogue, catalogue_size}, p, q, &k);
    if (!refusal && area_size < k.commands * (v_size + w_size)) refusal = BUSPLAN_AREA_SIZE;
    if (refusal) return -refusal;
    take_core(&k, p, &a);
    take_core(&k, q, &b);
    if (!joined(&k, &a, &b)) return 0;
    while (b.lead_size > 0) a.lead[a.lead_size++] = b.lead[--b.lead_size] ^ 128;
    return 1 + (int64_t)normal_form(&k, (struct slice){a.lead, a.lead_size}, (struct slice){a.lead, 0}, area);
}

int64_t beads_lead_in_check(const uint8_t *catalogue, size_t catalogue_size, const uint8_t *v, size_t v_size,
                            const uint8_t *w, size_t w_size, const uint8_t *u, size_t u_size,
                            uint8_t *area0, size_t area0_size, uint8_t *area1, size_t area1_size) {
    struct conflicts k;
    struct slice p = {v, v_size}, q = {w, w_size}, lead = {u, u_size};
    int refusal = check((struct slice){catalogue, catalogue_size}, p, q, &k);
    if (!refusal) refusal = check_plan(&k, lead, LEAD_IN);
    if (!refusal && (area0_size < v_size + u_size || area1_size < u_size + w_size)) refusal = BUSPLAN_AREA_SIZE;
    if (refusal) return -refusal;
    size_t size = normal_form(&k, p, lead, area0);
    return normal_form(&k, lead, q, area1) == size && (size == 0 || memcmp(area0, area1, size) == 0);
}
