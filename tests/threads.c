/* Two promises of busplan.h: several threads may call at once, and a call gets by with BUSPLAN_STACK bytes of stack.
 * Four threads with stacks of that size put the same questions, each in its own order; every answer and every byte must
 * be as it was when one thread asked alone. */
#include "calls.h"
#include "texts.h"

#include <pthread.h>
#include <stdio.h>
#include <stdlib.h>
#include <string.h>

/* THREAD_STACK is for what a thread itself needs beside a call. */
enum { THREADS = 4, QUESTIONS = 880, MOST_AREA = 1 << 16, THREAD_STACK = 1 << 14 };

struct task {
    struct question question;
    struct area expected[MOST_AREAS];
    int64_t answer;
};

static struct task task[QUESTIONS];

static void fail(const char *what) {
    fprintf(stderr, "threads: %s\n", what);
    exit(1);
}

static uint8_t *new_bytes(size_t size) {
    uint8_t *bytes = calloc(size + 1, 1);
    if (bytes == NULL) fail("no memory");
    return bytes;
}

static struct slice keep(const struct bytes *from) {
    return (struct slice){memcpy(new_bytes(from->size), from->at, from->size), from->size};
}

/* Places in the normal form of a plan, damaged or not. */
static void draw_places(const struct conflicts *k, const struct bytes *v, bool damaged, struct bytes *places) {
    static struct word normal;
    solver_word(v->at, v->size, &normal);
    solver_normal(k, &normal);
    random_places(k, &normal, places);
    if (damaged) damage_places(normal.size, places);
}

/* A random question; every tenth has long plans and a lead-in that is long too, and every seventh a damaged plan. A
 * call that takes places gets some in the place of plan 2, damaged as often, and a call that takes a text gets one in
 * the place of plan 1, which is long or damaged as often. */
static struct question draw_question(size_t number) {
    static struct bytes catalogue, v, w, u;
    struct conflicts k;
    enum call call = (enum call)(number / 10 % CALLS);
    bool large = number % 10 == 0;
    if (large) long_settling(&catalogue, &v, &w);
    else random_catalogue(&catalogue);
    solver_catalogue(catalogue.at, catalogue.size, &k);
    if (!large) random_plan(&k, &v);
    joined_plan(&k, &v, &w, &u);
    if (large) lengthen_lead_in(&v, &w, &u);
    if (number % 7 == 0) damage_plan(&k, &w, MOST_PLAN);
    if (call >= PLAN_CALLS && call < TEXT_CALLS) draw_places(&k, &v, number % 7 == 0, &w);
    if (call >= TEXT_CALLS) {
        random_text(k.commands, &v);
        if (large) lengthen_text(&v);
        if (number % 7 == 0) damage_text(&v);
    }
    return (struct question){call, keep(&catalogue), {keep(&v), keep(&w), keep(&u)}};
}

static void ask_alone(void) {
    for (size_t i = 0; i < QUESTIONS; i++) {
        struct task *t = &task[i];
        t->question = draw_question(i);
        for (unsigned j = 0; j < areas_of[t->question.call]; j++) {
            size_t size = room(&t->question, j);
            t->expected[j] = (struct area){new_bytes(size), size};
        }
        t->answer = ask_library(&t->question, t->expected);
    }
}

/* Puts every question once, beginning at another place in each thread. Returns NULL if all is as it was. */
static void *ask_all(void *number) {
    size_t first = *(size_t *)number * (QUESTIONS / THREADS);
    uint8_t *bytes[MOST_AREAS] = {new_bytes(MOST_AREA), new_bytes(MOST_AREA), new_bytes(MOST_AREA)};
    bool same = true;
    for (size_t i = 0; i < QUESTIONS && same; i++) {
        const struct task *t = &task[(first + i) % QUESTIONS];
        struct area area[MOST_AREAS];
        for (unsigned j = 0; j < MOST_AREAS; j++) {
            area[j] = (struct area){bytes[j], t->expected[j].size};
            memset(bytes[j], 0, area[j].size);
        }
        same = ask_library(&t->question, area) == t->answer;
        for (unsigned j = 0; j < areas_of[t->question.call]; j++)
            same = same && memcmp(bytes[j], t->expected[j].at, area[j].size) == 0;
    }
    return same ? NULL : number;
}

static void start(pthread_t *thread, size_t *number) {
    pthread_attr_t attributes;
    pthread_attr_init(&attributes);
    if (pthread_attr_setstacksize(&attributes, BUSPLAN_STACK + THREAD_STACK) != 0
        || pthread_create(thread, &attributes, ask_all, number) != 0)
        fail("cannot start a thread");
}

int main(void) {
    pthread_t thread[THREADS];
    size_t number[THREADS];
    seed_random(1);
    ask_alone();
    for (size_t i = 0; i < THREADS; i++) {
        number[i] = i;
        start(&thread[i], &number[i]);
    }
    for (size_t i = 0; i < THREADS; i++) {
        void *wrong;
        pthread_join(thread[i], &wrong);
        if (wrong != NULL) fail("an answer differs when several threads call at once");
    }
    printf("threads: %d calls in each of %d threads with BUSPLAN_STACK bytes: all as alone\n", QUESTIONS, THREADS);
    return 0;
}
