/*
 * The stack that each call needs.
 *
 *     cc -std=c99 -Iinclude bindings/c/stacks.c build/libpostman.a -pthread -o stacks
 *     ./stacks PLAN...            makes every call on a thread of POSTMAN_STACK_BYTES for each plan; prints the calls
 *     ./stacks --least PLAN...    prints the least stack in KiB on which each call works for all the plans
 *
 * A call that runs out of stack meets the guard below it and ends the process that makes it, a child of this one.
 */
#define _GNU_SOURCE

#include <limits.h>
#include <pthread.h>
#include <stdio.h>
#include <stdlib.h>
#include <string.h>
#include <sys/wait.h>
#include <unistd.h>

#include "postman.h"

#define PAGE 4096
/* Wider than any frame, so that none reaches beyond it. */
#define GUARD (1 << 20)

/* Enough for a district to need more than one turn. */
#define BUDGET 2500

/* What is lent. All of it is static, so that the calls' own frames are what is on the stack. */
static uint8_t plan[POSTMAN_LONGEST_FILE];
static size_t plan_len;
static uint8_t records[POSTMAN_MOST_ARCS * POSTMAN_RECORD_BYTES];
static size_t records_len;
static uint32_t vertices, edition;
static uint8_t bytes[POSTMAN_LONGEST_FILE];
static uint8_t marks[POSTMAN_MOST_ARCS];
static uint16_t sheet[2][POSTMAN_SHEET_PLACES];
static uint64_t answer[2][POSTMAN_ANSWER_WORDS];
static int64_t multipliers[2][POSTMAN_MULTIPLIERS];
static uint8_t state[POSTMAN_OPEN_BYTES];
static uint8_t machine[POSTMAN_DISTRICTS_BYTES];
static uint16_t windows[POSTMAN_WINDOW_NUMBERS] = {0, 6, 0, 1};
static uint16_t pairs[POSTMAN_MOST_PAIRS];
static uint32_t distances[POSTMAN_MOST_PAIRS];

#define DRIVE(car) \
    sheet[car], POSTMAN_SHEET_PLACES, answer[car], POSTMAN_ANSWER_WORDS, multipliers[car], POSTMAN_MULTIPLIERS

static int64_t version(void) { return strcmp(postman_version(), POSTMAN_VERSION) == 0 ? 0 : -1; }
static int64_t refusal_word(void) { return postman_refusal_word(POSTMAN_REFUSED_FULL)[0] == 'f' ? 0 : -1; }
static int64_t read_plan(void) { return postman_read_plan(plan, plan_len, records, sizeof records); }
static int64_t write_plan(void) {
    return postman_write_plan(edition, vertices, records, records_len, bytes, sizeof bytes);
}
static int64_t plan_call(void) { return postman_plan_call(plan, plan_len, BUDGET, DRIVE(0)); }
static int64_t plan_call_at(void) {
    return postman_plan_call_at(plan, plan_len, BUDGET, windows, POSTMAN_WINDOW_NUMBERS, 0, 480, DRIVE(0));
}
static int64_t deep_call(void) { return postman_deep_call(plan, plan_len, BUDGET, 3, DRIVE(0)); }
static int64_t short_call(void) { return postman_short_call(plan, plan_len, DRIVE(0)); }
static int64_t two_cars(void) {
    size_t m = records_len / POSTMAN_RECORD_BYTES;
    return postman_two_cars(plan, plan_len, marks, m, BUDGET, DRIVE(0), marks, m, BUDGET, DRIVE(1));
}
static int64_t open_plan(void) { return postman_open(plan, plan_len, state, sizeof state); }
static int64_t change(void) {
    uint8_t *last = records + records_len - POSTMAN_RECORD_BYTES;
    uint16_t cost = (uint16_t)(last[POSTMAN_RECORD_COST_HIGH] << 8 | last[POSTMAN_RECORD_COST_LOW]);
    uint16_t checking = (uint16_t)(last[POSTMAN_RECORD_CHECKING_HIGH] << 8 | last[POSTMAN_RECORD_CHECKING_LOW]);
    uint32_t arc = (uint32_t)(records_len / POSTMAN_RECORD_BYTES - 1);
    return postman_change(state, sizeof state, arc, cost, checking, last[POSTMAN_RECORD_STANDING]);
}
static int64_t mark(void) { return postman_mark(state, sizeof state, 3); }
static int64_t return_to(void) { return postman_return(state, sizeof state, 3); }
static int64_t ask(void) {
    return postman_ask(state, sizeof state, BUDGET, windows, POSTMAN_WINDOW_NUMBERS, 0, 480, DRIVE(0));
}
static int64_t districts_start(void) { return postman_districts_start(machine, sizeof machine); }
static int64_t enter(void) { return postman_enter(machine, sizeof machine, plan, plan_len, BUDGET); }
static int64_t turn(void) {
    int64_t told;
    do {
        told = postman_turn(machine, sizeof machine, DRIVE(0));
    } while (told >= 0 && told < POSTMAN_FINISHED);
    return told;
}
static int64_t page(void) {
    return postman_distances(plan, plan_len, pairs, POSTMAN_MOST_PAIRS, distances, POSTMAN_MOST_PAIRS);
}
static int64_t tree_count(void) { return postman_tree_count(plan, plan_len); }
static int64_t judge(void) { return postman_judge(plan, plan_len, sheet[0], (size_t)answer[0][POSTMAN_PLACES]); }

/* In an order in which each finds what the ones before it made. */
static const struct {
    const char *name;
    int64_t (*make)(void);
} calls[] = {
    {"postman_version", version},
    {"postman_refusal_word", refusal_word},
    {"postman_read_plan", read_plan},
    {"postman_write_plan", write_plan},
    {"postman_plan_call", plan_call},
    {"postman_deep_call", deep_call},
    {"postman_plan_call_at", plan_call_at},
    {"postman_short_call", short_call},
    {"postman_two_cars", two_cars},
    {"postman_open", open_plan},
    {"postman_change", change},
    {"postman_mark", mark},
    {"postman_return", return_to},
    {"postman_ask", ask},
    {"postman_districts_start", districts_start},
    {"postman_enter", enter},
    {"postman_turn", turn},
    {"postman_distances", page},
    {"postman_tree_count", tree_count},
    {"postman_judge", judge},
};
#define CALLS (sizeof calls / sizeof calls[0])

static void fail(const char *what) {
    fprintf(stderr, "stacks: %s\n", what);
    exit(1);
}

/* Fills what is lent from a plan's file. */
static void prepare(const char *name) {
    FILE *file = fopen(name, "rb");
    if (file == NULL) {
        fail(name);
    }
    plan_len = fread(plan, 1, sizeof plan, file);
    fclose(file);
    int64_t told = read_plan();
    if (told < 0) {
        fail(name);
    }
    edition = (uint32_t)(told / POSTMAN_EDITIONS);
    vertices = (uint32_t)(told % POSTMAN_EDITIONS / POSTMAN_COUNTS);
    records_len = (size_t)(told % POSTMAN_COUNTS) * POSTMAN_RECORD_BYTES;
    for (size_t k = 0; k < records_len / POSTMAN_RECORD_BYTES; k++) {
        marks[k] = records[k * POSTMAN_RECORD_BYTES + POSTMAN_RECORD_STANDING] == POSTMAN_REQUIRED;
    }
    for (uint32_t k = 0; k < POSTMAN_MOST_PAIRS; k++) {
        pairs[k] = (uint16_t)(POSTMAN_PAIR * (k % vertices) + k / vertices % vertices);
    }
}

static void *on_thread(void *which) {
    static int64_t told;
    told = calls[*(size_t *)which].make();
    return &told;
}

/* Makes a call on a thread of a stack: whether it was answered. */
static int made(size_t which, size_t stack) {
    pthread_attr_t attributes;
    pthread_t thread;
    void *told;
    if (pthread_attr_init(&attributes) != 0 || pthread_attr_setstacksize(&attributes, stack) != 0 ||
        pthread_attr_setguardsize(&attributes, GUARD) != 0 ||
        pthread_create(&thread, &attributes, on_thread, &which) != 0 || pthread_join(thread, &told) != 0) {
        fail("no thread");
    }
    pthread_attr_destroy(&attributes);
    return *(int64_t *)told >= 0;
}

/* The same in a child, which may fall. What the call makes is made here too, on this stack. */
static int works(size_t which, size_t stack) {
    int status;
    pid_t child = fork();
    if (child == 0) {
        _exit(made(which, stack) ? 0 : 1);
    }
    if (child < 0 || waitpid(child, &status, 0) != child) {
        fail("no child");
    }
    return WIFEXITED(status) && WEXITSTATUS(status) == 0;
}

/* The least stack, in pages, from which on the call works. */
static size_t least_of(size_t which) {
    size_t low = PTHREAD_STACK_MIN, high = POSTMAN_STACK_BYTES * 4;
    while (low < high) {
        size_t middle = low + (high - low) / 2 / PAGE * PAGE;
        if (works(which, middle)) {
            high = middle;
        } else {
            low = middle + PAGE;
        }
    }
    return low;
}

int main(int argc, char **argv) {
    static size_t least[CALLS];
    int measure = argc > 1 && strcmp(argv[1], "--least") == 0;
    if (argc < 2 + measure) {
        fail("usage: stacks [--least] PLAN...");
    }
    for (int i = 1 + measure; i < argc; i++) {
        prepare(argv[i]);
        for (size_t k = 0; k < CALLS; k++) {
            if (measure) {
                size_t of_plan = least_of(k);
                least[k] = of_plan > least[k] ? of_plan : least[k];
            } else if (!works(k, POSTMAN_STACK_BYTES)) {
                fprintf(stderr, "stacks: %s: %s fails on %d bytes\n", argv[i], calls[k].name, POSTMAN_STACK_BYTES);
                return 1;
            }
            if (calls[k].make() < 0) {
                fail(calls[k].name);
            }
        }
    }
    for (size_t k = 0; k < CALLS; k++) {
        if (measure) {
            printf("%s %zu\n", calls[k].name, least[k] / 1024);
        } else {
            printf("%s\n", calls[k].name);
        }
    }
    return 0;
}
