/*
 * Plans the file that its argument names and prints what the program `drive` prints for it. With the library that
 * `make install` put in place, or with the one that `make` built here:
 *
 *     cc -std=c99 examples/plan.c $(pkg-config --cflags --libs postman) -o plan && ./plan examples/town.plan
 *     cc -std=c99 -Iinclude examples/plan.c build/libpostman.a -o plan && ./plan examples/town.plan
 */
#include <errno.h>
#include <inttypes.h>
#include <stdio.h>
#include <string.h>

#include "postman.h"

/* The budget that `drive` names. */
#define BUDGET 10000

/*
 * More bytes than the longest plan has: a longer file is refused for what its first bytes hold, so that nothing has to be
 * read of it after them.
 */
#define MOST_READ 4096

/* Static, to spare the stack. */
static uint16_t sheet[POSTMAN_SHEET_PLACES];

static int complain(const char *name) {
    fprintf(stderr, "plan: %s: %s\n", name, strerror(errno));
    return 1;
}

int main(int argc, char **argv) {
    uint8_t plan[MOST_READ];
    uint64_t answer[POSTMAN_ANSWER_WORDS];
    int64_t multipliers[POSTMAN_MULTIPLIERS];

    if (argc != 2) {
        fprintf(stderr, "usage: plan FILE\n");
        return 1;
    }
    FILE *file = fopen(argv[1], "rb");
    if (file == NULL) {
        return complain(argv[1]);
    }
    size_t length = fread(plan, 1, MOST_READ, file);
    if (ferror(file)) {
        return complain(argv[1]);
    }
    fclose(file);

    int64_t number = postman_plan_call(plan, length, BUDGET, sheet, POSTMAN_SHEET_PLACES, answer, POSTMAN_ANSWER_WORDS,
                                       multipliers, POSTMAN_MULTIPLIERS);
    if (number < 0) {
        printf("refused %" PRId64 "\n", -number);
        fprintf(stderr, "plan: %s\n", postman_refusal_word((uint32_t)-number));
    } else {
        printf("cost %" PRIu64 "\n", answer[POSTMAN_COST]);
        printf("floor %" PRIu64 "\n", answer[POSTMAN_FLOOR]);
        printf("trees %" PRIu64 "\n", answer[POSTMAN_TREES]);
        printf("whole %s\n", answer[POSTMAN_WHOLE] ? "yes" : "no");
        printf("parts %" PRIu64 "\n", answer[POSTMAN_PARTS]);
        for (uint64_t i = 0; i < answer[POSTMAN_PLACES]; i++) {
            printf("arc %" PRIu16 "\n", sheet[i]);
        }
    }
    if (fflush(stdout) != 0) {
        return complain("standard output");
    }
    return 0;
}
