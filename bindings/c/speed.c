/*
 * How many plan calls a second a loop in C makes, by the processor's time: `speed CALLS BUDGET PLAN`.
 *
 *     cc -std=c99 -O2 -Iinclude bindings/c/speed.c build/libpostman.a -o speed
 */
#include <stdio.h>
#include <stdlib.h>
#include <time.h>

#include "postman.h"

static uint8_t plan[POSTMAN_LONGEST_FILE];
static uint16_t sheet[POSTMAN_SHEET_PLACES];
static uint64_t answer[POSTMAN_ANSWER_WORDS];
static int64_t multipliers[POSTMAN_MULTIPLIERS];

int main(int argc, char **argv) {
    FILE *file = argc == 4 ? fopen(argv[3], "rb") : NULL;
    if (file == NULL) {
        fprintf(stderr, "usage: speed CALLS BUDGET PLAN\n");
        return 1;
    }
    long calls = atol(argv[1]);
    uint64_t budget = (uint64_t)atoll(argv[2]);
    size_t length = fread(plan, 1, sizeof plan, file);
    fclose(file);

    clock_t begun = clock();
    for (long i = 0; i < calls; i++) {
        if (postman_plan_call(plan, length, budget, sheet, POSTMAN_SHEET_PLACES, answer, POSTMAN_ANSWER_WORDS,
                              multipliers, POSTMAN_MULTIPLIERS) < 0) {
            fprintf(stderr, "speed: %s is refused\n", argv[3]);
            return 1;
        }
    }
    printf("%.1f\n", (double)calls * CLOCKS_PER_SEC / (double)(clock() - begun));
    return 0;
}
