/*
 * The survey drive's planner: reading and writing plan files, the plan call, at a departure too, the short call, the deep
 * call, the call for two cars, an open plan with marks to come back to, eight districts in turn, the number of trees,
 * distances, and judging a drive.
 *
 * A caller's buffer is a pointer and a length. The length counts elements, not bytes. Pointers are not null, not even with
 * a length of 0, and a buffer that is not const overlaps no other of the same call. The stack has POSTMAN_STACK_BYTES left.
 * That is all that is asked of a caller: any bytes, numbers and lengths will do.
 *
 * A function that answers a number answers 0 or more, and what that says stands with the function; or minus a refusal's
 * number, and then it did nothing. Of the calls that lay drives two say more than 0: postman_two_cars answers 0 only where
 * both cars are answered, and else holds each car's own refusal; and postman_turn names the district whose turn it was, and
 * says whether its drive is laid.
 *
 * Of several refusals that apply the first in this order is given: 1 (under three bytes), 2, 3, 1 (length), 4, then arc by
 * arc 5, 6, 7, then 13, then 17, then 8 and 9, then 18 to 20 or 23, then 10 to 12, then 22, then 14 to 16. The calls of an
 * open plan have an order of their own, and a buffer that is too short for a machine of districts is refused with 8 before
 * all else. A refusal changes no buffer; one of a car alone changes none of that car's. The functions keep nothing and share
 * nothing, so that threads may call them at once.
 *
 * `make install` puts the library in place, and `pkg-config --cflags --libs postman` says how to compile and link with it.
 * examples/plan.c shows a plan call.
 */
#ifndef POSTMAN_H
#define POSTMAN_H

#include <stddef.h>
#include <stdint.h>

#ifdef __cplusplus
extern "C" {
#endif

/* The version of this header. postman_version answers the library's. */
#define POSTMAN_VERSION "0.1.0"

/*
 * The bytes of stack that a thread needs for any of the calls. With less a call may end the process; on 128 KiB the plan
 * call does. Measured on x86-64 as the least stack of a thread on which the call works, in KiB: postman_deep_call 304,
 * postman_turn 296, postman_two_cars 252, postman_ask 240, postman_plan_call_at 236, postman_plan_call and
 * postman_short_call 232, postman_enter 160, postman_tree_count 132, and all others at most 32.
 */
#define POSTMAN_STACK_BYTES 524288

/* The most vertices and arcs of a plan, and the most bytes of its file. */
#define POSTMAN_MOST_VERTICES 64
#define POSTMAN_MOST_ARCS 256
#define POSTMAN_LONGEST_FILE 1475

/* The most parts of a plan that is not refused. */
#define POSTMAN_MOST_PARTS 8

/* The places that a sheet must have at least. No drive takes more. */
#define POSTMAN_SHEET_PLACES 17266

/* The most places of a list that is judged. */
#define POSTMAN_MOST_PLACES 65535

/* The budget of the short call, and the highest one of the plan call. The lowest is 1. */
#define POSTMAN_DEFAULT_BUDGET 100000
#define POSTMAN_HIGHEST_BUDGET 1000000

/* The most rounds of the deep call. The fewest are 1. */
#define POSTMAN_MOST_ROUNDS 1000

/* The highest number of trees that is answered. */
#define POSTMAN_HIGHEST_COUNT 4294967295u

/* The distance that stands for "no path". A plan with such a distance between required vertices is refused with 12. */
#define POSTMAN_NO_PATH 4294967295u

/* The most pairs of one page, and what the first vertex of a pair is multiplied by: a pair is 256 first + second. */
#define POSTMAN_MOST_PAIRS 256
#define POSTMAN_PAIR 256

/*
 * The most windows of a plan call at a departure, and the numbers of one: its arc, its weekday, and the minutes from which
 * and to which it shuts the arc. The last weekday, where Monday is 0; and the minutes of a day: a window ends at this
 * minute at the latest, and a departure is before it.
 */
#define POSTMAN_MOST_WINDOWS 128
#define POSTMAN_WINDOW_NUMBERS 4
#define POSTMAN_LAST_WEEKDAY 6
#define POSTMAN_DAY_MINUTES 1440

/* What the first car's own refusal is multiplied by in the answer of the call for two cars; the second's is added. */
#define POSTMAN_FIRST_CAR 256

/*
 * The bytes of an open plan, and its marks, which are 0 to 3. The bytes are five files one after the other: that of the
 * open plan, and those of the marks. Each takes two bytes for its length, the high one first, and POSTMAN_LONGEST_FILE
 * bytes from whose start the file stands. A mark of length 0 was never set. A length above POSTMAN_LONGEST_FILE, which none
 * of the calls below writes of its own, counts as POSTMAN_LONGEST_FILE.
 */
#define POSTMAN_OPEN_BYTES 7385
#define POSTMAN_MARKS 4

/*
 * The bytes of a machine of districts, the most districts of one, and the trees that a turn takes. A turn answers the
 * district's place, 0 to 7; in its last turn POSTMAN_FINISHED plus the place; and POSTMAN_NO_DISTRICT with no district
 * inside.
 *
 * The bytes are eight districts one after the other, the front of the line first, and the number of those that wait, in
 * eight bytes. A district is its place, one byte; the length of its file, eight bytes, and POSTMAN_LONGEST_FILE bytes from
 * whose start the file stands; its budget, four bytes; the least cost so far, eight bytes; eight tails and eight heads of
 * its best tree's links, a byte each; and the trees tried so far, four bytes. Numbers have their high byte first. Zeros
 * stand behind the file, behind the links, and behind the districts that wait: a machine that all districts have left is
 * zeros again, as at its start.
 */
#define POSTMAN_DISTRICTS_BYTES 12136
#define POSTMAN_MOST_DISTRICTS 8
#define POSTMAN_TURN_TREES 1000
#define POSTMAN_FINISHED 8
#define POSTMAN_NO_DISTRICT 16

/* The editions of the plan file. */
enum postman_edition {
    POSTMAN_FIRST_EDITION = 1, /* a required arc is checked at its cost */
    POSTMAN_SECOND_EDITION = 2 /* a required arc has a checking cost beside its cost */
};

/*
 * A record is an arc in seven bytes: tail, head, standing, the high byte and the low byte of its cost, and those of its
 * checking cost. The cost is that of a pass. The checking cost is that of the one pass on which a required arc is checked;
 * in all other arcs it is 0.
 */
#define POSTMAN_RECORD_BYTES 7
#define POSTMAN_RECORD_TAIL 0
#define POSTMAN_RECORD_HEAD 1
#define POSTMAN_RECORD_STANDING 2
#define POSTMAN_RECORD_COST_HIGH 3
#define POSTMAN_RECORD_COST_LOW 4
#define POSTMAN_RECORD_CHECKING_HIGH 5
#define POSTMAN_RECORD_CHECKING_LOW 6

/* An arc's standing. */
enum postman_standing {
    POSTMAN_OPTIONAL = 0, /* may be driven */
    POSTMAN_REQUIRED = 1, /* must be driven */
    POSTMAN_CLOSED = 2    /* is held in the file and never driven */
};

/* The words of an answer, by their index. */
#define POSTMAN_ANSWER_WORDS 6
#define POSTMAN_PLACES 0 /* how many places the drive takes */
#define POSTMAN_COST 1   /* what the drive costs: a required arc's checking cost once, the cost for every other pass */
#define POSTMAN_FLOOR 2  /* no drive costs less */
#define POSTMAN_TREES 3  /* trees tried */
#define POSTMAN_WHOLE 4  /* 1 if these are all trees, and then the cost is the least of all drives; else 0 */
#define POSTMAN_PARTS 5  /* the plan's parts */

/* The multipliers of an answer: one for each vertex, 0 where no required arc begins or ends. */
#define POSTMAN_MULTIPLIERS 64

/* A file that was read answers the first times its edition, plus the second times its vertices, plus its arcs. */
#define POSTMAN_EDITIONS 65536
#define POSTMAN_COUNTS 512

/*
 * The refusals. Wrong are a checking cost of 0 in a required arc, and another in any other arc; and, where edition 1 is
 * written, a required arc's checking cost that is not its cost. A cost of 0 is good, but in a required arc of edition 1.
 */
enum postman_refusal {
    POSTMAN_REFUSED_TORN = 1,        /* the file has under 3 bytes, or fewer than its arcs need */
    POSTMAN_REFUSED_EDITION = 2,     /* the edition is neither 1 nor 2 */
    POSTMAN_REFUSED_EXTENT = 3,      /* no vertex or over 64, no arc or over 256, or a list of over 65,535 places */
    POSTMAN_REFUSED_MARGIN = 4,      /* the file has more bytes than its arcs need, or a fill bit is 1 */
    POSTMAN_REFUSED_OFF_SHEET = 5,   /* an arc's tail or head is no vertex */
    POSTMAN_REFUSED_UNPRICED = 6,    /* an arc's checking cost is wrong, as said above */
    POSTMAN_REFUSED_STANDING = 7,    /* an arc's standing is above 2 */
    POSTMAN_REFUSED_SHORT_SHEET = 8, /* a caller's buffer is too short for records, bytes, places or distances */
    POSTMAN_REFUSED_BUDGET = 9,      /* the budget is 0 or above 1,000,000 */
    POSTMAN_REFUSED_IDLE = 10,       /* no arc must be driven */
    POSTMAN_REFUSED_SCATTERED = 11,  /* the plan has more than 8 parts */
    POSTMAN_REFUSED_CUT_OFF = 12,    /* no drive exists: some required vertex has no path to another */
    POSTMAN_REFUSED_REPEATED = 13,   /* two arcs agree in all their fields */
    POSTMAN_REFUSED_FOREIGN = 14,    /* a judged list has a closed arc, or a number that no arc has; a changed arc is none */
    POSTMAN_REFUSED_UNJOINED = 15,   /* an arc of a judged list does not lead to the next one, or the last to the first */
    POSTMAN_REFUSED_MISSED = 16,     /* an arc that must be driven is not in a judged list */
    POSTMAN_REFUSED_STRAY_PAIR = 17, /* more than 256 pairs, or one of what is no vertex */
    POSTMAN_REFUSED_BAD_MARKS = 18,  /* not a mark for each arc, one that is neither 0 nor 1, or a marked closed arc */
    POSTMAN_REFUSED_BAD_WINDOW = 19, /* a window, the number of windows or the departure is beyond its limits */
    POSTMAN_REFUSED_MUST_SHUT = 20,  /* an arc that must be driven is shut at departure */
    POSTMAN_REFUSED_NO_MARK = 21,    /* a mark's number is above 3, or the mark was never set */
    POSTMAN_REFUSED_FULL = 22,       /* eight districts are unfinished */
    POSTMAN_REFUSED_ROUNDS = 23      /* the rounds are 0 or above 1,000 */
};

/* The library's version, as POSTMAN_VERSION has it. The text is static. It is not among the proved functions. */
const char *postman_version(void);

/*
 * The trade word of a refusal, as "cut off" for 12; empty for a number that is no refusal's. The text is static. It is not
 * among the proved functions.
 */
const char *postman_refusal_word(uint32_t number);

/*
 * Reads the file `plan`. Answers 65536 e + 512 n + m, for edition e, n vertices and m arcs, or minus a refusal from 1 to 8
 * or 13.
 *
 * `records` has room for a seventh of its bytes; bytes left over are no record. The file's arcs are put into its first m
 * records, in the file's order. Later bytes are untouched. With fewer than m records it is refused with 8.
 */
int64_t postman_read_plan(const uint8_t *plan, size_t plan_len, uint8_t *records, size_t records_len);

/*
 * Writes the file of an edition, of n vertices and the arcs `records`. Answers the file's length in bytes, or minus a
 * refusal: 2, 3, 5 to 8 or 13.
 *
 * m is a seventh of the bytes of `records`; bytes left over are no record. The file is put into `bytes` from its start.
 * Later bytes are untouched. With fewer bytes than the file has it is refused with 8; POSTMAN_LONGEST_FILE always suffice.
 */
int64_t postman_write_plan(uint32_t edition, uint32_t n, const uint8_t *records, size_t records_len, uint8_t *bytes,
                           size_t bytes_len);

/*
 * The plan call: lays a closed drive for the file `plan`, trying at most `budget` trees. Answers 0, or minus a refusal from
 * 1 to 13.
 *
 * `sheet` takes the drive's arc numbers from its start, the lowest required arc first; the answer's word POSTMAN_PLACES
 * says how many. It is made of the required arcs, each once, and of paths between their ends: each a cheapest one, of the
 * fewest arcs, and of those the lowest list of arc numbers. Later places are untouched. With fewer than
 * POSTMAN_SHEET_PLACES places it is refused with 8.
 * `answer` takes the POSTMAN_ANSWER_WORDS words above, and `multipliers` the POSTMAN_MULTIPLIERS multipliers: as many as
 * fit, from the start. Later elements are untouched. Neither is refused for its length.
 */
int64_t postman_plan_call(const uint8_t *plan, size_t plan_len, uint64_t budget, uint16_t *sheet, size_t sheet_len,
                          uint64_t *answer, size_t answer_len, int64_t *multipliers, size_t multipliers_len);

/*
 * The deep call: rounds of the plan call, of which the cheapest drive and the highest floor are answered. Answers 0, or
 * minus a refusal: 1 to 13, or 23.
 *
 * The first round is the plan call. Rounds 2, 4, 6 and so on go on with the search of which the fewest trees are left, by
 * `budget` trees, if these are at most 100,000,000; if they are more than 1,000,000,000, rounds 8, 16, 24 and so on do. Every
 * other round numbers the vertices anew, by two exchanges of the numbers of that search, or of the cheapest drive where more
 * than 1,000,000,000 are left, and tries `budget`. Of equal drives the first is kept. It ends as soon as floor and cost meet.
 * The drive is never dearer and the floor never lower than the plan call's with the same budget, and more rounds are never
 * worse. The words are as in a plan call, but for two: POSTMAN_WHOLE is 1 if floor and cost are equal, and then no drive is
 * cheaper; POSTMAN_TREES are the trees of all rounds, at most 1,000,000,000.
 */
int64_t postman_deep_call(const uint8_t *plan, size_t plan_len, uint64_t budget, uint32_t rounds, uint16_t *sheet,
                          size_t sheet_len, uint64_t *answer, size_t answer_len, int64_t *multipliers,
                          size_t multipliers_len);

/*
 * The plan call at a departure: the plan call with the arcs closed that are shut at that minute of that weekday. Later
 * minutes play no part. Answers 0, or minus a refusal: 1 to 13, 19 or 20. With no window it answers what the plan call
 * answers.
 *
 * `windows` has POSTMAN_WINDOW_NUMBERS numbers a window: arc, weekday, from, to, with from < to. A window of the departure's
 * weekday shuts its arc if from <= minute < to. Windows may overlap, and all are tested, of whatever weekday. A length that
 * is no multiple of four is refused with 19.
 */
int64_t postman_plan_call_at(const uint8_t *plan, size_t plan_len, uint64_t budget, const uint16_t *windows,
                             size_t windows_len, uint32_t weekday, uint32_t minute, uint16_t *sheet, size_t sheet_len,
                             uint64_t *answer, size_t answer_len, int64_t *multipliers, size_t multipliers_len);

/*
 * The short call: the plan call with a budget of POSTMAN_DEFAULT_BUDGET. It never refuses with 9.
 */
int64_t postman_short_call(const uint8_t *plan, size_t plan_len, uint16_t *sheet, size_t sheet_len, uint64_t *answer,
                           size_t answer_len, int64_t *multipliers, size_t multipliers_len);

/*
 * The call for two cars on the streets of one file `plan`, whose distances are computed once. Each car has its own marks,
 * budget, sheet, answer and multipliers, and is answered what the plan call answers for a plan of its own, whatever the
 * other car brings.
 *
 * `marks_1` and `marks_2` have a byte for each arc. In the car's plan an arc with the mark 1 must be driven: it is checked at
 * its checking cost if it has one, else at its cost, even 0. An arc with the mark 0 may be driven. Closed arcs stay closed.
 * With the plan's own required arcs marked, and no others, a car is answered what the plan call answers.
 *
 * Answers minus a refusal that reaches both cars: 1 to 7 or 13. Else it answers POSTMAN_FIRST_CAR times the first car's own
 * refusal plus the second's, each 8 to 12 or 18, or 0 for a car that is answered; 18 comes after 9 and before 10. A car that
 * is refused keeps its sheet, answer and multipliers as they were, and the other does not feel it.
 */
int64_t postman_two_cars(const uint8_t *plan, size_t plan_len, const uint8_t *marks_1, size_t marks_1_len,
                         uint64_t budget_1, uint16_t *sheet_1, size_t sheet_1_len, uint64_t *answer_1,
                         size_t answer_1_len, int64_t *multipliers_1, size_t multipliers_1_len, const uint8_t *marks_2,
                         size_t marks_2_len, uint64_t budget_2, uint16_t *sheet_2, size_t sheet_2_len,
                         uint64_t *answer_2, size_t answer_2_len, int64_t *multipliers_2, size_t multipliers_2_len);

/*
 * Opens the file `plan` for changes: `state` takes the open plan, with no mark set. Answers 0, or minus a refusal: 1 to 7,
 * 13 or 8.
 *
 * With fewer than POSTMAN_OPEN_BYTES bytes `state` is refused with 8. Later bytes are untouched, here and in the calls
 * below. The caller may copy the state, and keep it for as long as it likes.
 */
int64_t postman_open(const uint8_t *plan, size_t plan_len, uint8_t *state, size_t state_len);

/*
 * Changes one arc of an open plan, of whatever standing: its cost, its checking cost and its standing become these, and
 * its ends stay. Answers 0, or minus a refusal, which alters nothing: 14 for an arc that the plan does not have, else what
 * writing the changed plan in its edition is refused for, 6, 7 or 13.
 *
 * Any bytes are a state. In these calls one with fewer than POSTMAN_OPEN_BYTES bytes is refused with 8, before all else;
 * and where the file of the open plan does not read, because something else than these calls made it, changes and asking
 * give what reading refuses: 1 to 7 or 13.
 */
int64_t postman_change(uint8_t *state, size_t state_len, uint32_t arc, uint16_t cost, uint16_t checking,
                       uint8_t standing);

/*
 * Sets a mark of an open plan: it holds the plan as it is now, in place of what it held before. Answers 0, or minus 21 for
 * a mark above 3.
 *
 * It does not read the file. In a state without a plan, whose file has length 0, the mark then holds none either: it
 * counts as never set, whatever it held before. After postman_open a state has a plan.
 */
int64_t postman_mark(uint8_t *state, size_t state_len, uint32_t mark);

/*
 * Returns to a mark of an open plan: the plan becomes what the mark holds. All marks stay. Answers 0, or minus 21 for a
 * mark above 3 or one that was never set.
 */
int64_t postman_return(uint8_t *state, size_t state_len, uint32_t mark);

/*
 * The plan call at a departure for the open plan: it answers what postman_plan_call_at answers for its file. After a
 * return that is what it answered at the mark.
 */
int64_t postman_ask(const uint8_t *state, size_t state_len, uint64_t budget, const uint16_t *windows, size_t windows_len,
                    uint32_t weekday, uint32_t minute, uint16_t *sheet, size_t sheet_len, uint64_t *answer,
                    size_t answer_len, int64_t *multipliers, size_t multipliers_len);

/*
 * Makes `machine` a machine of districts with no district inside. Answers 0, or minus 8 where it has fewer than
 * POSTMAN_DISTRICTS_BYTES bytes. Later bytes are untouched, here and in the two calls below. The caller may copy the
 * machine, and keep it for as long as it likes.
 */
int64_t postman_districts_start(uint8_t *machine, size_t machine_len);

/*
 * A district enters at the back of the line, with the file `plan` and a budget. Answers its place: the lowest that is
 * free, 0 to 7; or minus a refusal, and then nothing moves: 1 to 7, 9 to 13, or 22 where eight districts are unfinished.
 *
 * A machine with fewer than POSTMAN_DISTRICTS_BYTES bytes is refused with 8, before all else.
 */
int64_t postman_enter(uint8_t *machine, size_t machine_len, const uint8_t *plan, size_t plan_len, uint64_t budget);

/*
 * A turn: the front district tries 1,000 trees, or those that are left of its budget or of its plan.
 *
 * Answers its place where it is not finished: it goes to the back of the line. `answer` then takes the least cost so far
 * and the trees tried so far, and 0 for its other words; sheet and multipliers are untouched. Answers POSTMAN_FINISHED
 * plus its place in its last turn: it leaves, and its place is free. Sheet, answer and multipliers then take what one plan
 * call with its file and budget gives, however many turns it took.
 *
 * Answers POSTMAN_NO_DISTRICT where no district is inside, whatever the sheet, or else minus 8 for a sheet below
 * POSTMAN_SHEET_PLACES; then nothing is changed. A machine with fewer than POSTMAN_DISTRICTS_BYTES bytes is refused with 8,
 * before all else. Any bytes of that length are a machine, and no call fails on them. In a machine that these calls do not
 * lead to from postman_districts_start, POSTMAN_NO_DISTRICT is also answered, and nothing changed, where the front district
 * cannot be gone on with: its place is 8 or more or that of another in line; its file, its budget or its plan is one that
 * an entry refuses; no tree is left to be tried; or some were tried, and what is held is no tree of its plan with its cost.
 */
int64_t postman_turn(uint8_t *machine, size_t machine_len, uint16_t *sheet, size_t sheet_len, uint64_t *answer,
                     size_t answer_len, int64_t *multipliers, size_t multipliers_len);

/*
 * Distances for a page of pairs of vertices of the file `plan`. Answers the number of searches run, which is the number of
 * distinct first vertices, or minus a refusal: 1 to 7, 13, 17 or 8. Plans without an arc that must be driven have
 * distances too.
 *
 * `distances` takes the pairs' distances from its start: the least cost of a path from the first vertex to the second, 0
 * from a vertex to itself, and POSTMAN_NO_PATH for no path. Later entries are untouched. With fewer entries than pairs it
 * is refused with 8.
 */
int64_t postman_distances(const uint8_t *plan, size_t plan_len, const uint16_t *pairs, size_t pairs_len,
                          uint32_t *distances, size_t distances_len);

/*
 * Answers the number of trees of the file `plan`, exactly, or 4294967296, one more than POSTMAN_HIGHEST_COUNT, for every
 * number above that; or minus a refusal: 1 to 7 or 10 to 13.
 *
 * The plan call answers POSTMAN_WHOLE 1 exactly when this number is at most its budget.
 */
int64_t postman_tree_count(const uint8_t *plan, size_t plan_len);

/*
 * Judges a drive that someone else laid for the file `plan`: `places` holds its arc numbers, in the order in which they are
 * driven. Answers what the drive costs, or minus a refusal: 1 to 7, 10 or 13 to 16. The refusals of the list are looked at
 * last, by number: 14 anywhere in it comes before 15, and that before 16. It changes nothing.
 *
 * Judging goes by the plan's own required arcs, so that a drive laid for a car with other marks need not pass.
 */
int64_t postman_judge(const uint8_t *plan, size_t plan_len, const uint16_t *places, size_t places_len);

#ifdef __cplusplus
}
#endif

#endif
