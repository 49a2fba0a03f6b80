/*
 * The words of the library: its version and the trade words of the refusals. The proved functions answer numbers alone.
 * This file is not proved; a test compares its words with those of the Rust package.
 */
#include "postman.h"

/* By the refusal's number. 0 is none. */
static const char *const words[] = {
    [0] = "",
    [POSTMAN_REFUSED_TORN] = "torn",
    [POSTMAN_REFUSED_EDITION] = "edition",
    [POSTMAN_REFUSED_EXTENT] = "extent",
    [POSTMAN_REFUSED_MARGIN] = "margin",
    [POSTMAN_REFUSED_OFF_SHEET] = "off sheet",
    [POSTMAN_REFUSED_UNPRICED] = "unpriced",
    [POSTMAN_REFUSED_STANDING] = "standing",
    [POSTMAN_REFUSED_SHORT_SHEET] = "short sheet",
    [POSTMAN_REFUSED_BUDGET] = "budget",
    [POSTMAN_REFUSED_IDLE] = "idle",
    [POSTMAN_REFUSED_SCATTERED] = "scattered",
    [POSTMAN_REFUSED_CUT_OFF] = "cut off",
    [POSTMAN_REFUSED_REPEATED] = "repeated",
    [POSTMAN_REFUSED_FOREIGN] = "foreign",
    [POSTMAN_REFUSED_UNJOINED] = "unjoined",
    [POSTMAN_REFUSED_MISSED] = "missed",
    [POSTMAN_REFUSED_STRAY_PAIR] = "stray pair",
    [POSTMAN_REFUSED_BAD_MARKS] = "bad marks",
    [POSTMAN_REFUSED_BAD_WINDOW] = "bad window",
    [POSTMAN_REFUSED_MUST_SHUT] = "must shut",
    [POSTMAN_REFUSED_NO_MARK] = "no mark",
    [POSTMAN_REFUSED_FULL] = "full",
    [POSTMAN_REFUSED_ROUNDS] = "rounds",
};

const char *postman_version(void) { return POSTMAN_VERSION; }

const char *postman_refusal_word(uint32_t number) {
    return number < sizeof words / sizeof words[0] ? words[number] : words[0];
}
