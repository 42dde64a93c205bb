/* B1 to B4 and B7 of document 01's bench table, as R-1 of document 02 has changed them, and then turns, run through the header. Prints the line
 * after each, the log, and whom the turns served; every figure of the table is checked, and the first that differs ends the program with 1. */
#include "mokroshel.h"

#include <stdio.h>
#include <stdlib.h>
#include <string.h>

enum { N = 3, OWNERS = 5, LENGTH = OWNERS + 16 * N + 268 };

static uint8_t image[LENGTH];

static void same(const char *what, unsigned long found, unsigned long expected) {
    if (found != expected) {
        fprintf(stderr, "%s: %lu, not %lu\n", what, found, expected);
        exit(1);
    }
}

/* Document 01, "The image": the record of module p, and the lock word. */
static const uint8_t *record(unsigned p) { return image + LENGTH - MOKROSHEL_LENGTH(N) + 16 * (p - 1); }

static unsigned lock_word(void) { return image[LENGTH - 12]; }

static void link_is(const char *what, unsigned p, unsigned pointer, unsigned mark, unsigned count) {
    const uint8_t *r = record(p);
    same(what, r[8], pointer);
    same(what, r[9], mark);
    same(what, 256ul * r[10] + r[11], count);
}

/* Follows link pointers from the lock word to nil. No bench case has more than N modules in the line. */
static void print_line(const char *name) {
    unsigned p = lock_word(), seen = 0;
    printf("%s line", name);
    for (; p != 0 && seen < N; seen++) {
        printf(" %u", p);
        p = record(p)[8];
    }
    same(name, p, 0);
    printf("\n");
}

/* One accepted step of module p for each number expected. */
static void steps(const char *what, unsigned p, const unsigned *expected, unsigned count) {
    for (unsigned k = 0; k < count; k++) {
        uint32_t said = mokroshel_step(image, LENGTH, p);
        same(what, (unsigned long)mokroshel_refused(said), 0);
        same(what, mokroshel_number(said), expected[k]);
        same(what, mokroshel_admitted(said), expected[k] == MOKROSHEL_ADMITTED ? p : 0);
        same(what, mokroshel_log_length(said), 0);
    }
}

static void refused(const char *what, uint32_t said, unsigned expected) {
    same(what, (unsigned long)mokroshel_refused(said), 1);
    same(what, mokroshel_number(said), expected);
}

/* B1: module 1, priority 10: after 4 steps inside, link (nil, open, 2), lock 1; its record is raised. */
static void run_b1(void) {
    static const unsigned b1[] = {0, 3, 0, 2};
    same("B1 begins", mokroshel_begin_acquisition(image, LENGTH, 1, 10), MOKROSHEL_DONE);
    steps("B1", 1, b1, 4);
    same("B1 stage", record(1)[0], 13);
    link_is("B1 link 1", 1, 0, 0, 2);
    same("B1 lock", lock_word(), 1);
    same("B1 record priority of 1", record(1)[12], 255);
    print_line("B1");
}

/* After B7: 1 is inside, 2 idle, and 3 waits. Turns step 3 in vain until 1 releases; then 1 and 3 one after the other, until 3 is admitted. */
static void run_turns(void) {
    static const struct {
        unsigned served, number;
    } expected[] = {
        {3, MOKROSHEL_WAITING},  /* around the table, past 1 and 2 */
        {1, MOKROSHEL_LEFT},     /* stage 14 */
        {3, MOKROSHEL_WAITING},
        {1, MOKROSHEL_DONE},     /* 15 */
        {3, MOKROSHEL_WAITING},
        {1, MOKROSHEL_DONE},     /* 16 */
        {3, MOKROSHEL_WAITING},
        {1, MOKROSHEL_DONE},     /* 17 */
        {3, MOKROSHEL_WAITING},
        {1, MOKROSHEL_FINISHED}, /* 18 */
        {3, MOKROSHEL_ADMITTED},
        {3, MOKROSHEL_NOBODY},   /* 1 and 2 are idle, 3 is inside: the marker stays */
    };
    struct mokroshel_marker marker = {0};
    refused("marker 0", mokroshel_turn(image, LENGTH, &marker), MOKROSHEL_BAD_MARKER);
    same("marker 0 stays", marker.last, 0);
    marker.last = N + 1;
    refused("marker 4", mokroshel_turn(image, LENGTH, &marker), MOKROSHEL_BAD_MARKER);
    same("marker 4 stays", marker.last, N + 1);
    refused("a short image", mokroshel_turn(image, 11, &marker), MOKROSHEL_UNSOUND);

    marker.last = N;
    printf("turns");
    for (size_t k = 0; k < sizeof expected / sizeof expected[0]; k++) {
        uint32_t said = mokroshel_turn(image, LENGTH, &marker);
        same("turn", (unsigned long)mokroshel_refused(said), 0);
        same("turn answers", mokroshel_number(said), expected[k].number);
        same("turn serves", marker.last, expected[k].served);
        same("turn admits", mokroshel_admitted(said), expected[k].number == MOKROSHEL_ADMITTED ? expected[k].served : 0);
        if (expected[k].number != MOKROSHEL_NOBODY)
            printf(" %u", (unsigned)marker.last);
        if (k == 0)
            same("1 releases", mokroshel_begin_release(image, LENGTH, 1), MOKROSHEL_DONE);
    }
    printf("\n");
    print_line("turns");
}

int main(void) {
    uint8_t log[MOKROSHEL_LOG];
    memset(image, 0xa5, sizeof image);
    memset(log, 0x5a, sizeof log);

    refused("before set-up", mokroshel_step(image, LENGTH, 1), MOKROSHEL_UNSOUND);
    refused("set-up of 65", mokroshel_set_up(image, LENGTH, 65), MOKROSHEL_BAD_N);
    refused("set-up of 4", mokroshel_set_up(image, LENGTH, 4), MOKROSHEL_SHORT_IMAGE);
    same("set-up", mokroshel_set_up(image, LENGTH, N), MOKROSHEL_DONE);
    refused("module 4", mokroshel_step(image, LENGTH, 4), MOKROSHEL_NO_MODULE);
    refused("priority 255", mokroshel_begin_acquisition(image, LENGTH, 1, 255), MOKROSHEL_NO_PRIORITY);
    refused("idle", mokroshel_step(image, LENGTH, 1), MOKROSHEL_WRONG_STAGE);

    run_b1();

    /* B2: then module 2, priority 5: 8 steps; link 1 (2, open, 3), link 2 (nil, open, 3); the 9th answers 1. */
    static const unsigned b2[] = {0, 0, 0, 0, 0, 0, 3, 0, 1};
    same("B2 begins", mokroshel_begin_acquisition(image, LENGTH, 2, 5), MOKROSHEL_DONE);
    steps("B2", 2, b2, 8);
    link_is("B2 link 1", 1, 2, 0, 3);
    link_is("B2 link 2", 2, 0, 0, 3);
    steps("B2 waits", 2, b2 + 8, 1);
    print_line("B2");

    /* B3: then module 3, priority 8: 9 steps; link 1 (3, open, 4), link 3 (2, open, 3). */
    static const unsigned b3[] = {0, 0, 0, 0, 0, 0, 0, 3, 0};
    same("B3 begins", mokroshel_begin_acquisition(image, LENGTH, 3, 8), MOKROSHEL_DONE);
    steps("B3", 3, b3, 9);
    link_is("B3 link 1", 1, 3, 0, 4);
    link_is("B3 link 3", 3, 2, 0, 3);
    print_line("B3");

    /* B4: then 1 releases: 5 steps; lock 3, record priority of 3 is 255; module 3 steps once and is admitted. */
    static const unsigned b4[] = {4, 0, 0, 0, 5, 2};
    same("B4 begins", mokroshel_begin_release(image, LENGTH, 1), MOKROSHEL_DONE);
    steps("B4", 1, b4, 5);
    same("B4 lock", lock_word(), 3);
    same("B4 record priority of 3", record(3)[12], 255);
    steps("B4 admits", 3, b4 + 5, 1);
    print_line("B4");

    /* The log: both admissions, the earliest first; the rest of the buffer is kept. */
    refused("a short buffer", mokroshel_take_log(image, LENGTH, log, 1), MOKROSHEL_LOG_BUFFER);
    same("kept", log[0], 0x5a);
    uint32_t said = mokroshel_take_log(image, LENGTH, log, sizeof log);
    same("log taken", (unsigned long)mokroshel_refused(said), 0);
    same("log answers", mokroshel_number(said), MOKROSHEL_DONE);
    same("log admits nobody", mokroshel_admitted(said), 0);
    same("log length", mokroshel_log_length(said), 2);
    printf("log");
    for (unsigned k = 0; k < mokroshel_log_length(said); k++)
        printf(" %u", (unsigned)log[k]);
    printf("\n");
    for (size_t k = 2; k < sizeof log; k++)
        same("rest of the buffer", log[k], 0x5a);
    same("an empty log", mokroshel_take_log(image, LENGTH, log, 0), MOKROSHEL_DONE);

    /* B7: after B1, module 3 with priority 20 joins while 1 stays inside; the 9th step answers 1. */
    static const unsigned b7[] = {0, 0, 0, 0, 0, 0, 3, 0, 1};
    same("set-up anew", mokroshel_set_up(image, LENGTH, N), MOKROSHEL_DONE);
    run_b1();
    same("B7 begins", mokroshel_begin_acquisition(image, LENGTH, 3, 20), MOKROSHEL_DONE);
    steps("B7", 3, b7, 9);
    same("B7 stage of 1", record(1)[0], 13);
    link_is("B7 link 1", 1, 3, 0, 3);
    link_is("B7 link 3", 3, 0, 0, 3);
    print_line("B7");

    run_turns();

    for (size_t k = 0; k < OWNERS; k++)
        same("owner's byte", image[k], 0xa5);
    return 0;
}
