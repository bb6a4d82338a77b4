/*
 * The views per leader from C: their word in a setup and in a run, the two forms of an opening's line, and what follows them.
 */
#ifndef HEADER_TURNS_H
#define HEADER_TURNS_H

#include "header_words.h"

/* Opens four processors with a delay of 2, all clocks alike. Answers the check, 0 for none. */
static uint64_t open_turns(uint64_t gamma, uint64_t limit, uint64_t k, uint64_t clock)
{
    uint64_t setup[FEVER_SETUP_WORDS] = {0};
    size_t processor;
    setup[FEVER_SETUP_N] = 4;
    setup[FEVER_SETUP_DELTA] = 2;
    setup[FEVER_SETUP_GAMMA] = gamma;
    setup[FEVER_SETUP_LIMIT] = limit;
    setup[FEVER_SETUP_K] = k;
    setup[FEVER_SETUP_FAULTY] = 0;
    for (processor = 0; processor < 4; processor++) {
        setup[FEVER_SETUP_CLOCKS + processor] = clock;
    }
    return fever_open(LENT(setup), LENT(run), LENT(tally), LENT(network));
}

/* A slot of four delays for two views per leader, else of two; 2 to 8 of them, and a view limit that is a multiple. */
static void limit_turns(void)
{
    demand(open_turns(7, VIEWS, 2, 0) == 3 && open_turns(8, VIEWS, 2, 0) == 0, "four delays for two views");
    demand(open_turns(3, VIEWS, PER_LEADER, 0) == 3 && open_turns(4, VIEWS, PER_LEADER, 0) == 0, "two delays for three views");
    demand(open_turns(3, VIEWS, 1, 0) == 3 && open_turns(4, VIEWS, 1, 0) == 4, "two delays for one, which is too few");
    demand(open_turns(8, VIEWS, 0, 0) == 4 && open_turns(8, VIEWS, UINT64_MAX, 0) == 4, "no such views per leader");
    demand(open_turns(8, 9, 9, 0) == 4 && open_turns(8, VIEWS, 4, 0) == 4, "nine are too many, six no multiple of four");
    demand(open_turns(8, VIEWS, 2, 16) == 7 && open_turns(4, VIEWS, VIEWS, 24) == 7, "a start clock of k slots");
}

/* With two views per leader, view 2 is initial, and all enter it by their clocks. */
static void turn(void)
{
    uint64_t processor[FEVER_PROCESSOR_WORDS] = {1, 15, 1, 7};
    demand(open_turns(8, VIEWS, 2, 15) == 0 && run[FEVER_RUN_K] == 2, "opened with two views per leader");
    demand(fever_apply(LENT(run), FEVER_TICK, 0, 1, 0, LENT(tally), LENT(network)) == 0, "a tick to k slots");
    demand(run[FEVER_RUN_VIEWS + 3] == 2 && run[FEVER_RUN_HELD] == 16, "all enter view 2");
    demand(fever_apply(LENT(run), FEVER_DELIVER, FEVER_VIEW, 3, 0, LENT(tally), LENT(network)) == 11, "view 3 is not initial");
    demand(fever_step(4, 2, 8, VIEWS, 2, LENT(processor), FEVER_INPUT_TICK, 0) == 0, "one processor ticks to k slots");
    demand(processor[FEVER_PROCESSOR_VIEW] == 2 && processor[FEVER_PROCESSOR_SENDS] == FEVER_SENDS_VIEW_AND_VOTE, "and enters it");
    demand(fever_step(4, 2, 7, VIEWS, 2, LENT(processor), FEVER_INPUT_TICK, 0) == 9, "a slot too short for two views");
    run[FEVER_RUN_K] = 0;
    demand(fever_apply(LENT(run), FEVER_TICK, 0, 1, 0, LENT(tally), LENT(network)) == 9, "a run without views per leader");
}

/* Whether a line has no form. */
static int is_no_form(const char *line)
{
    return fever_read_line((const uint8_t *)line, strlen(line), LENT(reading)) == 1;
}

/* An opening's line without k is read as one with three; one with a number more or less is none. */
static void read_turns(void)
{
    uint64_t without[FEVER_READING_WORDS];
    read_line(schedule[0]);
    memcpy(without, reading, sizeof(reading));
    read_line(OPENING);
    demand(memcmp(without, reading, sizeof(reading)) == 0, "without k, three views per leader");
    demand(reading[FEVER_READING_SETUP + FEVER_SETUP_K] == FEVER_VIEWS_PER_LEADER, "three views per leader");
    demand(is_no_form("(open 4 2 4 6 (0 0 0 0))"), "four numbers are too few");
    demand(is_no_form("(open 4 2 4 6 3 0 0 (0 0 0 0))"), "seven numbers are too many");
}

static void take_turns(void)
{
    limit_turns();
    turn();
    read_turns();
}

#endif
