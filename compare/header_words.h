/*
 * What the calls from C share: document 01's schedule, the words lent for it, and reading and doing a line.
 */
#ifndef HEADER_WORDS_H
#define HEADER_WORDS_H

#include "fever.h"

#include <stdio.h>
#include <string.h>

#define VIEWS 6
#define PER_LEADER FEVER_VIEWS_PER_LEADER
#define MESSAGES 16

#define COUNT(words) (sizeof(words) / sizeof((words)[0]))
#define LENT(words) (words), COUNT(words)

/* The schedule's opening as it is written: with the views per leader, which document 01's line does not say. */
#define OPENING "(open 4 2 4 6 3 0 (0 0 0 0))"

static const char *const schedule[] = {"(open 4 2 4 6 0 (0 0 0 0))", "(deliver (view 0 0))", "(deliver (view 0 1))",
                                       "(tick 3)",                   "(settle)",             "(tick 3)"};

static uint64_t run[FEVER_RUN_WORDS];
static uint64_t tally[VIEWS * FEVER_TALLY_ROW_WORDS];
static uint64_t network[MESSAGES * FEVER_NETWORK_MESSAGE_WORDS];
static uint64_t reading[FEVER_READING_WORDS];

static int wrong;

/* Says what is not as it should be, if it is not. */
static void demand(int holds, const char *what)
{
    if (!holds) {
        printf("not so: %s\n", what);
        wrong = 1;
    }
}

/* Reads a line, which has a form. */
static void read_line(const char *line)
{
    demand(fever_read_line((const uint8_t *)line, strlen(line), LENT(reading)) == 0, "the line is read");
}

/* Does what the line that was read says. Answers the check, 0 for none. */
static uint64_t apply(void)
{
    if (reading[FEVER_READING_FORM] == FEVER_OPEN) {
        return fever_open(reading + FEVER_READING_SETUP, FEVER_SETUP_WORDS, LENT(run), LENT(tally), LENT(network));
    }
    return fever_apply(LENT(run), reading[FEVER_READING_FORM], reading[FEVER_READING_KIND], reading[FEVER_READING_VIEW],
                       reading[FEVER_READING_PROCESSOR], LENT(tally), LENT(network));
}

#endif
