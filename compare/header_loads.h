/*
 * A load of the printed schedule's setup from C: in one piece, in two, and line by line.
 */
#ifndef HEADER_LOADS_H
#define HEADER_LOADS_H

#include "header_words.h"

#define STEPS 12
#define ROOM 512

/* A load and what it leaves. */
struct made {
    uint64_t run[FEVER_RUN_WORDS];
    uint64_t tally[VIEWS * FEVER_TALLY_ROW_WORDS];
    uint64_t network[MESSAGES * FEVER_NETWORK_MESSAGE_WORDS];
    uint64_t load[FEVER_LOAD_WORDS];
    uint8_t out[ROOM];
};

/* Begins a load of the setup that was read last, in so many bytes. */
static uint64_t generate(struct made *made, size_t load_len, size_t room)
{
    return fever_generate(reading + FEVER_READING_SETUP, FEVER_SETUP_WORDS, LENT(made->run), LENT(made->tally),
                          LENT(made->network), made->load, load_len, made->out, room);
}

/* Goes on with it behind so many bytes. */
static uint64_t generate_more(struct made *made, size_t written)
{
    return fever_generate_more(LENT(made->run), LENT(made->tally), LENT(made->network), LENT(made->load), made->out + written,
                               ROOM - written);
}

/* A load that has not begun; bytes and words that are not zero show what is written. */
static void prepare(struct made *made)
{
    memset(made, 0x78, sizeof(*made));
    made->load[FEVER_LOAD_STEPS] = STEPS;
    made->load[FEVER_LOAD_SETTLE] = 1;
    made->load[FEVER_LOAD_SEED] = 1;
}

/* Whether the lines of a load, done one by one, leave the run and the buffers that it left. */
static void replay(const struct made *made)
{
    const char *line = (const char *)made->out;
    const char *end = line + made->load[FEVER_LOAD_BYTES];
    while (line < end) {
        const char *newline = memchr(line, '\n', (size_t)(end - line));
        demand(newline != NULL, "whole lines only");
        if (newline == NULL) {
            return;
        }
        demand(fever_read_line((const uint8_t *)line, (size_t)(newline - line), LENT(reading)) == 0, "a load's line is read");
        demand(apply() == 0, "a load's line is accepted");
        line = newline + 1;
    }
    demand(memcmp(made->run, run, sizeof(run)) == 0 && memcmp(made->tally, tally, sizeof(tally)) == 0 &&
               memcmp(made->network, network, sizeof(network)) == 0,
           "a load leads where its lines lead");
}

/* A load in one piece and in two; the first draws of seed 1 deliver the fourth message and then the sixth. */
static void generate_loads(void)
{
    static const char first[] = OPENING "\n(deliver (vote 0 1))\n(settle)\n(deliver (view 0 3))\n";
    static struct made whole, pieces, kept;
    uint64_t bytes;
    read_line(schedule[0]);
    prepare(&whole);
    demand(generate(&whole, FEVER_LOAD_WORDS, ROOM) == 0, "a load is made");
    bytes = whole.load[FEVER_LOAD_BYTES];
    demand(whole.load[FEVER_LOAD_STEP] == STEPS && whole.load[FEVER_LOAD_FULL] == 0, "all steps are done");
    demand(memcmp(whole.out, first, sizeof(first) - 1) == 0, "the first lines of seed 1");
    demand(bytes > sizeof(first) && bytes < ROOM && whole.out[bytes] == 'x', "nothing behind the load");
    prepare(&pieces);
    kept = pieces;
    demand(generate(&pieces, FEVER_LOAD_WORDS - 1, ROOM) == 1, "5 words are too few for a load");
    demand(memcmp(&pieces, &kept, sizeof(kept)) == 0, "a refused load leaves every word");
    demand(generate(&pieces, FEVER_LOAD_WORDS, strlen(OPENING)) == 0, "no room for the newline");
    demand(pieces.load[FEVER_LOAD_BYTES] == 0 && pieces.load[FEVER_LOAD_FULL] == 1, "nothing is written");
    demand(memcmp(pieces.run, kept.run, sizeof(kept.run)) == 0, "nothing is opened");
    demand(generate(&pieces, FEVER_LOAD_WORDS, strlen(first) - 1) == 0 && pieces.load[FEVER_LOAD_FULL] == 1, "a first piece");
    demand(pieces.load[FEVER_LOAD_STEP] == 1, "one step is done");
    bytes = pieces.load[FEVER_LOAD_BYTES];
    pieces.run[FEVER_RUN_SETTLED] = 2;
    demand(generate_more(&pieces, (size_t)bytes) == 9, "no run to go on with");
    pieces.run[FEVER_RUN_SETTLED] = 1;
    demand(generate_more(&pieces, (size_t)bytes) == 0, "the load goes on");
    demand(bytes + pieces.load[FEVER_LOAD_BYTES] == whole.load[FEVER_LOAD_BYTES], "as many bytes in two pieces");
    pieces.load[FEVER_LOAD_BYTES] += bytes;
    demand(memcmp(&pieces, &whole, sizeof(whole)) == 0, "two pieces are one");
    replay(&whole);
}

#endif
