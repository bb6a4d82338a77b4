/*
 * The printed schedule's run from C, carried over to a network of four words a message and back.
 */
#ifndef HEADER_CARRY_H
#define HEADER_CARRY_H

#include "header_words.h"

/* The messages that the printed schedule leaves, all sent at 0: kind and processor. The view is 0. */
#define LEFT 10
static const uint64_t left[LEFT][2] = {
    {FEVER_VOTE, 0}, {FEVER_VOTE, 1}, {FEVER_VIEW, 2}, {FEVER_VOTE, 2}, {FEVER_VIEW, 3},
    {FEVER_VOTE, 3}, {FEVER_VC, 0},   {FEVER_VC, 1},   {FEVER_VC, 2},   {FEVER_VC, 3},
};

/* Words that show what is written. */
#define UNWRITTEN UINT64_C(0x7878787878787878)

static uint64_t wide[MESSAGES * FEVER_NETWORK_WIDE_WORDS + 3];
static uint64_t packed[COUNT(network)];

/* Fills words, so that what is written can be seen. */
static void blank(uint64_t *words, size_t words_len)
{
    size_t word;
    for (word = 0; word < words_len; word++) {
        words[word] = UNWRITTEN;
    }
}

/* Whether nothing was written. */
static int is_blank(const uint64_t *words, size_t words_len)
{
    size_t word;
    for (word = 0; word < words_len; word++) {
        if (words[word] != UNWRITTEN) {
            return 0;
        }
    }
    return 1;
}

/* Whether the words behind the messages are 0. */
static int is_empty(const uint64_t *words, size_t used, size_t words_len)
{
    for (; used < words_len; used++) {
        if (words[used] != 0) {
            return 0;
        }
    }
    return 1;
}

/* The messages as they stand in the network, and as they stand in four words each. */
static void look(void)
{
    size_t place;
    demand(FEVER_NETWORK_MESSAGE_WORDS == 2 && FEVER_NETWORK_WIDE_WORDS == 4, "two words a message, and four before");
    demand(run[FEVER_RUN_HELD] == LEFT, "ten messages are held");
    for (place = 0; place < LEFT; place++) {
        const uint64_t *two = network + place * FEVER_NETWORK_MESSAGE_WORDS;
        const uint64_t *four = wide + place * FEVER_NETWORK_WIDE_WORDS;
        demand(two[0] == (left[place][0] - 1) * 64 + left[place][1] && two[1] == 0, "a message in two words");
        demand(four[0] == left[place][0] && four[1] == 0 && four[2] == left[place][1] && four[3] == 0, "a message in four words");
    }
    demand(is_empty(network, LEFT * FEVER_NETWORK_MESSAGE_WORDS, COUNT(network)), "zeros behind the messages");
    demand(is_empty(wide, LEFT * FEVER_NETWORK_WIDE_WORDS, COUNT(wide)), "zeros behind four words a message");
}

/* What refuses a target or a run; nothing is written then. */
static void refuse_targets(void)
{
    size_t n = (size_t)run[FEVER_RUN_N];
    uint64_t settled = run[FEVER_RUN_SETTLED];
    blank(LENT(packed));
    demand(fever_pack(run, COUNT(run) - 1, LENT(tally), LENT(wide), LENT(packed)) == 1, "146 words are too few to pack");
    demand(fever_pack(LENT(run), LENT(tally), LENT(wide), packed, 4 * n - 1) == 6, "fewer than 4n words are no target");
    demand(fever_pack(LENT(run), LENT(tally), LENT(wide), packed, 2 * LEFT - 1) == 6, "ten messages have no room in 19 words");
    demand(fever_pack(LENT(run), tally, COUNT(tally) - 1, LENT(wide), LENT(packed)) == 9, "a tally too short to pack");
    demand(fever_pack(LENT(run), tally, COUNT(tally) - 1, LENT(wide), packed, 2 * LEFT - 1) == 6, "the target is asked first");
    wide[COUNT(wide) - 1] = 1;
    demand(fever_pack(LENT(run), LENT(tally), LENT(wide), LENT(packed)) == 9, "a word beyond the last message");
    wide[COUNT(wide) - 1] = 0;
    wide[0] = FEVER_QC + 1;
    demand(fever_pack(LENT(run), LENT(tally), LENT(wide), LENT(packed)) == 9, "no such kind");
    wide[0] = FEVER_VOTE;
    run[FEVER_RUN_SETTLED] = 2;
    demand(fever_pack(LENT(run), LENT(tally), LENT(wide), LENT(packed)) == 9, "a settled word of no run is not packed");
    run[FEVER_RUN_SETTLED] = settled;
    demand(is_blank(LENT(packed)), "a refused target is left");
}

/* As many for the other way. */
static void refuse_wide_targets(void)
{
    size_t n = (size_t)run[FEVER_RUN_N];
    blank(LENT(wide));
    demand(fever_unpack(run, COUNT(run) - 1, LENT(tally), LENT(network), LENT(wide)) == 1, "146 words are too few to unpack");
    demand(fever_unpack(LENT(run), LENT(tally), LENT(network), wide, 8 * n - 1) == 6, "fewer than 8n words are no target");
    demand(fever_unpack(LENT(run), LENT(tally), LENT(network), wide, 4 * LEFT - 1) == 6, "ten messages have no room in 39 words");
    network[0] += 4 * 64;
    demand(fever_unpack(LENT(run), LENT(tally), LENT(network), LENT(wide)) == 9, "kind 6 is of no message");
    network[0] -= 4 * 64;
    demand(is_blank(LENT(wide)), "a refused target of four words a message is left");
}

/* There and back, from the run that the printed schedule leaves. */
static void carry_over(void)
{
    refuse_wide_targets();
    demand(fever_unpack(LENT(run), LENT(tally), LENT(network), LENT(wide)) == 0, "the run is unpacked");
    look();
    refuse_targets();
    demand(fever_pack(LENT(run), LENT(tally), LENT(wide), LENT(packed)) == 0, "the run is packed");
    demand(memcmp(packed, network, sizeof(network)) == 0, "there and back are the same words");
    demand(fever_pack(LENT(run), LENT(tally), LENT(wide), packed, 2 * LEFT) == 0, "ten messages fill 20 words");
    demand(memcmp(packed, network, sizeof(network)) == 0, "words behind the target are left");
}

#endif
