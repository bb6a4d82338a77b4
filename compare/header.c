/*
 * Document 01's printed schedule from C: each line is read, written again, and done by the exported functions as include/fever.h
 * declares them; the report of its traffic; in header_carry.h its run carried over to a network of four words a message and back; in
 * header_loads.h a load of its setup; and in header_turns.h what follows the views per leader. Prints what it got; ends with 1 where
 * that is not what the document prints, where a report or a load is not that of its lines, where carrying over loses something, or
 * where a refusal changed something.
 */
#include "header_carry.h"
#include "header_loads.h"
#include "header_turns.h"
#include "header_words.h"

#include <inttypes.h>
#include <stdarg.h>

static const char expected[] = "(done 0 8)\n(done 0 7)\n(done 0 10)\n(done 3 10)\n(done 0 10)\n(stopped 2 10 16)\n"
                               "(cabinet 0 0 5)\n(cabinet 1 0 5)\n(cabinet 2 0 5)\n(cabinet 3 0 5)\n";

static char printed[1024];

/* Adds to what is printed. */
static void print(const char *form, ...)
{
    size_t used = strlen(printed);
    va_list numbers;
    va_start(numbers, form);
    vsnprintf(printed + used, sizeof(printed) - used, form, numbers);
    va_end(numbers);
}

/* Whether the line that was read is written as it stood, an opening with k, in just the bytes that it needs and in no fewer. */
static void write_again(const char *line)
{
    uint8_t out[FEVER_LINE_BYTES];
    size_t needed = strlen(line) + 1;
    int fewer;
    for (fewer = 0; fewer < 2; fewer++) {
        size_t lent = needed - (size_t)fewer;
        uint64_t written;
        memset(out, 'x', sizeof(out));
        if (reading[FEVER_READING_FORM] == FEVER_OPEN) {
            written = fever_write_setup(reading + FEVER_READING_SETUP, FEVER_SETUP_WORDS, out, lent);
        } else {
            written = fever_write_event(reading[FEVER_READING_FORM], reading[FEVER_READING_KIND], reading[FEVER_READING_VIEW],
                                        reading[FEVER_READING_PROCESSOR], out, lent);
        }
        if (fewer) {
            demand(written == 0 && out[0] == 'x', "a byte too few is refused");
        } else {
            demand(written == needed && memcmp(out, line, needed - 1) == 0 && out[needed - 1] == '\n', "the same line");
            demand(out[needed] == 'x', "nothing behind the newline");
        }
    }
}

/* Reads a line and does what it says. */
static void answer(const char *line)
{
    uint64_t before = run[FEVER_RUN_TIME];
    uint64_t check;
    uint64_t ticks;
    read_line(line);
    write_again(line == schedule[0] ? OPENING : line);
    check = apply();
    ticks = run[FEVER_RUN_TIME] - before;
    if (check == 0) {
        print("(done %" PRIu64 " %" PRIu64 ")\n", ticks, run[FEVER_RUN_HELD]);
    } else if (ticks > 0) {
        print("(stopped %" PRIu64 " %" PRIu64 " %" PRIu64 ")\n", ticks, run[FEVER_RUN_HELD], check);
    } else {
        print("(refused %" PRIu64 ")\n", check);
    }
}

/* A refused event leaves every word; a run that lacks a word is refused by 1, one that was never opened by 9. */
static void refuse(void)
{
    uint64_t words[FEVER_RUN_WORDS];
    uint64_t unopened[FEVER_RUN_WORDS] = {0};
    memcpy(words, run, sizeof(run));
    demand(fever_apply(LENT(run), FEVER_SETTLE, 0, 0, 0, LENT(tally), LENT(network)) != 0, "settling twice is refused");
    demand(fever_apply(run, COUNT(run) - 1, FEVER_TICK, 0, 1, 0, LENT(tally), LENT(network)) == 1, "146 words are too few");
    demand(memcmp(words, run, sizeof(run)) == 0, "a refused event leaves the run");
    demand(fever_apply(LENT(unopened), FEVER_TICK, 0, 1, 0, LENT(tally), LENT(network)) == 9, "no run is open");
    demand(fever_read_line((const uint8_t *)"(tick 0)", 8, LENT(reading)) == 1, "0 ticks are no form");
}

/* The schedule's events in one call: answered as one by one, and what they leave is the same. A word behind them stays. */
static void apply_all(void)
{
    static const uint64_t answers[] = {FEVER_DELIVER, 0, 0, 7,  FEVER_DELIVER, 0,  0, 10, FEVER_TICK, 0, 3, 10,
                                       FEVER_SETTLE,  0, 0, 10, FEVER_TICK,    16, 2, 10, 77};
    uint64_t other_run[COUNT(run)];
    uint64_t other_tally[COUNT(tally)];
    uint64_t other_network[COUNT(network)];
    uint64_t events[COUNT(answers)];
    size_t line;
    events[COUNT(events) - 1] = 77;
    for (line = 1; line < COUNT(schedule); line++) {
        read_line(schedule[line]);
        memcpy(events + (line - 1) * FEVER_EVENT_WORDS, reading, FEVER_EVENT_WORDS * sizeof(reading[0]));
    }
    read_line(schedule[0]);
    demand(fever_open(reading + FEVER_READING_SETUP, FEVER_SETUP_WORDS, LENT(other_run), LENT(other_tally),
                      LENT(other_network)) == 0,
           "the same opening");
    demand(fever_apply_all(LENT(other_run), LENT(other_tally), LENT(other_network), LENT(events)) == 0, "applied together");
    demand(memcmp(events, answers, sizeof(answers)) == 0, "answers as one by one");
    demand(memcmp(other_run, run, sizeof(run)) == 0 && memcmp(other_tally, tally, sizeof(tally)) == 0 &&
               memcmp(other_network, network, sizeof(network)) == 0,
           "words as one by one");
}

/* Whether an answer is that to an event of this form which a check refused: no tick, and the messages as they are. */
static int refused(const uint64_t *answer, uint64_t form, uint64_t check)
{
    return answer[FEVER_ANSWER_FORM] == form && answer[FEVER_ANSWER_CHECK] == check && answer[FEVER_ANSWER_TICKS] == 0 &&
           answer[FEVER_ANSWER_HELD] == run[FEVER_RUN_HELD];
}

/* Events refused together leave every word of the run; calls refused whole, those of the events too. */
static void refuse_all(void)
{
    uint64_t words[FEVER_RUN_WORDS];
    uint64_t events[2 * FEVER_EVENT_WORDS] = {FEVER_SETTLE, 0, 0, 0};
    uint64_t kept[COUNT(events)];
    events[FEVER_EVENT_WORDS + FEVER_EVENT_FORM] = FEVER_OPEN;
    events[FEVER_EVENT_WORDS + FEVER_EVENT_KIND] = FEVER_QC;
    events[FEVER_EVENT_WORDS + FEVER_EVENT_VIEW] = 8;
    events[FEVER_EVENT_WORDS + FEVER_EVENT_PROCESSOR] = 9;
    memcpy(words, run, sizeof(run));
    memcpy(kept, events, sizeof(events));
    demand(fever_apply_all(run, COUNT(run) - 1, LENT(tally), LENT(network), LENT(events)) == 1, "146 words are too few for all");
    run[FEVER_RUN_SETTLED] = 2;
    demand(fever_apply_all(LENT(run), LENT(tally), LENT(network), LENT(events)) == 9, "a settled word of no run");
    run[FEVER_RUN_SETTLED] = words[FEVER_RUN_SETTLED];
    demand(memcmp(kept, events, sizeof(events)) == 0, "a refused call leaves the events");
    demand(fever_apply_all(LENT(run), LENT(tally), LENT(network), LENT(events)) == 0, "refused events are answered");
    demand(refused(events, FEVER_SETTLE, 15), "settling twice is refused among others");
    demand(refused(events + FEVER_EVENT_WORDS, FEVER_OPEN, 1), "an opening is no event");
    demand(memcmp(words, run, sizeof(run)) == 0, "refused events leave the run");
}

/* Reports the traffic of the schedule's run into so many words, with so many of the run's and of the tally's. */
static uint64_t traffic(size_t run_len, size_t tally_len, uint64_t *report, size_t report_len)
{
    return fever_traffic(run, run_len, tally, tally_len, LENT(network), report, report_len);
}

/* The report of the schedule's run, and its sums in the run's own words; a word behind it stays, and what refuses it leaves all. */
static void report(void)
{
    static const uint64_t counts[] = {4, 4, 4, 0, 2, 0, 0, 0, 2, 4, 4, 0, 0, 77};
    uint64_t words[COUNT(counts)];
    uint64_t kept[COUNT(counts)];
    size_t word;
    uint64_t settled = run[FEVER_RUN_SETTLED];
    for (word = 0; word < COUNT(words); word++) {
        words[word] = kept[word] = 77;
    }
    for (word = 0; word < FEVER_TRAFFIC_WORDS; word++) {
        demand(traffic(COUNT(run), COUNT(tally), words, word) == 1, "12 words are too few for a report");
    }
    demand(traffic(COUNT(run) - 1, COUNT(tally), LENT(words)) == 1, "146 words are too few of a run to report");
    demand(traffic(COUNT(run), COUNT(tally) - 1, LENT(words)) == 9, "a tally too short is reported unsound");
    run[FEVER_RUN_SETTLED] = 2;
    demand(traffic(COUNT(run), COUNT(tally), LENT(words)) == 9, "a settled word of no run is reported unsound");
    run[FEVER_RUN_SETTLED] = settled;
    demand(memcmp(words, kept, sizeof(words)) == 0, "a refused report leaves every word");
    demand(traffic(COUNT(run), COUNT(tally), LENT(words)) == 0, "the traffic is reported");
    demand(memcmp(words, counts, sizeof(words)) == 0, "the schedule's report");
    demand(memcmp(words + FEVER_TRAFFIC_SENT, run + FEVER_RUN_SENT, 4 * sizeof(words[0])) == 0 &&
               memcmp(words + FEVER_TRAFFIC_DELIVERED, run + FEVER_RUN_DELIVERED, 4 * sizeof(words[0])) == 0 &&
               words[FEVER_TRAFFIC_WAITS] == run[FEVER_RUN_WAITS],
           "the run's sums are reported");
    run[FEVER_RUN_DELIVERED + FEVER_VOTE - 1] = UINT64_MAX;
    demand(fever_apply(LENT(run), FEVER_DELIVER, FEVER_VOTE, 0, 2, LENT(tally), LENT(network)) == 0, "a vote is delivered");
    demand(traffic(COUNT(run), COUNT(tally), words, FEVER_TRAFFIC_WORDS) == 0, "its traffic is reported");
    demand(words[FEVER_TRAFFIC_DELIVERED + FEVER_VOTE - 1] == 0, "a sum wraps");
    demand(words[FEVER_TRAFFIC_HELD + FEVER_VOTE - 1] == 3 && words[FEVER_TRAFFIC_WAITS] == 5, "it was in flight for 5 ticks");
}

/* One processor: the quorum certificate for view 2 takes it to view 3, which is initial. */
static void step(void)
{
    uint64_t processor[FEVER_PROCESSOR_WORDS] = {0, 2, 0, 7};
    demand(fever_step(4, 2, 4, VIEWS, PER_LEADER, LENT(processor), FEVER_INPUT_QC, 2) == 0, "the step is done");
    demand(processor[FEVER_PROCESSOR_CLOCK] == 12 && processor[FEVER_PROCESSOR_VIEW] == 3 &&
               processor[FEVER_PROCESSOR_SENDS] == FEVER_SENDS_VIEW_AND_VOTE,
           "clock 12, view 3, a view message and a vote");
    demand(fever_step(4, 2, 4, VIEWS, PER_LEADER, LENT(processor), FEVER_INPUT_QC, VIEWS - 1) == 17, "no view is left");
}

int main(void)
{
    size_t line;
    uint64_t processor;
    for (line = 0; line < COUNT(schedule); line++) {
        answer(schedule[line]);
    }
    for (processor = 0; processor < run[FEVER_RUN_N]; processor++) {
        print("(cabinet %" PRIu64 " %" PRIu64 " %" PRIu64 ")\n", processor, run[FEVER_RUN_VIEWS + processor],
              run[FEVER_RUN_CLOCKS + processor]);
    }
    refuse();
    apply_all();
    refuse_all();
    carry_over();
    report();
    step();
    generate_loads();
    take_turns();
    demand(strcmp(printed, expected) == 0, "this is what document 01 prints");
    fputs(printed, stdout);
    return wrong;
}
