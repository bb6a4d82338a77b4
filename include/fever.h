/*
 * The Fever pacemaker and its simulator, for C.
 *
 * Link with target/staticlib/libfever.a, which `./fever library` proves and writes (x86-64 Linux).
 *
 * Numbers are 64-bit. Memory is lent as a pointer and how many elements there are; nothing is kept between calls and nothing is
 * allocated. The caller sees to this: each pointer is aligned for its elements and points to as many initialised ones as its length
 * says, and is not NULL even where the length is 0; no two of the parts lent to one call overlap, unless the call only reads both;
 * and nobody else writes any of them meanwhile. Beyond that every function takes any words, any lengths and any numbers.
 *
 * Open, apply, step, read, generate, traffic, pack and unpack answer a check's number where they refuse; `fever_write_event` and
 * `fever_write_setup` answer 0 for check 1, the only one that they make; and a call that refuses has changed nothing that was lent. A
 * run of ticks that is stopped answers the check that ended it, and the ticks before are done. Events applied together are answered
 * each in its own words, refused or not; that call itself refuses only where the words lent are those of no run. The contracts are in
 * crates/fever/specs: those for loads in Loads.antt, that of traffic in Traffic.antt, those of carrying over in Carrying.antt, the
 * others in Clauses.antt, the layouts in Layout.antt, and what is promised of calls in a row and of what they answer in Promises.antt.
 *
 * The checks: 1 no such form, or too few elements lent; 2 to 8 refuse an opening; 9 to 18 an event; one processor uses 9, 10, 11 and
 * 17, a report of traffic 1 and 9, carrying a run over 1, 6 and 9. The README lists them.
 */
#ifndef FEVER_H
#define FEVER_H

#include <stddef.h>
#include <stdint.h>

#ifdef __cplusplus
extern "C" {
#endif

/* ---- a run: the execution so far, without the two lent buffers */

#define FEVER_RUN_WORDS 147
#define FEVER_RUN_N 0           /* n, the processors */
#define FEVER_RUN_DELTA 1       /* the delay */
#define FEVER_RUN_GAMMA 2       /* the slot */
#define FEVER_RUN_LIMIT 3       /* V, the view limit */
#define FEVER_RUN_K 4           /* k, the views per leader */
#define FEVER_RUN_FAULTY 5      /* the faulty processors, bit p for processor p */
#define FEVER_RUN_TIME 6        /* the ticks since the opening */
#define FEVER_RUN_SETTLED 7     /* 1 once the network has settled, else 0 */
#define FEVER_RUN_GST 8         /* when it settled, else 0 */
#define FEVER_RUN_HELD 9        /* the messages in the network */
#define FEVER_RUN_CLOCKS 10     /* 64 clocks, by processor */
#define FEVER_RUN_VIEWS 74      /* 64 views, by processor */
#define FEVER_RUN_SENT 138      /* four words, by kind from 1 to 4: the messages posted since the opening */
#define FEVER_RUN_DELIVERED 142 /* four words, by kind: those delivered */
#define FEVER_RUN_WAITS 146     /* the sum of the times that these were in flight */

/* ---- a setup: what a run is opened with */

#define FEVER_SETUP_WORDS 70
#define FEVER_SETUP_N 0
#define FEVER_SETUP_DELTA 1
#define FEVER_SETUP_GAMMA 2
#define FEVER_SETUP_LIMIT 3
#define FEVER_SETUP_K 4      /* 2 to 8: V is a multiple of k, start clocks are below k slots, and a slot has two delays, for k = 2 four */
#define FEVER_SETUP_FAULTY 5
#define FEVER_SETUP_CLOCKS 6 /* 64 start clocks; those of faulty processors and from n on are not read */

#define FEVER_VIEWS_PER_LEADER 3 /* k in the line of a setup that does not say it */

/* ---- the two lent buffers
 *
 * The tally has four words a view: the correct processors that entered it, those whose view message its leader heard, those whose
 * vote it heard, and two marks (1 view certificate formed, 2 quorum certificate formed). It needs 4V words.
 * The network has two words a message in flight: view * 512 + (kind - 1) * 64 + processor, and then the sending time. It needs 4n words
 * and may have 524,288. Which of its words are messages is told by run[FEVER_RUN_HELD] alone: 0, 0 is one, the view message of
 * processor 0 for view 0 sent at 0. Words beyond the last message are 0, an odd one at the end too.
 *
 * The wide form of a network has four words a message: kind, view, processor, sending time; and 8n words or more. Such a network lent
 * by mistake is not told apart for certain, since its words may be those of other messages: carry it over first, by `fever_pack`.
 */

#define FEVER_TALLY_ROW_WORDS 4
#define FEVER_NETWORK_MESSAGE_WORDS 2
#define FEVER_NETWORK_WIDE_WORDS 4 /* the words of a message in the wide form */
#define FEVER_NETWORK_MOST 524288

/* ---- an event: four numbers */

/* its form */
#define FEVER_DELIVER 1 /* a message leaves the network and is handled */
#define FEVER_SIGN 2    /* a faulty processor's view message or vote reaches the leader */
#define FEVER_SHOW 3    /* the adversary shows a certificate to a correct processor */
#define FEVER_SETTLE 4  /* from now on the network keeps its delay; kind, view and processor are not read */
#define FEVER_TICK 5    /* ticks, as many as `view` says; kind and processor are not read */
#define FEVER_OPEN 6    /* no event: what `fever_read_line` answers for the line of a setup */

/* the kind of its message; the processor is the sender of the first two, the receiver of the others */
#define FEVER_VIEW 1 /* a view message */
#define FEVER_VOTE 2 /* a vote */
#define FEVER_VC 3   /* a view certificate */
#define FEVER_QC 4   /* a quorum certificate */

/*
 * Opens a run. Answers 0, or the check that refuses: 1 where the setup has fewer than 70 words or the run fewer than 147, else 2
 * to 8. Opened: the run's 147 words are the new run's, the first 4V words of the tally and the whole network are set anew. Refused:
 * nothing has changed. The run at hand is not judged: its words may hold anything.
 */
uint64_t fever_open(const uint64_t *setup, size_t setup_len, uint64_t *run, size_t run_len, uint64_t *tally, size_t tally_len,
                    uint64_t *network, size_t network_len);

/*
 * Applies an event. Answers 0 where it was done, else a check: 1 where the run has fewer than 147 words, the four numbers are no
 * event, there are 0 ticks or the form lacks the kind; 9 where the run is unsound, a settled word above 1 among it; or 10 to 18.
 *
 * Ticks may be stopped after some of them were done: the answer is then the check that the next tick would meet, and the run has
 * moved. The ticks done are the time gained, run[FEVER_RUN_TIME] after the call less before it; the messages held are
 * run[FEVER_RUN_HELD]. So an answer other than 0 with the time as it was is a refusal, and nothing that was lent has changed.
 */
uint64_t fever_apply(uint64_t *run, size_t run_len, uint64_t form, uint64_t kind, uint64_t view, uint64_t processor,
                     uint64_t *tally, size_t tally_len, uint64_t *network, size_t network_len);

/* ---- events applied together: four words each */

#define FEVER_EVENT_WORDS 4
#define FEVER_EVENT_FORM 0
#define FEVER_EVENT_KIND 1
#define FEVER_EVENT_VIEW 2
#define FEVER_EVENT_PROCESSOR 3

/* its answer, which takes their place */
#define FEVER_ANSWER_FORM 0  /* the event's form, as it stood */
#define FEVER_ANSWER_CHECK 1 /* 0 where the event was done, else the check that refused it or ended its ticks */
#define FEVER_ANSWER_TICKS 2 /* the ticks done, 0 for anything but ticks */
#define FEVER_ANSWER_HELD 3  /* the messages in the network after it */

/*
 * Applies events one after the other, refused ones among them, and puts the answer to each in the place of its four words. Run,
 * tally and network are left as by a call of `fever_apply` for each event, and an answer is the check that such a call answers, the
 * time that it gains and run[FEVER_RUN_HELD] after it; four words that are no event answer check 1, 0 ticks and the messages held.
 * Up to three words behind the last whole event stay as they are. Whether the run is sound is looked at in full once a call, so
 * events together cost less than one by one.
 *
 * Answers 0; or 1 where the run has fewer than 147 words, 9 where the settled word is above 1, and nothing that was lent has
 * changed, the words of the events included.
 */
uint64_t fever_apply_all(uint64_t *run, size_t run_len, uint64_t *tally, size_t tally_len, uint64_t *network, size_t network_len,
                         uint64_t *events, size_t events_len);

/* ---- one processor */

#define FEVER_PROCESSOR_WORDS 4
#define FEVER_PROCESSOR_NUMBER 0
#define FEVER_PROCESSOR_CLOCK 1
#define FEVER_PROCESSOR_VIEW 2
#define FEVER_PROCESSOR_SENDS 3 /* written by an accepted step, never read: how many messages the processor sends */

/* what it sends, for the view that then stands in FEVER_PROCESSOR_VIEW */
#define FEVER_SENDS_NOTHING 0
#define FEVER_SENDS_VOTE 1          /* its vote */
#define FEVER_SENDS_VIEW_AND_VOTE 2 /* its view message and then its vote */

/* its input */
#define FEVER_INPUT_TICK 0 /* its clock ticks; the view is not read */
#define FEVER_INPUT_VC 3   /* it receives a view certificate for the view */
#define FEVER_INPUT_QC 4   /* it receives a quorum certificate for the view */

/*
 * Moves one processor: its record is lent and altered there. Answers 0, or the check that refuses: 1 where the record has fewer
 * than 4 words or the input is none of the three, else 9, 10, 11 or 17. `views` is the view limit, `k` the views per leader. Which
 * processors are faulty is not known here: what it sends is for a leader faulty or not.
 */
uint64_t fever_step(uint64_t n, uint64_t delta, uint64_t gamma, uint64_t views, uint64_t k, uint64_t *processor,
                    size_t processor_len, uint64_t input, uint64_t view);

/* ---- lines */

#define FEVER_LINE_BYTES 1461 /* no line of an event or a setup has more bytes, its newline included */

#define FEVER_READING_WORDS 74
#define FEVER_READING_FORM 0      /* 1 to 5 an event, 6 an opening */
#define FEVER_READING_KIND 1      /* 0 where the form has none, and so for the next two */
#define FEVER_READING_VIEW 2      /* of a tick: how many */
#define FEVER_READING_PROCESSOR 3
#define FEVER_READING_SETUP 4     /* the 70 words of an opening's setup, clocks from n on being 0; all 0 for an event */

/*
 * Reads a line, handed in without its newline. Answers 0, and the line stands in the first 74 words; or 1 where it is none of the
 * forms or fewer than 74 words are lent, and nothing has changed. The line of a setup without k is read as one with 3 views per leader.
 */
uint64_t fever_read_line(const uint8_t *line, size_t line_len, uint64_t *words, size_t words_len);

/*
 * Writes the line of an event, newline included. Answers the bytes written; or 0 where the four numbers are no event, the event
 * has no form or the bytes lent are too few, and no byte has changed. Bytes behind the newline are untouched.
 */
uint64_t fever_write_event(uint64_t form, uint64_t kind, uint64_t view, uint64_t processor, uint8_t *out, size_t out_len);

/*
 * Writes the line of a setup, newline included, with k and its first n clocks. Answers the bytes written; or 0 where the setup has fewer
 * than 70 words, n is 0 or above 64, or the bytes lent are too few, and no byte has changed. Bytes behind the newline are
 * untouched.
 */
uint64_t fever_write_setup(const uint64_t *setup, size_t setup_len, uint8_t *out, size_t out_len);

/* ---- loads: schedules out of a seed number */

/* what a load is made with, and where it stands */
#define FEVER_LOAD_WORDS 6
#define FEVER_LOAD_STEPS 0  /* how many steps it has */
#define FEVER_LOAD_SETTLE 1 /* the step, from 0, before which it settles; none where that is not below the steps */
#define FEVER_LOAD_SEED 2   /* the seed, and then the one that the next draw starts from */
#define FEVER_LOAD_STEP 3   /* the next step */
#define FEVER_LOAD_BYTES 4  /* the bytes that the call has written */
#define FEVER_LOAD_FULL 5   /* 1 where the lent bytes were too few for the next line, 0 where the load has ended */

/*
 * Opens a run, as `fever_open` does, moves it by events that the seed chooses, and writes the line of the setup and of each event, whole
 * lines only. Of the load its steps, settling step and seed are read; its seed, step, bytes and full are written. Run, tally and network are
 * left as by the lines that were written: reading them in turn, with buffers as long, refuses none and leads to the same run. Bytes behind
 * the last newline are untouched. Where the bytes are too few for the first line, the run is not opened: no byte is written, the load is
 * full, and a load begins anew by this call, with more of them.
 *
 * Answers 0; or 1 where the setup has fewer than 70 words, the run fewer than 147 or the load fewer than 6, else the check, 2 to 8, that
 * refuses the opening; and then nothing that was lent has changed.
 */
uint64_t fever_generate(const uint64_t *setup, size_t setup_len, uint64_t *run, size_t run_len, uint64_t *tally, size_t tally_len,
                        uint64_t *network, size_t network_len, uint64_t *load, size_t load_len, uint8_t *out, size_t out_len);

/*
 * Goes on with a load that is full and whose opening was written, with other bytes or the same: by its steps, settling step, seed and
 * step. The lines of the calls in turn are those of one call with bytes enough. Bytes are asked for before an event is tried, so the
 * line that had no room may turn out to be that of an event that a check refuses; and 1,461 bytes hold every line: a call that is
 * lent as many and writes none has ended the load.
 *
 * Answers 0; or 1 where the run has fewer than 147 words or the load fewer than 6; 9 where the run is unsound but for its time, a settled
 * word above 1 among it; and then nothing that was lent has changed.
 */
uint64_t fever_generate_more(uint64_t *run, size_t run_len, uint64_t *tally, size_t tally_len, uint64_t *network, size_t network_len,
                             uint64_t *load, size_t load_len, uint8_t *out, size_t out_len);

/* ---- traffic: how much the processors of a run have sent, and how much of it has arrived */

/* a word for each kind: view messages, votes, view certificates, quorum certificates */
#define FEVER_TRAFFIC_WORDS 13
#define FEVER_TRAFFIC_SENT 0      /* posted since the opening; messages to faulty processors are not */
#define FEVER_TRAFFIC_DELIVERED 4 /* delivered since the opening */
#define FEVER_TRAFFIC_HELD 8      /* in the network now, counted there */
#define FEVER_TRAFFIC_WAITS 12    /* one word: the sum of delivery less sending time over the delivered ones */

/*
 * Tells the traffic of a run. Of a run that was opened here and moved by events only, sent is delivered plus held, kind by kind, and no
 * sum has wrapped. In a run handed in the sums, words 138 to 146, may hold anything: no check looks at them, and they wrap at 2^64.
 *
 * Answers 0, and the first 13 words are set; or 1 where the run has fewer than 147 words or fewer than 13 are lent for the report, 9
 * where the run is unsound, a settled word above 1 among it; and then no word has changed.
 */
uint64_t fever_traffic(const uint64_t *run, size_t run_len, const uint64_t *tally, size_t tally_len, const uint64_t *network,
                       size_t network_len, uint64_t *report, size_t report_len);

/* ---- held runs carried over, from networks of four words a message and back */

/*
 * Carries a run over from a network of four words a message to one of two, the target: it then holds the same messages in the same
 * order, and zeros behind them, whatever it held before. Run, tally and network are only read, and may overlap each other, but not the
 * target. The run and its tally go on with the target in the network's place; `fever_unpack` leads back to the same words, into a target
 * as long as the network was.
 *
 * Answers 0; or 1 where the run has fewer than 147 words; 6 where the target has fewer than 4n words, n being what the run says, more
 * than 524,288, or too few for the messages that the run says are held; 9 where the run is unsound, a settled word above 1 among it, as
 * one with a network of four words a message, which needs 8n words; and then no word has changed.
 */
uint64_t fever_pack(const uint64_t *run, size_t run_len, const uint64_t *tally, size_t tally_len, const uint64_t *network,
                    size_t network_len, uint64_t *target, size_t target_len);

/*
 * Carries a run over from a network of two words a message to one of four, the target, as `fever_pack` does the other way. No other
 * call takes such a network. Answers as `fever_pack`, but that the target needs 8n words and the network 4n. A run that holds more than
 * 131,072 messages has no target: the answer is 6.
 */
uint64_t fever_unpack(const uint64_t *run, size_t run_len, const uint64_t *tally, size_t tally_len, const uint64_t *network,
                      size_t network_len, uint64_t *target, size_t target_len);

#ifdef __cplusplus
}
#endif

#endif
