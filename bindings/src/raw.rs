//! The functions of the archive over plain slices and numbers, with the layouts of `include/fever.h`. Each takes any slices and
//! numbers.

/// The words of a run; words behind them are never touched.
pub const RUN_WORDS: usize = 147;
/// The words of a plan, which a run and a setup begin with: n, Δ, Γ, V and k.
pub const PLAN_WORDS: usize = 5;
/// Where a run has its faulty processors, bit p for processor p.
pub const RUN_FAULTY: usize = 5;
/// Where a run has the ticks since the opening.
pub const RUN_TIME: usize = 6;
/// Where a run has 1 once the network has settled, else 0.
pub const RUN_SETTLED: usize = 7;
/// Where a run has when it settled, else 0.
pub const RUN_GST: usize = 8;
/// Where a run has how many messages are in the network.
pub const RUN_HELD: usize = 9;
/// Where a run has its 64 clocks, by processor.
pub const RUN_CLOCKS: usize = 10;
/// Where a run has its 64 views, by processor.
pub const RUN_VIEWS: usize = 74;
/// Where a run has how many messages were posted since the opening: four words, by kind from 1 to 4.
pub const RUN_SENT: usize = 138;
/// Where a run has how many were delivered: four words, by kind.
pub const RUN_DELIVERED: usize = 142;
/// Where a run has the sum of the times that these were in flight.
pub const RUN_WAITS: usize = 146;
/// The words of a setup.
pub const SETUP_WORDS: usize = 70;
/// Where a setup has its faulty processors, bit p for processor p.
pub const SETUP_FAULTY: usize = 5;
/// Where a setup has its 64 start clocks.
pub const SETUP_CLOCKS: usize = 6;
/// The words of an event in a list, and of the answer that takes their place.
pub const EVENT_WORDS: usize = 4;
/// The words of one processor's record.
pub const PROCESSOR_WORDS: usize = 4;
/// The words that a line is read into.
pub const READING_WORDS: usize = 74;
/// The words of a load: steps, settling step, seed, the next step, bytes written, whether the bytes were too few.
pub const LOAD_WORDS: usize = 6;
/// The words of a report of a run's traffic: messages sent, delivered and held, four by kind each, and the sum of waits.
pub const TRAFFIC_WORDS: usize = 13;
/// Where a report has the messages posted since the opening, by kind.
pub const TRAFFIC_SENT: usize = 0;
/// Where a report has those delivered, by kind.
pub const TRAFFIC_DELIVERED: usize = 4;
/// Where a report has those in the network now, by kind.
pub const TRAFFIC_HELD: usize = 8;
/// Where a report has the sum of waits.
pub const TRAFFIC_WAITS: usize = 12;
/// The words of a message in the network: view × 512 + (kind − 1) × 64 + processor, and the sending time.
pub const MESSAGE_WORDS: usize = 2;
/// The words of a message in the wide form: kind, view, processor, sending time.
pub const WIDE_WORDS: usize = 4;
/// The kinds of messages: a word for each of them.
pub const KINDS: usize = 4;
/// The clocks or views of a table.
pub const TABLE: usize = 64;
/// No line of an event or a setup has more bytes, its newline included.
pub const LINE_BYTES: usize = 1461;

mod archive;

/// `fever_open`: 0, or the check that refuses the setup.
pub fn open(setup: &[u64], run: &mut [u64], tally: &mut [u64], network: &mut [u64]) -> u64 {
    // SAFETY: each pointer and length are those of a slice that is borrowed through the call, so that nobody else writes it
    // meanwhile; a `&mut` slice overlaps no other, so that two parts overlap only where the call reads both and writes neither; an
    // empty slice's pointer is aligned and not null, and is not followed; the function stays within the lengths and keeps no pointer.
    unsafe {
        archive::fever_open(
            setup.as_ptr(),
            setup.len(),
            run.as_mut_ptr(),
            run.len(),
            tally.as_mut_ptr(),
            tally.len(),
            network.as_mut_ptr(),
            network.len(),
        )
    }
}

/// `fever_apply`: 0, or the check that refused the event or ended its ticks. Ticks done are the time gained, run word 6.
pub fn apply(
    run: &mut [u64],
    form: u64,
    kind: u64,
    view: u64,
    processor: u64,
    tally: &mut [u64],
    network: &mut [u64],
) -> u64 {
    // SAFETY: as in `open`.
    unsafe {
        archive::fever_apply(
            run.as_mut_ptr(),
            run.len(),
            form,
            kind,
            view,
            processor,
            tally.as_mut_ptr(),
            tally.len(),
            network.as_mut_ptr(),
            network.len(),
        )
    }
}

/// `fever_apply_all`: 0, and the four words of each event are its answer's: form, check, ticks done, messages held. Else no word has
/// changed: 1 where the run has too few, 9 where its settled word is above 1.
pub fn apply_all(
    run: &mut [u64],
    tally: &mut [u64],
    network: &mut [u64],
    events: &mut [u64],
) -> u64 {
    // SAFETY: as in `open`.
    unsafe {
        archive::fever_apply_all(
            run.as_mut_ptr(),
            run.len(),
            tally.as_mut_ptr(),
            tally.len(),
            network.as_mut_ptr(),
            network.len(),
            events.as_mut_ptr(),
            events.len(),
        )
    }
}

/// `fever_step`: 0, or the check that refuses the input.
// A plan's five numbers, the record and the input, as the archive takes them.
#[allow(clippy::too_many_arguments)]
pub fn step(
    n: u64,
    delta: u64,
    gamma: u64,
    views: u64,
    k: u64,
    processor: &mut [u64],
    input: u64,
    view: u64,
) -> u64 {
    // SAFETY: as in `open`.
    unsafe {
        archive::fever_step(
            n,
            delta,
            gamma,
            views,
            k,
            processor.as_mut_ptr(),
            processor.len(),
            input,
            view,
        )
    }
}

/// `fever_read_line`: 0 where the line, without its newline, is one of the forms, which then stands in the words; else 1.
pub fn read_line(line: &[u8], words: &mut [u64]) -> u64 {
    // SAFETY: as in `open`.
    unsafe { archive::fever_read_line(line.as_ptr(), line.len(), words.as_mut_ptr(), words.len()) }
}

/// `fever_write_event`: the bytes written, newline included, or 0.
pub fn write_event(form: u64, kind: u64, view: u64, processor: u64, out: &mut [u8]) -> u64 {
    // SAFETY: as in `open`.
    unsafe { archive::fever_write_event(form, kind, view, processor, out.as_mut_ptr(), out.len()) }
}

/// `fever_write_setup`: the bytes written, newline included, or 0.
pub fn write_setup(setup: &[u64], out: &mut [u8]) -> u64 {
    // SAFETY: as in `open`.
    unsafe { archive::fever_write_setup(setup.as_ptr(), setup.len(), out.as_mut_ptr(), out.len()) }
}

/// `fever_generate`: 0, and the load's words say how many bytes were written and whether they were too few; else the check that
/// refuses the setup.
pub fn generate(
    setup: &[u64],
    run: &mut [u64],
    tally: &mut [u64],
    network: &mut [u64],
    load: &mut [u64],
    out: &mut [u8],
) -> u64 {
    // SAFETY: as in `open`.
    unsafe {
        archive::fever_generate(
            setup.as_ptr(),
            setup.len(),
            run.as_mut_ptr(),
            run.len(),
            tally.as_mut_ptr(),
            tally.len(),
            network.as_mut_ptr(),
            network.len(),
            load.as_mut_ptr(),
            load.len(),
            out.as_mut_ptr(),
            out.len(),
        )
    }
}

/// `fever_generate_more`: 0, as [`generate`] answers it; else 1 where run or load have too few words, 9 where the run is unsound but
/// for its time.
pub fn generate_more(
    run: &mut [u64],
    tally: &mut [u64],
    network: &mut [u64],
    load: &mut [u64],
    out: &mut [u8],
) -> u64 {
    // SAFETY: as in `open`.
    unsafe {
        archive::fever_generate_more(
            run.as_mut_ptr(),
            run.len(),
            tally.as_mut_ptr(),
            tally.len(),
            network.as_mut_ptr(),
            network.len(),
            load.as_mut_ptr(),
            load.len(),
            out.as_mut_ptr(),
            out.len(),
        )
    }
}

/// `fever_traffic`: 0, and the report stands in its first 13 words; else no word has changed: 1 where run or report have too few, 9
/// where the run is unsound.
pub fn traffic(run: &[u64], tally: &[u64], network: &[u64], report: &mut [u64]) -> u64 {
    // SAFETY: as in `open`; run, tally and network are only read, and may overlap each other.
    unsafe {
        archive::fever_traffic(
            run.as_ptr(),
            run.len(),
            tally.as_ptr(),
            tally.len(),
            network.as_ptr(),
            network.len(),
            report.as_mut_ptr(),
            report.len(),
        )
    }
}

/// `fever_pack`: 0, and the target holds in two words a message what the network holds in four; else no word has changed: 1 where the
/// run has too few words, 6 where the target has too few or too many, 9 where the run is unsound.
pub fn pack(run: &[u64], tally: &[u64], network: &[u64], target: &mut [u64]) -> u64 {
    // SAFETY: as in `traffic`.
    unsafe {
        archive::fever_pack(
            run.as_ptr(),
            run.len(),
            tally.as_ptr(),
            tally.len(),
            network.as_ptr(),
            network.len(),
            target.as_mut_ptr(),
            target.len(),
        )
    }
}

/// `fever_unpack`: as [`pack`], from two words a message to four.
pub fn unpack(run: &[u64], tally: &[u64], network: &[u64], target: &mut [u64]) -> u64 {
    // SAFETY: as in `traffic`.
    unsafe {
        archive::fever_unpack(
            run.as_ptr(),
            run.len(),
            tally.as_ptr(),
            tally.len(),
            network.as_ptr(),
            network.len(),
            target.as_mut_ptr(),
            target.len(),
        )
    }
}
