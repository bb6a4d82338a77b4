//! The functions that `libfever.a` exports, as `include/fever.h` declares them.

extern "C" {
    pub fn fever_open(
        setup: *const u64,
        setup_len: usize,
        run: *mut u64,
        run_len: usize,
        tally: *mut u64,
        tally_len: usize,
        network: *mut u64,
        network_len: usize,
    ) -> u64;
    pub fn fever_apply(
        run: *mut u64,
        run_len: usize,
        form: u64,
        kind: u64,
        view: u64,
        processor: u64,
        tally: *mut u64,
        tally_len: usize,
        network: *mut u64,
        network_len: usize,
    ) -> u64;
    pub fn fever_apply_all(
        run: *mut u64,
        run_len: usize,
        tally: *mut u64,
        tally_len: usize,
        network: *mut u64,
        network_len: usize,
        events: *mut u64,
        events_len: usize,
    ) -> u64;
    pub fn fever_step(
        n: u64,
        delta: u64,
        gamma: u64,
        views: u64,
        k: u64,
        processor: *mut u64,
        processor_len: usize,
        input: u64,
        view: u64,
    ) -> u64;
    pub fn fever_read_line(
        line: *const u8,
        line_len: usize,
        words: *mut u64,
        words_len: usize,
    ) -> u64;
    pub fn fever_write_event(
        form: u64,
        kind: u64,
        view: u64,
        processor: u64,
        out: *mut u8,
        out_len: usize,
    ) -> u64;
    pub fn fever_write_setup(
        setup: *const u64,
        setup_len: usize,
        out: *mut u8,
        out_len: usize,
    ) -> u64;
    pub fn fever_generate(
        setup: *const u64,
        setup_len: usize,
        run: *mut u64,
        run_len: usize,
        tally: *mut u64,
        tally_len: usize,
        network: *mut u64,
        network_len: usize,
        load: *mut u64,
        load_len: usize,
        out: *mut u8,
        out_len: usize,
    ) -> u64;
    pub fn fever_generate_more(
        run: *mut u64,
        run_len: usize,
        tally: *mut u64,
        tally_len: usize,
        network: *mut u64,
        network_len: usize,
        load: *mut u64,
        load_len: usize,
        out: *mut u8,
        out_len: usize,
    ) -> u64;
    pub fn fever_traffic(
        run: *const u64,
        run_len: usize,
        tally: *const u64,
        tally_len: usize,
        network: *const u64,
        network_len: usize,
        report: *mut u64,
        report_len: usize,
    ) -> u64;
    pub fn fever_pack(
        run: *const u64,
        run_len: usize,
        tally: *const u64,
        tally_len: usize,
        network: *const u64,
        network_len: usize,
        target: *mut u64,
        target_len: usize,
    ) -> u64;
    pub fn fever_unpack(
        run: *const u64,
        run_len: usize,
        tally: *const u64,
        tally_len: usize,
        network: *const u64,
        network_len: usize,
        target: *mut u64,
        target_len: usize,
    ) -> u64;
}
