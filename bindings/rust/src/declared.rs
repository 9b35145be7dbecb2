//! The functions of libraxdov.a as they are called: a slice is a pointer and a length. The declarations repeat the
//! signatures of `crates/raxdov/src/lib.rt`; `tests/signatures.rs` compares them. `compare/harness` uses this file too.
#![allow(dead_code, unsafe_code)]

unsafe extern "C" {
    pub fn raxdov_quantise(
        llr: *const f32,
        llr_len: usize,
        scale: f32,
        out: *mut i8,
        out_len: usize,
    ) -> u32;
    pub fn raxdov_combine(
        lengths: *const u32,
        lengths_len: usize,
        soft: *const i8,
        soft_len: usize,
        out: *mut i8,
        out_len: usize,
    ) -> u32;
    pub fn raxdov_ldpc_sizes(
        n: u32,
        lens: *const u32,
        lens_len: usize,
        addrs: *const u16,
        addrs_len: usize,
        sizes: *mut [u32; 5],
    ) -> u32;
    pub fn raxdov_ldpc_new(
        n: u32,
        lens: *const u32,
        lens_len: usize,
        addrs: *const u16,
        addrs_len: usize,
        lists: *mut u32,
        lists_len: usize,
        code: *mut [u32; 4],
    ) -> u32;
    pub fn raxdov_ldpc_check(
        n: u32,
        lens: *const u32,
        lens_len: usize,
        addrs: *const u16,
        addrs_len: usize,
        c: u32,
        out: *mut u32,
        out_len: usize,
        count: *mut u32,
    ) -> u32;
    pub fn raxdov_ldpc_parity(
        n: u32,
        lens: *const u32,
        lens_len: usize,
        addrs: *const u16,
        addrs_len: usize,
        info: *const u8,
        info_len: usize,
        out: *mut u8,
        out_len: usize,
    ) -> u32;
    pub fn raxdov_ldpc_encode(
        n: u32,
        lens: *const u32,
        lens_len: usize,
        addrs: *const u16,
        addrs_len: usize,
        info: *const u8,
        info_len: usize,
        out: *mut u8,
        out_len: usize,
    ) -> u32;
    pub fn raxdov_ldpc_syndrome_weight(
        n: u32,
        lens: *const u32,
        lens_len: usize,
        addrs: *const u16,
        addrs_len: usize,
        bits: *const u8,
        bits_len: usize,
        count: *mut u32,
    ) -> u32;
    pub fn raxdov_bch_parity(
        message: *const u8,
        message_len: usize,
        out: *mut u8,
        out_len: usize,
    ) -> u32;
    pub fn raxdov_bch_encode(
        message: *const u8,
        message_len: usize,
        out: *mut u8,
        out_len: usize,
    ) -> u32;
    pub fn raxdov_bch_decode(word: *mut u8, word_len: usize, result: *mut u32) -> u32;
    pub fn raxdov_record_words() -> u32;
    pub fn raxdov_tally_words() -> u32;
    pub fn raxdov_run_sizes(
        n: u32,
        lens: *const u32,
        lens_len: usize,
        addrs: *const u16,
        addrs_len: usize,
        lanes: u32,
        sizes: *mut [usize; 2],
    ) -> u32;
    pub fn raxdov_run(
        n: u32,
        lens: *const u32,
        lens_len: usize,
        addrs: *const u16,
        addrs_len: usize,
        soft: *const i8,
        soft_len: usize,
        lanes: u32,
        limit: u32,
        layered: u32,
        step: u32,
        offset: i8,
        rounds: u32,
        first: u32,
        length: u32,
        out: *mut u8,
        out_len: usize,
        records: *mut u32,
        records_len: usize,
        tally: *mut [u32; 6],
        ending: *mut u32,
        work: *mut i8,
        work_len: usize,
        lists: *mut u32,
        lists_len: usize,
    ) -> u32;
    pub fn raxdov_window_words() -> u32;
    pub fn raxdov_window_push(
        width: u32,
        window: *mut [u64; 6],
        numbers: *const [u32; 6],
        ring: *mut u32,
        ring_len: usize,
    ) -> u32;
}
