//! The archive's functions (bindings/c/raxdov.h), over lent slices.

use crate::lent::Lent;
use crate::scope::{RECORD, TALLY, WINDOW};

#[path = "../../../bindings/rust/src/declared.rs"]
mod declared;
use declared::*;

/// The BCH result of an uncorrectable or lost word.
pub const LOST: u32 = u32::MAX;

/// A code as it is lent.
pub struct Table {
    pub n: u32,
    pub lens: Lent<u32>,
    pub addrs: Lent<u16>,
}

impl Table {
    pub fn unchanged(&self) -> Result<(), String> {
        self.lens.unchanged("lens")?;
        self.addrs.unchanged("addrs")
    }
}

/// A window as it is lent: its numbers, and the records that it covers.
pub struct Window {
    pub numbers: Lent<u64>,
    pub ring: Lent<u32>,
}

/// A run's settings.
#[derive(Clone, Copy, Debug)]
pub struct Settings {
    pub lanes: u32,
    pub limit: u32,
    pub layered: u32,
    pub step: u32,
    pub offset: i8,
    pub rounds: u32,
    pub first: u32,
    pub length: u32,
}

/// What a run is lent to write.
pub struct Space {
    pub out: Lent<u8>,
    pub records: Lent<u32>,
    pub tally: Lent<u32>,
    pub ending: Lent<u32>,
    pub work: Lent<i8>,
    pub lists: Lent<u32>,
}

// Every pointer below is that of a live slice of the length passed with it, or of the array's own length; nothing is
// lent twice.

pub fn quantise(llr: &Lent<f32>, scale: f32, out: &mut Lent<i8>) -> u32 {
    let n = out.len();
    unsafe { raxdov_quantise(llr.ptr(), llr.len(), scale, out.ptr_mut(), n) }
}

pub fn combine(lengths: &Lent<u32>, soft: &Lent<i8>, out: &mut Lent<i8>) -> u32 {
    let n = out.len();
    unsafe {
        raxdov_combine(
            lengths.ptr(),
            lengths.len(),
            soft.ptr(),
            soft.len(),
            out.ptr_mut(),
            n,
        )
    }
}

pub fn ldpc_sizes(t: &Table, sizes: &mut Lent<u32>) -> u32 {
    assert_eq!(sizes.len(), 5);
    unsafe {
        raxdov_ldpc_sizes(
            t.n,
            t.lens.ptr(),
            t.lens.len(),
            t.addrs.ptr(),
            t.addrs.len(),
            sizes.ptr_mut().cast(),
        )
    }
}

pub fn ldpc_new(t: &Table, lists: &mut Lent<u32>, code: &mut Lent<u32>) -> u32 {
    assert_eq!(code.len(), 4);
    let n = lists.len();
    unsafe {
        raxdov_ldpc_new(
            t.n,
            t.lens.ptr(),
            t.lens.len(),
            t.addrs.ptr(),
            t.addrs.len(),
            lists.ptr_mut(),
            n,
            code.ptr_mut().cast(),
        )
    }
}

pub fn ldpc_check(t: &Table, c: u32, out: &mut Lent<u32>, count: &mut Lent<u32>) -> u32 {
    assert_eq!(count.len(), 1);
    let n = out.len();
    unsafe {
        raxdov_ldpc_check(
            t.n,
            t.lens.ptr(),
            t.lens.len(),
            t.addrs.ptr(),
            t.addrs.len(),
            c,
            out.ptr_mut(),
            n,
            count.ptr_mut(),
        )
    }
}

pub fn ldpc_parity(t: &Table, info: &Lent<u8>, out: &mut Lent<u8>) -> u32 {
    let n = out.len();
    unsafe {
        raxdov_ldpc_parity(
            t.n,
            t.lens.ptr(),
            t.lens.len(),
            t.addrs.ptr(),
            t.addrs.len(),
            info.ptr(),
            info.len(),
            out.ptr_mut(),
            n,
        )
    }
}

pub fn ldpc_encode(t: &Table, info: &Lent<u8>, out: &mut Lent<u8>) -> u32 {
    let n = out.len();
    unsafe {
        raxdov_ldpc_encode(
            t.n,
            t.lens.ptr(),
            t.lens.len(),
            t.addrs.ptr(),
            t.addrs.len(),
            info.ptr(),
            info.len(),
            out.ptr_mut(),
            n,
        )
    }
}

pub fn ldpc_syndrome_weight(t: &Table, bits: &Lent<u8>, count: &mut Lent<u32>) -> u32 {
    assert_eq!(count.len(), 1);
    unsafe {
        raxdov_ldpc_syndrome_weight(
            t.n,
            t.lens.ptr(),
            t.lens.len(),
            t.addrs.ptr(),
            t.addrs.len(),
            bits.ptr(),
            bits.len(),
            count.ptr_mut(),
        )
    }
}

pub fn bch_parity(message: &Lent<u8>, out: &mut Lent<u8>) -> u32 {
    let n = out.len();
    unsafe { raxdov_bch_parity(message.ptr(), message.len(), out.ptr_mut(), n) }
}

pub fn bch_encode(message: &Lent<u8>, out: &mut Lent<u8>) -> u32 {
    let n = out.len();
    unsafe { raxdov_bch_encode(message.ptr(), message.len(), out.ptr_mut(), n) }
}

pub fn bch_decode(word: &mut Lent<u8>, result: &mut Lent<u32>) -> u32 {
    assert_eq!(result.len(), 1);
    let n = word.len();
    unsafe { raxdov_bch_decode(word.ptr_mut(), n, result.ptr_mut()) }
}

pub fn record_words() -> u32 {
    unsafe { raxdov_record_words() }
}

pub fn tally_words() -> u32 {
    unsafe { raxdov_tally_words() }
}

pub fn run_sizes(t: &Table, lanes: u32, sizes: &mut Lent<usize>) -> u32 {
    assert_eq!(sizes.len(), 2);
    unsafe {
        raxdov_run_sizes(
            t.n,
            t.lens.ptr(),
            t.lens.len(),
            t.addrs.ptr(),
            t.addrs.len(),
            lanes,
            sizes.ptr_mut().cast(),
        )
    }
}

pub fn run(t: &Table, soft: &Lent<i8>, set: Settings, to: &mut Space) -> u32 {
    assert_eq!((to.tally.len(), to.ending.len()), (TALLY, 1));
    let (out, records, work, lists) = (
        to.out.len(),
        to.records.len(),
        to.work.len(),
        to.lists.len(),
    );
    unsafe {
        raxdov_run(
            t.n,
            t.lens.ptr(),
            t.lens.len(),
            t.addrs.ptr(),
            t.addrs.len(),
            soft.ptr(),
            soft.len(),
            set.lanes,
            set.limit,
            set.layered,
            set.step,
            set.offset,
            set.rounds,
            set.first,
            set.length,
            to.out.ptr_mut(),
            out,
            to.records.ptr_mut(),
            records,
            to.tally.ptr_mut().cast(),
            to.ending.ptr_mut(),
            to.work.ptr_mut(),
            work,
            to.lists.ptr_mut(),
            lists,
        )
    }
}

pub fn window_words() -> u32 {
    unsafe { raxdov_window_words() }
}

pub fn window_push(width: u32, window: &mut Window, record: &Lent<u32>) -> u32 {
    assert_eq!((window.numbers.len(), record.len()), (WINDOW, RECORD));
    let n = window.ring.len();
    unsafe {
        raxdov_window_push(
            width,
            window.numbers.ptr_mut().cast(),
            record.ptr().cast(),
            window.ring.ptr_mut(),
            n,
        )
    }
}

/// Each record in turn, for times; whether all were accepted.
pub fn window_push_all(
    width: u32,
    window: &mut [u64; WINDOW],
    records: &[[u32; RECORD]],
    ring: &mut [u32],
) -> bool {
    let (to, n) = (ring.as_mut_ptr(), ring.len());
    records
        .iter()
        .all(|record| unsafe { raxdov_window_push(width, window, record, to, n) } == 0)
}
