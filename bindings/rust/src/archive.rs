//! A safe function over each function of libraxdov.a (`declared.rs`). Nothing but this file is unsafe.
//!
//! The archive's functions ask for nothing but slices that are there, so what the callers
//! below owe is that pointer and length are of one slice and that what is written overlaps nothing: both are so since
//! the arguments are Rust's references. The lengths that an answer needs are asserted all the same.
#![allow(unsafe_code)]

use crate::declared::*;
use crate::refusal::Refusal;

/// Numbers that a word's record, the tally and a window have.
pub(crate) const RECORD: usize = 6;
const TALLY: usize = 6;
pub(crate) const WINDOW: usize = 6;

/// Ok for 0, else the refusal of the number.
fn answer(number: u32) -> Result<(), Refusal> {
    match number {
        0 => Ok(()),
        _ => Err(Refusal::from_number(number)
            .unwrap_or_else(|| panic!("libraxdov.a answered {number}, which is no refusal"))),
    }
}

/// A code as it is lent: n, how many addresses each row has, and the addresses.
#[derive(Debug, Clone, Copy)]
pub(crate) struct Lent<'a> {
    pub(crate) n: u32,
    pub(crate) lens: &'a [u32],
    pub(crate) addrs: &'a [u16],
}

pub(crate) fn quantise(llr: &[f32], scale: f32, out: &mut [i8]) -> Result<(), Refusal> {
    assert_eq!(out.len(), llr.len());
    // SAFETY: both slices are there, and `out` is borrowed alone.
    answer(unsafe { raxdov_quantise(llr.as_ptr(), llr.len(), scale, out.as_mut_ptr(), out.len()) })
}

/// One soft word out of several, into the front of `out`.
pub(crate) fn combine(lengths: &[u32], soft: &[i8], out: &mut [i8]) -> Result<(), Refusal> {
    // SAFETY: the slices are there, and `out` is borrowed alone.
    answer(unsafe {
        raxdov_combine(
            lengths.as_ptr(),
            lengths.len(),
            soft.as_ptr(),
            soft.len(),
            out.as_mut_ptr(),
            out.len(),
        )
    })
}

/// k, P, q, E, and how long the lists are.
pub(crate) fn ldpc_sizes(code: Lent) -> Result<[u32; 5], Refusal> {
    let Lent { n, lens, addrs } = code;
    let mut sizes = [0; 5];
    // SAFETY: the slices are there, and `sizes` is borrowed alone.
    answer(unsafe {
        raxdov_ldpc_sizes(
            n,
            lens.as_ptr(),
            lens.len(),
            addrs.as_ptr(),
            addrs.len(),
            &mut sizes,
        )
    })?;
    Ok(sizes)
}

/// The lists of all checks, and k, P, q, E.
pub(crate) fn ldpc_new(code: Lent) -> Result<(Vec<u32>, [u32; 4]), Refusal> {
    let [k, p, q, e, size] = ldpc_sizes(code)?;
    let Lent { n, lens, addrs } = code;
    let mut lists = vec![0; size as usize];
    let mut made = [0; 4];
    assert_eq!(lists.len(), p as usize + 1 + e as usize);
    // SAFETY: the slices are there, and `lists` and `made` are borrowed alone.
    answer(unsafe {
        raxdov_ldpc_new(
            n,
            lens.as_ptr(),
            lens.len(),
            addrs.as_ptr(),
            addrs.len(),
            lists.as_mut_ptr(),
            lists.len(),
            &mut made,
        )
    })?;
    assert_eq!(made, [k, p, q, e]);
    assert_eq!((lists[0], lists[p as usize]), (0, e));
    Ok((lists, made))
}

/// The bits of one check.
#[cfg(test)]
pub(crate) fn ldpc_check(code: Lent, c: u32) -> Result<Vec<u32>, Refusal> {
    let Lent { n, lens, addrs } = code;
    let mut out = vec![0; 128];
    let mut count = 0;
    // SAFETY: the slices are there, and `out` and `count` are borrowed alone.
    answer(unsafe {
        raxdov_ldpc_check(
            n,
            lens.as_ptr(),
            lens.len(),
            addrs.as_ptr(),
            addrs.len(),
            c,
            out.as_mut_ptr(),
            out.len(),
            &mut count,
        )
    })?;
    assert!(count as usize <= out.len());
    out.truncate(count as usize);
    Ok(out)
}

/// Into P bytes.
pub(crate) fn ldpc_parity(code: Lent, info: &[u8], out: &mut [u8]) -> Result<(), Refusal> {
    let Lent { n, lens, addrs } = code;
    assert_eq!(out.len() + 374 * lens.len(), n as usize);
    // SAFETY: the slices are there, and `out` is borrowed alone.
    answer(unsafe {
        raxdov_ldpc_parity(
            n,
            lens.as_ptr(),
            lens.len(),
            addrs.as_ptr(),
            addrs.len(),
            info.as_ptr(),
            info.len(),
            out.as_mut_ptr(),
            out.len(),
        )
    })
}

/// Into n bytes.
pub(crate) fn ldpc_encode(code: Lent, info: &[u8], out: &mut [u8]) -> Result<(), Refusal> {
    let Lent { n, lens, addrs } = code;
    assert_eq!(out.len(), n as usize);
    // SAFETY: the slices are there, and `out` is borrowed alone.
    answer(unsafe {
        raxdov_ldpc_encode(
            n,
            lens.as_ptr(),
            lens.len(),
            addrs.as_ptr(),
            addrs.len(),
            info.as_ptr(),
            info.len(),
            out.as_mut_ptr(),
            out.len(),
        )
    })
}

pub(crate) fn ldpc_syndrome_weight(code: Lent, bits: &[u8]) -> Result<u32, Refusal> {
    let Lent { n, lens, addrs } = code;
    let mut count = 0;
    // SAFETY: the slices are there, and `count` is borrowed alone.
    answer(unsafe {
        raxdov_ldpc_syndrome_weight(
            n,
            lens.as_ptr(),
            lens.len(),
            addrs.as_ptr(),
            addrs.len(),
            bits.as_ptr(),
            bits.len(),
            &mut count,
        )
    })?;
    Ok(count)
}

/// Into 192 bytes.
pub(crate) fn bch_parity(message: &[u8], out: &mut [u8]) -> Result<(), Refusal> {
    assert_eq!(out.len(), 192);
    // SAFETY: both slices are there, and `out` is borrowed alone.
    answer(unsafe {
        raxdov_bch_parity(message.as_ptr(), message.len(), out.as_mut_ptr(), out.len())
    })
}

/// Into 192 bytes more than the message has.
pub(crate) fn bch_encode(message: &[u8], out: &mut [u8]) -> Result<(), Refusal> {
    assert_eq!(out.len(), message.len() + 192);
    // SAFETY: both slices are there, and `out` is borrowed alone.
    answer(unsafe {
        raxdov_bch_encode(message.as_ptr(), message.len(), out.as_mut_ptr(), out.len())
    })
}

/// How many bits were changed, or none for an uncorrectable word.
pub(crate) fn bch_decode(word: &mut [u8]) -> Result<Option<u32>, Refusal> {
    let mut result = 0;
    // SAFETY: the slice is there, and it and `result` are borrowed alone.
    answer(unsafe { raxdov_bch_decode(word.as_mut_ptr(), word.len(), &mut result) })?;
    Ok(corrected(result))
}

/// A BCH result as it is written: none for 4,294,967,295.
pub(crate) fn corrected(result: u32) -> Option<u32> {
    (result != u32::MAX).then_some(result)
}

/// How long `work` and `lists` of a run are.
pub(crate) fn run_sizes(code: Lent, lanes: u32) -> Result<[usize; 2], Refusal> {
    let Lent { n, lens, addrs } = code;
    let mut sizes = [0; 2];
    // SAFETY: the slices are there, and `sizes` is borrowed alone.
    answer(unsafe {
        raxdov_run_sizes(
            n,
            lens.as_ptr(),
            lens.len(),
            addrs.as_ptr(),
            addrs.len(),
            lanes,
            &mut sizes,
        )
    })?;
    Ok(sizes)
}

/// A run's settings as the archive takes them.
#[derive(Debug, Clone, Copy)]
pub(crate) struct Asked {
    pub(crate) lanes: u32,
    pub(crate) limit: u32,
    pub(crate) layered: u32,
    pub(crate) step: u32,
    pub(crate) offset: i8,
    pub(crate) rounds: u32,
    pub(crate) first: u32,
    pub(crate) length: u32,
}

/// What a run is lent besides its output.
#[derive(Debug)]
pub(crate) struct Room<'a> {
    pub(crate) records: &'a mut [u32],
    pub(crate) work: &'a mut [i8],
    pub(crate) lists: &'a mut [u32],
}

/// The tally and the ending.
pub(crate) fn run(
    code: Lent,
    soft: &[i8],
    asked: Asked,
    out: &mut [u8],
    room: Room,
) -> Result<([u32; TALLY], u32), Refusal> {
    let Lent { n, lens, addrs } = code;
    let Room {
        records,
        work,
        lists,
    } = room;
    let [work_need, lists_need] = run_sizes(code, asked.lanes)?;
    let words = (soft.len() / n as usize).min(4096);
    assert!(records.len() >= RECORD * words);
    assert!(work.len() >= work_need && lists.len() >= lists_need);
    // SAFETY: nothing is lent.
    let layout = unsafe { (raxdov_record_words(), raxdov_tally_words()) };
    assert_eq!(
        layout,
        (RECORD as u32, TALLY as u32),
        "libraxdov.a has other records or another tally than this crate"
    );
    let mut tally = [0; TALLY];
    let mut ending = 0;
    // SAFETY: the slices are there, and those that are written are borrowed alone.
    answer(unsafe {
        raxdov_run(
            n,
            lens.as_ptr(),
            lens.len(),
            addrs.as_ptr(),
            addrs.len(),
            soft.as_ptr(),
            soft.len(),
            asked.lanes,
            asked.limit,
            asked.layered,
            asked.step,
            asked.offset,
            asked.rounds,
            asked.first,
            asked.length,
            out.as_mut_ptr(),
            out.len(),
            records.as_mut_ptr(),
            records.len(),
            &mut tally,
            &mut ending,
            work.as_mut_ptr(),
            work.len(),
            lists.as_mut_ptr(),
            lists.len(),
        )
    })?;
    Ok((tally, ending))
}

/// One record more in a window. Where it is refused, window and ring are unchanged.
pub(crate) fn window_push(
    width: u32,
    window: &mut [u64; WINDOW],
    record: &[u32; RECORD],
    ring: &mut [u32],
) -> Result<(), Refusal> {
    // SAFETY: nothing is lent.
    let layout = unsafe { (raxdov_window_words(), raxdov_record_words()) };
    assert_eq!(
        layout,
        (WINDOW as u32, RECORD as u32),
        "libraxdov.a has other windows or records than this crate"
    );
    // SAFETY: the record is there, and window and ring are borrowed alone.
    answer(unsafe { raxdov_window_push(width, window, record, ring.as_mut_ptr(), ring.len()) })
}
