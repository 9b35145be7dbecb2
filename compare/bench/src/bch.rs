//! BCH by the present archive beside an earlier one (build.rs renames the earlier one's functions); clean words beside the original too.

use crate::time::{Pair, pair};
use harness::archive;
use harness::lent::Lent;
use harness::random::Random;
use std::cell::RefCell;
use std::hint::black_box;

unsafe extern "C" {
    fn before_raxdov_bch_parity(
        message: *const u8,
        message_len: usize,
        out: *mut u8,
        out_len: usize,
    ) -> u32;
    fn before_raxdov_bch_encode(
        message: *const u8,
        message_len: usize,
        out: *mut u8,
        out_len: usize,
    ) -> u32;
    fn before_raxdov_bch_decode(word: *mut u8, word_len: usize, result: *mut u32) -> u32;
}

fn parity_before(message: &Lent<u8>, out: &mut Lent<u8>) -> u32 {
    let n = out.len();
    unsafe { before_raxdov_bch_parity(message.ptr(), message.len(), out.ptr_mut(), n) }
}

fn encode_before(message: &Lent<u8>, out: &mut Lent<u8>) -> u32 {
    let n = out.len();
    unsafe { before_raxdov_bch_encode(message.ptr(), message.len(), out.ptr_mut(), n) }
}

fn decode_before(word: &mut Lent<u8>, result: &mut Lent<u32>) -> u32 {
    let n = word.len();
    unsafe { before_raxdov_bch_decode(word.ptr_mut(), n, result.ptr_mut()) }
}

fn line(what: &str, bits: usize, p: &Pair, other: &str) {
    println!(
        "| {what} | {bits} | {other} | {:.3} | {:.3} | {:.3} | {:.3} | {:.2} | {:.2} to {:.2} |",
        p.ours.least * 1e6,
        p.ours.median * 1e6,
        p.theirs.least * 1e6,
        p.theirs.median * 1e6,
        p.ratio,
        p.low,
        p.high
    );
}

/// Messages and words of short and long lengths. Both archives read and write the same memory.
pub fn bench() {
    let mut r = Random(11);
    println!(
        "| call | bits | beside | now, least us | median | beside it, least us | median | times as fast | quartiles of pairs |"
    );
    println!("|---|---|---|---|---|---|---|---|---|");
    for bits in [0, 193, 1_000, 31_776, 65_343] {
        let turns = 200_000 / (bits + 200) + 1;
        let bytes = r.bytes(bits);
        let message = Lent::of(&bytes, &mut r);
        for whole in [false, true] {
            let room = if whole { bits + 192 } else { 192 };
            let out = RefCell::new(Lent::filled(room, &mut r));
            let now = || {
                let out = &mut out.borrow_mut();
                let answer = if whole {
                    archive::bch_encode(&message, out)
                } else {
                    archive::bch_parity(&message, out)
                };
                assert_eq!(black_box(answer), 0);
            };
            let then = || {
                let out = &mut out.borrow_mut();
                let answer = if whole {
                    encode_before(&message, out)
                } else {
                    parity_before(&message, out)
                };
                assert_eq!(black_box(answer), 0);
            };
            let p = pair(201, turns, now, then);
            let wrote = |write: &dyn Fn()| {
                *out.borrow_mut() = Lent::of(&vec![2; room], &mut Random(bits as u64));
                write();
                out.borrow().now().to_vec()
            };
            assert!(
                wrote(&now) == wrote(&then),
                "the two archives wrote different bits"
            );
            let what = if whole { "encode" } else { "parity" };
            line(what, bits, &p, "the archive before");
        }
        if bits == 0 {
            continue;
        }
        // a clean word stays as it is, so that nothing is copied between calls
        let right = oracle::bch::encode(&bytes.iter().map(|b| b & 1).collect::<Vec<u8>>());
        let word = RefCell::new(Lent::of(&right, &mut r));
        let result = RefCell::new(Lent::filled(1, &mut r));
        let now = || {
            assert_eq!(
                archive::bch_decode(&mut word.borrow_mut(), &mut result.borrow_mut()),
                0
            )
        };
        let then = || {
            assert_eq!(
                decode_before(&mut word.borrow_mut(), &mut result.borrow_mut()),
                0
            )
        };
        let p = pair(201, turns, now, then);
        for decode in [&now as &dyn Fn(), &then] {
            *result.borrow_mut() = Lent::of(&[9], &mut r);
            decode();
            assert!(result.borrow().now() == [0] && word.borrow().now() == right);
        }
        line("decode, clean", right.len(), &p, "the archive before");
        let mut theirs = right.clone();
        let p = pair(101, turns.min(50), now, || {
            assert!(black_box(oracle::bch::decode(&mut theirs)).is_ok());
        });
        line("decode, clean", right.len(), &p, "the original");
    }
}
