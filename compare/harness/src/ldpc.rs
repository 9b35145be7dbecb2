//! The `raxdov_ldpc_*` functions against the original's `Code`.

use crate::archive;
use crate::input::Plan;
use crate::lent::{Lent, same};
use crate::random::Random;
use crate::scope;

#[derive(Default)]
pub struct Counts {
    pub sizes: u64,
    pub new: u64,
    pub check: u64,
    pub parity: u64,
    pub encode: u64,
    pub weight: u64,
    pub refused: u64,
}

/// A code that may be refused: an accepted one with a fault.
pub fn spoilt(r: &mut Random, plan: &Plan) -> Plan {
    let mut p = plan.clone();
    match r.below(8) {
        0 => {
            p.n = r.pick(&[
                0,
                1,
                373,
                375,
                45_254,
                89_760,
                u32::MAX,
                u32::MAX - u32::MAX % 374,
            ])
        }
        1 => p.n = 374 * p.lens.len() as u32,
        2 => p.n = 374 * (p.lens.len() as u32 / 2),
        3 if !p.lens.is_empty() => {
            let at = r.below(p.lens.len());
            p.lens[at] = r.pick(&[129, 200, u32::MAX]);
        }
        4 if !p.lens.is_empty() => {
            let at = r.below(p.lens.len());
            p.lens[at] = (p.lens[at] + 1).min(128);
        }
        5 => p.addrs.push(0),
        6 => {
            // 126 addresses equal modulo q are accepted, 127 refused
            let q = (p.n as usize / 374).max(2) - 1;
            let many = r.within(126, 127);
            p.lens = vec![many as u32];
            p.addrs = (0..many)
                .map(|i| ((i * q) % 65_536 / q * q) as u16)
                .collect();
            if p.n < 748 {
                p.n = 748;
            }
        }
        _ => {
            p.addrs.truncate(p.addrs.len() / 2);
        }
    }
    p
}

/// Every function on one code.
pub fn compare(r: &mut Random, counts: &mut Counts) -> Result<(), String> {
    let units = match r.below(60) {
        0 => 120,
        1 => r.within(7, 120),
        _ => r.within(1, 6),
    };
    let mut plan = Plan::random(r, units);
    if r.one_in(4) {
        plan = spoilt(r, &plan);
    }
    functions(r, &plan, counts).map_err(|e| {
        format!(
            "{e}; n {}, lens {:?}, addrs {:?}",
            plan.n, plan.lens, plan.addrs
        )
    })
}

pub fn functions(r: &mut Random, plan: &Plan, counts: &mut Counts) -> Result<(), String> {
    let table = plan.lent(r);
    let number = plan.refusal();
    let mut sizes = Lent::filled(5, r);
    let mut four = Lent::filled(4, r);
    let mut count = Lent::filled(1, r);
    if number != 0 {
        counts.refused += 1;
        let mut words = Lent::<u32>::filled(r.below(2000), r);
        let mut bytes = Lent::<u8>::filled(r.below(2000), r);
        let info = Lent::filled(r.below(2000), r);
        same("sizes", archive::ldpc_sizes(&table, &mut sizes), number)?;
        same(
            "new",
            archive::ldpc_new(&table, &mut words, &mut four),
            number,
        )?;
        same(
            "check",
            archive::ldpc_check(&table, 0, &mut words, &mut count),
            number,
        )?;
        same(
            "parity",
            archive::ldpc_parity(&table, &info, &mut bytes),
            number,
        )?;
        same(
            "encode",
            archive::ldpc_encode(&table, &info, &mut bytes),
            number,
        )?;
        same(
            "syndrome_weight",
            archive::ldpc_syndrome_weight(&table, &info, &mut count),
            number,
        )?;
        sizes.unchanged("sizes")?;
        four.unchanged("code")?;
        count.unchanged("count")?;
        words.unchanged("lists")?;
        bytes.unchanged("out")?;
        info.unchanged("info")?;
        return table.unchanged();
    }
    let code = plan.code();
    let (k, p, q, e) = scope::shape(plan.n, &plan.lens, &plan.addrs);
    let n = plan.n as usize;
    same(
        "the original's k, P, q",
        (code.k(), code.checks(), code.q()),
        (k, p, q),
    )?;

    // the lists, as `check` has them
    let mut row_start = vec![0u32];
    let mut rows: Vec<u32> = Vec::with_capacity(e);
    for c in 0..p {
        rows.extend_from_slice(code.check(c));
        row_start.push(rows.len() as u32);
    }
    same("the original's E", rows.len(), e)?;
    same("sizes", archive::ldpc_sizes(&table, &mut sizes), 0)?;
    sizes.holds(
        "sizes",
        &[k as u32, p as u32, q as u32, e as u32, (p + 1 + e) as u32],
        5,
    )?;
    counts.sizes += 1;
    let lists: Vec<u32> = row_start.iter().chain(&rows).copied().collect();
    let size = if r.one_in(5) {
        r.below(lists.len())
    } else {
        lists.len() + r.below(20)
    };
    let mut into = Lent::filled(size, r);
    let short = size < lists.len();
    same(
        "new",
        archive::ldpc_new(&table, &mut into, &mut four),
        if short { 13 } else { 0 },
    )?;
    if short {
        into.unchanged("lists")?;
        four.unchanged("code")?;
    } else {
        into.holds("lists", &lists, lists.len())?;
        four.holds("code", &[k as u32, p as u32, q as u32, e as u32], 4)?;
    }
    counts.new += 1;

    for i in 0..24 {
        let c = match i {
            0 => 0,
            1 => p - 1,
            2 => p + r.below(3),
            3 => u32::MAX as usize,
            _ => r.below(p),
        };
        let list: &[u32] = if c < p { code.check(c) } else { &[] };
        let size = if r.one_in(4) {
            r.below(list.len() + 1)
        } else {
            list.len() + r.below(9)
        };
        let mut out = Lent::filled(size, r);
        let mut count = Lent::filled(1, r);
        let wanted = if c >= p {
            12
        } else if size < list.len() {
            13
        } else {
            0
        };
        same(
            "check",
            archive::ldpc_check(&table, c as u32, &mut out, &mut count),
            wanted,
        )?;
        if wanted == 0 {
            out.holds("check's out", list, list.len())?;
            count.holds("check's count", &[list.len() as u32], 1)?;
        } else {
            out.unchanged("check's out")?;
            count.unchanged("check's count")?;
        }
        counts.check += 1;
    }

    // parity and encode: information with high bits, of a wrong length now and then, and outputs too short
    for encode in [false, true] {
        let long = match r.below(6) {
            0 => k + 1,
            1 => k.saturating_sub(1),
            _ => k,
        };
        let bytes = if r.one_in(2) {
            r.bytes(long)
        } else {
            r.bits(long)
        };
        let info = Lent::of(&bytes, r);
        let need = if encode { n } else { p };
        let size = if r.one_in(5) {
            r.below(need)
        } else {
            need + r.below(20)
        };
        let mut out = Lent::filled(size, r);
        let got = if encode {
            archive::ldpc_encode(&table, &info, &mut out)
        } else {
            archive::ldpc_parity(&table, &info, &mut out)
        };
        let what = if encode { "encode" } else { "parity" };
        let wanted = if long != k {
            12
        } else if size < need {
            13
        } else {
            0
        };
        same(what, got, wanted)?;
        if wanted == 0 {
            let right = if encode {
                code.encode(&bytes)
            } else {
                code.parity(&bytes)
            };
            out.holds(what, &right, need)?;
        } else {
            out.unchanged(what)?;
        }
        info.unchanged("info")?;
        *(if encode {
            &mut counts.encode
        } else {
            &mut counts.parity
        }) += 1;
    }

    for i in 0..3 {
        let mut bits = if i == 0 {
            code.encode(&r.bits(k))
        } else {
            r.bytes(n)
        };
        for _ in 0..r.below(5) {
            bits[r.below(n)] ^= 1;
        }
        let wrong = r.one_in(6);
        if wrong {
            bits.resize(r.pick(&[n - 1, n + 1, 0]), 0);
        }
        let lent = Lent::of(&bits, r);
        let mut count = Lent::filled(1, r);
        same(
            "syndrome_weight",
            archive::ldpc_syndrome_weight(&table, &lent, &mut count),
            if wrong { 12 } else { 0 },
        )?;
        if wrong {
            count.unchanged("syndrome_weight's count")?;
        } else {
            count.holds(
                "syndrome_weight's count",
                &[code.syndrome_weight(&bits) as u32],
                1,
            )?;
        }
        lent.unchanged("bits")?;
        counts.weight += 1;
    }
    table.unchanged()
}
