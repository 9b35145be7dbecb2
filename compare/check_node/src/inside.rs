// What the timing needs of the original's private parts.
use super::*;

pub fn rows(code: &Code) -> &[u32] {
    &code.rows
}

pub fn row_start(code: &Code) -> &[u32] {
    &code.row_start
}

pub struct Lanes<const W: usize> {
    pub l: Vec<Lane<W>>,
    pub r: Vec<Lane<W>>,
    t: Vec<Lane<W>>,
    r_old: Vec<Lane<W>>,
    conflicts: Option<Conflicts>,
}

impl<const W: usize> Lanes<W> {
    pub fn new(code: &Code) -> Self {
        Self {
            l: vec![Lane::splat(0); code.n],
            r: vec![Lane::splat(0); code.rows.len()],
            t: Vec::new(),
            r_old: Vec::new(),
            conflicts: None,
        }
    }

    /// The conflicts of a schedule, which the original works out once in a run.
    pub fn prepare(&mut self, code: &Code, step: Option<usize>) {
        self.conflicts = step.map(|step| Conflicts::new(code, step));
    }

    /// One iteration with its syndrome.
    pub fn round(
        &mut self,
        code: &Code,
        offset: i8,
        step: Option<usize>,
    ) -> ([bool; W], [usize; W]) {
        match step {
            None => iteration(code, &mut self.l, &mut self.r, &mut self.t, offset),
            Some(step) => layered_iteration(
                code,
                &mut self.l,
                &mut self.r,
                &mut self.t,
                &mut self.r_old,
                self.conflicts.as_ref().unwrap(),
                offset,
                step,
            ),
        }
    }

    /// Every check in order, without the syndrome.
    pub fn checks(&mut self, code: &Code, offset: i8) {
        for c in 0..code.n - code.k {
            let (s, e) = (code.row_start[c] as usize, code.row_start[c + 1] as usize);
            simd::check_node(&code.rows[s..e], &mut self.l, &mut self.r[s..e], &mut self.t, offset);
        }
    }
}
