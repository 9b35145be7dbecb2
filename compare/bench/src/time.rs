//! Both sides timed in turn, by the processor time of the thread, so that other programs on the machine count less.

#[repr(C)]
struct Timespec {
    seconds: i64,
    nanos: i64,
}

unsafe extern "C" {
    fn clock_gettime(clock: i32, to: *mut Timespec) -> i32;
}

/// Linux's CLOCK_THREAD_CPUTIME_ID, in seconds.
fn now() -> f64 {
    let mut t = Timespec {
        seconds: 0,
        nanos: 0,
    };
    let failed = unsafe { clock_gettime(3, &mut t) };
    assert_eq!(failed, 0);
    t.seconds as f64 + t.nanos as f64 * 1e-9
}

/// The least and the median of some times, in seconds.
#[derive(Clone, Copy)]
pub struct Times {
    pub least: f64,
    pub median: f64,
}

/// Times of both sides, and the ratio of the original's to ours: of the least times, and the quartiles of the ratios of neighbours.
pub struct Pair {
    pub ours: Times,
    pub theirs: Times,
    pub ratio: f64,
    pub low: f64,
    pub high: f64,
}

fn times(mut all: Vec<f64>) -> Times {
    all.sort_by(f64::total_cmp);
    Times {
        least: all[0],
        median: all[all.len() / 2],
    }
}

/// `samples` calls of one side.
pub fn alone(samples: usize, mut f: impl FnMut()) -> Times {
    f();
    let mut all = Vec::new();
    for _ in 0..samples {
        let start = now();
        f();
        all.push(now() - start);
    }
    times(all)
}

/// `samples` calls of each of several sides, in turn.
pub fn in_turn(samples: usize, sides: &mut [impl FnMut()]) -> Vec<Times> {
    let mut all = vec![Vec::new(); sides.len()];
    for i in 0..=samples {
        for (f, spent) in sides.iter_mut().zip(&mut all) {
            let start = now();
            f();
            // the first time is for the caches
            if i > 0 {
                spent.push(now() - start);
            }
        }
    }
    all.into_iter().map(times).collect()
}

/// `samples` times `turns` calls of each side, in turn; times of one call.
pub fn pair(
    samples: usize,
    turns: usize,
    mut ours: impl FnMut(),
    mut theirs: impl FnMut(),
) -> Pair {
    ours();
    theirs();
    let (mut a, mut b) = (Vec::new(), Vec::new());
    let time = |f: &mut dyn FnMut()| {
        let start = now();
        for _ in 0..turns {
            f();
        }
        (now() - start) / turns as f64
    };
    for i in 0..samples {
        // who goes first changes
        if i % 2 == 0 {
            a.push(time(&mut ours));
            b.push(time(&mut theirs));
        } else {
            b.push(time(&mut theirs));
            a.push(time(&mut ours));
        }
    }
    let mut ratios: Vec<f64> = a.iter().zip(&b).map(|(x, y)| y / x).collect();
    ratios.sort_by(f64::total_cmp);
    let (ours, theirs) = (times(a), times(b));
    Pair {
        ours,
        theirs,
        ratio: theirs.least / ours.least,
        low: ratios[ratios.len() / 4],
        high: ratios[ratios.len() * 3 / 4],
    }
}
