//! A slice lent to the archive, between guards that no call may touch. With `EXACT` set the slice is an allocation of its own
//! with no guards, for a memory checker.

use crate::random::Random;
use std::sync::atomic::{AtomicBool, Ordering};

pub static EXACT: AtomicBool = AtomicBool::new(false);

const GUARD: usize = 64;

pub trait Plain: Copy + PartialEq + std::fmt::Debug {
    fn of(x: u64) -> Self;
}

impl Plain for u8 {
    fn of(x: u64) -> Self {
        x as u8
    }
}
impl Plain for i8 {
    fn of(x: u64) -> Self {
        x as i8
    }
}
impl Plain for u16 {
    fn of(x: u64) -> Self {
        x as u16
    }
}
impl Plain for u32 {
    fn of(x: u64) -> Self {
        x as u32
    }
}
impl Plain for u64 {
    fn of(x: u64) -> Self {
        x
    }
}
impl Plain for usize {
    fn of(x: u64) -> Self {
        x as usize
    }
}
impl Plain for f32 {
    fn of(x: u64) -> Self {
        f32::from(x as u16)
    }
}

#[derive(Clone)]
pub struct Lent<T> {
    buffer: Vec<T>,
    was: Vec<T>,
    guard: usize,
}

impl<T: Plain> Lent<T> {
    /// A slice of these values.
    pub fn of(values: &[T], random: &mut Random) -> Self {
        let guard = if EXACT.load(Ordering::Relaxed) {
            0
        } else {
            GUARD
        };
        let mut buffer = Vec::with_capacity(values.len() + 2 * guard);
        buffer.extend((0..guard).map(|_| T::of(random.next())));
        buffer.extend_from_slice(values);
        buffer.extend((0..guard).map(|_| T::of(random.next())));
        Self {
            was: buffer.clone(),
            buffer,
            guard,
        }
    }

    /// A slice of so many values that mean nothing.
    pub fn filled(len: usize, random: &mut Random) -> Self {
        // a byte of each number in turn, so that long slices are filled fast
        let mut x = 0;
        let values: Vec<T> = (0..len)
            .map(|i| {
                x = if i % 4 == 0 { random.next() } else { x >> 8 };
                T::of(x)
            })
            .collect();
        Self::of(&values, random)
    }

    pub fn len(&self) -> usize {
        self.buffer.len() - 2 * self.guard
    }

    pub fn is_empty(&self) -> bool {
        self.len() == 0
    }

    pub fn ptr(&self) -> *const T {
        self.now().as_ptr()
    }

    pub fn ptr_mut(&mut self) -> *mut T {
        let (g, n) = (self.guard, self.len());
        self.buffer[g..g + n].as_mut_ptr()
    }

    pub fn now(&self) -> &[T] {
        &self.buffer[self.guard..self.guard + self.len()]
    }

    pub fn was(&self) -> &[T] {
        &self.was[self.guard..self.guard + self.len()]
    }

    /// These values instead, for times.
    pub fn copy_from(&mut self, values: &[T]) {
        let (g, n) = (self.guard, self.len());
        self.buffer[g..g + n].copy_from_slice(values);
    }

    /// For tests of the comparison itself.
    pub fn spoil(&mut self, at: isize, value: T) {
        let at = (self.guard as isize + at) as usize;
        self.buffer[at] = value;
    }

    pub fn guard_value(&self, at: isize) -> T {
        self.buffer[(self.guard as isize + at) as usize]
    }

    /// Whether both guards are as they were.
    pub fn guarded(&self) -> bool {
        let end = self.guard + self.len();
        self.buffer[..self.guard] == self.was[..self.guard] && self.buffer[end..] == self.was[end..]
    }

    /// Nothing is changed, neither slice nor guards.
    pub fn unchanged(&self, what: &str) -> Result<(), String> {
        self.holds(what, &[], 0)
    }

    /// The slice begins with `front`, is as it was from `kept` on, and the guards are as they were.
    pub fn holds(&self, what: &str, front: &[T], kept: usize) -> Result<(), String> {
        if !self.guarded() {
            return Err(format!("{what}: written outside the slice"));
        }
        let now = self.now();
        let n = front.len().min(now.len());
        if front.len() > now.len() {
            return Err(format!(
                "{what}: {} wanted in a slice of {}",
                front.len(),
                now.len()
            ));
        }
        if now[..n] != *front {
            let at = (0..n).find(|&i| now[i] != front[i]).unwrap();
            return Err(format!(
                "{what}[{at}]: {:?}, expected {:?}",
                now[at], front[at]
            ));
        }
        if now[kept..] != self.was()[kept..] {
            let at = (kept..now.len())
                .find(|&i| now[i] != self.was()[i])
                .unwrap();
            return Err(format!(
                "{what}[{at}]: {:?}, and it was {:?}",
                now[at],
                self.was()[at]
            ));
        }
        Ok(())
    }
}

/// Equal, or what differs.
pub fn same<T: PartialEq + std::fmt::Debug>(what: &str, got: T, wanted: T) -> Result<(), String> {
    if got == wanted {
        Ok(())
    } else {
        Err(format!("{what}: {got:?}, expected {wanted:?}"))
    }
}
