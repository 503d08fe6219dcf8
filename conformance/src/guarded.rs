//! Buffers to lend, with guards on both sides, that know what they held before.

use crate::noise::Noise;
use std::borrow::Cow;
use std::fmt::Debug;
use std::hint::black_box;

/// Elements that stand guard on each side. An odd number: what is lent starts at an address no more aligned than its type asks.
const GUARDS: usize = 9;

pub trait Element: Copy + PartialEq + Default + Debug {
    fn fill(noise: &mut Noise, cells: &mut [Self]);
}

impl Element for u8 {
    fn fill(noise: &mut Noise, cells: &mut [u8]) {
        for chunk in cells.chunks_mut(8) {
            chunk.copy_from_slice(&noise.draw().to_le_bytes()[..chunk.len()]);
        }
    }
}

impl Element for u32 {
    fn fill(noise: &mut Noise, cells: &mut [u32]) {
        for chunk in cells.chunks_mut(2) {
            let drawn = noise.draw();
            chunk.copy_from_slice(&[drawn as u32, (drawn >> 32) as u32][..chunk.len()]);
        }
    }
}

/// What has to stand past the elements that a call has set.
#[derive(Clone, Copy, PartialEq, Eq)]
pub enum Rest {
    AsBefore,
    Zero,
}

pub struct Guarded<'a, T: Element> {
    cells: Vec<T>,
    guards: [[T; GUARDS]; 2],
    before: Cow<'a, [T]>,
}

impl<'a, T: Element> Guarded<'a, T> {
    /// A buffer of `length` elements full of noise.
    pub fn noisy(noise: &mut Noise, length: usize) -> Guarded<'static, T> {
        let mut before = vec![T::default(); length];
        T::fill(noise, &mut before);
        Guarded::around(noise, Cow::Owned(before))
    }

    /// A buffer with these contents, to be lent for reading.
    pub fn holding(noise: &mut Noise, contents: &'a [T]) -> Guarded<'a, T> {
        Guarded::around(noise, Cow::Borrowed(contents))
    }

    fn around(noise: &mut Noise, before: Cow<'a, [T]>) -> Guarded<'a, T> {
        let mut guards = [[T::default(); GUARDS]; 2];
        guards.iter_mut().for_each(|guard| T::fill(noise, guard));
        let cells = [&guards[0], &before[..], &guards[1]].concat();
        Guarded {
            cells,
            guards,
            before,
        }
    }

    pub fn lent(&self) -> &[T] {
        &self.cells[GUARDS..self.cells.len() - GUARDS]
    }

    pub fn lent_mut(&mut self) -> &mut [T] {
        let end = self.cells.len() - GUARDS;
        &mut self.cells[GUARDS..end]
    }

    /// Nothing where the buffer now holds `head` and then the rest as it must be, between guards that stand; else what is wrong.
    ///
    /// The library is foreign code: what it was lent is looked at anew, whatever a shared borrow lets the compiler believe.
    pub fn difference(&self, name: &str, head: &[T], rest: Rest) -> Option<String> {
        let now = black_box(self);
        if !now.cells.starts_with(&self.guards[0]) || !now.cells.ends_with(&self.guards[1]) {
            return Some(format!("{name}: written outside what was lent"));
        }
        let Some((set, left)) = now.lent().split_at_checked(head.len()) else {
            return Some(format!("{name}: too short for {} elements", head.len()));
        };
        let wrong_rest = match rest {
            Rest::AsBefore => unlike(left, &self.before[head.len()..]),
            Rest::Zero => left.iter().position(|cell| *cell != T::default()),
        };
        let at = unlike(set, head).or(wrong_rest.map(|at| head.len() + at))?;
        Some(format!("{name}[{at}] ends as {:?}", now.lent()[at]))
    }
}

/// Where two slices of one length first differ.
fn unlike<T: Element>(now: &[T], due: &[T]) -> Option<usize> {
    if now == due {
        return None;
    }
    now.iter().zip(due).position(|(now, due)| now != due)
}
