//! A buffer that is lent to a call, with guards on both sides, so that every byte that a call
//! may not touch is seen.

use crate::rng::Rng;
use std::ops::Range;

/// A byte or a pixel.
pub trait Cell: Copy {
    fn dirt(rng: &mut Rng, count: usize) -> Vec<Self>;
}

impl Cell for u8 {
    fn dirt(rng: &mut Rng, count: usize) -> Vec<u8> {
        let mut all = vec![0; count];
        rng.fill(&mut all);
        all
    }
}

impl Cell for u16 {
    fn dirt(rng: &mut Rng, count: usize) -> Vec<u16> {
        (0..count).map(|_| rng.word()).collect()
    }
}

#[derive(Clone)]
pub struct Bed<T> {
    pub name: &'static str,
    all: Vec<T>,
    start: usize,
    len: usize,
}

impl<T: Cell> Bed<T> {
    /// A buffer that holds anything.
    pub fn dirty(rng: &mut Rng, bare: bool, name: &'static str, len: usize) -> Bed<T> {
        let [before, after] = guards(rng, bare && len > 0);
        let all = T::dirt(rng, before + len + after);
        let mut bed = Bed { name, all, start: before, len };
        if rng.one_in(3) {
            // The same in every place.
            let cell = T::dirt(rng, 1)[0];
            bed.lent_mut().fill(cell);
        }
        bed
    }

    /// A buffer that holds this.
    pub fn holding(rng: &mut Rng, bare: bool, name: &'static str, content: &[T]) -> Bed<T> {
        let [before, after] = guards(rng, bare && !content.is_empty());
        let mut all = T::dirt(rng, before);
        // No cell more than it needs: a checker of memory then sees the first byte past it.
        all.reserve_exact(content.len() + after);
        all.extend_from_slice(content);
        all.extend(T::dirt(rng, after));
        Bed { name, all, start: before, len: content.len() }
    }

    pub fn lent(&self) -> &[T] {
        &self.all[self.start..self.start + self.len]
    }

    pub fn lent_mut(&mut self) -> &mut [T] {
        &mut self.all[self.start..self.start + self.len]
    }

    /// What a call is given. It points to a cell that there is, whatever the length: without
    /// one, there are guards.
    pub fn raw(&mut self) -> (*mut T, usize) {
        // Of the whole, not of the part: a stand-in may write to the guards.
        let at = self.all.as_mut_ptr().wrapping_add(self.start);
        (at, self.len)
    }

    /// All bytes, those of the guards too, and where the lent ones lie.
    pub fn bytes(&self) -> (&[u8], Range<usize>) {
        let size = size_of::<T>();
        let (at, len) = (self.all.as_ptr().cast::<u8>(), size * self.all.len());
        // SAFETY: the cells are numbers, all of whose bytes are set.
        let bytes = unsafe { std::slice::from_raw_parts(at, len) };
        (bytes, size * self.start..size * (self.start + self.len))
    }
}

/// Cells before and after: any number, so that bytes start at odd addresses too.
fn guards(rng: &mut Rng, bare: bool) -> [usize; 2] {
    if bare {
        [0, 0]
    } else {
        [0, 1].map(|_| rng.range(5, 20))
    }
}
