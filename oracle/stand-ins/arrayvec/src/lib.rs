//! Stand-in for arrayvec with the interface of version 0.5: a list in an array of fixed size.

use std::ops::Deref;

pub trait Array {
    type Item: Copy + Default;
    const EMPTY: fn() -> Self;
    fn slots(&self) -> &[Self::Item];
    fn slots_mut(&mut self) -> &mut [Self::Item];
}

impl<T: Copy + Default, const N: usize> Array for [T; N] {
    type Item = T;
    const EMPTY: fn() -> [T; N] = || [T::default(); N];
    fn slots(&self) -> &[T] {
        self
    }
    fn slots_mut(&mut self) -> &mut [T] {
        self
    }
}

#[derive(Debug)]
pub struct CapacityError<T>(pub T);

#[derive(Clone)]
pub struct ArrayVec<A: Array> {
    slots: A,
    len: usize,
}

impl<A: Array> ArrayVec<A> {
    pub fn new() -> ArrayVec<A> {
        ArrayVec {
            slots: (A::EMPTY)(),
            len: 0,
        }
    }
    pub fn try_push(&mut self, item: A::Item) -> Result<(), CapacityError<A::Item>> {
        match self.slots.slots_mut().get_mut(self.len) {
            None => Err(CapacityError(item)),
            Some(slot) => {
                *slot = item;
                self.len += 1;
                Ok(())
            }
        }
    }
    pub fn push(&mut self, item: A::Item) {
        if self.try_push(item).is_err() {
            panic!("the array is full");
        }
    }
}

impl<A: Array> Deref for ArrayVec<A> {
    type Target = [A::Item];
    fn deref(&self) -> &[A::Item] {
        &self.slots.slots()[..self.len]
    }
}

impl<'a, A: Array> IntoIterator for &'a ArrayVec<A> {
    type Item = &'a A::Item;
    type IntoIter = std::slice::Iter<'a, A::Item>;
    fn into_iter(self) -> Self::IntoIter {
        self.iter()
    }
}
