//! A list that is lent to a call lies between two known figures, which must stay: a write outside the list is seen.

use crate::recorder::Plant;

/// What stands around a lent list, by the type of its figures.
pub trait Around: Copy + PartialEq {
    const AROUND: Self;
}

impl Around for u64 {
    const AROUND: u64 = 0xA5A5_A5A5_A5A5_A5A5;
}

impl Around for i64 {
    const AROUND: i64 = -0x5A5A_5A5A_5A5A_5A5A;
}

/// A digit, which a figure of the list would take in.
impl Around for u8 {
    const AROUND: u8 = b'7';
}

impl Around for Plant {
    const AROUND: Plant = Plant {
        submarket: u64::AROUND,
        number: u64::AROUND,
        guarantee: u64::AROUND,
        loss: u64::AROUND,
        availability: u64::AROUND,
    };
}

#[derive(Clone, PartialEq)]
pub struct Lent<T> {
    all: Vec<T>,
    around: T,
}

impl<T: Around> Lent<T> {
    pub fn new(list: &[T]) -> Lent<T> {
        Lent::between(list, T::AROUND)
    }

    /// With another figure around it.
    pub fn between(list: &[T], around: T) -> Lent<T> {
        let mut all = vec![around];
        all.extend_from_slice(list);
        all.push(around);
        Lent { all, around }
    }

    pub fn list(&mut self) -> &mut [T] {
        let end = self.all.len() - 1;
        &mut self.all[1..end]
    }

    /// A shorter list: the first figures of this one.
    pub fn shorten(&mut self, length: usize) {
        self.all.truncate(length + 1);
        self.all.push(self.around);
    }

    /// The list as it is now, and whether what stands around it stayed.
    pub fn back(mut self) -> (Vec<T>, bool) {
        // Read again from memory: the compiler may believe that a call does not write to a list lent for reading.
        std::hint::black_box(&mut self.all);
        let kept = self.all.first() == Some(&self.around) && self.all.last() == Some(&self.around);
        (self.list().to_vec(), kept)
    }

    /// For a list that a call only reads: whether it, and what stands around it, is as it was.
    pub fn untouched(self, before: &[T]) -> bool {
        let (list, kept) = self.back();
        kept && list == before
    }
}
