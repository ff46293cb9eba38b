//! A list between two margins, which must stay as they are.

/// A number by its bits, so that NaNs compare; and one that no call writes.
pub trait Bits: Copy {
    /// What stands in the margins.
    const CANARY: Self;
    /// The number's bits.
    fn bits(self) -> u64;
}

impl Bits for f64 {
    const CANARY: f64 = f64::from_bits(0x7ff0_dead_beef_0001);
    fn bits(self) -> u64 {
        self.to_bits()
    }
}

impl Bits for u64 {
    const CANARY: u64 = 0xdead_beef_dead_beef;
    fn bits(self) -> u64 {
        self
    }
}

impl Bits for u32 {
    const CANARY: u32 = 0xdead_beef;
    fn bits(self) -> u64 {
        self.into()
    }
}

impl Bits for u8 {
    const CANARY: u8 = 0xdb;
    fn bits(self) -> u64 {
        self.into()
    }
}

/// Whether two lists are the same, bit for bit.
pub fn same<T: Bits>(a: &[T], b: &[T]) -> bool {
    a.len() == b.len() && a.iter().zip(b).all(|(x, y)| x.bits() == y.bits())
}

/// Whether a list is all zero.
pub fn is_zero<T: Bits>(list: &[T]) -> bool {
    list.iter().all(|x| x.bits() == 0)
}

/// A list with a margin of canaries on both sides. A margin of 0 puts the list's ends at those of its allocation,
/// where valgrind sees them.
#[derive(Clone)]
pub struct Guarded<T> {
    all: Vec<T>,
    margin: usize,
}

impl<T: Bits> Guarded<T> {
    /// A list between margins of this many elements.
    pub fn new(list: &[T], margin: usize) -> Guarded<T> {
        let mut all = Vec::with_capacity(list.len() + 2 * margin);
        all.resize(margin, T::CANARY);
        all.extend_from_slice(list);
        all.resize(list.len() + 2 * margin, T::CANARY);
        Guarded { all, margin }
    }

    /// The list.
    pub fn list(&self) -> &[T] {
        &self.all[self.margin..self.all.len() - self.margin]
    }

    /// The list, to be written.
    pub fn list_mut(&mut self) -> &mut [T] {
        let end = self.all.len() - self.margin;
        &mut self.all[self.margin..end]
    }

    /// Whether the margins are as they were.
    pub fn is_intact(&self) -> bool {
        let end = self.all.len() - self.margin;
        self.all[..self.margin].iter().chain(&self.all[end..]).all(|x| x.bits() == T::CANARY.bits())
    }
}
