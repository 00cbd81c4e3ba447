//! A slice lent to a call, with guards before and behind it.

/// What a lent slice is made of.
pub trait Word: Copy {
    /// What stands before and behind a lent slice.
    const GUARD: Self;
    /// The 64 bits that are compared and printed.
    fn word(self) -> u64;
}

impl Word for f64 {
    const GUARD: Self = -7.389e77;
    fn word(self) -> u64 {
        self.to_bits()
    }
}

impl Word for usize {
    const GUARD: Self = 0xA5A5_A5A5;
    fn word(self) -> u64 {
        self as u64
    }
}

impl Word for u8 {
    const GUARD: Self = 0xA5;
    fn word(self) -> u64 {
        u64::from(self)
    }
}

/// How many guards stand on each side.
pub const GUARDS: usize = 4;

/// A slice with guards on both sides.
#[derive(Debug, Clone)]
pub struct Lent<T> {
    whole: Vec<T>,
}

impl<T: Word> Lent<T> {
    /// Lends these contents.
    pub fn new(contents: &[T]) -> Self {
        let mut whole = vec![T::GUARD; GUARDS];
        whole.extend_from_slice(contents);
        whole.extend([T::GUARD; GUARDS]);
        Self { whole }
    }

    /// The slice without its guards.
    pub fn slice(&self) -> &[T] {
        &self.whole[GUARDS..self.whole.len() - GUARDS]
    }

    /// The slice without its guards, to be written.
    pub fn slice_mut(&mut self) -> &mut [T] {
        let end = self.whole.len() - GUARDS;
        &mut self.whole[GUARDS..end]
    }

    /// The slice with its guards.
    pub fn whole(&self) -> &[T] {
        &self.whole
    }

    /// Makes the slice longer or shorter; a new number is a copy of the last.
    pub fn resize(&mut self, length: usize) {
        let last = self.slice().last().copied().unwrap_or(T::GUARD);
        let mut contents = self.slice().to_vec();
        contents.resize(length, last);
        *self = Self::new(&contents);
    }
}
