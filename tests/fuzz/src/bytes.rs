//! Numbers read off the input, one after the other; past its end all are 0.

pub struct Bytes<'a>(&'a [u8]);

impl<'a> Bytes<'a> {
    pub fn of(input: &'a [u8]) -> Bytes<'a> {
        Bytes(input)
    }

    pub fn is_empty(&self) -> bool {
        self.0.is_empty()
    }

    pub fn byte(&mut self) -> u8 {
        let [first, rest @ ..] = self.0 else { return 0 };
        self.0 = rest;
        *first
    }

    pub fn word(&mut self) -> u64 {
        (0..8).fold(0, |word, _| word << 8 | u64::from(self.byte()))
    }

    /// A number below another one, of a byte where that is enough.
    pub fn below(&mut self, limit: u64) -> u64 {
        let low = u64::from(self.byte());
        let number = if limit > 256 { low << 8 | u64::from(self.byte()) } else { low };
        number % limit.max(1)
    }

    pub fn label(&mut self) -> u32 {
        match self.byte() {
            255 => self.word() as u32,
            few => u32::from(few % 8),
        }
    }

    /// Mostly a number up to `near`, else one just beyond it, 0, one above 32 bits, or any.
    pub fn near(&mut self, near: u64) -> u64 {
        match self.byte() {
            251 => self.below(near.saturating_add(1)) | 1 << 32,
            252 => near.wrapping_add(1),
            253 => 0,
            254 => u64::MAX,
            255 => self.word(),
            number => u64::from(number) % near.saturating_add(1),
        }
    }

    pub fn pick<T: Copy>(&mut self, choices: &[T]) -> T {
        choices[self.below(choices.len() as u64) as usize]
    }

    /// Up to `most` numbers.
    pub fn list<T>(&mut self, most: u64, mut one: impl FnMut(&mut Self) -> T) -> Vec<T> {
        (0..self.below(most + 1)).map(|_| one(self)).collect()
    }
}
