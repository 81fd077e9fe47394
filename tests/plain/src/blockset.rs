//! An ordered set of numbers below 4,096: a bit for each, and a bit for each word that is not empty.

pub struct BlockSet {
    words: [u64; 64],
    summary: u64,
}

impl BlockSet {
    pub fn new() -> Self {
        BlockSet {
            words: [0; 64],
            summary: 0,
        }
    }

    #[inline]
    pub fn insert(&mut self, block: u16) {
        let word = usize::from(block >> 6) % 64;
        self.words[word] |= 1 << (block % 64);
        self.summary |= 1 << word;
    }

    #[inline]
    pub fn remove(&mut self, block: u16) {
        let word = usize::from(block >> 6) % 64;
        self.words[word] &= !(1 << (block % 64));
        self.summary &= !(u64::from(self.words[word] == 0) << word);
    }

    #[inline]
    pub fn lowest(&self) -> Option<u16> {
        if self.summary == 0 {
            return None;
        }
        let word = self.summary.trailing_zeros();
        Some((word * 64 + self.words[word as usize % 64].trailing_zeros()) as u16)
    }

    /// Takes the lowest number out.
    #[inline]
    pub fn pop(&mut self) -> Option<u16> {
        let block = self.lowest()?;
        self.remove(block);
        Some(block)
    }
}
