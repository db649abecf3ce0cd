//! Lent memory: a list with more memory before and behind it, so that one sees what a call has written.

/// How many guard words stand before a list and behind what follows it.
const GUARD: usize = 8;

/// A list in the midst of memory that is known.
pub struct Lent<T> {
    memory: Vec<T>,
    before: Vec<T>,
    length: usize,
}

impl<T: Copy + PartialEq> Lent<T> {
    /// Lends the first words of a list, so many of them; the others follow in memory, then guard words.
    /// `word` gives the guard words by their place.
    pub fn front(words: &[T], length: usize, word: impl Fn(usize) -> T) -> Lent<T> {
        let end = GUARD + words.len();
        let mut memory: Vec<T> = (0..GUARD).map(&word).collect();
        memory.extend_from_slice(words);
        memory.extend((end..end + GUARD).map(&word));
        let before = memory.clone();
        assert!(length <= words.len());
        Lent {
            memory,
            before,
            length,
        }
    }

    /// Lends so many words that hold something, another word at each place.
    pub fn filled(length: usize, word: impl Fn(usize) -> T) -> Lent<T> {
        let words: Vec<T> = (GUARD..GUARD + length).map(&word).collect();
        Lent::front(&words, length, word)
    }

    /// The list.
    pub fn list(&self) -> &[T] {
        &self.memory[GUARD..GUARD + self.length]
    }

    /// The list, for writing.
    pub fn list_mut(&mut self) -> &mut [T] {
        &mut self.memory[GUARD..GUARD + self.length]
    }

    /// The list as it was first lent.
    pub fn first(&self) -> &[T] {
        &self.before[GUARD..GUARD + self.length]
    }

    /// True if nothing was written, not even beside the list.
    pub fn is_kept(&self) -> bool {
        self.memory == self.before
    }

    /// True if nothing was written beside the list.
    pub fn beside_is_kept(&self) -> bool {
        let beside = |words: &[T]| [&words[..GUARD], &words[GUARD + self.length..]].concat();
        beside(&self.memory) == beside(&self.before)
    }
}

/// Guard words that look like records: small numbers.
pub fn small_word(place: usize) -> u32 {
    (place * 7 % 5) as u32
}

/// Words that no call writes: another one at each place.
pub fn odd_word(place: usize) -> u32 {
    0x9e37_79b9_u32.wrapping_mul(place as u32 + 1) | 0x8000_0000
}

/// Numbers that no call writes.
pub fn odd_number(place: usize) -> usize {
    0x7e57_0000_0000_0000 + place
}

/// Bytes, another one at each place of 251.
pub fn odd_byte(place: usize) -> u8 {
    (place % 251) as u8
}

#[cfg(test)]
mod tests {
    use super::*;

    #[test]
    fn what_is_written_is_seen() {
        for at in 0..GUARD + 5 + GUARD {
            let mut lent = Lent::front(&[1, 2, 3, 4, 5], 3, small_word);
            assert!(lent.is_kept() && lent.beside_is_kept());
            lent.memory[at] = 9;
            assert!(!lent.is_kept());
            let inside = (GUARD..GUARD + 3).contains(&at);
            assert_eq!(lent.beside_is_kept(), inside, "place {at}");
        }
    }

    #[test]
    fn a_list_and_what_follows() {
        let mut lent = Lent::front(&[1, 2, 3], 2, odd_word);
        assert_eq!(lent.list(), [1, 2]);
        lent.list_mut()[0] = 7;
        assert_eq!((lent.list(), lent.first()), (&[7, 2][..], &[1, 2][..]));
        assert_eq!(Lent::filled(4, odd_number).list().len(), 4);
        assert!(Lent::filled(0, odd_byte).list().is_empty());
    }
}
