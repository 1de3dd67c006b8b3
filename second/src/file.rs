//! The display file: its header, its segments and the fetch of a word.

use crate::answer::{Answer, Door, Fault};

const TAG: u16 = 1;
const MOST_SEGMENTS: usize = 8;
/// The most words a segment may hold, and the words of address space each one is given.
const SEGMENT_WORDS: usize = 4_096;

/// An accepted file, cut into its segments. Words in none of them are out of reach.
pub(crate) struct File<'a> {
    segments: [&'a [u16]; MOST_SEGMENTS],
    count: usize,
}

/// Says whether a file's header holds what it must.
pub fn check(words: &[u16]) -> Answer {
    Answer::from(File::open(words).map(|_| ()))
}

impl<'a> File<'a> {
    pub(crate) fn open(words: &'a [u16]) -> Result<File<'a>, Door> {
        if words.len() < 2 {
            return Err(Door::FileTooShort);
        }
        if words[0] != TAG {
            return Err(Door::Tag);
        }
        let count = usize::from(words[1]);
        if !(1..=MOST_SEGMENTS).contains(&count) {
            return Err(Door::SegmentCount);
        }
        let header = 2 + 2 * count;
        if words.len() < header {
            return Err(Door::FileTooShort);
        }
        let mut segments: [&[u16]; MOST_SEGMENTS] = [&[]; MOST_SEGMENTS];
        for (segment, pair) in segments.iter_mut().zip(words[2..header].chunks_exact(2)) {
            *segment = cut(words, header, usize::from(pair[0]), usize::from(pair[1]))?;
        }
        Ok(File { segments, count })
    }

    /// The word at a byte address.
    pub(crate) fn fetch(&self, address: u16) -> Result<u16, Fault> {
        if address % 2 == 1 {
            return Err(Fault::OddAddress);
        }
        let word = usize::from(address / 2);
        let segment = self.segments[..self.count]
            .get(word / SEGMENT_WORDS)
            .ok_or(Fault::NoSuchSegment)?;
        segment
            .get(word % SEGMENT_WORDS)
            .copied()
            .ok_or(Fault::PastSegmentEnd)
    }
}

fn cut(words: &[u16], header: usize, offset: usize, length: usize) -> Result<&[u16], Door> {
    if offset < header || length > SEGMENT_WORDS {
        return Err(Door::SegmentBounds);
    }
    words
        .get(offset..offset + length)
        .ok_or(Door::SegmentBounds)
}

#[cfg(test)]
mod tests {
    use super::*;

    #[test]
    fn an_address_names_a_segment_and_a_place() {
        let mut words = vec![1, 2, 6, 4_096, 4_102, 3];
        words.extend(0..4_099);
        let file = File::open(&words).expect("the header is sound");
        assert_eq!(file.fetch(0), Ok(0));
        assert_eq!(file.fetch(2), Ok(1));
        assert_eq!(file.fetch(8_190), Ok(4_095));
        assert_eq!(file.fetch(8_192), Ok(4_096));
        assert_eq!(file.fetch(8_196), Ok(4_098));
        assert_eq!(file.fetch(8_198), Err(Fault::PastSegmentEnd));
        assert_eq!(file.fetch(16_384), Err(Fault::NoSuchSegment));
        assert_eq!(file.fetch(16_383), Err(Fault::OddAddress));
        assert_eq!(file.fetch(65_535), Err(Fault::OddAddress));
    }

    #[test]
    fn segments_may_overlap_and_may_be_empty() {
        let words = [1, 3, 8, 2, 9, 1, 10, 0, 70, 71];
        let file = File::open(&words).expect("the header is sound");
        assert_eq!(file.fetch(2), Ok(71));
        assert_eq!(file.fetch(8_192), Ok(71));
        assert_eq!(file.fetch(16_384), Err(Fault::PastSegmentEnd));
    }

    #[test]
    fn eight_segments_fill_the_address_space() {
        let mut words = vec![1, 8];
        for _ in 0..8 {
            words.extend([18, 4_096]);
        }
        words.extend(0..4_096);
        let file = File::open(&words).expect("the header is sound");
        assert_eq!(file.fetch(57_344), Ok(0));
        assert_eq!(file.fetch(65_534), Ok(4_095));
    }
}
