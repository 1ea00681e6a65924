//! How many messages are in a stream.

/// How many bytes the header of a message has. Its last two say how long the message is, header and all.
const HEADER: usize = 8;

/// Counts the messages of a stream as its bytes come.
#[derive(Debug, Default)]
pub(super) struct Frames {
    /// The header of a message that has not come as a whole.
    header: [u8; HEADER],
    /// How many bytes of the header have come.
    has: usize,
    /// How many bytes are missing of the message whose header has come.
    missing: usize,
}

impl Frames {
    /// These bytes come next. The answer is how many messages have come as a whole by them.
    #[inline]
    pub(super) fn push(&mut self, mut bytes: &[u8]) -> usize {
        let mut count = 0;
        loop {
            if self.is_between() {
                count += Frames::take_whole(&mut bytes);
            }
            if bytes.is_empty() {
                return count;
            }
            count += self.push_cut(&mut bytes);
        }
    }

    /// Whether each message that has begun has come as a whole.
    pub(super) fn is_between(&self) -> bool {
        self.has == 0
    }

    /// The bytes begin within a message, or with one that is cut. Its bytes are taken off. The answer is how many messages
    /// that makes whole.
    #[cold]
    fn push_cut(&mut self, bytes: &mut &[u8]) -> usize {
        if self.has < HEADER {
            let count = (HEADER - self.has).min(bytes.len());
            self.header[self.has..self.has + count].copy_from_slice(&bytes[..count]);
            self.has += count;
            *bytes = &bytes[count..];
            if self.has < HEADER {
                return 0;
            }
            self.missing = length(&self.header) - HEADER;
        }
        let count = self.missing.min(bytes.len());
        *bytes = &bytes[count..];
        self.missing -= count;
        if self.missing > 0 {
            return 0;
        }
        self.has = 0;
        1
    }

    /// Takes the messages off that stand first as a whole, and answers how many these are.
    #[inline]
    fn take_whole(bytes: &mut &[u8]) -> usize {
        let mut count = 0;
        while let Some(header) = bytes.first_chunk() {
            let Some(rest) = bytes.get(length(header)..) else {
                break;
            };
            *bytes = rest;
            count += 1;
        }
        count
    }
}

/// How long the message with this header is. A length below that of the header is wrong: the session refuses it.
fn length(header: &[u8; HEADER]) -> usize {
    let [.., a, b, c, d] = *header;
    ((u32::from_ne_bytes([a, b, c, d]) >> 16) as usize).max(HEADER)
}

#[cfg(test)]
mod tests {
    use super::*;

    fn message(length: u16) -> Vec<u8> {
        let mut bytes = 7u32.to_ne_bytes().to_vec();
        bytes.extend((u32::from(length) << 16 | 3).to_ne_bytes());
        bytes.resize(length.into(), 0xFF);
        bytes
    }

    #[test]
    fn whole_messages_count_wherever_the_stream_is_cut() {
        let stream = [message(8), message(12), message(65532), message(8)].concat();
        for first in (0..30).chain(stream.len() - 20..=stream.len()) {
            let mut frames = Frames::default();
            let (one, other) = stream.split_at(first);
            let before = frames.push(one);
            let is_between = frames.is_between();
            assert_eq!(before + frames.push(other), 4, "cut at {first}");
            assert!(frames.is_between());
            let expected = [8, 20, 65552, 65560]
                .iter()
                .filter(|end| **end <= first)
                .count();
            assert_eq!(before, expected, "cut at {first}");
            assert_eq!(is_between, [0, 8, 20, 65552, 65560].contains(&first));
        }
    }

    #[test]
    fn bytes_that_come_one_by_one_count_too() {
        let mut frames = Frames::default();
        let mut counts = Vec::new();
        for byte in [message(12), message(8)].concat() {
            counts.push(frames.push(&[byte]));
        }
        let mut expected = vec![0; 20];
        (expected[11], expected[19]) = (1, 1);
        assert_eq!(counts, expected);
    }
}
