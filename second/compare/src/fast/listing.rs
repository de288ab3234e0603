//! The listing, put at the start of a buffer.

use super::network::{Entry, Network};
use super::reading::Read;
use second::{Report, Verdict};

/// Puts the listing of a certificate that has got this verdict; tells its length, none if the buffer is too short.
pub fn put(read: &Read, verdict: Verdict, buffer: &mut [u8]) -> Option<usize> {
    if !verdict.is_accepted() {
        return put_refusal(verdict.report, buffer);
    }
    let mut text = Text::at_start(buffer);
    text.counts(read.network)?;
    for record in read.records {
        text.entry(Entry::of(record))?;
    }
    text.words(b"accepted ")?;
    text.number(verdict.report.count, b' ')?;
    text.number(verdict.overflows, b'\n')?;
    Some(text.length)
}

/// The same for a refusal.
pub fn put_refusal(refusal: Report, buffer: &mut [u8]) -> Option<usize> {
    let mut text = Text::at_start(buffer);
    text.refused(refusal)?;
    Some(text.length)
}

/// Text that grows in a buffer.
struct Text<'a> {
    room: &'a mut [u8],
    length: usize,
}

impl Text<'_> {
    fn at_start(room: &mut [u8]) -> Text<'_> {
        Text { room, length: 0 }
    }

    #[inline]
    fn words(&mut self, words: &[u8]) -> Option<()> {
        let end = self.length + words.len();
        self.room.get_mut(self.length..end)?.copy_from_slice(words);
        self.length = end;
        Some(())
    }

    /// A number and the byte behind it.
    #[inline]
    fn number(&mut self, number: u64, behind: u8) -> Option<()> {
        let mut digits = [behind; 21];
        let mut start = 20;
        let mut left = number;
        loop {
            start -= 1;
            digits[start] = b'0' + (left % 10) as u8;
            left /= 10;
            if left == 0 {
                return self.words(&digits[start..]);
            }
        }
    }

    fn counts(&mut self, network: &Network) -> Option<()> {
        let counts: [(&[u8], usize, u8); 6] = [
            (b"links ", network.links, b' '),
            (b"turns ", network.turns, b' '),
            (b"signals ", network.signals, b' '),
            (b"modes ", network.modes, b' '),
            (b"arrivals ", network.boxes, b' '),
            (b"entries ", network.entries, b'\n'),
        ];
        for (name, count, behind) in counts {
            self.words(name)?;
            self.number(count as u64, behind)?;
        }
        Some(())
    }

    #[inline]
    fn entry(&mut self, entry: Entry) -> Option<()> {
        self.number(entry.cell.into(), b' ')?;
        self.number(entry.mode.into(), b' ')?;
        self.number(entry.signal.into(), b' ')?;
        self.number(entry.next.into(), b' ')?;
        self.number(entry.rank.into(), b'\n')
    }

    fn refused(&mut self, refusal: Report) -> Option<()> {
        self.words(b"refused ")?;
        self.number(refusal.number.into(), b' ')?;
        self.number(refusal.a, b' ')?;
        self.number(refusal.b, b' ')?;
        self.number(refusal.count, b'\n')
    }
}
