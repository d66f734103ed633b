//! Receipts: what a call did to entries.

use core::fmt;
use papr_sys::papr_receipt;

/// The most receipts that a call gives.
pub(crate) const RECEIPTS: usize = 16;

/// What an entry answered.
#[derive(Clone, Copy, Debug, PartialEq, Eq, Hash)]
pub enum Answer {
    /// It was entered.
    Entered,
    /// It was valid already.
    Taken,
    /// It was emptied.
    Removed,
    /// Its protection was changed.
    Protected,
    /// R or C was cleared.
    Was,
    /// It was read.
    Read,
    /// It is empty, or fails the test.
    NotFound,
    /// It doesn't translate the page of the access.
    NoMatch,
    /// It translates the page, and its protection refuses the access.
    Denied,
    /// The access is allowed, and recorded in R and C.
    At,
    /// Its stamp is at its last value.
    Worn,
    /// Its protection allows the access, and AMR or IAMR refuses it.
    Masked,
}

/// The answers by the numbers of the library, each with the word that replies have.
const ANSWERS: [(Answer, &str); 12] = [
    (Answer::Entered, "entered"),
    (Answer::Taken, "taken"),
    (Answer::Removed, "removed"),
    (Answer::Protected, "protected"),
    (Answer::Was, "was"),
    (Answer::Read, "read"),
    (Answer::NotFound, "notfound"),
    (Answer::NoMatch, "nomatch"),
    (Answer::Denied, "denied"),
    (Answer::At, "at"),
    (Answer::Worn, "worn"),
    (Answer::Masked, "masked"),
];

impl fmt::Display for Answer {
    /// As replies write it.
    fn fmt(&self, f: &mut fmt::Formatter<'_>) -> fmt::Result {
        f.write_str(ANSWERS[*self as usize].1)
    }
}

/// One operation on one entry, with the entry's state before.
#[derive(Clone, Copy, Debug, PartialEq, Eq)]
pub struct Receipt {
    /// The index of the entry.
    pub entry: u32,
    /// How often calls had entered, removed or protected it, or cleared R or C, set or not.
    pub stamp: u32,
    /// R.
    pub referenced: bool,
    /// C.
    pub changed: bool,
    /// What it answered.
    pub answer: Answer,
    /// Doubleword 0.
    pub dword0: u64,
    /// Doubleword 1, with R and C.
    pub dword1: u64,
}

impl fmt::Display for Receipt {
    /// As replies write it: `0x27.0.0.entered`.
    fn fmt(&self, f: &mut fmt::Formatter<'_>) -> fmt::Result {
        let bits = 2 * u8::from(self.referenced) + u8::from(self.changed);
        write!(
            f,
            "{:#x}.{}.{}.{}",
            self.entry, self.stamp, bits, self.answer
        )
    }
}

impl From<&papr_receipt> for Receipt {
    fn from(it: &papr_receipt) -> Receipt {
        Receipt {
            entry: it.entry,
            stamp: it.stamp,
            referenced: it.bits & 2 != 0,
            changed: it.bits & 1 != 0,
            answer: ANSWERS[usize::from(it.answer)].0,
            dword0: it.dword0,
            dword1: it.dword1,
        }
    }
}

/// The receipts of one call, in order.
#[derive(Clone)]
pub struct Receipts<'a> {
    left: core::slice::Iter<'a, papr_receipt>,
}

impl Iterator for Receipts<'_> {
    type Item = Receipt;

    fn next(&mut self) -> Option<Receipt> {
        self.left.next().map(Receipt::from)
    }

    fn size_hint(&self) -> (usize, Option<usize>) {
        self.left.size_hint()
    }
}

impl DoubleEndedIterator for Receipts<'_> {
    fn next_back(&mut self) -> Option<Receipt> {
        self.left.next_back().map(Receipt::from)
    }
}

impl ExactSizeIterator for Receipts<'_> {}

/// Places for the receipts of one call, and how many it filled.
#[derive(Clone, Copy, Debug, Default, PartialEq, Eq)]
pub(crate) struct ReceiptRoom {
    places: [papr_receipt; RECEIPTS],
    filled: usize,
}

impl ReceiptRoom {
    /// What the library takes for it. It writes no more than these places.
    pub(crate) fn lent(&mut self) -> (*mut papr_receipt, usize) {
        (self.places.as_mut_ptr(), RECEIPTS)
    }

    /// With so many receipts that the library filled.
    pub(crate) fn with(mut self, filled: u32) -> ReceiptRoom {
        self.filled = filled as usize;
        self
    }

    /// The receipts.
    pub(crate) fn receipts(&self) -> Receipts<'_> {
        Receipts {
            left: self.places[..self.filled].iter(),
        }
    }
}
