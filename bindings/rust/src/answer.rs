//! What a call answers.

use crate::Reached;
use std::error::Error;
use std::fmt;

/// `skorbilek_answer` of the header, field for field.
#[repr(C)]
pub(crate) struct Flat {
    refusal: u64,
    kind: u64,
    asid: u64,
    gpa: u64,
    value: u64,
    reason: u64,
}

/// What an accepted call answers.
#[derive(Clone, Copy, PartialEq, Eq, Hash, Debug)]
pub enum Answer {
    /// PFIX, PMERGE, PUNMERGE, WRITE, and the check or the writing of a whole page: it is done.
    Done,
    /// RMPUPDATE: no open page was closed.
    None,
    /// RMPUPDATE: this guest's page at this address was closed.
    Closed {
        /// The guest.
        asid: u64,
        /// The address that the page had.
        gpa: u64,
    },
    /// PVALIDATE: the page is open now.
    Opened,
    /// PVALIDATE: the page was open already.
    Already,
    /// READ: the word.
    Word(u64),
    /// CENSUS: how many places the guest has.
    Count(u64),
    /// PUNFIX: the page is this guest's now, or nobody's.
    Unfixed {
        /// The guest; 0 if none was left in the page.
        asid: u64,
    },
}

/// Why a call was refused: the first of its checks that failed. Table and memory are then as they were.
#[derive(Clone, Copy, PartialEq, Eq, Hash, Debug)]
pub enum Refusal {
    /// 1: the lengths of table and memory break the sizes.
    Geometry,
    /// 2: no address, an ASID or word index above 511, a type that is not allowed, a written run that is not 512 words, no virtual
    /// address, or a guest address of 2^48 or more on the way of a walk.
    Argument,
    /// 3: the call is not this party's.
    Caller,
    /// 4: a named frame is N or above (READ, WRITE, whole pages and what a walk reads: M or above).
    Outside,
    /// 5: the entry of a named frame is not well formed, for this reason. Of two named frames with such an entry it is that of the one
    /// that comes first among the arguments, and in CENSUS that of the lowest frame.
    BadEntry(Reason),
    /// 6: the type is not the one needed.
    PageType,
    /// 7: the page is another party's.
    Owner,
    /// 8: the page is at another guest address.
    Address,
    /// 9: the guest has not accepted the page.
    NotValidated,
    /// 10: the page is fixed and must not be.
    Fixed,
    /// 11: the page is not fixed and must be.
    NotFixed,
    /// 12: the leaf's entry is no well formed LEAF, or the word consulted is misshapen (PUNFIX: or at index 0).
    BrokenLeaf,
    /// 13: the guest has no place in the fixed page.
    NoPlace,
    /// 14: the guest has a place in the fixed page already.
    PlaceTaken,
    /// 15: another fixed page has this leaf.
    LeafInUse,
    /// 16: the two frames differ.
    Contents,
    /// 17: two or more words of the leaf are present, misshapen or not.
    StillShared,
    /// 18: an entry of a page table on the way of a walk is absent.
    AbsentEntry,
    /// 19: an entry of a page table on the way of a walk, above the last level, has bit 7 set: a large page.
    LargePage,
}

/// What is bad in an entry: the first of the rules, in this order, that it breaks.
///
/// ```
/// use skorbilek::{read, Reason, Refusal, HOST, SHARED};
///
/// // something has set bit 20 of frame 2's entry, and has given frame 3, which is nobody's, an address
/// let mut table = [0; 16];
/// table[2 * 2] = 0x100000;
/// table[2 * 3 + 1] = 0x50000;
/// let memory = vec![0; 5120];
/// let refusal = |hpa| read(&table, &memory, HOST, 0, hpa, SHARED, SHARED, 0).unwrap_err();
/// assert_eq!(refusal(0x2000), Refusal::BadEntry(Reason::SpareBits));
/// assert_eq!(refusal(0x3000), Refusal::BadEntry(Reason::Address));
/// ```
#[derive(Clone, Copy, PartialEq, Eq, Hash, Debug)]
pub enum Reason {
    /// 1: a bit of word 0 above FIXED, 63 to 20, is set.
    SpareBits = 1,
    /// 2: SHARED or LEAF with an ASID; PRIVATE or MERGEABLE with none, or with one above 511.
    Asid = 2,
    /// 3: SHARED or LEAF with a flag; PRIVATE and FIXED; FIXED and not VALIDATED.
    Flags = 3,
    /// 4: word 1 of SHARED or LEAF is not 0; else it is no address, or, with FIXED, not that of a frame below N.
    Address = 4,
}

impl Reason {
    /// Its number in the rules, 1 to 4.
    ///
    /// ```
    /// assert_eq!(skorbilek::Reason::Flags.number(), 3);
    /// ```
    pub fn number(self) -> u64 {
        self as u64
    }

    /// Its name in the rules.
    pub fn name(self) -> &'static str {
        match self {
            Reason::SpareBits => "spare bits",
            Reason::Asid => "ASID against type",
            Reason::Flags => "flags",
            Reason::Address => "address",
        }
    }
}

impl Refusal {
    /// All of them, by number, and 5 once for each reason.
    pub const ALL: [Refusal; 22] = [
        Refusal::Geometry,
        Refusal::Argument,
        Refusal::Caller,
        Refusal::Outside,
        Refusal::BadEntry(Reason::SpareBits),
        Refusal::BadEntry(Reason::Asid),
        Refusal::BadEntry(Reason::Flags),
        Refusal::BadEntry(Reason::Address),
        Refusal::PageType,
        Refusal::Owner,
        Refusal::Address,
        Refusal::NotValidated,
        Refusal::Fixed,
        Refusal::NotFixed,
        Refusal::BrokenLeaf,
        Refusal::NoPlace,
        Refusal::PlaceTaken,
        Refusal::LeafInUse,
        Refusal::Contents,
        Refusal::StillShared,
        Refusal::AbsentEntry,
        Refusal::LargePage,
    ];

    /// The refusal with this number and reason.
    #[inline]
    pub(crate) fn of(number: u64, reason: u64) -> Option<Refusal> {
        let place = match (number, reason) {
            (1..=4, 0) => number - 1,
            (5, 1..=4) => 3 + reason,
            (6..=19, 0) => number + 2,
            _ => return None,
        };
        Some(Refusal::ALL[place as usize])
    }

    /// Its number in the rules, 1 to 19.
    ///
    /// ```
    /// assert_eq!(skorbilek::Refusal::StillShared.number(), 17);
    /// ```
    pub fn number(self) -> u64 {
        match self {
            Refusal::Geometry => 1,
            Refusal::Argument => 2,
            Refusal::Caller => 3,
            Refusal::Outside => 4,
            Refusal::BadEntry(_) => 5,
            Refusal::PageType => 6,
            Refusal::Owner => 7,
            Refusal::Address => 8,
            Refusal::NotValidated => 9,
            Refusal::Fixed => 10,
            Refusal::NotFixed => 11,
            Refusal::BrokenLeaf => 12,
            Refusal::NoPlace => 13,
            Refusal::PlaceTaken => 14,
            Refusal::LeafInUse => 15,
            Refusal::Contents => 16,
            Refusal::StillShared => 17,
            Refusal::AbsentEntry => 18,
            Refusal::LargePage => 19,
        }
    }

    /// The number of its reason: 1 to 4 with 5, and 0 with any other.
    ///
    /// ```
    /// use skorbilek::{Reason, Refusal};
    ///
    /// assert_eq!(Refusal::BadEntry(Reason::Asid).reason(), 2);
    /// assert_eq!(Refusal::BrokenLeaf.reason(), 0);
    /// ```
    pub fn reason(self) -> u64 {
        match self {
            Refusal::BadEntry(reason) => reason.number(),
            _ => 0,
        }
    }

    /// Its name in the rules.
    pub fn name(self) -> &'static str {
        match self {
            Refusal::Geometry => "GEOMETRY",
            Refusal::Argument => "ARGUMENT",
            Refusal::Caller => "CALLER",
            Refusal::Outside => "OUTSIDE",
            Refusal::BadEntry(_) => "BAD ENTRY",
            Refusal::PageType => "TYPE",
            Refusal::Owner => "OWNER",
            Refusal::Address => "ADDRESS",
            Refusal::NotValidated => "NOT VALIDATED",
            Refusal::Fixed => "FIXED",
            Refusal::NotFixed => "NOT FIXED",
            Refusal::BrokenLeaf => "BROKEN LEAF",
            Refusal::NoPlace => "NO PLACE",
            Refusal::PlaceTaken => "PLACE TAKEN",
            Refusal::LeafInUse => "LEAF IN USE",
            Refusal::Contents => "CONTENTS",
            Refusal::StillShared => "STILL SHARED",
            Refusal::AbsentEntry => "ABSENT ENTRY",
            Refusal::LargePage => "LARGE PAGE",
        }
    }
}

/// The number and the name.
///
/// ```
/// assert_eq!(skorbilek::Reason::Asid.to_string(), "reason 2, ASID against type");
/// ```
impl fmt::Display for Reason {
    fn fmt(&self, f: &mut fmt::Formatter<'_>) -> fmt::Result {
        write!(f, "reason {}, {}", self.number(), self.name())
    }
}

/// The number and the name, and those of the reason where there is one.
///
/// ```
/// use skorbilek::{Reason, Refusal};
///
/// assert_eq!(Refusal::NoPlace.to_string(), "refused with 13, NO PLACE");
/// let bad = Refusal::BadEntry(Reason::SpareBits);
/// assert_eq!(bad.to_string(), "refused with 5, BAD ENTRY: reason 1, spare bits");
/// ```
impl fmt::Display for Refusal {
    fn fmt(&self, f: &mut fmt::Formatter<'_>) -> fmt::Result {
        write!(f, "refused with {}, {}", self.number(), self.name())?;
        match self {
            Refusal::BadEntry(reason) => write!(f, ": {reason}"),
            _ => Ok(()),
        }
    }
}

impl Error for Refusal {}

impl Flat {
    /// The answer that these numbers are.
    ///
    /// # Panics
    ///
    /// On a kind, a number or a reason that the header does not have: the library is then not the one that this crate was written for.
    #[inline]
    pub(crate) fn answer(self) -> Result<Answer, Refusal> {
        match self.kind {
            0 => Err(self.refusal()),
            1 => Ok(Answer::Done),
            2 => Ok(Answer::None),
            3 => Ok(Answer::Closed {
                asid: self.asid,
                gpa: self.gpa,
            }),
            4 => Ok(Answer::Opened),
            5 => Ok(Answer::Already),
            6 => Ok(Answer::Word(self.value)),
            7 => Ok(Answer::Count(self.value)),
            8 => Ok(Answer::Unfixed { asid: self.asid }),
            _ => self.unknown(),
        }
    }

    /// The same of a call by virtual address, whose accepted answer names the guest address too.
    #[inline]
    pub(crate) fn reached(self) -> Result<Reached, Refusal> {
        let gpa = self.gpa;
        let answer = self.answer()?;
        Ok(Reached { answer, gpa })
    }

    #[inline]
    fn refusal(self) -> Refusal {
        Refusal::of(self.refusal, self.reason).unwrap_or_else(|| self.unknown())
    }

    #[cold]
    fn unknown(self) -> ! {
        panic!(
            "libskorbilek.a answers kind {}, refusal {}, reason {}, which this crate does not know",
            self.kind, self.refusal, self.reason
        )
    }
}

#[cfg(test)]
mod tests {
    use super::{Answer, Flat, Refusal};
    use std::panic::catch_unwind;

    fn refused(refusal: u64, reason: u64) -> Result<Answer, Refusal> {
        let [kind, asid, gpa, value] = [0; 4];
        #[rustfmt::skip]
        let flat = Flat { refusal, kind, asid, gpa, value, reason };
        flat.answer()
    }

    #[test]
    fn each_kind_is_another_answer() {
        let [refusal, reason] = [0; 2];
        let [asid, gpa, value] = [7, 0x50000, 42];
        let told = |kind| {
            #[rustfmt::skip]
            let flat = Flat { refusal, kind, asid, gpa, value, reason };
            flat.answer()
        };
        let answers = [
            Answer::Done,
            Answer::None,
            Answer::Closed { asid, gpa },
            Answer::Opened,
            Answer::Already,
            Answer::Word(value),
            Answer::Count(value),
            Answer::Unfixed { asid },
        ];
        for (kind, answer) in (1..).zip(answers) {
            assert_eq!(told(kind), Ok(answer));
        }
        assert!(catch_unwind(|| told(9)).is_err());
    }

    #[test]
    fn each_refusal_is_told_by_its_number_and_reason() {
        for refusal in Refusal::ALL {
            let told = refused(refusal.number(), refusal.reason());
            assert_eq!(told, Err(refusal));
        }
    }

    #[test]
    fn no_other_number_and_reason_are_a_refusal() {
        for number in 0..=20 {
            for reason in 0..=5 {
                let is_one = match number {
                    1..=4 | 6..=19 => reason == 0,
                    _ => number == 5 && (1..=4).contains(&reason),
                };
                let told = catch_unwind(|| refused(number, reason));
                assert_eq!(told.is_ok(), is_one, "{number}, {reason}");
            }
        }
    }
}
