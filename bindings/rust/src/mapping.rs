//! What the calls by virtual address answer.

use crate::{Answer, Refusal};

/// `skorbilek_mapping` of the header, field for field.
#[repr(C)]
pub(crate) struct FlatMapping {
    refusal: u64,
    reason: u64,
    gpa: u64,
    hpa: u64,
    gtype: u64,
    ntype: u64,
}

/// Where a virtual address leads: what [`walk`](crate::walk) finds.
#[derive(Clone, Copy, PartialEq, Eq, Hash, Debug)]
pub struct Mapping {
    /// The guest address of the page.
    pub gpa: u64,
    /// The address of its frame.
    pub hpa: u64,
    /// The type of the page in the guest's table.
    pub gtype: u64,
    /// Its type in the host's table.
    pub ntype: u64,
}

/// What an accepted call by virtual address answers.
#[derive(Clone, Copy, PartialEq, Eq, Hash, Debug)]
pub struct Reached {
    /// The answer of the call that was made on what the walk found.
    pub answer: Answer,
    /// The guest address that the walk found.
    pub gpa: u64,
}

impl FlatMapping {
    /// The mapping that these numbers are.
    ///
    /// # Panics
    ///
    /// On a number or a reason that the header does not have: the library is then not the one that this crate was written for.
    #[inline]
    pub(crate) fn mapping(self) -> Result<Mapping, Refusal> {
        if (self.refusal, self.reason) != (0, 0) {
            let refusal = Refusal::of(self.refusal, self.reason);
            return Err(refusal.unwrap_or_else(|| self.unknown()));
        }
        Ok(Mapping {
            gpa: self.gpa,
            hpa: self.hpa,
            gtype: self.gtype,
            ntype: self.ntype,
        })
    }

    #[cold]
    fn unknown(&self) -> ! {
        panic!(
            "libskorbilek.a answers a walk with refusal {}, reason {}, which this crate does not know",
            self.refusal, self.reason
        )
    }
}

#[cfg(test)]
mod tests {
    use super::{FlatMapping, Mapping};
    use crate::Refusal;
    use std::panic::catch_unwind;

    fn told(refusal: u64, reason: u64) -> Result<Mapping, Refusal> {
        let [gpa, hpa, gtype, ntype] = [0x50000, 0x1000, 1, 2];
        #[rustfmt::skip]
        let flat = FlatMapping { refusal, reason, gpa, hpa, gtype, ntype };
        flat.mapping()
    }

    #[test]
    fn each_refusal_is_told_by_its_number_and_reason() {
        for refusal in Refusal::ALL {
            assert_eq!(told(refusal.number(), refusal.reason()), Err(refusal));
        }
    }

    #[test]
    fn no_refusal_is_the_mapping() {
        let [gpa, hpa, gtype, ntype] = [0x50000, 0x1000, 1, 2];
        #[rustfmt::skip]
        let mapping = Mapping { gpa, hpa, gtype, ntype };
        assert_eq!(told(0, 0), Ok(mapping));
    }

    #[test]
    fn other_numbers_and_reasons_are_neither() {
        for (number, reason) in [(0, 1), (5, 0), (5, 5), (18, 1), (20, 0), (u64::MAX, 0)] {
            let told = catch_unwind(|| told(number, reason));
            assert!(told.is_err(), "{number}, {reason}");
        }
    }
}
