//! The library's answers in the second program's words, so that the two can be compared.

use second::layout::Reason;
use skorbilek::{Answer, Mapping, Reached, Refusal};

/// An answer of the bindings as the second program names it.
pub fn translated(answer: Result<Answer, Refusal>) -> second::Answer {
    match answer {
        Err(refusal) => second::Answer::Refused {
            number: refusal.number() as u8,
            reason: refusal.reason() as u8,
        },
        Ok(Answer::Done) => second::Answer::Done,
        Ok(Answer::None) => second::Answer::None,
        Ok(Answer::Closed { asid, gpa }) => second::Answer::Closed { asid, gpa },
        Ok(Answer::Opened) => second::Answer::Opened,
        Ok(Answer::Already) => second::Answer::Already,
        Ok(Answer::Word(word)) => second::Answer::Word(word),
        Ok(Answer::Count(count)) => second::Answer::Count(count),
        Ok(Answer::Unfixed { asid }) => second::Answer::Unfixed { asid },
    }
}

/// What a walk of the bindings yields, as the second program names it.
pub fn translated_mapping(
    mapping: Result<Mapping, Refusal>,
) -> Result<second::Mapping, second::Refusal> {
    #[rustfmt::skip]
    let translated = |Mapping { gpa, hpa, gtype, ntype }| second::Mapping { gpa, hpa, gtype, ntype };
    mapping.map(translated).map_err(translated_refusal)
}

/// What another call by virtual address answers, as the second program names it. A refused one names no address.
pub fn translated_reached(reached: Result<Reached, Refusal>) -> second::Reached {
    second::Reached {
        answer: translated(reached.map(|reached| reached.answer)),
        gpa: reached.map_or(0, |reached| reached.gpa),
    }
}

fn translated_refusal(refusal: Refusal) -> second::Refusal {
    match refusal {
        Refusal::Geometry => second::Refusal::Geometry,
        Refusal::Argument => second::Refusal::Argument,
        Refusal::Caller => second::Refusal::Caller,
        Refusal::Outside => second::Refusal::Outside,
        Refusal::BadEntry(reason) => second::Refusal::BadEntry(translated_reason(reason)),
        Refusal::PageType => second::Refusal::Type,
        Refusal::Owner => second::Refusal::Owner,
        Refusal::Address => second::Refusal::Address,
        Refusal::NotValidated => second::Refusal::NotValidated,
        Refusal::Fixed => second::Refusal::Fixed,
        Refusal::NotFixed => second::Refusal::NotFixed,
        Refusal::BrokenLeaf => second::Refusal::BrokenLeaf,
        Refusal::NoPlace => second::Refusal::NoPlace,
        Refusal::PlaceTaken => second::Refusal::PlaceTaken,
        Refusal::LeafInUse => second::Refusal::LeafInUse,
        Refusal::Contents => second::Refusal::Contents,
        Refusal::StillShared => second::Refusal::StillShared,
        Refusal::AbsentEntry => second::Refusal::AbsentEntry,
        Refusal::LargePage => second::Refusal::LargePage,
    }
}

fn translated_reason(reason: skorbilek::Reason) -> Reason {
    match reason {
        skorbilek::Reason::SpareBits => Reason::SpareBits,
        skorbilek::Reason::Asid => Reason::Asid,
        skorbilek::Reason::Flags => Reason::Flags,
        skorbilek::Reason::Address => Reason::Address,
    }
}

#[cfg(test)]
mod tests {
    use super::*;

    #[test]
    fn a_refusal_keeps_its_number_and_reason() {
        for refusal in Refusal::ALL {
            let same = translated_refusal(refusal);
            let numbers = (refusal.number(), refusal.reason());
            assert_eq!((same.number().into(), same.reason().into()), numbers);
        }
    }
}
