//! What a call answered, in words that both sides share.

use common::answer::translated;
use skorbilek::{Answer, Refusal};

/// An answer, and what comes with it where the call is by virtual address.
#[derive(PartialEq, Debug)]
pub struct Told {
    pub answer: second::Answer,
    found: Option<Found>,
}

/// Where the address led.
#[derive(PartialEq, Debug)]
enum Found {
    /// Guest address, frame address, and the guest's and the host's type.
    Mapping([u64; 4]),
    /// The guest address.
    Page(u64),
}

/// What a side answers, as it answers it.
pub trait Tell {
    fn told(self) -> Told;
}

impl Tell for second::Answer {
    fn told(self) -> Told {
        Told {
            answer: self,
            found: None,
        }
    }
}

impl Tell for Result<Answer, Refusal> {
    fn told(self) -> Told {
        translated(self).told()
    }
}

impl Tell for second::Reached {
    fn told(self) -> Told {
        match self.answer {
            second::Answer::Refused { .. } => self.answer.told(),
            answer => Told {
                answer,
                found: Some(Found::Page(self.gpa)),
            },
        }
    }
}

impl Tell for Result<skorbilek::Reached, Refusal> {
    fn told(self) -> Told {
        Told {
            answer: translated(self.map(|reached| reached.answer)),
            found: self.ok().map(|reached| Found::Page(reached.gpa)),
        }
    }
}

impl Tell for Result<second::Mapping, second::Refusal> {
    fn told(self) -> Told {
        match self {
            Ok(at) => mapping([at.gpa, at.hpa, at.gtype, at.ntype]),
            Err(refusal) => second::Answer::from(refusal).told(),
        }
    }
}

impl Tell for Result<skorbilek::Mapping, Refusal> {
    fn told(self) -> Told {
        match self {
            Ok(at) => mapping([at.gpa, at.hpa, at.gtype, at.ntype]),
            Err(refusal) => translated(Err(refusal)).told(),
        }
    }
}

/// What an accepted walk tells.
fn mapping(numbers: [u64; 4]) -> Told {
    Told {
        answer: second::Answer::Done,
        found: Some(Found::Mapping(numbers)),
    }
}
