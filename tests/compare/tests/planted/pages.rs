//! Faults in the calls for whole pages.

use common::layout::{self, frame_at, frame_of, FRAME_WORDS, LEAF};
use compare::monitor::{Monitor, Second};
use second::{page_check, page_read, page_write, Answer, Reply, Request};

use crate::monitors::{entry, refused, words};

/// A monitor by what it makes of one of the three calls. For all else it is the second program.
pub struct PlantedPage {
    pub name: &'static str,
    pub fault: Fault,
}

pub enum Fault {
    Read(for<'m> fn(Numbers, &[u64], &'m [u64]) -> Reply<'m>),
    Write(fn(&mut Writing) -> Answer),
    Check(fn(Numbers, &[u64], &[u64]) -> Answer),
}

/// Caller, gpa and hpa.
type Numbers = [u64; 3];

/// A page that is to be written.
pub struct Writing<'a> {
    numbers: Numbers,
    given: &'a [u64],
    table: &'a [u64],
    memory: &'a mut [u64],
}

impl Monitor for PlantedPage {
    fn name(&self) -> &str {
        self.name
    }

    #[rustfmt::skip]
    fn reply<'m>(
        &self,
        request: &Request,
        table: &mut [u64],
        memory: &'m mut [u64],
    ) -> Reply<'m> {
        match (&self.fault, request) {
            (Fault::Read(make), &Request::PageRead { caller, gpa, hpa }) =>
                make([caller, gpa, hpa], table, memory),
            (Fault::Write(make), &Request::PageWrite { caller, gpa, hpa, words: ref given }) => {
                let numbers = [caller, gpa, hpa];
                Reply::Answer(make(&mut Writing { numbers, given, table, memory }))
            }
            (Fault::Check(make), &Request::PageCheck { caller, gpa, hpa }) =>
                Reply::Answer(make([caller, gpa, hpa], table, memory)),
            _ => Second.reply(request, table, memory),
        }
    }
}

impl Writing<'_> {
    /// Writes the page as it should be.
    pub fn write(&mut self) -> Answer {
        self.write_run(self.given)
    }

    fn write_run(&mut self, run: &[u64]) -> Answer {
        let [caller, gpa, hpa] = self.numbers;
        page_write(self.table, self.memory, caller, gpa, hpa, run)
    }

    /// What is answered to a page, whatever the run is.
    fn check(&self) -> Answer {
        check(self.numbers, self.table, self.memory)
    }

    /// The frame's words, from the first on.
    fn frame(&mut self) -> &mut [u64] {
        let [_, _, hpa] = self.numbers;
        &mut self.memory[words(hpa)]
    }

    /// Writes the words, whatever the checks say.
    pub fn overwrite(&mut self) {
        let given = self.given;
        self.frame()[..given.len()].copy_from_slice(given);
    }

    /// The type in the frame's entry, if it has one.
    pub fn kind(&self) -> Option<u64> {
        kind(self.numbers, self.table)
    }
}

fn check([caller, gpa, hpa]: Numbers, table: &[u64], memory: &[u64]) -> Answer {
    page_check(table, memory, caller, gpa, hpa)
}

/// What a page is, as it should be.
fn read<'m>([caller, gpa, hpa]: Numbers, table: &[u64], memory: &'m [u64]) -> Reply<'m> {
    match page_read(table, memory, caller, gpa, hpa) {
        [] => Reply::Answer(page_check(table, memory, caller, gpa, hpa)),
        page => Reply::Page(page),
    }
}

fn kind([_, _, hpa]: Numbers, table: &[u64]) -> Option<u64> {
    (frame_of(hpa) < layout::n(table)).then(|| entry(table, hpa).kind)
}

pub const FAULTS: [PlantedPage; 13] = [
    PlantedPage {
        name: "page_read hands back the next frame",
        fault: Fault::Read(|numbers, table, memory| {
            let [_, _, hpa] = numbers;
            match (
                read(numbers, table, memory),
                memory.get(frame_at(frame_of(hpa) + 1)),
            ) {
                (Reply::Page(_), Some(next)) => Reply::Page(next),
                (reply, _) => reply,
            }
        }),
    },
    PlantedPage {
        name: "page_read hands back a LEAF (6 is skipped)",
        fault: Fault::Read(
            |numbers, table, memory| match read(numbers, table, memory) {
                Reply::Answer(Answer::Refused { number: 6, .. })
                    if kind(numbers, table) == Some(LEAF) =>
                {
                    Reply::Page(&memory[words(numbers[2])])
                }
                reply => reply,
            },
        ),
    },
    PlantedPage {
        name: "page_read hands back a copy",
        fault: Fault::Read(
            |numbers, table, memory| match read(numbers, table, memory) {
                Reply::Page(page) => Reply::Page(Box::leak(page.into())),
                reply => reply,
            },
        ),
    },
    PlantedPage {
        name: "page_read hands back 511 words",
        fault: Fault::Read(
            |numbers, table, memory| match read(numbers, table, memory) {
                Reply::Page(page) => Reply::Page(&page[..511]),
                reply => reply,
            },
        ),
    },
    PlantedPage {
        name: "page_write writes all words but the last",
        fault: Fault::Write(|page| {
            let before = page.memory.to_vec();
            let answer = page.write();
            if answer == Answer::Done {
                let [_, _, hpa] = page.numbers;
                page.frame()[511] = before[words(hpa)][511];
            }
            answer
        }),
    },
    PlantedPage {
        name: "page_write writes where it is refused with 6",
        fault: Fault::Write(|page| {
            let answer = page.write();
            if answer == refused(6) {
                page.overwrite();
            }
            answer
        }),
    },
    PlantedPage {
        name: "page_write accepts a run of 511 words",
        fault: Fault::Write(|page| match page.check() {
            Answer::Done if page.given.len() == 511 => {
                page.overwrite();
                Answer::Done
            }
            _ => page.write(),
        }),
    },
    PlantedPage {
        name: "page_write takes the first 512 words of more",
        fault: Fault::Write(|page| {
            let length = page.given.len().min(FRAME_WORDS);
            page.write_run(&page.given[..length])
        }),
    },
    PlantedPage {
        name: "page_write checks the run after 4",
        fault: Fault::Write(|page| match page.check() {
            answer @ Answer::Refused { number: 4, .. } => answer,
            _ => page.write(),
        }),
    },
    PlantedPage {
        name: "page_write checks the run before 1",
        fault: Fault::Write(|page| match page.given.len() {
            FRAME_WORDS => page.write(),
            _ => refused(2),
        }),
    },
    PlantedPage {
        name: "page_write needs an entry (4 from N on)",
        fault: Fault::Write(|page| match (page.check(), page.kind()) {
            (Answer::Done, None) if page.given.len() == FRAME_WORDS => refused(4),
            _ => page.write(),
        }),
    },
    PlantedPage {
        name: "page_check does not look at gpa",
        fault: Fault::Check(|[caller, _, hpa], table, memory| {
            check([caller, 0, hpa], table, memory)
        }),
    },
    PlantedPage {
        name: "page_check is the host's alone (3)",
        fault: Fault::Check(
            |numbers, table, memory| match check(numbers, table, memory) {
                answer @ Answer::Refused { number: 1..=2, .. } => answer,
                _ if numbers[0] != 0 => refused(3),
                answer => answer,
            },
        ),
    },
];
