//! A bookkeeping of demand 3 from the calls and their answers (document 01,
//! "The calls", from "A *place* of a guest" on).

use std::collections::BTreeMap;

use crate::call::{Answer, Call, Reply, Request};
use crate::layout::{is_asid, Entry, Kind, LeafWord, ENTRY_WORDS, FRAME_BYTES, FRAME_WORDS};
use crate::walk::{walk, Mapping, Reached, Virtual};

const NO_ANSWER: &str = "no answer to this call";

/// A guest and one of its page addresses: ASID, GPA.
type Holding = (u64, u64);

/// What the history so far says of each guest and address.
#[derive(Default, Debug)]
pub struct Ledger {
    accounts: BTreeMap<Holding, Account>,
}

#[derive(Default, Debug)]
struct Account {
    openings: u64,
    closings: u64,
    /// The contents as of the first opening; of no use after a second one.
    page: Option<Page>,
}

#[derive(Debug)]
struct Page {
    /// The words found at the opening.
    found: Box<[u64; FRAME_WORDS]>,
    /// The last accepted write since the opening, by word index.
    written: BTreeMap<u64, u64>,
}

impl Ledger {
    /// The ledger of an empty history.
    pub fn new() -> Self {
        Self::default()
    }

    /// Notes a call and its answer. `memory_before` is memory as the call got
    /// it. An error says which part of demand 3 is broken.
    pub fn note(
        &mut self,
        call: &Call,
        answer: Answer,
        memory_before: &[u64],
    ) -> Result<(), String> {
        self.enter(call, answer, memory_before)
            .map_err(|broken| format!("`{call}` answered {answer:?}: {broken}"))
    }

    /// Notes a request, as `note` does a call. `table_before` is the table as
    /// the request got it.
    pub fn note_request(
        &mut self,
        request: &Request,
        reply: Reply,
        table_before: &[u64],
        memory_before: &[u64],
    ) -> Result<(), String> {
        if let (Request::Call(call), Reply::Answer(answer)) = (request, reply) {
            return self.note(call, answer, memory_before);
        }
        self.enter_request(request, reply, table_before, memory_before)
            .map_err(|broken| format!("{request:x?} answered {reply:x?}: {broken}"))
    }

    /// Enters a request that is none of the nine calls. One for a whole page is
    /// SHARED, so it enters no account, and neither do the reads of a walk.
    fn enter_request(
        &mut self,
        request: &Request,
        reply: Reply,
        table: &[u64],
        memory: &[u64],
    ) -> Result<(), String> {
        if page_fits(request, reply) || walk_refusal_fits(request, reply) {
            return Ok(());
        }
        let at = request.virtual_address().ok_or(NO_ANSWER)?;
        let mapping = walked(at, table, memory)?;
        match (call_at(request, mapping), reply) {
            (None, Reply::Mapping(Ok(yielded))) if yielded == mapping => Ok(()),
            (Some(call), Reply::Reached(Reached { answer, gpa }))
                if gpa == mapping.gpa && !matches!(answer, Answer::Refused { .. }) =>
            {
                self.enter(&call, answer, memory)
            }
            _ => Err(format!("the walk yields {mapping:x?}")),
        }
    }

    #[rustfmt::skip]
    fn enter(&mut self, call: &Call, answer: Answer, memory: &[u64]) -> Result<(), String> {
        if !fits(call, answer) {
            return Err(NO_ANSWER.to_owned());
        }
        match (*call, answer) {
            (Call::Pvalidate { caller, gpa, hpa, .. }, Answer::Opened) => {
                self.open((caller, gpa), hpa, memory)?;
            }
            (Call::Rmpupdate { .. }, Answer::Closed { asid, gpa }) => {
                self.account((asid, gpa)).closings += 1;
            }
            (Call::Write { caller, gpa, gtype: 1 | 2, index, value, .. }, Answer::Done) => {
                self.write((caller, gpa), index, value);
            }
            (Call::Read { caller, gpa, gtype: 1 | 2, index, .. }, Answer::Word(word)) => {
                self.check_read((caller, gpa), index, word)?;
            }
            _ => {}
        }
        Ok(())
    }

    /// Checks that for each guest and address the places now in table and
    /// memory plus the closings are exactly the openings.
    pub fn places(&self, table: &[u64], memory: &[u64]) -> Result<(), String> {
        let places = count_places(table, memory)?;
        for &(asid, gpa) in self.accounts.keys().chain(places.keys()) {
            let places = places.get(&(asid, gpa)).copied().unwrap_or(0);
            let (openings, closings) = self
                .accounts
                .get(&(asid, gpa))
                .map_or((0, 0), |account| (account.openings, account.closings));
            if places + closings != openings {
                return Err(format!(
                    "guest {asid:x} at {gpa:x}: {places} places and {closings} closings, \
                     but {openings} openings"
                ));
            }
        }
        Ok(())
    }

    fn account(&mut self, holding: Holding) -> &mut Account {
        self.accounts.entry(holding).or_default()
    }

    fn open(&mut self, holding: Holding, hpa: u64, memory: &[u64]) -> Result<(), String> {
        let found = frame_at(memory, hpa)
            .ok_or_else(|| format!("opened the frame at {hpa:x}, which memory lacks"))?;
        let account = self.account(holding);
        account.openings += 1;
        account.page = (account.openings == 1).then(|| Page {
            found: Box::new(*found),
            written: BTreeMap::new(),
        });
        Ok(())
    }

    /// Remembers an accepted private or mergeable write.
    fn write(&mut self, holding: Holding, index: u64, value: u64) {
        if let Some(page) = &mut self.account(holding).page {
            page.written.insert(index, value);
        }
    }

    /// Checks an accepted private or mergeable read.
    fn check_read(&self, holding: Holding, index: u64, word: u64) -> Result<(), String> {
        let account = self
            .accounts
            .get(&holding)
            .filter(|account| account.openings > 0)
            .ok_or("the address was never opened")?;
        let Some(page) = &account.page else {
            return Ok(()); // opened more than once
        };
        let written = page.written.get(&index);
        let expected = written
            .or_else(|| page.found.get(usize::try_from(index).ok()?))
            .ok_or("a page has no such word")?;
        if word == *expected {
            return Ok(());
        }
        let source = match written {
            Some(_) => "last written",
            None => "found at the opening",
        };
        Err(format!("{expected:x} was {source}"))
    }
}

/// Whether the call may give this answer at all.
fn fits(call: &Call, answer: Answer) -> bool {
    match answer {
        Answer::Refused { number, reason } => {
            matches!((number, reason), (1..=4 | 6..=17, 0) | (5, 1..=4))
        }
        Answer::None | Answer::Closed { .. } => matches!(call, Call::Rmpupdate { .. }),
        Answer::Opened | Answer::Already => matches!(call, Call::Pvalidate { .. }),
        Answer::Unfixed { asid } => matches!(call, Call::Punfix { .. }) && is_asid(asid),
        Answer::Word(_) => matches!(call, Call::Read { .. }),
        Answer::Count(_) => matches!(call, Call::Census { .. }),
        Answer::Done => matches!(
            call,
            Call::Pfix { .. } | Call::Pmerge { .. } | Call::Punmerge { .. } | Call::Write { .. }
        ),
    }
}

/// Whether a request for a whole page may give this reply at all. A SHARED
/// access is open to every caller, so it is never refused with 3.
fn page_fits(request: &Request, reply: Reply) -> bool {
    match (request, reply) {
        (Request::PageRead { .. }, Reply::Page(page)) => matches!(page.len(), 0 | FRAME_WORDS),
        (Request::PageWrite { .. } | Request::PageCheck { .. }, Reply::Answer(Answer::Done)) => {
            true
        }
        (
            Request::PageWrite { .. } | Request::PageCheck { .. },
            Reply::Answer(Answer::Refused { number, reason }),
        ) => matches!((number, reason), (1 | 2 | 4 | 6, 0) | (5, 1..=4)),
        _ => false,
    }
}

/// Whether a request by virtual address may be refused like this. A walk only
/// reads, so 10 comes from a call made at its end.
fn walk_refusal_fits(request: &Request, reply: Reply) -> bool {
    let (number, reason) = match reply {
        Reply::Mapping(Err(refusal)) => (refusal.number(), refusal.reason()),
        Reply::Reached(Reached {
            answer: Answer::Refused { number, reason },
            gpa: 0,
        }) => (number, reason),
        _ => return false,
    };
    let met_by_reads = matches!(
        (number, reason),
        (1..=4 | 6..=9 | 12 | 13 | 18 | 19, 0) | (5, 1..=4)
    );
    match (request, reply) {
        (Request::Walk(_), Reply::Mapping(_)) => met_by_reads,
        (Request::ReadVa { .. }, Reply::Reached(_)) => met_by_reads,
        (Request::PvalidateVa { .. } | Request::WriteVa { .. }, Reply::Reached(_)) => {
            met_by_reads || (number, reason) == (10, 0)
        }
        _ => false,
    }
}

/// The call of document 01 that a request by virtual address makes where its
/// walk led, if it makes one.
#[rustfmt::skip]
fn call_at(request: &Request, mapping: Mapping) -> Option<Call> {
    let Mapping { gpa, hpa, gtype, ntype } = mapping;
    match *request {
        Request::PvalidateVa { at: Virtual { caller, .. }, kind } =>
            Some(Call::Pvalidate { caller, gpa, hpa, kind }),
        Request::ReadVa { at: Virtual { caller, .. }, index } =>
            Some(Call::Read { caller, gpa, hpa, gtype, ntype, index }),
        Request::WriteVa { at: Virtual { caller, .. }, index, value } =>
            Some(Call::Write { caller, gpa, hpa, gtype, ntype, index, value }),
        _ => None,
    }
}

/// Where the virtual address of an accepted request leads.
#[rustfmt::skip]
fn walked(at: Virtual, table: &[u64], memory: &[u64]) -> Result<Mapping, String> {
    let Virtual { caller, root, root_type, host_root, va } = at;
    walk(table, memory, caller, root, root_type, host_root, va)
        .map_err(|refusal| format!("the walk is refused with {}", refusal.number()))
}

/// The number of places of every guest and address that has one. An error if
/// an entry or a leaf is broken, as no history makes one.
fn count_places(table: &[u64], memory: &[u64]) -> Result<BTreeMap<Holding, u64>, String> {
    let (entries, _) = table.as_chunks::<ENTRY_WORDS>();
    let decode = |frame: usize| {
        Entry::decode(entries[frame], entries.len())
            .map_err(|reason| format!("the entry of frame {frame:x} is bad: {reason:?}"))
    };
    let mut places = BTreeMap::new();
    for frame in 0..entries.len() {
        let page = decode(frame)?;
        if !page.fixed {
            if page.validated {
                *places.entry((page.asid, page.gpa)).or_insert(0) += 1;
            }
            continue;
        }
        if decode(page.leaf())?.kind != Kind::Leaf {
            return Err(format!("frame {frame:x} is fixed, but its leaf is no leaf"));
        }
        let leaf = frame_at(memory, page.gpa)
            .ok_or_else(|| format!("memory lacks the leaf of frame {frame:x}"))?;
        for (asid, &word) in (0..).zip(leaf).skip(1) {
            match LeafWord::decode(word) {
                LeafWord::Absent => {}
                LeafWord::Present { gpa } => *places.entry((asid, gpa)).or_insert(0) += 1,
                LeafWord::Misshapen => {
                    return Err(format!(
                        "leaf word {asid:x} of frame {frame:x} is misshapen"
                    ));
                }
            }
        }
    }
    Ok(places)
}

/// The words of the frame at this address, if memory has it.
fn frame_at(memory: &[u64], hpa: u64) -> Option<&[u64; FRAME_WORDS]> {
    let (frames, _) = memory.as_chunks();
    frames.get(usize::try_from(hpa / FRAME_BYTES).ok()?)
}

#[cfg(test)]
mod tests {
    use super::*;
    use crate::layout::Reason;
    use crate::script::parse;

    /// A table, a memory and the ledger of the calls made on them.
    struct Run {
        table: [u64; 16],
        memory: [u64; 10 * FRAME_WORDS],
        ledger: Ledger,
    }

    impl Run {
        fn new() -> Self {
            Self {
                table: [0; 16],
                memory: std::array::from_fn(|position| position as u64),
                ledger: Ledger::new(),
            }
        }

        fn make(&mut self, line: &str) -> Result<(), String> {
            self.request(&Request::Call(parse(line.as_bytes()).unwrap()))
        }

        fn request(&mut self, request: &Request) -> Result<(), String> {
            let [table, memory] = [self.table.to_vec(), self.memory.to_vec()];
            let reply = request.make(&mut self.table, &mut self.memory);
            self.ledger.note_request(request, reply, &table, &memory)?;
            self.ledger.places(&self.table, &self.memory)
        }

        fn make_all(&mut self, lines: &[&str]) {
            for line in lines {
                assert_eq!(self.make(line), Ok(()), "{line}");
            }
        }

        /// Notes an answer to a call that is not made.
        fn claim(&mut self, line: &str, answer: Answer) -> Result<(), String> {
            let call = parse(line.as_bytes()).unwrap();
            self.ledger.note(&call, answer, &self.memory)
        }
    }

    /// A refusal that carries no reason.
    fn refused(number: u8) -> Answer {
        Answer::Refused { number, reason: 0 }
    }

    const OPENED: [&str; 2] = ["U 0 1000 50000 7 2", "V 7 50000 1000 2"];

    #[test]
    fn a_wrong_read_is_caught() {
        let mut run = Run::new();
        run.make_all(&OPENED);
        // The update zeroed the frame, so zeros were found at the opening.
        assert!(run.claim("R 7 50000 1000 2 2 3", Answer::Word(0)).is_ok());
        assert!(run.claim("R 7 50000 1000 2 2 3", Answer::Word(1)).is_err());
        run.make_all(&["W 7 50000 1000 2 2 3 2a", "W 7 50000 1000 2 2 3 2b"]);
        assert!(run
            .claim("R 7 50000 1000 2 2 3", Answer::Word(0x2b))
            .is_ok());
        assert!(run
            .claim("R 7 50000 1000 2 2 3", Answer::Word(0x2a))
            .is_err());
        assert!(run.claim("R 7 50000 1000 2 2 4", Answer::Word(0)).is_ok());
        // Any frame that is named gives the guest's own words.
        assert!(run.claim("R 7 50000 9000 1 1 3", Answer::Word(1)).is_err());
        // Memory that goes back behind the monitor's back.
        run.memory[FRAME_WORDS + 3] = 0x2a;
        assert!(run.make("R 7 50000 1000 2 2 3").is_err());
    }

    #[test]
    fn words_found_at_the_opening_are_remembered() {
        let mut run = Run::new();
        run.make_all(&OPENED[..1]);
        run.memory[FRAME_WORDS + 5] = 0x55;
        run.make_all(&OPENED[1..]);
        run.make_all(&["R 7 50000 1000 2 2 5"]);
        assert!(run.claim("R 7 50000 1000 2 2 5", Answer::Word(0)).is_err());
    }

    #[test]
    fn a_read_without_an_opening_is_caught() {
        let mut run = Run::new();
        let read = "R 7 50000 1000 1 1 3";
        assert!(run.claim(read, Answer::Word(0)).is_err());
        assert!(run.claim(read, refused(9)).is_ok());
        assert!(run.claim("R 7 50000 1000 0 0 3", Answer::Word(0)).is_ok());
        // A write before the opening opens nothing.
        let write = "W 7 50000 1000 1 1 3 2a";
        assert!(run.claim(write, Answer::Done).is_ok());
        assert!(run.claim(read, Answer::Word(0x2a)).is_err());
    }

    #[test]
    fn a_read_after_two_openings_is_free() {
        let mut run = Run::new();
        run.make_all(&OPENED);
        run.make_all(&["W 7 50000 1000 2 2 3 2a"]);
        run.make_all(&["U 0 2000 50000 7 2", "V 7 50000 2000 2"]);
        run.make_all(&["R 7 50000 1000 2 2 3", "R 7 50000 2000 2 2 3"]);
    }

    #[test]
    fn a_lost_place_is_caught() {
        let mut run = Run::new();
        run.make_all(&OPENED);
        let zeros = [0; 16];
        assert!(run.ledger.places(&zeros, &run.memory).is_err());
        assert!(Ledger::new().places(&run.table, &run.memory).is_err());
        assert!(Ledger::new().places(&zeros, &run.memory).is_ok());
        run.make_all(&["U 0 3000 0 0 3", "F 0 1000 3000"]);
        let own = 3 * FRAME_WORDS + 7;
        for word in [0, 0x51001, 0x50003] {
            run.memory[own] = word;
            assert!(run.ledger.places(&run.table, &run.memory).is_err());
        }
        run.memory[own] = 0x50001;
        assert!(run.ledger.places(&run.table, &run.memory).is_ok());
        run.memory[own + 1] = 0x50001;
        assert!(run.ledger.places(&run.table, &run.memory).is_err());
    }

    #[test]
    fn a_false_closing_is_caught() {
        let mut run = Run::new();
        run.make_all(&OPENED);
        let update = "U 0 1000 0 0 0";
        let closed = |asid, gpa| Answer::Closed { asid, gpa };
        assert!(run.claim(update, closed(7, 0x50000)).is_ok());
        assert!(run.ledger.places(&run.table, &run.memory).is_err());
        assert!(run.ledger.places(&[0; 16], &run.memory).is_ok());
        assert!(run.claim(update, closed(9, 0x50000)).is_ok());
        assert!(run.ledger.places(&[0; 16], &run.memory).is_err());
    }

    #[test]
    fn an_answer_of_another_call_is_caught() {
        let mut run = Run::new();
        assert!(run.claim("C 1", Answer::Done).is_err());
        assert!(run.claim("X 0 1000", Answer::Word(0)).is_err());
        assert!(run.claim("X 0 1000", Answer::Done).is_err());
        assert!(run.claim("X 0 1000", refused(18)).is_err());
        assert!(run.claim("X 0 1000", refused(0)).is_err());
    }

    #[test]
    fn only_punfix_names_a_new_owner() {
        let mut run = Run::new();
        for (asid, fits) in [(0, true), (1, true), (511, true), (512, false)] {
            let unfixed = Answer::Unfixed { asid };
            assert_eq!(run.claim("X 0 1000", unfixed).is_ok(), fits, "{asid}");
            for line in [
                "U 0 1000 50000 7 2",
                "V 7 50000 1000 2",
                "F 0 1000 3000",
                "M 0 1000 2000",
                "D 0 1000 4000 9",
                "R 7 50000 1000 2 2 3",
                "W 7 50000 1000 2 2 3 2a",
                "C 7",
            ] {
                assert!(run.claim(line, unfixed).is_err(), "{line}");
            }
        }
    }

    /// Guests 7 and 9 were merged in frame 1, with the leaf in frame 3. Then 7,
    /// the owner, got its copy in frame 4.
    const OWNER_LEFT: [&str; 10] = [
        "U 0 1000 50000 7 2",
        "V 7 50000 1000 2",
        "W 7 50000 1000 2 2 3 2a",
        "U 0 2000 60000 9 2",
        "V 9 60000 2000 2",
        "W 9 60000 2000 2 2 3 2a",
        "U 0 3000 0 0 3",
        "F 0 1000 3000",
        "M 0 1000 2000",
        "D 0 1000 4000 7",
    ];

    #[test]
    fn punfix_leaves_the_last_guest_its_place() {
        let mut run = Run::new();
        run.make_all(&OWNER_LEFT);
        run.make_all(&["X 0 1000"]);
        assert_eq!(run.table[2..4], [0x60009, 0x60000]);
        run.make_all(&["R 9 60000 1000 2 2 3", "R 7 50000 4000 2 2 3"]);
        run.make_all(&["W 9 60000 1000 2 2 3 2b", "R 9 60000 1000 2 2 3"]);
        // Left with the old owner, at a wrong address, or freed.
        for entry in [[0x60007, 0x50000], [0x60009, 0x50000], [0, 0]] {
            run.table[2..4].copy_from_slice(&entry);
            assert!(run.ledger.places(&run.table, &run.memory).is_err());
        }
    }

    #[test]
    fn punfix_frees_a_page_without_places() {
        let mut run = Run::new();
        run.make_all(&OWNER_LEFT);
        run.make_all(&["D 0 1000 2000 9", "X 0 1000"]);
        assert_eq!(run.table[2..4], [0, 0]);
        run.make_all(&["R 9 60000 2000 2 2 3", "R 7 50000 4000 2 2 3"]);
        // Left with the old owner.
        run.table[2..4].copy_from_slice(&[0x60007, 0x50000]);
        assert!(run.ledger.places(&run.table, &run.memory).is_err());
    }

    #[test]
    fn a_refusal_with_a_wrong_reason_is_caught() {
        let mut run = Run::new();
        for number in 0..=18 {
            for reason in 0..=5 {
                let fits = match number {
                    0 | 18 => false,
                    5 => reason != 0 && reason != 5,
                    _ => reason == 0,
                };
                let refused = Answer::Refused { number, reason };
                for line in ["X 0 1000", "C 1", "R 7 50000 1000 2 2 3"] {
                    assert_eq!(run.claim(line, refused).is_ok(), fits, "{refused:?}");
                }
            }
        }
    }

    /// The three requests for a whole page by the host and two guests.
    fn page_requests(gpa: u64, hpa: u64, word: u64) -> impl Iterator<Item = Request> {
        [0, 7, 9].into_iter().flat_map(move |caller| {
            let words = vec![word; FRAME_WORDS];
            #[rustfmt::skip]
            let requests = [
                Request::PageWrite { caller, gpa, hpa, words },
                Request::PageRead { caller, gpa, hpa },
                Request::PageCheck { caller, gpa, hpa },
            ];
            requests
        })
    }

    #[test]
    fn whole_pages_disturb_no_account() {
        let mut run = Run::new();
        run.make_all(&OPENED);
        run.make_all(&["W 7 50000 1000 2 2 3 2a"]);
        // The guest's own page, to which they are refused, SHARED frames with
        // and without an entry, and a frame that memory lacks.
        for frame in [1, 2, 8, 10] {
            for request in page_requests(0x50000, frame << 12, 0x77) {
                assert_eq!(run.request(&request), Ok(()), "{request:x?}");
                run.make_all(&["R 7 50000 1000 2 2 3", "R 7 50000 1000 2 2 4"]);
            }
        }
        assert_eq!(run.memory[2 * FRAME_WORDS..3 * FRAME_WORDS], [0x77; 512]);
        // What a page write at the guest's address put elsewhere is not its own.
        let read = "R 7 50000 1000 2 2 3";
        assert!(run.claim(read, Answer::Word(0x2a)).is_ok());
        assert!(run.claim(read, Answer::Word(0x77)).is_err());
    }

    #[test]
    fn a_page_write_opens_nothing() {
        let mut run = Run::new();
        for request in page_requests(0x50000, 0x1000, 0x77) {
            assert_eq!(run.request(&request), Ok(()));
        }
        let read = "R 7 50000 1000 2 2 3";
        assert!(run.claim(read, Answer::Word(0x77)).is_err());
        // The update zeroed the frame; nothing of the page is left to be found.
        run.make_all(&OPENED);
        run.make_all(&[read]);
        assert!(run.claim(read, Answer::Word(0x77)).is_err());
    }

    #[test]
    fn a_wrong_reply_for_a_page_is_caught() {
        use Answer::{Already, Closed, Count, Done, None, Opened, Refused, Unfixed, Word};
        let [asid, gpa] = [7, 0x50000];
        let words = [0; FRAME_WORDS + 1];
        for request in page_requests(gpa, 0x2000, 0) {
            let reads = matches!(request, Request::PageRead { .. });
            let check = |reply, fits: bool| {
                let noted = Ledger::new().note_request(&request, reply, &[], &[]);
                assert_eq!(noted.is_ok(), fits, "{reply:?}");
            };
            for (number, reason) in (0..=18).flat_map(|number| (0..=5).map(move |r| (number, r))) {
                let given = match number {
                    1 | 2 | 4 | 6 => reason == 0,
                    5 => reason != 0 && reason != 5,
                    _ => false,
                };
                check(Reply::Answer(Refused { number, reason }), given && !reads);
            }
            check(Reply::Answer(Done), !reads);
            for answer in [
                None,
                Closed { asid, gpa },
                Opened,
                Already,
                Unfixed { asid },
                Word(0),
                Count(0),
            ] {
                check(Reply::Answer(answer), false);
            }
            for length in [0, 1, 511, 512, 513] {
                check(Reply::Page(&words[..length]), reads && length % 512 == 0);
            }
        }
    }

    #[test]
    fn a_page_is_no_answer_to_the_nine_calls() {
        let call = Request::Call(parse(b"R 0 0 1000 0 0 0").unwrap());
        let mut ledger = Ledger::new();
        let mut note = |reply| ledger.note_request(&call, reply, &[], &[]);
        assert!(note(Reply::Answer(Answer::Word(0))).is_ok());
        assert!(note(Reply::Page(&[])).is_err());
        assert!(note(Reply::Page(&[0; FRAME_WORDS])).is_err());
    }

    /// Guest 7's table at 10000 in frame 1 and the host's table in frame 8,
    /// each of which serves for all four levels. The page at 50000 is mapped to
    /// frame 2, the one at 60000 to frame 4.
    const MAPPED: [&str; 9] = [
        "U 0 1000 10000 7 1",
        "V 7 10000 1000 1",
        "W 7 10000 1000 1 1 0 10000000010001",
        "W 7 10000 1000 1 1 50 20000000050001",
        "W 7 10000 1000 1 1 60 60001",
        "W 0 0 8000 0 0 0 8001",
        "W 0 0 8000 0 0 10 10000000001001",
        "W 0 0 8000 0 0 50 20000000002001",
        "W 0 0 8000 0 0 60 4001",
    ];

    const AT: Virtual = Virtual {
        caller: 7,
        root: 0x10000,
        root_type: 1,
        host_root: 0x8000,
        va: 0x50000,
    };

    const OPEN: Request = Request::PvalidateVa { at: AT, kind: 2 };
    const READ: Request = Request::ReadVa { at: AT, index: 3 };

    fn write_request(value: u64) -> Request {
        Request::WriteVa {
            at: AT,
            index: 3,
            value,
        }
    }

    fn reached(answer: Answer, gpa: u64) -> Reply<'static> {
        Reply::Reached(Reached { answer, gpa })
    }

    impl Run {
        /// Makes a request that is answered like this and noted without error.
        fn check(&mut self, request: &Request, reply: Reply) {
            let made = request.make(&mut self.table.clone(), &mut self.memory.clone()) == reply;
            assert!(made, "{request:x?} {reply:x?}");
            assert_eq!(self.request(request), Ok(()));
        }

        /// Notes a reply to a request that is not made.
        fn claim_request(&mut self, request: &Request, reply: Reply) -> Result<(), String> {
            let Self {
                table,
                memory,
                ledger,
            } = self;
            ledger.note_request(request, reply, table, memory)
        }

        /// Guest 7's page at 50000 is opened by its virtual address.
        fn mapped() -> Self {
            let mut run = Self::new();
            run.make_all(&MAPPED);
            run.make_all(&["U 0 2000 50000 7 2"]);
            run.memory[2 * FRAME_WORDS + 3] = 0x55;
            run.check(&OPEN, reached(Answer::Opened, 0x50000));
            run
        }
    }

    #[test]
    fn calls_by_virtual_address_are_calls_where_the_walk_leads() {
        let mut run = Run::mapped();
        run.check(&OPEN, reached(Answer::Already, 0x50000));
        run.check(&READ, reached(Answer::Word(0x55), 0x50000));
        run.make_all(&["R 7 50000 2000 2 2 3"]);
        run.check(&write_request(0x2a), reached(Answer::Done, 0x50000));
        run.check(&READ, reached(Answer::Word(0x2a), 0x50000));
        run.make_all(&["R 7 50000 2000 2 2 3", "W 7 50000 2000 2 2 3 2b"]);
        run.check(&READ, reached(Answer::Word(0x2b), 0x50000));
        // The page moves to frame 5; the host maps it there.
        run.make_all(&["U 0 3000 0 0 3", "F 0 2000 3000"]);
        run.check(&READ, reached(Answer::Word(0x2b), 0x50000));
        run.check(&write_request(0x2c), reached(refused(10), 0));
        run.make_all(&["D 0 2000 5000 7"]);
        run.check(&READ, reached(refused(13), 0));
        run.make_all(&["W 0 0 8000 0 0 50 20000000005001"]);
        run.check(&READ, reached(Answer::Word(0x2b), 0x50000));
        run.check(&write_request(0x2c), reached(Answer::Done, 0x50000));
        run.make_all(&["R 7 50000 5000 2 2 3", "U 0 5000 50000 7 2"]);
        run.check(&READ, reached(refused(9), 0));
        // A second opening, by virtual address.
        run.check(&OPEN, reached(Answer::Opened, 0x50000));
        assert_eq!(run.ledger.accounts[&(7, 0x50000)].openings, 2);
        assert_eq!(run.ledger.accounts[&(7, 0x50000)].closings, 1);
    }

    #[test]
    fn a_walk_and_a_shared_page_enter_no_account() {
        let mut run = Run::mapped();
        let at = Virtual { va: 0x60000, ..AT };
        let mapping = Mapping {
            gpa: 0x60000,
            hpa: 0x4000,
            gtype: 0,
            ntype: 0,
        };
        let [index, value] = [3, 0x77];
        let writes = Request::WriteVa { at, index, value };
        run.check(&Request::Walk(at), Reply::Mapping(Ok(mapping)));
        run.check(&writes, reached(Answer::Done, 0x60000));
        let reads = Request::ReadVa { at, index };
        run.check(&reads, reached(Answer::Word(value), 0x60000));
        run.memory[4 * FRAME_WORDS + 3] = 0x78; // the host's own write
        run.check(&reads, reached(Answer::Word(0x78), 0x60000));
        let openings = |gpa| run.ledger.accounts.get(&(7, gpa)).map(|a| a.openings);
        assert_eq!([0x10000, 0x50000].map(openings), [Some(1); 2]);
        assert_eq!(run.ledger.accounts.len(), 2);
    }

    #[test]
    fn a_refused_call_by_virtual_address_enters_nothing() {
        let mut run = Run::mapped();
        run.make_all(&["W 0 0 8000 0 0 50 20000000002000"]);
        for request in [&OPEN, &READ, &write_request(0x2a)] {
            run.check(request, reached(refused(18), 0));
        }
        run.make_all(&["W 0 0 8000 0 0 50 20000000002001"]);
        run.check(&READ, reached(Answer::Word(0x55), 0x50000));
    }

    #[test]
    fn a_wrong_read_by_virtual_address_is_caught() {
        let mut run = Run::mapped();
        let word = |word| reached(Answer::Word(word), 0x50000);
        assert!(run.claim_request(&READ, word(0x55)).is_ok());
        assert!(run.claim_request(&READ, word(0x54)).is_err());
        run.check(&write_request(0x2a), reached(Answer::Done, 0x50000));
        assert!(run.claim_request(&READ, word(0x2a)).is_ok());
        assert!(run.claim_request(&READ, word(0x55)).is_err());
        // A claimed write and a claimed opening count.
        let done = reached(Answer::Done, 0x50000);
        assert!(run.claim_request(&write_request(0x2b), done).is_ok());
        assert!(run.claim_request(&READ, word(0x2a)).is_err());
        let opened = reached(Answer::Opened, 0x50000);
        assert!(run.claim_request(&OPEN, opened).is_ok());
        assert!(run.ledger.places(&run.table, &run.memory).is_err());
    }

    #[test]
    fn another_guest_address_than_the_walks_is_caught() {
        let mut run = Run::mapped();
        for gpa in [0, 0x10000, 0x51000, 0x50001] {
            for (request, answer) in [
                (&OPEN, Answer::Already),
                (&OPEN, Answer::Opened),
                (&READ, Answer::Word(0x55)),
                (&write_request(0x2a), Answer::Done),
            ] {
                let claimed = run.claim_request(request, reached(answer, gpa));
                assert!(claimed.is_err(), "{request:x?} {gpa:x}");
            }
        }
        let mapping = Mapping {
            gpa: 0x50000,
            hpa: 0x2000,
            gtype: 2,
            ntype: 2,
        };
        let mut claim =
            |mapping| run.claim_request(&Request::Walk(AT), Reply::Mapping(Ok(mapping)));
        assert!(claim(mapping).is_ok());
        let [gpa, hpa, gtype, ntype] = [0x51000, 0x3000, 1, 1];
        assert!(claim(Mapping { gpa, ..mapping }).is_err());
        assert!(claim(Mapping { hpa, ..mapping }).is_err());
        assert!(claim(Mapping { gtype, ..mapping }).is_err());
        assert!(claim(Mapping { ntype, ..mapping }).is_err());
    }

    #[test]
    fn an_accepted_reply_to_a_refused_walk_is_caught() {
        let mut run = Run::mapped();
        run.make_all(&["W 0 0 8000 0 0 50 20000000002000"]);
        let mapping = Mapping {
            gpa: 0x50000,
            hpa: 0x2000,
            gtype: 2,
            ntype: 2,
        };
        for gpa in [0, 0x50000] {
            for (request, reply) in [
                (&OPEN, reached(Answer::Already, gpa)),
                (&READ, reached(Answer::Word(0x55), gpa)),
                (&write_request(0x2a), reached(Answer::Done, gpa)),
                (&Request::Walk(AT), Reply::Mapping(Ok(mapping))),
            ] {
                let claimed = run.claim_request(request, reply);
                assert!(claimed.is_err(), "{request:x?} {gpa:x}");
            }
        }
    }

    #[test]
    fn a_wrong_answer_by_virtual_address_is_caught() {
        use Answer::{Already, Closed, Count, Done, None, Opened, Unfixed, Word};
        let [asid, gpa] = [7, 0x50000];
        let mut run = Run::mapped();
        let page = Request::PageCheck {
            caller: 7,
            gpa,
            hpa: 0x9000,
        };
        let call = Request::Call(parse(b"R 0 0 9000 0 0 3").unwrap());
        let requests = [
            &OPEN,
            &READ,
            &write_request(0),
            &Request::Walk(AT),
            &page,
            &call,
        ];
        for (answer, fits) in [
            (None, [false; 3]),
            (Closed { asid, gpa }, [false; 3]),
            (Opened, [true, false, false]),
            (Already, [true, false, false]),
            (Unfixed { asid }, [false; 3]),
            (Word(0x55), [false, true, false]),
            (Count(0), [false; 3]),
            (Done, [false, false, true]),
        ] {
            for (request, fits) in requests.into_iter().zip(fits.into_iter().chain([false; 3])) {
                let claimed = run.claim_request(request, reached(answer, gpa));
                assert_eq!(claimed.is_ok(), fits, "{request:x?} {answer:x?}");
            }
            for request in &requests[..4] {
                assert!(run.claim_request(request, Reply::Answer(answer)).is_err());
                assert!(run.claim_request(request, Reply::Page(&[])).is_err());
            }
        }
    }

    #[test]
    fn refusals_by_virtual_address() {
        let mut run = Run::mapped();
        // The walk leads to guest address 0, so an accepted reply names it too.
        run.make_all(&["W 7 10000 1000 1 1 50 1"]);
        run.check(&READ, reached(Answer::Word(0x8000 / 8 + 3), 0));
        for (number, reason) in (0..=20).flat_map(|number| (0..=5).map(move |r| (number, r))) {
            let met_by_reads = match number {
                1..=4 | 6..=9 | 12 | 13 | 18 | 19 => reason == 0,
                5 => reason != 0 && reason != 5,
                _ => false,
            };
            let or_fixed = met_by_reads || (number, reason) == (10, 0);
            let answer = Answer::Refused { number, reason };
            for (request, fits) in [
                (&OPEN, or_fixed),
                (&READ, met_by_reads),
                (&write_request(0), or_fixed),
                (&Request::Walk(AT), false),
            ] {
                let claimed = run.claim_request(request, reached(answer, 0));
                assert_eq!(claimed.is_ok(), fits, "{request:x?} {answer:x?}");
                // A refusal names no guest address, and comes with the address.
                let named = run.claim_request(request, reached(answer, 0x50000));
                assert!(named.is_err(), "{answer:?}");
                let bare = run.claim_request(request, Reply::Answer(answer));
                assert!(bare.is_err(), "{answer:?}");
            }
        }
    }

    #[test]
    fn refusals_of_a_walk() {
        use crate::call::Refusal::*;
        let mut run = Run::mapped();
        let reasons = [
            Reason::SpareBits,
            Reason::Asid,
            Reason::Flags,
            Reason::Address,
        ];
        #[rustfmt::skip]
        let given = [
            Geometry, Argument, Caller, Outside, Type, Owner, Address, NotValidated,
            BrokenLeaf, NoPlace, AbsentEntry, LargePage,
        ];
        let never = [
            Fixed,
            NotFixed,
            PlaceTaken,
            LeafInUse,
            Contents,
            StillShared,
        ];
        let refusals = given.into_iter().chain(reasons.map(BadEntry));
        for (refusal, fits) in refusals
            .map(|refusal| (refusal, true))
            .chain(never.map(|refusal| (refusal, false)))
        {
            let reply = Reply::Mapping(Err(refusal));
            let claimed = run.claim_request(&Request::Walk(AT), reply);
            assert_eq!(claimed.is_ok(), fits, "{refusal:?}");
            for request in [&OPEN, &READ, &write_request(0)] {
                assert!(run.claim_request(request, reply).is_err());
            }
        }
    }
}
