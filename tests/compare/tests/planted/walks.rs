//! Faults in the calls by virtual address: a walk of its own, by the second program's READ, which makes one mistake.

use std::cell::{Cell, RefCell};
use std::collections::BTreeSet;

use common::layout::{ADDRESS_END, FRAME_BYTES, LEAF, SHARED};
use common::page_tables::{address_of, index, kind_of, GUEST_END, LARGE, LEVELS, PRESENT};
use compare::monitor::{Monitor, Second};
use second::{page_check, read, Answer, Call, Mapping, Reached, Reason, Refusal};
use second::{Reply, Request, Virtual};

use crate::monitors::{refused, words};

/// A monitor with a fault in its walk, or in what it makes of one. For all else it is the second program.
pub struct PlantedWalk {
    pub name: &'static str,
    pub fault: Fault,
}

#[derive(Clone, Copy, PartialEq, Eq)]
pub enum Fault {
    None,
    TopLarge,
    HostMiddleLarge,
    GuestMiddleLarge,
    LastLarge,
    HostLeafEverywhere,
    HostLeafNowhere,
    GuestLeafLast,
    GuestShared,
    RootType,
    HostTypeDropped,
    Unbounded,
    BoundIncluded,
    RootBoundFirst,
    AddressShort,
    Canonical,
    Unaligned,
    RootTypeLeaf,
    Unnamed,
    RefusedNamed,
    VirtualNamed,
    LargeFirst,
    BoundFirst,
    OthersLast,
    CallerFirst,
    ValidateOfTypes,
    ValidateOfWalk,
    HostAnyFrame,
    GuestUnopened,
    ReasonDropped,
    LargeAbsent,
    ReadUnopened,
    WriteLost,
    OpenedAlways,
}

/// How far a walk is: how many of the guest's tables it has read, and how many of the host's for the next.
pub type Place = (usize, usize);

/// One walk.
struct Walker<'a> {
    place: Cell<Place>,
    fault: Fault,
    at: Virtual,
    table: &'a [u64],
    memory: &'a [u64],
}

impl Monitor for PlantedWalk {
    fn name(&self) -> &str {
        self.name
    }

    fn reply<'m>(&self, request: &Request, table: &mut [u64], memory: &'m mut [u64]) -> Reply<'m> {
        let (fault, Some(at)) = (self.fault, request.virtual_address()) else {
            return Second.reply(request, table, memory);
        };
        let place = Cell::default();
        #[rustfmt::skip]
        let walker = Walker { place, fault, at, table, memory };
        let found = walker.walk(fits(request));
        let (answer, gpa) = match (found, request) {
            (found, Request::Walk(_)) => return Reply::Mapping(found.map_err(refusal)),
            (Err(answer), _) => (answer, 0),
            (Ok(mapping), _) => (self.call(request, mapping, table, memory), mapping.gpa),
        };
        let is_refused = matches!(answer, Answer::Refused { .. });
        let gpa = match fault {
            Fault::Unnamed => 0,
            Fault::VirtualNamed if !is_refused => at.va,
            _ if is_refused && fault != Fault::RefusedNamed => 0,
            _ => gpa,
        };
        Reply::Reached(Reached { answer, gpa })
    }
}

impl PlantedWalk {
    /// Makes the call on what the walk found.
    #[rustfmt::skip]
    fn call(&self, request: &Request, found: Mapping, table: &mut [u64], memory: &mut [u64]) -> Answer {
        let Mapping { gpa, hpa, gtype, ntype } = found;
        let call = match *request {
            Request::PvalidateVa { .. } if self.fault == Fault::ValidateOfTypes && gtype != ntype =>
                return refused(6),
            Request::PvalidateVa { at: Virtual { caller, .. }, kind } => {
                let kind = if self.fault == Fault::ValidateOfWalk { gtype } else { kind };
                Call::Pvalidate { caller, gpa, hpa, kind }
            }
            Request::ReadVa { at: Virtual { caller, .. }, index } =>
                Call::Read { caller, gpa, hpa, gtype, ntype, index },
            Request::WriteVa { at: Virtual { caller, .. }, index, value } =>
                Call::Write { caller, gpa, hpa, gtype, ntype, index, value },
            _ => panic!("no other request makes a call"),
        };
        self.make(&call, table, memory)
    }

    /// Makes this call.
    fn make(&self, call: &Call, table: &mut [u64], memory: &mut [u64]) -> Answer {
        let mut kept = memory.to_vec();
        match (self.fault, call.make(table, &mut kept), *call) {
            (Fault::WriteLost, answer, _) => answer,
            (Fault::OpenedAlways, Answer::Already, _) => Answer::Opened,
            #[rustfmt::skip]
            (Fault::ReadUnopened, Answer::Refused { number: 9, .. }, Call::Read { hpa, index, .. }) =>
                Answer::Word(memory[words(hpa)][index as usize]),
            (_, answer, _) => {
                memory.copy_from_slice(&kept);
                answer
            }
        }
    }
}

/// Whether the numbers that are none of the walk's are good ones.
fn fits(request: &Request) -> bool {
    match *request {
        Request::PvalidateVa { kind, .. } => matches!(kind, 1 | 2),
        Request::ReadVa { index, .. } | Request::WriteVa { index, .. } => index < 512,
        _ => true,
    }
}

impl Walker<'_> {
    fn is(&self, fault: Fault) -> bool {
        self.fault == fault
    }

    fn walk(&self, others_fit: bool) -> Result<Mapping, Answer> {
        self.check(others_fit || self.is(Fault::OthersLast))?;
        let Virtual { caller, va, .. } = self.at;
        let (mut gpa, mut gtype) = (self.at.root, self.at.root_type);
        for (read, level) in LEVELS.into_iter().enumerate() {
            self.place.set((read, 0));
            let (hpa, ntype) = self.host(gpa, gtype)?;
            let types = match self.fault {
                Fault::GuestShared => [SHARED, SHARED],
                Fault::RootType => [self.at.root_type, ntype],
                _ => [gtype, ntype],
            };
            let word = self.read(caller, gpa, hpa, types, index(va, level))?;
            self.entry(word, level, Fault::GuestMiddleLarge)?;
            if self.is(Fault::BoundFirst) {
                require(self.address(word) < GUEST_END, 2)?;
            }
            let asked = !self.is(Fault::GuestLeafLast) || level == LEVELS[3];
            require(kind_of(word) != LEAF || !asked, 6)?;
            (gpa, gtype) = (self.address(word), kind_of(word));
        }
        self.place.set((LEVELS.len(), 0));
        let (hpa, ntype) = self.host(gpa, gtype)?;
        require(others_fit, 2)?;
        #[rustfmt::skip]
        let mapping = Mapping { gpa, hpa, gtype, ntype };
        Ok(mapping)
    }

    /// Refusals 1 to 3.
    #[rustfmt::skip]
    fn check(&self, others_fit: bool) -> Result<(), Answer> {
        let Virtual { caller, root, root_type, host_root, va } = self.at;
        require(page_check(self.table, self.memory, 0, 0, 0) != refused(1), 1)?;
        require(caller != 0 || !self.is(Fault::CallerFirst), 3)?;
        let spare = if self.is(Fault::Canonical) { 15 } else { 16 };
        let canonical = (va << spare) as i64 >> spare == va as i64;
        let aligned = va.is_multiple_of(FRAME_BYTES) || self.is(Fault::Unaligned);
        let typed = root_type < LEAF || root_type == LEAF && self.is(Fault::RootTypeLeaf);
        let bounded = root < GUEST_END || !self.is(Fault::RootBoundFirst);
        let is_address = |at: u64| at < ADDRESS_END && at.is_multiple_of(FRAME_BYTES);
        let good = is_address(root) && is_address(host_root);
        require(caller < 512 && good && typed && bounded && canonical && aligned && others_fit, 2)?;
        require(caller != 0, 3)
    }

    /// The frame and the type that the host's tables have for a guest address.
    fn host(&self, gpa: u64, gtype: u64) -> Result<(u64, u64), Answer> {
        let bounded = match self.fault {
            Fault::Unbounded => true,
            Fault::BoundIncluded => gpa <= GUEST_END,
            _ => gpa < GUEST_END,
        };
        require(bounded, 2)?;
        let (mut hpa, mut ntype) = (self.at.host_root, SHARED);
        for level in LEVELS {
            let read = self.read(0, 0, hpa, [SHARED; 2], index(gpa, level));
            let word = match read {
                Err(answer) if answer == refused(6) && self.is(Fault::HostAnyFrame) => {
                    self.memory[hpa as usize / 8 + index(gpa, level)]
                }
                read => read?,
            };
            self.entry(word, level, Fault::HostMiddleLarge)?;
            let asked = match self.fault {
                Fault::HostLeafEverywhere => true,
                Fault::HostLeafNowhere => false,
                _ => level == LEVELS[3],
            };
            require(kind_of(word) != LEAF || !asked, 6)?;
            (hpa, ntype) = (self.address(word), kind_of(word));
            let (read, host) = self.place.get();
            self.place.set((read, host + 1));
        }
        match self.is(Fault::HostTypeDropped) {
            true => Ok((hpa, gtype)),
            false => Ok((hpa, ntype)),
        }
    }

    /// Refusals 18 and 19 of an entry; the fault is to let bit 7 through at the level above the last.
    fn entry(&self, word: u64, level: u32, middle: Fault) -> Result<(), Answer> {
        let let_through = match LEVELS.iter().position(|&of| of == level) {
            Some(0) => self.is(Fault::TopLarge),
            Some(2) => self.is(middle),
            Some(3) => !self.is(Fault::LastLarge),
            _ => false,
        };
        let large = word & LARGE != 0 && !let_through;
        let number = if self.is(Fault::LargeAbsent) { 18 } else { 19 };
        require(!(large && self.is(Fault::LargeFirst)), number)?;
        require(word & PRESENT != 0, 18)?;
        require(!large, number)
    }

    fn address(&self, word: u64) -> u64 {
        match self.is(Fault::AddressShort) {
            true => address_of(word) % GUEST_END,
            false => address_of(word),
        }
    }

    /// A word of a table, as READ answers it.
    fn read(
        &self,
        caller: u64,
        gpa: u64,
        hpa: u64,
        [gtype, ntype]: [u64; 2],
        index: usize,
    ) -> Result<u64, Answer> {
        let (table, memory, word) = (self.table, self.memory, index as u64);
        match read(table, memory, caller, gpa, hpa, gtype, ntype, word) {
            Answer::Word(word) => Ok(word),
            Answer::Refused { number: 9, .. } if self.is(Fault::GuestUnopened) => {
                Ok(memory[hpa as usize / 8 + index])
            }
            Answer::Refused { number: 5, .. } if self.is(Fault::ReasonDropped) => {
                Err(Refusal::BadEntry(Reason::SpareBits).into())
            }
            answer => Err(answer),
        }
    }
}

fn require(holds: bool, number: u8) -> Result<(), Answer> {
    match holds {
        true => Ok(()),
        false => Err(refused(number)),
    }
}

/// The refusal that an answer is.
fn refusal(answer: Answer) -> Refusal {
    let reasons = [
        Reason::SpareBits,
        Reason::Asid,
        Reason::Flags,
        Reason::Address,
    ];
    let others = [
        Refusal::Geometry,
        Refusal::Argument,
        Refusal::Caller,
        Refusal::Outside,
        Refusal::Type,
        Refusal::Owner,
        Refusal::Address,
        Refusal::NotValidated,
        Refusal::BrokenLeaf,
        Refusal::NoPlace,
        Refusal::AbsentEntry,
        Refusal::LargePage,
    ];
    let mut all = reasons.map(Refusal::BadEntry).into_iter().chain(others);
    let same = all.find(|&refusal| Answer::from(refusal) == answer);
    same.expect("a walk has no other refusal")
}

/// No fault; but it notes where walks stop, and with which number, 0 at their end.
#[derive(Default)]
pub struct Noting(pub RefCell<BTreeSet<(Place, u8)>>);

impl Monitor for Noting {
    fn name(&self) -> &str {
        "noting"
    }

    fn reply<'m>(&self, request: &Request, table: &mut [u64], memory: &'m mut [u64]) -> Reply<'m> {
        if let Some(at) = request.virtual_address() {
            let (place, fault) = (Cell::default(), Fault::None);
            #[rustfmt::skip]
            let walker = Walker { place, fault, at, table, memory };
            let number = match walker.walk(fits(request)) {
                Err(Answer::Refused { number, .. }) => number,
                _ => 0,
            };
            let stop = (walker.place.get(), number);
            self.0.borrow_mut().insert(stop);
        }
        RIGHT.reply(request, table, memory)
    }
}

/// Where walks have to be seen to stop, and with which numbers: at each table of the host's on the way to each of the guest's and to the
/// page, and at each of the guest's.
pub fn stops() -> Vec<(Place, &'static [u8])> {
    let mut stops: Vec<(Place, &[u8])> = vec![((4, 4), &[0])];
    for read in 0..=4 {
        for host in 0..4 {
            let numbers: &[u8] = match (read, host) {
                (0, 0) => &[1, 2, 3, 4, 5, 6, 18, 19],
                (_, 0) => &[2, 18, 19],
                (_, 3) => &[6, 18],
                _ => &[4, 6, 18, 19],
            };
            stops.push(((read, host), numbers));
        }
    }
    for read in 0..3 {
        stops.push(((read, 4), &[4, 5, 6, 7, 8, 9, 12, 13, 18, 19]));
    }
    stops.push(((3, 4), &[4, 5, 6, 7, 8, 9, 12, 13, 18]));
    stops
}

const fn planted(name: &'static str, fault: Fault) -> PlantedWalk {
    PlantedWalk { name, fault }
}

/// No fault.
const RIGHT: PlantedWalk = planted("the walk by READ", Fault::None);

#[rustfmt::skip]
pub static FAULTS: [PlantedWalk; 33] = [
    planted("bit 7 is let through at the top", Fault::TopLarge),
    planted("a large page is let through in the host's table above the last", Fault::HostMiddleLarge),
    planted("a large page is let through in the guest's table above the last", Fault::GuestMiddleLarge),
    planted("bit 7 is refused at the last level too", Fault::LastLarge),
    planted("LEAF is refused at every level of the host's tables", Fault::HostLeafEverywhere),
    planted("LEAF is let through in the host's last entry", Fault::HostLeafNowhere),
    planted("LEAF is refused in the guest's last entry alone", Fault::GuestLeafLast),
    planted("the guest's tables are read as SHARED", Fault::GuestShared),
    planted("all of the guest's tables are read with the root's type", Fault::RootType),
    planted("the type of the host's last entry is dropped", Fault::HostTypeDropped),
    planted("the guest address is not bounded", Fault::Unbounded),
    planted("the guest address 2^48 is let through", Fault::BoundIncluded),
    planted("the guest's root is bounded with the arguments", Fault::RootBoundFirst),
    planted("an entry has its address in bits 47 to 12", Fault::AddressShort),
    planted("bit 47 is not looked at in a virtual address", Fault::Canonical),
    planted("a virtual address may be any byte's", Fault::Unaligned),
    planted("the root's type may be LEAF", Fault::RootTypeLeaf),
    planted("the guest address is not named", Fault::Unnamed),
    planted("a refused call names the guest address", Fault::RefusedNamed),
    planted("the virtual address is named", Fault::VirtualNamed),
    planted("19 comes before 18", Fault::LargeFirst),
    planted("2 of the address comes before 6 of the entry", Fault::BoundFirst),
    planted("index and type are looked at after the walk", Fault::OthersLast),
    planted("3 comes before 2", Fault::CallerFirst),
    planted("PVALIDATE compares the types of the walk", Fault::ValidateOfTypes),
    planted("PVALIDATE takes its type from the walk", Fault::ValidateOfWalk),
    planted("the host's tables are read in any frame", Fault::HostAnyFrame),
    planted("the guest's tables need not be open", Fault::GuestUnopened),
    planted("5 on the way has reason 1", Fault::ReasonDropped),
    planted("a large page is told as an absent entry", Fault::LargeAbsent),
    planted("READ by virtual address does not check VALIDATED (9)", Fault::ReadUnopened),
    planted("WRITE by virtual address is lost", Fault::WriteLost),
    planted("PVALIDATE by virtual address answers opened always", Fault::OpenedAlways),
];

/// The fault of this name.
pub fn named(name: &str) -> &'static PlantedWalk {
    let fault = FAULTS.iter().find(|fault| fault.name == name);
    fault.expect("a fault of this name")
}
