//! READ, WRITE and CENSUS (document 01, "The calls").

use crate::call::{Answer, Refusal};
use crate::checks::{answer, entries, entry, geometry, place_in_leaf, require};
use crate::layout::{frame_below, is_address, is_asid, Entry, Kind, FRAME_WORDS, HOST};

/// READ: a party reads a word of a page.
#[allow(clippy::too_many_arguments)]
pub fn read(
    table: &[u64],
    memory: &[u64],
    caller: u64,
    gpa: u64,
    hpa: u64,
    gtype: u64,
    ntype: u64,
    index: u64,
) -> Answer {
    let access = Access {
        caller,
        gpa,
        hpa,
        gtype,
        ntype,
        index,
        writes: false,
    };
    match access.check(table, memory) {
        Ok(position) => Answer::Word(memory[position]),
        Err(refusal) => refusal.into(),
    }
}

/// WRITE: a party writes a word of a page.
#[allow(clippy::too_many_arguments)]
pub fn write(
    table: &[u64],
    memory: &mut [u64],
    caller: u64,
    gpa: u64,
    hpa: u64,
    gtype: u64,
    ntype: u64,
    index: u64,
    value: u64,
) -> Answer {
    let access = Access {
        caller,
        gpa,
        hpa,
        gtype,
        ntype,
        index,
        writes: true,
    };
    match access.check(table, memory) {
        Ok(position) => {
            memory[position] = value;
            Answer::Done
        }
        Err(refusal) => refusal.into(),
    }
}

/// CENSUS: the number of places of a guest.
pub fn census(table: &[u64], memory: &[u64], asid: u64) -> Answer {
    answer(|| {
        geometry(table, memory)?;
        require(asid != HOST && is_asid(asid), Refusal::Argument)?;
        let entries = entries(table);
        let mut count = 0;
        for &words in entries {
            let page = Entry::decode(words, entries.len()).map_err(Refusal::BadEntry)?;
            let holds = if page.fixed {
                place_in_leaf(table, memory, page, asid)?.is_some()
            } else {
                page.validated && page.asid == asid
            };
            count += u64::from(holds);
        }
        Ok(Answer::Count(count))
    })
}

/// The arguments of READ and WRITE without the value. The types are numbers,
/// and `Kind`s once they are checked.
pub(crate) struct Access<T = u64> {
    pub caller: u64,
    pub gpa: u64,
    pub hpa: u64,
    pub gtype: T,
    pub ntype: T,
    pub index: u64,
    pub writes: bool,
}

impl Access {
    /// The SHARED access to word 0 of a page.
    #[inline]
    pub(crate) fn shared_page(caller: u64, gpa: u64, hpa: u64, writes: bool) -> Self {
        Self {
            caller,
            gpa,
            hpa,
            gtype: Kind::Shared as u64,
            ntype: Kind::Shared as u64,
            index: 0,
            writes,
        }
    }

    /// The checks of an access; gives the position in memory of its word.
    #[inline(always)] // keeps the arguments in registers
    pub(crate) fn check(&self, table: &[u64], memory: &[u64]) -> Result<usize, Refusal> {
        geometry(table, memory)?;
        require(is_asid(self.caller), Refusal::Argument)?;
        require(
            is_address(self.gpa) && is_address(self.hpa),
            Refusal::Argument,
        )?;
        let access = Access {
            caller: self.caller,
            gpa: self.gpa,
            hpa: self.hpa,
            gtype: access_kind(self.gtype)?,
            ntype: access_kind(self.ntype)?,
            index: self.index,
            writes: self.writes,
        };
        require(is_index(self.index), Refusal::Argument)?;
        let both_shared = access.gtype == Kind::Shared && access.ntype == Kind::Shared;
        require(self.caller != HOST || both_shared, Refusal::Caller)?;
        access.check_frame(table, memory)
    }
}

impl Access<Kind> {
    /// The checks from 4 on, where sizes, arguments and caller are good.
    #[inline(always)]
    pub(crate) fn check_frame(&self, table: &[u64], memory: &[u64]) -> Result<usize, Refusal> {
        let m = memory.len() / FRAME_WORDS;
        let frame = frame_below(m, self.hpa).ok_or(Refusal::Outside)?;
        require(self.gtype == self.ntype, Refusal::Type)?;

        if frame >= entries(table).len() {
            require(self.gtype == Kind::Shared, Refusal::Type)?;
        } else {
            let page = entry(table, frame)?;
            require(page.kind == self.gtype, Refusal::Type)?;
            if page.kind != Kind::Shared {
                self.check_page(table, memory, page)?;
            }
        }
        Ok(frame * FRAME_WORDS + self.index as usize)
    }

    /// The checks of an access to a guest's page.
    #[inline(always)]
    fn check_page(&self, table: &[u64], memory: &[u64], page: Entry) -> Result<(), Refusal> {
        if page.fixed {
            require(!self.writes, Refusal::Fixed)?;
            let place = place_in_leaf(table, memory, page, self.caller)?;
            let gpa = place.ok_or(Refusal::NoPlace)?;
            require(gpa == self.gpa, Refusal::Address)
        } else {
            require(page.asid == self.caller, Refusal::Owner)?;
            require(page.gpa == self.gpa, Refusal::Address)?;
            require(page.validated, Refusal::NotValidated)
        }
    }
}

/// The types of an access: all but LEAF.
#[inline]
pub(crate) fn access_kind(number: u64) -> Result<Kind, Refusal> {
    Kind::from_number(number)
        .filter(|&kind| kind != Kind::Leaf)
        .ok_or(Refusal::Argument)
}

/// Whether a page has a word of this index.
#[inline]
pub(crate) fn is_index(index: u64) -> bool {
    index < FRAME_WORDS as u64
}
