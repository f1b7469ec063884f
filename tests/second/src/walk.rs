//! Calls by virtual address (document 02, Q-4): the walk through the four
//! levels of a guest's table, of which each address goes through the host's
//! table first, and the forms of PVALIDATE, READ and WRITE that go where it
//! leads.

use crate::access::{access_kind, is_index, Access};
use crate::call::{Answer, Refusal};
use crate::checks::{entries, geometry, require};
use crate::layout::{frame_below, is_address, is_asid, Kind, FRAME_BYTES, FRAME_WORDS, HOST};
use crate::rules::{pvalidate, validated_kind};

/// The levels of a table from the top down, each by the lowest bit of its
/// index in an address.
const LEVELS: [u32; 4] = [39, 30, 21, LAST];
const LAST: u32 = 12;
/// The first guest address that the host's table has no index for.
const GUEST_END: u64 = 1 << 48;
/// The bits of a virtual address above the top level's index.
const SIGN_BITS: u32 = 16;

const PRESENT: u64 = 1;
const LARGE: u64 = 1 << 7;
const ADDRESS_BITS: u64 = 0xf_ffff_ffff_f000;
const KIND_SHIFT: u32 = 52;

/// How a guest names a virtual address.
#[derive(Clone, Copy, PartialEq, Eq, Debug)]
pub struct Virtual {
    pub caller: u64,
    /// The guest address of the guest's top table.
    pub root: u64,
    /// The type of that table.
    pub root_type: u64,
    /// The address of the frame of the host's top table.
    pub host_root: u64,
    pub va: u64,
}

/// What a walk yields.
#[derive(Clone, Copy, PartialEq, Eq, Debug)]
pub struct Mapping {
    pub gpa: u64,
    pub hpa: u64,
    pub gtype: u64,
    pub ntype: u64,
}

/// What a call by virtual address answers.
#[derive(Clone, Copy, PartialEq, Eq, Debug)]
pub struct Reached {
    pub answer: Answer,
    /// The guest address of an accepted call, zero for a refused one.
    pub gpa: u64,
}

/// The walk: where a virtual address of a guest leads.
#[rustfmt::skip]
pub fn walk(
    table: &[u64],
    memory: &[u64],
    caller: u64,
    root: u64,
    root_type: u64,
    host_root: u64,
    va: u64,
) -> Result<Mapping, Refusal> {
    let at = Virtual { caller, root, root_type, host_root, va };
    at.walk(table, memory, true)
}

/// PVALIDATE of the page at a virtual address.
#[allow(clippy::too_many_arguments)]
#[rustfmt::skip]
pub fn pvalidate_va(
    table: &mut [u64],
    memory: &[u64],
    caller: u64,
    root: u64,
    root_type: u64,
    host_root: u64,
    va: u64,
    kind: u64,
) -> Reached {
    let at = Virtual { caller, root, root_type, host_root, va };
    reached(|| {
        let Mapping { gpa, hpa, .. } = at.walk(table, memory, validated_kind(kind).is_ok())?;
        match pvalidate(table, memory, caller, gpa, hpa, kind) {
            answer @ Answer::Refused { .. } => Ok(Reached { answer, gpa: 0 }),
            answer => Ok(Reached { answer, gpa }),
        }
    })
}

/// READ of a word of the page at a virtual address.
#[allow(clippy::too_many_arguments)]
#[rustfmt::skip]
pub fn read_va(
    table: &[u64],
    memory: &[u64],
    caller: u64,
    root: u64,
    root_type: u64,
    host_root: u64,
    va: u64,
    index: u64,
) -> Reached {
    let at = Virtual { caller, root, root_type, host_root, va };
    reached(|| {
        let mapping = at.walk(table, memory, is_index(index))?;
        let position = mapping.access(caller, index, false).check_frame(table, memory)?;
        Ok(Reached { answer: Answer::Word(memory[position]), gpa: mapping.gpa })
    })
}

/// WRITE of a word of the page at a virtual address.
#[allow(clippy::too_many_arguments)]
#[rustfmt::skip]
pub fn write_va(
    table: &[u64],
    memory: &mut [u64],
    caller: u64,
    root: u64,
    root_type: u64,
    host_root: u64,
    va: u64,
    index: u64,
    value: u64,
) -> Reached {
    let at = Virtual { caller, root, root_type, host_root, va };
    reached(|| {
        let mapping = at.walk(table, memory, is_index(index))?;
        let position = mapping.access(caller, index, true).check_frame(table, memory)?;
        memory[position] = value;
        Ok(Reached { answer: Answer::Done, gpa: mapping.gpa })
    })
}

/// The host half of the walk: the frame address of a guest address and the
/// host type. The caller has checked the sizes and the root.
pub fn host_half(
    table: &[u64],
    memory: &[u64],
    host_root: u64,
    gpa: u64,
) -> Result<(u64, u64), Refusal> {
    require(gpa < GUEST_END, Refusal::Argument)?;
    let [upper @ .., last] = LEVELS;
    let mut hpa = host_root;
    for level in upper {
        hpa = host_entry(table, memory, hpa, gpa, level)?.address();
    }
    let entry = host_entry(table, memory, hpa, gpa, last)?;
    Ok((entry.address(), entry.kind()? as u64))
}

/// The entry for a guest address in a host's table of this level. The host
/// reads it as a SHARED word; a frame whose entry is two zero words is SHARED
/// without more checks, which is faster.
#[inline(always)]
fn host_entry(
    table: &[u64],
    memory: &[u64],
    hpa: u64,
    gpa: u64,
    level: u32,
) -> Result<PageEntry, Refusal> {
    let access = Access {
        caller: HOST,
        gpa: 0,
        hpa,
        gtype: Kind::Shared,
        ntype: Kind::Shared,
        index: index(gpa, level),
        writes: false,
    };
    let entries = entries(table);
    let position = match frame_below(entries.len(), hpa) {
        Some(frame) if entries[frame] == [0, 0] => frame * FRAME_WORDS + access.index as usize,
        _ => access.check_frame(table, memory)?,
    };
    PageEntry::decode(memory[position], level)
}

impl Virtual {
    /// Refusals 1 to 3, then the walk. `others_fit` says whether the other
    /// arguments of the call are good.
    #[inline]
    fn walk(&self, table: &[u64], memory: &[u64], others_fit: bool) -> Result<Mapping, Refusal> {
        geometry(table, memory)?;
        require(is_asid(self.caller) && others_fit, Refusal::Argument)?;
        let roots_fit = is_address(self.root) && is_address(self.host_root);
        require(roots_fit && is_virtual(self.va), Refusal::Argument)?;
        let root_type = access_kind(self.root_type)?;
        require(self.caller != HOST, Refusal::Caller)?;
        self.descend(table, memory, root_type)
    }

    /// The walk with good arguments.
    fn descend(&self, table: &[u64], memory: &[u64], root_type: Kind) -> Result<Mapping, Refusal> {
        let mut gpa = self.root;
        let mut gtype = root_type;
        for level in LEVELS {
            let (hpa, ntype) = host_half(table, memory, self.host_root, gpa)?;
            let access = Access {
                caller: self.caller,
                gpa,
                hpa,
                gtype,
                ntype: Kind::from_low_bits(ntype),
                index: index(self.va, level),
                writes: false,
            };
            let position = access.check_frame(table, memory)?;
            let entry = PageEntry::decode(memory[position], level)?;
            gtype = entry.kind()?;
            gpa = entry.address();
        }
        let (hpa, ntype) = host_half(table, memory, self.host_root, gpa)?;
        let gtype = gtype as u64;
        Ok(Mapping {
            gpa,
            hpa,
            gtype,
            ntype,
        })
    }
}

/// Runs a call by virtual address, and turns a refusal into its answer.
#[inline]
fn reached(call: impl FnOnce() -> Result<Reached, Refusal>) -> Reached {
    call().unwrap_or_else(|refusal| Reached {
        answer: refusal.into(),
        gpa: 0,
    })
}

impl Mapping {
    /// The access to a word of the page, which 01's READ or WRITE makes. The
    /// walk has checked what comes before 4.
    #[inline]
    fn access(&self, caller: u64, index: u64, writes: bool) -> Access<Kind> {
        Access {
            caller,
            gpa: self.gpa,
            hpa: self.hpa,
            gtype: Kind::from_low_bits(self.gtype),
            ntype: Kind::from_low_bits(self.ntype),
            index,
            writes,
        }
    }
}

/// An entry of a page table that is present and no large page.
#[derive(Clone, Copy)]
struct PageEntry(u64);

impl PageEntry {
    /// Refusals 18 and 19 of a word in a table of this level.
    #[inline]
    fn decode(word: u64, level: u32) -> Result<Self, Refusal> {
        require(word & PRESENT != 0, Refusal::AbsentEntry)?;
        require(word & LARGE == 0 || level == LAST, Refusal::LargePage)?;
        Ok(Self(word))
    }

    /// The type of the page below; 6 for LEAF.
    #[inline]
    fn kind(self) -> Result<Kind, Refusal> {
        let kind = Kind::from_low_bits(self.0 >> KIND_SHIFT);
        require(kind != Kind::Leaf, Refusal::Type)?;
        Ok(kind)
    }

    /// The address of the page below.
    #[inline]
    fn address(self) -> u64 {
        self.0 & ADDRESS_BITS
    }
}

/// The index of an address in a table of this level.
#[inline]
fn index(address: u64, level: u32) -> u64 {
    address >> level & (FRAME_WORDS as u64 - 1)
}

/// Whether this is a virtual address of a page: a multiple of 4,096 whose bits
/// 63:48 are like bit 47.
#[inline]
fn is_virtual(va: u64) -> bool {
    let extended = (va << SIGN_BITS) as i64 >> SIGN_BITS;
    extended as u64 == va && va.is_multiple_of(FRAME_BYTES)
}

#[cfg(test)]
mod tests;
