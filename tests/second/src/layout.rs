//! Addresses, types, entries and leaf words (document 01, "Sizes and layout").

/// Words in a frame; also the number of words in a leaf, one for each ASID.
pub const FRAME_WORDS: usize = 512;
/// Bytes in a frame.
pub const FRAME_BYTES: u64 = 4096;
/// Words in an entry of the table.
pub const ENTRY_WORDS: usize = 2;
/// Most frames that a table may describe.
pub const MAX_TABLE_FRAMES: usize = 4096;
/// Most frames that memory may have.
pub const MAX_MEMORY_FRAMES: usize = 8192;
/// The ASID of the host.
pub const HOST: u64 = 0;
/// The highest ASID of a guest.
pub const MAX_ASID: u64 = 511;

const ADDRESS_END: u64 = 1 << 52;
const ASID_MASK: u64 = 0xffff;
const KIND_SHIFT: u32 = 16;
const VALIDATED: u64 = 1 << 18;
const FIXED: u64 = 1 << 19;
const UNUSED_BITS: u64 = !0xf_ffff;
const PRESENT: u64 = 1;

/// Whether this is an address: a multiple of 4,096 below 2^52.
#[inline]
pub fn is_address(address: u64) -> bool {
    address < ADDRESS_END && address.is_multiple_of(FRAME_BYTES)
}

/// Whether this is an ASID, the host's included.
#[inline]
pub fn is_asid(asid: u64) -> bool {
    asid <= MAX_ASID
}

/// The number of the frame at `hpa` if it is below `limit`.
#[inline]
pub fn frame_below(limit: usize, hpa: u64) -> Option<usize> {
    usize::try_from(hpa / FRAME_BYTES)
        .ok()
        .filter(|&frame| frame < limit)
}

/// The type of a page.
#[derive(Clone, Copy, PartialEq, Eq, Debug)]
pub enum Kind {
    Shared = 0,
    Private = 1,
    Mergeable = 2,
    Leaf = 3,
}

impl Kind {
    #[inline]
    pub fn from_number(number: u64) -> Option<Self> {
        match number {
            0 => Some(Self::Shared),
            1 => Some(Self::Private),
            2 => Some(Self::Mergeable),
            3 => Some(Self::Leaf),
            _ => None,
        }
    }

    /// The type in the low two bits.
    #[inline]
    pub(crate) fn from_low_bits(bits: u64) -> Self {
        match bits & 3 {
            0 => Self::Shared,
            1 => Self::Private,
            2 => Self::Mergeable,
            _ => Self::Leaf,
        }
    }
}

/// The first rule that an entry breaks, with its number (document 02, Q-2).
#[derive(Clone, Copy, PartialEq, Eq, Debug)]
#[repr(u8)]
pub enum Reason {
    SpareBits = 1,
    /// The ASID is not one for the type.
    Asid = 2,
    /// The flags are not ones for the type.
    Flags = 3,
    /// Word 1 is not one for the type and flags.
    Address = 4,
}

/// A well formed entry of the table.
#[derive(Clone, Copy, PartialEq, Eq, Debug)]
pub struct Entry {
    pub asid: u64,
    pub kind: Kind,
    pub validated: bool,
    pub fixed: bool,
    /// The guest's address, or the leaf's address if the page is fixed.
    pub gpa: u64,
}

impl Entry {
    /// The entry of a frame that nobody owns: two zero words.
    pub const SHARED: Self = Self::new(HOST, Kind::Shared, 0);

    /// An entry with both flags 0.
    #[inline]
    pub const fn new(asid: u64, kind: Kind, gpa: u64) -> Self {
        Self {
            asid,
            kind,
            validated: false,
            fixed: false,
            gpa,
        }
    }

    /// The entry in these two words of a table of `n` frames if well formed,
    /// else the first rule that it breaks.
    #[inline]
    pub fn decode([head, gpa]: [u64; ENTRY_WORDS], n: usize) -> Result<Self, Reason> {
        if head & UNUSED_BITS != 0 {
            return Err(Reason::SpareBits);
        }
        let entry = Self::from_words([head, gpa]);
        if entry.is_well_formed(n) {
            Ok(entry)
        } else {
            Err(Self::first_broken_rule(head))
        }
    }

    /// The fields of an entry, well formed or not.
    #[inline]
    fn from_words([head, gpa]: [u64; ENTRY_WORDS]) -> Self {
        Self {
            asid: head & ASID_MASK,
            kind: Kind::from_low_bits(head >> KIND_SHIFT),
            validated: head & VALIDATED != 0,
            fixed: head & FIXED != 0,
            gpa,
        }
    }

    /// The two words of the entry.
    #[inline]
    pub fn encode(self) -> [u64; ENTRY_WORDS] {
        let mut head = self.asid | (self.kind as u64) << KIND_SHIFT;
        if self.validated {
            head |= VALIDATED;
        }
        if self.fixed {
            head |= FIXED;
        }
        [head, self.gpa]
    }

    #[inline]
    fn is_well_formed(&self, n: usize) -> bool {
        match self.kind {
            Kind::Shared | Kind::Leaf => {
                self.asid == HOST && self.gpa == 0 && !self.validated && !self.fixed
            }
            Kind::Private => self.has_guest_and_address() && !self.fixed,
            Kind::Mergeable => {
                self.has_guest_and_address()
                    && (!self.fixed || self.validated && frame_below(n, self.gpa).is_some())
            }
        }
    }

    #[inline]
    fn has_guest_and_address(&self) -> bool {
        self.asid != HOST && is_asid(self.asid) && is_address(self.gpa)
    }

    /// The first rule that a bad entry without spare bits breaks, from its
    /// word 0 alone: if nothing is wrong there, word 1 is. It does not take the
    /// decoded entry, as good ones would then be built in memory.
    #[cold]
    fn first_broken_rule(head: u64) -> Reason {
        let entry = Self::from_words([head, 0]);
        let asid_fits = match entry.kind {
            Kind::Shared | Kind::Leaf => entry.asid == HOST,
            Kind::Private | Kind::Mergeable => entry.asid != HOST && is_asid(entry.asid),
        };
        let flags_fit = match entry.kind {
            Kind::Shared | Kind::Leaf => !entry.validated && !entry.fixed,
            Kind::Private => !entry.fixed,
            Kind::Mergeable => entry.validated || !entry.fixed,
        };
        if !asid_fits {
            Reason::Asid
        } else if !flags_fit {
            Reason::Flags
        } else {
            Reason::Address
        }
    }

    /// The number of the leaf's frame; only a fixed page has one.
    #[inline]
    pub fn leaf(&self) -> usize {
        (self.gpa / FRAME_BYTES) as usize
    }
}

/// A word of a leaf frame.
#[derive(Clone, Copy, PartialEq, Eq, Debug)]
pub enum LeafWord {
    Absent,
    Present { gpa: u64 },
    Misshapen,
}

impl LeafWord {
    #[inline]
    pub fn decode(word: u64) -> Self {
        let gpa = word & !PRESENT;
        if word & PRESENT == 0 {
            Self::Absent
        } else if is_address(gpa) {
            Self::Present { gpa }
        } else {
            Self::Misshapen
        }
    }
}

/// Whether bit 0 of a leaf word is set, be the word misshapen or not.
#[inline]
pub fn is_present(word: u64) -> bool {
    word & PRESENT != 0
}

/// The leaf word that is present at this address.
#[inline]
pub fn present_at(gpa: u64) -> u64 {
    gpa | PRESENT
}

#[cfg(test)]
mod tests {
    use super::*;

    const N: usize = 8;

    fn reason(words: [u64; ENTRY_WORDS]) -> Option<Reason> {
        Entry::decode(words, N).err()
    }

    #[test]
    fn spare_bits_are_reason_1() {
        for bit in 20..64 {
            for [head, gpa] in [[0, 0], [0x10007, 0x50000], [0xe0007, 0x3000], [0x30000, 0]] {
                assert_eq!(reason([head, gpa]), None);
                let words = [head | 1 << bit, gpa];
                assert_eq!(reason(words), Some(Reason::SpareBits), "{words:x?}");
            }
        }
    }

    #[test]
    fn an_asid_against_the_type_is_reason_2() {
        for words in [
            [1, 0],
            [0xffff, 0],
            [0x10000, 0x1000],
            [0x10200, 0x1000],
            [0x20000, 0x1000],
            [0x2ffff, 0x1000],
            [0xe0200, 0x3000],
            [0x30001, 0],
        ] {
            assert_eq!(reason(words), Some(Reason::Asid), "{words:x?}");
        }
    }

    #[test]
    fn flags_against_the_type_are_reason_3() {
        for words in [
            [0x40000, 0],
            [0x80000, 0],
            [0xc0000, 0],
            [0x90007, 0x3000],
            [0xd0007, 0x3000],
            [0xa0007, 0x3000],
            [0x70000, 0],
            [0xb0000, 0],
        ] {
            assert_eq!(reason(words), Some(Reason::Flags), "{words:x?}");
        }
    }

    #[test]
    fn a_wrong_word_1_is_reason_4() {
        for words in [
            [0, 0x1000],
            [0, 1],
            [0x30000, 0x1000],
            [0x10007, 0x1001],
            [0x50007, 1 << 52],
            [0x20007, 0x800],
            [0x60007, u64::MAX],
            [0xe0007, 0x3001],
            [0xe0007, 0x8000],
            [0xe0007, (1 << 52) - 0x1000],
        ] {
            assert_eq!(reason(words), Some(Reason::Address), "{words:x?}");
        }
    }

    #[test]
    fn a_leaf_is_below_n() {
        let fixed = [0xe0007, 0x3000];
        assert_eq!(Entry::decode(fixed, 3), Err(Reason::Address));
        assert!(Entry::decode(fixed, 4).is_ok());
    }

    #[test]
    fn of_two_broken_rules_the_first_decides() {
        for (words, first) in [
            // Spare bits and the ASID.
            ([0x100001, 0], Reason::SpareBits),
            ([0x110000, 0x1000], Reason::SpareBits),
            // The ASID and the flags.
            ([0x40001, 0], Reason::Asid),
            ([0x90000, 0x1000], Reason::Asid),
            ([0xa0200, 0x3000], Reason::Asid),
            ([0xb0001, 0], Reason::Asid),
            // The flags and the address.
            ([0x40000, 0x1000], Reason::Flags),
            ([0x90007, 0x1001], Reason::Flags),
            ([0xa0007, 0x8000], Reason::Flags),
            ([0x70000, 0x1000], Reason::Flags),
            // Rules that are not neighbours.
            ([0x180000, 0], Reason::SpareBits),
            ([0x100000, 0x1000], Reason::SpareBits),
            ([0x10000, 0x1001], Reason::Asid),
        ] {
            assert_eq!(reason(words), Some(first), "{words:x?}");
        }
    }

    /// Whether the entry keeps each of the four rules, from document 01,
    /// "Well formed".
    fn rules_kept([head, gpa]: [u64; ENTRY_WORDS]) -> [bool; 4] {
        let asid = head & 0xffff;
        let kind = head >> 16 & 3;
        let [validated, fixed] = [18, 19].map(|bit| head >> bit & 1 == 1);
        let owned = kind == 1 || kind == 2;
        let address = gpa % 4096 == 0 && gpa < 1 << 52;
        [
            head >> 20 == 0,
            if owned {
                (1..=511).contains(&asid)
            } else {
                asid == 0
            },
            if owned {
                !fixed || validated && kind != 1
            } else {
                !validated && !fixed
            },
            if owned {
                address && (!fixed || gpa / 4096 < N as u64)
            } else {
                gpa == 0
            },
        ]
    }

    #[test]
    fn the_reason_is_the_first_broken_rule() {
        let asids = [0, 1, 7, 511, 512, 0x8000, 0xffff];
        let gpas = [0, 1, 0x800, 0x1000, 0x7000, 0x7001, 0x8000, 0x50000];
        let far = [(1 << 52) - 0x1000, 1 << 52, 1 << 63, u64::MAX];
        for (asid, gpa) in asids
            .into_iter()
            .flat_map(|asid| gpas.into_iter().chain(far).map(move |gpa| (asid, gpa)))
        {
            // Every type, all flags, and the lowest spare bit.
            for above in 0..32 {
                let words = [above << 16 | asid, gpa];
                let broken = rules_kept(words).iter().position(|kept| !kept);
                let number = reason(words).map(|reason| reason as usize);
                assert_eq!(number, broken.map(|rule| rule + 1), "{words:x?}");
            }
        }
    }
}
