//! The layout of page tables: what the bits of an entry are, and which words of its tables an address goes through. Like `layout`, it takes
//! nothing from the two programs that are compared; it is written from the requirements, request Q-4.

use crate::layout::{FRAME_BYTES, FRAME_WORDS};

/// The host's tables have an index for guest addresses below this.
pub const GUEST_END: u64 = 1 << 48;
/// The levels from the top down, each by the lowest bit of its index in an address.
pub const LEVELS: [u32; 4] = [39, 30, 21, 12];

pub const PRESENT: u64 = 1;
/// A large page; ignored at the last level.
pub const LARGE: u64 = 1 << 7;
const ADDRESS: u64 = 0xf_ffff_ffff_f000;
const KIND_SHIFT: u32 = 52;
const KIND: u64 = 3 << KIND_SHIFT;
/// The bits that are ignored at every level.
pub const IGNORED: u64 = !(PRESENT | LARGE | ADDRESS | KIND);

/// The entry for a page or a table below, of this type.
pub fn entry(address: u64, kind: u64) -> u64 {
    address | kind << KIND_SHIFT | PRESENT
}

pub fn address_of(entry: u64) -> u64 {
    entry & ADDRESS
}

pub fn kind_of(entry: u64) -> u64 {
    (entry & KIND) >> KIND_SHIFT
}

/// The same entry with another address.
pub fn with_address(entry: u64, address: u64) -> u64 {
    entry & !ADDRESS | address
}

/// The same entry with another type.
pub fn with_kind(entry: u64, kind: u64) -> u64 {
    entry & !KIND | kind << KIND_SHIFT
}

/// The index of an address in a table of this level.
pub fn index(address: u64, level: u32) -> usize {
    (address >> level) as usize % FRAME_WORDS
}

/// The virtual address with these indexes from the top down: bits 63 to 48 are like bit 47.
pub fn virtual_address(indexes: [usize; 4]) -> u64 {
    let joined = indexes
        .iter()
        .fold(0, |high, &index| high << 9 | index as u64);
    let shifted = ((joined * FRAME_BYTES) << 16) as i64 >> 16;
    shifted as u64
}

#[cfg(test)]
mod tests {
    use super::*;

    #[test]
    fn an_entry_has_its_fields() {
        let word = entry(0x5_1000, 2);
        assert_eq!(word, 0x0020_0000_0005_1001);
        assert_eq!((address_of(word), kind_of(word)), (0x5_1000, 2));
        assert_eq!(with_kind(word, 3), 0x0030_0000_0005_1001);
        assert_eq!(with_address(word, 1 << 48), 0x0021_0000_0000_0001);
        assert_eq!(IGNORED, 0xffc0_0000_0000_0f7e);
    }

    #[test]
    fn a_virtual_address_is_its_indexes() {
        for (indexes, va) in [
            ([1, 1, 1, 6], 0x80_4020_6000),
            ([255, 511, 511, 511], 0x7fff_ffff_f000),
            ([256, 0, 0, 0], 0xffff_8000_0000_0000),
        ] {
            assert_eq!(virtual_address(indexes), va);
            assert_eq!(LEVELS.map(|level| index(va, level)), indexes);
        }
    }
}
