//! What the calls share: the checks of lengths, frames, entries and leaves, and
//! the parts of table and memory that belong to a frame. Every frame number here
//! has passed the check that it is below N.

use crate::call::{Answer, Refusal};
use crate::layout::{
    frame_below, is_present, Entry, Kind, LeafWord, ENTRY_WORDS, FRAME_WORDS, HOST,
    MAX_MEMORY_FRAMES, MAX_TABLE_FRAMES,
};

/// Words of a leaf that are looked at together; any number gives the same
/// answers.
const RUN_WORDS: usize = 16;

/// Runs the checks and the change of a call, and turns a refusal into its
/// answer.
#[inline]
pub fn answer(call: impl FnOnce() -> Result<Answer, Refusal>) -> Answer {
    call().unwrap_or_else(Answer::from)
}

/// Refuses unless the condition holds.
#[inline]
pub fn require(condition: bool, refusal: Refusal) -> Result<(), Refusal> {
    if condition {
        Ok(())
    } else {
        Err(refusal)
    }
}

/// Refusal 1: the lengths of table and memory. After it, every frame of the
/// table is a frame of memory too.
#[inline]
pub fn geometry(table: &[u64], memory: &[u64]) -> Result<(), Refusal> {
    let whole = table.len().is_multiple_of(ENTRY_WORDS) && memory.len().is_multiple_of(FRAME_WORDS);
    let n = table.len() / ENTRY_WORDS;
    let m = memory.len() / FRAME_WORDS;
    let sizes_fit = (1..=MAX_TABLE_FRAMES).contains(&n) && (n..=MAX_MEMORY_FRAMES).contains(&m);
    require(whole && sizes_fit, Refusal::Geometry)
}

/// Refusal 4 of an instruction: the frame at `hpa`, which must have an entry.
#[inline]
pub fn table_frame(table: &[u64], hpa: u64) -> Result<usize, Refusal> {
    frame_below(table.len() / ENTRY_WORDS, hpa).ok_or(Refusal::Outside)
}

/// The table as pairs of words.
#[inline]
pub fn entries(table: &[u64]) -> &[[u64; ENTRY_WORDS]] {
    table.as_chunks().0
}

/// Refusal 5: the entry of a named frame.
#[inline]
pub fn entry(table: &[u64], frame: usize) -> Result<Entry, Refusal> {
    let entries = entries(table);
    Entry::decode(entries[frame], entries.len()).map_err(Refusal::BadEntry)
}

#[inline]
pub fn set_entry(table: &mut [u64], frame: usize, entry: Entry) {
    table.as_chunks_mut().0[frame] = entry.encode();
}

/// The words of a frame.
#[inline]
pub fn words(memory: &[u64], frame: usize) -> &[u64; FRAME_WORDS] {
    &memory.as_chunks().0[frame]
}

#[inline]
pub fn words_mut(memory: &mut [u64], frame: usize) -> &mut [u64; FRAME_WORDS] {
    &mut memory.as_chunks_mut().0[frame]
}

/// Refusal 12 for the leaf's entry: the number of the leaf's frame of this
/// fixed page.
#[inline]
pub fn leaf_of(table: &[u64], page: Entry) -> Result<usize, Refusal> {
    let leaf = page.leaf();
    let is_leaf = entry(table, leaf).is_ok_and(|entry| entry.kind == Kind::Leaf);
    require(is_leaf, Refusal::BrokenLeaf)?;
    Ok(leaf)
}

/// Refusal 12, then the address at which the guest holds this fixed page, if
/// it does.
#[inline]
pub fn place_in_leaf(
    table: &[u64],
    memory: &[u64],
    page: Entry,
    asid: u64,
) -> Result<Option<u64>, Refusal> {
    let leaf = leaf_of(table, page)?;
    match LeafWord::decode(words(memory, leaf)[asid as usize]) {
        LeafWord::Absent => Ok(None),
        LeafWord::Present { gpa } => Ok(Some(gpa)),
        LeafWord::Misshapen => Err(Refusal::BrokenLeaf),
    }
}

/// Refusals 17 and 12, then the guest whose word in a leaf is the only present
/// one, with the address in it; none if no word is present.
pub fn only_place(leaf: &[u64; FRAME_WORDS]) -> Result<Option<(u64, u64)>, Refusal> {
    let Some(index) = first_present(leaf) else {
        return Ok(None);
    };
    let second = first_present(&leaf[index + 1..]);
    require(second.is_none(), Refusal::StillShared)?;
    let asid = index as u64;
    match LeafWord::decode(leaf[index]) {
        LeafWord::Present { gpa } if asid != HOST => Ok(Some((asid, gpa))),
        _ => Err(Refusal::BrokenLeaf),
    }
}

/// The index of the first word that is present, be it misshapen or not. Runs
/// that have none are passed over whole, which is faster than word by word.
#[inline]
fn first_present(words: &[u64]) -> Option<usize> {
    let (runs, _) = words.as_chunks();
    let passed = runs.iter().take_while(|run| !any_present(run)).count();
    let start = passed * RUN_WORDS;
    let index = words[start..].iter().position(|&word| is_present(word))?;
    Some(start + index)
}

/// Whether a word of the run is present, without a branch for each word.
#[inline]
fn any_present(run: &[u64; RUN_WORDS]) -> bool {
    is_present(run.iter().fold(0, |bits, word| bits | word))
}

/// Whether some well formed fixed entry names the leaf at this address.
pub fn leaf_in_use(table: &[u64], leaf: u64) -> bool {
    let entries = entries(table);
    entries.iter().any(|&[head, gpa]| {
        gpa == leaf && Entry::decode([head, gpa], entries.len()).is_ok_and(|entry| entry.fixed)
    })
}

#[cfg(test)]
mod tests {
    use super::*;

    /// A leaf with these words; the others are absent, but not zero.
    fn leaf(words: &[(usize, u64)]) -> [u64; FRAME_WORDS] {
        let mut leaf = [!1; FRAME_WORDS];
        for &(index, word) in words {
            leaf[index] = word;
        }
        leaf
    }

    #[test]
    fn no_present_word_is_no_place() {
        for word in [0, 0x50000, 0x50002, !1] {
            assert_eq!(only_place(&[word; FRAME_WORDS]), Ok(None));
        }
    }

    #[test]
    fn the_only_present_word_is_the_place_of_its_guest() {
        for index in 1..FRAME_WORDS {
            for gpa in [0, 0x50000, (1 << 52) - 0x1000] {
                let place = only_place(&leaf(&[(index, gpa | 1)]));
                assert_eq!(place, Ok(Some((index as u64, gpa))));
            }
        }
    }

    #[test]
    fn the_only_present_word_is_12_at_index_0_or_misshapen() {
        let broken = Err(Refusal::BrokenLeaf);
        assert_eq!(only_place(&leaf(&[(0, 1)])), broken);
        assert_eq!(only_place(&leaf(&[(0, 0x50001)])), broken);
        for bit in (1..12).chain(52..64) {
            for index in [0, 1, 7, 15, 16, 17, 511] {
                assert_eq!(only_place(&leaf(&[(index, 1 << bit | 0x50001)])), broken);
            }
        }
    }

    #[test]
    fn any_two_present_words_are_17() {
        for second in 1..FRAME_WORDS {
            for first in 0..second {
                let place = only_place(&leaf(&[(first, 0x50001), (second, 0x60001)]));
                assert_eq!(place, Err(Refusal::StillShared), "{first} {second}");
            }
        }
    }
}
