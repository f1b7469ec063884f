//! A whole shared page, where it lies in memory.

use crate::{page_check, Refusal, FRAME_BYTES, FRAME_WORDS};

/// `caller` reads the whole SHARED frame at `hpa`: its 512 words, where they lie in `memory`, with no copy made. It is refused where
/// [`page_check`] is.
///
/// That the frame is SHARED is checked once, by this call. While the words are borrowed, no call can change memory:
///
/// ```
/// # use skorbilek::{page_read, page_write, Refusal, FRAME_WORDS, HOST};
/// # let (table, mut memory) = ([0; 16], vec![0; 5120]);
/// // the host's disk driver fills frame 2, and guest 7 reads it
/// page_write(&table, &mut memory, HOST, 0, 0x2000, &[42; FRAME_WORDS])?;
/// let page = page_read(&table, &memory, 7, 0x50000, 0x2000)?;
/// assert_eq!(page, &[42; FRAME_WORDS]);
/// assert!(std::ptr::eq(&page[0], &memory[512 * 2]));
///
/// // memory has ten frames
/// assert_eq!(page_read(&table, &memory, 7, 0x50000, 0xa000), Err(Refusal::Outside));
/// # Ok::<(), Refusal>(())
/// ```
///
/// # Panics
///
/// Where the library accepts a frame that `memory` does not have, which it is proved not to do.
#[inline]
pub fn page_read<'m>(
    table: &[u64],
    memory: &'m [u64],
    caller: u64,
    gpa: u64,
    hpa: u64,
) -> Result<&'m [u64; FRAME_WORDS], Refusal> {
    page_check(table, memory, caller, gpa, hpa)?;
    let start = (hpa / FRAME_BYTES) as usize * FRAME_WORDS;
    let page = memory[start..].first_chunk();
    Ok(page.expect("an accepted frame is whole"))
}
