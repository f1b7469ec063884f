use super::*;
use crate::call::{Reply, Request};
use crate::{read, write};

/// The guest address with index 1 at all four levels. Its multiple by k below
/// 512 has index k at all four.
const ONES: u64 = 0x80_4020_1000;
/// The virtual address with indices 1, 2, 3 and 4 from the top down.
const VA: u64 = 0x80_8060_4000;
/// Frames with an entry and frames of memory.
const N: usize = 16;
const M: usize = 18;

const SHARED: u64 = 0;
const PRIVATE: u64 = 1 << 52;
const MERGEABLE: u64 = 2 << 52;
const LEAF: u64 = 3 << 52;
const BIT_7: u64 = 0x80;

/// The words that the walk of a new machine reads, by frame and index, in
/// order. The host's tables are in frames 1 to 4, each for one level. The
/// guest's tables are at 1 to 4 times `ONES`, in frames 5 to 8, and its page is
/// at 5 times `ONES`, in frame 9.
#[rustfmt::skip]
const STEPS: [(usize, usize); 24] = [
    (1, 1), (2, 1), (3, 1), (4, 1), (5, 1),
    (1, 2), (2, 2), (3, 2), (4, 2), (6, 2),
    (1, 3), (2, 3), (3, 3), (4, 3), (7, 3),
    (1, 4), (2, 4), (3, 4), (4, 4), (8, 4),
    (1, 5), (2, 5), (3, 5), (4, 5),
];

fn is_guest_step((frame, _): (usize, usize)) -> bool {
    frame >= 5
}

fn is_last_level((frame, _): (usize, usize)) -> bool {
    frame == 4 || frame == 8
}

/// A step at whose entry the type counts.
fn has_type(step: (usize, usize)) -> bool {
    is_guest_step(step) || is_last_level(step)
}

#[derive(Clone, PartialEq, Debug)]
struct Machine {
    table: Vec<u64>,
    memory: Vec<u64>,
    at: Virtual,
}

/// Where the walk of a new machine leads.
const MAPPING: Mapping = Mapping {
    gpa: 0x281_40a0_5000,
    hpa: 0x9000,
    gtype: 2,
    ntype: 2,
};

impl Machine {
    /// Guest 7's tables are PRIVATE, its page is MERGEABLE; all are validated.
    fn new() -> Self {
        let mut machine = Self::filled(0);
        for k in 1..=5 {
            for (frame, below) in [(1, 0x2001), (2, 0x3001), (3, 0x4001)] {
                machine.poke((frame, k), below);
            }
        }
        for (k, word) in [
            (1, PRIVATE | 0x5001),
            (2, PRIVATE | 0x6001),
            (3, PRIVATE | 0x7001),
            (4, PRIVATE | 0x8001),
            (5, MERGEABLE | 0x9001),
        ] {
            machine.poke((4, k), word);
        }
        machine.poke((5, 1), PRIVATE | 0x100_8040_2001);
        machine.poke((6, 2), PRIVATE | 0x180_c060_3001);
        machine.poke((7, 3), PRIVATE | 0x201_0080_4001);
        machine.poke((8, 4), MERGEABLE | 0x281_40a0_5001);
        machine.set(5, [0x50007, 0x80_4020_1000]);
        machine.set(6, [0x50007, 0x100_8040_2000]);
        machine.set(7, [0x50007, 0x180_c060_3000]);
        machine.set(8, [0x50007, 0x201_0080_4000]);
        machine.set(9, [0x60007, 0x281_40a0_5000]);
        machine
    }

    /// Every word of memory is this one, and every frame is SHARED.
    fn filled(word: u64) -> Self {
        Self {
            table: vec![0; 2 * N],
            memory: vec![word; M * FRAME_WORDS],
            at: Virtual {
                caller: 7,
                root: ONES,
                root_type: 1,
                host_root: 0x1000,
                va: VA,
            },
        }
    }

    fn set(&mut self, frame: usize, entry: [u64; 2]) {
        self.table[2 * frame..2 * frame + 2].copy_from_slice(&entry);
    }

    fn word(&mut self, (frame, index): (usize, usize)) -> &mut u64 {
        &mut self.memory[frame * FRAME_WORDS + index]
    }

    fn poke(&mut self, place: (usize, usize), word: u64) {
        *self.word(place) = word;
    }

    /// Puts another type into the entry of a step.
    fn retype(&mut self, step: (usize, usize), kind: u64) {
        *self.word(step) = *self.word(step) & !LEAF | kind;
    }

    /// Puts another address into the entry of a step.
    fn redirect(&mut self, step: (usize, usize), address: u64) {
        *self.word(step) = *self.word(step) & !0xf_ffff_ffff_f000 | address;
    }

    /// Copies a frame.
    fn copy(&mut self, from: usize, to: usize) {
        let start = from * FRAME_WORDS;
        self.memory
            .copy_within(start..start + FRAME_WORDS, to * FRAME_WORDS);
    }

    fn make(&mut self, request: &Request) -> Reply<'_> {
        request.make(&mut self.table, &mut self.memory)
    }

    #[rustfmt::skip]
    fn walk(&self) -> Result<Mapping, Refusal> {
        let Virtual { caller, root, root_type, host_root, va } = self.at;
        walk(&self.table, &self.memory, caller, root, root_type, host_root, va)
    }

    /// The three calls of 01 in their forms by virtual address.
    fn requests(&self) -> [Request; 4] {
        let at = self.at;
        #[rustfmt::skip]
        let requests = [
            Request::PvalidateVa { at, kind: 1 },
            Request::PvalidateVa { at, kind: 2 },
            Request::ReadVa { at, index: 511 },
            Request::WriteVa { at, index: 511, value: 0x2a },
        ];
        requests
    }

    fn yields(&self, mapping: Mapping) {
        assert_eq!(self.walk(), Ok(mapping), "{:x?}", self.at);
        let made = self.clone().make(&Request::Walk(self.at)) == Reply::Mapping(Ok(mapping));
        assert!(made);
        self.calls_are_01s(mapping);
    }

    /// The three calls are 01's where the walk leads.
    #[rustfmt::skip]
    fn calls_are_01s(&self, Mapping { gpa, hpa, gtype, ntype }: Mapping) {
        let caller = self.at.caller;
        for request in self.requests() {
            let [mut ours, mut theirs] = [self.clone(), self.clone()];
            let answer = match request {
                Request::PvalidateVa { kind, .. } =>
                    pvalidate(&mut theirs.table, &theirs.memory, caller, gpa, hpa, kind),
                Request::ReadVa { index, .. } =>
                    read(&theirs.table, &theirs.memory, caller, gpa, hpa, gtype, ntype, index),
                Request::WriteVa { index, value, .. } =>
                    write(&theirs.table, &mut theirs.memory, caller, gpa, hpa, gtype, ntype,
                        index, value),
                _ => unreachable!(),
            };
            let refused = matches!(answer, Answer::Refused { .. });
            let gpa = if refused { 0 } else { gpa };
            assert_eq!(ours.make(&request), Reply::Reached(Reached { answer, gpa }));
            assert!(ours == theirs, "{request:x?}");
            assert!(!refused || ours == *self);
        }
    }

    /// The walk and the three calls are refused with this number.
    fn refuses(&self, number: u8) {
        self.refuses_for(number, 0);
    }

    fn refuses_for(&self, number: u8, reason: u8) {
        let refusal = self.walk().expect_err("a refused walk");
        let given = (refusal.number(), refusal.reason());
        assert_eq!(given, (number, reason), "{:x?}", self.at);
        let mut machine = self.clone();
        let made = machine.make(&Request::Walk(self.at)) == Reply::Mapping(Err(refusal));
        assert!(made);
        for request in self.requests() {
            machine.refuses_call(&request, number, reason);
        }
    }

    /// The call is refused with this number and changes nothing.
    fn refuses_call(&mut self, request: &Request, number: u8, reason: u8) {
        let before = self.clone();
        let answer = Answer::Refused { number, reason };
        assert_eq!(
            self.make(request),
            Reply::Reached(Reached { answer, gpa: 0 }),
            "{request:x?}"
        );
        assert!(*self == before);
    }

    fn after(change: impl FnOnce(&mut Self)) -> Self {
        let mut machine = Self::new();
        change(&mut machine);
        machine
    }
}

#[test]
fn where_a_walk_leads() {
    let machine = Machine::new();
    machine.yields(MAPPING);
    for (gpa, hpa, ntype) in [
        (0x80_4020_1000, 0x5000, 1),
        (0x100_8040_2000, 0x6000, 1),
        (0x180_c060_3000, 0x7000, 1),
        (0x201_0080_4000, 0x8000, 1),
        (0x281_40a0_5000, 0x9000, 2),
    ] {
        let half = host_half(&machine.table, &machine.memory, 0x1000, gpa);
        assert_eq!(half, Ok((hpa, ntype)));
    }
}

#[test]
fn a_walk_hangs_on_its_24_words_alone() {
    let machine = Machine::new();
    for fill in [0, 1, BIT_7 | 1, LEAF | 1, u64::MAX] {
        let mut other = Machine::filled(fill);
        other.table.clone_from(&machine.table);
        for (frame, index) in STEPS {
            let position = frame * FRAME_WORDS + index;
            other.memory[position] = machine.memory[position];
        }
        assert_eq!(other.walk(), Ok(MAPPING));
    }
    for step in STEPS {
        Machine::after(|machine| *machine.word(step) &= !1).refuses(18);
    }
}

#[test]
fn an_absent_entry_is_18_whatever_else_it_holds() {
    for step in STEPS {
        for word in [0, BIT_7, LEAF, 1 << 51, !1] {
            Machine::after(|machine| machine.poke(step, word)).refuses(18);
        }
    }
}

#[test]
fn bit_7_is_19_above_the_last_level() {
    for step in STEPS {
        for bits in [BIT_7, BIT_7 | LEAF, BIT_7 | LEAF | 1 << 51] {
            let machine = Machine::after(|machine| *machine.word(step) |= bits);
            if !is_last_level(step) {
                machine.refuses(19);
            } else if bits == BIT_7 {
                machine.yields(MAPPING);
            } else {
                machine.refuses(6);
            }
        }
    }
}

#[test]
fn type_leaf_is_6_where_the_type_counts() {
    for step in STEPS {
        let machine = Machine::after(|machine| machine.retype(step, LEAF));
        match has_type(step) {
            true => machine.refuses(6),
            false => machine.yields(MAPPING),
        }
        // Before 2 or 4 for the address in it.
        let machine = Machine::after(|machine| {
            machine.retype(step, LEAF);
            machine.redirect(step, 1 << 51);
        });
        machine.refuses(if has_type(step) { 6 } else { 4 });
    }
}

#[test]
fn the_other_bits_are_ignored() {
    for step in STEPS {
        let above: u64 = if has_type(step) { 54 } else { 52 };
        let ignored = !0 << above | 0xf7e;
        Machine::after(|machine| *machine.word(step) |= ignored).yields(MAPPING);
        for bit in (1..7).chain(8..12).chain(above as u32..64) {
            let machine = Machine::after(|machine| *machine.word(step) |= 1 << bit);
            assert_eq!(machine.walk(), Ok(MAPPING), "{step:?} {bit}");
        }
    }
    Machine::after(|machine| {
        for step in STEPS {
            *machine.word(step) |= 0xffc0_0000_0000_0f7e;
        }
    })
    .yields(MAPPING);
}

#[test]
fn the_first_bad_entry_on_the_way_decides() {
    type Damage = (u8, fn(&mut Machine, (usize, usize)));
    let absent: Damage = (18, |machine, step| *machine.word(step) = 0);
    let large: Damage = (19, |machine, step| *machine.word(step) |= BIT_7);
    let leaf: Damage = (6, |machine, step| machine.retype(step, LEAF));
    for (i, &first) in STEPS.iter().enumerate() {
        for &second in &STEPS[i + 1..] {
            for (number, damage) in [absent, large, leaf] {
                if number == 19 && is_last_level(first) || number == 6 && !has_type(first) {
                    continue;
                }
                for (_, later) in [absent, large, leaf] {
                    let machine = Machine::after(|machine| {
                        damage(machine, first);
                        later(machine, second);
                    });
                    let refusal = machine.walk().expect_err("a refused walk");
                    assert_eq!(refusal.number(), number, "{first:?} {second:?}");
                }
            }
        }
    }
}

#[test]
fn a_guest_address_of_2_to_the_48_is_2_on_the_way() {
    for step in STEPS.into_iter().filter(|&step| is_guest_step(step)) {
        for gpa in [1 << 48, 1 << 48 | ONES, 1 << 51, (1 << 52) - 0x1000] {
            let machine = Machine::after(|machine| machine.redirect(step, gpa));
            machine.refuses(2);
        }
        // The highest guest address goes through the host's table.
        let gpa = (1 << 48) - 0x1000;
        Machine::after(|machine| machine.redirect(step, gpa)).refuses(18);
        let mut machine = Machine::after(|machine| machine.redirect(step, gpa));
        machine.poke((1, 511), 0x11001);
        machine.poke((17, 511), 0x2001);
        machine.poke((2, 511), 0x3001);
        machine.poke((3, 511), LEAF | 1);
        machine.refuses(6); // the last level, in frame 3
    }
}

#[test]
fn host_half_gives_2_for_an_address_of_2_to_the_48() {
    // The table holds itself in every entry, so every other address has a frame.
    let machine = Machine::filled(0x1001);
    for (gpa, half) in [
        (0, Ok((0x1000, 0))),
        ((1 << 48) - 0x1000, Ok((0x1000, 0))),
        (1 << 48, Err(Refusal::Argument)),
        ((1 << 48) + 0x1000, Err(Refusal::Argument)),
        ((1 << 52) - 0x1000, Err(Refusal::Argument)),
    ] {
        let given = host_half(&machine.table, &machine.memory, 0x1000, gpa);
        assert_eq!(given, half, "{gpa:x}");
    }
    // Before the first read.
    let given = host_half(&machine.table, &machine.memory, 0x12000, 1 << 48);
    assert_eq!(given, Err(Refusal::Argument));
}

#[test]
fn host_tables_that_memory_lacks_are_4() {
    // The first frame that memory lacks, the one with the table's number plus
    // 2^32, and the highest.
    for hpa in [0x12000, 0x1000_0000_2000, (1 << 52) - 0x1000] {
        for step in STEPS {
            let machine = Machine::after(|machine| machine.redirect(step, hpa));
            match step {
                (4, 5) => machine.yields(Mapping { hpa, ..MAPPING }),
                // The guest's table is 4 before its type is compared.
                (4, _) => {
                    machine.refuses(4);
                    let mut machine = machine;
                    machine.retype(step, MERGEABLE);
                    machine.refuses(4);
                }
                (1..=3, _) => machine.refuses(4),
                _ => {}
            }
        }
        Machine::after(|machine| machine.at.host_root = hpa).refuses(4);
    }
}

#[test]
fn a_page_that_memory_lacks_is_refused_by_the_call() {
    let mut machine = Machine::after(|machine| machine.redirect((4, 5), 0x12000));
    for request in machine.requests() {
        machine.refuses_call(&request, 4, 0);
    }
    // A frame without an entry is 4 to PVALIDATE and 6 to a MERGEABLE access.
    machine.redirect((4, 5), 0x11000);
    machine.yields(Mapping {
        hpa: 0x11000,
        ..MAPPING
    });
    let [private, mergeable, reads, writes] = machine.requests();
    machine.refuses_call(&private, 4, 0);
    machine.refuses_call(&mergeable, 4, 0);
    machine.refuses_call(&reads, 6, 0);
    machine.refuses_call(&writes, 6, 0);
}

#[test]
fn host_tables_that_are_not_shared_are_6() {
    for frame in 1..=4 {
        for entry in [
            [0x10007, 0x1000],
            [0x50007, ONES],
            [0x20007, 0x1000],
            [0x60007, ONES],
            [0xe0007, 0xa000],
            [0x30000, 0],
        ] {
            Machine::after(|machine| machine.set(frame, entry)).refuses(6);
        }
        for (bad, reason) in [
            ([0x100000, 0], 1),
            ([1, 0], 2),
            ([0x10200, 0x1000], 2),
            ([0x40000, 0], 3),
            ([0xa0007, 0x3000], 3),
            ([0, 0x1000], 4),
            ([0xe0007, 0x10000], 4),
        ] {
            Machine::after(|machine| machine.set(frame, bad)).refuses_for(5, reason);
        }
    }
}

#[test]
fn host_tables_may_lie_above_the_table() {
    let machine = Machine::after(|machine| {
        machine.copy(1, 16);
        machine.copy(3, 17);
        machine.at.host_root = 0x10000;
        for index in 1..=5 {
            machine.redirect((2, index), 0x11000);
        }
        // The frames that they left.
        machine.set(1, [0x30000, 0]);
        machine.set(3, [0x100000, 0]);
    });
    machine.yields(MAPPING);
}

/// Frame 10 is the leaf of a fixed page, with these words.
fn with_leaf(machine: &mut Machine, page: usize, words: &[(usize, u64)]) {
    machine.set(page, [0xe0009, 0xa000]); // guest 9 is the owner
    machine.set(10, [0x30000, 0]);
    for &(asid, word) in words {
        machine.poke((10, asid), word);
    }
}

/// Gives the guest's table at level k from the top (1 to 4) this type in the
/// entry above it and in the host's entry.
fn retype_table(machine: &mut Machine, k: usize, kind: u64) {
    match k {
        1 => machine.at.root_type = kind >> 52,
        _ => machine.retype((3 + k, k - 1), kind),
    }
    machine.retype((4, k), kind);
}

#[test]
fn guest_tables_of_every_type() {
    for k in 1..=4 {
        let gpa = k as u64 * ONES;
        // MERGEABLE.
        let mut machine = Machine::new();
        retype_table(&mut machine, k, MERGEABLE);
        machine.refuses(6);
        machine.set(4 + k, [0x60007, gpa]);
        machine.yields(MAPPING);
        // Merged: the guest's own word in the leaf decides.
        with_leaf(&mut machine, 4 + k, &[(7, gpa | 1), (9, 0x50001)]);
        machine.yields(MAPPING);
        // SHARED.
        let mut machine = Machine::new();
        retype_table(&mut machine, k, SHARED);
        machine.refuses(6);
        machine.set(4 + k, [0, 0]);
        machine.yields(MAPPING);
        // SHARED in a frame without an entry.
        machine.copy(4 + k, 17);
        machine.redirect((4, k), 0x11000);
        machine.set(4 + k, [0x100000, 0]);
        machine.yields(MAPPING);
        // PRIVATE there.
        retype_table(&mut machine, k, PRIVATE);
        machine.refuses(6);
    }
}

#[test]
fn all_tables_in_one_type() {
    for (kind, entry) in [(MERGEABLE, 0x60007), (PRIVATE, 0x50007), (SHARED, 0)] {
        let machine = Machine::after(|machine| {
            for k in 1..=4 {
                retype_table(machine, k, kind);
                let gpa = if kind == SHARED { 0 } else { k as u64 * ONES };
                machine.set(4 + k, [entry, gpa]);
            }
        });
        machine.yields(MAPPING);
    }
}

#[test]
fn the_types_of_a_table_must_be_alike() {
    for k in 1..=4 {
        for kind in [SHARED, MERGEABLE] {
            // The host's entry alone.
            Machine::after(|machine| machine.retype((4, k), kind)).refuses(6);
            // The entry above or the root's type alone.
            let machine = Machine::after(|machine| {
                retype_table(machine, k, kind);
                machine.retype((4, k), PRIVATE);
            });
            machine.refuses(6);
            // Before 5.
            let machine = Machine::after(|machine| {
                machine.retype((4, k), kind);
                machine.set(4 + k, [0x100000, 0]);
            });
            machine.refuses(6);
        }
    }
}

#[test]
fn guest_tables_are_read_as_the_guest_does() {
    for k in 1..=4 {
        let gpa = k as u64 * ONES;
        for (entry, number) in [
            ([0x50009, gpa], 7),
            ([0x10009, 0x1000], 7),
            ([0x50007, gpa + 0x1000], 8),
            ([0x10007, gpa + 0x1000], 8),
            ([0x10007, gpa], 9),
            ([0, 0], 6),
            ([0x60007, gpa], 6),
            ([0x30000, 0], 6),
        ] {
            Machine::after(|machine| machine.set(4 + k, entry)).refuses(number);
        }
        for (bad, reason) in [
            ([0x150007, gpa], 1),
            ([0x50200, gpa], 2),
            ([0xd0007, gpa], 3),
            ([0x50007, gpa + 1], 4),
        ] {
            Machine::after(|machine| machine.set(4 + k, bad)).refuses_for(5, reason);
        }
        // A refused read comes before what the entry holds.
        let machine = Machine::after(|machine| {
            machine.set(4 + k, [0x10007, gpa]);
            machine.poke((4 + k, k), 0);
        });
        machine.refuses(9);
    }
}

#[test]
fn merged_guest_tables_are_read_through_their_leaf() {
    for k in 1..=4 {
        let gpa = k as u64 * ONES;
        for (word, number) in [
            (0, 13),
            (gpa, 13),
            (gpa + 0x1001, 8),
            (gpa | 3, 12),
            (gpa | 1 | 1 << 52, 12),
        ] {
            let machine = Machine::after(|machine| {
                retype_table(machine, k, MERGEABLE);
                with_leaf(machine, 4 + k, &[(7, word), (9, gpa | 1)]);
            });
            machine.refuses(number);
        }
        for entry in [[0, 0], [0x50007, gpa], [0x100000, 0]] {
            let machine = Machine::after(|machine| {
                retype_table(machine, k, MERGEABLE);
                with_leaf(machine, 4 + k, &[(7, gpa | 1)]);
                machine.set(10, entry);
            });
            machine.refuses(12);
        }
    }
}

#[test]
fn guests_do_not_meet_in_the_tables() {
    for caller in [1, 6, 8, 9, 511] {
        Machine::after(|machine| machine.at.caller = caller).refuses(7);
    }
}

#[test]
fn the_page_itself_may_have_any_entry() {
    for entry in [
        [0, 0],
        [0x10007, 5 * ONES],
        [0x50007, 5 * ONES],
        [0x20007, 5 * ONES],
        [0x60007, 5 * ONES],
        [0x60009, 5 * ONES],
        [0x60007, 4 * ONES],
        [0x30000, 0],
        [0x100000, 0],
        [0xe0007, 0x1000],
    ] {
        for (gtype, ntype) in (0..3).flat_map(|gtype| (0..3).map(move |ntype| (gtype, ntype))) {
            let machine = Machine::after(|machine| {
                machine.set(9, entry);
                machine.retype((8, 4), gtype << 52);
                machine.retype((4, 5), ntype << 52);
            });
            machine.yields(Mapping {
                gtype,
                ntype,
                ..MAPPING
            });
        }
    }
}

#[test]
fn pvalidate_compares_the_type_of_the_call_alone() {
    for (gtype, ntype) in (0..3).flat_map(|gtype| (0..3).map(move |ntype| (gtype, ntype))) {
        let mut machine = Machine::after(|machine| {
            machine.set(9, [0x20007, 5 * ONES]);
            machine.retype((8, 4), gtype << 52);
            machine.retype((4, 5), ntype << 52);
        });
        let [private, mergeable, ..] = machine.requests();
        machine.refuses_call(&private, 6, 0);
        let reached = |answer| {
            Reply::Reached(Reached {
                answer,
                gpa: 5 * ONES,
            })
        };
        let mut after = machine.clone();
        after.set(9, [0x60007, 5 * ONES]);
        assert_eq!(machine.make(&mergeable), reached(Answer::Opened));
        assert!(machine == after);
        assert_eq!(machine.make(&mergeable), reached(Answer::Already));
        assert!(machine == after);
    }
}

#[test]
fn read_and_write_reach_the_word() {
    let mut machine = Machine::new();
    let at = machine.at;
    for index in [0, 3, 511] {
        let value = 0x2a + index;
        let place = (9, index as usize);
        machine.poke(place, 0x55);
        let reached = |answer| {
            Reply::Reached(Reached {
                answer,
                gpa: 0x281_40a0_5000,
            })
        };
        let reads = Request::ReadVa { at, index };
        assert_eq!(machine.make(&reads), reached(Answer::Word(0x55)));
        let mut after = machine.clone();
        after.poke(place, value);
        let writes = Request::WriteVa { at, index, value };
        assert_eq!(machine.make(&writes), reached(Answer::Done));
        assert!(machine == after);
        assert_eq!(machine.make(&reads), reached(Answer::Word(value)));
    }
}

#[test]
fn a_merged_page_is_read_but_not_written() {
    let mut machine = Machine::new();
    with_leaf(&mut machine, 9, &[(7, (5 * ONES) | 1)]);
    machine.poke((9, 511), 0x77);
    machine.yields(MAPPING);
    let [private, mergeable, reads, writes] = machine.requests();
    let reached = Reached {
        answer: Answer::Word(0x77),
        gpa: 5 * ONES,
    };
    assert_eq!(machine.make(&reads), Reply::Reached(reached));
    machine.refuses_call(&writes, 10, 0);
    machine.refuses_call(&private, 6, 0);
    machine.refuses_call(&mergeable, 7, 0);
    machine.set(9, [0xe0007, 0xa000]);
    machine.refuses_call(&mergeable, 10, 0);
}

#[test]
fn a_write_may_change_the_tables_it_came_by() {
    // The page is the host's top table; the write makes its entry absent.
    let mut machine = Machine::new();
    machine.retype((8, 4), SHARED);
    machine.redirect((4, 5), 0x1000);
    machine.retype((4, 5), SHARED);
    let at = machine.at;
    #[rustfmt::skip]
    let writes = Request::WriteVa { at, index: 5, value: 0 };
    let reached = Reached {
        answer: Answer::Done,
        gpa: 5 * ONES,
    };
    assert_eq!(machine.make(&writes), Reply::Reached(reached));
    machine.refuses(18);
    machine.refuses_call(&writes, 18, 0);
}

#[test]
fn a_table_of_its_own_entries_ends() {
    // One frame is all tables of host and guest and the page too.
    for (n, m) in [(1, 1), (1, 2)] {
        for va in [0, VA, 0x7fff_ffff_f000, 0xffff_8000_0000_0000, !0xfff] {
            let mut machine = Machine::filled(1);
            machine.table.truncate(2 * n);
            machine.memory.truncate(m * FRAME_WORDS);
            machine.at = Virtual {
                caller: 511,
                root: 0,
                root_type: 0,
                host_root: 0,
                va,
            };
            let [gpa, hpa, gtype, ntype] = [0; 4];
            #[rustfmt::skip]
            machine.yields(Mapping { gpa, hpa, gtype, ntype });
            // Every present entry leads back to the frame, a large one does not.
            machine.memory.fill(0x81);
            machine.refuses(19);
        }
    }
}

/// The host's table in frame 1 and the guest's table in frame 5 each serve for
/// all four levels. The guest's is at 16 pages, its page at 80.
fn folded() -> Machine {
    let mut machine = Machine::filled(0);
    machine.at.root = 0x10000;
    machine.at.va = 0x50000;
    machine.poke((1, 0), 0x1001);
    machine.poke((1, 0x10), PRIVATE | 0x5001);
    machine.poke((1, 0x50), MERGEABLE | 0x9001);
    machine.poke((5, 0), PRIVATE | 0x10001);
    machine.poke((5, 0x50), MERGEABLE | 0x50001);
    machine.set(5, [0x50007, 0x10000]);
    machine.set(9, [0x60007, 0x50000]);
    machine
}

#[test]
fn tables_that_point_back_at_themselves() {
    let mut machine = folded();
    let mapping = Mapping {
        gpa: 0x50000,
        hpa: 0x9000,
        ..MAPPING
    };
    machine.yields(mapping);
    // A self-reference as the last entry: the page is the table.
    machine.at.va = 0;
    machine.yields(Mapping {
        gpa: 0x10000,
        hpa: 0x5000,
        gtype: 1,
        ntype: 1,
    });
    let at = machine.at;
    let reads = Request::ReadVa { at, index: 0x50 };
    let reached = Reached {
        answer: Answer::Word(MERGEABLE | 0x50001),
        gpa: 0x10000,
    };
    assert_eq!(machine.make(&reads), Reply::Reached(reached));
    // The type of the reference is that of the next read.
    machine.retype((5, 0), MERGEABLE);
    machine.refuses(6);
    // The host's table holds itself as a large page.
    let mut machine = folded();
    *machine.word((1, 0)) |= BIT_7;
    machine.refuses(19);
    // The host's type of upper levels is ignored, that of the last is not.
    let mut machine = folded();
    *machine.word((1, 0)) |= LEAF;
    machine.yields(mapping);
    let half = host_half(&machine.table, &machine.memory, 0x1000, 0);
    assert_eq!(half, Err(Refusal::Type));
}

#[test]
fn indices_of_virtual_addresses_at_the_ends() {
    for (va, indices) in [
        (0, [0, 0, 0, 0]),
        (0x1000, [0, 0, 0, 1]),
        (0x1f_f000, [0, 0, 0, 511]),
        (0x20_0000, [0, 0, 1, 0]),
        (0x3fff_f000, [0, 0, 511, 511]),
        (0x4000_0000, [0, 1, 0, 0]),
        (0x7f_ffff_f000, [0, 511, 511, 511]),
        (0x80_0000_0000, [1, 0, 0, 0]),
        (0x7fff_ffff_f000, [255, 511, 511, 511]),
        (0xffff_8000_0000_0000, [256, 0, 0, 0]),
        (0xffff_8000_0000_1000, [256, 0, 0, 1]),
        (0xffff_ff80_0000_0000, [511, 0, 0, 0]),
        (0xffff_ffff_ffff_f000, [511, 511, 511, 511]),
    ] {
        let mut machine = Machine::new();
        let entries = [1, 2, 3, 4].map(|k| (4 + k, std::mem::take(machine.word((4 + k, k)))));
        for ((frame, word), index) in entries.into_iter().zip(indices) {
            machine.poke((frame, index), word);
        }
        machine.at.va = va;
        machine.yields(MAPPING);
    }
}

/// A machine in which every good virtual address leads to guest address 0.
fn anywhere() -> Machine {
    let mut machine = Machine::filled(1);
    machine.at.root_type = 0;
    machine.at.host_root = 0;
    machine
}

#[test]
fn good_virtual_addresses_and_their_neighbours() {
    let mut machine = anywhere();
    let [gpa, hpa, gtype, ntype] = [0; 4];
    #[rustfmt::skip]
    let zero = Ok(Mapping { gpa, hpa, gtype, ntype });
    for va in [
        0,
        0x1000,
        (1 << 47) - 0x1000,
        0xffff_8000_0000_0000,
        0xffff_8000_0000_1000,
        0xffff_ffff_ffff_f000,
    ] {
        machine.at.va = va;
        assert_eq!(machine.walk(), zero, "{va:x}");
        for low in [1, 8, 0x800, 0xfff] {
            machine.at.va = va | low;
            machine.refuses(2);
        }
        for bit in 47..64 {
            machine.at.va = va ^ 1 << bit;
            machine.refuses(2);
        }
    }
}

#[test]
fn virtual_addresses_that_are_not_canonical_are_2() {
    let mut machine = anywhere();
    for va in [
        1 << 47,
        (1 << 48) - 0x1000,
        1 << 48,
        (1 << 48) + 0x1000,
        0x8000_0000_0000_0000,
        0x7fff_ffff_ffff_f000,
        0xffff_0000_0000_0000,
        0xffff_7fff_ffff_f000,
        0xfffe_8000_0000_0000,
        u64::MAX,
    ] {
        machine.at.va = va;
        machine.refuses(2);
    }
}

#[test]
fn wrong_lengths_are_1() {
    for (table, memory) in [(0, 18), (31, 18), (33, 18), (38, 18), (2 * 4097, 8192)] {
        let mut machine = Machine::new();
        machine.table.resize(table, 0);
        machine.memory.resize(memory * FRAME_WORDS, 0);
        machine.refuses(1);
        machine.at.caller = 512; // 1 before 2
        machine.refuses(1);
    }
    for memory in [0, 15 * 512, 18 * 512 - 1, 18 * 512 + 1, 8193 * 512] {
        let mut machine = Machine::new();
        machine.memory.resize(memory, 0);
        machine.at.va = 1;
        machine.refuses(1);
    }
}

#[test]
fn bad_arguments_are_2_before_3() {
    let bad: [fn(&mut Virtual); 18] = [
        |at| at.root = 1,
        |at| at.root = ONES + 0x800,
        |at| at.root = 1 << 52,
        |at| at.root = u64::MAX,
        |at| at.root_type = 3,
        |at| at.root_type = 4,
        |at| at.root_type = 1 << 32,
        |at| at.root_type = u64::MAX,
        |at| at.host_root = 1,
        |at| at.host_root = 0x1008,
        |at| at.host_root = 1 << 52,
        |at| at.host_root = 0x1000 | 1 << 63,
        |at| at.host_root = u64::MAX,
        |at| at.va = VA + 1,
        |at| at.va = 1 << 47,
        |at| at.va = u64::MAX,
        |at| at.caller = 512,
        |at| at.caller = u64::MAX,
    ];
    for change in bad {
        // Before 3, before 18 on the way, and before 4.
        for caller in [0, 7] {
            for mut machine in [Machine::new(), Machine::filled(0)] {
                machine.at.caller = caller;
                change(&mut machine.at);
                machine.refuses(2);
                machine.at.host_root |= 0x12000;
                machine.refuses(2);
            }
        }
    }
}

#[test]
fn the_root_type_is_that_of_the_first_read() {
    for (root_type, number) in [(0, 6), (2, 6), (3, 2), (4, 2)] {
        Machine::after(|machine| machine.at.root_type = root_type).refuses(number);
    }
    Machine::after(|machine| machine.at.root_type = 1).yields(MAPPING);
}

#[test]
fn the_host_is_3_before_the_way() {
    for mut machine in [Machine::new(), Machine::filled(0), Machine::filled(1)] {
        machine.at.caller = 0;
        machine.refuses(3);
        machine.at.root_type = 0;
        machine.refuses(3);
        machine.at.host_root = 0x12000; // 4 on the way
        machine.refuses(3);
        machine.at.root = 1 << 48; // 2 on the way
        machine.refuses(3);
    }
}

#[test]
fn a_root_of_2_to_the_48_is_met_on_the_way() {
    for root in [1 << 48, (1 << 48) + ONES, (1 << 52) - 0x1000] {
        let mut machine = Machine::new();
        machine.at.root = root;
        machine.refuses(2);
        machine.at.host_root = 0x12000; // before the first read
        machine.refuses(2);
        machine.at.caller = 0;
        machine.refuses(3);
    }
    let mut machine = Machine::new();
    machine.at.root = (1 << 48) - 0x1000;
    machine.refuses(18);
}

#[test]
fn word_index_and_type_are_2_before_3_and_the_way() {
    for mut machine in [Machine::new(), Machine::filled(0)] {
        for caller in [7, 0] {
            machine.at.caller = caller;
            let at = machine.at;
            for kind in [0, 3, 4, 1 << 32 | 1, u64::MAX] {
                machine.refuses_call(&Request::PvalidateVa { at, kind }, 2, 0);
            }
            for index in [512, 513, 1 << 32, u64::MAX] {
                machine.refuses_call(&Request::ReadVa { at, index }, 2, 0);
                #[rustfmt::skip]
                machine.refuses_call(&Request::WriteVa { at, index, value: 0 }, 2, 0);
            }
        }
        machine.table.pop();
        let at = machine.at;
        machine.refuses_call(&Request::PvalidateVa { at, kind: 0 }, 1, 0);
        machine.refuses_call(&Request::ReadVa { at, index: 512 }, 1, 0);
        #[rustfmt::skip]
        machine.refuses_call(&Request::WriteVa { at, index: 512, value: 0 }, 1, 0);
    }
}

#[test]
fn every_table_entry_of_a_page_has_its_own_page() {
    // Two virtual addresses for one page, and two pages for one guest table.
    let mut machine = Machine::new();
    machine.poke((8, 511), MERGEABLE | 0x281_40a0_5001);
    machine.at.va = 0x80_807f_f000;
    machine.yields(MAPPING);
    machine.poke((8, 511), 0x301_80c0_6001);
    for (frame, below) in [(1, 0x2001), (2, 0x3001), (3, 0x4001), (4, 0xb001)] {
        machine.poke((frame, 6), below);
    }
    machine.yields(Mapping {
        gpa: 0x301_80c0_6000,
        hpa: 0xb000,
        gtype: 0,
        ntype: 0,
    });
}

/// The host half of request Q-4, made of 01's own READs.
fn model_half(machine: &Machine, gpa: u64) -> Result<(u64, u64), Answer> {
    let refused = |number| Err(Answer::Refused { number, reason: 0 });
    let Machine { table, memory, at } = machine;
    if gpa >= 1 << 48 {
        return refused(2);
    }
    let mut hpa = at.host_root;
    for (level, shift) in [(4, 39), (3, 30), (2, 21), (1, 12)] {
        let entry = match read(table, memory, 0, 0, hpa, 0, 0, gpa >> shift & 511) {
            Answer::Word(word) => word,
            answer => return Err(answer),
        };
        match (entry & 1, entry >> 7 & 1, entry >> 52 & 3, level) {
            (0, ..) => return refused(18),
            (_, 1, _, 2..) => return refused(19),
            (_, _, 3, 1) => return refused(6),
            (_, _, ntype, 1) => return Ok((entry & 0xf_ffff_ffff_f000, ntype)),
            _ => hpa = entry & 0xf_ffff_ffff_f000,
        }
    }
    unreachable!()
}

/// The walk of request Q-4 with good arguments, made of 01's own READs.
fn model_walk(machine: &Machine) -> Result<Mapping, Answer> {
    let refused = |number| Err(Answer::Refused { number, reason: 0 });
    let Machine { table, memory, at } = machine;
    let [mut gpa, mut gtype] = [at.root, at.root_type];
    for (level, shift) in [(4, 39), (3, 30), (2, 21), (1, 12)] {
        let (hpa, ntype) = model_half(machine, gpa)?;
        let index = at.va >> shift & 511;
        let entry = match read(table, memory, at.caller, gpa, hpa, gtype, ntype, index) {
            Answer::Word(word) => word,
            answer => return Err(answer),
        };
        match (entry & 1, entry >> 7 & 1, entry >> 52 & 3, level) {
            (0, ..) => return refused(18),
            (_, 1, _, 2..) => return refused(19),
            (_, _, 3, _) => return refused(6),
            (_, _, kind, _) => [gpa, gtype] = [entry & 0xf_ffff_ffff_f000, kind],
        }
    }
    let (hpa, ntype) = model_half(machine, gpa)?;
    #[rustfmt::skip]
    let mapping = Mapping { gpa, hpa, gtype, ntype };
    Ok(mapping)
}

/// Numbers that look random, always the same ones.
struct Dice(u64);

impl Dice {
    /// A number below the limit.
    fn roll(&mut self, limit: usize) -> usize {
        self.0 ^= self.0 << 13;
        self.0 ^= self.0 >> 7;
        self.0 ^= self.0 << 17;
        (self.0 >> 11) as usize % limit
    }

    fn pick<T: Copy>(&mut self, items: &[T]) -> T {
        items[self.roll(items.len())]
    }

    /// Changes a word of the way, an entry of the table, or an argument.
    fn damage(&mut self, machine: &mut Machine) {
        let k = 1 + self.roll(5) as u64;
        let frame = self.roll(N);
        match self.roll(6) {
            0 => *machine.word(self.pick(&STEPS)) ^= 1 << self.roll(64),
            1 => machine.redirect(self.pick(&STEPS), (self.roll(M + 1) as u64) << 12),
            2 => machine.redirect(self.pick(&STEPS), k * ONES),
            3 => {
                let kind = self.pick(&[SHARED, PRIVATE, MERGEABLE, LEAF]);
                retype_table(machine, self.roll(4) + 1, kind);
            }
            4 => {
                let head = self.pick(&[0, 0x50007, 0x60007, 0x10007, 0x50009, 0x30000, 1]);
                machine.set(frame, [head, self.pick(&[0, k * ONES])]);
            }
            _ => machine.set(frame, [0xe0007, self.roll(N) as u64 * 0x1000]),
        }
        if machine.at.root_type == 3 {
            machine.at.root_type = 2;
        }
    }
}

#[test]
fn a_walk_is_made_of_reads() {
    let mut dice = Dice(0x9e37_79b9_7f4a_7c15);
    let mut met = std::collections::BTreeMap::new();
    for _ in 0..4000 {
        let mut machine = Machine::new();
        for _ in 0..6 {
            dice.damage(&mut machine);
            let walked = machine.walk().map_err(Answer::from);
            assert_eq!(walked, model_walk(&machine));
            let number = machine.walk().map_or_else(Refusal::number, |_| 0);
            *met.entry(number).or_insert(0) += 1;
        }
    }
    // All that a walk with good arguments gives but 13, which is rare.
    for number in [0, 2, 4, 5, 6, 7, 8, 9, 12, 18, 19] {
        assert!(met.contains_key(&number), "{number} in {met:?}");
    }
}
