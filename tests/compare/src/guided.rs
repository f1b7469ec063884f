//! Calls that mean something in the state at hand: each looks for frames that fit what it is about, so that pages are given, opened,
//! written, fixed, merged, unmerged, unfixed and closed, over and over. Most of them are accepted.

use common::layout::{
    address, gpa_of, is_present, Entry, FRAME_BYTES, LEAF, MERGEABLE, PRIVATE, SHARED,
};
use second::Call;

use crate::arguments::{self, guest_address, index, value};
use crate::random::Random;
use crate::state::{Roles, State};

/// The guests that most calls are about: few, so that they meet, and both ends.
const GUESTS: [u64; 4] = [1, 2, 7, 511];

struct Guide<'a> {
    random: &'a mut Random,
    state: &'a State,
    roles: Roles,
}

/// A guest at an address, and the frame that it reads there.
struct Place {
    asid: u64,
    gpa: u64,
    frame: usize,
    kind: u64,
}

/// A call for this state, as meant; or, in so many cases of a hundred, with numbers changed.
pub fn call(random: &mut Random, state: &State, distorted: u64) -> Call {
    let roles = state.roles();
    let call = Guide {
        random,
        state,
        roles,
    }
    .meant();
    if random.chance(distorted) {
        arguments::distorted(random, state, &call)
    } else {
        call
    }
}

type Intent<G> = fn(&mut G) -> Option<Call>;

impl Guide<'_> {
    /// What calls are about, and how often of 128.
    const INTENTS: [(u64, Intent<Self>); 14] = [
        (15, Self::give),
        (5, Self::make_leaf),
        (15, Self::open),
        (12, Self::write),
        (10, Self::make_equal),
        (6, Self::share),
        (9, Self::fix),
        (12, Self::merge),
        (9, Self::unmerge),
        (6, Self::unfix),
        (6, Self::update),
        (16, Self::read),
        (2, Self::census),
        (5, Self::elsewhere),
    ];

    fn meant(&mut self) -> Call {
        for _ in 0..6 {
            let mut ticket = self.random.below(128);
            for (weight, intent) in Self::INTENTS {
                if ticket < weight {
                    if let Some(call) = intent(self) {
                        return call;
                    }
                    break;
                }
                ticket -= weight;
            }
        }
        arguments::any(self.random, self.state)
    }

    fn guest(&mut self) -> u64 {
        match self.random.below(16) {
            0 => 1 + self.random.below(511),
            1 | 2 if self.state.n() > 0 => {
                let frame = self.random.index(self.state.n());
                self.state.entry(frame).asid.max(1)
            }
            _ => self.random.pick(&GUESTS),
        }
    }

    fn update_of(&mut self, frame: usize, asid: u64, gpa: u64, kind: u64) -> Call {
        Call::Rmpupdate {
            caller: 0,
            hpa: address(frame),
            gpa,
            asid,
            kind,
        }
    }

    /// An open page; mergeable, if that is asked for. Now and then one that is not open, or not mergeable.
    fn open_page(&mut self, mergeable: bool) -> Option<usize> {
        let frames = match self.random.below(20) {
            0 if !self.roles.closed.is_empty() => &self.roles.closed,
            1 => &self.roles.open,
            _ if mergeable => &self.roles.mergeable,
            _ => &self.roles.open,
        };
        self.random.try_pick(frames)
    }

    fn give(&mut self) -> Option<Call> {
        let frame = self.random.try_pick(&self.roles.shared)?;
        if self.roles.shared.len() == 1 && self.random.chance(70) {
            return None; // leaves a frame to unmerge into
        }
        let (asid, gpa) = (self.guest(), guest_address(self.random, self.state));
        let kind = self
            .random
            .pick(&[PRIVATE, MERGEABLE, MERGEABLE, MERGEABLE]);
        Some(self.update_of(frame, asid, gpa, kind))
    }

    fn make_leaf(&mut self) -> Option<Call> {
        let frame = self.random.try_pick(&self.roles.shared)?;
        // a LEAF goes away by PUNFIX alone, so there must not be too many
        let enough = self.roles.leaves.len() * 3 > self.state.n();
        (!enough || self.random.chance(10)).then(|| self.update_of(frame, 0, 0, LEAF))
    }

    fn open(&mut self) -> Option<Call> {
        let frame = self.random.try_pick(&self.roles.closed)?;
        let page = self.state.entry(frame);
        Some(Call::Pvalidate {
            caller: page.asid,
            gpa: page.address,
            hpa: address(frame),
            kind: page.kind,
        })
    }

    fn write_of(&mut self, frame: usize, index: u64, value: u64) -> Call {
        let page = self.state.entry(frame);
        Call::Write {
            caller: page.asid,
            gpa: page.address,
            hpa: address(frame),
            gtype: page.kind,
            ntype: page.kind,
            index,
            value,
        }
    }

    fn write(&mut self) -> Option<Call> {
        let frame = self.open_page(false)?;
        let (index, value) = (index(self.random), value(self.random));
        Some(self.write_of(frame, index, value))
    }

    /// An open page gets a word of a fixed one, so that it can be merged one day.
    fn make_equal(&mut self) -> Option<Call> {
        let fixed = self.random.try_pick(&self.roles.fixed)?;
        let open = self.open_page(true)?;
        let (to, from) = (self.state.frame(open)?, self.state.frame(fixed)?);
        let index = (0..to.len()).find(|&index| to[index] != from[index])?;
        Some(self.write_of(open, index as u64, from[index]))
    }

    /// Anyone reads or writes a SHARED frame, or one that has no entry.
    fn share(&mut self) -> Option<Call> {
        let beyond = self.state.n()..self.state.m();
        let frame = if !beyond.is_empty() && self.random.chance(40) {
            beyond.start + self.random.index(beyond.len())
        } else {
            self.random.try_pick(&self.roles.shared)?
        };
        let caller = self.random.pick(&[0, 0, 1, 7, 511]);
        let gpa = self.random.below(3) * FRAME_BYTES;
        let (hpa, gtype, ntype) = (address(frame), SHARED, SHARED);
        let (index, value) = (index(self.random), value(self.random));
        Some(if self.random.chance(60) {
            #[rustfmt::skip]
            let write = Call::Write { caller, gpa, hpa, gtype, ntype, index, value };
            write
        } else {
            #[rustfmt::skip]
            let read = Call::Read { caller, gpa, hpa, gtype, ntype, index };
            read
        })
    }

    fn fix(&mut self) -> Option<Call> {
        let frame = self.open_page(true)?;
        let mut leaf = self.random.try_pick(&self.roles.leaves)?;
        for _ in 0..4 {
            let fixed = &self.roles.fixed;
            if !fixed
                .iter()
                .any(|&page| self.state.entry(page).address == address(leaf))
            {
                break;
            }
            leaf = self.random.pick(&self.roles.leaves);
        }
        Some(Call::Pfix {
            caller: 0,
            hpa: address(frame),
            leaf: address(leaf),
        })
    }

    /// The first of a few tries that can be accepted, or else the last of them.
    fn merge(&mut self) -> Option<Call> {
        let mut call = None;
        for _ in 0..4 {
            let one = self.random.try_pick(&self.roles.fixed)?;
            let two = self.open_page(true)?;
            call = Some(Call::Pmerge {
                caller: 0,
                hpa1: address(one),
                hpa2: address(two),
            });
            let guest = self.state.entry(two).asid as usize;
            let leaf = self.state.leaf(self.state.entry(one));
            let absent = leaf
                .and_then(|words| words.get(guest))
                .is_some_and(|&word| !is_present(word));
            if absent && self.state.frame(one) == self.state.frame(two) {
                break;
            }
        }
        call
    }

    /// The guests whose words in the page's leaf are present, misshapen or not.
    fn guests_in(&self, page: Entry) -> Vec<u64> {
        let words = self.state.leaf(page).unwrap_or_default();
        (0..)
            .zip(words)
            .filter(|(_, &word)| is_present(word))
            .map(|(asid, _)| asid)
            .collect()
    }

    fn unmerge(&mut self) -> Option<Call> {
        let one = self.random.try_pick(&self.roles.fixed)?;
        let two = self.random.try_pick(&self.roles.shared)?;
        let guests = self.guests_in(self.state.entry(one));
        let asid = match self.random.try_pick(&guests) {
            Some(guest) if self.random.chance(90) => guest,
            _ => self.guest(),
        };
        Some(Call::Punmerge {
            caller: 0,
            hpa1: address(one),
            hpa2: address(two),
            asid,
        })
    }

    fn unfix(&mut self) -> Option<Call> {
        let mut frame = self.random.try_pick(&self.roles.fixed)?;
        for _ in 0..3 {
            if self.guests_in(self.state.entry(frame)).len() <= 1 {
                break;
            }
            frame = self.random.pick(&self.roles.fixed);
        }
        Some(Call::Punfix {
            caller: 0,
            hpa: address(frame),
        })
    }

    /// A guest's page is given anew: to its guest or another, at its address or another, or back to nobody.
    fn update(&mut self) -> Option<Call> {
        let open = self.random.chance(80) || self.roles.closed.is_empty();
        let frames = if open {
            &self.roles.open
        } else {
            &self.roles.closed
        };
        let frame = self.random.try_pick(frames)?;
        let Entry {
            asid,
            kind,
            address: gpa,
            ..
        } = self.state.entry(frame);
        let (another, elsewhere) = (self.guest(), guest_address(self.random, self.state));
        let (asid, gpa, kind) = match self.random.below(8) {
            0 => (asid, gpa, kind),
            1 => (asid, gpa, 3 - kind),
            2 => (asid, elsewhere, kind),
            3 => (another, gpa, kind),
            4 => (another, elsewhere, kind),
            5 => (0, 0, LEAF),
            _ => (0, 0, SHARED),
        };
        Some(self.update_of(frame, asid, gpa, kind))
    }

    /// An open page, or a guest in a fixed page.
    fn place(&mut self) -> Option<Place> {
        let fixed = self.random.chance(50) || self.roles.open.is_empty();
        let frame = match fixed {
            true => self.random.try_pick(&self.roles.fixed)?,
            false => self.open_page(false)?,
        };
        let page = self.state.entry(frame);
        let (mut asid, mut gpa) = (page.asid, page.address);
        if fixed {
            asid = self.random.try_pick(&self.guests_in(page))?;
            gpa = gpa_of(self.state.leaf(page)?[asid as usize]);
        }
        #[rustfmt::skip]
        let place = Place { asid, gpa, frame, kind: page.kind };
        Some(place)
    }

    fn read_of(&mut self, place: &Place, frame: usize) -> Call {
        Call::Read {
            caller: place.asid,
            gpa: place.gpa,
            hpa: address(frame),
            gtype: place.kind,
            ntype: place.kind,
            index: index(self.random),
        }
    }

    fn read(&mut self) -> Option<Call> {
        let place = self.place()?;
        Some(self.read_of(&place, place.frame))
    }

    fn census(&mut self) -> Option<Call> {
        Some(Call::Census { asid: self.guest() })
    }

    /// What a host would try: a guest that has a place reads, opens or is given another frame at the same address, a fixed one as often
    /// as any, or writes to a page that is merged.
    fn elsewhere(&mut self) -> Option<Call> {
        let place = self.place()?;
        let frame = match self.random.try_pick(&self.roles.fixed) {
            Some(fixed) if self.random.chance(50) => fixed,
            _ => self.random.index(self.state.m().max(1)),
        };
        Some(match self.random.below(6) {
            0..=2 => self.read_of(&place, frame),
            3 => Call::Pvalidate {
                caller: place.asid,
                gpa: place.gpa,
                hpa: address(frame),
                kind: place.kind,
            },
            4 => {
                let frame = self.random.try_pick(&self.roles.shared)?;
                self.update_of(frame, place.asid, place.gpa, place.kind)
            }
            _ => Call::Write {
                caller: place.asid,
                gpa: place.gpa,
                hpa: address(place.frame),
                gtype: place.kind,
                ntype: place.kind,
                index: index(self.random),
                value: value(self.random),
            },
        })
    }
}
