//! CENSUS, accepted.

use super::{steady, tables};
use crate::calls::Census;
use crate::scene::Scene;
use crate::world::{guest, World};

/// CENSUS in a table where every page is open and MERGEABLE.
pub fn uniform(n: usize) -> Scene<Census, 0, 0> {
    counted(tables::uniform(n))
}

/// CENSUS in a table of random types.
pub fn mixed(n: usize) -> Scene<Census, 0, 0> {
    counted(tables::mixed(n))
}

/// CENSUS of four guests in turn.
fn counted(world: World) -> Scene<Census, 0, 0> {
    let turns = steady(4, |frame| Census { asid: guest(frame) });
    Scene { world, turns }
}
