//! Drives whose head has gone round once, to slot 0 again, by what a round meets there. Two hidden numbers
//! are offered on the way: one owns slot 0, if anyone does.
use crate::drive::{Drive, put_entry};
use crate::drives::fill;
use crate::engine::{Engine, Geometry, NONE, PLACED, WAITING};
use std::iter::{once, repeat};

/// The two, as places in an array of numbers.
const OWNER: usize = 0;
const OTHER: usize = 1;

pub struct State {
    pub name: &'static str,
    /// What was offered at the first slots.
    offers: &'static [Option<usize>],
    /// A number's entry changed by hand: 0 is unmapped, 1 ill formed.
    changed: Option<(usize, usize)>,
    /// The outcome of a write that offers nothing, the owner and the other.
    pub outcomes: [u32; 3],
}

pub const NOBODYS: State = State {
    name: "nobody's",
    offers: &[None, Some(OWNER), Some(OTHER)],
    changed: None,
    outcomes: [NONE, PLACED, PLACED],
};

/// The slot behind it is nobody's too.
pub const NOBODYS_TWICE: State =
    State { name: "nobody's, twice", offers: &[None, None, Some(OWNER), Some(OTHER)], ..NOBODYS };

/// The slot behind it is the owner's, and stale.
pub const NOBODYS_THEN_STALE: State =
    State { name: "nobody's, then stale", offers: &[None, Some(OWNER), Some(OWNER), Some(OTHER)], ..NOBODYS };

pub const LIVE: State = State {
    name: "live",
    offers: &[Some(OWNER), Some(OTHER)],
    changed: None,
    outcomes: [NONE, WAITING, WAITING],
};

pub const STALE: State = State {
    name: "stale",
    offers: &[Some(OWNER), Some(OWNER), Some(OTHER)],
    changed: None,
    outcomes: [NONE, PLACED, PLACED],
};

pub const OWNER_UNMAPPED: State =
    State { name: "owner unmapped", changed: Some((OWNER, 0)), outcomes: [NONE, PLACED, PLACED], ..LIVE };

pub const OWNER_DAMAGED: State =
    State { name: "owner damaged", changed: Some((OWNER, 1)), outcomes: [12; 3], ..LIVE };

pub const OTHER_DAMAGED: State =
    State { name: "stale, other damaged", changed: Some((OTHER, 1)), outcomes: [NONE, PLACED, 12], ..STALE };

impl State {
    /// Makes a disk the drive in this state. Slot 0 takes a public number, the other slots number 0. The
    /// entry changed leads to a level; gives the address of its node, which is on both numbers' ways.
    pub fn make(
        &self,
        engine: &Engine,
        g: Geometry,
        numbers: [u32; 2],
        first: u32,
        level: usize,
        disk: &mut [u8],
    ) -> usize {
        let v = Drive::of(g).expect("a geometry within the limits");
        (engine.format)(disk, g).expect("a drive formatted");
        let publics = once(first).chain(repeat(0)).take(v.m);
        let offers = self.offers.iter().map(|who| who.map(|who| numbers[who]));
        fill(engine, g, disk, publics.zip(offers.chain(repeat(None))));
        let (_, nodes) = v.walk(disk, numbers[OWNER] as usize).expect("no damage");
        let node = nodes[level + 1].expect("a node above the level");
        if let Some((who, value)) = self.changed {
            put_entry(&mut disk[node * v.b..], v.branch(numbers[who] as usize, level), value);
        }
        node
    }
}
