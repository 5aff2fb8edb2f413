//! Writes of number 0 that carry nothing, an offer or a line along: what the programs that watch a write run.
use crate::engine::{Engine, Geometry, LineWrite, LineWritten, Offer, PLACED, Write, ample};

/// What a write carries along: nothing, one offered number, or a line of numbers, all waiting.
#[derive(Clone, Copy)]
pub enum Carried {
    Nothing,
    One(u32),
    Line(&'static [u32]),
}

impl Carried {
    pub fn told(self) -> String {
        match self {
            Carried::Nothing => "-".to_string(),
            Carried::One(number) => number.to_string(),
            Carried::Line([]) => "empty line".to_string(),
            Carried::Line(numbers) => {
                format!("line {}", numbers.iter().map(u32::to_string).collect::<Vec<_>>().join(" "))
            }
        }
    }
}

/// What the writes lend but for disk and list: data, blocks of which the i-th number carried takes the i-th,
/// and random bytes, all of different bytes.
pub struct Lent {
    width: usize,
    data: Vec<u8>,
    blocks: Vec<u8>,
    random: Vec<u8>,
}

impl Lent {
    pub fn new(g: Geometry) -> Self {
        let width = g.block_size as usize;
        let blocks = [vec![4; width], vec![6; width]].concat();
        Lent { width, data: vec![3; width], blocks, random: vec![5; ample(g).0] }
    }

    /// The block of the first number carried.
    pub fn first(&self) -> &[u8] {
        &self.blocks[..self.width]
    }

    /// What a block filled with random bytes holds.
    pub fn filled(&self) -> &[u8] {
        &self.random[..self.width]
    }

    /// A write: its report, also of one offer as that of a line.
    pub fn write(&self, engine: &Engine, disk: &mut [u8], carried: Carried, list: &mut [u32]) -> LineWritten {
        let Lent { data, blocks, random, .. } = self;
        let offer = match carried {
            Carried::Nothing => None,
            Carried::One(number) => Some((number, self.first())),
            Carried::Line(numbers) => {
                let offer = |(number, place): (&u32, u32)| Offer { number: *number, place };
                let mut line = numbers.iter().zip(0..).map(offer).collect::<Vec<_>>();
                let call = LineWrite { number: 0, data, blocks, waiting: numbers.len() as u32, random };
                return (engine.write_line)(disk, &call, &mut line, list);
            }
        };
        let written = (engine.write)(disk, &Write { number: 0, data, offer, random }, list);
        let placed = u32::from(written.outcome == PLACED);
        let waiting = u32::from(offer.is_some()) - placed;
        let (answer, outcome) = (written.answer, written.outcome);
        LineWritten { answer, rounds: written.rounds, stores: written.stores, outcome, placed, waiting }
    }
}
