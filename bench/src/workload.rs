//! The calls of document 02, K11: clear 4,096-byte blocks, k 3, 2,048 slots, P and H 1,000; in turn a public
//! read, a hidden read and a write with an offer, numbers in a circle. And writes on that drive with nothing
//! offered and with a line.
use crate::drive::put_entry;
use crate::engine::{
    Engine, Geometry, LineWrite, LineWritten, MOST_OFFERS, Offer, Shown, Write, Written, ample,
};

pub const CALLS: u32 = 100_000;

pub const GEOMETRY: Geometry =
    Geometry { block_size: 4096, height: 3, publics: 1000, hidden: 1000, slots: 2048 };

/// What a call of the workload gave: of a write also the whole list.
#[derive(PartialEq, Eq, Debug)]
pub enum Reply<'a> {
    Shown(Shown<'a>),
    Wrote(Written, &'a [u32]),
}

impl Reply<'_> {
    pub fn is_good(&self) -> bool {
        match self {
            Reply::Shown(shown) => shown.is_ok(),
            Reply::Wrote(written, _) => written.answer == 0,
        }
    }
}

/// The buffers that the calls on one drive lend.
pub struct Caller {
    g: Geometry,
    data: Vec<u8>,
    hidden: Vec<u8>,
    blank: Vec<u8>,
    random: Vec<u8>,
    list: Vec<u32>,
    /// The blocks of a line, one for each of its offers.
    blocks: Vec<u8>,
    line: [Offer; MOST_OFFERS],
}

impl Caller {
    pub fn new(g: Geometry) -> Self {
        let block = |byte| vec![byte; g.block_size as usize];
        let (random, list) = ample(g);
        let (data, hidden, blank) = (block(1), block(2), block(0));
        let (random, list, blocks) = (vec![165; random], vec![0; list], block(2).repeat(MOST_OFFERS));
        Caller { g, data, hidden, blank, random, list, blocks, line: Default::default() }
    }

    pub fn public_read<'a>(&'a self, engine: &Engine, disk: &'a [u8], n: u32) -> Shown<'a> {
        (engine.public_read)(disk, n % self.g.publics, &self.blank)
    }

    pub fn hidden_read<'a>(&'a self, engine: &Engine, disk: &'a [u8], n: u32) -> Shown<'a> {
        (engine.hidden_read)(disk, n % self.g.hidden, &self.blank)
    }

    /// A write with nothing offered; its block begins with n.
    pub fn write_alone(&mut self, engine: &Engine, disk: &mut [u8], n: u32) -> Written {
        put_entry(&mut self.data, 0, n as usize);
        let call = Write { number: n % self.g.publics, data: &self.data, offer: None, random: &self.random };
        (engine.write)(disk, &call, &mut self.list)
    }

    /// A write with a line in which so many wait, numbers from n on; its block begins with n.
    pub fn write_line(&mut self, engine: &Engine, disk: &mut [u8], n: u32, waiting: u32) -> LineWritten {
        put_entry(&mut self.data, 0, n as usize);
        let Caller { g, data, random, list, blocks, line, .. } = self;
        for (place, offer) in (0..waiting).zip(line.iter_mut()) {
            *offer = Offer { number: (n + place) % g.hidden, place };
        }
        let call = LineWrite { number: n % g.publics, data, blocks, waiting, random };
        (engine.write_line)(disk, &call, line, list)
    }

    /// A write with an offer; both blocks begin with n.
    pub fn write(&mut self, engine: &Engine, disk: &mut [u8], n: u32) -> Written {
        put_entry(&mut self.data, 0, n as usize);
        put_entry(&mut self.hidden, 0, n as usize);
        let offer = Some((n % self.g.hidden, &self.hidden[..]));
        let call = Write { number: n % self.g.publics, data: &self.data, offer, random: &self.random };
        (engine.write)(disk, &call, &mut self.list)
    }

    /// The i-th call of the workload.
    pub fn call<'a>(&'a mut self, engine: &Engine, disk: &'a mut [u8], i: u32) -> Reply<'a> {
        match i % 3 {
            0 => Reply::Shown(self.public_read(engine, disk, i / 3)),
            1 => Reply::Shown(self.hidden_read(engine, disk, i / 3)),
            _ => Reply::Wrote(self.write(engine, disk, i / 3), &self.list),
        }
    }
}
