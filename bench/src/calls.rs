//! Calls with all that they lend, what they give, and both in words.
use crate::engine::{
    Cut, Engine, Entered, Geometry, Identified, LineWrite, LineWritten, Needs, Offer, Size, Wait, Write,
    Written,
};
use crate::line::handed_over;
use crate::plain::PLAIN;
use std::rc::Rc;

/// A line as it is lent, so many of its first offers waiting, and the blocks that its places speak of.
#[derive(Clone)]
pub struct LentLine {
    pub offers: Vec<Offer>,
    pub waiting: u32,
    pub blocks: Vec<u8>,
}

impl LentLine {
    /// The offers that are handed over.
    pub fn held(&self) -> &[Offer] {
        &self.offers[..handed_over(&self.offers, self.waiting)]
    }

    /// The line in words, without its blocks' bytes: the offers that are handed over, number at place.
    fn told(&self) -> String {
        let (lent, blocks) = (self.offers.len(), self.blocks.len());
        let held = self.held().iter().map(|offer| format!("{}@{}", offer.number, offer.place));
        let held = held.collect::<Vec<_>>().join(" ");
        format!("line [{held}], {} of {lent} waiting, {blocks} bytes of blocks", self.waiting)
    }
}

pub enum Call {
    Format(Geometry),
    Identify,
    DriveSize(Geometry),
    PublicRead(u32, Vec<u8>),
    HiddenRead(u32, Vec<u8>),
    Needs(u32),
    CheckTree,
    WaitRounds,
    Write {
        number: u32,
        data: Vec<u8>,
        offer: Option<(u32, Vec<u8>)>,
        random: Vec<u8>,
        list: Vec<u32>,
    },
    Enter(Offer, LentLine),
    WriteLine {
        number: u32,
        data: Vec<u8>,
        line: LentLine,
        random: Vec<u8>,
        list: Vec<u32>,
    },
    HiddenReadLine(u32, Vec<u8>, LentLine),
    /// Of a write its first so many stores.
    Cut(Rc<Call>, usize),
    Recover,
}

/// What a read shows: a part of the disk or of the lent blocks, by its offset, or the blank.
#[derive(Clone, Copy, PartialEq, Eq, Debug)]
pub enum Part {
    Disk(usize),
    Lent(usize),
    Blank,
}

/// Of a read the part that is shown and its length; of a write also the whole list, and of a call that
/// changes a line the whole line.
#[derive(PartialEq, Eq, Debug)]
pub enum Given {
    Formatted(Result<(), u32>),
    Identified(Identified),
    Sized(Size),
    Shown(Result<(Part, usize), u32>),
    Needed(Needs),
    Checked(Result<(), u32>),
    Waits(Wait),
    Wrote(Written, Vec<u32>),
    Entered(Entered, Vec<Offer>),
    WroteLine(LineWritten, Vec<Offer>, Vec<u32>),
    Cut(Cut, Vec<u32>),
    Recovered(Result<(), u32>),
}

/// Which part of disk or lent blocks is shown, if it is not the blank, and its length.
fn shown(part: &[u8], disk: &[u8], blocks: &[u8]) -> (Part, usize) {
    let offset = |of: &[u8]| {
        let inside = of.as_ptr_range().contains(&part.as_ptr());
        inside.then(|| part.as_ptr() as usize - of.as_ptr() as usize)
    };
    let lent = || offset(blocks).map_or(Part::Blank, Part::Lent);
    (offset(disk).map_or_else(lent, Part::Disk), part.len())
}

impl Call {
    pub fn run(&self, engine: &Engine, disk: &mut [u8]) -> Given {
        match self {
            Call::Format(g) => Given::Formatted((engine.format)(disk, *g)),
            Call::Identify => Given::Identified((engine.identify)(disk)),
            Call::DriveSize(g) => Given::Sized((engine.drive_size)(*g)),
            Call::PublicRead(number, blank) => {
                Given::Shown((engine.public_read)(disk, *number, blank).map(|part| shown(part, disk, &[])))
            }
            Call::HiddenRead(number, blank) => {
                Given::Shown((engine.hidden_read)(disk, *number, blank).map(|part| shown(part, disk, &[])))
            }
            Call::Needs(number) => Given::Needed((engine.needs)(disk, *number)),
            Call::CheckTree => Given::Checked((engine.check_tree)(disk)),
            Call::WaitRounds => Given::Waits((engine.wait_rounds)(disk)),
            Call::Write { number, data, offer, random, list } => {
                let offer = offer.as_ref().map(|(number, data)| (*number, &data[..]));
                let mut list = list.clone();
                let write = Write { number: *number, data, offer, random };
                Given::Wrote((engine.write)(disk, &write, &mut list), list)
            }
            Call::Enter(offer, line) => {
                let mut offers = line.offers.clone();
                let entered = (engine.enter)(disk, *offer, &line.blocks, &mut offers, line.waiting);
                Given::Entered(entered, offers)
            }
            Call::WriteLine { number, data, line, random, list } => {
                let (mut offers, mut list) = (line.offers.clone(), list.clone());
                let LentLine { waiting, blocks, .. } = line;
                let write = LineWrite { number: *number, data, blocks, waiting: *waiting, random };
                let written = (engine.write_line)(disk, &write, &mut offers, &mut list);
                Given::WroteLine(written, offers, list)
            }
            Call::HiddenReadLine(number, blank, LentLine { offers, waiting, blocks }) => {
                let part = (engine.hidden_read_line)(disk, *number, blank, blocks, offers, *waiting);
                Given::Shown(part.map(|part| shown(part, disk, blocks)))
            }
            Call::Cut(write, bound) => write.run_cut(engine, disk, *bound),
            Call::Recover => Given::Recovered((engine.recover)(disk)),
        }
    }

    /// What a write takes, whole or cut.
    pub fn needs(&self, disk: &[u8]) -> Needs {
        match self {
            Call::Write { number, .. } | Call::WriteLine { number, .. } => (PLAIN.needs)(disk, *number),
            Call::Cut(write, _) => write.needs(disk),
            _ => Needs::refused(0),
        }
    }

    /// A write as far as its first so many stores.
    fn run_cut(&self, engine: &Engine, disk: &mut [u8], bound: usize) -> Given {
        match self {
            Call::Write { number, data, offer, random, list } => {
                let offer = offer.as_ref().map(|(number, data)| (*number, &data[..]));
                let mut list = list.clone();
                let write = Write { number: *number, data, offer, random };
                Given::Cut((engine.write_cut)(disk, &write, &mut list, bound), list)
            }
            Call::WriteLine { number, data, line, random, list } => {
                let LentLine { offers, waiting, blocks } = line;
                let mut list = list.clone();
                let write = LineWrite { number: *number, data, blocks, waiting: *waiting, random };
                Given::Cut((engine.write_line_cut)(disk, &write, offers, &mut list, bound), list)
            }
            _ => unreachable!("only writes are cut"),
        }
    }

    /// The call in words, without the bytes that it lends.
    pub fn told(&self) -> String {
        match self {
            Call::Format(g) => format!("format for {g:?}"),
            Call::Identify => "identify".to_string(),
            Call::DriveSize(g) => format!("size for {g:?}"),
            Call::PublicRead(number, blank) => {
                format!("public read of {number}, blank of {} bytes", blank.len())
            }
            Call::HiddenRead(number, blank) => {
                format!("hidden read of {number}, blank of {} bytes", blank.len())
            }
            Call::Needs(number) => format!("needs of {number}"),
            Call::CheckTree => "tree check".to_string(),
            Call::WaitRounds => "wait rounds".to_string(),
            Call::Write { number, data, offer, random, list } => {
                let offer = match offer {
                    Some((number, data)) => format!("offer {number} of {} bytes", data.len()),
                    None => "no offer".to_string(),
                };
                let lent = format!("{} random bytes, {} list entries", random.len(), list.len());
                format!("write of {number}, data of {} bytes, {offer}, {lent}", data.len())
            }
            Call::Enter(offer, line) => format!("enter {}@{}, {}", offer.number, offer.place, line.told()),
            Call::WriteLine { number, data, line, random, list } => {
                let lent = format!("{} random bytes, {} list entries", random.len(), list.len());
                format!("write of {number}, data of {} bytes, {}, {lent}", data.len(), line.told())
            }
            Call::HiddenReadLine(number, blank, line) => {
                format!("hidden read of {number}, blank of {} bytes, {}", blank.len(), line.told())
            }
            Call::Cut(write, bound) => format!("{}, cut after {bound} stores", write.told()),
            Call::Recover => "recovery".to_string(),
        }
    }
}

/// The first entry in which two lists of one length differ.
fn difference<T: PartialEq + std::fmt::Debug>(what: &str, these: &[T], those: &[T]) -> Option<String> {
    let (i, (this, that)) = these.iter().zip(those).enumerate().find(|(_, (this, that))| this != that)?;
    Some(format!("{what} {i} is {this:?}, not {that:?}"))
}

impl Given {
    /// Where this differs from another.
    pub fn apart_from(&self, other: &Given) -> String {
        let difference = match (self, other) {
            (Given::Wrote(report, list), Given::Wrote(same, others)) if report == same => {
                difference("list entry", list, others)
            }
            (Given::Cut(report, list), Given::Cut(same, others)) if report == same => {
                difference("list entry", list, others)
            }
            (Given::Entered(report, line), Given::Entered(same, others)) if report == same => {
                difference("line entry", line, others)
            }
            (Given::WroteLine(report, line, list), Given::WroteLine(same, others, another))
                if report == same =>
            {
                difference("line entry", line, others).or_else(|| difference("list entry", list, another))
            }
            _ => None,
        };
        difference.unwrap_or_else(|| format!("{}, not {}", self.told(), other.told()))
    }

    /// What was given in words, without lists and lines.
    pub fn told(&self) -> String {
        match self {
            Given::Wrote(report, _) => format!("{report:?}"),
            Given::Entered(report, _) => format!("{report:?}"),
            Given::WroteLine(report, ..) => format!("{report:?}"),
            Given::Cut(report, _) => format!("{report:?}"),
            _ => format!("{self:?}"),
        }
    }

    /// Whether the call met damage of the hidden tree, or is a check that the drive does not pass.
    pub fn meets_damage(&self) -> bool {
        match self {
            Given::Shown(shown) => *shown == Err(12),
            Given::Checked(answer) => answer.is_err(),
            Given::Wrote(written, _) => written.outcome == 12,
            Given::WroteLine(written, ..) => written.outcome == 12,
            Given::Formatted(_) | Given::Identified(_) | Given::Sized(_) => false,
            Given::Needed(_) | Given::Waits(_) | Given::Entered(..) => false,
            Given::Cut(..) | Given::Recovered(_) => false,
        }
    }

    /// Whether the call may have changed the disk.
    pub fn changes(&self) -> bool {
        match self {
            Given::Formatted(answer) => answer.is_ok(),
            Given::Wrote(written, _) => written.answer == 0,
            Given::WroteLine(written, ..) => written.answer == 0,
            Given::Cut(cut, _) => cut.stores != 0,
            Given::Recovered(answer) => answer.is_ok(),
            _ => false,
        }
    }

    /// The line that is handed back, if one was lent to be changed.
    pub fn hand_back(self, line: &mut LentLine) {
        let (offers, waiting) = match self {
            Given::Entered(entered, offers) => (offers, entered.waiting),
            Given::WroteLine(written, offers, _) => (offers, written.waiting),
            _ => return,
        };
        (line.offers, line.waiting) = (offers, waiting);
    }
}
