//! What a mapper offers, as a table of its calls, so that tests and the benchmark run every one of them
//! alike.

#[repr(C)]
#[derive(Clone, Copy, Default, PartialEq, Eq, Debug)]
pub struct Geometry {
    pub block_size: u32,
    pub height: u32,
    pub publics: u32,
    pub hidden: u32,
    pub slots: u32,
}

/// One write but for its disk and list: the public half, what is offered, and the random bytes.
#[derive(Clone, Copy, Debug)]
pub struct Write<'a> {
    pub number: u32,
    pub data: &'a [u8],
    pub offer: Option<(u32, &'a [u8])>,
    pub random: &'a [u8],
}

/// What a write reports. Laid out as `pddm_written`.
#[repr(C)]
#[derive(Clone, Copy, PartialEq, Eq, Debug)]
pub struct Written {
    pub answer: u32,
    pub rounds: u32,
    pub stores: u32,
    pub outcome: u32,
}

/// One write with a line but for its disk, line and list: the public half, the blocks that the line's places
/// speak of, how many of its first offers wait, and the random bytes.
#[derive(Clone, Copy, Debug)]
pub struct LineWrite<'a> {
    pub number: u32,
    pub data: &'a [u8],
    pub blocks: &'a [u8],
    pub waiting: u32,
    pub random: &'a [u8],
}

/// An offer of a line: a hidden number and the place of its block among the lent blocks, counted in blocks.
/// Laid out as `pddm_offer`.
#[repr(C)]
#[derive(Clone, Copy, Default, PartialEq, Eq, Debug)]
pub struct Offer {
    pub number: u32,
    pub place: u32,
}

/// The most offers of a line that count.
pub const MOST_OFFERS: usize = 16;

/// What entering an offer reports: how many of the line's first offers wait then, refused or not. Laid out as
/// `pddm_entered`.
#[repr(C)]
#[derive(Clone, Copy, PartialEq, Eq, Debug)]
pub struct Entered {
    pub answer: u32,
    pub waiting: u32,
}

/// What a write with a line reports: also how many numbers were placed, and how many of the line's first
/// offers wait then. Laid out as `pddm_line_written`.
#[repr(C)]
#[derive(Clone, Copy, PartialEq, Eq, Debug)]
pub struct LineWritten {
    pub answer: u32,
    pub rounds: u32,
    pub stores: u32,
    pub outcome: u32,
    pub placed: u32,
    pub waiting: u32,
}

impl LineWritten {
    /// Of a line in which so many wait.
    pub fn refused(answer: u32, waiting: u32) -> Self {
        LineWritten { answer, rounds: 0, stores: 0, outcome: NOT_TRIED, placed: 0, waiting }
    }
}

/// What a write reports of which only the first so many stores are made: those that are, and 1 where some are
/// left out. Laid out as `pddm_cut`.
#[repr(C)]
#[derive(Clone, Copy, PartialEq, Eq, Debug)]
pub struct Cut {
    pub answer: u32,
    pub stores: u32,
    pub cut: u32,
}

impl Cut {
    /// Of a whole write with this answer and so many stores.
    pub fn of(answer: u32, stores: u32, bound: usize) -> Self {
        let made = bound.min(stores as usize) as u32;
        Cut { answer, stores: made, cut: u32::from(made < stores) }
    }
}

/// The outcomes that are no refusal numbers.
pub const NONE: u32 = 0;
pub const PLACED: u32 = 1;
pub const WAITING: u32 = 2;
pub const NOT_TRIED: u32 = 3;

impl Written {
    pub fn refused(answer: u32) -> Self {
        Written { answer, rounds: 0, stores: 0, outcome: NOT_TRIED }
    }
}

/// What a good write of a number takes now; all 0 where the answer is a refusal. Laid out as `pddm_needs`.
#[repr(C)]
#[derive(Clone, Copy, PartialEq, Eq, Debug)]
pub struct Needs {
    pub answer: u32,
    pub rounds: u32,
    pub stores: u32,
    pub random_blocks: u32,
}

impl Needs {
    pub fn refused(answer: u32) -> Self {
        Needs { answer, rounds: 0, stores: 0, random_blocks: 0 }
    }
}

/// In which round, counted from the head, the first offer waiting is placed: the one that comes to the first
/// slot that is not live; 0 where the answer is a refusal. Laid out as `pddm_wait`.
#[repr(C)]
#[derive(Clone, Copy, PartialEq, Eq, Debug)]
pub struct Wait {
    pub answer: u32,
    pub rounds: u32,
}

impl Wait {
    pub fn refused(answer: u32) -> Self {
        Wait { answer, rounds: 0 }
    }

    /// Of the slots from the head on: whether each is live.
    pub fn of(live: impl IntoIterator<Item = bool>) -> Self {
        let first = live.into_iter().position(|live| !live);
        Wait { answer: 0, rounds: first.map_or(0, |i| i as u32 + 1) }
    }
}

/// Which drive a disk is; all 0 but for the answer where that is a refusal. Laid out as `pddm_drive`.
#[repr(C)]
#[derive(Clone, Copy, Default, PartialEq, Eq, Debug)]
pub struct Identified {
    pub answer: u32,
    pub geometry: Geometry,
    pub head: u32,
}

impl Identified {
    pub fn refused(answer: u32) -> Self {
        Identified { answer, ..Default::default() }
    }
}

/// How large a drive is; 1 and zeros where its geometry is outside the limits. Laid out as `pddm_size`.
#[repr(C)]
#[derive(Clone, Copy, PartialEq, Eq, Debug)]
pub struct Size {
    pub answer: u32,
    pub blocks: u32,
    pub bytes: u64,
}

impl Size {
    pub const REFUSED: Size = Size { answer: 1, blocks: 0, bytes: 0 };
}

/// The part of the disk or of the lent blocks that a read shows, or the caller's blank; or the refusal.
pub type Shown<'a> = Result<&'a [u8], u32>;

#[derive(Clone, Copy)]
pub struct Engine {
    pub name: &'static str,
    pub format: fn(&mut [u8], Geometry) -> Result<(), u32>,
    pub identify: fn(&[u8]) -> Identified,
    pub drive_size: fn(Geometry) -> Size,
    /// Of a disk, a number and a blank.
    pub public_read: for<'a> fn(&'a [u8], u32, &'a [u8]) -> Shown<'a>,
    pub hidden_read: for<'a> fn(&'a [u8], u32, &'a [u8]) -> Shown<'a>,
    pub needs: fn(&[u8], u32) -> Needs,
    pub check_tree: fn(&[u8]) -> Result<(), u32>,
    pub wait_rounds: fn(&[u8]) -> Wait,
    /// Changes the disk and enters the stores in the list.
    pub write: fn(&mut [u8], &Write, &mut [u32]) -> Written,
    /// Of a disk, an offer, the lent blocks, a line and how many of it wait; changes the line.
    pub enter: fn(&[u8], Offer, &[u8], &mut [Offer], u32) -> Entered,
    /// Changes disk and line and enters the stores in the list.
    pub write_line: fn(&mut [u8], &LineWrite, &mut [Offer], &mut [u32]) -> LineWritten,
    /// Of a disk, a number, a blank, the lent blocks, a line and how many of it wait.
    pub hidden_read_line: for<'a> fn(&'a [u8], u32, &'a [u8], &'a [u8], &[Offer], u32) -> Shown<'a>,
    /// The write with its first so many stores alone, as if the plug were pulled then.
    pub write_cut: fn(&mut [u8], &Write, &mut [u32], usize) -> Cut,
    /// The same with a line, which stays as it is lent.
    pub write_line_cut: fn(&mut [u8], &LineWrite, &[Offer], &mut [u32], usize) -> Cut,
    /// Rebuilds the bitmap from the public map.
    pub recover: fn(&mut [u8]) -> Result<(), u32>,
}

/// A formatted drive whose data area is filled with 165.
pub fn fresh(engine: &Engine, g: Geometry) -> Vec<u8> {
    let drive = crate::drive::Drive::of(g).expect("a geometry within the limits");
    let mut disk = vec![165; drive.t * drive.b];
    (engine.format)(&mut disk, g).expect("a drive formatted");
    disk
}

/// Random bytes and list entries that every write on a drive of ours can do with (docs/MANUAL.md, "Buffers").
pub fn ample(g: Geometry) -> (usize, usize) {
    let rounds = g.publics as usize + 1;
    (rounds * (g.height * g.block_size) as usize, rounds * (g.height as usize + 3) + 3)
}
