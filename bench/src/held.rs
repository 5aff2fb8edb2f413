//! Equal drives of several mappers: each call is made on all of them, and what it gives and leaves is to be
//! the same. What is promised of a drive that passes the tree check is held too.
use crate::calls::{Call, Given, LentLine, Part};
use crate::engine::{Cut, Engine, LineWritten, Offer, Wait, Written};
use crate::met::Met;
use crate::plain::PLAIN;
use crate::proved::PROVED;
use crate::waits::{Before, Row, holds_told};

/// The mappers and their disks, the first being the one that the others are held against, whether the tree is
/// known to pass the tree check, and the offers that wait since it did.
pub struct Held<'a> {
    pub engines: &'a [Engine],
    pub disks: Vec<Vec<u8>>,
    pub passes: bool,
    pub row: Row,
}

/// That a line is kept past the offers that wait, and all of it where the call is refused.
fn holds_line(line: &LentLine, answer: u32, waiting: u32, after: &[Offer]) -> Result<(), String> {
    let from = if answer == 0 { waiting as usize } else { 0 };
    if after[from..] != line.offers[from..] {
        return Err("an offer past those that wait is changed, or one of a refused call".to_string());
    }
    if answer != 0 && waiting as usize != line.held().len() {
        return Err(format!("{waiting} wait after a refused call, not {}", line.held().len()));
    }
    Ok(())
}

/// That a list is kept past its stores.
fn holds_list(list: &[u32], stores: u32, after: &[u32]) -> Result<(), String> {
    let kept = after[stores as usize..] == list[stores as usize..];
    if kept { Ok(()) } else { Err("an entry past the stores is changed".to_string()) }
}

/// What every call keeps of a line and a list; and a refused write's report.
fn holds_rest(call: &Call, given: &Given) -> Result<(), String> {
    let (told, refused) = match (call, given) {
        (Call::Write { list, .. }, Given::Wrote(written, after)) => {
            holds_list(list, written.stores, after)?;
            (given.told(), written.answer == 0 || *written == Written::refused(written.answer))
        }
        (Call::WriteLine { line, list, .. }, Given::WroteLine(written, offers, after)) => {
            let LineWritten { answer, stores, waiting, .. } = *written;
            holds_line(line, answer, waiting, offers)?;
            holds_list(list, stores, after)?;
            (given.told(), answer == 0 || *written == LineWritten::refused(answer, waiting))
        }
        (Call::Cut(write, _), Given::Cut(cut, after)) => {
            let (Call::Write { list, .. } | Call::WriteLine { list, .. }) = &**write else { unreachable!() };
            holds_list(list, cut.stores, after)?;
            (given.told(), cut.answer == 0 || *cut == Cut::of(cut.answer, 0, 0))
        }
        (Call::Enter(_, line), Given::Entered(entered, offers)) => {
            return holds_line(line, entered.answer, entered.waiting, offers);
        }
        _ => return Ok(()),
    };
    if refused { Ok(()) } else { Err(format!("{told} of a refused write")) }
}

impl<'a> Held<'a> {
    pub fn new(engines: &'a [Engine], disk: Vec<u8>, passes: bool) -> Self {
        Held { engines, disks: vec![disk; engines.len()], passes, row: Row::default() }
    }

    /// The same mappers on another disk; its tree passes where this one does.
    pub fn again(&self, disk: Vec<u8>) -> Self {
        Held::new(self.engines, disk, self.passes)
    }

    /// Holds the disks against the first.
    pub fn hold_disks(&self) -> Result<(), String> {
        let first = &self.disks[0];
        match self.engines.iter().zip(&self.disks).find(|(_, disk)| *disk != first) {
            None => Ok(()),
            Some((engine, disk)) => {
                let byte = (0..disk.len()).find(|&i| disk[i] != first[i]).unwrap();
                Err(format!("{}: disk byte {byte} is {}, not {}", engine.name, disk[byte], first[byte]))
            }
        }
    }

    /// Makes a call on the equal disks, and holds what it gave and left against the first.
    fn hold_call(&mut self, call: &Call) -> Result<Given, String> {
        let before = self.disks[0].clone();
        let parts = self.engines.iter().zip(&mut self.disks);
        let mut given = parts.map(|(engine, disk)| call.run(engine, disk)).collect::<Vec<_>>();
        if let Some(i) = given.iter().position(|other| *other != given[0]) {
            return Err(format!("{}: {}", self.engines[i].name, given[i].apart_from(&given[0])));
        }
        self.hold_disks()?;
        let first = given.swap_remove(0);
        if !first.changes() && self.disks[0] != before {
            return Err("the disk is changed".to_string());
        }
        if let Given::Waits(told) = first {
            holds_told(&self.disks[0], told)?;
        }
        holds_rest(call, &first).map(|()| first)
    }

    /// Makes a call on the equal disks, held and counted.
    fn count_call(&mut self, call: &Call, met: &mut Met) -> Result<Given, String> {
        let given = self.hold_call(call).map_err(|what| format!("{}: {what}", call.told()))?;
        met.enter(call, &given);
        Ok(given)
    }

    /// The round told, in which the first offer waiting is placed.
    fn ask(&mut self, met: &mut Met) -> Result<Wait, String> {
        let Given::Waits(told) = self.count_call(&Call::WaitRounds, met)? else { unreachable!() };
        Ok(told)
    }

    /// What stands before a write, if the tree passes.
    fn before(&mut self, call: &Call, met: &mut Met) -> Result<Option<Before>, String> {
        if !matches!(call, Call::Write { .. } | Call::WriteLine { .. }) {
            return Ok(None);
        }
        let told = self.ask(met)?;
        Ok(if self.passes { Before::of(call, &self.disks[0], told) } else { None })
    }

    /// Goes on with the row by a good write; another call that changes the drive ends it.
    fn go_on(&mut self, before: Option<Before>, given: &Given, met: &mut Met) -> Result<(), String> {
        if !given.changes() {
            return Ok(());
        }
        let Some(before) = before else {
            self.row = Row::default();
            return Ok(());
        };
        let told = self.ask(met)?;
        self.row.go_on(&before, given, &self.disks[0], told, met)
    }

    /// Makes a call, held. Where the tree passes, no call meets damage, it still passes after each, and no
    /// offer waits longer than it may.
    pub fn call(&mut self, call: &Call, met: &mut Met) -> Result<Given, String> {
        let before = self.before(call, met)?;
        let given = self.count_call(call, met)?;
        if self.hides_damage(call, &given) {
            met.count("of lines", "no 12 of a read");
        }
        if self.passes && given.meets_damage() {
            return Err(format!("{}: {}, where the tree check passed", call.told(), given.told()));
        }
        if self.passes && given.changes() && (PROVED.check_tree)(&self.disks[0]).is_err() {
            return Err(format!("{}: the tree check no longer passes", call.told()));
        }
        self.go_on(before, &given, met).map_err(|what| format!("{}: {what}", call.told()))?;
        self.passes |= matches!(given, Given::Checked(Ok(())) | Given::Formatted(Ok(())));
        Ok(given)
    }

    /// Whether a read showed the lent block of a number whose walk is damaged.
    fn hides_damage(&self, call: &Call, given: &Given) -> bool {
        let Call::HiddenReadLine(number, blank, _) = call else { return false };
        let lent = matches!(given, Given::Shown(Ok((Part::Lent(_), _))));
        lent && (PLAIN.hidden_read)(&self.disks[0], *number, blank) == Err(12)
    }
}
