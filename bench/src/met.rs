//! How often each kind of call gave what, and what is due.
use crate::calls::{Call, Given, LentLine, Part};
use crate::engine::{Entered, LineWritten, MOST_OFFERS, NONE, NOT_TRIED, Offer, PLACED, WAITING, Wait};
use std::collections::BTreeMap;

/// What each kind of call, and the whole-tree check after each kind of tree damage, is to give at least once,
/// and nothing else.
const DUE: [(&str, &[&str]); 32] = [
    ("format", &["0", "1", "2"]),
    ("identify", &["0", "1", "2", "3"]),
    ("drive size", &["0", "1"]),
    ("public read", &["block", "blank", "1", "2", "3", "4", "5", "6"]),
    ("hidden read", &["block", "blank", "1", "2", "3", "10", "11", "12"]),
    ("needs", &["0", "1", "2", "3", "4", "6", "7"]),
    ("write", &["0", "1", "2", "3", "4", "5", "6", "7", "8", "9"]),
    ("outcome", &["none", "placed", "waiting", "not tried", "10", "11", "12"]),
    ("enter", &["0", "1", "2", "3", "10", "11", "16"]),
    ("entered", &["at the end", "in its turn", "16 as sixteen wait", "16 as the line is full"]),
    ("line write", &["0", "1", "2", "3", "4", "5", "6", "7", "8", "9"]),
    ("with a line", &["none", "placed", "waiting", "not tried", "12"]),
    ("line read", &["lent", "block", "blank", "1", "2", "3", "10", "11", "12"]),
    ("placed", &["0", "1", "2", "3 or more"]),
    (
        "of lines",
        &[
            "passed over by a round",
            "passed over by the outcome",
            "a second left",
            "count past the line",
            "more than 16",
            "another geometry",
            "no 12 of a read",
        ],
    ),
    ("wait rounds", &["0", "1", "2", "3"]),
    ("told", &["1", "2", "3 or more"]),
    (
        "of waits",
        &[
            "in the round told",
            "told for later",
            "placed by a later write",
            "in round H + 1",
            "in round w x H + 1",
            "before one in front",
        ],
    ),
    ("cut write", &["0", "1", "2", "3", "4", "5", "6", "7", "8", "9"]),
    ("cut with line", &["0", "1", "2", "3", "4", "5", "6", "7", "8", "9"]),
    (
        "cut after",
        &[
            "nothing",
            "block A",
            "node",
            "hidden data",
            "root",
            "map block",
            "new bit",
            "old bit",
            "header",
            "more than all",
        ],
    ),
    (
        "of cuts",
        &[
            "number old",
            "number new",
            "offer old",
            "offer new",
            "first of a line new",
            "6 until recovery",
            "gone on from",
        ],
    ),
    ("recover", &["0", "1", "2", "3", "17"]),
    (
        "of recoveries",
        &[
            "17 for no slot's block",
            "17 for a shared entry",
            "17 for both",
            "no block past P",
            "shared past P",
            "mark set",
            "mark cleared",
            "padding cleared",
            "as it was",
        ],
    ),
    ("tree check", &["0", "1", "2", "3", "13", "14", "15"]),
    ("root entry", &["0", "13", "14", "15"]),
    ("node entry", &["0", "13", "14", "15"]),
    ("leaf entry", &["0", "13", "14", "15"]),
    ("owner", &["0", "15"]),
    ("two swapped", &["0", "14", "15"]),
    ("renumbered", &["0", "14", "15"]),
    ("two damages", &["0", "13", "14", "15"]),
];

/// An outcome in words.
fn told(outcome: u32) -> String {
    match outcome {
        NONE => "none".to_string(),
        PLACED => "placed".to_string(),
        WAITING => "waiting".to_string(),
        NOT_TRIED => "not tried".to_string(),
        number => number.to_string(),
    }
}

/// What a good write shows of its line. The first offer of all is passed over where it stays and another is
/// placed; all are where some stay and none is said to wait. A second offer left where more left than numbers
/// were placed.
fn left_of(line: &LentLine, written: &LineWritten, after: &[Offer]) -> Vec<&'static str> {
    let (held, waiting) = (line.held(), written.waiting as usize);
    let stays = waiting > 0 && after[0] == held[0];
    let shown = [
        (stays && written.placed > 0, "passed over by a round"),
        (waiting > 0 && written.outcome == NONE, "passed over by the outcome"),
        (held.len() - waiting > written.placed as usize, "a second left"),
        (line.waiting as usize > line.offers.len(), "count past the line"),
        (line.waiting.min(line.offers.len() as u32) as usize > MOST_OFFERS, "more than 16"),
    ];
    shown.into_iter().filter_map(|(holds, label)| holds.then_some(label)).collect()
}

#[derive(Default)]
pub struct Met {
    counts: BTreeMap<(&'static str, String), u64>,
    pub calls: u64,
    pub rounds: u64,
}

impl Met {
    pub fn count(&mut self, kind: &'static str, label: impl ToString) {
        *self.counts.entry((kind, label.to_string())).or_default() += 1;
    }

    pub fn enter(&mut self, call: &Call, given: &Given) {
        self.calls += 1;
        match given {
            Given::Formatted(answer) => self.count("format", answer.err().unwrap_or(0)),
            Given::Identified(identified) => self.count("identify", identified.answer),
            Given::Sized(size) => self.count("drive size", size.answer),
            Given::Shown(shown) => {
                let kind = match call {
                    Call::PublicRead(..) => "public read",
                    Call::HiddenRead(..) => "hidden read",
                    _ => "line read",
                };
                match shown {
                    Ok((Part::Disk(_), _)) => self.count(kind, "block"),
                    Ok((Part::Lent(_), _)) => self.count(kind, "lent"),
                    Ok((Part::Blank, _)) => self.count(kind, "blank"),
                    Err(answer) => self.count(kind, answer),
                }
            }
            Given::Needed(needs) => self.count("needs", needs.answer),
            Given::Checked(answer) => self.count("tree check", answer.err().unwrap_or(0)),
            Given::Waits(wait) => self.count_wait(wait),
            Given::Wrote(written, _) => {
                self.count("write", written.answer);
                self.rounds += u64::from(written.rounds);
                self.count("outcome", told(written.outcome));
            }
            Given::Entered(entered, _) => self.count_entered(call, entered),
            Given::WroteLine(written, offers, _) => self.count_line(call, written, offers),
            Given::Cut(cut, _) => {
                let Call::Cut(write, _) = call else { return };
                let has_line = matches!(**write, Call::WriteLine { .. });
                self.count(if has_line { "cut with line" } else { "cut write" }, cut.answer);
            }
            Given::Recovered(answer) => self.count("recover", answer.err().unwrap_or(0)),
        }
    }

    fn count_wait(&mut self, wait: &Wait) {
        self.count("wait rounds", wait.answer);
        if wait.answer == 0 {
            let rounds = wait.rounds;
            self.count("told", if rounds < 3 { rounds.to_string() } else { "3 or more".to_string() });
        }
    }

    fn count_entered(&mut self, call: &Call, entered: &Entered) {
        let Call::Enter(_, line) = call else { return };
        self.count("enter", entered.answer);
        let held = line.held().len();
        match entered.answer {
            0 if entered.waiting as usize == held => self.count("entered", "in its turn"),
            0 => self.count("entered", "at the end"),
            16 if held == MOST_OFFERS => self.count("entered", "16 as sixteen wait"),
            16 => self.count("entered", "16 as the line is full"),
            _ => {}
        }
    }

    fn count_line(&mut self, call: &Call, written: &LineWritten, after: &[Offer]) {
        let Call::WriteLine { line, .. } = call else { return };
        self.count("line write", written.answer);
        self.rounds += u64::from(written.rounds);
        self.count("with a line", told(written.outcome));
        if written.answer == 0 {
            let placed = written.placed;
            self.count("placed", if placed < 3 { placed.to_string() } else { "3 or more".to_string() });
            left_of(line, written, after).into_iter().for_each(|label| self.count("of lines", label));
        }
    }

    /// Prints the counts, and whether they are those due: all of these and no others.
    pub fn report(&self) -> bool {
        let mut left = self.counts.clone();
        let mut good = true;
        for (kind, labels) in DUE {
            let mut line = Vec::new();
            for label in labels {
                let count = left.remove(&(kind, label.to_string())).unwrap_or(0);
                line.push(format!("{label}: {count}"));
                if count == 0 {
                    println!("not met: {kind} {label}");
                    good = false;
                }
            }
            println!("{kind:<13} | {}", line.join(", "));
        }
        for ((kind, label), count) in left {
            println!("not due: {kind} {label}, {count} times");
            good = false;
        }
        good
    }
}
