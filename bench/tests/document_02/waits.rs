//! Document 02's K12 on a drive worked by hand, on every mapper: the round told, in which the first offer
//! waiting is placed, and the rounds that offers wait. P is 1, so that every write has one round.
use pddm_bench::ENGINES;
use pddm_bench::drive::{entry, put_entry};
use pddm_bench::engine::{Engine, Geometry, LineWrite, Offer, PLACED, WAITING, Wait, Write};

/// Slots at 4, 7, 10 and so on to 25.
const G: Geometry = Geometry { block_size: 32, height: 2, publics: 1, hidden: 7, slots: 8 };

const H: u32 = G.hidden;

fn told(rounds: u32) -> Wait {
    Wait { answer: 0, rounds }
}

/// A mapper with a drive.
struct Stand {
    e: Engine,
    disk: Vec<u8>,
}

impl Stand {
    /// Formatted on zeros.
    fn new(e: Engine) -> Self {
        let mut disk = vec![0; 896];
        assert_eq!((e.format)(&mut disk, G), Ok(()));
        Stand { e, disk }
    }

    /// Hidden numbers 0 to 6 are placed in slots 0 to 6 and nothing in slot 7; the head is at slot 0 again.
    fn full(e: Engine) -> Self {
        let mut stand = Stand::new(e);
        assert_eq!((0..H).map(|number| stand.write(Some(number))).collect::<Vec<_>>(), [PLACED; 7]);
        stand.write(None);
        assert_eq!((entry(&stand.disk, 5), (e.check_tree)(&stand.disk)), (0, Ok(())));
        stand
    }

    fn told(&self) -> Wait {
        (self.e.wait_rounds)(&self.disk)
    }

    /// A write with an offer, if there is one: its outcome.
    fn write(&mut self, offered: Option<u32>) -> u32 {
        let offer = offered.map(|number| (number, &[9; 32][..]));
        let call = Write { number: 0, data: &[1; 32], offer, random: &[165; 64] };
        let written = (self.e.write)(&mut self.disk, &call, &mut [0; 8]);
        assert_eq!((written.answer, written.rounds), (0, 1), "{}", self.e.name);
        written.outcome
    }

    /// The round in which each offer of a line is placed that every write carries, 0 for one that is not by
    /// round w x (H + 1), w being the line's length.
    fn placed_in<const N: usize>(&mut self, offers: [(u32, u32); N]) -> [u32; N] {
        let mut line = offers.map(|(number, place)| Offer { number, place });
        let (mut rounds, mut waiting) = ([0; N], N as u32);
        for round in 1..=N as u32 * (H + 1) {
            let call =
                LineWrite { number: 0, data: &[1; 32], blocks: &[10; 64], waiting, random: &[165; 64] };
            let written = (self.e.write_line)(&mut self.disk, &call, &mut line, &mut [0; 8]);
            assert_eq!((written.answer, written.rounds), (0, 1), "{}", self.e.name);
            waiting = written.waiting;
            for (placed, (number, _)) in rounds.iter_mut().zip(offers) {
                let waits = line[..waiting as usize].iter().any(|offer| offer.number == number);
                *placed = if *placed == 0 && !waits { round } else { *placed };
            }
        }
        rounds
    }
}

/// Slots that hold nobody's block, all but the last live, all live from the second on.
#[test]
fn rounds_told() {
    for e in ENGINES {
        assert_eq!(Stand::new(e).told(), told(1), "{}", e.name);
        let mut stand = Stand::full(e);
        assert_eq!(stand.told(), told(H + 1), "{}", e.name);
        stand.write(None);
        assert_eq!(stand.told(), told(H), "{}", e.name);
    }
}

#[test]
fn refusals_of_the_drive() {
    for e in ENGINES {
        let mut disk = Stand::full(e).disk;
        assert_eq!((e.wait_rounds)(&disk[..23]), Wait::refused(1), "{}", e.name);
        assert_eq!((e.wait_rounds)(&disk[..895]), Wait::refused(2), "{}", e.name);
        put_entry(&mut disk, 5, 8);
        assert_eq!((e.wait_rounds)(&disk), Wait::refused(3), "{}", e.name);
        put_entry(&mut disk, 0, 48);
        assert_eq!((e.wait_rounds)(&disk), Wait::refused(1), "{}", e.name);
    }
}

/// A live slot whose owner is offered keeps its block: the offer waits there too. Placed in slot 7, a number
/// leaves its old slot to the next.
#[test]
fn one_offer_by_round_h_plus_1() {
    for e in ENGINES {
        for number in [0, 3, 6] {
            let mut stand = Stand::full(e);
            for round in 1..=H {
                assert_eq!(stand.told(), told(H + 2 - round), "{}", e.name);
                assert_eq!(stand.write(Some(number)), WAITING, "{} in round {round}", e.name);
            }
            assert_eq!((stand.told(), stand.write(Some(number))), (told(1), PLACED), "{}", e.name);
            assert_eq!(stand.told(), told(number + 1), "{}", e.name);
        }
    }
}

/// The second can wait for as long as H rounds more, where the first leaves the slot that comes last.
#[test]
fn line_by_round_w_times_h_plus_1() {
    for e in ENGINES {
        let placed_in = |line| Stand::full(e).placed_in(line);
        assert_eq!(placed_in([(6, 0), (5, 1)]), [8, 15], "{}", e.name);
        assert_eq!(placed_in([(3, 0), (2, 1)]), [8, 12], "{}", e.name);
        assert_eq!(Stand::full(e).placed_in([(6, 0), (5, 1), (4, 0)]), [8, 15, 22], "{}", e.name);
    }
}

/// Of a number twice the second leaves with the first, and takes no round of its own.
#[test]
fn places_counted_by_entries() {
    for e in ENGINES {
        assert_eq!(Stand::full(e).placed_in([(6, 0), (6, 1), (5, 1)]), [8, 8, 15], "{}", e.name);
    }
}

/// One whose place is outside, or whose number is none of the drive's, is passed over and waits for good.
#[test]
fn offers_passed_over() {
    for e in ENGINES {
        assert_eq!(Stand::full(e).placed_in([(6, 2), (5, 1)]), [0, 8], "{}", e.name);
        assert_eq!(Stand::full(e).placed_in([(H, 0), (5, 1)]), [0, 8], "{}", e.name);
    }
}
