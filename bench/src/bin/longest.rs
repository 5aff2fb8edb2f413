//! `longest`: the longest write of a volume of 256 MiB that is filled in order and then written at one number
//! until the head has gone round: its rounds, its stores and its time. Takes some 3 GiB of memory.
use pddm_bench::arguments::Arguments;
use pddm_bench::engine::{Geometry, Write, ample, fresh};
use pddm_bench::proved::PROVED;
use std::time::Instant;

const G: Geometry = Geometry { block_size: 4096, height: 3, publics: 65_536, hidden: 65_536, slots: 131_072 };

fn main() {
    Arguments::new("longest").end();
    let (random, list) = ample(G);
    let (random, mut list) = (vec![165; random], vec![0; list]);
    let data = vec![1; G.block_size as usize];
    let mut disk = fresh(&PROVED, G);
    let (mut most, mut stores, mut took) = (0, 0, 0.0);
    let again = (0..=G.slots).map(|_| 0);
    for number in (0..G.publics).chain(again) {
        let call = Write { number, data: &data, offer: None, random: &random };
        let start = Instant::now();
        let written = (PROVED.write)(&mut disk, &call, &mut list);
        let seconds = start.elapsed().as_secs_f64();
        assert_eq!(written.answer, 0, "a good write");
        if written.rounds > most {
            (most, stores, took) = (written.rounds, written.stores, seconds);
        }
    }
    println!("P {}, {} slots: {most} rounds, {stores} stores, {took:.2} s", G.publics, G.slots);
}
