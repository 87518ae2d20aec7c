//! All calls of a run. The same seed always gives the same ones.

use super::large::{self, End};
use super::malformed;
use super::short::{self, Short};
use super::states;
use super::talk::{Exchange, Talk};
use super::tunes::{self, Tune};
use crate::call::Call;
use common::random::Random;
use common::soup::{stream, Sort};
use std::vec::IntoIter;

const ENDS: [End; 3] = [End::Flush, End::LastByte, End::Zeros];

/// What comes once in a run that is long enough.
enum Once {
    Short(Short),
    Tune(Tune),
}

pub struct Sequences {
    random: Random,
    talk: Talk,
    once: IntoIter<Once>,
    ready: IntoIter<Exchange>,
    /// Sequences so far, and pushes still to be made.
    made: u64,
    left: u64,
}

impl Sequences {
    /// At least so many pushes: the sequence that has the last of them is told to its end.
    pub fn new(pushes: u64, seed: u64) -> Self {
        let mut random = Random::new(seed);
        let short = short::all().into_iter().map(Once::Short);
        let mut once: Vec<Once> = short.chain(tunes::all().into_iter().map(Once::Tune)).collect();
        // In any order, so that few pushes are enough to see some of each.
        for last in (1..once.len()).rev() {
            once.swap(last, random.below(last as u64 + 1) as usize);
        }
        Sequences {
            random,
            talk: Talk::default(),
            once: once.into_iter(),
            ready: Vec::new().into_iter(),
            made: 0,
            left: pushes,
        }
    }

    /// The next sequence. What is long and rare comes once at the start; then short streams and tunes,
    /// while there are any, take turns with the others.
    fn tell(&mut self) {
        let (talk, random) = (&mut self.talk, &mut self.random);
        match self.made {
            0 => states::all_grounds(talk),
            1 => large::longest_joined(talk),
            2 => ENDS.into_iter().for_each(|end| large::longest_frame(end, talk, random)),
            3 => short::pending_words(talk),
            4 => tunes::at_bounds(talk),
            5 => tunes::counted_anew(talk),
            n if n % 2 == 0 => by_chance(talk, random),
            n => match self.once.next() {
                Some(Once::Short(short)) => short.tell(n / 2, talk),
                Some(Once::Tune(tune)) => tune.tell(talk),
                None => by_chance(talk, random),
            },
        }
        self.made += 1;
    }
}

impl Iterator for Sequences {
    type Item = Exchange;

    fn next(&mut self) -> Option<Exchange> {
        loop {
            if let Some(exchange) = self.ready.next() {
                let is_push = matches!(exchange.call, Call::Push(..));
                self.left = self.left.saturating_sub(is_push.into());
                return Some(exchange);
            }
            if self.left == 0 {
                return None;
            }
            self.tell();
            self.ready = self.talk.take().into_iter();
        }
    }
}

fn by_chance(talk: &mut Talk, random: &mut Random) {
    match random.below(1_024) {
        0 => large::longest_payload(talk, random),
        1..=4 => large::longest_frame(random.pick(&ENDS), talk, random),
        5..=40 => talk.ask(malformed::line(random)),
        41..=340 => states::set_and_go_on(talk, random),
        341..=440 => Tune::any(random).tell(talk),
        _ => one_stream(talk, random),
    }
}

/// A stream fed to a new splitter, or to the one that is there.
fn one_stream(talk: &mut Talk, random: &mut Random) {
    let code = match random.below(8) {
        0 => talk.state().code.min(2),
        _ => random.below(3) as u32,
    };
    if code != talk.state().code || random.below(4) > 0 {
        talk.ask(Call::New(code));
    }
    let sort = match random.below(16) {
        0..=1 => Sort::Whole,
        2..=4 => Sort::Damaged,
        5..=7 => Sort::Pieces,
        8..=9 => Sort::Sparse,
        10..=12 => Sort::OneGeometry,
        13..=14 => Sort::Joined,
        _ => Sort::AnyBytes,
    };
    talk.feed(&stream(sort, code, random), random);
    if random.below(8) == 0 {
        // From here on nothing counts that was before, and the run may be inside the domain again.
        talk.ask(if random.below(2) == 0 { Call::Reset } else { Call::Unlock });
        talk.feed(&stream(Sort::OneGeometry, code, random), random);
    }
    if random.below(2) == 0 {
        talk.flush_by_chance(random);
    }
}
