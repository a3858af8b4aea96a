use crate::{check, find_row, first_places, from_at, hop_count, label_at, lower_row, places, refuse, to_at, Answer, Shape, ACCEPTED};

/// The round question, with 1 or 0.
pub fn round(shape: Shape, hops: &[u16], place: u64, rounds: u32) -> (Answer, u32) {
    let checked = check(shape, hops);
    if checked.number != 0 {
        return (checked, 0);
    }
    if place >= hop_count(hops) as u64 || label_at(hops, place as usize) != 0 {
        return (refuse(9, 0), 0);
    }
    if rounds > 4 {
        return (refuse(10, 0), 0);
    }
    let first = first_places(shape.states as usize, hops);
    let mut known = vec![UNKNOWN; 4 * hop_count(hops)];
    let mut asked = Asked { hops, first: &first, known: &mut known };
    (ACCEPTED, u32::from(asked.x(rounds as usize, place as usize)))
}

const UNKNOWN: u8 = 0;
const NO: u8 = 1;
const YES: u8 = 2;

struct Asked<'a> {
    hops: &'a [u16],
    first: &'a [u16],
    /// For each number of rounds from 1 and each place.
    known: &'a mut [u8],
}

impl Asked<'_> {
    /// The silent hop at `place` survives `rounds`.
    fn x(&mut self, rounds: usize, place: usize) -> bool {
        if rounds == 0 {
            return true;
        }
        let slot = (rounds - 1) * hop_count(self.hops) + place;
        if self.known[slot] == UNKNOWN {
            let s2 = to_at(self.hops, place);
            let mut tried = places(self.first, from_at(self.hops, place));
            let survives = tried.all(|tried| self.y(rounds - 1, s2, tried));
            self.known[slot] = if survives { YES } else { NO };
        }
        self.known[slot] == YES
    }

    /// The hop at `tried` is answered by `s2`.
    fn y(&mut self, rounds: usize, s2: u16, tried: usize) -> bool {
        let (label, s3) = (label_at(self.hops, tried), to_at(self.hops, tried));
        let mut answers = lower_row(self.hops, self.first, (s2, label, 0))..lower_row(self.hops, self.first, (s2, label + 1, 0));
        answers.any(|answer| self.z(rounds, s3, to_at(self.hops, answer))) || (label == 0 && self.z(rounds, s3, s2))
    }

    /// `s3` is `s4`, or a silent hop between them survives `rounds`.
    fn z(&mut self, rounds: usize, s3: u16, s4: u16) -> bool {
        s3 == s4 || find_row(self.hops, self.first, (s3, 0, s4)).is_some_and(|place| self.x(rounds, place))
    }
}
