//! The original Rust as the judge of a reply, where it and this crate are to do the same. It is asked for a run cut behind its first FENCE.I
//! (module `fence_i`), with words in the place of compressed instructions (module `compressed`), and with stand-ins for the words that one of
//! the two takes and the other does not (modules `rest_of_m` and `reserved_jalr`).

use crate::compressed::{expanded, InPlace};
use crate::fence_i::cut;
use crate::reserved_jalr::{self, ECALL};
use crate::rest_of_m::{self, put_bodies};
use crate::support::runs::{replaced, words};
use emuko_original::{Answer, Asked, Original};
use std::borrow::Cow;

/// The run with all stand-ins for words.
pub fn with_stand_ins(halfwords: &[u16]) -> Cow<'_, [u16]> {
    replaced(halfwords, |word| {
        rest_of_m::stand_in(word).or(reserved_jalr::stand_in(word))
    })
}

/// What has to come out here, number 5 apart: what the original answers, with the bodies of the rest of M, and with the word itself in
/// number 4.
pub fn judged(original: &mut Original, asked: Asked, bytes: &mut Vec<u8>) -> Answer {
    let halfwords = cut(asked.halfwords);
    let run = expanded(halfwords);
    let in_place = InPlace {
        asked: Asked { halfwords, ..asked },
        run: &with_stand_ins(&run),
    };
    let answer = in_place.translated(original, bytes);
    match answer {
        Answer::Block(count) => put_bodies(original, halfwords, count, bytes),
        Answer::NotTaken(ECALL) => return Answer::NotTaken(words(halfwords).next().unwrap()),
        _ => {}
    }
    answer
}
