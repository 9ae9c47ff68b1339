//! What follows end, beside the original, which does not look at it. Its answers are those of the tolerant calls; what
//! the default calls have to answer is told from them: 27 in place of end where a byte after it is not zero, with all
//! lent memory as it was, and else the same.

use crate::{
    departures::Departure,
    engine::Model,
    faults::Bent,
    heard::{End, Heard},
    run::{Op, Out, Said},
    second::{length, more},
};
use model::edition::{Edition, SECOND};

/// What follows the end that a log comes to from a position on; none where it comes to none.
pub fn follows(log: &[u8], edition: Edition, at: u64) -> Option<&[u8]> {
    let mark = more(edition) as usize;
    let mut left = log.get(usize::try_from(at).ok()?..)?;
    loop {
        let (first, record) = left.split_at_checked(mark)?;
        let len = length(record)?;
        if first.iter().any(|&byte| byte != SECOND) {
            return None;
        }
        left = &record[len..];
        match record[0] {
            1 => return None,
            2 => return Some(left),
            _ => {}
        }
    }
}

/// Whether a byte there is not zero.
pub fn used(log: &[u8], edition: Edition, at: u64) -> bool {
    follows(log, edition, at).is_some_and(|after| after.iter().any(|&byte| byte != 0))
}

/// What the default call answers where the tolerant one answers so, if that is something else. `left` gives the bytes
/// that are then answered or left.
fn narrowed(tolerant: &Out, used: impl FnOnce() -> bool, left: impl FnOnce(&Out) -> Out) -> Option<Out> {
    // The hash count is looked at after what follows end.
    let at_end = matches!(tolerant.said, Said::Value("end" | "applied", _) | Said::Refused(2));
    (at_end && used()).then(|| left(tolerant))
}

/// What is heard of an input to the default call, by what was heard of the same input to the tolerant one: whether its
/// log is used after the end, the departure that this is, if the original was told what follows end, and the refusal.
pub fn heard<O: Op>(
    [input, tolerant]: [&O::Input; 2],
    heard: Heard,
    used: impl FnOnce() -> bool,
    how: Option<Departure>,
    refused: impl FnOnce(&Out) -> Out,
) -> Heard {
    match heard {
        Heard::Says { did, out, departs } => match narrowed(&out, used, refused) {
            None => Heard::Says { did, out, departs },
            // An error is of a log of edition two, which it does not read.
            Some(out) => {
                let departs = how.filter(|_| matches!(did.end, End::Value(..))).map(|how| how.says);
                Heard::Says { did, out, departs }
            }
        },
        // Where it is not asked, the two calls of 02's program.
        Heard::NotAsked => {
            let (said, former) = (O::run::<Bent<Model>>(input), O::run::<Bent<Model>>(tolerant));
            let wanted = narrowed(&former, used, refused).unwrap_or(former);
            let same = (&said.said, &said.bytes) == (&wanted.said, &wanted.bytes);
            Heard::Held(if same { Ok(()) } else { Err(format!("by the tolerant call it is {:?}", wanted.said)) })
        }
        other => other,
    }
}
