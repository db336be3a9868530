// The scope, "Causes and their numbers", and the requests that a call names 4 or 8 neighbours, that
// a map call names a gap, that a workspace has room for the list of nodes, that a viewer names a row
// and a side, and that a call may be given triples: what is refused, in its order.

use crate::interface::{Given, View};
use crate::parts;

pub const MOST_SIDE: u64 = 4096;
pub const MOST_PIXELS: u64 = 1_048_576;
pub const MOST_THRESHOLD: u32 = 1_048_577;
pub const MOST_STEPS: usize = 256;
pub const MOST_GAP: u32 = 256;

/// Parents, attributes, the list of nodes, and four parts of scratch.
pub const WORDS_A_PIXEL: usize = 7;

/// How many neighbours a call may name.
pub const NEIGHBOURHOODS: [u32; 2] = [4, 8];

/// The causes of a call on a picture, in their order. Of these, 3 does not apply to calls given
/// triples.
pub const ORDER: [u32; 8] = [1, 2, 3, 17, 4, 19, 5, 6];

/// n, or 1 for a side or an n out of bounds.
pub fn pixels(width: u32, height: u32) -> Result<usize, u32> {
    let (width, height) = (u64::from(width), u64::from(height));
    let side = |s: u64| (1..=MOST_SIDE).contains(&s);
    if side(width) && side(height) && width * height <= MOST_PIXELS {
        Ok((width * height) as usize)
    } else {
        Err(1)
    }
}

/// 1 to 256 thresholds, strictly rising, each from 1 to 1,048,577.
pub fn is_step_list(steps: &[u32]) -> bool {
    let in_range = |t: &u32| (1..=MOST_THRESHOLD).contains(t);
    (1..=MOST_STEPS).contains(&steps.len())
        && steps.iter().all(in_range)
        && steps.windows(2).all(|pair| pair[0] < pair[1])
}

/// What a call on a picture names and is lent. One threshold or triple stands as a list of one;
/// building has no list and no outputs, and only a map call names a gap. A call given triples names
/// no attribute.
pub struct Named<'a> {
    pub width: u32,
    pub height: u32,
    pub picture: usize,
    pub attribute: Option<u32>,
    pub neighbours: u32,
    pub given: Given,
    pub steps: Option<&'a [u32]>,
    pub gap: Option<u32>,
    pub workspace: usize,
    pub outputs: &'a [usize],
}

/// Does this cause, other than 1, apply to a call whose sides name n pixels?
fn applies(call: &Named, n: usize, cause: u32) -> bool {
    match cause {
        2 => call.picture != n,
        3 => call
            .attribute
            .is_some_and(|number| !(1..=3).contains(&number)),
        17 => !NEIGHBOURHOODS.contains(&call.neighbours),
        4 => call.steps.is_some_and(|steps| match call.given {
            Given::Thresholds => !is_step_list(steps),
            Given::Triples => !parts::is_list(steps),
        }),
        19 => call.gap.is_some_and(|gap| gap > MOST_GAP),
        5 => call.workspace != WORDS_A_PIXEL * n,
        _ => call.outputs.iter().any(|entries| *entries != n),
    }
}

/// Light and dark, as a viewer names them.
pub const SIDES: [u32; 2] = [1, 2];

/// The first cause that applies to a viewer that is lent maps of so many entries, light and dark:
/// of 1, of 6, which covers both maps, whichever side is named, and of 16.
pub fn view_refusal(view: View, maps: [usize; 2]) -> Result<(), u32> {
    let n = pixels(view.width, view.height)?;
    if maps != [n, n] {
        return Err(6);
    }
    if view.row >= view.height || !SIDES.contains(&view.side) {
        return Err(16);
    }
    Ok(())
}

/// The first cause that applies.
pub fn refusal(call: &Named) -> Result<(), u32> {
    let n = pixels(call.width, call.height)?;
    let mut further = ORDER.into_iter().skip(1);
    match further.find(|cause| applies(call, n, *cause)) {
        Some(number) => Err(number),
        None => Ok(()),
    }
}
