// The request on dark floc, word for word: 255 less each grey, what the combined call writes of the
// maps of both sides at one gap, and the row that a viewer receives.

use crate::runs::Maps;

pub fn reversed(greys: &[u8]) -> Vec<u8> {
    greys.iter().map(|grey| 255 - grey).collect()
}

/// What is taken at one pixel, whose residue and index are given on either side: the side of larger
/// residue and its index, on equal residues the dark index; and the contrast, the residue where
/// light won, its negative where dark won or tied, 0 where both are 0.
fn taken(light: (u8, u16), dark: (u8, u16)) -> (u8, u16, i16) {
    if light.0 > dark.0 {
        (light.0, light.1, i16::from(light.0))
    } else {
        (dark.0, dark.1, -i16::from(dark.0))
    }
}

/// The combined residues and indices, and the contrasts.
pub fn combined(light: &Maps, dark: &Maps) -> (Maps, Vec<i16>) {
    let (mut residue, mut index, mut contrast) = (Vec::new(), Vec::new(), Vec::new());
    for p in 0..light.0.len() {
        let (r, i, c) = taken((light.0[p], light.1[p]), (dark.0[p], dark.1[p]));
        residue.push(r);
        index.push(i);
        contrast.push(c);
    }
    ((residue, index), contrast)
}

/// The entries of a map in this row, from 0.
pub fn row(map: &[u8], width: usize, row: usize) -> Option<&[u8]> {
    map.chunks(width).nth(row)
}
