// The request on area, height and width together, word for word: what a triple is, what a list of
// them is, when a node stays, and what triples a chain is judged by.

use crate::causes::{MOST_STEPS, MOST_THRESHOLD};

/// A part each for area, height and width.
pub type Triple = [u32; 3];

/// A node of these attributes stays if it meets all three.
pub fn meets(attributes: [u32; 3], triple: Triple) -> bool {
    let [area, height, width] = attributes;
    area >= triple[0] && height >= triple[1] && width >= triple[2]
}

/// The triples of a list that is lent as words, three to a step.
pub fn triples(words: &[u32]) -> Vec<Triple> {
    let triple = |step: &[u32]| [step[0], step[1], step[2]];
    words.chunks_exact(3).map(triple).collect()
}

/// From one step to the next no part falls and at least one rises.
fn follows(before: Triple, after: Triple) -> bool {
    let falls = (0..3).any(|part| after[part] < before[part]);
    let rises = (0..3).any(|part| after[part] > before[part]);
    !falls && rises
}

/// 1 to 256 triples, none cut short, each part 0 to 1,048,577; the first has a part above 0, and
/// each other follows the one before.
pub fn is_list(words: &[u32]) -> bool {
    let steps = words.len() / 3;
    if words.len() != 3 * steps || !(1..=MOST_STEPS).contains(&steps) {
        return false;
    }
    let triples = triples(words);
    words.iter().all(|part| *part <= MOST_THRESHOLD)
        && triples[0].iter().any(|part| *part > 0)
        && triples.windows(2).all(|pair| follows(pair[0], pair[1]))
}

/// A single threshold opens as a triple with two zeros.
pub fn of_threshold(attribute: u32, threshold: u32) -> Triple {
    let mut triple = [0; 3];
    triple[attribute as usize - 1] = threshold;
    triple
}

/// The largest value in each part, three zeros if there are none.
pub fn largest(triples: &[Triple]) -> Triple {
    let part = |k: usize| triples.iter().map(|triple| triple[k]).max();
    [0, 1, 2].map(|k| part(k).unwrap_or(0))
}
