// The request on blurred rims, word for word: which residues of a pixel belong to one run, and what
// both maps hold of its runs. Nothing here knows of nodes.

/// A residue map and an index map.
pub type Maps = (Vec<u8>, Vec<u16>);

#[derive(Default)]
pub struct Run {
    /// Of all its residues.
    pub total: u32,
    /// The largest i + 1 of a non-null residue in it.
    pub last: u16,
}

/// Two non-null residues at i and a later j, with only null ones between, belong to one run if j
/// less i is at most the gap.
pub fn runs(residues: &[u8], gap: u32) -> Vec<Run> {
    let mut runs: Vec<Run> = Vec::new();
    let mut before = None;
    for j in (0..residues.len()).filter(|j| residues[*j] > 0) {
        let joined = before.is_some_and(|i| j - i <= gap as usize);
        if !joined {
            runs.push(Run::default());
        }
        let run = runs.last_mut().expect("a run");
        run.total += u32::from(residues[j]);
        run.last = j as u16 + 1;
        before = Some(j);
    }
    runs
}

/// The largest run total, and the largest i + 1 of a non-null residue in a run attaining it, the
/// largest among such runs, or 0. No total is above the pixel's grey; only the falls of a chain
/// that went wrong could add up to more.
pub fn largest(residues: &[u8], gap: u32) -> (u8, u16) {
    let runs = runs(residues, gap);
    let total = runs.iter().map(|run| run.total).max().unwrap_or(0);
    let attaining = runs.iter().filter(|run| run.total == total);
    let last = attaining.map(|run| run.last).max().unwrap_or(0);
    (total.min(255) as u8, last)
}
