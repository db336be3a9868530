// The scope, "Picture, nodes, openings", "Steps and maps" and "Tree record", word for word: level
// sets, components by flood fill, nodes, representatives, parents, openings, residues; and the
// requests on floc cut by the frame and on the list of nodes. How residues are joined stands in
// runs.rs, what is said of dark floc in dark.rs, and what triples are in parts.rs. Nothing here is
// meant to be fast. How many neighbours there are, 4 or 8, is named wherever it matters.

use crate::causes::{NEIGHBOURHOODS, WORDS_A_PIXEL};
use crate::dark;
use crate::parts::{self, Triple};
use crate::runs::{self, Maps};

/// Each attribute of a set with a pixel in the first or last row or column. No threshold is above.
pub const CUT: u32 = 1_048_577;

#[derive(Clone, Debug)]
pub struct Picture {
    pub width: usize,
    pub height: usize,
    pub greys: Vec<u8>,
}

impl Picture {
    pub fn pixels(&self) -> usize {
        self.width * self.height
    }

    pub fn least(&self) -> u8 {
        *self.greys.iter().min().expect("a picture has a pixel")
    }

    pub fn reversed(&self) -> Picture {
        Picture {
            greys: dark::reversed(&self.greys),
            ..*self
        }
    }

    /// Of 4 neighbours each shares an edge with p, of 8 an edge or a corner.
    pub fn neighbours(&self, p: usize, number: u32) -> impl Iterator<Item = usize> {
        assert!(NEIGHBOURHOODS.contains(&number));
        let (width, row, column) = (self.width, p / self.width, p % self.width);
        let near = |at: usize, side: usize| at.saturating_sub(1)..(at + 2).min(side);
        let columns = near(column, width);
        let places = near(row, self.height).flat_map(move |r| columns.clone().map(move |c| (r, c)));
        let shares = move |&(r, c): &(usize, usize)| match (r == row, c == column) {
            (true, true) => false,
            (false, false) => number == 8,
            _ => true,
        };
        places.filter(shares).map(move |(r, c)| r * width + c)
    }

    /// Is p in the first or last row or column?
    fn in_frame(&self, p: usize) -> bool {
        let (row, column) = (p / self.width, p % self.width);
        let (last_row, last_column) = (self.height - 1, self.width - 1);
        row == 0 || row == last_row || column == 0 || column == last_column
    }
}

/// A connected component of the level set at `level`, its pixels in order of position.
pub struct Component {
    pub level: u8,
    pub pixels: Vec<usize>,
    /// Attributes 1, 2 and 3: area, height and width.
    pub attributes: [u32; 3],
    /// Pixels of grey exactly `level`, in order of position. A node has at least one.
    pub own: Vec<usize>,
}

/// The components of the level sets at every grey that occurs, darkest grey first. At a grey that
/// does not occur the level set is that of the next one that does, and no component is a node.
pub struct Levels {
    /// How many neighbours join the components.
    pub neighbours: u32,
    pub components: Vec<Component>,
    /// For each pixel, the components that hold it, brightest level first.
    pub holding: Vec<Vec<usize>>,
    least: u8,
}

#[derive(PartialEq)]
pub struct Record {
    pub parents: Vec<u32>,
    pub attributes: Vec<u32>,
    /// The representatives by rising level, lower position first within a level.
    pub list: Vec<u32>,
}

impl Record {
    /// How many there are, which building answers.
    pub fn nodes(&self) -> u64 {
        self.list.len() as u64
    }

    /// The 7n words: parents, attributes, the list and zeros after its last entry, scratch at zero.
    pub fn workspace(&self) -> Vec<u32> {
        let n = self.parents.len();
        let mut words = [&self.parents[..], &self.attributes, &self.list].concat();
        words.resize(WORDS_A_PIXEL * n, 0);
        words
    }
}

fn flood_fill(
    picture: &Picture,
    neighbours: u32,
    level: u8,
    from: usize,
    seen: &mut [bool],
) -> Vec<usize> {
    let mut pixels = vec![from];
    seen[from] = true;
    let mut next = 0;
    while next < pixels.len() {
        for q in picture.neighbours(pixels[next], neighbours) {
            if picture.greys[q] >= level && !seen[q] {
                seen[q] = true;
                pixels.push(q);
            }
        }
        next += 1;
    }
    pixels.sort_unstable();
    pixels
}

/// Last less first, plus 1.
fn extent(places: impl Iterator<Item = usize> + Clone) -> u32 {
    let last = places.clone().max().expect("not empty");
    let first = places.min().expect("not empty");
    (last - first + 1) as u32
}

/// Area, height and width of a set of pixels. A node with a pixel in the first or last row or
/// column has 1,048,577 for each attribute, the root too.
fn attributes(picture: &Picture, pixels: &[usize]) -> [u32; 3] {
    if pixels.iter().any(|p| picture.in_frame(*p)) {
        return [CUT; 3];
    }
    let rows = pixels.iter().map(|p| p / picture.width);
    let columns = pixels.iter().map(|p| p % picture.width);
    [pixels.len() as u32, extent(rows), extent(columns)]
}

fn component(picture: &Picture, level: u8, pixels: Vec<usize>) -> Component {
    let is_own = |p: &usize| picture.greys[*p] == level;
    let own = pixels.iter().copied().filter(is_own).collect();
    Component {
        level,
        attributes: attributes(picture, &pixels),
        pixels,
        own,
    }
}

impl Levels {
    pub fn of(picture: &Picture, neighbours: u32) -> Levels {
        let mut levels = Levels {
            neighbours,
            components: Vec::new(),
            holding: vec![Vec::new(); picture.pixels()],
            least: picture.least(),
        };
        let mut greys = picture.greys.clone();
        greys.sort_unstable();
        greys.dedup();
        for level in greys {
            levels.add_level(picture, level);
        }
        for holding in &mut levels.holding {
            holding.reverse();
        }
        levels
    }

    fn add_level(&mut self, picture: &Picture, level: u8) {
        let mut seen = vec![false; picture.pixels()];
        for p in 0..picture.pixels() {
            if picture.greys[p] >= level && !seen[p] {
                let pixels = flood_fill(picture, self.neighbours, level, p, &mut seen);
                for q in &pixels {
                    self.holding[*q].push(self.components.len());
                }
                self.components.push(component(picture, level, pixels));
            }
        }
    }

    pub fn nodes(&self) -> impl Iterator<Item = &Component> {
        self.components.iter().filter(|c| !c.own.is_empty())
    }

    /// The attributes, all three, of all nodes but the root, the node at the least grey.
    pub fn all_removable(&self) -> impl Iterator<Item = [u32; 3]> + '_ {
        let removable = self.nodes().filter(|c| c.level > self.least);
        removable.map(|c| c.attributes)
    }

    pub fn removable(&self, attribute: u32) -> impl Iterator<Item = u32> + '_ {
        self.all_removable()
            .map(move |attributes| attributes[attribute as usize - 1])
    }

    /// The smallest node that strictly contains `node`.
    fn parent(&self, node: &Component) -> Option<&Component> {
        let holding = self.holding[node.pixels[0]].iter();
        holding
            .map(|c| &self.components[*c])
            .filter(|c| !c.own.is_empty() && c.pixels.len() > node.pixels.len())
            .min_by_key(|c| c.pixels.len())
    }

    /// The representatives by rising level, lower position first within a level.
    fn list(&self) -> Vec<u32> {
        let mut list: Vec<(u8, usize)> = self.nodes().map(|c| (c.level, c.own[0])).collect();
        list.sort_unstable();
        list.into_iter().map(|(_, p)| p as u32).collect()
    }

    pub fn record(&self, attribute: u32) -> Record {
        let n = self.holding.len();
        let mut record = Record {
            parents: vec![u32::MAX; n],
            attributes: vec![0; n],
            list: self.list(),
        };
        for node in self.nodes() {
            let representative = node.own[0];
            for p in &node.own {
                record.parents[*p] = representative as u32;
            }
            let above = self.parent(node).map_or(representative, |c| c.own[0]);
            record.parents[representative] = above as u32;
            record.attributes[representative] = node.attributes[attribute as usize - 1];
        }
        record
    }

    /// The greatest h for which the pixel's component at h is enough, the least grey if there is
    /// none. Only greys that occur need be tried: between two of them the level set is that of the
    /// brighter one.
    fn opened(&self, enough: impl Fn(&&Component) -> bool) -> Vec<u8> {
        let opened = |holding: &Vec<usize>| {
            let mut components = holding.iter().map(|c| &self.components[*c]);
            components.find(&enough).map_or(self.least, |c| c.level)
        };
        self.holding.iter().map(opened).collect()
    }

    /// Enough is attribute t or more.
    pub fn opening(&self, attribute: u32, threshold: u32) -> Vec<u8> {
        self.opened(|c| c.attributes[attribute as usize - 1] >= threshold)
    }

    /// Enough is what meets all three.
    pub fn triple_opening(&self, triple: Triple) -> Vec<u8> {
        self.opened(|c| parts::meets(c.attributes, triple))
    }

    /// The picture, and its opening at each step.
    pub fn openings(&self, picture: &Picture, attribute: u32, steps: &[u32]) -> Vec<Vec<u8>> {
        let mut openings = vec![picture.greys.clone()];
        openings.extend(steps.iter().map(|t| self.opening(attribute, *t)));
        openings
    }

    pub fn triple_openings(&self, picture: &Picture, triples: &[Triple]) -> Vec<Vec<u8>> {
        let mut openings = vec![picture.greys.clone()];
        openings.extend(triples.iter().map(|triple| self.triple_opening(*triple)));
        openings
    }

    /// Residue map and index map of a step list, at each gap.
    pub fn maps(
        &self,
        picture: &Picture,
        attribute: u32,
        steps: &[u32],
        gaps: &[u32],
    ) -> Vec<Maps> {
        joined_falls(&self.openings(picture, attribute, steps), gaps)
    }

    /// Those of a list of triples.
    pub fn triple_maps(&self, picture: &Picture, triples: &[Triple], gaps: &[u32]) -> Vec<Maps> {
        joined_falls(&self.triple_openings(picture, triples), gaps)
    }
}

/// For pictures of which each is at most the one before: the falls of each pixel, joined at each
/// gap.
pub fn joined_falls(pictures: &[Vec<u8>], gaps: &[u32]) -> Vec<Maps> {
    let n = pictures[0].len();
    let mut maps = vec![(vec![0; n], vec![0; n]); gaps.len()];
    for p in 0..n {
        let fall = |pair: &[Vec<u8>]| pair[0][p].saturating_sub(pair[1][p]);
        let falls: Vec<u8> = pictures.windows(2).map(fall).collect();
        for ((residue, index), gap) in maps.iter_mut().zip(gaps) {
            (residue[p], index[p]) = runs::largest(&falls, *gap);
        }
    }
    maps
}

/// The map of the scope, for pictures of which each is at most the one before: the largest fall at
/// each pixel, and the largest number, from 1, of a fall that attains it; 0 where it is 0.
pub fn largest_falls(pictures: &[Vec<u8>]) -> Maps {
    let n = pictures[0].len();
    let mut residue = vec![0u8; n];
    let mut index = vec![0u16; n];
    for p in 0..n {
        for i in 0..pictures.len() - 1 {
            let fall = pictures[i][p].saturating_sub(pictures[i + 1][p]);
            if fall > 0 && fall >= residue[p] {
                residue[p] = fall;
                index[p] = i as u16 + 1;
            }
        }
    }
    (residue, index)
}

/// Is `new` a leveling of the picture: for neighbours p, q, if new p exceeds new q, then old p is
/// at least new p and new q at least old q.
pub fn is_leveling(picture: &Picture, neighbours: u32, new: &[u8]) -> bool {
    let old = &picture.greys;
    let fits = |p: usize, q: usize| new[p] <= new[q] || (old[p] >= new[p] && new[q] >= old[q]);
    (0..picture.pixels()).all(|p| picture.neighbours(p, neighbours).all(|q| fits(p, q)))
}
