// Pictures of bright rectangles within each other. Their trees, openings and maps are known from
// the places of the rectangles alone; what is dark in them is the second program's.

use crate::calls::Truth;
use crate::causes::{MOST_THRESHOLD, NEIGHBOURHOODS};
use crate::definition::{joined_falls, Picture, Record, CUT};
use crate::fast::Forest;
use crate::parts::{self, Triple};
use crate::pictures::by_place;
use crate::runs::Maps;
use std::cell::OnceCell;

/// First and last row, first and last column.
#[derive(Clone, Copy, PartialEq)]
pub struct Rectangle {
    pub top: usize,
    pub bottom: usize,
    pub left: usize,
    pub right: usize,
}

impl Rectangle {
    pub fn whole(width: usize, height: usize) -> Rectangle {
        Rectangle {
            top: 0,
            bottom: height - 1,
            left: 0,
            right: width - 1,
        }
    }

    fn holds(&self, row: usize, column: usize) -> bool {
        (self.top..=self.bottom).contains(&row) && (self.left..=self.right).contains(&column)
    }

    /// All that lie within it and are smaller.
    pub fn smaller(&self) -> Vec<Rectangle> {
        let mut all = Vec::new();
        for top in self.top..=self.bottom {
            for bottom in top..=self.bottom {
                for left in self.left..=self.right {
                    all.extend((left..=self.right).map(|right| Rectangle {
                        top,
                        bottom,
                        left,
                        right,
                    }));
                }
            }
        }
        all.retain(|rectangle| rectangle != self);
        all
    }

    /// Area, height and width if it keeps off all four sides of the picture, else 1,048,577 each.
    fn attributes(&self, picture: &Rectangle) -> [u32; 3] {
        let off_rows = self.top > picture.top && self.bottom < picture.bottom;
        let off_columns = self.left > picture.left && self.right < picture.right;
        let height = (self.bottom - self.top + 1) as u32;
        let width = (self.right - self.left + 1) as u32;
        if off_rows && off_columns {
            [height * width, height, width]
        } else {
            [CUT; 3]
        }
    }
}

/// A picture of rectangles of rising grey, the first of them the whole, each other within the one
/// before. They are its nodes.
pub struct Nest {
    pub picture: Picture,
    /// For each pixel the number of the last rectangle that holds it.
    depth: Vec<u8>,
    /// Of each rectangle.
    pub attributes: Vec<[u32; 3]>,
    /// Of 255 less each grey. What is left beside a rectangle never meets by a corner alone, so that
    /// both neighbourhoods find the same.
    reversed: OnceCell<Forest>,
}

/// Ground, floc, peak.
const GREYS: [u8; 3] = [20, 90, 200];

impl Nest {
    pub fn new(rectangles: &[Rectangle]) -> Nest {
        let whole = &rectangles[0];
        let (width, height) = (whole.right + 1, whole.bottom + 1);
        let depth = by_place(width, height, |row, column| {
            let holding = rectangles.iter().filter(|r| r.holds(row, column));
            holding.count() as u8 - 1
        });
        let picture = Picture {
            width,
            height,
            greys: depth.iter().map(|k| GREYS[usize::from(*k)]).collect(),
        };
        Nest {
            picture,
            depth,
            attributes: rectangles.iter().map(|r| r.attributes(whole)).collect(),
            reversed: OnceCell::new(),
        }
    }

    /// What is left if these of the rectangles stay, the ground among them.
    fn opened(&self, stays: impl Fn([u32; 3]) -> bool) -> Vec<u8> {
        let stays = |k: &usize| stays(self.attributes[*k]);
        let left: Vec<u8> = (0..self.attributes.len())
            .map(|k| GREYS[(0..=k).rfind(stays).expect("the ground stays")])
            .collect();
        self.depth.iter().map(|k| left[usize::from(*k)]).collect()
    }

    /// At each attribute and one above it, and 1.
    pub fn steps(&self, attribute: u32) -> Vec<u32> {
        let values = self.attributes.iter().map(|a| a[attribute as usize - 1]);
        let mut steps: Vec<u32> = values.flat_map(|a| [a, a + 1]).chain([1]).collect();
        steps.retain(|t| *t <= MOST_THRESHOLD);
        steps.sort_unstable();
        steps.dedup();
        steps
    }
}

impl Truth for Nest {
    fn record(&self, attribute: u32) -> Record {
        let lowest = |k: usize| self.depth.iter().position(|d| usize::from(*d) == k);
        let representatives: Vec<usize> = (0..self.attributes.len())
            .map(|k| lowest(k).expect("own pixels"))
            .collect();
        let at = |k: usize| representatives[k] as u32;
        let mut record = Record {
            parents: self.depth.iter().map(|k| at(usize::from(*k))).collect(),
            attributes: vec![0; self.depth.len()],
            list: (0..representatives.len()).map(at).collect(),
        };
        for (k, p) in representatives.iter().enumerate() {
            record.parents[*p] = at(k.saturating_sub(1));
            record.attributes[*p] = self.attributes[k][attribute as usize - 1];
        }
        record
    }
    fn opening(&self, attribute: u32, threshold: u32) -> Vec<u8> {
        self.opened(|attributes| attributes[attribute as usize - 1] >= threshold)
    }
    fn maps(&self, attribute: u32, steps: &[u32], gaps: &[u32]) -> Vec<Maps> {
        let mut openings = vec![self.picture.greys.clone()];
        openings.extend(steps.iter().map(|t| self.opening(attribute, *t)));
        joined_falls(&openings, gaps)
    }
    fn triple_opening(&self, triple: Triple) -> Vec<u8> {
        self.opened(|attributes| parts::meets(attributes, triple))
    }
    fn triple_maps(&self, triples: &[Triple], gaps: &[u32]) -> Vec<Maps> {
        let mut openings = vec![self.picture.greys.clone()];
        openings.extend(triples.iter().map(|triple| self.triple_opening(*triple)));
        joined_falls(&openings, gaps)
    }
    fn reversed(&self) -> &dyn Truth {
        let reversed = || Forest::of(&self.picture.reversed(), NEIGHBOURHOODS[0]);
        self.reversed.get_or_init(reversed)
    }
}
