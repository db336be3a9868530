// The scope, "Table of small pictures" and the readings that mislead: expected values as printed
// there, for both programs here and for the library, given thresholds and given triples with two
// zeros, which open as they do. The small pictures are set in a ring, one
// pixel wide, of their least grey; their maps and openings inside it stay, and the tree case is
// worked out again, with its list of nodes. With 8 neighbours named the two-row case has zero maps
// and the others stay.

use crate::calls::{check_build, check_gaps, check_maps, check_open, ByDefinition, Call, Truth};
use crate::causes::MOST_THRESHOLD;
use crate::definition::{Picture, Record, CUT};
use crate::fast::Forest;
use crate::parts::Triple;
use crate::pictures::{in_ring, ring};
use crate::random::Random;
use crate::report::Report;

pub const AREA: u32 = 1;
pub const HEIGHT: u32 = 2;
pub const WIDTH: u32 = 3;

pub fn rows<const COLUMNS: usize>(rows: &[[u8; COLUMNS]]) -> Picture {
    Picture {
        width: COLUMNS,
        height: rows.len(),
        greys: rows.concat(),
    }
}

/// Expected values under one neighbourhood, of maps at one gap.
pub struct Table<'a> {
    pub report: &'a mut Report,
    pub random: Random,
    pub neighbours: u32,
    pub gap: u32,
}

impl Table<'_> {
    pub fn tree(&mut self, picture: &Picture, attribute: u32, due: &Record) {
        let truth = ByDefinition::of(picture, self.neighbours);
        let forest = Forest::of(picture, self.neighbours);
        let same = truth.record(attribute) == *due && forest.record(attribute) == *due;
        self.defined(same, "tree", picture);
        let call = Call::good(picture, attribute, self.neighbours, vec![1]);
        check_build(self.report, &mut self.random, &call, &truth);
    }

    pub fn maps(&mut self, picture: &Picture, named: (u32, &[u32]), residue: &[u8], index: &[u16]) {
        let call = Call::good(picture, named.0, self.neighbours, named.1.to_vec());
        for call in [&call, &call.by_triples()] {
            self.maps_of(picture, call, residue, index);
        }
    }

    pub fn triple_maps(
        &mut self,
        picture: &Picture,
        triples: &[Triple],
        residue: &[u8],
        index: &[u16],
    ) {
        let call = Call::triples(picture, self.neighbours, triples);
        self.maps_of(picture, &call, residue, index);
    }

    fn maps_of(&mut self, picture: &Picture, call: &Call, residue: &[u8], index: &[u16]) {
        let truth = ByDefinition::of(picture, self.neighbours);
        let forest = Forest::of(picture, self.neighbours);
        let gaps = [self.gap];
        let due = [(residue.to_vec(), index.to_vec())];
        let same = call.maps(&truth, &gaps) == due && call.maps(&forest, &gaps) == due;
        self.defined(same, "maps", picture);
        let call = Call {
            gap: self.gap,
            ..call.clone()
        };
        check_maps(self.report, &mut self.random, &call, &truth);
        for turn in [0, 2] {
            check_gaps(self.report, &mut self.random, &call, &gaps, &truth, turn);
        }
    }

    pub fn opening(&mut self, picture: &Picture, named: (u32, u32), opened: &[u8]) {
        let call = Call::good(picture, named.0, self.neighbours, vec![named.1]);
        for call in [&call, &call.by_triples()] {
            self.opening_of(picture, call, opened);
        }
    }

    pub fn triple_opening(&mut self, picture: &Picture, triple: Triple, opened: &[u8]) {
        let call = Call::triples(picture, self.neighbours, &[triple]);
        self.opening_of(picture, &call, opened);
    }

    fn opening_of(&mut self, picture: &Picture, call: &Call, opened: &[u8]) {
        let truth = ByDefinition::of(picture, self.neighbours);
        let forest = Forest::of(picture, self.neighbours);
        let same = call.opening(&truth) == opened && call.opening(&forest) == opened;
        self.defined(same, "opening", picture);
        check_open(self.report, &mut self.random, call, &truth);
    }

    pub fn defined(&mut self, same: bool, what: &str, picture: &Picture) {
        let fault = (!same).then(|| format!("programs here: {what} not as worked out by hand"));
        let (neighbours, gap) = (self.neighbours, self.gap);
        self.report.check(fault, || {
            format!("{picture:?}, {neighbours} neighbours, gap {gap}")
        });
    }

    /// The tree of a picture in which the frame cuts every node, by each attribute.
    pub fn tree_cut(&mut self, picture: &Picture, parents: &[u32], list: &[u32]) {
        let mut attributes = vec![0; picture.pixels()];
        for p in list {
            attributes[*p as usize] = CUT;
        }
        let due = Record {
            parents: parents.to_vec(),
            attributes,
            list: list.to_vec(),
        };
        for attribute in [AREA, HEIGHT, WIDTH] {
            self.tree(picture, attribute, &due);
        }
    }

    /// The tree by area of a picture set in its ring, in which the root's representative is
    /// position 0. Given are the words inside the ring, and the list; parents and what is listed
    /// are positions in the whole.
    pub fn tree_inside(&mut self, inside: &Picture, parents: &[u32], areas: &[u32], list: &[u32]) {
        let mut attributes = ring(inside.width, areas, 0);
        attributes[0] = CUT;
        let due = Record {
            parents: ring(inside.width, parents, 0),
            attributes,
            list: list.to_vec(),
        };
        self.tree(&in_ring(inside), AREA, &due);
    }

    /// The maps of a picture set in its ring: as given inside, 0 in the ring.
    pub fn maps_inside(
        &mut self,
        inside: &Picture,
        named: (u32, &[u32]),
        residue: &[u8],
        index: &[u16],
    ) {
        let residue = ring(inside.width, residue, 0);
        let index = ring(inside.width, index, 0);
        self.maps(&in_ring(inside), named, &residue, &index);
    }

    /// The opening by area of a picture set in its ring: as given inside, and the ring stays.
    fn opening_inside(&mut self, inside: &Picture, threshold: u32, opened: &[u8]) {
        let opened = ring(inside.width, opened, inside.least());
        self.opening(&in_ring(inside), (AREA, threshold), &opened);
    }

    /// Thresholds and lists at the ends of their ranges.
    fn ends(&mut self, picture: &Picture) {
        let truth = ByDefinition::of(picture, self.neighbours);
        for t in [0, 1, MOST_THRESHOLD, MOST_THRESHOLD + 1] {
            let call = Call::good(picture, AREA, self.neighbours, vec![t]);
            for call in [&call, &call.by_triples()] {
                check_open(self.report, &mut self.random, call, &truth);
                check_maps(self.report, &mut self.random, call, &truth);
            }
        }
        for count in [0, 1, 255, 256, 257] {
            for end in [count, MOST_THRESHOLD] {
                let steps = (end - count + 1..=end).collect();
                let call = Call::good(picture, AREA, self.neighbours, steps);
                for call in [&call, &call.by_triples()] {
                    check_maps(self.report, &mut self.random, call, &truth);
                }
            }
        }
    }

    /// A plateau of `area` pixels in a row falls at the first threshold above it, the last of 256
    /// steps included.
    fn last_steps(&mut self, area: usize) {
        let mut greys = [1; 600];
        greys[7..7 + area].fill(9);
        let picture = rows(&[greys]);
        for attribute in [AREA, WIDTH] {
            for last in [256, 257, MOST_THRESHOLD] {
                let steps: Vec<u32> = (1..=255).chain([last]).collect();
                let first_above = steps.iter().position(|t| *t as usize > area);
                let place = first_above.map_or(0, |i| i as u16 + 1);
                let fall = if place > 0 { 8 } else { 0 };
                let at = |p: usize| (7..7 + area).contains(&p);
                let residue: Vec<u8> = (0..600).map(|p| if at(p) { fall } else { 0 }).collect();
                let index: Vec<u16> = (0..600).map(|p| if at(p) { place } else { 0 }).collect();
                self.maps_inside(&picture, (attribute, &steps), &residue, &index);
            }
        }
    }

    /// P in its ring: no two of its bright pixels share only a corner.
    fn one_row(&mut self) {
        let p = rows(&[[10, 30, 20, 50, 10]]);
        self.tree(
            &rows(&[[10; 7], [10, 10, 30, 20, 50, 10, 10], [10; 7]]),
            AREA,
            &Record {
                parents: [[0; 7], [0, 0, 10, 0, 10, 0, 0], [0; 7]].concat(),
                attributes: [[CUT, 0, 0, 0, 0, 0, 0], [0, 0, 1, 3, 1, 0, 0], [0; 7]].concat(),
                list: vec![0, 10, 9, 11],
            },
        );
        self.maps_inside(
            &p,
            (AREA, &[1, 2, 3, 4]),
            &[0, 10, 10, 30, 0],
            &[0, 4, 4, 2, 0],
        );
        self.maps_inside(&p, (AREA, &[2, 4]), &[0, 10, 10, 30, 0], &[0, 2, 2, 1, 0]);
        self.maps_inside(&p, (AREA, &[1]), &[0; 5], &[0; 5]);
        self.maps_inside(&p, (AREA, &[6]), &[0, 20, 10, 40, 0], &[0, 1, 1, 1, 0]);
        self.maps_inside(&p, (HEIGHT, &[1, 2]), &[0, 20, 10, 40, 0], &[0, 2, 2, 2, 0]);
        self.opening_inside(&p, 2, &[10, 20, 20, 20, 10]);
        self.opening_inside(&p, 3, &[10, 20, 20, 20, 10]);
        self.opening_inside(&p, 4, &[10; 5]);
        self.ends(&in_ring(&p));
        self.ends(&p);
        self.maps_inside(
            &rows(&[[10, 40, 10]]),
            (AREA, &[1, 2]),
            &[0, 30, 0],
            &[0, 2, 0],
        );
        for area in [1, 2, 254, 255, 256, 257, 300] {
            self.last_steps(area);
        }
        for attribute in 1..=3 {
            for picture in [rows(&[[7]]), rows(&[[7; 9]])] {
                let (residue, index) = (vec![0; picture.width], vec![0; picture.width]);
                let named: (u32, &[u32]) = (attribute, &[1, 2, MOST_THRESHOLD]);
                self.maps(&picture, named, &residue, &index);
                self.maps_inside(&picture, named, &residue, &index);
            }
        }
    }
}

pub fn run(report: &mut Report, seed: u64) {
    let two_rows = rows(&[[9, 0], [0, 9]]);
    let cases = [(4, [9, 0, 0, 9], [1, 0, 0, 1]), (8, [0; 4], [0; 4])];
    for (neighbours, residue, index) in cases {
        let mut table = Table {
            report,
            random: Random::for_case(seed, 3, u64::from(neighbours)),
            neighbours,
            gap: 0,
        };
        table.one_row();
        table.maps_inside(&two_rows, (AREA, &[2]), &residue, &index);
    }
}
