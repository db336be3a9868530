// The neighbour rule by itself: in the definitions here, and in the library on two bright pixels,
// any two of a picture. Then pictures worked out by hand that tell 8 neighbours from 4, and calls
// that name neither.

use crate::calls::{check_build, check_maps, check_open, ByDefinition, Call, Truth, CHECKS};
use crate::causes::{NEIGHBOURHOODS, ORDER};
use crate::damage;
use crate::definition::Picture;
use crate::random::Random;
use crate::report::Report;
use crate::table::{rows, Table, AREA, HEIGHT, WIDTH};

/// Width and height; each is tried with a ring around it as well.
const SHAPES: [(usize, usize); 18] = [
    (1, 1),
    (1, 2),
    (2, 1),
    (1, 3),
    (3, 1),
    (2, 2),
    (1, 9),
    (9, 1),
    (2, 3),
    (3, 2),
    (2, 7),
    (7, 2),
    (3, 3),
    (3, 4),
    (4, 3),
    (4, 4),
    (3, 6),
    (6, 3),
];

/// Two pixels: how far apart their rows are, and their columns.
fn apart(width: usize, p: usize, q: usize) -> [usize; 2] {
    let rows = (p / width).abs_diff(q / width);
    let columns = (p % width).abs_diff(q % width);
    [rows, columns]
}

/// Rows and columns differ by at most 1 each and not both by 0; with 4 just one of them differs.
fn are_neighbours(width: usize, p: usize, q: usize, number: u32) -> bool {
    let apart = apart(width, p, q);
    let differing = apart.iter().filter(|by| **by > 0).count();
    let most = if number == 4 { 1 } else { 2 };
    apart.iter().all(|by| *by <= 1) && (1..=most).contains(&differing)
}

fn check_rule(report: &mut Report, (width, height): (usize, usize), number: u32) {
    let picture = Picture {
        width,
        height,
        greys: vec![0; width * height],
    };
    for p in 0..picture.pixels() {
        let listed: Vec<usize> = picture.neighbours(p, number).collect();
        let is_one = |q: &usize| are_neighbours(width, p, *q, number);
        let due: Vec<usize> = (0..picture.pixels()).filter(is_one).collect();
        let fault = (listed != due).then(|| format!("neighbours {listed:?}, should be {due:?}"));
        report.check(fault, || {
            format!("definition here: {width} by {height}, pixel {p}, {number} named")
        });
    }
}

/// Two pixels of these greys on a ground of 0.
struct Pair {
    picture: Picture,
    at: [usize; 2],
    greys: [u8; 2],
}

impl Pair {
    fn new((width, height): (usize, usize), at: [usize; 2], greys: [u8; 2]) -> Pair {
        let mut picture = Picture {
            width,
            height,
            greys: vec![0; width * height],
        };
        for (p, grey) in at.into_iter().zip(greys) {
            picture.greys[p] = grey;
        }
        Pair { picture, at, greys }
    }

    /// The opening at 2. In the frame, where an edge has no neighbour, a pixel keeps its grey. Of
    /// another the darker grey of the two is left if they are neighbours and attain 2 together, or
    /// if they are and the other one is in the frame; else nothing.
    fn opened_at_2(&self, attribute: u32, number: u32) -> Vec<u8> {
        let (width, [p, q]) = (self.picture.width, self.at);
        let [rows, columns] = apart(width, p, q);
        let enough = match attribute {
            AREA => true,
            HEIGHT => rows == 1,
            _ => columns == 1,
        };
        let joined = are_neighbours(width, p, q, number);
        let in_frame = self.at.map(|p| self.picture.neighbours(p, 4).count() < 4);
        let mut opened = vec![self.picture.least(); self.picture.pixels()];
        for (this, other) in [(0, 1), (1, 0)] {
            if in_frame[this] {
                opened[self.at[this]] = self.greys[this];
            } else if joined && (enough || in_frame[other]) {
                opened[self.at[this]] = self.greys[this].min(self.greys[other]);
            }
        }
        opened
    }

    fn check(&self, report: &mut Report, random: &mut Random, number: u32) {
        let picture = &self.picture;
        let truth = ByDefinition::of(picture, number);
        for attribute in 1..=3 {
            let same = truth.opening(attribute, 2) == self.opened_at_2(attribute, number);
            let fault = (!same).then(|| String::from("not opened as two pixels are"));
            report.check(fault, || {
                format!("definition here: {picture:?} attribute {attribute}, {number} neighbours")
            });
            let call = Call::good(picture, attribute, number, vec![2]);
            check_build(report, random, &call, &truth);
            check_open(report, random, &call, &truth);
            check_maps(report, random, &call, &truth);
        }
        self.check_triples(report, random, &truth);
    }

    /// Two of any part are met by what meets two of each of them.
    fn check_triples(&self, report: &mut Report, random: &mut Random, truth: &ByDefinition) {
        let number = truth.levels.neighbours;
        let parts = random.between(1, 7);
        let named = |attribute: &u32| parts >> (attribute - 1) & 1 == 1;
        let mut due = self.picture.greys.clone();
        let mut triple = [random.below(2) as u32; 3];
        for attribute in (1..=3).filter(named) {
            triple[attribute as usize - 1] = 2;
            let opened = self.opened_at_2(attribute, number);
            for (least, grey) in due.iter_mut().zip(opened) {
                *least = grey.min(*least);
            }
        }
        let same = truth.triple_opening(triple) == due;
        let fault = (!same).then(|| String::from("not opened as two pixels are"));
        report.check(fault, || {
            format!("definition here: {:?} by {triple:?}", self.picture)
        });
        let call = Call::triples(&self.picture, number, &[triple]);
        check_open(report, random, &call, truth);
        check_maps(report, random, &call, truth);
    }
}

fn check_pairs(report: &mut Report, random: &mut Random, shape: (usize, usize), number: u32) {
    for q in 0..shape.0 * shape.1 {
        for p in 0..q {
            for greys in [[9, 9], [9, 5], [5, 9]] {
                Pair::new(shape, [p, q], greys).check(report, random, number);
            }
        }
    }
}

/// Three pixels along each of the two diagonals, joined with 8, each by itself with 4.
fn diagonals(table: &mut Table) {
    let falling = rows(&[[5, 0, 0], [0, 7, 0], [0, 0, 6]]);
    let rising = rows(&[[0, 0, 5], [0, 7, 0], [6, 0, 0]]);
    let lists = [[0, 6, 18, 12], [0, 8, 16, 12]];
    let (falls, place) = if table.neighbours == 4 {
        table.tree_inside(&falling, &[0; 9], &[1, 0, 0, 0, 1, 0, 0, 0, 1], &lists[0]);
        table.tree_inside(&rising, &[0; 9], &[0, 0, 1, 0, 1, 0, 1, 0, 0], &lists[1]);
        ([5, 7, 6], 1)
    } else {
        let parents = [0, 0, 0, 0, 18, 0, 0, 0, 6];
        table.tree_inside(&falling, &parents, &[3, 0, 0, 0, 1, 0, 0, 0, 2], &lists[0]);
        let parents = [0, 0, 0, 0, 16, 0, 8, 0, 0];
        table.tree_inside(&rising, &parents, &[0, 0, 3, 0, 1, 0, 2, 0, 0], &lists[1]);
        ([5, 5, 5], 3)
    };
    for (picture, at) in [(falling, [0, 4, 8]), (rising, [2, 4, 6])] {
        let (mut residue, mut index) = ([0; 9], [0; 9]);
        for (p, fall) in at.into_iter().zip(falls) {
            (residue[p], index[p]) = (fall, place);
        }
        for attribute in [AREA, HEIGHT, WIDTH] {
            table.maps_inside(&picture, (attribute, &[2, 3, 4]), &residue, &index);
        }
    }
}

/// Chess patterns and a zigzag two columns wide. The bright pixels share only corners: with 8 they
/// are one component, of the area, height and width given, with 4 each is one by itself.
fn corners(table: &mut Table) {
    let pictures = [
        (rows(&[[9, 0, 9, 0], [0, 9, 0, 9], [9, 0, 9, 0]]), [6, 3, 4]),
        (rows(&[[0, 9, 0, 9], [9, 0, 9, 0]]), [4, 2, 4]),
        (rows(&[[9, 0], [0, 9], [9, 0], [0, 9], [9, 0]]), [5, 5, 2]),
    ];
    for (picture, whole) in pictures {
        for (attribute, whole) in [AREA, HEIGHT, WIDTH].into_iter().zip(whole) {
            let size = if table.neighbours == 4 { 1 } else { whole };
            for last in [size, size + 1, whole + 2] {
                let steps: Vec<u32> = (1..=last).collect();
                let mut residue = picture.greys.clone();
                if last == size {
                    residue.fill(0);
                }
                let place = |fall: &u8| if *fall > 0 { size as u16 + 1 } else { 0 };
                let index: Vec<u16> = residue.iter().map(place).collect();
                table.maps_inside(&picture, (attribute, &steps), &residue, &index);
            }
        }
    }
}

/// The end of a row and the start of another lie apart, and one row or column has no corners. As
/// they stand the frame cuts all nodes of these pictures, in a ring none but the root.
fn same_with_both(table: &mut Table) {
    let columns = rows(&[[9, 0, 8], [9, 0, 8], [9, 0, 8]]);
    table.tree_cut(&columns, &[1, 1, 1, 0, 1, 2, 0, 1, 2], &[1, 2, 0]);
    let parents = [0, 0, 0, 6, 0, 8, 6, 0, 8];
    table.tree_inside(&columns, &parents, &[3, 0, 3, 0, 0, 0, 0, 0, 0], &[0, 8, 6]);
    let ends = rows(&[[0, 0, 9], [9, 0, 0], [9, 0, 0]]);
    table.tree_cut(&ends, &[0, 0, 0, 0, 0, 0, 3, 0, 0], &[0, 2, 3]);
    let parents = [0, 0, 0, 0, 0, 0, 11, 0, 0];
    table.tree_inside(&ends, &parents, &[0, 0, 1, 2, 0, 0, 0, 0, 0], &[0, 8, 11]);
    let hook = rows(&[[9, 9, 9], [0, 0, 9], [9, 0, 9]]);
    table.tree_cut(&hook, &[3, 0, 0, 3, 3, 0, 3, 3, 0], &[3, 0, 6]);
    let parents = [0, 6, 6, 0, 0, 6, 0, 0, 6];
    table.tree_inside(&hook, &parents, &[5, 0, 0, 0, 0, 0, 1, 0, 0], &[0, 6, 16]);
    let column = rows(&[[9], [0], [9], [0], [7]]);
    table.tree_cut(&column, &[1; 5], &[1, 4, 0, 2]);
    table.tree_inside(&column, &[0; 5], &[1, 0, 1, 0, 1], &[0, 16, 4, 10]);
    let row = rows(&[[9, 0, 9, 0, 7]]);
    table.tree_cut(&row, &[1; 5], &[1, 4, 0, 2]);
    table.tree_inside(&row, &[0; 5], &[1, 0, 1, 0, 1], &[0, 12, 8, 10]);
}

/// Numbers that are neither 4 nor 8, each alone, which is beside 17, and beside each other cause.
fn check_wrong(report: &mut Report, random: &mut Random) {
    let picture = rows(&[[9, 0, 3], [0, 9, 9]]);
    let truth = ByDefinition::of(&picture, NEIGHBOURHOODS[0]);
    let small = (0..=300).filter(|number| !NEIGHBOURHOODS.contains(number));
    for number in small.chain(damage::all_wrong_neighbours()) {
        for beside in ORDER {
            for check in CHECKS {
                let mut call = Call::good(&picture, AREA, number, vec![2, 3]);
                damage::apply(random, &mut call, beside);
                call.numbers.neighbours = number;
                check(report, random, &call, &truth);
            }
        }
    }
}

pub fn run(report: &mut Report, seed: u64) {
    let mut random = Random::for_case(seed, 9, 0);
    for neighbours in NEIGHBOURHOODS {
        for (width, height) in SHAPES {
            for shape in [(width, height), (width + 2, height + 2)] {
                check_rule(report, shape, neighbours);
                check_pairs(report, &mut random, shape, neighbours);
            }
        }
        let mut table = Table {
            report,
            random: Random::for_case(seed, 9, u64::from(neighbours)),
            neighbours,
            gap: 0,
        };
        diagonals(&mut table);
        corners(&mut table);
        same_with_both(&mut table);
    }
    check_wrong(report, &mut random);
}
