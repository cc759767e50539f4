//! Times of rstar: the rows of bench.c, over the same numbers, and the sums of the answers.
//! The boxes lie at random, or are those of a file: the `load` that scripts/speed.py keeps.

use rstar::primitives::{GeomWithData, Rectangle};
use rstar::{RTree, AABB};
use std::time::Instant;

const ITEMS: usize = 100_000;
const QUESTIONS: usize = 10_000;
const NEAREST: usize = 10;
const ROUNDS: usize = 3;

type Box = ([i64; 2], [i64; 2]);
type Object = GeomWithData<Rectangle<[i64; 2]>, u64>;

/// splitmix64
struct Random(u64);

impl Random {
    fn below(&mut self, bound: u64) -> i64 {
        self.0 = self.0.wrapping_add(0x9e3779b97f4a7c15);
        let z = (self.0 ^ (self.0 >> 30)).wrapping_mul(0xbf58476d1ce4e5b9);
        let z = (z ^ (z >> 27)).wrapping_mul(0x94d049bb133111eb);
        ((z ^ (z >> 31)) % bound) as i64
    }

    fn corners(&mut self, most_side: u64) -> Box {
        let (x, y) = (self.below(2_000_000), self.below(2_000_000));
        let (width, height) = (self.below(most_side), self.below(most_side));
        ([x, y], [x + width, y + height])
    }
}

/// Boxes, the areas that are asked for, and the points.
type Drawn = (Vec<Box>, Vec<Box>, Vec<[i64; 2]>);

fn draw(random: &mut Random) -> Drawn {
    let boxes = (0..ITEMS).map(|_| random.corners(4000)).collect();
    let questions = (0..QUESTIONS).map(|_| {
        let area = random.corners(20_000);
        (area, [random.below(2_000_000), random.below(2_000_000)])
    });
    let (areas, points) = questions.unzip();
    (boxes, areas, points)
}

/// A question is a box grown by its own sides, or a corner.
fn read(path: &str, random: &mut Random) -> Drawn {
    let text = std::fs::read_to_string(path).expect("a file of lines");
    let row = |line: &str| {
        let mut words = line.split(' ').skip(1);
        let mut number = || words.next().and_then(|word| word.parse().ok()).expect("ID X1 Y1 X2 Y2");
        ([number(), number()], [number(), number()])
    };
    let boxes: Vec<Box> = text.lines().skip(1).take(ITEMS).map(row).collect();
    let questions = (0..QUESTIONS).map(|_| {
        let mut drawn = || boxes[random.below(ITEMS as u64) as usize];
        let (one, other) = drawn();
        let sides = [other[0] - one[0], other[1] - one[1]];
        let lower = [one[0] - sides[0], one[1] - sides[1]];
        ((lower, [other[0] + sides[0], other[1] + sides[1]]), drawn().0)
    });
    let (areas, points) = questions.unzip();
    (boxes, areas, points)
}

#[derive(Default)]
struct Sums {
    hits: u64,
    ids: u64,
    distances: u64,
}

struct Bench {
    boxes: Vec<Box>,
    ids: Vec<u64>,
    areas: Vec<Box>,
    points: Vec<[i64; 2]>,
    answers: Vec<u64>,
    tree: RTree<Object>,
    sums: Sums,
}

fn object(corners: &Box, id: u64) -> Object {
    GeomWithData::new(Rectangle::from_corners(corners.0, corners.1), id)
}

impl Bench {
    fn load(&mut self) {
        let objects = self.boxes.iter().zip(&self.ids).map(|(corners, id)| object(corners, *id));
        self.tree = RTree::bulk_load(objects.collect());
    }

    fn ask(&mut self) {
        (self.sums.hits, self.sums.ids) = (0, 0);
        for area in &self.areas {
            self.answers.clear();
            let found = self.tree.locate_in_envelope_intersecting(AABB::from_corners(area.0, area.1));
            self.answers.extend(found.map(|object| object.data));
            self.sums.hits += self.answers.len() as u64;
            self.sums.ids += self.answers.iter().sum::<u64>();
        }
    }

    fn find_nearest(&mut self) {
        self.sums.distances = 0;
        for point in &self.points {
            let found = self.tree.nearest_neighbor_iter_with_distance_2(*point).take(NEAREST);
            for (object, distance) in found {
                self.answers.push(object.data);
                self.sums.distances += distance as u64;
            }
            self.answers.clear();
        }
    }

    fn insert(&mut self) {
        self.tree = RTree::new();
        for (corners, id) in self.boxes.iter().zip(&self.ids) {
            self.tree.insert(object(corners, *id));
        }
    }
}

fn main() {
    let mut random = Random(1);
    let (boxes, areas, points) = match std::env::args().nth(1) {
        Some(path) => read(&path, &mut random),
        None => draw(&mut random),
    };
    let mut bench = Bench {
        boxes,
        ids: (0..ITEMS as u64).collect(),
        areas,
        points,
        answers: Vec::new(),
        tree: RTree::new(),
        sums: Sums::default(),
    };
    type Row = (&'static str, fn(&mut Bench), f64);
    let rows: [Row; 4] = [
        ("load of 100,000, ms", Bench::load, 1e3),
        ("question, us", Bench::ask, 1e6 / QUESTIONS as f64),
        ("10 nearest, us", Bench::find_nearest, 1e6 / QUESTIONS as f64),
        ("insertion, us", Bench::insert, 1e6 / ITEMS as f64),
    ];
    let mut best = [f64::INFINITY; 4];
    for _ in 0..ROUNDS {
        bench.tree = RTree::new();
        for (row, least) in rows.iter().zip(&mut best) {
            let begin = Instant::now();
            (row.1)(&mut bench);
            *least = least.min(begin.elapsed().as_secs_f64());
        }
    }
    for (row, least) in rows.iter().zip(best) {
        println!("{}\t{:.2}", row.0, least * row.2);
    }
    let Sums { hits, ids, distances } = bench.sums;
    println!("answers\t{hits} {ids} {distances}");
}
