//! Which way round the triangles go, in the lists that both sides make of a sphere's grid and of a cube map.

use hoodsorrel::raw::Crop;
use reference::pano::{self, VERTEX_FLOATS};

use crate::crops::usable::bounds;
use crate::grids::cube::{indices_needed, MOST_CELLS};
use crate::grids::sphere::{grid_usable, needed, FULL, USABLE};
use crate::grids::walks::{astray, backs, repeated, turned, Grid, Way};
use crate::inputs::random::Random;
use crate::options::Options;
use crate::tally::Tally;

const NAME: &str = "winding";
const RANDOM: u32 = 2000;
const FACES: u16 = 6;
/// Grids of as many vertices as may be.
const LARGE: [(u32, u32); 4] = [(255, 255), (2, 21_844), (16_383, 3), (3, 16_383)];
const RADII: [f32; 3] = [1.0, 0.001, 1_000_000.0];

pub fn run(options: &Options) -> Vec<Tally> {
    let mut winding = Winding::new(options);
    winding.spheres(options);
    winding.cubes();
    vec![winding.once, winding.ways, winding.rounds, winding.fronts]
}

struct Winding {
    once: Tally,
    ways: Tally,
    rounds: Tally,
    fronts: Tally,
}

impl Winding {
    fn new(options: &Options) -> Winding {
        let once = "no ordered pair is walked twice in our list, nor in the Rust's";
        let ways =
            "of a cube, and of a patch, inside once each way and the border once, both lists";
        let rounds = "each triangle is half a cell and goes round alike, both lists";
        let fronts =
            "our triangles with the Rust's vertices show the centre their fronts, below radius 0 their backs";
        Winding {
            once: Tally::new(options, "winding, once only", once),
            ways: Tally::new(options, "winding, sides", ways),
            rounds: Tally::new(options, "winding, triangles", rounds),
            fronts: Tally::new(options, "winding, in space", fronts),
        }
    }

    /// Small grids and the largest ones with all crops, others with random ones.
    fn spheres(&mut self, options: &Options) {
        let small = (2..=12).flat_map(|rings| (3..=12).map(move |sectors| (rings, sectors)));
        for (rings, sectors) in small.chain(LARGE) {
            for crop in USABLE {
                self.sphere(rings, sectors, crop);
            }
            self.sphere_in_space(rings, sectors, FULL);
        }
        let mut random = Random::new(options.seed, NAME);
        for _ in 0..RANDOM {
            let rings = 2 + random.below(60) as u32;
            let sectors = 3 + random.below(60) as u32;
            let crop = coarse_crop(&mut random);
            self.sphere(rings, sectors, crop);
            self.sphere_in_space(rings, sectors, crop);
        }
        for (rings, sectors) in LARGE {
            self.sphere_in_space(rings, sectors, coarse_crop(&mut random));
        }
    }

    fn sphere(&mut self, rings: u32, sectors: u32, crop: Crop) {
        let grids = [Grid {
            first: 0,
            rows: rings as u16,
            columns: sectors as u16,
        }];
        let patch = crop[0] > 0.0 && crop[1] > 0.0;
        for numbers in [
            our_sphere(rings, sectors, crop),
            rust_sphere(rings, sectors, crop),
        ] {
            let input = || (rings, sectors, crop.map(f32::to_bits));
            self.once.check(repeated(&numbers), 0, input);
            self.rounds
                .check(turned(&numbers, &grids, Way::CounterClockwise), 0, input);
            if patch {
                self.ways
                    .check(astray(&numbers, &grids, Way::CounterClockwise), 0, input);
            }
        }
    }

    fn sphere_in_space(&mut self, rings: u32, sectors: u32, crop: Crop) {
        let numbers = our_sphere(rings, sectors, crop);
        let mut vertices = vec![0.0; VERTEX_FLOATS * pano::vertex_count(rings, sectors)];
        pano::sphere_mesh_bounded(rings, sectors, 1.0, bounds(crop), &mut vertices)
            .expect("a usable grid");
        let input = || (rings, sectors, crop.map(f32::to_bits));
        self.fronts.check(backs(&numbers, &vertices), 0, input);
    }

    fn cubes(&mut self) {
        for cells in 1..=MOST_CELLS {
            let ours = our_cube(cells);
            for numbers in [&ours, &rust_cube(cells)] {
                let grids = faces(cells as u16);
                self.once.check(repeated(numbers), 0, || cells);
                self.rounds
                    .check(turned(numbers, &grids, Way::Clockwise), 0, || cells);
                self.ways
                    .check(astray(numbers, &grids, Way::Clockwise), 0, || cells);
            }
            for radius in RADII {
                self.cube_in_space(cells, &ours, radius, 0);
                self.cube_in_space(cells, &ours, -radius, ours.len() / 3);
            }
        }
    }

    fn cube_in_space(&mut self, cells: u32, numbers: &[u16], radius: f32, due: usize) {
        let mut vertices = vec![0.0; VERTEX_FLOATS * pano::cubemap_vertex_count(cells)];
        pano::cubemap_mesh(cells, radius, 0.0, &mut vertices).expect("usable cells");
        let input = || (cells, radius.to_bits());
        self.fronts.check(backs(numbers, &vertices), due, input);
    }
}

/// The faces of a cube, one after the other.
fn faces(cells: u16) -> Vec<Grid> {
    (0..FACES)
        .map(|face| Grid {
            first: face * (cells + 1) * (cells + 1),
            rows: cells,
            columns: cells,
        })
        .collect()
}

/// Sides of 0, or of one to seven sixteenths: patches neither so narrow, nor so close to a pole without reaching it,
/// that floats are too few for them.
fn coarse_crop(random: &mut Random) -> Crop {
    [0; 4].map(|_| random.below(8) as f32 / 16.0)
}

fn our_sphere(rings: u32, sectors: u32, crop: Crop) -> Vec<u16> {
    let mut numbers = vec![0; needed(rings, sectors, crop)];
    let made =
        hoodsorrel::raw::sphere_indices_bounded(rings, sectors, crop, &mut numbers, &mut [0]);
    assert!(
        grid_usable(rings, sectors) && made == 1,
        "{rings} rings, {sectors} sectors, {crop:?}"
    );
    numbers
}

fn rust_sphere(rings: u32, sectors: u32, crop: Crop) -> Vec<u16> {
    let mut numbers = vec![0; needed(rings, sectors, crop)];
    pano::sphere_indices_bounded(rings, sectors, bounds(crop), &mut numbers)
        .expect("a usable grid");
    numbers
}

fn our_cube(cells: u32) -> Vec<u16> {
    let mut numbers = vec![0; indices_needed(cells)];
    let made = hoodsorrel::raw::cubemap_indices(cells, &mut numbers, &mut [0]);
    assert!(made == 1, "{cells} cells");
    numbers
}

fn rust_cube(cells: u32) -> Vec<u16> {
    let mut numbers = vec![0; indices_needed(cells)];
    pano::cubemap_indices(cells, &mut numbers).expect("usable cells");
    numbers
}
