//! The sides that a list of triangles walks, and which way round: in rows and columns, and in space.

use std::collections::BTreeSet;
use std::iter::once;

use reference::pano::VERTEX_FLOATS;

/// From one vertex to another.
pub type Side = (u16, u16);

/// A grid of cells whose vertices are numbered row by row, from `first` on.
#[derive(Clone, Copy)]
pub struct Grid {
    pub first: u16,
    pub rows: u16,
    pub columns: u16,
}

/// Which way the triangles go: with rows downward and columns to the right, counter-clockwise or clockwise.
#[derive(Clone, Copy, PartialEq)]
pub enum Way {
    CounterClockwise,
    Clockwise,
}

impl Grid {
    fn vertex(self, row: u16, column: u16) -> u16 {
        let at = u32::from(row) * (u32::from(self.columns) + 1) + u32::from(column);
        self.first + at as u16
    }

    /// Row and column of a vertex, or none where it is not of this grid.
    fn place(self, vertex: u16) -> Option<(i64, i64)> {
        let at = i64::from(vertex) - i64::from(self.first);
        let (rows, columns) = (i64::from(self.rows) + 1, i64::from(self.columns) + 1);
        (0..rows * columns)
            .contains(&at)
            .then_some((at / columns, at % columns))
    }

    /// Sides along a row, along a column and across a cell, but for the border; each the one way.
    fn inside(self) -> impl Iterator<Item = Side> {
        let (rows, columns) = (self.rows, self.columns);
        let cells = move || (0..rows).flat_map(move |r| (0..columns).map(move |c| (r, c)));
        let along_rows = cells()
            .filter(|&(r, _)| r > 0)
            .map(|(r, c)| ((r, c), (r, c + 1)));
        let along_columns = cells()
            .filter(|&(_, c)| c > 0)
            .map(|(r, c)| ((r, c), (r + 1, c)));
        let across = cells().map(|(r, c)| ((r, c), (r + 1, c + 1)));
        along_rows
            .chain(along_columns)
            .chain(across)
            .map(move |(p, q)| (self.vertex(p.0, p.1), self.vertex(q.0, q.1)))
    }

    /// The border, counter-clockwise: down the first column, and so on.
    fn border(self) -> impl Iterator<Item = Side> {
        let (rows, columns) = (self.rows, self.columns);
        let down = (0..rows).map(|r| ((r, 0), (r + 1, 0)));
        let right = (0..columns).map(move |c| ((rows, c), (rows, c + 1)));
        let up = (0..rows).map(move |r| ((r + 1, columns), (r, columns)));
        let left = (0..columns).map(|c| ((0, c + 1), (0, c)));
        down.chain(right)
            .chain(up)
            .chain(left)
            .map(move |(p, q)| (self.vertex(p.0, p.1), self.vertex(q.0, q.1)))
    }
}

fn back((p, q): Side) -> Side {
    (q, p)
}

fn triangles(numbers: &[u16]) -> impl Iterator<Item = [u16; 3]> + '_ {
    numbers.chunks_exact(3).map(|t| [t[0], t[1], t[2]])
}

/// Each side as often as it is walked.
fn walked(numbers: &[u16]) -> Vec<Side> {
    triangles(numbers)
        .flat_map(|[a, b, c]| [(a, b), (b, c), (c, a)])
        .collect()
}

/// How many walks repeat an earlier one.
pub fn repeated(numbers: &[u16]) -> usize {
    let walked = walked(numbers);
    walked.len() - walked.iter().collect::<BTreeSet<_>>().len()
}

/// How many sides are walked more or less often than is due: inside once each way, the border once, the way round that
/// is named, and nothing else.
pub fn astray(numbers: &[u16], grids: &[Grid], way: Way) -> usize {
    let mut due: Vec<Side> = Vec::new();
    for grid in grids {
        due.extend(
            grid.inside()
                .flat_map(|side| once(side).chain(once(back(side)))),
        );
        due.extend(grid.border().map(|side| match way {
            Way::CounterClockwise => side,
            Way::Clockwise => back(side),
        }));
    }
    let mut walked = walked(numbers);
    walked.sort_unstable();
    due.sort_unstable();
    unmatched(&walked, &due)
}

/// How many items of two sorted lists are in one of them alone.
fn unmatched(mut a: &[Side], mut b: &[Side]) -> usize {
    let mut count = 0;
    while let ([x, after_x @ ..], [y, after_y @ ..]) = (a, b) {
        count += usize::from(x != y);
        a = if x <= y { after_x } else { a };
        b = if y <= x { after_y } else { b };
    }
    count + a.len() + b.len()
}

/// How many triangles are not half a cell of one of the grids, the way round that is named.
pub fn turned(numbers: &[u16], grids: &[Grid], way: Way) -> usize {
    let due = match way {
        Way::CounterClockwise => 1,
        Way::Clockwise => -1,
    };
    triangles(numbers)
        .filter(|corners| {
            !grids
                .iter()
                .any(|grid| twice_the_area(*grid, *corners) == Some(due))
        })
        .count()
}

/// In cells, above 0 where it goes counter-clockwise, rows being downward; none where the corners are not of one cell of
/// the grid.
fn twice_the_area(grid: Grid, [a, b, c]: [u16; 3]) -> Option<i64> {
    let (a, b, c) = (grid.place(a)?, grid.place(b)?, grid.place(c)?);
    let near = |p: (i64, i64), q: (i64, i64)| (p.0 - q.0).abs() <= 1 && (p.1 - q.1).abs() <= 1;
    (near(a, b) && near(b, c) && near(c, a))
        .then_some((b.0 - a.0) * (c.1 - a.1) - (b.1 - a.1) * (c.0 - a.0))
}

/// How many triangles show a viewer at the centre their backs, or their edges: counter-clockwise being the front.
pub fn backs(numbers: &[u16], vertices: &[f32]) -> usize {
    let point = |vertex: u16| {
        let at = usize::from(vertex) * VERTEX_FLOATS;
        [0, 1, 2].map(|i| f64::from(vertices[at + i]))
    };
    triangles(numbers)
        .filter(|corners| {
            let [a, b, c] = corners.map(point);
            dot(cross(minus(b, a), minus(c, a)), a) >= 0.0
        })
        .count()
}

fn minus(a: [f64; 3], b: [f64; 3]) -> [f64; 3] {
    [a[0] - b[0], a[1] - b[1], a[2] - b[2]]
}

fn cross(a: [f64; 3], b: [f64; 3]) -> [f64; 3] {
    [
        a[1] * b[2] - a[2] * b[1],
        a[2] * b[0] - a[0] * b[2],
        a[0] * b[1] - a[1] * b[0],
    ]
}

fn dot(a: [f64; 3], b: [f64; 3]) -> f64 {
    a[0] * b[0] + a[1] * b[1] + a[2] * b[2]
}

#[cfg(test)]
mod tests {
    use super::{astray, repeated, turned, unmatched, Grid, Way};

    /// Two cells side by side, 0 1 2 above 3 4 5.
    const GRID: Grid = Grid {
        first: 0,
        rows: 1,
        columns: 2,
    };
    const GOOD: [u16; 12] = [0, 4, 1, 0, 3, 4, 1, 5, 2, 1, 4, 5];

    fn faults(numbers: &[u16], way: Way) -> [usize; 3] {
        let grids = [GRID];
        [
            repeated(numbers),
            astray(numbers, &grids, way),
            turned(numbers, &grids, way),
        ]
    }

    fn changed(changes: &[(usize, u16)]) -> Vec<u16> {
        let mut numbers = GOOD.to_vec();
        for (at, vertex) in changes {
            numbers[*at] = *vertex;
        }
        numbers
    }

    #[test]
    fn a_good_list_has_no_fault() {
        assert_eq!(faults(&GOOD, Way::CounterClockwise), [0; 3]);
    }

    #[test]
    fn a_list_turned_as_a_whole_has_its_border_astray() {
        assert_eq!(faults(&GOOD, Way::Clockwise), [0, 12, 4]);
    }

    #[test]
    fn a_triangle_turned_walks_its_neighbours_sides() {
        let numbers = changed(&[(1, 1), (2, 4)]);
        assert_eq!(faults(&numbers, Way::CounterClockwise), [2, 6, 1]);
    }

    #[test]
    fn a_cell_turned_walks_a_neighbours_side() {
        let numbers = changed(&[(1, 1), (2, 4), (4, 4), (5, 3)]);
        assert_eq!(faults(&numbers, Way::CounterClockwise), [1, 8, 2]);
    }

    #[test]
    fn the_other_diagonal_in_one_triangle_is_no_side() {
        let numbers = changed(&[(3, 1)]);
        assert_eq!(faults(&numbers, Way::CounterClockwise), [1, 4, 0]);
    }

    #[test]
    fn half_a_cells_area_over_two_cells_is_no_half_cell() {
        let numbers = changed(&[(1, 5)]);
        assert_eq!(faults(&numbers, Way::CounterClockwise), [1, 4, 1]);
    }

    #[test]
    fn items_of_one_list_alone_are_counted() {
        assert_eq!(unmatched(&[(0, 1), (0, 1), (2, 3)], &[(0, 1), (1, 1)]), 3);
        assert_eq!(unmatched(&[], &[(0, 1)]), 1);
    }
}
