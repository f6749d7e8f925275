//! Tables that are no mesh: those of one, spoiled in each way that 13 names; and in the way that 17 names.

use spell::{Tables, FIELDS, ROW};

use crate::inputs::random::Random;
use crate::mesh::words::spoil_word;

/// What is wrong afterwards, where nothing was before, and how it is done. It is done to any
/// tables, so that two can be done one after the other.
pub type Spoil = (&'static str, fn(&mut Tables, &mut Random));

const TOO_MANY_POINTS: usize = 128_001;

pub const SPOILS: [Spoil; 45] = [
    ("no pool", |t, _| t.pool.clear()),
    ("10001 pool words", |t, _| t.pool.resize(10_001, 0)),
    // 1 in 16 bits
    ("65537 pool words", |t, _| t.pool.resize(65_537, 0)),
    ("a pool that ends before a number's place", |t, _| {
        t.pool.truncate(highest(&t.coordinates))
    }),
    ("a coordinate number as large as the pool", |t, random| {
        let count = t.pool.len() as u16;
        change(&mut t.coordinates, random, |number| *number = count);
    }),
    ("coordinate number 65535", |t, random| {
        change(&mut t.coordinates, random, |number| *number = u16::MAX);
    }),
    ("no vertices", |t, _| t.coordinates.clear()),
    ("32001 vertices", |t, _| {
        t.coordinates.resize(FIELDS * 32_001, 0)
    }),
    // 1 in 16 bits
    ("65537 vertices", |t, _| {
        t.coordinates.resize(FIELDS * 65_537, 0)
    }),
    ("vertices that end before a point's place", |t, _| {
        t.coordinates.truncate(FIELDS * highest(&t.points))
    }),
    ("a coordinate number more", |t, _| t.coordinates.push(0)),
    ("2 to 4 coordinate numbers more", |t, random| {
        let more = 2 + random.below(3);
        t.coordinates.resize(t.coordinates.len() + more, 0);
    }),
    ("a coordinate number fewer", |t, _| {
        t.coordinates.pop();
    }),
    ("2 to 4 coordinate numbers fewer", |t, random| {
        let fewer = 2 + random.below(3);
        let rest = t.coordinates.len().saturating_sub(fewer);
        t.coordinates.truncate(rest);
    }),
    ("no submeshes", |t, _| t.submeshes.clear()),
    ("neither submeshes nor points", |t, _| {
        t.submeshes.clear();
        t.points.clear();
    }),
    ("a word behind the rows", |t, _| t.submeshes.push(1)),
    ("two words behind the rows", |t, _| {
        t.submeshes.extend([1, 1])
    }),
    ("the last count is missing", |t, _| {
        t.submeshes.pop();
    }),
    ("the last mode and count are missing", |t, _| {
        let rest = t.submeshes.len().saturating_sub(2);
        t.submeshes.truncate(rest);
    }),
    ("texture 256", |t, random| {
        row(t, random, |row| row[0] = 256)
    }),
    ("texture above 255, its low byte as it was", |t, random| {
        row(t, random, |row| row[0] |= 0x0100)
    }),
    ("texture 2^31", |t, random| {
        row(t, random, |row| row[0] = 1 << 31)
    }),
    ("texture 2^32 - 1", |t, random| {
        row(t, random, |row| row[0] = u32::MAX)
    }),
    ("mode 256", |t, random| row(t, random, |row| row[1] = 256)),
    ("mode above 255, its low byte as it was", |t, random| {
        row(t, random, |row| row[1] |= 0x0100)
    }),
    ("mode 2^31", |t, random| {
        row(t, random, |row| row[1] = 1 << 31)
    }),
    ("mode 2^32 - 1", |t, random| {
        row(t, random, |row| row[1] = u32::MAX)
    }),
    ("a submesh of no points", |t, random| {
        let place = ROW * random.below(t.submeshes.len() / ROW + 1);
        t.submeshes.splice(place..place, [0; ROW]);
    }),
    ("a submesh of 128001 points", |t, random| {
        let mut more = 0;
        row(t, random, |row| {
            more = TOO_MANY_POINTS.saturating_sub(row[2] as usize);
            row[2] = TOO_MANY_POINTS as u32;
        });
        t.points.resize(t.points.len() + more, 0);
    }),
    ("a count of 128001, the points as they were", |t, random| {
        row(t, random, |row| row[2] = TOO_MANY_POINTS as u32)
    }),
    ("a count of 0, the points as they were", |t, random| {
        row(t, random, |row| row[2] = 0)
    }),
    ("a count of 2^32 - 1", |t, random| {
        row(t, random, |row| row[2] = u32::MAX)
    }),
    ("a count one more", |t, random| {
        row(t, random, |row| row[2] = row[2].wrapping_add(1))
    }),
    ("a count one fewer", |t, random| {
        row(t, random, |row| row[2] = row[2].wrapping_sub(1))
    }),
    ("a submesh more, without its point", |t, _| {
        t.submeshes.extend([0, 0, 1])
    }),
    ("a submesh fewer, its points are left", |t, _| {
        let rest = t.submeshes.len().saturating_sub(ROW);
        t.submeshes.truncate(rest);
    }),
    // counts that add up to the points in 32 bits
    ("counts of 2^32 - 1 and 1 more", |t, _| {
        t.submeshes.extend([0, 0, u32::MAX, 0, 0, 1])
    }),
    ("two counts of 2^31 more", |t, _| {
        t.submeshes.extend([0, 0, 1 << 31, 0, 0, 1 << 31])
    }),
    ("counts up to 128000 that add up to 2^32 more", |t, _| {
        t.submeshes.extend([0, 0, 128_000].repeat(33_554));
        t.submeshes.extend([0, 0, 55_296]);
    }),
    ("no points", |t, _| t.points.clear()),
    ("a point more", |t, _| t.points.push(0)),
    ("a point fewer", |t, _| {
        t.points.pop();
    }),
    ("a vertex number as large as the vertices", |t, random| {
        let count = t.vertices() as u16;
        change(&mut t.points, random, |number| *number = count);
    }),
    ("vertex number 65535", |t, random| {
        change(&mut t.points, random, |number| *number = u16::MAX);
    }),
];

/// What 17 names. Where another is done too, 13 comes first.
pub const WORD: Spoil = ("a word that is not finite", |t, random| {
    spoil_word(random, &mut t.pool)
});

/// Each number as large as what it indexes, each texture and mode 256, and each count 0 and 128001.
pub fn every_place(tables: &Tables, mut each: impl FnMut(&Tables)) {
    let mut spoiled = tables.clone();
    for place in 0..tables.coordinates.len() {
        spoiled.coordinates[place] = tables.pool.len() as u16;
        each(&spoiled);
        spoiled.coordinates[place] = tables.coordinates[place];
    }
    for place in 0..tables.points.len() {
        spoiled.points[place] = tables.vertices() as u16;
        each(&spoiled);
        spoiled.points[place] = tables.points[place];
    }
    for place in 0..tables.submeshes.len() {
        let others = [&[256][..], &[256], &[0, TOO_MANY_POINTS as u32]][place % ROW];
        for &other in others {
            spoiled.submeshes[place] = other;
            each(&spoiled);
        }
        spoiled.submeshes[place] = tables.submeshes[place];
    }
}

fn highest(numbers: &[u16]) -> usize {
    numbers.iter().copied().max().unwrap_or(0).into()
}

/// Changes the first number, the last or any, if there is one.
fn change(numbers: &mut [u16], random: &mut Random, change: impl FnOnce(&mut u16)) {
    if let Some(place) = any_place(random, numbers.len()) {
        change(&mut numbers[place]);
    }
}

/// The same with a row of the submesh table.
fn row(tables: &mut Tables, random: &mut Random, change: impl FnOnce(&mut [u32])) {
    if let Some(place) = any_place(random, tables.submeshes.len() / ROW) {
        change(&mut tables.submeshes[ROW * place..][..ROW]);
    }
}

fn any_place(random: &mut Random, count: usize) -> Option<usize> {
    let last = count.checked_sub(1)?;
    let any = random.below(count);
    Some(random.pick(&[0, last, any]))
}
