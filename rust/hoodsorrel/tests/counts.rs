//! The four counts against exact arithmetic, on numbers around every limit: up to 2^64, and up to 2^63 in `viewer`.

use hoodsorrel::{Refusal, payload, viewer};

/// The exact count where it is below a limit.
fn below(limit: u128, exact: u128) -> Result<u64, Refusal> {
    if exact < limit {
        Ok(exact as u64)
    } else {
        Err(Refusal::CountTooLarge)
    }
}

/// Holds both calls of a count to the exact one.
fn check(payload: Result<u64, Refusal>, viewer: Result<u64, Refusal>, exact: u128) {
    assert_eq!(payload, below(1 << 64, exact));
    assert_eq!(viewer, below(1 << 63, exact));
}

/// Around 0, the powers of two and the largest number.
fn numbers() -> Vec<u32> {
    let powers = (0..32).map(|k| 1u32 << k).chain([0, u32::MAX]);
    let near = powers.flat_map(|n| (0..5).map(move |d| n.wrapping_add(d).wrapping_sub(2)));
    near.collect()
}

/// The last cells whose count is below a limit, and their neighbours.
fn around_last(limit: u128, count: impl Fn(u128) -> u128) -> impl Iterator<Item = u32> {
    let (mut last, mut past) = (0u32, u32::MAX);
    while past - last > 1 {
        let middle = last + (past - last) / 2;
        if count(u128::from(middle)) < limit {
            last = middle;
        } else {
            past = middle;
        }
    }
    last - 2..=last + 2
}

#[test]
fn sphere() {
    for rings in numbers() {
        for sectors in numbers() {
            let (r, s) = (u128::from(rings), u128::from(sectors));
            check(
                payload::vertex_count(rings, sectors),
                viewer::vertex_count(rings, sectors),
                (r + 1) * (s + 1),
            );
            check(
                payload::index_count(rings, sectors),
                viewer::index_count(rings, sectors),
                if rings < 2 { 0 } else { 6 * r * s },
            );
        }
    }
}

#[test]
fn cube() {
    let vertices = |c: u128| 6 * (c + 1) * (c + 1);
    let indices = |c: u128| 36 * c * c;
    let limits = [1 << 63, 1 << 64]
        .into_iter()
        .flat_map(|limit| around_last(limit, vertices).chain(around_last(limit, indices)));
    for cells in limits.chain(numbers()) {
        let c = u128::from(cells);
        check(
            payload::cubemap_vertex_count(cells),
            viewer::cubemap_vertex_count(cells),
            vertices(c),
        );
        check(
            payload::cubemap_index_count(cells),
            viewer::cubemap_index_count(cells),
            indices(c),
        );
    }
}

/// The tests above must meet both sides of 2^63 and of 2^64.
#[test]
fn limits_are_met() {
    let most = u32::MAX;
    assert_eq!(
        viewer::vertex_count(most, 0x7FFF_FFFE),
        Ok(0x7FFF_FFFF << 32)
    );
    assert_eq!(
        viewer::vertex_count(most, 0x7FFF_FFFF),
        Err(Refusal::CountTooLarge)
    );
    assert_eq!(
        payload::vertex_count(most, most - 1),
        Ok(u64::from(most) << 32)
    );
    assert_eq!(
        payload::vertex_count(most, most),
        Err(Refusal::CountTooLarge)
    );
}
