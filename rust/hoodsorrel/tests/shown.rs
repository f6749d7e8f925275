//! Lists of shown submeshes: the order, the total, and what a refusal leaves.

use hoodsorrel::Refusal;
use hoodsorrel::display::Shown;

/// So many records, number n of n + 1 points.
fn records(count: u32) -> Vec<u32> {
    (1..=count)
        .flat_map(|points| [0, 0, 0, 0, points])
        .collect()
}

fn showing(numbers: &[u32], records: &[u32]) -> Shown {
    let mut shown = Shown::none();
    for &number in numbers {
        shown
            .show(number, records)
            .expect("a record that is not shown");
    }
    shown
}

/// The list, with what stands behind its numbers.
fn whole(shown: &Shown) -> ([u32; 64], u32, u64) {
    (shown.entries, shown.count, shown.total)
}

#[test]
fn the_order_is_that_of_showing() {
    let records = records(5);
    let mut shown = showing(&[3, 0, 4, 1], &records);
    assert_eq!((shown.numbers(), shown.total), (&[3, 0, 4, 1][..], 12));
    shown.hide(0, &records).expect("a number that is shown");
    assert_eq!((shown.numbers(), shown.total), (&[3, 4, 1][..], 11));
    shown.show(0, &records).expect("a number that is hidden");
    assert_eq!((shown.numbers(), shown.total), (&[3, 4, 1, 0][..], 12));
}

#[test]
fn what_stands_behind_the_count_stays() {
    let records = records(5);
    let mut shown = showing(&[3, 0, 4], &records);
    shown.hide(3, &records).expect("a number that is shown");
    assert_eq!(shown.entries[..4], [0, 4, 4, 0]);
    shown.show(4, &records).expect_err("it is shown");
    shown.hide(4, &records).expect("it is shown once");
    assert_eq!(shown.entries[..4], [0, 4, 4, 0]);
    assert_eq!((shown.numbers(), shown.total), (&[0][..], 1));
}

#[test]
fn equal_by_what_is_shown() {
    let records = records(5);
    let mut shown = showing(&[3, 0], &records);
    shown.hide(0, &records).expect("a number that is shown");
    assert_eq!(shown, showing(&[3], &records));
    shown.hide(3, &records).expect("a number that is shown");
    assert_eq!(shown, Shown::none());
    assert_ne!(showing(&[3, 0], &records), showing(&[0, 3], &records));
    let other = Shown {
        total: 1,
        ..Shown::none()
    };
    assert_ne!(shown, other);
}

#[test]
fn a_refusal_leaves_the_list_as_it_was() {
    let records = records(65);
    let all: Vec<u32> = (0..64).collect();
    let shown = showing(&all, &records);
    for (number, refusal) in [
        (64, Refusal::ListFull),
        (7, Refusal::ListOrNumber),
        (65, Refusal::ListOrNumber),
    ] {
        let mut list = shown.clone();
        assert_eq!(list.show(number, &records), Err(refusal));
        assert_eq!(whole(&list), whole(&shown));
    }
    for (number, refusal) in [(64, Refusal::NotShown), (65, Refusal::ListOrNumber)] {
        let mut list = shown.clone();
        assert_eq!(list.hide(number, &records), Err(refusal));
        assert_eq!(whole(&list), whole(&shown));
    }
}

/// Fewer records, or records of other points.
#[test]
fn a_list_is_held_to_the_records() {
    let mut shown = showing(&[3, 0], &records(4));
    let before = whole(&shown);
    for other in [&records(3)[..], &[0; 20], &[]] {
        assert_eq!(shown.show(1, other), Err(Refusal::ListOrNumber));
        assert_eq!(shown.hide(0, other), Err(Refusal::ListOrNumber));
        assert_eq!(whole(&shown), before);
    }
}

#[test]
fn a_total_may_need_more_than_32_bits() {
    let records = [0, 0, 0, 0, u32::MAX].repeat(64);
    let all: Vec<u32> = (0..64).collect();
    let mut shown = showing(&all, &records);
    assert_eq!(shown.total, 64 * u64::from(u32::MAX));
    shown.total -= 1 << 32;
    assert_eq!(shown.hide(5, &records), Err(Refusal::ListOrNumber));
}

/// An invalid count is no place to read at.
#[test]
fn numbers_of_any_list() {
    let shown = Shown {
        count: u32::MAX,
        ..Shown::none()
    };
    assert_eq!(shown.numbers(), [0; 64]);
}
