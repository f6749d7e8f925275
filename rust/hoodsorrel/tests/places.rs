//! Cursors and runs at places past every end: they are answered, and nothing panics.

use hoodsorrel::Refusal;
use hoodsorrel::bits::*;

const DATA: [u8; 5] = [1, 2, 3, 4, 5];

/// Past the data, around half of the largest place, and the largest ones.
fn places() -> impl Iterator<Item = usize> {
    let middle = usize::MAX / 8;
    (6..60)
        .chain(middle - 20..middle + 20)
        .chain(usize::MAX - 40..=usize::MAX)
}

#[test]
fn bytes() {
    for at in places() {
        let cursor = ByteCursor { at };
        assert_eq!(cursor.position(), at);
        assert_eq!(cursor.remaining(&DATA), 0);
        assert_eq!(cursor.u8(&DATA), Err(Refusal::TooFewBytes));
        assert_eq!(cursor.u32(&DATA), Err(Refusal::TooFewBytes));
        assert_eq!(cursor.seek(&DATA, at), Err(Refusal::TooFewBytes));
        assert_eq!(cursor.seek(&DATA, 5), Ok(ByteCursor { at: 5 }));
        assert_eq!(box_header(&DATA, cursor), Ok(None));
        for n in places() {
            assert_eq!(cursor.skip(&DATA, n), Err(Refusal::TooFewBytes));
        }
    }
}

#[test]
fn bits() {
    for bit in places().filter(|bit| *bit > 40) {
        let cursor = BitCursor { bit };
        for width in 1..=32 {
            assert_eq!(cursor.read(&DATA, width), Err(Refusal::TooFewBytes));
            assert_eq!(cursor.read_two(&DATA, width), Err(Refusal::TooFewBytes));
        }
        for width in [33, 34, u32::MAX] {
            assert_eq!(cursor.read(&DATA, width), Err(Refusal::FieldWidth));
            assert_eq!(cursor.read_two(&DATA, width), Err(Refusal::FieldWidth));
        }
        assert_eq!(cursor.read(&DATA, 0), Ok((0, cursor)));
        assert_eq!(cursor.read_two(&DATA, 0), Ok((0, 0, cursor)));
        assert!(cursor.align_to_byte() >= cursor);
        assert!(BitCursor::new(bit).bit >= bit);
    }
}

#[test]
fn runs() {
    for bit in places().filter(|bit| *bit > 40) {
        for count in [1, u32::MAX] {
            for limit in [0, 1, u16::MAX] {
                let run = Run { bit, limit, count };
                assert_eq!(check_run(&DATA, run), Err(Refusal::TooFewBytes));
                assert_eq!(check_fives(&DATA, run), Err(Refusal::TooFewBytes));
            }
        }
        for width in [0, 1, 16, 17, u32::MAX] {
            let mut out = [7; 5];
            assert!(!fill_run(&DATA, bit, width, 0, &mut out));
            assert!(!fill_fives(&DATA, bit, width, &mut out));
            assert_eq!(out, [7; 5]);
        }
    }
}

/// Every number that a field may be, at the ends of its range.
#[test]
fn numbers() {
    assert_eq!(zigzag(u32::MAX), i32::MIN);
    assert_eq!(zigzag(u32::MAX - 1), i32::MAX);
    assert_eq!(bit_width(0), 0);
    assert_eq!(bit_width(u32::MAX), 33);
    assert_eq!(
        run_on(u32::MAX, u32::MAX - 1, u32::MAX),
        Err(Refusal::RunningNumber)
    );
    assert_eq!(run_on(u32::MAX, u32::MAX, u32::MAX), Ok(0x7FFF_FFFF));
    assert_eq!(stepped(u32::MAX, u32::MAX - 1), 0x1_7FFF_FFFE);
    assert_eq!(nearest_f32(u32::MAX), 4_294_967_296.0);
    assert_eq!(scale(u32::MAX), 1.0);
    assert_eq!(float_bits(-0.0), 0x8000_0000);
    assert_eq!(word_of(0xFF, 0, 0, 0xFE), 0xFF00_00FE);
}
