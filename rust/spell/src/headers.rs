//! Headers of boxes: a size and a type, and a long size behind them where the box has one.

/// Which size a box has.
#[derive(Clone, Copy, Debug, PartialEq)]
pub enum Size {
    /// In 4 bytes before the type.
    Short,
    /// In 8 bytes behind it. The 4 bytes before it are 1.
    Long,
}

impl Size {
    /// The bytes of a header with this size.
    pub const fn header(self) -> usize {
        match self {
            Size::Short => 8,
            Size::Long => 16,
        }
    }
}

const SHORT_HEADER: usize = Size::Short.header();
const LONG_HEADER: usize = Size::Long.header();

/// The header of a box whose body has so many bytes.
pub fn header(box_type: [u8; 4], body: usize, size: Size) -> Vec<u8> {
    let whole = size.header() + body;
    match size {
        Size::Short => [(whole as u32).to_be_bytes(), box_type].concat(),
        Size::Long => long_header(box_type, whole as u64).to_vec(),
    }
}

/// A header with this long size, right or wrong.
pub fn long_header(box_type: [u8; 4], size: u64) -> [u8; LONG_HEADER] {
    let mut header = [0; LONG_HEADER];
    header[..4].copy_from_slice(&1u32.to_be_bytes());
    header[4..SHORT_HEADER].copy_from_slice(&box_type);
    header[SHORT_HEADER..].copy_from_slice(&size.to_be_bytes());
    header
}
