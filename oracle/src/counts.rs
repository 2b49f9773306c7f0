//! The two counts that a step's word is followed by. The Rust has neither: they are
//! counted here, from the bytes that its writer has written.

/// Of an output of whole items.
#[derive(Debug, Default, Clone, Copy, PartialEq, Eq)]
pub struct Counts {
    /// Items that are references.
    pub references: u32,
    /// Bytes of prefixes, those of the paths' atoms included. `fe` and `ff` are none.
    pub prefix_bytes: u32,
}

/// An atom that begins an input: the width of its prefix, and its bytes with it. The
/// writer has no prefix of six bytes.
fn atom(input: &[u8]) -> (usize, usize) {
    let first = usize::from(input[0]);
    let (width, mark) = match first {
        0..0x80 => return (0, 1),
        0x80..0xc0 => (1, 0x80),
        0xc0..0xe0 => (2, 0xc0),
        0xe0..0xf0 => (3, 0xe0),
        0xf0..0xf8 => (4, 0xf0),
        0xf8..0xfc => (5, 0xf8),
        _ => panic!("no atom begins with {first:02x}"),
    };
    let size = input[1..width]
        .iter()
        .fold(first - mark, |size, byte| size * 256 + usize::from(*byte));
    (width, width + size)
}

/// The counts of an output.
pub fn of(output: &[u8]) -> Counts {
    let mut counts = Counts::default();
    let mut rest = output;
    while let Some(first) = rest.first() {
        let mark = usize::from(*first >= 0xfe);
        let (width, length) = match first {
            0xff => (0, 0),
            _ => atom(&rest[mark..]),
        };
        counts.references += u32::from(*first == 0xfe);
        counts.prefix_bytes += width as u32;
        rest = &rest[mark + length..];
    }
    counts
}
