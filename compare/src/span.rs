//! A row of the span table, as crashlog.h has it.

/// The numbers of a row.
pub const WORDS: usize = 10;

/// The parent of a row at the top.
pub const NO_PARENT: u32 = u32::MAX;

/// The die of a row whose header has none.
pub const NO_DIE: u32 = u32::MAX;

#[derive(Clone, Copy, Debug, PartialEq, Eq)]
pub struct Span {
    pub level: u32,
    pub parent: u32,
    pub offset: u32,
    pub held: u32,
    pub declared: u32,
    pub header_size: u32,
    pub version: u32,
    pub socket: u32,
    pub die: u32,
    pub flags: u32,
}

impl Span {
    /// The row's numbers in order.
    pub fn numbers(&self) -> [u32; WORDS] {
        let Span { level, parent, offset, held, declared, header_size, version, socket, die, flags } = *self;
        [level, parent, offset, held, declared, header_size, version, socket, die, flags]
    }

    /// The row of those numbers.
    pub fn of(numbers: [u32; WORDS]) -> Span {
        let [level, parent, offset, held, declared, header_size, version, socket, die, flags] = numbers;
        Span { level, parent, offset, held, declared, header_size, version, socket, die, flags }
    }
}

fn row_in(bytes: &[u8]) -> Span {
    let number = |bytes: &[u8]| u32::from_le_bytes(bytes.try_into().unwrap());
    Span::of(std::array::from_fn(|at| number(&bytes[4 * at..4 * at + 4])))
}

/// The rows that the bytes of a table hold.
pub fn rows_in(table: &[u8]) -> Vec<Span> {
    table.chunks_exact(4 * WORDS).map(row_in).collect()
}

/// The same where a number stands before each row.
pub fn received_in(rows: &[u8]) -> Vec<Span> {
    rows.chunks_exact(4 * (1 + WORDS)).map(|row| row_in(&row[4..])).collect()
}
