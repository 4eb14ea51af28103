//! Run files, record by record, and the text of a file.

/// A total or an amount as a file spells it: a number in a narrow file, a flag
/// byte and a number in a wide one.
pub trait Spelled {
    fn bytes(self) -> Vec<u8>;
}

impl Spelled for u16 {
    fn bytes(self) -> Vec<u8> {
        self.to_be_bytes().to_vec()
    }
}

impl Spelled for (u8, u32) {
    fn bytes(self) -> Vec<u8> {
        [&[self.0], &self.1.to_be_bytes()[..]].concat()
    }
}

pub fn tb(k: u8) -> Vec<u8> {
    vec![b'T', b'B', k]
}

/// The first record of a wide file.
pub fn tw(k: u8) -> Vec<u8> {
    vec![b'T', b'W', k]
}

pub fn cl(cell: u16, key: u16, total: impl Spelled) -> Vec<u8> {
    let mut record = b"CL".to_vec();
    for number in [cell, key] {
        record.extend(number.to_be_bytes());
    }
    record.extend(total.bytes());
    record
}

pub fn op(kind: u8, key: u16, amount: impl Spelled) -> Vec<u8> {
    let mut record = vec![b'O', b'P', kind];
    record.extend(key.to_be_bytes());
    record.extend(amount.bytes());
    record
}

pub fn sc(entries: &[u8]) -> Vec<u8> {
    let mut record = vec![b'S', b'C', u8::try_from(entries.len()).unwrap()];
    record.extend(entries);
    record
}

/// What roomrun writes for the bytes.
pub fn text(file: &[u8]) -> String {
    // Something stands in the buffer already: the text is appended to it.
    let mut out = b"before ".to_vec();
    model::report(file, &mut out);
    let text = String::from_utf8(out).unwrap();
    String::from(text.strip_prefix("before ").unwrap())
}
