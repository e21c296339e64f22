//! Records: a row, a key and the new values of an update as bytes, the fields one after the other as a
//! changeset has them (docs/manual/formats.md, "Changeset").
use crate::{ffi, ToValue, ValueRef};

/// The first column that no table has.
const NO_COLUMN: usize = 2_000;

/// Puts a number behind a record: groups of seven bits, the most significant first.
fn put_varint(record: &mut Vec<u8>, number: usize) {
    let groups = (number.max(1).ilog2() / 7) as usize;
    for group in (1..=groups).rev() {
        record.push((number >> (7 * group)) as u8 | 0x80);
    }
    record.push(number as u8 & 0x7f);
}

/// Puts the bytes of a text or of a blob behind a record.
fn put_bytes(record: &mut Vec<u8>, kind: u32, bytes: &[u8]) {
    record.push(kind as u8);
    put_varint(record, bytes.len());
    record.extend_from_slice(bytes);
}

/// Puts a value behind a record.
pub(crate) fn put(record: &mut Vec<u8>, value: ValueRef<'_>) {
    match value {
        ValueRef::Integer(number) => {
            record.push(ffi::INTEGER as u8);
            record.extend_from_slice(&number.to_be_bytes());
        }
        ValueRef::Text(text) => put_bytes(record, ffi::TEXT, text.as_bytes()),
        ValueRef::Blob(blob) => put_bytes(record, ffi::BLOB, blob),
        ValueRef::Null => record.push(ffi::NULL as u8),
    }
}

/// The record of the new values of an update. One that names a column twice is made one of a column that no
/// table has, which is refused with the same number, E4.
pub(crate) fn of_assignments<V: ToValue>(set: &[(usize, V)]) -> Vec<u8> {
    let mut fields: Vec<Option<ValueRef<'_>>> = Vec::new();
    for (column, value) in set {
        let is_set = fields.get(*column).is_some_and(Option::is_some);
        let column = if is_set { NO_COLUMN } else { NO_COLUMN.min(*column) };
        fields.resize(fields.len().max(column + 1), None);
        fields[column] = Some(value.to_value());
    }
    let mut record = Vec::new();
    for field in fields {
        match field {
            Some(value) => put(&mut record, value),
            None => record.push(ffi::UNDEFINED as u8),
        }
    }
    record
}

/// A record that was read: a row, a key, or one side of a change. It lends its values.
#[derive(Clone, Debug, Default, PartialEq, Eq)]
pub(crate) struct Record {
    bytes: Box<[u8]>,
    /// Where each field begins.
    starts: Box<[usize]>,
}

impl Record {
    /// The record with these bytes, or none where they are no record.
    pub(crate) fn of(bytes: &[u8]) -> Option<Record> {
        let (mut starts, mut rest) = (Vec::new(), bytes);
        while !rest.is_empty() {
            starts.push(bytes.len() - rest.len());
            (_, rest) = first_field(rest)?;
        }
        Some(Record { bytes: bytes.into(), starts: starts.into() })
    }

    /// How many fields there are.
    pub(crate) fn len(&self) -> usize {
        self.starts.len()
    }

    /// The value of a field, or none where it is undefined or there is no such field.
    pub(crate) fn get(&self, at: usize) -> Option<ValueRef<'_>> {
        first_field(&self.bytes[*self.starts.get(at)?..])?.0
    }
}

/// The value of the first field of a record, or none where it is undefined, and what is behind the field. None
/// of both where the bytes are no record.
fn first_field(record: &[u8]) -> Option<(Option<ValueRef<'_>>, &[u8])> {
    let (kind, rest) = record.split_first()?;
    match u32::from(*kind) {
        ffi::UNDEFINED => Some((None, rest)),
        ffi::NULL => Some((Some(ValueRef::Null), rest)),
        ffi::INTEGER => {
            let (number, rest) = rest.split_first_chunk()?;
            Some((Some(ValueRef::Integer(i64::from_be_bytes(*number))), rest))
        }
        ffi::TEXT => {
            let (text, rest) = first_bytes(rest)?;
            Some((Some(ValueRef::Text(std::str::from_utf8(text).ok()?)), rest))
        }
        ffi::BLOB => {
            let (blob, rest) = first_bytes(rest)?;
            Some((Some(ValueRef::Blob(blob)), rest))
        }
        _ => None,
    }
}

/// The bytes of a text or of a blob, behind a varint of how many they are, and what is behind them.
fn first_bytes(record: &[u8]) -> Option<(&[u8], &[u8])> {
    let (mut len, mut rest) = (0usize, record);
    loop {
        let (group, behind) = rest.split_first()?;
        len = len.checked_mul(0x80)? | usize::from(group & 0x7f);
        rest = behind;
        if group & 0x80 == 0 {
            return rest.split_at_checked(len);
        }
    }
}

#[cfg(test)]
mod tests {
    use super::*;
    use crate::Value;

    fn of_values(values: &[Value]) -> Vec<u8> {
        let mut record = Vec::new();
        values.iter().for_each(|value| put(&mut record, value.into()));
        record
    }

    fn values_of(record: &[u8]) -> Option<Vec<Option<Value>>> {
        let record = Record::of(record)?;
        Some((0..record.len()).map(|at| record.get(at).map(Value::from)).collect())
    }

    #[test]
    fn varints() {
        for (number, bytes) in [
            (0, &[0u8][..]),
            (1, &[1]),
            (127, &[0x7f]),
            (128, &[0x81, 0]),
            (300, &[0x82, 0x2c]),
            (2_000, &[0x8f, 0x50]),
            (16_383, &[0xff, 0x7f]),
            (16_384, &[0x81, 0x80, 0]),
            (1_000_000_000, &[0x83, 0xdc, 0xeb, 0x94, 0]),
        ] {
            let mut record = Vec::new();
            put_varint(&mut record, number);
            assert_eq!(record, bytes);
        }
    }

    #[test]
    fn rows() {
        let row = [
            Value::Integer(-2),
            Value::Text("x".into()),
            Value::Null,
            Value::Blob(vec![0, 255]),
            Value::Text("ä".repeat(100)),
            Value::Integer(i64::MAX),
            Value::Text(String::new()),
        ];
        let record = of_values(&row);
        assert_eq!(record[..17], [1, 255, 255, 255, 255, 255, 255, 255, 254, 3, 1, b'x', 5, 4, 2, 0, 255]);
        assert_eq!(record[17..20], [3, 0x81, 0x48]);
        assert_eq!(values_of(&record).unwrap(), row.map(Some));
        assert_eq!(values_of(&[]), Some(Vec::new()));
        assert_eq!(values_of(&[0, 5, 0]), Some(vec![None, Some(Value::Null), None]));
        assert_eq!(Record::of(&[0, 5]).unwrap().get(2), None);
        for no_record in [&[2u8][..], &[6], &[1, 0], &[3], &[3, 1], &[3, 1, 255], &[4, 0x81], &[3, 2, b'x']] {
            assert_eq!(values_of(no_record), None);
        }
    }

    #[test]
    fn new_values() {
        let one = || Value::Integer(1);
        assert_eq!(of_assignments::<Value>(&[]), []);
        assert_eq!(of_assignments(&[(2, Value::Null), (0, Value::Null)]), [5, 0, 5]);
        for set in [&[(1, one()), (1, one())][..], &[(2_000, one())], &[(usize::MAX, one())]] {
            let record = of_assignments(set);
            assert_eq!(record[record.len() - 9..], of_values(&[one()]));
            assert_eq!(record.len(), set.len() * 8 + 2_001);
        }
    }
}
