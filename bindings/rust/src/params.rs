//! What names a row, and what is put into one.
use crate::{record, ToValue};

/// Who cannot implement the traits of this file.
mod sealed {
    pub trait Params {}
    pub trait RowName {}
}

/// The values of a row or of a key, one a column, as rusqlite's `Params`: a tuple of up to twelve, an array
/// or a slice of what is taken for a value ([`ToValue`]).
///
/// ```
/// use changecap::{Batch, Cause, Value};
/// let mut batch = Batch::new()?;
/// batch.insert("t", (1, "x", None::<i64>), Cause::Direct)?;
/// batch.insert("t", [1, 2, 3], Cause::Direct)?;
/// batch.insert("t", &[Value::Integer(1), "x".into(), Value::Null], Cause::Direct)?;
/// # Ok::<(), changecap::Error>(())
/// ```
pub trait Params: sealed::Params {
    /// Puts the values behind a record.
    #[doc(hidden)]
    fn put(&self, record: &mut Vec<u8>);
}

/// The name of a row: its key, which is a value for each column in the primary key ([`Params`]), or its
/// [`RowId`].
///
/// ```
/// use changecap::{Batch, Cause, RowId};
/// let mut batch = Batch::new()?;
/// batch.delete("t", (1,), Cause::Direct)?;
/// batch.delete("t", RowId(1), Cause::Direct)?;
/// # Ok::<(), changecap::Error>(())
/// ```
pub trait RowName: sealed::RowName {
    /// Puts the key behind a record, and answers the id, or 0.
    #[doc(hidden)]
    fn put_name(&self, record: &mut Vec<u8>) -> u64;
}

/// The id of a row that has no key, from 1 on, as SQLite's rowid of a row that a session does not record.
///
/// ```
/// use changecap::{Batch, Cause, RowId, Server};
/// let client = Server::open_in_memory()?.client()?;
/// client.create_table("t", &[true, false])?;
/// let mut batch = Batch::new()?;
/// batch.insert("t", (None::<i64>, "x"), Cause::Direct)?;
/// client.commit(&mut batch)?;
/// let row = client.snapshot()?.get("t", RowId(1))?.unwrap();
/// assert_eq!(row.id(), Some(RowId(1)));
/// # Ok::<(), changecap::Error>(())
/// ```
#[derive(Clone, Copy, Debug, PartialEq, Eq, Hash)]
pub struct RowId(pub u64);

impl<T: ToValue> sealed::Params for [T] {}
impl<T: ToValue> Params for [T] {
    fn put(&self, record: &mut Vec<u8>) {
        self.iter().for_each(|value| record::put(record, value.to_value()));
    }
}

impl<T: ToValue, const N: usize> sealed::Params for [T; N] {}
impl<T: ToValue, const N: usize> Params for [T; N] {
    fn put(&self, record: &mut Vec<u8>) {
        self[..].put(record);
    }
}

impl<P: Params + ?Sized> sealed::Params for &P {}
impl<P: Params + ?Sized> Params for &P {
    fn put(&self, record: &mut Vec<u8>) {
        (**self).put(record);
    }
}

macro_rules! tuples {
    ($(($($name:ident)*))*) => {$(
        impl<$($name: ToValue),*> sealed::Params for ($($name,)*) {}
        impl<$($name: ToValue),*> Params for ($($name,)*) {
            #[allow(non_snake_case)]
            fn put(&self, record: &mut Vec<u8>) {
                let ($($name,)*) = self;
                $(record::put(record, $name.to_value());)*
            }
        }
    )*};
}

tuples! {
    (A)
    (A B)
    (A B C)
    (A B C D)
    (A B C D E)
    (A B C D E F)
    (A B C D E F G)
    (A B C D E F G H)
    (A B C D E F G H I)
    (A B C D E F G H I J)
    (A B C D E F G H I J K)
    (A B C D E F G H I J K L)
}

impl<P: Params> sealed::RowName for P {}
impl<P: Params> RowName for P {
    fn put_name(&self, record: &mut Vec<u8>) -> u64 {
        self.put(record);
        0
    }
}

impl sealed::RowName for RowId {}
impl RowName for RowId {
    fn put_name(&self, _: &mut Vec<u8>) -> u64 {
        self.0
    }
}

/// The record of a row or of a key.
pub(crate) fn record_of(values: impl Params) -> Vec<u8> {
    let mut record = Vec::new();
    values.put(&mut record);
    record
}

/// The record of the key of a row, and its id, or 0.
pub(crate) fn name_of(row: impl RowName) -> (Vec<u8>, u64) {
    let mut key = Vec::new();
    let id = row.put_name(&mut key);
    (key, id)
}
