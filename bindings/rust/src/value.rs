//! Values, and what is taken for one.
use std::fmt;

/// A value of a row that owns its bytes.
///
/// ```
/// use changecap::Value;
/// assert_eq!(Value::from(7), Value::Integer(7));
/// assert_eq!(Value::from("x"), Value::Text("x".to_string()));
/// assert_eq!(Value::from(None::<i64>), Value::Null);
/// ```
#[derive(Clone, Debug, PartialEq, Eq, Hash)]
pub enum Value {
    /// NULL.
    Null,
    /// An INTEGER.
    Integer(i64),
    /// A TEXT, of at most 1,000,000,000 bytes.
    Text(String),
    /// A BLOB, of at most 1,000,000,000 bytes.
    Blob(Vec<u8>),
}

/// A value that is lent: by a [`Row`](crate::Row), a [`Change`](crate::Change), or what is put into a row.
///
/// ```
/// use changecap::{Value, ValueRef};
/// let value = Value::Text("x".into());
/// let lent = ValueRef::from(&value);
/// assert_eq!((lent.as_str(), lent.as_i64(), lent.to_string()), (Some("x"), None, "'x'".to_string()));
/// ```
#[derive(Clone, Copy, Debug, PartialEq, Eq, Hash)]
pub enum ValueRef<'a> {
    /// NULL.
    Null,
    /// An INTEGER.
    Integer(i64),
    /// A TEXT.
    Text(&'a str),
    /// A BLOB.
    Blob(&'a [u8]),
}

impl<'a> ValueRef<'a> {
    /// The number of an INTEGER.
    pub fn as_i64(self) -> Option<i64> {
        if let ValueRef::Integer(number) = self {
            Some(number)
        } else {
            None
        }
    }

    /// The text of a TEXT.
    pub fn as_str(self) -> Option<&'a str> {
        if let ValueRef::Text(text) = self {
            Some(text)
        } else {
            None
        }
    }

    /// The bytes of a BLOB.
    pub fn as_blob(self) -> Option<&'a [u8]> {
        if let ValueRef::Blob(bytes) = self {
            Some(bytes)
        } else {
            None
        }
    }
}

/// Prints a value as a workload has it: `null`, `7`, `'x'` or `x'00ff'`.
impl fmt::Display for ValueRef<'_> {
    fn fmt(&self, f: &mut fmt::Formatter<'_>) -> fmt::Result {
        match self {
            ValueRef::Null => f.write_str("null"),
            ValueRef::Integer(number) => number.fmt(f),
            ValueRef::Text(text) => write!(f, "'{}'", text.replace('\'', "''")),
            ValueRef::Blob(bytes) => {
                f.write_str("x'")?;
                bytes.iter().try_for_each(|byte| write!(f, "{byte:02x}"))?;
                f.write_str("'")
            }
        }
    }
}

/// Prints a value as [`ValueRef`] does.
impl fmt::Display for Value {
    fn fmt(&self, f: &mut fmt::Formatter<'_>) -> fmt::Result {
        ValueRef::from(self).fmt(f)
    }
}

/// What is taken for a value, as rusqlite's `ToSql`: numbers, texts, bytes, and `None` for NULL.
///
/// ```
/// use changecap::{ToValue, ValueRef};
/// struct Name(String);
/// impl ToValue for Name {
///     fn to_value(&self) -> ValueRef<'_> {
///         self.0.to_value()
///     }
/// }
/// assert_eq!(Name("x".into()).to_value(), ValueRef::Text("x"));
/// assert_eq!(Some(true).to_value(), ValueRef::Integer(1));
/// ```
pub trait ToValue {
    /// The value, which is lent.
    fn to_value(&self) -> ValueRef<'_>;
}

/// What is made of a value, as rusqlite's `FromSql`.
///
/// ```
/// use changecap::{FromValue, ValueRef};
/// assert_eq!(u8::from_value(ValueRef::Integer(7)), Some(7));
/// assert_eq!(u8::from_value(ValueRef::Integer(-1)), None);
/// assert_eq!(Option::<String>::from_value(ValueRef::Null), Some(None));
/// ```
pub trait FromValue: Sized {
    /// What is made of the value, or none where it is of another type, or too great.
    fn from_value(value: ValueRef<'_>) -> Option<Self>;
}

macro_rules! numbers {
    ($($number:ty)*) => {$(
        impl From<$number> for Value {
            fn from(number: $number) -> Value {
                Value::Integer(number as i64)
            }
        }

        impl ToValue for $number {
            fn to_value(&self) -> ValueRef<'_> {
                ValueRef::Integer(*self as i64)
            }
        }

        impl FromValue for $number {
            fn from_value(value: ValueRef<'_>) -> Option<$number> {
                value.as_i64()?.try_into().ok()
            }
        }
    )*};
}

// No greater number than an i64 is among them.
numbers! { i8 i16 i32 i64 isize u8 u16 u32 }

macro_rules! owned_values {
    ($($given:ty, $value:ident => $made:expr;)*) => {$(
        impl From<$given> for Value {
            fn from($value: $given) -> Value {
                $made
            }
        }
    )*};
}

owned_values! {
    bool, flag => Value::Integer(flag.into());
    String, text => Value::Text(text);
    &str, text => Value::Text(text.to_owned());
    Vec<u8>, bytes => Value::Blob(bytes);
    &[u8], bytes => Value::Blob(bytes.to_owned());
}

impl<T: Into<Value>> From<Option<T>> for Value {
    fn from(value: Option<T>) -> Value {
        value.map_or(Value::Null, T::into)
    }
}

impl From<ValueRef<'_>> for Value {
    fn from(value: ValueRef<'_>) -> Value {
        match value {
            ValueRef::Null => Value::Null,
            ValueRef::Integer(number) => Value::Integer(number),
            ValueRef::Text(text) => Value::Text(text.to_owned()),
            ValueRef::Blob(bytes) => Value::Blob(bytes.to_owned()),
        }
    }
}

impl<'a> From<&'a Value> for ValueRef<'a> {
    fn from(value: &'a Value) -> ValueRef<'a> {
        match value {
            Value::Null => ValueRef::Null,
            Value::Integer(number) => ValueRef::Integer(*number),
            Value::Text(text) => ValueRef::Text(text),
            Value::Blob(bytes) => ValueRef::Blob(bytes),
        }
    }
}

macro_rules! lent_values {
    ($($given:ty, $value:ident => $lent:expr;)*) => {$(
        impl ToValue for $given {
            fn to_value(&self) -> ValueRef<'_> {
                let $value = self;
                $lent
            }
        }
    )*};
}

lent_values! {
    bool, flag => ValueRef::Integer((*flag).into());
    str, text => ValueRef::Text(text);
    String, text => ValueRef::Text(text);
    [u8], bytes => ValueRef::Blob(bytes);
    Vec<u8>, bytes => ValueRef::Blob(bytes);
    Value, value => value.into();
    ValueRef<'_>, value => *value;
}

impl<const N: usize> ToValue for [u8; N] {
    fn to_value(&self) -> ValueRef<'_> {
        ValueRef::Blob(self)
    }
}

impl<T: ToValue> ToValue for Option<T> {
    fn to_value(&self) -> ValueRef<'_> {
        self.as_ref().map_or(ValueRef::Null, T::to_value)
    }
}

impl<T: ToValue + ?Sized> ToValue for &T {
    fn to_value(&self) -> ValueRef<'_> {
        (**self).to_value()
    }
}

macro_rules! made_values {
    ($($made:ty, $value:ident => $of:expr;)*) => {$(
        impl FromValue for $made {
            fn from_value($value: ValueRef<'_>) -> Option<$made> {
                $of
            }
        }
    )*};
}

made_values! {
    bool, value => value.as_i64().map(|number| number != 0);
    String, value => value.as_str().map(str::to_owned);
    Vec<u8>, value => value.as_blob().map(<[u8]>::to_owned);
    Value, value => Some(value.into());
}

impl<T: FromValue> FromValue for Option<T> {
    fn from_value(value: ValueRef<'_>) -> Option<Option<T>> {
        if value == ValueRef::Null {
            Some(None)
        } else {
            T::from_value(value).map(Some)
        }
    }
}

#[cfg(test)]
mod tests {
    use super::*;

    #[test]
    fn texts() {
        assert_eq!(Value::Null.to_string(), "null");
        assert_eq!(Value::Integer(i64::MIN).to_string(), "-9223372036854775808");
        assert_eq!(Value::from("it's").to_string(), "'it''s'");
        assert_eq!(Value::Blob(vec![0, 255]).to_string(), "x'00ff'");
    }

    #[test]
    fn conversions() {
        let owned: [(Value, Value); 6] = [
            (7u32.into(), Value::Integer(7)),
            (true.into(), Value::Integer(1)),
            (String::from("x").into(), Value::Text("x".into())),
            (vec![1u8].into(), Value::Blob(vec![1])),
            ((&[1u8][..]).into(), Value::Blob(vec![1])),
            (Some("x").into(), Value::Text("x".into())),
        ];
        for (made, value) in owned {
            assert_eq!(made, value);
            assert_eq!(Value::from(made.to_value()), value);
            assert_eq!(Value::from_value(value.to_value()), Some(value));
        }
        assert_eq!([1u8, 2].to_value(), ValueRef::Blob(&[1, 2]));
        assert_eq!(None::<&str>.to_value(), ValueRef::Null);
        assert_eq!((i8::from_value(ValueRef::Integer(128)), i64::from_value(ValueRef::Null)), (None, None));
        assert_eq!(Option::<i64>::from_value(ValueRef::Text("x")), None);
        assert_eq!(bool::from_value(ValueRef::Integer(2)), Some(true));
        assert_eq!(Vec::<u8>::from_value(ValueRef::Blob(&[3])), Some(vec![3]));
    }
}
