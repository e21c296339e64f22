//! Why the rules refuse a command.
use crate::{Action, Change, Error, RowId, Value};
use std::{error, fmt};

macro_rules! refusals {
    ($($number:literal $name:ident $when:literal)*) => {
        /// The refusals of the rules, E1 to E20 of docs/manual/rules.md ("Refusals").
        ///
        /// ```
        /// use changecap::Refusal;
        /// assert_eq!(Refusal::NoRow.to_string(), "E6 NoRow");
        /// assert_eq!((Refusal::NoRow.number(), Refusal::NoRow.name()), (6, "NoRow"));
        /// ```
        #[derive(Clone, Copy, Debug, PartialEq, Eq, Hash)]
        #[non_exhaustive]
        pub enum Refusal {
            $(#[doc = concat!("E", $number, ": ", $when, ".")] $name,)*
        }

        impl Refusal {
            /// The refusal of a number.
            pub(crate) fn of(number: u32) -> Option<Refusal> {
                match number {
                    $($number => Some(Refusal::$name),)*
                    _ => None,
                }
            }

            /// Its number, which never changes.
            pub fn number(self) -> u32 {
                match self {
                    $(Refusal::$name => $number,)*
                }
            }

            /// Whether it is of a change of an applied blob, and has the number of that.
            pub(crate) fn is_of_a_change(self) -> bool {
                matches!(self, Refusal::Aborted | Refusal::Misuse)
            }

            /// Its name.
            pub fn name(self) -> &'static str {
                match self {
                    $(Refusal::$name => stringify!($name),)*
                }
            }
        }
    };
}

refusals! {
    1 TooLong "a text or a blob has more than 1,000,000,000 bytes"
    2 BadSchema "a table is to have no column, or more than 2,000"
    3 WrongWidth "a row has more or fewer values than its table has columns"
    4 BadColumn "an update names a column outside the table, or one twice"
    5 Duplicate "another row has the primary key already"
    6 NoRow "no row has the name"
    7 IdsSpent "a row without a key is to be made, and id 2^63 - 1 was given"
    8 NoTable "no table has the name"
    9 TableExists "a table has the name already"
    10 TooMany "one more than a limit allows"
    11 Stale "the batch was made for another version, or something that its transaction looked at has changed"
    12 BadFilter "a text is no filter"
    13 TooDeep "a filter has more than 32 levels or 1,000 nodes"
    14 Incompatible "the saved table of a diff is missing, or has other columns"
    15 Aborted "an applied change met a conflict whose answer is to abort"
    16 Misuse "an applied change finds no row, and the answer is to replace it"
    17 BadName "a name is empty, longer than 255 bytes, or has a zero byte"
    18 NoSession "no live session has the number"
    19 NoDatabase "no saved database has the name"
    20 NoMark "no savepoint has the mark, or it was undone"
}

impl fmt::Display for Refusal {
    fn fmt(&self, f: &mut fmt::Formatter<'_>) -> fmt::Result {
        write!(f, "E{} {}", self.number(), self.name())
    }
}

/// A refusal, and what part of a command is refused.
///
/// ```
/// use changecap::{Batch, Cause, Error, Refusal, Server};
/// let client = Server::open_in_memory()?.client()?;
/// client.create_table("t", &[true, false])?;
/// let mut batch = Batch::new()?;
/// batch.insert("t", (1, "x"), Cause::Direct)?;
/// batch.delete("t", (2,), Cause::Direct)?;
/// let Err(Error::Refused(why)) = client.commit(&mut batch) else { panic!() };
/// assert_eq!((why.code, why.at), (Refusal::NoRow, Some(1)));
/// # Ok::<(), changecap::Error>(())
/// ```
#[derive(Clone, Debug, PartialEq, Eq)]
#[non_exhaustive]
pub struct Refused {
    /// Which refusal it is.
    pub code: Refusal,
    /// The number of the refused operation of a batch, or of the refused change of an applied blob, from 0.
    pub at: Option<usize>,
    /// The change of an applied blob that was refused.
    pub change: Option<Box<RefusedChange>>,
    /// Of a transaction that is refused with [`Refusal::Stale`], the first item that has changed.
    pub item: Option<Box<Item>>,
}

/// What a transaction looked at (docs/manual/threads.md, "Transactions").
///
/// ```
/// use changecap::{Cause, Error, Item, ItemKind, Server};
/// let client = Server::open_in_memory()?.client()?;
/// client.create_table("t", &[true, false])?;
/// let [mut first, mut second] = [client.snapshot()?.transaction()?, client.snapshot()?.transaction()?];
/// first.insert("t", (1, "x"), Cause::Direct)?;
/// second.insert("t", (1, "y"), Cause::Direct)?;
/// first.commit(&client)?;
/// let Err(Error::Refused(why)) = second.commit(&client) else { panic!() };
/// let wanted = Item { table: "t".into(), kind: ItemKind::Row(vec![1.into()]) };
/// assert_eq!(why.item.as_deref(), Some(&wanted));
/// assert_eq!(why.to_string(), "refused: E11 Stale, t key(1)");
/// # Ok::<(), changecap::Error>(())
/// ```
#[derive(Clone, Debug, PartialEq, Eq)]
pub struct Item {
    /// The name of a table.
    pub table: String,
    /// What of the table it is.
    pub kind: ItemKind,
}

/// What of its table an [`Item`] is.
///
/// ```
/// use changecap::{Cause, Error, ItemKind, Server};
/// let client = Server::open_in_memory()?.client()?;
/// client.create_table("t", &[true, false])?;
/// let [mut first, mut second] = [client.snapshot()?.transaction()?, client.snapshot()?.transaction()?];
/// first.insert("t", (1, "x"), Cause::Direct)?;
/// second.scan("t")?;
/// first.commit(&client)?;
/// let Err(Error::Refused(why)) = second.commit(&client) else { panic!() };
/// assert_eq!(why.item.unwrap().kind, ItemKind::Scan);
/// # Ok::<(), changecap::Error>(())
/// ```
#[derive(Clone, Debug, PartialEq, Eq)]
#[non_exhaustive]
pub enum ItemKind {
    /// Whether there is such a table, and its columns.
    Table,
    /// The row with this key, or that there is none.
    Row(Vec<Value>),
    /// The row with this id, or that there is none.
    RowId(RowId),
    /// All rows.
    Scan,
    /// The id that the next row without a key gets.
    NextId,
}

/// The change of an applied blob that was refused: what it does to which row.
///
/// ```
/// use changecap::{Action, Changeset, ConflictAction::Abort, Error, Server, Value};
/// let client = Server::open_in_memory()?.client()?;
/// client.create_table("t", &[true, false])?;
/// let insert = [0x54, 2, 1, 0, b't', 0, 0x12, 0, 1, 0, 0, 0, 0, 0, 0, 0, 1, 3, 1, b'x'];
/// client.apply(insert, Abort, Abort, Abort)?;
/// let Err(Error::Refused(why)) = client.apply(insert, Abort, Abort, Abort) else { panic!() };
/// let change = why.change.as_ref().unwrap();
/// assert_eq!((change.table.as_str(), change.code), ("t", Action::Insert));
/// assert_eq!(change.key, [Value::Integer(1)]);
/// assert_eq!(why.to_string(), "refused at 0: E15 Aborted, insert t key(1)");
/// # Ok::<(), changecap::Error>(())
/// ```
#[derive(Clone, Debug, PartialEq, Eq)]
#[non_exhaustive]
pub struct RefusedChange {
    /// The name of its table.
    pub table: String,
    /// What it does.
    pub code: Action,
    /// The values of the columns in the table's key.
    pub key: Vec<Value>,
}

impl Refused {
    /// A refusal of a part, or of the whole command.
    pub(crate) fn error(code: Refusal, at: Option<usize>) -> Error {
        Error::Refused(Refused { code, at, change: None, item: None })
    }

    /// The refusal that the text of a reply has, as `refused at 1: E6 NoRow`.
    pub(crate) fn of_reply(reply: &str) -> Option<Refused> {
        let (place, why) = reply.strip_prefix("refused")?.split_once(": E")?;
        let code = Refusal::of(why.split(' ').next()?.parse().ok()?)?;
        let at = place.strip_prefix(" at ").and_then(|number| number.parse().ok());
        Some(Refused { code, at, change: None, item: None })
    }
}

impl RefusedChange {
    pub(crate) fn of(change: &Change) -> RefusedChange {
        let key = change.key().map(Value::from).collect();
        RefusedChange { table: change.table_name().to_owned(), code: change.code(), key }
    }
}

impl fmt::Display for RefusedChange {
    fn fmt(&self, f: &mut fmt::Formatter<'_>) -> fmt::Result {
        let word = match self.code {
            Action::Insert => "insert",
            Action::Update => "update",
            Action::Delete => "delete",
        };
        write!(f, "{word} {} ", self.table)?;
        write_key(&self.key, f)
    }
}

/// Writes a key as a workload has it: `key(1,'x')`.
fn write_key(key: &[Value], f: &mut fmt::Formatter<'_>) -> fmt::Result {
    f.write_str("key(")?;
    for (place, value) in key.iter().enumerate() {
        write!(f, "{}{value}", if place == 0 { "" } else { "," })?;
    }
    f.write_str(")")
}

impl fmt::Display for Item {
    fn fmt(&self, f: &mut fmt::Formatter<'_>) -> fmt::Result {
        f.write_str(&self.table)?;
        match &self.kind {
            ItemKind::Table => Ok(()),
            ItemKind::Row(key) => {
                f.write_str(" ")?;
                write_key(key, f)
            }
            ItemKind::RowId(RowId(id)) => write!(f, " loose {id}"),
            ItemKind::Scan => f.write_str(" scan"),
            ItemKind::NextId => f.write_str(" next id"),
        }
    }
}

impl fmt::Display for Refused {
    fn fmt(&self, f: &mut fmt::Formatter<'_>) -> fmt::Result {
        match self.at {
            Some(at) => write!(f, "refused at {at}: {}", self.code)?,
            None => write!(f, "refused: {}", self.code)?,
        }
        match (&self.change, &self.item) {
            (Some(change), _) => write!(f, ", {change}"),
            (None, Some(item)) => write!(f, ", {item}"),
            (None, None) => Ok(()),
        }
    }
}

impl error::Error for Refused {}

#[cfg(test)]
mod tests {
    use super::*;

    #[test]
    fn numbers() {
        for number in 1..=20 {
            assert_eq!(Refusal::of(number).unwrap().number(), number);
        }
        assert_eq!((Refusal::of(0), Refusal::of(21)), (None, None));
        assert_eq!(Refusal::of(20).unwrap().name(), "NoMark");
    }

    #[test]
    fn replies() {
        let parts = |reply| Refused::of_reply(reply).map(|it| (it.code, it.at));
        assert_eq!(parts("refused at 12: E6 NoRow"), Some((Refusal::NoRow, Some(12))));
        assert_eq!(parts("refused: E18 NoSession"), Some((Refusal::NoSession, None)));
        assert_eq!(parts("refused: E11 Stale base 1 now 2"), Some((Refusal::Stale, None)));
        assert_eq!((parts("ok"), parts("refused: E21 New"), parts("refused for memory")), (None, None, None));
    }
}
