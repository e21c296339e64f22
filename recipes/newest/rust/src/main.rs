//! Of two writes of a row the one with the newest time stays. ../../README.md says how.
use changecap::ConflictAction::{Omit, Replace};
use changecap::{Changeset, Client, Report, Result, ValueRef};

/// Applies a changeset. It is applied again where another thread has changed one of the rows meanwhile.
fn apply_newest(client: &Client, changeset: &Changeset) -> Result<Report> {
    client.apply_with(changeset, None, |_, item| {
        // The time is in the column 2. A deletion has none, and neither has a row that was deleted here.
        match (item.new_value(2).and_then(ValueRef::as_i64), item.conflict(2).and_then(ValueRef::as_i64)) {
            (Some(theirs), Some(ours)) if theirs > ours => Replace,
            _ => Omit,
        }
    })
}

// ---- A run ----

use changecap::{KeyFlags, Server, Session};

/// Rows of an item, and when it was written.
fn list_on_a_device() -> Result<Server> {
    let server = Server::open_in_memory()?;
    let client = server.client()?;
    client.create_table("t", &[true, false, false])?;
    client.execute("commit insert t (1,'milk',1) ; insert t (2,'eggs',1) ; insert t (3,'tea',1)")?;
    Ok(server)
}

fn main() -> Result<()> {
    let (phone, tablet) = (list_on_a_device()?, list_on_a_device()?.client()?);
    let session = Session::new(&phone)?;
    session.attach(None)?;
    phone.client()?.execute(
        "commit update t key(1) set 1 = 'oat milk', 2 = 7 ; update t key(2) set 1 = 'six eggs', 2 = 6 ; \
         update t key(3) set 1 = 'green tea', 2 = 8 ; insert t (4,'bread',3)",
    )?;
    tablet.execute(
        "commit update t key(1) set 1 = 'no milk', 2 = 5 ; update t key(2) set 1 = 'ten eggs', 2 = 9 ; \
         delete t key(3) ; insert t (4,'rolls',4)",
    )?;
    let report = apply_newest(&tablet, &session.capture()?.changeset(KeyFlags::Places)?)?;
    println!("{} of {} changes that met a conflict are omitted", report.omitted, report.conflicts);
    let mut texts = Vec::new();
    for row in tablet.snapshot()?.scan("t")? {
        let row = row?;
        texts.push(format!("{} {} at {}", row.get::<i64>(0)?, row.get::<String>(1)?, row.get::<i64>(2)?));
    }
    println!("{}", texts.join(", "));
    Ok(())
}
