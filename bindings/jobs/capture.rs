//! A session captures what three commits change. The changeset is read, and applied to a second server.
use changecap::{
    Action, Batch, Cause, Change, ConflictAction::Abort, KeyFlags, Result, Server, Session, ValueRef,
};

/// A server with a table stock that has three rows.
fn begin() -> Result<Server> {
    let server = Server::open_in_memory()?;
    let client = server.client()?;
    client.create_table("stock", &[true, false, false])?;
    let mut batch = Batch::new()?;
    for row in [(1, "apples", 40), (2, "pears", 25), (3, "plums", 12)] {
        batch.insert("stock", row, Cause::Direct)?;
    }
    client.commit(&mut batch)?;
    Ok(server)
}

/// The values of one side of a change; a column without one is -.
fn side<'a>(value: impl Fn(usize) -> Option<ValueRef<'a>>) -> String {
    let texts = (0..3).map(|column| value(column).map_or("-".into(), |it| it.to_string()));
    format!("({})", texts.collect::<Vec<String>>().join(","))
}

fn show(change: &Change) {
    let table = change.table_name();
    let (old, new) = (side(|column| change.old_value(column)), side(|column| change.new_value(column)));
    match change.code() {
        Action::Insert => println!("insert {table} {new}"),
        Action::Delete => println!("delete {table} {old}"),
        Action::Update => println!("update {table} {old} -> {new}"),
    }
}

fn main() -> Result<()> {
    let (first, second) = (begin()?, begin()?);
    let session = Session::new(&first)?;
    session.attach(Some("stock"))?;
    let client = first.client()?;
    let mut batch = Batch::new()?;
    batch.update("stock", (1,), &[(2, 35)], Cause::Direct)?;
    client.commit(&mut batch)?;
    batch.insert("stock", (4, "figs", 9), Cause::Direct)?;
    batch.delete("stock", (2,), Cause::Direct)?;
    client.commit(&mut batch)?;
    batch.update("stock", (3,), &[(1, None::<i64>)], Cause::Direct)?;
    batch.insert("stock", (5, [0x00, 0xff], None::<i64>), Cause::Direct)?;
    client.commit(&mut batch)?;
    let capture = session.capture()?;
    println!("captured at version {}", capture.version());
    let changeset = capture.changeset(KeyFlags::Places)?;
    for change in changeset.iter()? {
        show(&change);
    }
    let report = second.client()?.apply(&changeset, Abort, Abort, Abort)?;
    println!(
        "version {}, applied {}, conflicts {}, omitted {}, skipped {}",
        report.version, report.applied, report.conflicts, report.omitted, report.skipped
    );
    for row in second.client()?.snapshot()?.scan("stock")? {
        let texts: Vec<String> = row?.values().map(|value| value.to_string()).collect();
        println!("({})", texts.join(","));
    }
    Ok(())
}
