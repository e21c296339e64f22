//! Captures what is changed in a table, and applies it to a copy. ../../README.md has the steps.
use changecap::ConflictAction::{Abort, Omit, Replace};
use changecap::{Action, Client, Error, KeyFlags, Result, Server, Session};

/// A server with the rows that both have at first.
fn with_fruit() -> Result<Server> {
    let server = Server::open_in_memory()?;
    let client = server.client()?;
    client.create_table("fruit", &[true, false])?;
    client.execute("commit insert fruit (1,'apple') ; insert fruit (2,'pear')")?;
    Ok(server)
}

fn print_rows(client: &Client) -> Result<()> {
    let mut texts = Vec::new();
    for row in client.snapshot()?.scan("fruit")? {
        let row = row?;
        texts.push(format!("{} {}", row.get::<i64>(0)?, row.get::<String>(1)?));
    }
    println!("copy: {}", texts.join(", "));
    Ok(())
}

fn main() -> Result<()> {
    let (server, copy) = (with_fruit()?, with_fruit()?.client()?);
    let (client, session) = (server.client()?, Session::new(&server)?);
    session.attach(Some("fruit"))?;

    client.execute("commit update fruit key(1) set 1 = 'quince' ; insert fruit (3,'plum')")?;
    client.execute("commit delete fruit key(2)")?;
    let changeset = session.restart()?.changeset(KeyFlags::Places)?;
    let mut texts = Vec::new();
    for change in changeset.iter()? {
        let word = match change.code() {
            Action::Insert => "insert",
            Action::Update => "update",
            Action::Delete => "delete",
        };
        texts.push(format!("{word} {}", change.key().next().unwrap()));
    }
    println!("changes: {}", texts.join(", "));
    copy.apply(&changeset, Abort, Abort, Abort)?;
    print_rows(&copy)?;

    copy.execute("commit delete fruit key(3)")?;
    client.execute("commit update fruit key(3) set 1 = 'sloe' ; insert fruit (4,'fig')")?;
    let changeset = session.restart()?.changeset(KeyFlags::Places)?;
    if let Err(Error::Refused(why)) = copy.apply(&changeset, Abort, Abort, Abort) {
        println!("refused at change {}", why.at.unwrap()); // nothing was changed
    }
    let report = copy.apply(&changeset, Replace, Omit, Replace)?;
    println!("applied {}, omitted {}", report.applied, report.omitted);
    print_rows(&copy)
}
