//! The examples of README.md and of docs/manual/rust.md, and what each does.
use changecap::*;

const INSERT: [u8; 20] = [0x54, 2, 1, 0, b't', 0, 0x12, 0, 1, 0, 0, 0, 0, 0, 0, 0, 1, 3, 1, b'x'];

/// A server with the table t, whose key is its first column.
fn with_table() -> Result<Server> {
    let server = Server::open_in_memory()?;
    server.client()?.create_table("t", &[true, false])?;
    Ok(server)
}

/// The changeset of what a session has captured, and its inverse.
fn captured() -> Result<(Changeset, Changeset)> {
    let server = Server::open_in_memory()?;
    let client = server.client()?;
    client.create_table("t", &[true, false])?;
    let session = Session::new(&server)?;
    session.attach(None)?;
    let mut batch = Batch::new()?;
    batch.insert("t", (1, "x"), Cause::Direct)?;
    client.commit(&mut batch)?;
    let changeset = session.capture()?.changeset(KeyFlags::Places)?;
    let inverse = changeset.invert(KeyFlags::Places)?;
    Ok((changeset, inverse))
}

#[test]
fn a_session_and_the_inverse_of_its_changeset() {
    let (changeset, inverse) = captured().unwrap();
    assert_eq!(changeset.as_bytes(), INSERT);
    assert_eq!(inverse.as_bytes()[6], 0x09);
    assert!(Changeset::concat(&changeset, &inverse, KeyFlags::Places).unwrap().as_bytes().is_empty());
}

/// A server with the tables of another.
fn copied(server: &Server) -> Result<Server> {
    let dump = server.client()?.snapshot()?.dump(&["t"], KeyFlags::Places)?;
    let copy = Server::open_in_memory()?;
    copy.client()?.load(&dump)?;
    Ok(copy)
}

#[test]
fn a_copy_of_the_tables() {
    let server = with_table().unwrap();
    let client = server.client().unwrap();
    client.apply(INSERT, ConflictAction::Abort, ConflictAction::Abort, ConflictAction::Abort).unwrap();
    let rows = copied(&server).unwrap().client().unwrap().snapshot().unwrap().scan("t").unwrap();
    assert_eq!(rows.count(), 1);
}

/// Applies a changeset where nothing is in the way, and else by other answers.
fn applied(client: &Client, changeset: &[u8]) -> Result<Report> {
    use ConflictAction::{Abort, Omit, Replace};
    match client.apply(changeset, Abort, Abort, Abort) {
        Err(Error::Refused(why)) if why.code == Refusal::Aborted => {
            // A change met a conflict, as in `refused at 0: E15 Aborted, insert t key(1)`, and nothing was
            // changed.
            eprintln!("{why}");
            client.apply(changeset, Replace, Omit, Replace)
        }
        done => done,
    }
}

#[test]
fn an_application_with_conflicts() {
    let client = with_table().unwrap().client().unwrap();
    let report = applied(&client, &INSERT).unwrap();
    assert_eq!(report, Report { version: 2, applied: 1, conflicts: 0, omitted: 0, skipped: 0 });
    let report = applied(&client, &INSERT).unwrap();
    assert_eq!(report, Report { version: 3, applied: 1, conflicts: 1, omitted: 0, skipped: 0 });
}

/// Applies what a hub has changed, where the client's rows stay. Answers what the client has changed itself,
/// rebased for the hub.
fn rebased(client: &Client, hub: &Changeset, own: &Changeset) -> Result<Changeset> {
    use ConflictAction::Omit;
    let mut changes = hub.iter()?;
    client.apply_iter(&mut changes, Omit, Omit, Omit)?;
    let mut rebaser = Rebaser::new();
    rebaser.configure(&changes.buffer()?);
    rebaser.rebase(own, KeyFlags::Places)
}

#[test]
fn a_rebased_changeset() {
    let client = with_table().unwrap().client().unwrap();
    let hub = Changeset::from_bytes(&INSERT).unwrap();
    let own = Changeset::from_bytes(&[&INSERT[..19], b"y"].concat()).unwrap();
    applied(&client, own.as_bytes()).unwrap();
    let rebased = rebased(&client, &hub, &own).unwrap();
    let change = rebased.iter().unwrap().next().unwrap();
    assert_eq!((change.code(), change.new_value(1)), (Action::Update, Some(ValueRef::Text("y"))));
}

/// The texts of the rows whose key is not below a number.
fn texts(client: &Client, first: i64) -> Result<Vec<String>> {
    let snapshot = client.snapshot()?;
    let mut texts = Vec::new();
    for row in snapshot.scan_from("t", (first,), 100)? {
        texts.push(row?.get(1)?);
    }
    Ok(texts)
}

#[test]
fn the_texts_of_rows() {
    let client = with_table().unwrap().client().unwrap();
    client.execute("commit insert t (1,'x') ; insert t (2,'y') ; insert t (3,'z')").unwrap();
    assert_eq!(texts(&client, 2).unwrap(), ["y", "z"]);
}

/// The rows that a blob inserts, each with the name of its table.
fn inserted(blob: &[u8]) -> Result<Vec<(String, Vec<Value>)>> {
    let mut rows = Vec::new();
    for change in ChangesetIter::start(blob)? {
        if change.code() == Action::Insert {
            let columns = 0..change.number_of_columns();
            let row = columns.filter_map(|column| change.new_value(column)).map(Value::from);
            rows.push((change.table_name().to_string(), row.collect()));
        }
    }
    Ok(rows)
}

#[test]
fn the_inserted_rows_of_a_blob() {
    let row = vec![Value::Integer(1), Value::Text("x".into())];
    assert_eq!(inserted(&INSERT).unwrap(), [("t".to_string(), row)]);
    assert!(matches!(inserted(b"T\x80"), Err(Error::Malformed(Fault { kind: 3, at: 1 }))));
}

/// Moves money between two accounts from two threads, and answers what that changed.
fn moved_money() -> Result<Changeset> {
    let server = Server::open_in_memory()?;
    server.client()?.create_table("accounts", &[true, false])?;
    server.transaction(|t| {
        t.insert("accounts", ("ann", 100), Cause::Direct)?;
        t.insert("accounts", ("bob", 100), Cause::Direct)
    })?;
    let session = Session::new(&server)?;
    session.attach(Some("accounts"))?;
    let transfer = |from, to, amount: i64| {
        // It begins again where the other thread has changed an account that it read.
        server.transaction(|t| {
            for (name, more) in [(from, -amount), (to, amount)] {
                let balance: i64 = t.get("accounts", (name,))?.unwrap().get(1)?;
                t.update("accounts", (name,), &[(1, balance + more)], Cause::Direct)?;
            }
            Ok(())
        })
    };
    std::thread::scope(|scope| {
        for (from, to, amount) in [("ann", "bob", 30), ("bob", "ann", 10)] {
            scope.spawn(move || transfer(from, to, amount).unwrap());
        }
    });
    let changeset = session.restart()?.changeset(KeyFlags::Places)?;
    Ok(changeset)
}

#[test]
fn money_of_two_threads() {
    let changes: Vec<_> = moved_money().unwrap().iter().unwrap().collect();
    let balances: Vec<_> = changes.iter().map(|change| change.new_value(1).unwrap()).collect();
    assert_eq!(balances, [ValueRef::Integer(80), ValueRef::Integer(120)]);
}

/// Inserts rows from two threads, each commit with the capture that belongs to it, and answers the number of
/// changes of each.
fn audited(server: &Server, session: &Session) -> Result<Vec<usize>> {
    let commit = |first: i64| -> Result<Vec<usize>> {
        let mut sizes = Vec::new();
        for number in first..first + 100 {
            let ((), capture) = session.transaction(|t| t.insert("t", (number, "x"), Cause::Direct))?;
            sizes.push(capture.changeset(KeyFlags::Places)?.iter()?.count());
        }
        Ok(sizes)
    };
    let sizes = std::thread::scope(|scope| {
        let other = scope.spawn(|| commit(100));
        Ok::<_, Error>([commit(0)?, other.join().unwrap()?].concat())
    })?;
    assert_eq!(server.client()?.snapshot()?.scan("t")?.count(), 200);
    Ok(sizes)
}

#[test]
fn commits_with_their_captures() {
    let server = with_table().unwrap();
    let session = Session::new(&server).unwrap();
    session.attach(None).unwrap();
    assert_eq!(audited(&server, &session).unwrap(), [1; 200]);
}

/// Writes what a session has captured since the last time, in the order of the versions.
fn written(session: &Session, output: &mut Vec<(u64, Changeset)>) -> Result<()> {
    for capture in session.captures() {
        let capture = capture?;
        output.push((capture.version(), capture.changeset(KeyFlags::Places)?));
    }
    Ok(())
}

#[test]
fn captures_in_their_order() {
    let server = with_table().unwrap();
    let (session, client) = (Session::new(&server).unwrap(), server.client().unwrap());
    session.attach(None).unwrap();
    let mut output = Vec::new();
    for number in 0..3 {
        client.execute(&format!("commit insert t ({number},'x')")).unwrap();
        written(&session, &mut output).unwrap();
    }
    written(&session, &mut output).unwrap();
    assert_eq!(output.iter().map(|it| it.0).collect::<Vec<_>>(), [2, 3, 4]);
}

/// Makes commits from two threads, each with a client of its own.
fn committed(server: &Server) -> Result<usize> {
    std::thread::scope(|scope| {
        for first in [0, 100] {
            let client = server.client()?;
            scope.spawn(move || {
                let mut batch = Batch::new().unwrap();
                for number in first..first + 100 {
                    batch.insert("t", (number, None::<i64>), Cause::Direct).unwrap();
                    client.commit(&mut batch).unwrap();
                }
            });
        }
        Ok::<_, Error>(())
    })?;
    Ok(server.client()?.snapshot()?.scan("t")?.count())
}

#[test]
fn commits_of_two_clients() {
    assert_eq!(committed(&with_table().unwrap()).unwrap(), 200);
}

/// Makes commits from two threads, which share one client behind a lock.
fn committed_by_one(client: Client) -> Result<usize> {
    let shared = std::sync::Mutex::new(client);
    std::thread::scope(|scope| {
        for first in [0, 100] {
            let shared = &shared;
            scope.spawn(move || {
                for number in first..first + 100 {
                    let mut batch = Batch::new().unwrap();
                    batch.insert("t", (number, None::<i64>), Cause::Direct).unwrap();
                    shared.lock().unwrap().commit(&mut batch).unwrap();
                }
            });
        }
    });
    let client = shared.lock().unwrap();
    Ok(client.snapshot()?.scan("t")?.count())
}

#[test]
fn commits_of_two_threads() {
    assert_eq!(committed_by_one(with_table().unwrap().client().unwrap()).unwrap(), 200);
}
