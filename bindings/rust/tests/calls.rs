//! Each call, beside worked values.
use changecap::*;

/// The values of a row.
fn values_of(row: &Row) -> Vec<Value> {
    row.values().map(Value::from).collect()
}

/// The values of all rows of a table.
fn rows_of(client: &Client, table: &str) -> Vec<Vec<Value>> {
    client.snapshot().unwrap().scan(table).unwrap().map(|row| values_of(&row.unwrap())).collect()
}

/// The row of a name.
fn row_of(client: &Client, table: &str, row: impl RowName) -> Option<Row> {
    client.snapshot().unwrap().get(table, row).unwrap()
}

/// The refusal that a call answers, and the number of its part.
fn refusal_of<T>(made: Result<T>) -> (Refusal, Option<usize>) {
    match made.map(drop) {
        Err(Error::Refused(why)) => (why.code, why.at),
        other => panic!("{other:?}"),
    }
}

fn of_hex(hex: &str) -> Vec<u8> {
    (0..hex.len() / 2).map(|at| u8::from_str_radix(&hex[2 * at..2 * at + 2], 16).unwrap()).collect()
}

const INSERT: &str = "5402010074001200010000000000000001030178";
const DELETE: &str = "5402010074000900010000000000000001030178";
const TWO_KEYS: &str = "540300010174001200030178010000000000000002010000000000000001";
const OTHER_TABLE: &str = "540201007500120001000000000000000205";
const TWO_TABLES: &str =
    "540201007500170101000000000000000703012d0003022b2b540301000062001200040200ff05030161";

#[test]
fn whole_blobs() {
    let changeset = Changeset::from_bytes(&of_hex(INSERT)).unwrap();
    assert_eq!(changeset.invert(KeyFlags::Places).unwrap().as_bytes(), of_hex(DELETE));
    let patchset = changeset.patchset(KeyFlags::Ones).unwrap();
    assert_eq!(patchset.as_bytes(), of_hex("5002010074001200010000000000000001030178"));
    assert!(matches!(Changeset::from_bytes(patchset.as_bytes()), Err(Error::Patchset)));
    assert_eq!(Patchset::from_bytes(patchset.as_bytes()).unwrap(), patchset);
    let wrong = Patchset::from_bytes(changeset.as_bytes()).unwrap_err();
    assert!(matches!(wrong, Error::Changeset));
    assert_eq!(wrong.to_string(), "a changeset, where only a patchset serves");
    let wrong = Changeset::from_bytes(patchset.as_bytes()).unwrap_err();
    assert_eq!(wrong.to_string(), "a patchset, where only a changeset serves");
    assert!(Patchset::from_bytes(&[]).is_ok() && Changeset::from_bytes(&[]).is_ok());
    assert!(matches!(check(&of_hex("5480")), Err(Error::Malformed(Fault { kind: 3, at: 1 }))));
    assert!(check(&[]).is_ok());
    let two_keys = Changeset::from_bytes(&of_hex(TWO_KEYS)).unwrap();
    assert_eq!(
        two_keys.patchset(KeyFlags::Places).unwrap().as_bytes(),
        of_hex("500300010274001200030178010000000000000002010000000000000001")
    );
    let mut inverse = Vec::new();
    invert_strm(&mut &of_hex(INSERT)[..], &mut inverse).unwrap();
    assert_eq!(inverse, of_hex(DELETE));
    assert!(matches!(
        invert_strm(&mut &b"P"[..], &mut inverse),
        Err(Error::Malformed(Fault { kind: 1, at: 1 }))
    ));
    assert!(matches!(invert_strm(&mut patchset.as_bytes(), &mut inverse), Err(Error::Patchset)));
}

#[test]
fn concatenations() {
    let insert = Changeset::from_bytes(&of_hex(INSERT)).unwrap();
    let update = Changeset::from_bytes(&of_hex("540201007400170001000000000000000103017800030179")).unwrap();
    let both = Changeset::concat(&insert, &update, KeyFlags::Ones).unwrap();
    assert_eq!(both.as_bytes(), of_hex("5402010074001200010000000000000001030179"));
    let nothing =
        Changeset::concat(&insert, &Changeset::from_bytes(&of_hex(DELETE)).unwrap(), KeyFlags::Places)
            .unwrap();
    assert!(nothing.as_bytes().is_empty());
    let patches = (insert.patchset(KeyFlags::Places).unwrap(), update.patchset(KeyFlags::Places).unwrap());
    let patched = Patchset::concat(&patches.0, &patches.1, KeyFlags::Places).unwrap();
    assert_eq!(patched, both.patchset(KeyFlags::Places).unwrap());
    let two_keys = Changeset::from_bytes(&of_hex(TWO_KEYS)).unwrap();
    assert!(matches!(Changeset::concat(&insert, &two_keys, KeyFlags::Ones), Err(Error::OtherColumns)));
    assert!(Changeset::concat(&nothing, &two_keys, KeyFlags::Ones).unwrap() == two_keys);
}

#[test]
fn json() {
    let insert = Changeset::from_bytes(&of_hex(INSERT)).unwrap();
    let text = r#"[{"table":"t","op":"insert","indirect":false,"key":["c0"],"new":{"c0":1,"c1":"x"}}]"#;
    assert_eq!(insert.json().unwrap(), format!("{text}\n"));
    assert_eq!(insert.patchset(KeyFlags::Ones).unwrap().json().unwrap(), format!("{text}\n"));
    assert_eq!(Changeset::from_bytes(&[]).unwrap().json().unwrap(), "[]\n");
}

#[test]
fn changes_of_a_blob() {
    assert!(ChangesetIter::start(&of_hex("54020100017500170101000000000000000703013000")).is_err());
    let blob = of_hex(TWO_TABLES);
    let mut changes = ChangesetIter::start_strm(&mut &blob[..]).unwrap();
    let change = changes.next().unwrap();
    let next = changes.next().unwrap();
    assert_eq!((change.table_name(), change.number_of_columns()), ("u", 2));
    assert_eq!((change.code(), change.indirect()), (Action::Update, true));
    assert_eq!(change.pk(), [true, false]);
    assert_eq!((change.old_value(0), change.new_value(0)), (Some(ValueRef::Integer(7)), None));
    assert_eq!(change.old_value(1), Some(ValueRef::Text("-")));
    assert_eq!(change.new_value(1), Some(ValueRef::Text("++")));
    assert_eq!((change.old_value(2), change.new_value(2)), (None, None));
    assert_eq!(change.key().collect::<Vec<_>>(), [ValueRef::Integer(7)]);
    assert_eq!(next.code(), Action::Insert);
    assert_eq!(next.new_value(0), Some(ValueRef::Blob(&[0, 255])));
    assert_eq!(next.new_value(1), Some(ValueRef::Null));
    assert_eq!(next.key().collect::<Vec<_>>(), [ValueRef::Blob(&[0, 255])]);
    assert_eq!(next.clone(), next);
    assert!(changes.next().is_none() && changes.next().is_none());
}

#[test]
fn pieces_of_a_blob() {
    let blob = of_hex(TWO_TABLES);
    for len in [1, 2, 7, 64] {
        let mut decoder = Decoder::new().unwrap();
        for piece in blob.chunks(len) {
            decoder.feed(piece).unwrap();
        }
        let mut changes = decoder.finish().unwrap();
        assert_eq!(changes.next().unwrap().code(), Action::Update);
        assert_eq!(changes.next().unwrap().new_value(2), Some(ValueRef::Text("a")));
        assert!(changes.next().is_none());
    }
    let mut decoder = Decoder::new().unwrap();
    decoder.feed(b"T").unwrap();
    for _ in 0..2 {
        assert!(matches!(decoder.feed(b"\x80"), Err(Error::Malformed(Fault { kind: 3, at: 1 }))));
    }
    assert!(matches!(decoder.finish(), Err(Error::Malformed(Fault { kind: 3, at: 1 }))));
    let mut decoder = Decoder::new().unwrap();
    decoder.feed(b"T").unwrap();
    assert!(matches!(decoder.finish(), Err(Error::Malformed(Fault { kind: 1, at: 1 }))));
    let decoder = Decoder::new().unwrap();
    assert!(std::thread::spawn(move || decoder.finish().unwrap().next().is_none()).join().unwrap());
}

#[test]
fn an_iterator_goes_to_another_thread() {
    let mut changes = ChangesetIter::start(&of_hex(INSERT)).unwrap();
    let here = std::thread::spawn(move || changes.next().is_some()).join().unwrap();
    assert!(here);
}

#[test]
fn a_server_and_its_sessions() {
    let server = Server::open_in_memory().unwrap();
    let source = server.client().unwrap();
    assert_eq!(source.execute("create t kv").unwrap(), "ok version 1");
    let session = Session::new(&server).unwrap();
    session.attach(Some("t")).unwrap();
    assert!(session.is_empty().unwrap());
    source.execute("commit insert t (1,'x')").unwrap();
    assert!(!session.is_empty().unwrap());
    let capture = session.capture().unwrap();
    assert_eq!(capture.version(), 2);
    let changeset = capture.changeset(KeyFlags::Places).unwrap();
    assert_eq!(changeset.as_bytes(), of_hex(INSERT));
    let mut bytes = Vec::new();
    session.changeset_strm(&mut bytes).unwrap();
    assert_eq!(bytes, of_hex(INSERT));
    let patchset = capture.patchset(KeyFlags::Places).unwrap();
    assert_eq!(patchset, changeset.patchset(KeyFlags::Places).unwrap());
    session.set_indirect(true).unwrap();
    session.set_enabled(false).unwrap();
    drop(session);
    let ended = source.execute("isempty 1").unwrap_err();
    assert_eq!(ended.to_string(), "refused: E18 NoSession");
    assert_eq!(refusal_of(source.execute("commit delete t key(2)")), (Refusal::NoRow, Some(0)));
    assert!(matches!(source.execute("frob"), Err(Error::Command(Fault { kind: 1, at: 0 }))));
    let target = Server::open_in_memory().unwrap().client().unwrap();
    target.execute("create t kv").unwrap();
    let policy = (ConflictAction::Omit, ConflictAction::Abort, ConflictAction::Replace);
    let report = target.apply(&changeset, policy.0, policy.1, policy.2).unwrap();
    assert_eq!(report, Report { version: 2, applied: 1, conflicts: 0, omitted: 0, skipped: 0 });
    let report = target.apply(&patchset, policy.0, policy.1, policy.2).unwrap();
    assert_eq!(report, Report { version: 3, applied: 1, conflicts: 1, omitted: 0, skipped: 0 });
    assert_eq!(
        std::thread::spawn(move || target.execute("scan t").unwrap()).join().unwrap(),
        "rows 1\n(1,'x')"
    );
}

#[test]
fn sessions_by_numbers() {
    let server = Server::open_in_memory().unwrap();
    let source = server.client().unwrap();
    assert_eq!(source.create_table("t", &[true, false]).unwrap(), 1);
    assert_eq!(refusal_of(source.create_table("t", &[true])), (Refusal::TableExists, None));
    assert!(matches!(source.create_table("", &[true]), Err(Error::Misuse)));
    assert!(matches!(source.create_table("u", &[]), Err(Error::Misuse)));
    let session = Session::new(&server).unwrap();
    session.attach(Some("t")).unwrap();
    assert!(matches!(session.attach(Some("a\0b")), Err(Error::Misuse)));
    assert!(session.is_enabled().unwrap() && !session.is_indirect().unwrap());
    source.execute("commit insert t (1,'x')").unwrap();
    session.set_enabled(false).unwrap();
    assert!(!session.is_enabled().unwrap());
    source.execute("commit insert t (2,null)").unwrap();
    let captured = session.capture().unwrap();
    assert_eq!(captured.changeset(KeyFlags::Ones).unwrap().as_bytes(), of_hex(INSERT));
    let restarted = session.restart().unwrap();
    assert_eq!((captured.version(), restarted.version()), (3, 3));
    assert!(session.is_empty().unwrap() && session.captures().next().is_none());
    // A capture stays as it is.
    source.execute("commit delete t key(2)").unwrap();
    assert_eq!(restarted.changeset(KeyFlags::Places).unwrap().as_bytes(), of_hex(INSERT));
    session.set_enabled(true).unwrap();
    session.set_indirect(true).unwrap();
    assert!(session.is_indirect().unwrap());
    source.execute("commit delete t key(1)").unwrap();
    let indirect = session.capture().unwrap().changeset(KeyFlags::Places).unwrap();
    assert_eq!(indirect.as_bytes(), of_hex("5402010074000901010000000000000001030178"));
    let mut bytes = Vec::new();
    session.patchset_strm(&mut bytes).unwrap();
    assert_eq!(bytes, indirect.patchset(KeyFlags::Places).unwrap().as_bytes());
    let (mut captures, mut versions) = (session.captures(), Vec::new());
    versions.extend(captures.by_ref().map(|it| it.unwrap().version()));
    source.execute("commit insert t (1,null)").unwrap();
    versions.extend(captures.map(|it| it.unwrap().version()));
    assert_eq!(versions, [5, 6]);
}

/// A server with the table t, whose key is its first column, and the table u, whose key is its last two.
fn with_tables() -> (Server, Client) {
    let server = Server::open_in_memory().unwrap();
    let client = server.client().unwrap();
    client.create_table("t", &[true, false]).unwrap();
    client.create_table("u", &[false, true, true]).unwrap();
    (server, client)
}

#[test]
fn batches_and_rows() {
    let (server, source) = with_tables();
    let session = Session::new(&server).unwrap();
    session.attach(None).unwrap();
    let mut batch = Batch::new().unwrap();
    batch.insert("t", (1, "x"), Cause::Direct).unwrap();
    batch.insert("t", (2, [0u8, 255]), Cause::Cascade).unwrap();
    batch.insert("u", ("x", 1, 2), Cause::Direct).unwrap();
    batch.insert("u", (Some("x"), None::<i64>, 1), Cause::Direct).unwrap();
    assert_eq!(source.commit(&mut batch).unwrap(), 3);
    let row = row_of(&source, "t", (2,)).unwrap();
    assert_eq!((row.id(), values_of(&row)), (None, vec![2.into(), Value::Blob(vec![0, 255])]));
    let loose = row_of(&source, "u", RowId(1)).unwrap();
    assert_eq!((loose.id(), loose.len()), (Some(RowId(1)), 3));
    // The batch is empty again.
    batch.update("u", (1, 2), &[(0, None::<i64>)], Cause::Direct).unwrap();
    batch.update("u", RowId(1), &[(1, 1), (0, 2)], Cause::Direct).unwrap();
    batch.delete("t", [2], Cause::Direct).unwrap();
    assert_eq!(source.commit(&mut batch).unwrap(), 4);
    let rows = rows_of(&source, "u");
    assert_eq!(rows, [vec![2.into(), 1.into(), 1.into()], vec![Value::Null, 1.into(), 2.into()]]);
    assert_eq!(row_of(&source, "t", (2,)), None);
    assert!(source.execute("changeset 1").unwrap().starts_with("changeset 54020100"));
}

#[test]
fn values_of_a_row() {
    let (_, source) = with_tables();
    source.execute("commit insert u ('x',7,x'00ff')").unwrap();
    let row = source.snapshot().unwrap().scan("u").unwrap().next().unwrap().unwrap();
    assert_eq!((row.get::<String>(0).unwrap(), row.get::<u8>(1).unwrap()), ("x".to_string(), 7));
    assert_eq!(row.get::<Vec<u8>>(2).unwrap(), [0, 255]);
    assert_eq!(row.get::<Option<i64>>(1).unwrap(), Some(7));
    assert!(matches!(row.get::<i64>(0), Err(Error::ColumnType(0))));
    assert!(matches!(row.get::<i64>(3), Err(Error::ColumnIndex(3))));
    assert!(matches!(row.get_ref(usize::MAX), Err(Error::ColumnIndex(usize::MAX))));
    let texts: Vec<_> = row.values().map(|value| value.to_string()).collect();
    assert_eq!(texts, ["'x'", "7", "x'00ff'"]);
}

#[test]
fn refused_batches_and_rows() {
    let (_, source) = with_tables();
    let snapshot = source.snapshot().unwrap();
    assert_eq!(refusal_of(snapshot.scan("v")), (Refusal::NoTable, None));
    assert!(matches!(snapshot.get("t", [0; 0]), Err(Error::Misuse)));
    assert!(matches!(snapshot.get("t", RowId(0)), Err(Error::Misuse)));
    let mut batch = Batch::new().unwrap();
    assert!(matches!(batch.delete("t", (None::<i64>,), Cause::Direct), Err(Error::Misuse)));
    assert!(matches!(batch.insert("", (2,), Cause::Direct), Err(Error::Misuse)));
    batch.clear();
    batch.insert("u", (None::<i64>, None::<i64>, 1), Cause::Direct).unwrap();
    batch.delete("t", (2,), Cause::Direct).unwrap();
    assert_eq!(refusal_of(source.commit(&mut batch)), (Refusal::NoRow, Some(1)));
    // A refused batch is as it was.
    assert_eq!(source.commit(&mut batch).unwrap_err().to_string(), "refused at 1: E6 NoRow");
    let mut batch = Batch::new_at(1).unwrap();
    batch.delete("t", (1,), Cause::Direct).unwrap();
    assert_eq!(refusal_of(source.commit(&mut batch)), (Refusal::Stale, None));
    batch.clear();
    assert_eq!(source.commit(&mut batch).unwrap(), 3);
}

#[test]
fn snapshots_stay() {
    let (_, source) = with_tables();
    for number in 0..10 {
        source.execute(&format!("commit insert t ({number},'x')")).unwrap();
    }
    let snapshot = source.snapshot().unwrap();
    let mut rows = snapshot.scan("t").unwrap();
    source.execute("commit delete t key(3)").unwrap();
    assert_eq!((snapshot.version(), source.snapshot().unwrap().version()), (12, 13));
    drop(source);
    assert_eq!(snapshot.scan("t").unwrap().count(), 10);
    let keys = |rows: Rows| rows.map(|row| row.unwrap().get(0).unwrap()).collect::<Vec<i64>>();
    assert_eq!(keys(snapshot.scan_from("t", (3,), 4).unwrap()), [3, 4, 5, 6]);
    assert_eq!(keys(snapshot.scan_from("t", (9,), u64::MAX).unwrap()), [9]);
    assert_eq!(keys(snapshot.scan_from("t", (10,), 4).unwrap()), []);
    drop(snapshot);
    assert_eq!(rows.by_ref().count(), 10);
    assert!(rows.next().is_none());
}

/// An operation that cannot be put in a batch.
type Failing<'a> = &'a dyn Fn(&mut Batch) -> Result<()>;

#[test]
fn batches_of_which_an_operation_fails() {
    let (_, source) = with_tables();
    let row = |number| (number, None::<i64>);
    let fails: [Failing; 4] = [
        &|batch| batch.insert("", row(2), Cause::Direct),
        &|batch| batch.insert("t\0", row(2), Cause::Cascade),
        &|batch| batch.update("t", (None::<i64>,), &[(1, 3)], Cause::Direct),
        &|batch| batch.delete("t", RowId(0), Cause::Direct),
    ];
    for fail in fails {
        let mut batch = Batch::new().unwrap();
        batch.insert("t", row(1), Cause::Direct).unwrap();
        assert!(matches!(fail(&mut batch), Err(Error::Misuse)));
        batch.insert("t", row(3), Cause::Direct).unwrap();
        // None of it is made, neither what was put in before nor what was put in after, however often.
        assert!(matches!(source.commit(&mut batch), Err(Error::FailedBatch)));
        assert!(matches!(source.commit(&mut batch), Err(Error::FailedBatch)));
        assert_eq!(rows_of(&source, "t").len(), 0);
        // Once it is cleared it has nothing of it.
        batch.clear();
        batch.insert("t", row(4), Cause::Direct).unwrap();
        batch.delete("t", (4,), Cause::Direct).unwrap();
        source.commit(&mut batch).unwrap();
        // Nor has one for a version alone, which is for any version then.
        let mut batch = Batch::new_at(1).unwrap();
        batch.insert("t", row(1), Cause::Direct).unwrap();
        fail(&mut batch).unwrap_err();
        assert!(matches!(source.commit(&mut batch), Err(Error::FailedBatch)));
        batch.clear();
        source.commit(&mut batch).unwrap();
        assert_eq!(rows_of(&source, "t").len(), 0);
    }
}

#[test]
fn a_batch_with_an_operation_too_many() {
    let (_, source) = with_tables();
    let mut batch = Batch::new().unwrap();
    for number in 0..10_000 {
        batch.insert("t", (number, None::<i64>), Cause::Direct).unwrap();
    }
    let more = batch.insert("t", (10_000, None::<i64>), Cause::Direct);
    assert_eq!(refusal_of(more), (Refusal::TooMany, None));
    assert!(matches!(source.commit(&mut batch), Err(Error::FailedBatch)));
    assert_eq!(rows_of(&source, "t").len(), 0);
}

#[test]
fn values_of_many_lengths() {
    let (_, source) = with_tables();
    let mut batch = Batch::new().unwrap();
    let lengths = [0, 1, 127, 128, 300, 16_383, 16_384, 2_097_152];
    for (number, length) in (0..).zip(lengths) {
        for value in [Value::Text("x".repeat(length)), Value::Blob(vec![0xff; length])] {
            let row = [Value::Integer(number), value.clone()];
            batch.insert("t", &row, Cause::Direct).unwrap();
            let key = [value, Value::Integer(number)];
            batch.insert("u", (None::<i64>, &key[0], &key[1]), Cause::Direct).unwrap();
            source.commit(&mut batch).unwrap();
            assert_eq!(values_of(&row_of(&source, "t", &row[..1]).unwrap()), row);
            assert_eq!(values_of(&row_of(&source, "u", &key).unwrap())[1..], key);
            batch.delete("t", &row[..1], Cause::Direct).unwrap();
            batch.update("u", &key, &[(0, &key[0])], Cause::Direct).unwrap();
            source.commit(&mut batch).unwrap();
            assert_eq!(values_of(&row_of(&source, "u", &key).unwrap())[0], key[0]);
        }
    }
    assert_eq!((rows_of(&source, "t").len(), rows_of(&source, "u").len()), (0, 2 * lengths.len()));
    let numbers = [i64::MIN, -1, 0, i64::MAX];
    for number in numbers {
        batch.insert("t", [number, number], Cause::Direct).unwrap();
    }
    source.commit(&mut batch).unwrap();
    let rows = source.snapshot().unwrap().scan("t").unwrap();
    assert_eq!(rows.map(|row| row.unwrap().get(1).unwrap()).collect::<Vec<i64>>(), numbers);
}

#[test]
fn new_values_of_columns_that_are_not_there_or_twice() {
    let (_, source) = with_tables();
    source.execute("commit insert t (1,2)").unwrap();
    let update = |key: i64, set: &[(usize, Option<i64>)]| {
        let mut batch = Batch::new().unwrap();
        batch.update("t", (key,), set, Cause::Direct).unwrap();
        source.commit(&mut batch)
    };
    let twice = [(1, None), (0, Some(1)), (1, None)];
    for set in [&[(2, None)][..], &[(2_000, None)], &[(usize::MAX, None)], &twice] {
        assert_eq!(refusal_of(update(1, set)), (Refusal::BadColumn, Some(0)));
    }
    assert_eq!(refusal_of(update(2, &[])), (Refusal::NoRow, Some(0)));
    update(1, &[]).unwrap();
    assert_eq!(rows_of(&source, "t"), [[Value::Integer(1), Value::Integer(2)]]);
}

#[test]
fn transactions() {
    let (server, source) = with_tables();
    let (text, version) = server
        .transaction(|t| {
            t.insert("t", (1, "x"), Cause::Direct)?;
            // A refused operation leaves the rows as they were.
            assert_eq!(refusal_of(t.insert("t", (1, "y"), Cause::Direct)), (Refusal::Duplicate, None));
            assert!(matches!(t.delete("t", (None::<i64>,), Cause::Direct), Err(Error::Misuse)));
            let savepoint = t.savepoint()?;
            t.update("t", (1,), &[(1, "z")], Cause::Direct)?;
            let later = t.savepoint()?;
            t.delete("t", (1,), Cause::Direct)?;
            assert_eq!(t.scan("t")?.count(), 0);
            t.rollback_to(savepoint)?;
            assert_eq!(refusal_of(t.rollback_to(later)), (Refusal::NoMark, None));
            t.get("t", (1,))?.unwrap().get::<String>(1)
        })
        .unwrap();
    assert_eq!((text.as_str(), version), ("x", 3));
    // An error of the work rolls back, and so does a drop, also that of a panic.
    let failed = server.transaction(|t| {
        t.delete("t", (1,), Cause::Direct)?;
        t.delete("t", (2,), Cause::Direct)
    });
    assert_eq!(refusal_of(failed), (Refusal::NoRow, None));
    let mut transaction = source.snapshot().unwrap().transaction().unwrap();
    transaction.delete("t", (1,), Cause::Direct).unwrap();
    transaction.rollback();
    let panicked = std::panic::catch_unwind(std::panic::AssertUnwindSafe(|| {
        server.transaction(|_| -> Result<()> { std::panic::resume_unwind(Box::new(())) })
    }));
    assert!(panicked.is_err());
    assert_eq!(rows_of(&source, "t").len(), 1);
}

#[test]
fn a_transaction_that_begins_again_by_hand() {
    let (_, source) = with_tables();
    source.execute("commit insert t (1,'x')").unwrap();
    let mut transaction = source.snapshot().unwrap().transaction().unwrap();
    transaction.get("t", (1,)).unwrap();
    source.execute("commit update t key(1) set 1 = 'y'").unwrap();
    assert_eq!(refusal_of(transaction.commit(&source)), (Refusal::Stale, None));
    let mut transaction = source.snapshot().unwrap().transaction().unwrap();
    transaction.update("t", (1,), &[(1, "z")], Cause::Cascade).unwrap();
    assert_eq!(transaction.into_batch().and_then(|mut it| source.commit(&mut it)).unwrap(), 5);
}

#[test]
fn a_transaction_that_is_never_accepted() {
    let (server, source) = with_tables();
    let mut tries = 0;
    let made = server.transaction(|t| {
        tries += 1;
        source.execute(&format!("commit insert t ({tries},'x')"))?;
        t.scan("t").map(Iterator::count)
    });
    assert_eq!((refusal_of(made), tries), ((Refusal::Stale, None), TRIES));
    let mut tries = 0;
    let (rows, version) = server
        .transaction(|t| {
            tries += 1;
            if tries < 10 {
                source.execute(&format!("commit delete t key({tries})"))?;
            }
            t.scan("t").map(Iterator::count)
        })
        .unwrap();
    assert_eq!((rows, tries, version as usize), (TRIES - 9, 10, 2 + TRIES + 9 + 1));
}

#[test]
fn commits_with_their_captures() {
    let (server, source) = with_tables();
    let session = Session::new(&server).unwrap();
    session.attach(None).unwrap();
    let mut batch = Batch::new().unwrap();
    batch.insert("t", (1, "x"), Cause::Direct).unwrap();
    let capture = session.commit(&mut batch).unwrap();
    assert_eq!((capture.version(), session.is_empty().unwrap()), (3, true));
    assert_eq!(capture.changeset(KeyFlags::Places).unwrap().as_bytes(), of_hex(INSERT));
    let (count, capture) = session
        .transaction(|t| {
            t.delete("t", (1,), Cause::Direct)?;
            t.scan("t").map(Iterator::count)
        })
        .unwrap();
    assert_eq!((count, capture.version()), (0, 4));
    assert_eq!(capture.changeset(KeyFlags::Places).unwrap().as_bytes(), of_hex(DELETE));
    batch.delete("t", (1,), Cause::Direct).unwrap();
    assert_eq!(refusal_of(session.commit(&mut batch)), (Refusal::NoRow, Some(0)));
    batch.clear();
    assert!(batch.insert("", (1, "x"), Cause::Direct).is_err());
    assert!(matches!(session.commit(&mut batch), Err(Error::FailedBatch)));
    // A session that somebody else has ended commits nothing.
    batch.clear();
    batch.insert("t", (2, "y"), Cause::Direct).unwrap();
    source.execute("drop 1").unwrap();
    assert_eq!(refusal_of(session.commit(&mut batch)), (Refusal::NoSession, None));
    assert_eq!(rows_of(&source, "t").len(), 0);
    source.commit(&mut batch).unwrap();
    assert_eq!(rows_of(&source, "t").len(), 1);
}

#[test]
fn dumps() {
    let server = Server::open_in_memory().unwrap();
    let client = server.client().unwrap();
    let tables = of_hex(&["54030100026500", INSERT].concat());
    let dump = |tables| client.snapshot().unwrap().dump(tables, KeyFlags::Places);
    assert!(dump(&[]).unwrap().as_bytes().is_empty());
    assert!(matches!(dump(&["t"]), Err(Error::Misuse)));
    assert_eq!(refusal_of(client.load(of_hex(DELETE))), (Refusal::Aborted, Some(0)));
    assert_eq!(client.load(&tables).unwrap().applied, 1);
    assert_eq!(rows_of(&client, "t"), [vec![Value::Integer(1), Value::Text("x".into())]]);
    assert_eq!(dump(&["e", "t"]).unwrap().as_bytes(), tables);
    assert!(rows_of(&client, "e").is_empty());
    assert_eq!(refusal_of(client.load(&tables)), (Refusal::TableExists, None));
}

#[test]
fn applications() {
    let target = Server::open_in_memory().unwrap().client().unwrap();
    target.create_table("t", &[true, false]).unwrap();
    target.execute("commit insert t (1,'y')").unwrap();
    let (omit, replace, abort) = (ConflictAction::Omit, ConflictAction::Replace, ConflictAction::Abort);
    let insert = of_hex(INSERT);
    let by = |conflict| target.apply(&insert, abort, abort, conflict);
    let omitted = Report { version: 3, applied: 0, conflicts: 1, omitted: 1, skipped: 0 };
    assert_eq!(by(omit).unwrap(), omitted);
    assert_eq!(refusal_of(by(abort)), (Refusal::Aborted, Some(0)));
    let replaced = Report { version: 4, applied: 1, conflicts: 1, omitted: 0, skipped: 0 };
    assert_eq!(by(replace).unwrap(), replaced);
    assert_eq!(target.execute("scan t").unwrap(), "rows 1\n(1,'x')");
    let skipped = target.apply(of_hex(OTHER_TABLE), omit, omit, omit).unwrap();
    assert_eq!(skipped, Report { version: 5, applied: 0, conflicts: 0, omitted: 0, skipped: 1 });
    // The second change is an insert of the row that is there, and then a delete of one that is missing.
    let two = of_hex("5402010074001200010000000000000002030179120001000000000000000103017a");
    let refused = target.apply(two, omit, omit, abort).unwrap_err();
    assert_eq!(refused.to_string(), "refused at 1: E15 Aborted, insert t key(1)");
    let source = std::error::Error::source(&refused).unwrap();
    let change = source.downcast_ref::<Refused>().unwrap().change.as_ref().unwrap();
    assert_eq!((&change.table[..], change.code, &change.key[..]), ("t", Action::Insert, &[1.into()][..]));
    let two = of_hex("5402010074001200010000000000000002030179090001000000000000000303017a");
    let refused = target.apply(two, omit, replace, omit).unwrap_err();
    assert_eq!(refused.to_string(), "refused at 1: E16 Misuse, delete t key(3)");
    let update = of_hex("540201007400170001000000000000000303017800030179");
    let refused = target.apply(&update, abort, abort, abort).unwrap_err();
    assert_eq!(refused.to_string(), "refused at 0: E15 Aborted, update t key(3)");
    let patchset = Changeset::from_bytes(&update).unwrap().patchset(KeyFlags::Places).unwrap();
    let refused = target.apply(&patchset, abort, abort, abort).unwrap_err();
    assert_eq!(refused.to_string(), "refused at 0: E15 Aborted, update t key(3)");
    assert_eq!(target.execute("scan t").unwrap(), "rows 1\n(1,'x')");
    assert!(matches!(
        target.apply(b"T\x80", omit, omit, omit),
        Err(Error::Malformed(Fault { kind: 3, at: 1 }))
    ));
}

#[test]
fn quiet_sessions() {
    let (server, other_server) = (Server::open_in_memory().unwrap(), Server::open_in_memory().unwrap());
    let client = server.client().unwrap();
    client.create_table("t", &[true, false]).unwrap();
    let sessions: Vec<Session> = (0..2).map(|_| Session::new(&server).unwrap()).collect();
    let foreign = Session::new(&other_server).unwrap();
    sessions.iter().for_each(|session| session.attach(None).unwrap());
    let empty = || [0, 1].map(|at: usize| sessions[at].is_empty().unwrap());
    let (omit, insert) = (ConflictAction::Omit, of_hex(INSERT));
    let options = ApplyOptions::new(omit, omit, omit).quiet(&sessions[0]);
    let of_another = options.clone().quiet(&foreign);
    assert!(matches!(client.apply_options(&insert, &of_another), Err(Error::Misuse)));
    let applied = Report { version: 2, applied: 1, conflicts: 0, omitted: 0, skipped: 0 };
    let none = Passed { groups: 0, changes: 0 };
    assert_eq!(client.apply_options(&insert, &options).unwrap(), (applied, none));
    assert_eq!(empty(), [true, false]);
    let mut changes = Changeset::from_bytes(&insert).unwrap().iter().unwrap();
    let omitted = Report { version: 3, applied: 0, conflicts: 1, omitted: 1, skipped: 0 };
    assert_eq!(client.apply_iter_options(&mut changes, &options).unwrap(), (omitted, none));
    assert!(!changes.buffer().unwrap().is_empty());
    client.execute("drop 1").unwrap();
    assert_eq!(refusal_of(client.apply_options(&insert, &options)), (Refusal::NoSession, None));
    let neither = ApplyOptions::new(omit, omit, omit);
    assert_eq!(client.apply_options(of_hex(DELETE), &neither).unwrap().0.applied, 1);
}

#[test]
fn tables_that_are_passed_over() {
    let client = Server::open_in_memory().unwrap().client().unwrap();
    client.create_table("t", &[true, false]).unwrap();
    let abort = ConflictAction::Abort;
    let of_t = || ApplyOptions::new(abort, abort, abort).filter("is t");
    // The other table is not there, and is passed over, not skipped.
    let both = [of_hex(OTHER_TABLE), of_hex(INSERT)].concat();
    let applied = Report { version: 2, applied: 1, conflicts: 0, omitted: 0, skipped: 0 };
    let one = Passed { groups: 1, changes: 1 };
    assert_eq!(client.apply_options(&both, &of_t()).unwrap(), (applied, one));
    // The number of the refused change is that in the blob.
    let refused = client.apply_options(&both, &of_t()).unwrap_err();
    assert_eq!(refused.to_string(), "refused at 1: E15 Aborted, insert t key(1)");
    let mut changes = Changeset::from_bytes(&both).unwrap().iter().unwrap();
    assert!(client.apply_iter_options(&mut changes, &of_t()).is_err());
    assert_eq!(changes.next().unwrap().table_name(), "u");
    let omit = ConflictAction::Omit;
    let options = ApplyOptions::new(omit, omit, omit).filter("is t");
    assert_eq!(client.apply_iter_options(&mut changes, &options).unwrap().1, one);
    assert_eq!(changes.buffer().unwrap().as_bytes(), of_hex(INSERT));
    assert_eq!(changes.map(|it| it.table_name().to_string()).collect::<Vec<_>>(), ["t"]);
    for (filter, fault) in [("is", Fault { kind: 12, at: 2 }), ("or(", Fault { kind: 12, at: 3 })] {
        let made = client.apply_options(&both, &of_t().filter(filter));
        assert!(matches!(made, Err(Error::Filter(why)) if why == fault));
    }
}

#[test]
fn filters_and_differences() {
    let server = Server::open_in_memory().unwrap();
    let source = server.client().unwrap();
    for table in ["a", "b"] {
        source.create_table(table, &[true, false]).unwrap();
    }
    let session = Session::new(&server).unwrap();
    session.table_filter("not is a").unwrap();
    assert!(matches!(session.table_filter("not is"), Err(Error::Filter(Fault { kind: 12, at: 6 }))));
    source.save("before").unwrap();
    source.execute("commit insert a (1,'x') ; insert b (2,'y')").unwrap();
    let changeset = session.restart().unwrap().changeset(KeyFlags::Places).unwrap();
    assert_eq!(changeset.as_bytes(), of_hex("5402010062001200010000000000000002030179"));
    session.diff("before", "a").unwrap();
    let changeset = session.capture().unwrap().changeset(KeyFlags::Places).unwrap();
    assert_eq!(changeset.as_bytes(), of_hex("5402010061001200010000000000000001030178"));
    assert_eq!(refusal_of(session.diff("after", "a")), (Refusal::NoDatabase, None));
    assert!(matches!(session.diff("", "a"), Err(Error::Misuse)));
    assert!(matches!(source.save("\0"), Err(Error::Misuse)));
}

/// The blobs of the file that CHANGECAP_BLOBS names: 'HEX KIND AT' a line.
#[test]
fn known_faults() {
    let Ok(path) = std::env::var("CHANGECAP_BLOBS") else { return };
    for line in std::fs::read_to_string(path).unwrap().lines() {
        let words: Vec<&str> = line.split(' ').collect();
        let (kind, at) = (words[1].parse().unwrap(), words[2].parse().unwrap());
        match check(&of_hex(words[0])) {
            Ok(()) => assert_eq!(kind, 0, "{line}"),
            Err(Error::Malformed(fault)) => assert_eq!(fault, Fault { kind, at }, "{line}"),
            Err(error) => panic!("{line}: {error}"),
        }
    }
}
