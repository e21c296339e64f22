//! Applications whose conflicts a function decides.
use changecap::ConflictAction::{self, Abort, Omit, Replace};
use changecap::*;
use std::thread;

const INSERT: [u8; 20] = [0x54, 2, 1, 0, b't', 0, 0x12, 0, 1, 0, 0, 0, 0, 0, 0, 0, 1, 3, 1, b'x'];

/// A server with the table t and a row under 1.
fn with_row(text: &str) -> Server {
    let server = Server::open_in_memory().unwrap();
    let client = server.client().unwrap();
    client.create_table("t", &[true, false]).unwrap();
    client.execute(&format!("commit insert t (1,'{text}')")).unwrap();
    server
}

fn text_of(client: &Client, key: i64) -> Option<String> {
    client.snapshot().unwrap().get("t", (key,)).unwrap().map(|row| row.get(1).unwrap())
}

/// A blob that inserts the row under 1 twice, with another text the second time.
fn twice() -> Vec<u8> {
    [&INSERT[..], &[0x12, 0, 1, 0, 0, 0, 0, 0, 0, 0, 1, 3, 1, b'y']].concat()
}

#[test]
fn each_conflict_with_the_row_that_is_there() {
    let client = with_row("a").client().unwrap();
    let mut seen = Vec::new();
    let report = client
        .apply_with(twice(), None, |kind, item| {
            let row = item.present().unwrap();
            assert_eq!(item.conflict(1), Some((&row[1]).into()));
            assert_eq!((item.conflict(2), item.pk()), (None, &[true, false][..]));
            seen.push((
                kind,
                item.change_number(),
                row[1].to_string(),
                item.new_value(1).unwrap().to_string(),
            ));
            Replace
        })
        .unwrap();
    assert_eq!(report, Report { version: 3, applied: 2, conflicts: 2, omitted: 0, skipped: 0 });
    let conflict = ConflictType::Conflict;
    let wanted = [(conflict, 0, "'a'".into(), "'x'".into()), (conflict, 1, "'x'".into(), "'y'".into())];
    assert_eq!(seen, wanted);
    assert_eq!(text_of(&client, 1).unwrap(), "y");
}

#[test]
fn rows_in_place_of_changes() {
    let client = with_row("a").client().unwrap();
    let merged = |values: Vec<Value>| client.apply_with(INSERT, None, |_, _| values.clone());
    assert_eq!(merged(vec![1.into(), "ax".into()]).unwrap().omitted, 1);
    assert_eq!(text_of(&client, 1).unwrap(), "ax");
    assert!(matches!(merged(vec![2.into(), "ax".into()]), Err(Error::Misuse)));
    let Err(Error::Refused(why)) = merged(vec![1.into()]) else { panic!() };
    assert_eq!((why.code, why.at), (Refusal::WrongWidth, Some(0)));
    assert_eq!(text_of(&client, 1).unwrap(), "ax");
}

#[test]
fn answers_that_refuse_the_blob() {
    let client = with_row("a").client().unwrap();
    let Err(Error::Refused(why)) = client.apply_with(twice(), None, |_, item| match item.change_number() {
        0 => Omit,
        _ => Abort,
    }) else {
        panic!()
    };
    assert_eq!(why.to_string(), "refused at 1: E15 Aborted, insert t key(1)");
    let mut delete = INSERT;
    (delete[6], delete[16]) = (0x09, 2);
    let Err(Error::Refused(why)) = client.apply_with(delete, None, |kind, item| {
        assert_eq!((kind, item.present()), (ConflictType::NotFound, None));
        Replace
    }) else {
        panic!()
    };
    assert_eq!((why.code, why.at), (Refusal::Misuse, Some(0)));
    assert_eq!(client.snapshot().unwrap().version(), 2);
}

#[test]
fn filters_and_buffers() {
    let client = with_row("a").client().unwrap();
    let never = |_: ConflictType, _: &ChangesetItem| -> ConflictAction { panic!() };
    assert_eq!(client.apply_with(INSERT, Some("not is t"), never).unwrap().version, 3);
    let filter = |text| client.apply_with(INSERT, Some(text), never).unwrap_err();
    assert!(matches!(filter("is"), Error::Filter(Fault { kind: 12, at: 2 })));
    assert!(matches!(filter(""), Error::Filter(Fault { kind: 12, at: 0 })));
    assert!(matches!(
        client.apply_with([0x54, 0x80], None, never),
        Err(Error::Malformed(Fault { kind: 3, at: 1 }))
    ));
    let changeset = Changeset::from_bytes(&INSERT).unwrap();
    let (_, buffer) = client.apply_with_buffer(&changeset, Some("all"), |_, _| Omit).unwrap();
    let mut rebaser = Rebaser::new();
    rebaser.configure(&buffer);
    let own = Changeset::from_bytes(&[&INSERT[..19], b"z"].concat()).unwrap();
    let rebased = rebaser.rebase(&own, KeyFlags::Places).unwrap();
    assert_eq!(rebased.iter().unwrap().next().unwrap().code(), Action::Update);
}

#[test]
fn a_row_that_another_thread_changes_meanwhile() {
    let server = with_row("a");
    let (client, other) = (server.client().unwrap(), server.client().unwrap());
    let mut seen = Vec::new();
    let report = client
        .apply_with(INSERT, None, |_, item| {
            let text = item.conflict(1).unwrap().to_string();
            if seen.is_empty() {
                // It is looked at, and omitted; and a commit elsewhere is in nobody's way.
                other.execute("commit update t key(1) set 1 = 'b' ; insert t (2,'c')").unwrap();
            } else {
                other.execute("commit update t key(2) set 1 = 'd'").unwrap();
            }
            seen.push(text);
            Omit
        })
        .unwrap();
    assert_eq!(seen, ["'a'", "'b'"]);
    assert_eq!((report.version, report.omitted), (5, 1));
    assert_eq!((text_of(&client, 1).unwrap(), text_of(&client, 2).unwrap()), ("b".into(), "d".into()));
}

#[test]
fn counters_that_threads_add_to() {
    let server = Server::open_in_memory().unwrap();
    server.client().unwrap().create_table("t", &[true, false]).unwrap();
    server.client().unwrap().execute("commit insert t (1,0)").unwrap();
    // Inserts (1,1): the row that is there is one more.
    let one = [0x54, 2, 1, 0, b't', 0, 0x12, 0, 1, 0, 0, 0, 0, 0, 0, 0, 1, 1, 0, 0, 0, 0, 0, 0, 0, 1];
    thread::scope(|scope| {
        for _ in 0..4 {
            scope.spawn(|| {
                let client = server.client().unwrap();
                for _ in 0..50 {
                    let sum = |item: &ChangesetItem| {
                        item.conflict(1)?.as_i64()?.checked_add(item.new_value(1)?.as_i64()?)
                    };
                    client
                        .apply_with(one, None, |_, item| vec![1.into(), sum(item).unwrap().into()])
                        .unwrap();
                }
            });
        }
    });
    let row = server.client().unwrap().snapshot().unwrap().get("t", (1,)).unwrap().unwrap();
    assert_eq!(row.get::<i64>(1).unwrap(), 200);
}

#[test]
fn more_rows_than_a_commit_has_operations() {
    let client = Server::open_in_memory().unwrap().client().unwrap();
    client.create_table("t", &[true, false]).unwrap();
    let mut blob = INSERT[..6].to_vec();
    for key in 0..10_001i64 {
        blob.extend([0x12, 0, 1]);
        blob.extend(key.to_be_bytes());
        blob.push(5);
    }
    assert_eq!(client.apply_with(&blob, None, |_, _| Omit).unwrap().applied, 10_001);
    assert_eq!(client.snapshot().unwrap().version(), 2);
}
