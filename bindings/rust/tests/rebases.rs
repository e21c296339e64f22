//! Rebasing, beside worked values, and between servers.
use changecap::ConflictAction::{Abort, Omit, Replace};
use changecap::*;

/// Changes of the row 1 of a table t with a key and one value, as digits behind the header of its group.
const HEADER: &str = "540201007400";
const INSERT_X: &str = "1200010000000000000001030178";
const INSERT_Y: &str = "1200010000000000000001030179";
const X_TO_Y: &str = "170001000000000000000103017800030179";
const X_TO_Z: &str = "17000100000000000000010301780003017a";
const Y_TO_Z: &str = "17000100000000000000010301790003017a";
const DELETE_X: &str = "0900010000000000000001030178";
const DELETE_Y: &str = "0900010000000000000001030179";

/// The same of a table with a key and two values, which is ('a','b') in the beginning.
const WIDE_HEADER: &str = "54030100007400";
const FIRST_TO_X: &str = "170001000000000000000103016100" /* (1,'a',-) */;
const BOTH_TO_Y_Z: &str = "1700010000000000000001030161030162" /* (1,'a','b') */;

fn of_hex(hex: &str) -> Vec<u8> {
    (0..hex.len() / 2).map(|at| u8::from_str_radix(&hex[2 * at..2 * at + 2], 16).unwrap()).collect()
}

/// The changeset of a group with this header and this change, or of none.
fn changeset(header: &str, change: &str) -> Changeset {
    let header = if change.is_empty() { "" } else { header };
    Changeset::from_bytes(&of_hex(&format!("{header}{change}"))).unwrap()
}

/// The buffer of an application elsewhere in which each change met a conflict.
fn buffer_of(changeset: &Changeset, answer: ConflictAction) -> RebaseBuffer {
    let mut changes = changeset.iter().unwrap();
    while changes.next().is_some() {
        changes.answer(answer).unwrap();
    }
    changes.buffer().unwrap()
}

/// Checks what a local change is over a remote one.
fn rebased_is(header: &str, local: &str, remote: &str, answer: ConflictAction, wanted: &str) {
    let mut rebaser = Rebaser::new();
    rebaser.configure(&buffer_of(&changeset(header, remote), answer));
    let rebased = rebaser.rebase(&changeset(header, local), KeyFlags::Places).unwrap();
    assert_eq!(rebased, changeset(header, wanted), "{local} over {remote}, {answer:?}");
}

#[test]
fn one_change_over_another() {
    for (local, remote, answer, wanted) in [
        (INSERT_Y, INSERT_X, Omit, X_TO_Y),
        (INSERT_X, INSERT_X, Omit, ""),
        (INSERT_Y, INSERT_X, Replace, ""),
        (X_TO_Z, X_TO_Y, Omit, Y_TO_Z),
        (X_TO_Y, X_TO_Y, Omit, ""),
        (X_TO_Z, X_TO_Y, Replace, ""),
        (X_TO_Y, DELETE_X, Omit, INSERT_Y),
        (X_TO_Y, DELETE_X, Replace, ""),
        (DELETE_X, X_TO_Y, Omit, DELETE_Y),
        (DELETE_X, DELETE_X, Omit, ""),
    ] {
        rebased_is(HEADER, local, remote, answer, wanted);
    }
}

#[test]
fn columns_that_only_the_other_has_changed() {
    let local = format!("{FIRST_TO_X}0003017800");
    let remote = format!("{BOTH_TO_Y_Z}0003017903017a");
    // From ('y','z') to ('x','b'), the row that the copy has kept.
    let wanted = "170001000000000000000103017903017a00030178030162";
    rebased_is(WIDE_HEADER, &local, &remote, Omit, wanted);
    rebased_is(WIDE_HEADER, &local, &remote, Replace, "");
    // Of what both have changed, the local change of the other column is left.
    let wanted = "170001000000000000000100030162000003017a";
    rebased_is(WIDE_HEADER, &remote, &local, Replace, wanted);
}

#[test]
fn a_change_keeps_its_mark_and_others_stay() {
    let indirect = X_TO_Z.replacen("1700", "1701", 1);
    rebased_is(HEADER, &indirect, X_TO_Y, Omit, &Y_TO_Z.replacen("1700", "1701", 1));
    let other_row = INSERT_Y.replacen("01030179", "02030179", 1);
    rebased_is(HEADER, &format!("{X_TO_Z}{other_row}"), X_TO_Y, Omit, &format!("{Y_TO_Z}{other_row}"));
    let rebaser = Rebaser::new();
    let local = changeset(HEADER, X_TO_Z);
    assert_eq!(rebaser.rebase(&local, KeyFlags::Places).unwrap(), local);
}

#[test]
fn several_buffers_are_taken_one_after_the_other() {
    let mut rebaser = Rebaser::new();
    rebaser.configure(&RebaseBuffer::default());
    for (remote, answer) in [(DELETE_X, Omit), (INSERT_Y, Omit)] {
        rebaser.configure(&buffer_of(&changeset(HEADER, remote), answer));
    }
    let rebased = rebaser.rebase(&changeset(HEADER, X_TO_Z), KeyFlags::Ones).unwrap();
    assert_eq!(rebased, changeset(HEADER, Y_TO_Z));
}

#[test]
fn what_is_refused() {
    let patchset = changeset(HEADER, INSERT_X).patchset(KeyFlags::Places).unwrap();
    assert!(matches!(patchset.iter().unwrap().buffer(), Err(Error::Patchset)));
    assert!(matches!(RebaseBuffer::from_bytes(patchset.as_bytes()), Err(Error::Patchset)));
    assert!(matches!(RebaseBuffer::from_bytes(b"T"), Err(Error::Malformed(_))));
    let mut changes = changeset(HEADER, INSERT_X).iter().unwrap();
    assert!(matches!(changes.answer(Omit), Err(Error::Misuse)));
    changes.next().unwrap();
    assert!(matches!(changes.answer(Abort), Err(Error::Misuse)));
    assert!(changes.buffer().unwrap().is_empty());
    let mut rebaser = Rebaser::new();
    rebaser.configure(&buffer_of(&changeset(HEADER, DELETE_X), Omit));
    let wide = changeset(WIDE_HEADER, &format!("{FIRST_TO_X}0003017800"));
    assert!(matches!(rebaser.rebase(&wide, KeyFlags::Places), Err(Error::OtherColumns)));
    rebaser.configure(&buffer_of(&wide, Omit));
    assert!(matches!(rebaser.rebase(&changeset(HEADER, X_TO_Y), KeyFlags::Places), Err(Error::OtherColumns)));
}

/// The rows of the table of a server.
fn rows_of(server: &Server) -> Vec<Vec<Value>> {
    let rows = server.client().unwrap().snapshot().unwrap().scan("t").unwrap();
    rows.map(|row| row.unwrap().values().map(Value::from).collect()).collect()
}

/// Makes the changes of one side: an insert, and an update or a delete of each of three rows.
fn change(server: &Server, text: &str) -> Changeset {
    let session = Session::new(server).unwrap();
    session.attach(None).unwrap();
    let ((), capture) = session
        .transaction(|t| {
            t.insert("t", (7, text, text), Cause::Direct)?;
            t.update("t", (1,), &[(1, text)], Cause::Direct)?;
            t.update("t", (2,), &[(if text == "hub" { 1 } else { 2 }, text)], Cause::Direct)?;
            if text == "hub" {
                t.update("t", (3,), &[(2, text)], Cause::Direct)
            } else {
                t.delete("t", (3,), Cause::Direct)
            }
        })
        .unwrap();
    capture.changeset(KeyFlags::Places).unwrap()
}

#[test]
fn servers_have_the_same_rows() {
    for answer in [Omit, Replace] {
        let (hub, copy) = (Server::open_in_memory().unwrap(), Server::open_in_memory().unwrap());
        for server in [&hub, &copy] {
            server.client().unwrap().create_table("t", &[true, false, false]).unwrap();
            for key in 1..=3 {
                server.transaction(|t| t.insert("t", (key, "a", "b"), Cause::Direct)).unwrap();
            }
        }
        let (theirs, ours) = (change(&hub, "hub"), change(&copy, "copy"));
        let mut changes = theirs.iter().unwrap();
        let client = copy.client().unwrap();
        assert!(client.apply_iter(&mut changes, Abort, Abort, Abort).is_err());
        let report = client.apply_iter(&mut changes, answer, Omit, answer).unwrap();
        assert_eq!((report.conflicts, report.omitted), (3, if answer == Omit { 3 } else { 1 }));
        let mut rebaser = Rebaser::new();
        rebaser.configure(&changes.buffer().unwrap());
        let rebased = rebaser.rebase(&ours, KeyFlags::Places).unwrap();
        assert_eq!(hub.client().unwrap().apply(&rebased, Abort, Abort, Abort).unwrap().conflicts, 0);
        assert_eq!(rows_of(&hub), rows_of(&copy));
    }
}

#[test]
fn a_refused_application_has_its_change() {
    let client = Server::open_in_memory().unwrap().client().unwrap();
    client.create_table("t", &[true, false]).unwrap();
    let other_row = DELETE_X.replace("01030178", "02030178");
    let mut changes = changeset(HEADER, &format!("{INSERT_X}{other_row}")).iter().unwrap();
    for (answers, code) in [([Omit, Abort], Refusal::Aborted), ([Omit, Replace], Refusal::Misuse)] {
        let Err(Error::Refused(why)) = client.apply_iter(&mut changes, answers[0], answers[1], Omit) else {
            panic!()
        };
        assert_eq!((why.code, why.at), (code, Some(1)));
    }
    assert_eq!(client.snapshot().unwrap().scan("t").unwrap().count(), 0);
}
