//! One server that several threads use, and what is dropped in which order.
use changecap::*;
use std::sync::atomic::{AtomicBool, AtomicU64, Ordering};
use std::sync::mpsc;
use std::thread;
use std::time::Duration;

const ACCOUNTS: i64 = 16;
const MONEY: i64 = 1_000;
const TRANSFERS: u64 = 500;

/// A server with the table t, whose key is its first column.
fn with_table() -> Server {
    let server = Server::open_in_memory().unwrap();
    server.client().unwrap().create_table("t", &[true, false]).unwrap();
    server
}

/// A session that has all changes from now on.
fn with_session(server: &Server) -> Session {
    let session = Session::new(server).unwrap();
    session.attach(None).unwrap();
    session
}

/// The rows of a table, as texts.
fn rows_of(server: &Server, table: &str) -> Vec<String> {
    let rows = server.client().unwrap().snapshot().unwrap().scan(table).unwrap();
    rows.map(|row| row.unwrap().values().map(|value| format!("{value} ")).collect()).collect()
}

#[test]
fn what_threads_may_have() {
    fn is_send<T: Send>() {}
    fn is_shared<T: Send + Sync>() {}
    is_shared::<Server>();
    is_shared::<Session>();
    is_shared::<(Error, Refused, Value, Row, Change, Changeset, Patchset, Report)>();
    is_send::<(Client, Snapshot, Transaction, Batch, Capture)>();
    is_send::<(Rows, ChangesetIter, Decoder, Captures<'_>)>();
}

#[test]
fn clients_of_one_server() {
    let server = with_table();
    let (first, second) = (server.client().unwrap(), server.client().unwrap());
    let session = with_session(&server);
    let (mut one, mut other) = (Batch::new().unwrap(), Batch::new().unwrap());
    one.insert("t", (2, "y"), Cause::Direct).unwrap();
    other.insert("t", (1, "x"), Cause::Direct).unwrap();
    // Any client commits a batch.
    assert_eq!((second.commit(&mut one).unwrap(), first.commit(&mut other).unwrap()), (2, 3));
    assert_eq!(session.restart().unwrap().changeset(KeyFlags::Places).unwrap().iter().unwrap().count(), 2);
    // A batch for a version that another client has left behind.
    let mut late = Batch::new_at(3).unwrap();
    second.execute("commit delete t key(1)").unwrap();
    let Err(Error::Refused(why)) = first.commit(&mut late) else { panic!() };
    assert_eq!((why.code, why.at), (Refusal::Stale, None));
    // The session keeps its server, and so does a client.
    drop((server, first));
    assert_eq!(session.restart().unwrap().version(), 4);
    drop(session);
    assert!(second.execute("isempty 1").is_err());
    assert_eq!(second.snapshot().unwrap().scan("t").unwrap().count(), 1);
    assert_eq!(second.execute("commit insert t (1,'x')").unwrap(), "ok version 5");
}

#[test]
fn a_client_is_waited_for() {
    let server = with_table();
    let mut lent: Vec<_> = (0..63).map(|_| server.client().unwrap()).collect();
    // No other call needs one.
    let session = with_session(&server);
    let ((), capture) = session.transaction(|t| t.insert("t", (1, "x"), Cause::Direct)).unwrap();
    assert_eq!((capture.version(), server.transaction(|_| Ok(())).unwrap()), (2, ((), 3)));
    let (send, receive) = mpsc::channel();
    let others: Vec<_> = (0..4)
        .map(|_| {
            let (server, send) = (server.clone(), send.clone());
            thread::spawn(move || {
                let client = server.client().unwrap();
                send.send(client.execute("version").is_ok()).unwrap();
            })
        })
        .collect();
    assert!(receive.recv_timeout(Duration::from_millis(50)).is_err());
    lent.truncate(62);
    // Each hands it on.
    for other in others {
        other.join().unwrap();
    }
    assert_eq!(receive.try_iter().count(), 4);
    assert_eq!(server.client().unwrap().execute("commit insert t (2,'y')").unwrap(), "ok version 4");
}

#[test]
fn clients_of_several_threads() {
    let server = with_table();
    let session = with_session(&server);
    let threads: Vec<_> = (0..4)
        .map(|first| {
            let client = server.client().unwrap();
            thread::spawn(move || {
                let mut batch = Batch::new().unwrap();
                for number in 0..100 {
                    let key = 1000 * first + number;
                    batch.insert("t", (key, None::<i64>), Cause::Direct).unwrap();
                    let version = client.commit(&mut batch).unwrap();
                    let snapshot = client.snapshot().unwrap();
                    assert!(snapshot.version() >= version && snapshot.get("t", (key,)).unwrap().is_some());
                }
            })
        })
        .collect();
    // Meanwhile a session captures what they commit, each row once.
    let taken = thread::spawn(move || {
        let mut rows = 0;
        while rows < 400 {
            for capture in session.captures() {
                rows += capture.unwrap().changeset(KeyFlags::Places).unwrap().iter().unwrap().count();
            }
        }
        (rows, session.is_empty().unwrap())
    });
    threads.into_iter().for_each(|thread| thread.join().unwrap());
    assert_eq!(taken.join().unwrap(), (400, true));
    assert_eq!(rows_of(&server, "t").len(), 400);
    assert_eq!(server.client().unwrap().execute("create v kv").unwrap(), "ok version 402");
}

/// The numbers of a small random series.
struct Random(u64);

impl Random {
    fn below(&mut self, limit: i64) -> i64 {
        self.0 ^= self.0 << 13;
        self.0 ^= self.0 >> 7;
        self.0 ^= self.0 << 17;
        (self.0 % limit as u64) as i64
    }
}

/// The balance of an account.
fn balance(t: &mut Transaction, account: i64) -> Result<i64> {
    t.get("accounts", (account,))?.expect("an account").get(1)
}

/// Moves money between two accounts, with a detour, and answers how often it was begun.
fn transfer(server: &Server, random: &mut Random) -> Result<u64> {
    let from = random.below(ACCOUNTS);
    let (to, amount) = ((from + 1 + random.below(ACCOUNTS - 1)) % ACCOUNTS, random.below(50));
    let mut begun = 0;
    server.transaction(|t| {
        begun += 1;
        let left = balance(t, from)? - amount;
        t.update("accounts", (from,), &[(1, left)], Cause::Direct)?;
        let savepoint = t.savepoint()?;
        t.update("accounts", (from,), &[(1, -1)], Cause::Direct)?;
        t.rollback_to(savepoint)?;
        assert_eq!(balance(t, from)?, left);
        let more = balance(t, to)? + amount;
        t.update("accounts", (to,), &[(1, more)], Cause::Direct)
    })?;
    Ok(begun)
}

/// Reads snapshots until all is done: the sum stays as it is.
fn read_sums(server: &Server, is_done: &AtomicBool) -> u64 {
    let (client, mut reads, mut before) = (server.client().unwrap(), 0, 0);
    while !is_done.load(Ordering::Acquire) {
        let snapshot = client.snapshot().unwrap();
        let rows = snapshot.scan("accounts").unwrap();
        assert_eq!(rows.map(|row| row.unwrap().get::<i64>(1).unwrap()).sum::<i64>(), ACCOUNTS * MONEY);
        assert!(snapshot.version() >= before);
        (reads, before) = (reads + 1, snapshot.version());
    }
    reads
}

/// Captures by restart until all is done.
fn audit(session: &Session, is_done: &AtomicBool) -> Vec<(u64, Changeset)> {
    let mut captured = Vec::new();
    loop {
        let is_last = is_done.load(Ordering::Acquire);
        for capture in session.captures() {
            let capture = capture.unwrap();
            captured.push((capture.version(), capture.changeset(KeyFlags::Places).unwrap()));
        }
        if is_last {
            return captured;
        }
        thread::yield_now();
    }
}

/// A server with a session that has the accounts as its first changes.
fn with_accounts() -> (Server, Session) {
    let server = Server::open_in_memory().unwrap();
    server.client().unwrap().create_table("accounts", &[true, false]).unwrap();
    let session = with_session(&server);
    let insert = |t: &mut Transaction, account| t.insert("accounts", (account, MONEY), Cause::Direct);
    server.transaction(|t| (0..ACCOUNTS).try_for_each(|account| insert(t, account))).unwrap();
    (server, session)
}

/// All captures as one, applied to empty tables.
fn replayed(captured: &[(u64, Changeset)]) -> Server {
    let mut whole = Changeset::from_bytes(&[]).unwrap();
    for (_, changeset) in captured {
        whole = Changeset::concat(&whole, changeset, KeyFlags::Places).unwrap();
    }
    let copy = Server::open_in_memory().unwrap();
    let client = copy.client().unwrap();
    client.create_table("accounts", &[true, false]).unwrap();
    let abort = ConflictAction::Abort;
    assert_eq!(client.apply(&whole, abort, abort, abort).unwrap().applied, ACCOUNTS as u64);
    copy
}

#[test]
fn money_that_four_threads_move() {
    let (server, session) = with_accounts();
    let (is_done, begun) = (AtomicBool::new(false), AtomicU64::new(0));
    let captured = thread::scope(|scope| {
        let auditor = scope.spawn(|| audit(&session, &is_done));
        let reader = scope.spawn(|| read_sums(&server, &is_done));
        let movers: Vec<_> = (1..=4)
            .map(|seed| {
                let (server, begun) = (&server, &begun);
                scope.spawn(move || {
                    let mut random = Random(88_172_645_463_325_252 + seed);
                    for _ in 0..TRANSFERS {
                        begun.fetch_add(transfer(server, &mut random).unwrap(), Ordering::Relaxed);
                    }
                })
            })
            .collect();
        // The others end whatever becomes of these.
        let moved: Vec<_> = movers.into_iter().map(|mover| mover.join()).collect();
        is_done.store(true, Ordering::Release);
        moved.into_iter().for_each(|moved| moved.unwrap());
        reader.join().unwrap();
        auditor.join().unwrap()
    });
    assert!(begun.into_inner() >= 4 * TRANSFERS);
    assert!(captured.windows(2).all(|two| two[0].0 < two[1].0));
    // The table, its rows, and each transfer.
    assert_eq!(captured.last().unwrap().0, 2 + 4 * TRANSFERS);
    assert_eq!(rows_of(&server, "accounts"), rows_of(&replayed(&captured), "accounts"));
}

#[test]
fn commits_of_several_threads_with_their_captures() {
    let server = with_table();
    let session = with_session(&server);
    thread::scope(|scope| {
        for first in 0..4 {
            let session = &session;
            scope.spawn(move || {
                for number in 1000 * first..1000 * first + 100 {
                    let insert = |t: &mut Transaction| t.insert("t", (number, "x"), Cause::Direct);
                    let ((), capture) = session.transaction(insert).unwrap();
                    let changeset = capture.changeset(KeyFlags::Places).unwrap();
                    let changes: Vec<_> = changeset.iter().unwrap().collect();
                    assert_eq!(changes.len(), 1);
                    assert_eq!(changes[0].new_value(0), Some(ValueRef::Integer(number)));
                }
            });
        }
    });
    assert!(session.is_empty().unwrap());
    assert_eq!(rows_of(&server, "t").len(), 400);
}

#[test]
fn sessions_that_other_threads_drop() {
    let server = with_table();
    let (send, receive) = mpsc::sync_channel::<Session>(20);
    let dropper = thread::spawn(move || receive.into_iter().for_each(drop));
    for _ in 0..1_000 {
        let mut held: Vec<_> = (0..40).map(|_| Session::new(&server).unwrap()).collect();
        held.drain(..20).for_each(|session| send.send(session).unwrap());
        for session in held {
            drop(session);
            // Of 70 that are made in a round, no more than 64 are live at once.
            drop(Session::new(&server).unwrap());
        }
        (0..10).for_each(|_| drop(Session::new(&server).unwrap()));
    }
    drop(send);
    dropper.join().unwrap();
    // None is left: 64 more have room, and no further one.
    let live: Vec<_> = (0..64).map(|_| Session::new(&server).unwrap()).collect();
    assert!(matches!(Session::new(&server), Err(Error::Refused(why)) if why.code == Refusal::TooMany));
    drop(live);
}

/// What a server gives, all of it in use.
fn everything(server: &Server) -> Vec<Box<dyn Send>> {
    let (client, session) = (server.client().unwrap(), with_session(server));
    client.execute("commit insert t (1,'x') ; insert t (2,'y')").unwrap();
    let (capture, snapshot) = (session.capture().unwrap(), client.snapshot().unwrap());
    let (mut transaction, mut batch) = (snapshot.transaction().unwrap(), Batch::new().unwrap());
    transaction.delete("t", (1,), Cause::Direct).unwrap();
    batch.delete("t", (1,), Cause::Direct).unwrap();
    let mut rows = snapshot.scan("t").unwrap();
    let row = rows.next().unwrap().unwrap();
    let changes = capture.changeset(KeyFlags::Places).unwrap().iter().unwrap();
    vec![
        Box::new(client),
        Box::new(session),
        Box::new(capture),
        Box::new(snapshot),
        Box::new(transaction),
        Box::new(batch),
        Box::new(rows),
        Box::new(row),
        Box::new(changes),
    ]
}

#[test]
fn handles_that_are_dropped_in_any_order() {
    for first in 0..9 {
        for is_server_first in [true, false] {
            let server = with_table();
            let mut parts = everything(&server);
            parts.rotate_left(first);
            let server = if is_server_first { None } else { Some(server) };
            // Each on a thread of its own, and some on none.
            for part in parts.drain(..5) {
                thread::spawn(move || drop(part)).join().unwrap();
            }
            let others: Vec<_> = parts.into_iter().map(|part| thread::spawn(move || drop(part))).collect();
            drop(server);
            others.into_iter().for_each(|other| other.join().unwrap());
        }
    }
}
