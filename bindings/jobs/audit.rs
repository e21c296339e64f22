//! Four threads commit on one server. Each commit captures its own changes, and a line of JSON for each is kept.
//! Replayed backwards, the lines give the rows of an earlier version.
use changecap::{Action, Batch, Capture, Cause, Change, KeyFlags, Result, Server, Session, Transaction};
use std::collections::BTreeMap;
use std::sync::Mutex;

const THREADS: i64 = 4;
const TIMES: i64 = 3;

/// The rows of a version.
type State = BTreeMap<i64, i64>;

/// A line of the trail: a row before and after a commit of a version.
struct Line {
    thread: i64,
    version: u64,
    key: i64,
    old: Option<i64>,
    new: Option<i64>,
}

impl Line {
    fn of(thread: i64, version: u64, change: &Change) -> Line {
        let key = change.key().next().and_then(|value| value.as_i64()).expect("an integer");
        let old = change.old_value(1).and_then(|value| value.as_i64());
        let new = change.new_value(1).and_then(|value| value.as_i64());
        assert_eq!(change.code() == Action::Update, old.is_some() && new.is_some());
        Line { thread, version, key, old, new }
    }

    fn json(&self) -> String {
        let side = |value: Option<i64>| value.map_or("null".into(), |it| it.to_string());
        let (old, new) = (side(self.old), side(self.new));
        format!(
            r#"{{"thread":{},"version":{},"row":{},"old":{old},"new":{new}}}"#,
            self.thread, self.version, self.key
        )
    }
}

/// Adds to the row 0, which all threads do, and changes a row of the thread's own.
fn change_rows(t: &mut Transaction, phase: i64, thread: i64, i: i64) -> Result<()> {
    let value: i64 = t.get("t", (0,))?.expect("the row 0").get(1)?;
    let more = if phase == 1 { thread } else { 10 * thread };
    t.update("t", (0,), &[(1, value + more)], Cause::Direct)?;
    match (phase, i) {
        (1, _) => t.insert("t", (10 * thread + i, 100 * thread + i), Cause::Direct),
        (_, 1) => t.update("t", (10 * thread + 1,), &[(1, 0)], Cause::Direct),
        (_, 2) => t.delete("t", (10 * thread + 2,), Cause::Direct),
        _ => t.insert("t", (10 * thread + 4, 400 + thread), Cause::Direct),
    }
}

fn work(session: &Session, phase: i64, thread: i64, lines: &Mutex<Vec<Line>>) -> Result<()> {
    for i in 1..=TIMES {
        let ((), capture): ((), Capture) = session.transaction(|t| change_rows(t, phase, thread, i))?;
        for change in capture.changeset(KeyFlags::Places)?.iter()? {
            lines.lock().unwrap().push(Line::of(thread, capture.version(), &change));
        }
    }
    Ok(())
}

fn run_phase(session: &Session, phase: i64, lines: &Mutex<Vec<Line>>) -> Result<()> {
    std::thread::scope(|scope| {
        let run = |thread| scope.spawn(move || work(session, phase, thread, lines));
        let running: Vec<_> = (1..=THREADS).map(run).collect();
        running.into_iter().try_for_each(|thread| thread.join().unwrap())
    })
}

/// The rows now, and their version.
fn read_state(server: &Server) -> Result<(State, u64)> {
    let snapshot = server.client()?.snapshot()?;
    let rows: Result<State> =
        snapshot.scan("t")?.map(|row| row.and_then(|it| Ok((it.get(0)?, it.get(1)?)))).collect();
    Ok((rows?, snapshot.version()))
}

/// The rows of an earlier version, by the lines behind it.
fn back_to(mut state: State, version: u64, lines: &mut [Line]) -> State {
    lines.sort_by_key(|line| line.version);
    for line in lines.iter().rev().filter(|line| line.version > version) {
        match line.old {
            None => state.remove(&line.key),
            Some(old) => state.insert(line.key, old),
        };
    }
    state
}

fn print_state(version: u64, state: &State) {
    println!("version {version}");
    for (number, value) in state {
        println!("{number} {value}");
    }
}

fn main() -> Result<()> {
    let server = Server::open_in_memory()?;
    let client = server.client()?;
    client.create_table("t", &[true, false])?;
    let mut batch = Batch::new()?;
    batch.insert("t", (0, 0), Cause::Direct)?;
    client.commit(&mut batch)?;
    let (session, lines) = (Session::new(&server)?, Mutex::new(Vec::new()));
    session.attach(Some("t"))?;
    run_phase(&session, 1, &lines)?;
    let (then, middle) = read_state(&server)?;
    run_phase(&session, 2, &lines)?;
    let (state, version) = read_state(&server)?;
    let mut lines = lines.into_inner().unwrap();
    let texts: Vec<String> = lines.iter().map(Line::json).collect();
    println!("lines {}", texts.len());
    print_state(version, &state);
    let state = back_to(state, middle, &mut lines);
    print_state(middle, &state);
    println!("{}", if state == then { "as it was then" } else { "another state than then" });
    Ok(())
}
