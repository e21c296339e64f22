//! A search index that follows a table by captures, while threads write. ../../README.md says how.
use changecap::{Batch, Cause, KeyFlags, Result, Row, Server, Session, ValueRef};
use std::collections::{BTreeSet, HashMap};

/// The words of the texts in column 1 of a table, each with the keys of the rows that have it.
#[derive(Default)]
struct Index {
    rows: HashMap<String, BTreeSet<i64>>,
    version: u64,
}

impl Index {
    /// Takes what was committed since the last time. The index is then that of the tables at its version.
    fn catch_up(&mut self, session: &Session) -> Result<()> {
        for capture in session.captures() {
            let capture = capture?;
            for change in capture.changeset(KeyFlags::Places)?.iter()? {
                let id = change.key().next().and_then(ValueRef::as_i64).unwrap();
                // Of an update that leaves the text as it is, neither side has it.
                for word in words(change.old_value(1)) {
                    self.rows.entry(word.to_owned()).or_default().remove(&id);
                }
                for word in words(change.new_value(1)) {
                    self.rows.entry(word.to_owned()).or_default().insert(id);
                }
            }
            self.version = capture.version();
        }
        Ok(())
    }

    fn search(&self, word: &str) -> Vec<i64> {
        self.rows.get(word).into_iter().flatten().copied().collect()
    }
}

fn words(text: Option<ValueRef<'_>>) -> impl Iterator<Item = &str> {
    text.and_then(ValueRef::as_str).unwrap_or_default().split_whitespace()
}

// ---- A run ----

const WORDS: [&str; 5] = ["red", "green", "blue", "round", "square"];

/// Inserts ten rows, changes the text of each, and another column, and deletes one.
fn write(server: &Server, thread: usize) -> Result<()> {
    let (client, mut batch) = (server.client()?, Batch::new()?);
    for number in 0..10 {
        let (row, text) = ((10 * thread + number) as i64, WORDS[(thread + number) % 5]);
        batch.insert("things", (row, text, 0), Cause::Direct)?;
        client.commit(&mut batch)?;
        let longer = format!("{text} {}", WORDS[(2 * thread + number * 2) % 5]);
        batch.update("things", (row,), &[(1, longer)], Cause::Direct)?;
        client.commit(&mut batch)?;
        batch.update("things", (row,), &[(2, number as i64)], Cause::Direct)?;
        client.commit(&mut batch)?;
    }
    batch.delete("things", (10 * thread as i64,), Cause::Direct)?;
    client.commit(&mut batch).map(drop)
}

fn main() -> Result<()> {
    let server = Server::open_in_memory()?;
    server.client()?.create_table("things", &[true, false, false])?;
    let (session, mut index) = (Session::new(&server)?, Index::default());
    session.attach(Some("things"))?;
    std::thread::scope(|scope| {
        let server = &server;
        let threads: Vec<_> =
            (0..4).map(|thread| scope.spawn(move || write(server, thread).unwrap())).collect();
        while threads.iter().any(|thread| !thread.is_finished()) {
            index.catch_up(&session)?;
        }
        Ok::<_, changecap::Error>(())
    })?;
    index.catch_up(&session)?;
    let rows: Vec<Row> = server.client()?.snapshot()?.scan("things")?.collect::<Result<_>>()?;
    println!("{} rows", rows.len());
    for word in ["blue", "yellow"] {
        let found: Vec<String> = index.search(word).iter().map(|id| format!(" {id}")).collect();
        println!("{word}:{}", found.concat());
    }
    for word in WORDS {
        let has_word = |row: &&Row| words(row.get_ref(1).ok()).any(|it| it == word);
        let ids: Result<Vec<i64>> = rows.iter().filter(has_word).map(|row| row.get(0)).collect();
        if index.search(word) != ids? {
            println!("{word} is found in other rows");
        }
    }
    Ok(())
}
