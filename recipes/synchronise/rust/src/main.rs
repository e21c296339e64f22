//! Databases of SQLite that change the same rows get in step through a hub. ../../README.md says how.
use changecap::ConflictAction::{Abort, Omit, Replace};
use changecap::{ApplyOptions, Changeset, KeyFlags, Rebaser, Result, Row, Server, Session};
use sqlite::{Conflict, Database}; // in conformance/rust; rusqlite has its calls, too

/// A table server with a session for each client. Its calls are made one at a time.
struct Hub {
    server: Server,
    sessions: Vec<Session>,
}

impl Hub {
    /// Applies what a client has changed, unless others have changed something since its last pull.
    fn push(&self, number: usize, changeset: &Changeset) -> Result<bool> {
        let session = &self.sessions[number];
        if !session.is_empty()? {
            return Ok(false);
        }
        let options = ApplyOptions::new(Abort, Abort, Abort).quiet(session);
        self.server.client()?.apply_options(changeset, &options)?;
        Ok(true)
    }
}

/// A database, and what it has changed and the hub does not have yet.
struct Client {
    number: usize,
    database: Database,
    pending: Changeset,
}

impl Client {
    /// Applies what others have changed since the last pull, and rebases what is pending.
    fn pull(&mut self, hub: &Hub) -> Result<()> {
        let remote = hub.sessions[self.number].restart()?.changeset(KeyFlags::Places)?;
        self.database.execute("BEGIN IMMEDIATE"); // nobody writes between the capture and the application
        let captured = Changeset::from_bytes(&self.database.end_session())?;
        let made = self.database.apply(remote.as_bytes(), newest);
        self.database.begin_session();
        self.database.execute("COMMIT");
        let buffer = remote.rebase_buffer(|change| {
            let id = change.key().next().and_then(|value| value.as_i64())?;
            let is_made = made.get(&(change.table_name().to_owned(), id))?;
            Some(if *is_made { Replace } else { Omit })
        })?;
        let mut rebaser = Rebaser::new();
        rebaser.configure(&buffer);
        let pending = Changeset::concat(&self.pending, &captured, KeyFlags::Places)?;
        self.pending = rebaser.rebase(&pending, KeyFlags::Places)?;
        Ok(())
    }

    /// Pulls, and then pushes what is pending.
    fn synchronise(&mut self, hub: &Hub) -> Result<()> {
        self.pull(hub)?;
        while !hub.push(self.number, &self.pending)? {
            self.pull(hub)?; // others came between: what they have changed is applied, and rebased over, too
        }
        self.pending = Changeset::from_bytes(&[])?;
        Ok(())
    }
}

/// Whether the hub's change is made, of those that are in conflict: the newest write of a row stays, by the stamp
/// in its last column, and a deletion in any case. Each write changes all columns. Of a row that is not there it
/// cannot be made.
fn newest(conflict: &Conflict) -> bool {
    match (conflict.new(2), conflict.row(2)) {
        (_, None) => false,
        (Some(theirs), Some(ours)) => theirs > ours,
        (None, Some(_)) => true,
    }
}

// ---- A run ----

/// Who writes which row, and when.
const WRITES: [(usize, i64, i64); 12] = [
    (0, 1, 20),
    (1, 1, 31),
    (2, 1, 22),
    (0, 2, 40),
    (1, 2, 21),
    (2, 2, 32),
    (1, 3, 51),
    (1, 4, 61),
    (0, 5, 30),
    (1, 5, 41),
    (2, 5, 22),
    (2, 6, 52),
];

/// Who deletes which row.
const DELETIONS: [(usize, i64); 2] = [(0, 3), (2, 4)];

fn write(client: &Client, row: i64, text: &str, stamp: i64) {
    client.database.execute(&format!(
        "INSERT INTO t VALUES({row}, '{text}', {stamp})
         ON CONFLICT(id) DO UPDATE SET text = excluded.text, stamp = excluded.stamp"
    ));
}

fn open_hub(clients: usize) -> Result<Hub> {
    let server = Server::open_in_memory()?;
    server.client()?.create_table("t", &[true, false, false])?;
    let sessions: Result<Vec<Session>> = (0..clients).map(|_| Session::new(&server)).collect();
    let sessions = sessions?;
    sessions.iter().try_for_each(|session| session.attach(Some("t")))?;
    Ok(Hub { server, sessions })
}

fn open_client(number: usize) -> Result<Client> {
    let mut database = Database::open();
    database.execute("CREATE TABLE t(id INTEGER PRIMARY KEY, text, stamp)");
    database.begin_session();
    Ok(Client { number, database, pending: Changeset::from_bytes(&[])? })
}

/// The rows of the hub and of each client, as text, after they have synchronised in an order.
fn run([first, second, third]: [usize; 3]) -> Result<Vec<String>> {
    let hub = open_hub(3)?;
    let mut clients = (0..3).map(open_client).collect::<Result<Vec<Client>>>()?;
    (1..=4).for_each(|row| write(&clients[0], row, "first", 10));
    clients.iter_mut().try_for_each(|client| client.synchronise(&hub))?;
    for (number, row, stamp) in WRITES {
        write(&clients[number], row, &format!("of {number}"), stamp);
    }
    for (number, row) in DELETIONS {
        clients[number].database.execute(&format!("DELETE FROM t WHERE id = {row}"));
    }
    clients[first].synchronise(&hub)?;
    clients[second].pull(&hub)?;
    clients[third].synchronise(&hub)?; // between a pull of the second and its push
    clients[second].synchronise(&hub)?;
    clients.iter_mut().try_for_each(|client| client.synchronise(&hub))?;
    let text =
        |row: Row| Ok(format!("{} {} at {}", row.get::<i64>(0)?, row.get::<String>(1)?, row.get::<i64>(2)?));
    let rows: Result<Vec<String>> =
        hub.server.client()?.snapshot()?.scan("t")?.map(|row| row.and_then(text)).collect();
    let mut found = vec![rows?.join(", ")];
    for client in &clients {
        let rows = client.database.execute("SELECT id || ' ' || text || ' at ' || stamp FROM t ORDER BY id");
        found.push(rows.concat().join(", "));
    }
    Ok(found)
}

fn main() -> Result<()> {
    for order in [[0, 1, 2], [0, 2, 1], [1, 0, 2], [1, 2, 0], [2, 0, 1], [2, 1, 0]] {
        let mut found = run(order)?;
        found.dedup();
        println!("{} {} {} - {}", order[0], order[1], order[2], found.join(" | "));
    }
    Ok(())
}
