//! A service with threads that writes an audit trail of JSON lines. ../../README.md says what is in a line.
use changecap::ConflictAction::Abort;
use changecap::{Batch, Cause, Changeset, Client, KeyFlags, Result, Row, Server, Session};
use std::io::Write;
use std::sync::Mutex;

/// A server of prices. Each of its commits is a line of the trail.
struct Service<W> {
    server: Server,
    session: Session,
    trail: Mutex<W>,
}

impl<W: Write> Service<W> {
    fn open(trail: W) -> Result<Service<W>> {
        let server = with_prices()?;
        let session = Session::new(&server)?;
        session.attach(Some("prices"))?;
        Ok(Service { server, session, trail: Mutex::new(trail) })
    }

    /// Commits, and writes the line of this commit, whatever other threads commit meanwhile.
    fn commit(&self, batch: &mut Batch, thread: &str) -> Result<()> {
        let capture = self.session.commit(batch)?;
        let (version, changeset) = (capture.version(), capture.changeset(KeyFlags::Places)?);
        let hex: String = changeset.as_bytes().iter().map(|byte| format!("{byte:02x}")).collect();
        let mut line = format!(r#"{{"version":{version},"thread":"{thread}","changeset":"{hex}","changes":"#);
        line += changeset.json()?.trim_end();
        Ok(writeln!(self.trail.lock().unwrap(), "{line}}}")?)
    }
}

/// The changesets of the lines of a trail, in the order of their versions.
fn read(trail: &str) -> Result<Vec<Changeset>> {
    let mut found = Vec::new();
    for line in trail.lines() {
        let text = |name| line.split_once(name).unwrap().1.split([',', '"']).next().unwrap();
        let (version, hex): (u64, _) = (text(r#""version":"#).parse().unwrap(), text(r#""changeset":""#));
        let digits = (0..hex.len()).step_by(2).map(|at| u8::from_str_radix(&hex[at..at + 2], 16).unwrap());
        found.push((version, Changeset::from_bytes(&digits.collect::<Vec<u8>>())?));
    }
    found.sort_by_key(|(version, _)| *version);
    Ok(found.into_iter().map(|(_, changeset)| changeset).collect())
}

/// Undoes lines, the last one first. Where the rows are not as a line left them, it is refused.
fn back(copy: &Client, changesets: &[Changeset]) -> Result<()> {
    for changeset in changesets.iter().rev() {
        copy.apply(changeset.invert(KeyFlags::Places)?, Abort, Abort, Abort)?;
    }
    Ok(())
}

// ---- A run ----

fn with_prices() -> Result<Server> {
    let server = Server::open_in_memory()?;
    server.client()?.create_table("prices", &[true, false])?;
    Ok(server)
}

fn work(service: &Service<Vec<u8>>, first: i64, thread: usize) -> Result<()> {
    let mut batch = Batch::new()?;
    for number in 0..25 {
        let price = first + 25 * thread as i64 + number;
        batch.update("prices", (number % 3,), &[(1, price)], Cause::Direct)?;
        service.commit(&mut batch, &format!("worker {thread}"))?;
    }
    Ok(())
}

fn run_threads(service: &Service<Vec<u8>>, first: i64) {
    std::thread::scope(|scope| {
        for thread in 0..4 {
            scope.spawn(move || work(service, first, thread).unwrap());
        }
    });
}

fn rows(client: &Client) -> Result<Vec<Row>> {
    client.snapshot()?.scan("prices")?.collect()
}

fn main() -> Result<()> {
    let service = Service::open(Vec::new())?;
    let mut batch = Batch::new()?;
    (0..3).try_for_each(|item| batch.insert("prices", (item, 0), Cause::Direct))?;
    service.commit(&mut batch, "main")?;
    run_threads(&service, 1);
    let then = rows(&service.server.client()?)?;
    run_threads(&service, 101);
    let changesets = read(std::str::from_utf8(&service.trail.lock().unwrap()).unwrap())?;
    println!("{} lines", changesets.len());
    let copy = with_prices()?.client()?;
    for changeset in &changesets {
        copy.apply(changeset, Abort, Abort, Abort)?;
    }
    if rows(&copy)? == rows(&service.server.client()?)? {
        println!("forwards: the prices of the service");
    }
    back(&copy, &changesets[101..])?;
    if rows(&copy)? == then {
        println!("back to version 102: the prices of then");
    }
    back(&copy, &changesets[..101])?;
    if rows(&copy)?.is_empty() {
        println!("back to version 1: no prices");
    }
    Ok(())
}
