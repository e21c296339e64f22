//! Loads of the library from Rust, those of bench/changecap_times.c by the same names: `times LOAD ..`
//!
//! Each load prints lines `NAME NANOSECONDS`, those of one commit or transaction by the processor time of the
//! thread.
use changecap::{Batch, Cause, Client, Result, Server, Session};

const COMMITS: i64 = 100_000;
const BATCH: i64 = 10_000;
const BIG_TABLE: i64 = 1_000_000;
const TRANSACTIONS: i64 = 10_000;
const ROWS_A_TRANSACTION: i64 = 10;

/// A `timespec` of the C library.
#[repr(C)]
struct Time {
    seconds: i64,
    nanoseconds: i64,
}

/// Linux's number of the clock that counts the processor time of the thread.
const CLOCK_THREAD_CPUTIME_ID: i32 = 3;

unsafe extern "C" {
    fn clock_gettime(clock: i32, time: *mut Time) -> i32;
}

/// The processor time of the thread, in nanoseconds.
fn now() -> f64 {
    let mut time = Time { seconds: 0, nanoseconds: 0 };
    // SAFETY: the call writes a `timespec`, which has these fields on Linux with 64 bits.
    let status = unsafe { clock_gettime(CLOCK_THREAD_CPUTIME_ID, &mut time) };
    assert_eq!(status, 0);
    time.seconds as f64 * 1e9 + time.nanoseconds as f64
}

fn report(name: &str, start: f64, count: i64) {
    println!("{name} {:.1}", (now() - start) / count as f64);
}

/// A server with a table whose key is its first column, and a client of it.
fn table() -> Result<(Server, Client)> {
    let server = Server::open_in_memory()?;
    let client = server.client()?;
    client.create_table("t", &[true, false])?;
    Ok((server, client))
}

/// Commits of one inserted row under a session.
fn inserts() -> Result<()> {
    let (server, client) = table()?;
    let session = Session::new(&server)?;
    session.attach(Some("t"))?;
    let mut batch = Batch::new()?;
    let start = now();
    for number in 0..COMMITS {
        batch.insert("t", (number, "x"), Cause::Direct)?;
        client.commit(&mut batch)?;
    }
    report("inserts", start, COMMITS);
    Ok(())
}

/// Transactions that each read ten rows of a million and update them.
fn transactions() -> Result<()> {
    let (server, client) = table()?;
    let mut batch = Batch::new()?;
    for first in (0..BIG_TABLE).step_by(BATCH as usize) {
        for number in first..first + BATCH {
            batch.insert("t", (number, "x"), Cause::Direct)?;
        }
        client.commit(&mut batch)?;
    }
    let start = now();
    for number in 0..TRANSACTIONS {
        let first = number * 7919 % (BIG_TABLE / ROWS_A_TRANSACTION) * ROWS_A_TRANSACTION;
        server.transaction(|t| {
            for key in first..first + ROWS_A_TRANSACTION {
                let row = t.get("t", (key,))?.expect("a row");
                assert!(row.get::<i64>(0)? == key && row.len() == 2);
                t.update("t", (key,), &[(1, 1)], Cause::Direct)?;
            }
            Ok(())
        })?;
    }
    report("transactions", start, TRANSACTIONS);
    Ok(())
}

fn main() -> Result<()> {
    for load in std::env::args().skip(1) {
        match load.as_str() {
            "commits" => inserts()?,
            "transactions" => transactions()?,
            _ => panic!("no such load"),
        }
    }
    Ok(())
}
