//! Threads move money between accounts, by transactions that begin again on a conflict. ../../README.md says
//! how.
use changecap::{Batch, Cause, Result, Server};
use std::sync::Mutex;

/// Moves the amount, or as much of it as there is, and answers how much that was. The closure is called again
/// where another thread has changed one of the two accounts before the commit.
fn transfer(server: &Server, from: i64, to: i64, amount: i64) -> Result<i64> {
    let (moved, _version) = server.transaction(|t| {
        let balance: i64 = t.get("accounts", (from,))?.unwrap().get(1)?;
        let other: i64 = t.get("accounts", (to,))?.unwrap().get(1)?;
        let moved = amount.min(balance);
        t.update("accounts", (from,), &[(1, balance - moved)], Cause::Direct)?;
        t.update("accounts", (to,), &[(1, other + moved)], Cause::Direct)?;
        Ok(moved)
    })?;
    Ok(moved)
}

/// What a snapshot has. No commit is in it by half, and reading it waits for none.
fn balances(server: &Server) -> Result<Vec<i64>> {
    server.client()?.snapshot()?.scan("accounts")?.map(|row| row?.get(1)).collect()
}

// ---- A run ----

const ACCOUNTS: i64 = 10;
const THREADS: i64 = 8;
const TRANSFERS: i64 = 200;

fn work(server: &Server, thread: i64, found: &Mutex<Vec<Vec<i64>>>) -> Result<()> {
    for number in 0..TRANSFERS {
        let from = (thread + number) % ACCOUNTS;
        let to = (from + 1 + number % (ACCOUNTS - 1)) % ACCOUNTS;
        transfer(server, from, to, 1 + number % 90)?;
        let balances = balances(server)?;
        found.lock().unwrap().push(balances);
    }
    Ok(())
}

fn main() -> Result<()> {
    let (server, found) = (Server::open_in_memory()?, Mutex::new(Vec::new()));
    server.client()?.create_table("accounts", &[true, false])?;
    let mut batch = Batch::new()?;
    (0..ACCOUNTS).try_for_each(|account| batch.insert("accounts", (account, 100), Cause::Direct))?;
    server.client()?.commit(&mut batch)?;
    std::thread::scope(|scope| {
        for thread in 0..THREADS {
            let (server, found) = (&server, &found);
            scope.spawn(move || work(server, thread, found).unwrap());
        }
    });
    println!("{} transfers by {THREADS} threads", server.client()?.snapshot()?.version() - 2);
    let found = found.into_inner().unwrap();
    let mut sums: Vec<i64> = found.iter().map(|balances| balances.iter().sum()).collect();
    sums.dedup();
    let sums: Vec<String> = sums.iter().map(i64::to_string).collect();
    println!("{} snapshots, and the sum of each is {}", found.len(), sums.join(" "));
    if found.iter().flatten().all(|balance| *balance >= 0) {
        println!("no account is below 0");
    }
    Ok(())
}
