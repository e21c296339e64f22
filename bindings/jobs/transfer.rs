//! Two threads move money between accounts, by transactions that begin again on a conflict. A third thread takes
//! snapshots: in each the sum is the same.
use changecap::{Batch, Cause, Result, Server, Snapshot};
use std::sync::atomic::{AtomicBool, Ordering};

const TRANSFERS: i64 = 100;

fn transfer(server: &Server, from: i64, to: i64, amount: i64) -> Result<()> {
    server.transaction(|t| {
        for (account, more) in [(from, -amount), (to, amount)] {
            let balance: i64 = t.get("accounts", (account,))?.expect("an account").get(1)?;
            t.update("accounts", (account,), &[(1, balance + more)], Cause::Direct)?;
        }
        Ok(())
    })?;
    Ok(())
}

fn sum_of(snapshot: &Snapshot) -> Result<i64> {
    snapshot.scan("accounts")?.map(|row| row?.get::<i64>(1)).sum()
}

/// How many snapshots it has taken, and how many of them had another sum.
fn watch(server: &Server, is_over: &AtomicBool) -> Result<(u32, u32)> {
    let (mut taken, mut wrong) = (0, 0);
    loop {
        wrong += u32::from(sum_of(&server.client()?.snapshot()?)? != 5000);
        taken += 1;
        if is_over.load(Ordering::SeqCst) {
            return Ok((taken, wrong));
        }
    }
}

fn main() -> Result<()> {
    let server = Server::open_in_memory()?;
    let client = server.client()?;
    client.create_table("accounts", &[true, false])?;
    let mut batch = Batch::new()?;
    (1..=5).try_for_each(|number| batch.insert("accounts", (number, 1000), Cause::Direct))?;
    client.commit(&mut batch)?;
    let is_over = AtomicBool::new(false);
    let (taken, wrong) = std::thread::scope(|scope| {
        let watching = scope.spawn(|| watch(&server, &is_over));
        let moving = [(1, 2, 2), (5, 1, 1)].map(|(from, first, amount)| {
            let server = &server;
            scope
                .spawn(move || (0..TRANSFERS).try_for_each(|i| transfer(server, from, first + i % 4, amount)))
        });
        let moved: Result<()> = moving.into_iter().try_for_each(|thread| thread.join().unwrap());
        is_over.store(true, Ordering::SeqCst);
        moved.and(watching.join().unwrap())
    })?;
    let snapshot = client.snapshot()?;
    println!("transfers {}, version {}", 2 * TRANSFERS, snapshot.version());
    for row in snapshot.scan("accounts")? {
        let row = row?;
        println!("{} {}", row.get::<i64>(0)?, row.get::<i64>(1)?);
    }
    println!("sum {}", sum_of(&snapshot)?);
    println!("{} {wrong} with another sum", if taken > 0 { "snapshots," } else { "no snapshot," });
    Ok(())
}
