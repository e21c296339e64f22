//! Two copies that changed the same rows and different ones get in step: the client pulls what the hub has changed,
//! rebases what it has changed itself, and pushes that.
use changecap::ConflictAction::{Abort, Omit, Replace};
use changecap::{Batch, Cause, Changeset, Client, KeyFlags, Rebaser, Report, Result, Server, Session};

struct Copy {
    client: Client,
    session: Session,
}

impl Copy {
    fn open() -> Result<Copy> {
        let server = Server::open_in_memory()?;
        let (client, session) = (server.client()?, Session::new(&server)?);
        client.create_table("t", &[true, false, false])?;
        let mut batch = Batch::new()?;
        for (number, letter) in (1..).zip(["a", "b", "c", "d", "e", "f"]) {
            batch.insert("t", (number, letter, number), Cause::Direct)?;
        }
        client.commit(&mut batch)?;
        session.attach(Some("t"))?;
        Ok(Copy { client, session })
    }

    /// What the copy has changed since it was captured last.
    fn restart(&self) -> Result<Changeset> {
        self.session.restart()?.changeset(KeyFlags::Places)
    }

    fn change(&self, operations: impl FnOnce(&mut Batch) -> Result<()>) -> Result<()> {
        let mut batch = Batch::new()?;
        operations(&mut batch)?;
        self.client.commit(&mut batch)?;
        Ok(())
    }
}

fn show(what: &str, report: &Report) {
    println!(
        "{what}: applied {}, conflicts {}, omitted {}",
        report.applied, report.conflicts, report.omitted
    );
}

fn synchronise(hub: &Copy, client: &Copy) -> Result<()> {
    let (remote, own) = (hub.restart()?, client.restart()?);
    let mut changes = remote.iter()?;
    client.session.set_enabled(false)?; // the hub's changes are not the client's own
    show("pull", &client.client.apply_iter(&mut changes, Omit, Omit, Replace)?);
    client.session.set_enabled(true)?;

    let mut rebaser = Rebaser::new();
    rebaser.configure(&changes.buffer()?);
    let rebased = rebaser.rebase(&own, KeyFlags::Places)?;
    print!("{}", rebased.json()?);

    hub.session.set_enabled(false)?; // the client does not get its own changes back
    show("push", &hub.client.apply(&rebased, Abort, Abort, Abort)?);
    hub.session.set_enabled(true)?;
    println!("hub: {}", hub.client.execute("scan t")?);
    println!("client: {}", client.client.execute("scan t")?);
    Ok(())
}

fn main() -> Result<()> {
    let (hub, client) = (Copy::open()?, Copy::open()?);
    hub.change(|batch| {
        batch.update("t", (1,), &[(2, 10)], Cause::Direct)?;
        batch.update("t", (2,), &[(1, "hub")], Cause::Direct)?;
        batch.delete("t", (3,), Cause::Direct)?;
        batch.update("t", (4,), &[(1, "hub")], Cause::Direct)?;
        batch.update("t", (6,), &[(2, 60)], Cause::Direct)?;
        batch.insert("t", (7, "hub", 7), Cause::Direct)
    })?;
    client.change(|batch| {
        batch.update("t", (1,), &[(2, 11)], Cause::Direct)?; // the same column: DATA, omitted
        batch.update("t", (2,), &[(2, 22)], Cause::Direct)?; // another column: no conflict
        batch.update("t", (3,), &[(1, "client")], Cause::Direct)?; // the hub has deleted it: DATA, omitted
        batch.delete("t", (4,), Cause::Direct)?; // the hub has changed it: NOTFOUND, omitted
        batch.update("t", (5,), &[(1, "client")], Cause::Direct)?; // the client alone
        batch.insert("t", (7, "client", 70), Cause::Direct)?; // another row: CONFLICT, replaced
        batch.insert("t", (8, "new", 8), Cause::Direct)
    })?;
    synchronise(&hub, &client)?;

    hub.change(|batch| {
        batch.update("t", (1,), &[(1, "both")], Cause::Direct)?;
        batch.update("t", (8,), &[(2, 88)], Cause::Direct)
    })?;
    client.change(|batch| batch.update("t", (1,), &[(2, 12)], Cause::Direct))?;
    synchronise(&hub, &client)
}
