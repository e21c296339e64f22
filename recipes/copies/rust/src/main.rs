//! Two copies of a table that change the same rows get in step. ../../README.md says how.
use changecap::ConflictAction::{self, Abort, Omit};
use changecap::{Changeset, KeyFlags, RebaseBuffer, Rebaser, Result, Server, Session};

/// A server, and a session that has what was changed here since the copies were in step.
struct Copy {
    name: &'static str,
    server: Server,
    session: Session,
}

impl Copy {
    fn open(name: &'static str) -> Result<Copy> {
        let server = Server::open_in_memory()?;
        server.client()?.create_table("t", &[true, false])?;
        server.client()?.execute("commit insert t (1,'a') ; insert t (2,'b') ; insert t (3,'c')")?;
        let session = Session::new(&server)?;
        session.attach(None)?;
        Ok(Copy { name, server, session })
    }

    /// What was changed here since the last time.
    fn changed(&self) -> Result<Changeset> {
        self.session.restart()?.changeset(KeyFlags::Places)
    }

    /// Applies what the other one has changed, and answers what met a conflict. Nobody changes something here
    /// meanwhile.
    fn apply(&self, changeset: &Changeset, answer: ConflictAction) -> Result<RebaseBuffer> {
        let mut changes = changeset.iter()?;
        self.session.set_enabled(false)?;
        let report = self.server.client()?.apply_iter(&mut changes, answer, answer, answer);
        self.session.set_enabled(true)?;
        report.and_then(|_| changes.buffer())
    }
}

/// Brings them in step. Where both have changed a row, that of the client stays.
fn synchronise(hub: &Copy, client: &Copy) -> Result<()> {
    let (theirs, own) = (hub.changed()?, client.changed()?);
    let mut rebaser = Rebaser::new();
    rebaser.configure(&client.apply(&theirs, Omit)?);
    let rebased = rebaser.rebase(&own, KeyFlags::Places)?;
    hub.apply(&rebased, Abort).map(drop) // it leads from the rows of the hub: there is no conflict
}

// ---- A run ----

fn show(copy: &Copy) -> Result<()> {
    let mut texts = Vec::new();
    for row in copy.server.client()?.snapshot()?.scan("t")? {
        let row = row?;
        texts.push(format!("{} {}", row.get::<i64>(0)?, row.get::<String>(1)?));
    }
    println!("{}: {}", copy.name, texts.join(", "));
    Ok(())
}

fn main() -> Result<()> {
    let (hub, client) = (Copy::open("hub")?, Copy::open("client")?);
    let text = "commit update t key(1) set 1 = 'of the hub' ; delete t key(2) ; insert t (4,'of the hub')";
    hub.server.client()?.execute(text)?;
    for text in [
        "commit update t key(1) set 1 = 'of the client' ; update t key(2) set 1 = 'of the client'",
        "commit insert t (4,'of the client') ; insert t (5,'of the client')",
    ] {
        client.server.client()?.execute(text)?;
    }
    show(&hub)?;
    show(&client)?;
    synchronise(&hub, &client)?;
    show(&hub)?;
    show(&client)
}
