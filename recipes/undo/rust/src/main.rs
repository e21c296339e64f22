//! Undo and redo of what is done in tables, by changesets and their inverses. ../../README.md says how.
use changecap::ConflictAction::Abort;
use changecap::{Batch, Cause, Changeset, Error, KeyFlags, Result, Server, Session};

/// Tables with undo and redo.
struct Document {
    server: Server,
    session: Session,
    done: Vec<Changeset>,
    undone: Vec<Changeset>,
}

impl Document {
    fn open(server: &Server) -> Result<Document> {
        let session = Session::new(server)?;
        session.attach(None)?;
        Ok(Document { server: server.clone(), session, done: Vec::new(), undone: Vec::new() })
    }

    /// Commits operations that are undone together.
    fn step(&mut self, batch: &mut Batch) -> Result<()> {
        self.done.push(self.session.commit(batch)?.changeset(KeyFlags::Places)?);
        self.undone.clear();
        Ok(())
    }

    /// Undoes the last step. Answers whether there was one. It is refused, and the step stays, where others
    /// have changed the same rows since.
    fn undo(&mut self) -> Result<bool> {
        let Some(step) = self.done.last() else { return Ok(false) };
        self.apply(&step.invert(KeyFlags::Places)?)?;
        self.undone.extend(self.done.pop());
        Ok(true)
    }

    /// Makes the step again that was undone last. Answers whether there was one. It is refused as an undo is.
    fn redo(&mut self) -> Result<bool> {
        let Some(step) = self.undone.last() else { return Ok(false) };
        self.apply(step)?;
        self.done.extend(self.undone.pop());
        Ok(true)
    }

    /// Applies a changeset, which is no step itself.
    fn apply(&self, changeset: &Changeset) -> Result<()> {
        self.session.set_enabled(false)?;
        let report = self.server.client()?.apply(changeset, Abort, Abort, Abort);
        self.session.set_enabled(true)?;
        report.map(drop)
    }
}

// ---- A run ----

fn show(server: &Server, word: &str) -> Result<()> {
    let mut texts = Vec::new();
    for row in server.client()?.snapshot()?.scan("lines")? {
        let row = row?;
        texts.push(format!("{} {}", row.get::<i64>(0)?, row.get::<String>(1)?));
    }
    println!("{word}: {}", texts.join(", "));
    Ok(())
}

fn try_it(server: &Server, word: &str, made: Result<bool>) -> Result<()> {
    match made {
        Ok(true) => show(server, word)?,
        Ok(false) => println!("{word}: nothing to {word}"),
        Err(Error::Refused(_)) => println!("{word}: refused"),
        Err(why) => return Err(why),
    }
    Ok(())
}

fn main() -> Result<()> {
    let server = Server::open_in_memory()?;
    server.client()?.create_table("lines", &[true, false])?;
    let (mut document, mut batch) = (Document::open(&server)?, Batch::new()?);
    for (number, text) in [(1, "one"), (2, "two")] {
        batch.insert("lines", (number, text), Cause::Direct)?;
        document.step(&mut batch)?;
    }
    show(&server, "written")?;
    batch.update("lines", (1,), &[(1, "ONE")], Cause::Direct)?;
    batch.delete("lines", (2,), Cause::Direct)?;
    document.step(&mut batch)?;
    show(&server, "changed")?;
    for _ in 0..2 {
        try_it(&server, "undo", document.undo())?;
    }
    for _ in 0..3 {
        try_it(&server, "redo", document.redo())?;
    }
    try_it(&server, "undo", document.undo())?;
    batch.insert("lines", (3, "three"), Cause::Direct)?;
    document.step(&mut batch)?;
    show(&server, "changed")?;
    try_it(&server, "redo", document.redo())?;
    batch.update("lines", (3,), &[(1, "drei")], Cause::Direct)?;
    server.client()?.commit(&mut batch)?;
    show(&server, "of another")?;
    try_it(&server, "undo", document.undo())?;
    show(&server, "rows")
}
