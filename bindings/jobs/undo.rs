//! Undo and redo: each edit is captured, and undone by the inverse of its changeset.
use changecap::{Batch, Cause, Changeset, Client, ConflictAction::Abort, KeyFlags, Result, Server, Session};

struct Document {
    client: Client,
    session: Session,
    done: Vec<Changeset>,
    undone: Vec<Changeset>,
}

impl Document {
    fn open() -> Result<Document> {
        let server = Server::open_in_memory()?;
        let (client, session) = (server.client()?, Session::new(&server)?);
        client.create_table("t", &[true, false])?;
        session.attach(Some("t"))?;
        Ok(Document { client, session, done: Vec::new(), undone: Vec::new() })
    }

    fn show(&self, what: &str) -> Result<()> {
        let mut rows = Vec::new();
        for row in self.client.snapshot()?.scan("t")? {
            let row = row?;
            rows.push(format!("({},'{}')", row.get::<i64>(0)?, row.get::<String>(1)?));
        }
        println!("{what}: {}", if rows.is_empty() { "no rows".into() } else { rows.join(" ") });
        Ok(())
    }

    /// Makes the operations that a function puts into a batch.
    fn edit(&mut self, operations: impl FnOnce(&mut Batch) -> Result<()>) -> Result<()> {
        let mut batch = Batch::new()?;
        operations(&mut batch)?;
        let capture = self.session.commit(&mut batch)?;
        self.done.push(capture.changeset(KeyFlags::Places)?);
        self.undone.clear(); // what was undone does not fit any more
        self.show("edit")
    }

    /// Applies a changeset, which the session does not record. A conflict is an error.
    fn apply(&self, changeset: &Changeset) -> Result<()> {
        self.session.set_enabled(false)?;
        self.client.apply(changeset, Abort, Abort, Abort)?;
        self.session.set_enabled(true)
    }

    fn undo(&mut self) -> Result<()> {
        let Some(changeset) = self.done.pop() else {
            println!("undo: nothing to undo");
            return Ok(());
        };
        self.apply(&changeset.invert(KeyFlags::Places)?)?;
        self.undone.push(changeset);
        self.show("undo")
    }

    fn redo(&mut self) -> Result<()> {
        let Some(changeset) = self.undone.pop() else {
            println!("redo: nothing to redo");
            return Ok(());
        };
        self.apply(&changeset)?;
        self.done.push(changeset);
        self.show("redo")
    }
}

fn main() -> Result<()> {
    let mut document = Document::open()?;
    document.edit(|batch| {
        batch.insert("t", (1, "one"), Cause::Direct)?;
        batch.insert("t", (2, "two"), Cause::Direct)
    })?;
    document.edit(|batch| {
        batch.update("t", (1,), &[(1, "uno")], Cause::Direct)?;
        batch.insert("t", (3, "three"), Cause::Direct)
    })?;
    document.edit(|batch| {
        batch.update("t", (2,), &[(0, 4)], Cause::Direct)?; // another key
        batch.delete("t", (3,), Cause::Direct)
    })?;
    (0..4).try_for_each(|_| document.undo())?;
    (0..4).try_for_each(|_| document.redo())?;
    document.undo()?;
    document.edit(|batch| batch.update("t", (1,), &[(1, "eins")], Cause::Direct))?;
    document.redo()?;
    document.undo()
}
