"""Where SQLite's rebaser and the program differ: rebased changesets that do not leave the client's rows on the hub.

The tests are among those of differences.py, and DIFFERENCES.md has a section for each.
"""
import blob
import rebases
import sqlite
from blob import DELETE, INSERT, Change
from differences import bytes_of, difference, insert, update

THE_CLIENT = "the client's rows"


class Both:
    """A client and a hub with a table t of this shape and these rows, each with changes of its own. The client has
    applied those of the hub one after the other, and each side has made what it rebases of the client's changes."""

    def __init__(self, check, shape, base, local, remotes):
        self.check, self.shapes = check, {"t": shape}
        client, hub = rebases.Copy(self.shapes), rebases.Copy(self.shapes)
        for copy in client, hub:
            copy.execute(*base)
        self.locals = [captured(client, statement) for statement in local]
        self.theirs, self.ours = [], []
        for statement, answer in remotes:
            remote, policy = captured(hub, statement), (answer, "omit", answer)
            self.ours.append(rebases.program_buffer(check.program, self.shapes, client.rows(), remote, policy))
            found = client.connection.apply_with_buffer(remote, rebases.answer_by(policy))
            self.theirs.append(found[2])
        self.client, self.hub = client.rows(), hub.rows()
        client.close()
        hub.close()

    def rebased_by_sqlite(self):
        return [sqlite.rebase(local, self.theirs) for local in self.locals]

    def rebased_by_program(self):
        """Several changesets are concatenated first."""
        local = self.locals[0]
        for other in self.locals[1:]:
            local = self.check.program.on_blobs("concat", local, other)
        return [rebases.program_rebase(self.check.program, local, self.ours)]

    def outcome(self, changesets):
        """What these changesets leave on the hub."""
        found = self.hub
        for content in changesets:
            found = rebases.applied_to(self.shapes, found, content)
            if isinstance(found, str):
                return found
        return THE_CLIENT if found == self.client else "other rows"

    def leave(self, wanted):
        """Checks that the program's leave the client's rows, and what SQLite's leave."""
        self.check.compare("changecap", [self.outcome(self.rebased_by_program())], [THE_CLIENT])
        self.check.theirs(self.outcome(self.rebased_by_sqlite()), wanted)


def captured(copy, statement):
    """What a session has captured of a statement."""
    copy.begin("own")
    copy.execute(statement)
    return copy.end("own")


ROW = ["INSERT INTO t VALUES(1, 'a')"]
WIDE_ROW = ["INSERT INTO t VALUES(1, 'a', 'b')"]


@difference
def buffer_of_an_update(check):
    """It has the whole change, or no old values."""
    both = Both(check, "kvv", WIDE_ROW, ["UPDATE t SET c1 = 'x'"], [("UPDATE t SET c1 = 'y', c2 = 'z'", "omit")])
    nothing = blob.UNDEFINED
    flags = b"\1\0\0"
    check.compare("changecap", both.ours, [bytes_of(update([1, "a", "b"], [nothing, "y", "z"]), flags=flags)])
    check.theirs(both.theirs, [bytes_of(Change(INSERT, 0, new=[1, "y", "z"]), flags=flags)])


@difference
def columns_that_only_an_omitted_update_modifies(check):
    """They are as the client has them, or as the hub does."""
    Both(check, "kvv", WIDE_ROW, ["UPDATE t SET c1 = 'x'"], [("UPDATE t SET c1 = 'y', c2 = 'z'", "omit")]).leave(
        "other rows")


@difference
def rebased_insert_over_an_insert(check):
    """An UPDATE of the fields that differ, or of all fields, those of the key too."""
    local, remote = (f"INSERT INTO t VALUES(1, '{value}', 'q')" for value in "nm")
    both = Both(check, "kvv", [], [local], [(remote, "omit")])
    nothing, flags = blob.UNDEFINED, b"\1\0\0"
    ours = bytes_of(update([1, "m", nothing], [nothing, "n", nothing]), flags=flags)
    check.compare("changecap", both.rebased_by_program(), [ours])
    check.theirs(both.rebased_by_sqlite(), [bytes_of(update([1, "m", "q"], [1, "n", "q"]), flags=flags)])
    both.leave(THE_CLIENT)


@difference
def rebased_insert_without_a_column_outside_the_key(check):
    """It is nothing, or an UPDATE that SQLite cannot apply."""
    row = "INSERT INTO t VALUES(1, 2)"
    Both(check, "kk", [], [row], [(row, "omit")]).leave("code 1")


@difference
def equal_fields_and_a_later_change(check):
    """A field that is the same on both sides is left out, or compared with what a later remote change has made of
    it."""
    Both(check, "kvv", [], ["INSERT INTO t VALUES(1, 'n', 'q')"],
         [("INSERT INTO t VALUES(1, 'm', 'q')", "omit"), ("UPDATE t SET c2 = 'w'", "omit")]).leave("conflict data")
    Both(check, "kv", ROW, ["UPDATE t SET c1 = 'z'"],
         [("UPDATE t SET c1 = 'z'", "omit"), ("UPDATE t SET c1 = 'w'", "omit")]).leave("conflict data")
    Both(check, "kv", [], ["INSERT INTO t VALUES(1, 'n')"],
         [("INSERT INTO t VALUES(1, 'n')", "omit"), ("DELETE FROM t", "omit")]).leave("conflict notfound")


@difference
def omitted_insert_and_replaced_delete(check):
    """The second answer counts for what is left of the row, or the INSERT stays as it is."""
    Both(check, "kv", [], ["INSERT INTO t VALUES(1, 'n')"],
         [("INSERT INTO t VALUES(1, 'm')", "omit"), ("DELETE FROM t", "replace")]).leave("other rows")


@difference
def omitted_insert_and_replaced_update(check):
    """What the UPDATE does not modify is as the client has it, or the whole INSERT goes."""
    Both(check, "kvv", [], ["INSERT INTO t VALUES(1, 'n', 'q')"],
         [("INSERT INTO t VALUES(1, 'm', 'p')", "omit"), ("UPDATE t SET c1 = 'r'", "replace")]).leave("other rows")


@difference
def omitted_and_replaced_update(check):
    """Each answer counts for its columns, or the second for all of them."""
    Both(check, "kvv", WIDE_ROW, ["UPDATE t SET c1 = 'x', c2 = 'y'"],
         [("UPDATE t SET c1 = 'r'", "omit"), ("UPDATE t SET c2 = 's'", "replace")]).leave("other rows")


@difference
def replaced_update_and_omitted_delete(check):
    """The DELETE was omitted, or counts as replaced."""
    Both(check, "kvv", WIDE_ROW, ["UPDATE t SET c1 = 'x', c2 = 'y'"],
         [("UPDATE t SET c1 = 'r'", "replace"), ("DELETE FROM t", "omit")]).leave("other rows")


@difference
def omitted_delete_and_omitted_insert(check):
    """Both count, or the DELETE is forgotten."""
    Both(check, "kvv", WIDE_ROW, ["UPDATE t SET c1 = 'x'"],
         [("DELETE FROM t", "omit"), ("INSERT INTO t VALUES(1, 'm', 'n')", "omit")]).leave("other rows")


@difference
def record_behind_a_replaced_delete(check):
    """What is behind it counts, or both are lost."""
    local = bytes_of(update([1, "a"], [blob.UNDEFINED, "y"]))
    buffers = [bytes_of(Change(DELETE, 1, old=[1, "a"])), bytes_of(insert(1, "q"))]
    check.theirs([sqlite.rebase(local, buffers[:count]) for count in (1, 2)], [bytes_of(), local])
    found = [rebases.program_rebase(check.program, local, buffers[:count]) for count in (1, 2)]
    check.compare("changecap", found, [b"", b""])


@difference
def changesets_of_one_client(check):
    """They are concatenated first, or each is rebased as if it were the first."""
    Both(check, "kv", [], ["INSERT INTO t VALUES(1, 'n')", "UPDATE t SET c1 = 'o'"],
         [("INSERT INTO t VALUES(1, 'm')", "omit")]).leave("conflict data")


@difference
def rebased_changeset_without_changes(check):
    """It has no bytes, or the header of each group."""
    both = Both(check, "kv", ROW, ["DELETE FROM t"], [("DELETE FROM t", "omit")])
    check.compare("changecap", both.rebased_by_program(), [b""])
    check.theirs(both.rebased_by_sqlite(), [bytes_of()])
    both.leave(THE_CLIENT)
