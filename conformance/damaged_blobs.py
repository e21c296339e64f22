"""Blobs that are damaged in a byte or two. What the program still reads, SQLite reads alike, and applies alike.

What SQLite reads and the program refuses is in DIFFERENCES.md. Blobs that meet one of the other differences are left
out: groups without changes or of one table side by side, updates without a modified field, key flags that are not
positions, and names that differ from a table's in case only.
"""
import blob
from comparison import Case, Comparison
from program import Fault
from random_cases import Maker
from whole_blobs import shown

DAMAGED_A_CASE = 8


def damaged(content, random):
    """The bytes with one or two of them changed, left out or added, or cut off at some place."""
    content = bytearray(content)
    for _ in range(random.choice((1, 1, 2))):
        at = random.randrange(len(content)) if content else 0
        how = random.choice(("change", "change", "flip", "flip", "leave out", "add", "cut"))
        if how == "change" and content:
            content[at] = random.choice((0, 1, 2, 3, 4, 5, 9, 0x12, 0x17, 0x50, 0x54, 0x80, random.randrange(256)))
        elif how == "flip" and content:
            content[at] ^= 1 << random.randrange(8)
        elif how == "leave out":
            del content[at:at + 1]
        elif how == "add":
            content.insert(at, random.choice((0, 1, 5, random.randrange(256))))
        elif how == "cut":
            del content[at:]
    return bytes(content)


def is_read_alike(groups):
    """Whether no group is empty and none has the name of the one before."""
    names = [group.table for group in groups]
    return all(group.changes for group in groups) and all(one != other for one, other in zip(names, names[1:]))


def is_applied_alike(groups, tables):
    """Whether key flags are positions, names are those of tables or others in any case, and each update has a modified
    field."""
    lower = {name.lower() for name in tables}
    return all(group.has_positions() and (group.table in tables or group.table.lower() not in lower)
               and all(map(is_whole, group.changes)) for group in groups)


def is_whole(change):
    """Whether the change is not an update without a modified field."""
    return change.operation != blob.UPDATE or any(value is not blob.UNDEFINED for value in change.new)


class Damage:
    """Damages blobs, and counts how many the program reads all the same."""

    def __init__(self, program):
        self.program = program
        self.tried = self.read = self.applied = 0

    def problems(self, number):
        """A text for each difference in some damaged blobs, made of the number alone."""
        maker = Maker(f"damaged {number}")
        for _ in range(maker.random.randint(1, 3)):
            maker.create()
        for _ in range(maker.random.randint(1, 6)):
            maker.commit()
        content, before, names = maker.blob_by_hand(), maker.end(), sorted(maker.server.tables)
        for _ in range(DAMAGED_A_CASE):
            yield from self.differences(damaged(content, maker.random), before, names)

    def differences(self, content, before, names):
        """A text for each difference in a damaged blob, which is applied after the workload `before`."""
        self.tried += 1
        try:
            found = self.program.show(content)
        except Fault as fault:
            if fault.status != 1 or not fault.error.startswith("fault D"):
                yield f"show {content.hex()}: {fault}"
            return
        self.read += 1
        try:
            groups = blob.read(content)
        except (ValueError, IndexError) as error:
            yield f"show {content.hex()}\n  changecap: {found}\n  read apart: {error}"
            return
        if not is_read_alike(groups):
            return
        wanted = shown(content)
        if found != wanted:
            yield f"show {content.hex()}\n  changecap: {found}\n  SQLite:    {wanted}"
        if is_applied_alike(groups, names):
            self.applied += 1
            scans = "".join(f"scan {name}\n" for name in names)
            case = Case("damaged", f"{before}session\nattachall 1\napply x'{content.hex()}' replace omit replace\n"
                                   f"{scans}changeset 1 places\n")
            comparison = Comparison(self.program, case)
            comparison.run()
            yield from comparison.problems
