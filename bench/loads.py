"""Workloads and blobs that are timed through the program, with reading them and printing the replies."""

COUNT = 100_000
BEGIN = ["create t kv", "session", "attach 1 t"]


def integer(number):
    """The field of an INTEGER."""
    return b"\x01" + number.to_bytes(8, "big", signed=True)


def blob_of(changes):
    """The changeset of the table t with these changes."""
    return b"\x54\x02\x01\x00t\x00" + b"".join(changes)


def inserted():
    """The changeset of an INSERT for each key."""
    return blob_of(b"\x12\x00" + integer(key) + b"\x03\x01x" for key in range(COUNT))


def updated():
    """The changeset of an UPDATE of each of these rows."""
    return blob_of(b"\x17\x00" + integer(key) + b"\x03\x01x\x00\x03\x01y" for key in range(COUNT))


def scrambled(number):
    """A key far from its neighbours, as times.h has them."""
    mask = 2**64 - 1
    mixed = number * 0x9E3779B97F4A7C15 & mask
    mixed = (mixed ^ mixed >> 30) * 0xBF58476D1CE4E5B9 & mask
    mixed = (mixed ^ mixed >> 27) * 0x94D049BB133111EB & mask
    mixed ^= mixed >> 31
    return mixed - 2**64 if mixed >> 63 else mixed


def blobs_of(load):
    """The bytes that a command on blobs reads."""
    if load == "inserts":
        return inserted()
    if load == "inserts and updates":
        return b"".join(len(blob).to_bytes(8, "big") + blob for blob in (inserted(), updated()))
    raise ValueError(f"no load {load}")


def apply_line(content):
    """The command that applies a blob."""
    return f"apply x'{content.hex()}' abort abort abort"


def inserts(keys):
    """A commit of a row for each key."""
    return [f"commit insert t ({key},'x')" for key in keys]


def updates(rows):
    """The workload of commits that each update one of so many rows, in turn."""
    lines = BEGIN[:1] + inserts(range(rows)) + BEGIN[1:]
    return lines + [f"commit update t key({number % rows}) set 1 = {number}" for number in range(COUNT)]


def lines_of(load):
    """The lines of a load."""
    if load == "nothing":
        return BEGIN
    if load == "inserts":
        return BEGIN + inserts(range(COUNT))
    if load == "inserts and a capture":
        return BEGIN + inserts(range(COUNT)) + ["changeset 1"]
    if load == "inserts, keys scrambled":
        return BEGIN + inserts(map(scrambled, range(COUNT)))
    if load == "updates of 1,000 rows":
        return updates(1000)
    if load == "updates of one row":
        return updates(1)
    if load == "a batch of 10,000":
        return BEGIN[:1] + ["commit " + " ; ".join(f"insert t ({key},'x')" for key in range(10_000))]
    if load == "inserts applied":
        return BEGIN[:1] + [apply_line(inserted())]
    if load == "inserts and updates applied":
        return BEGIN[:1] + [apply_line(inserted()), apply_line(updated())]
    raise ValueError(f"no load {load}")


def text_of(load):
    """The workload of a load."""
    return "\n".join(lines_of(load)) + "\n"
