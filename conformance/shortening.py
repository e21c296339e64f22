"""Makes a case shorter that fails: lines are left out, as long as it still fails."""
from dataclasses import replace


def shortened(case, fails):
    """The case without lines that it does not need. `fails` is whether a case fails."""
    for part in ("target", "source"):
        case = without_lines(case, part, fails)
    return case


def without_lines(case, part, fails):
    """The case without lines of its source or its target: halves first, then single lines."""
    lines = getattr(case, part).splitlines(keepends=True)
    size = len(lines) // 2
    while size:
        at = len(lines)
        while at > 0:
            at = max(0, at - size)
            fewer = lines[:at] + lines[at + size:]
            if still_fails(replace(case, **{part: "".join(fewer)}), fails):
                lines = fewer
        size //= 2
    return replace(case, **{part: "".join(lines)})


def still_fails(case, fails):
    """Whether the case fails. One that cannot be run, since a blob of its target is not there, does not."""
    try:
        return fails(case)
    except IndexError:
        return False
