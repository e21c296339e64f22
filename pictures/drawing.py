"""The history of a run as a drawing in SVG, and how a capture follows from first images and rows."""
from html import escape

LEFT, STEP, LANE, TOP, SESSION = 104, 80, 36, 62, 54
# What stands on a call whose word is too long for its box.
SHORT = {"commitat": "commit", "applyquiet": "apply", "dropdatabase": "drop"}
LETTERS = {"insert": "I", "update": "U", "delete": "D", "diff": "?"}
STYLE = """
.drawing { font: 12px system-ui, sans-serif; --ink: #1c2430; --soft: #5d6b7c; --line: #c9d1db; --ground: #ffffff;
  --write: #1d5fbf; --capture: #7a3fb0; --refused: #b3261e; --insert: #1a7f37; --update: #1d5fbf; --delete: #b45309;
  --diff: #5d6b7c; --band: #1d5fbf22; }
@media (prefers-color-scheme: dark) { .drawing { --ink: #e6ebf2; --soft: #9aa8ba; --line: #3a4657; --ground: #131920;
  --write: #6ea8ff; --capture: #c79bf2; --refused: #ff8a80; --insert: #63c67b; --update: #6ea8ff; --delete: #f0a955;
  --diff: #9aa8ba; --band: #6ea8ff2e; } }
.drawing text { fill: var(--ink); } .drawing .soft { fill: var(--soft); font-size: 11px; }
.drawing .ground { fill: var(--ground); } .drawing .axis { stroke: var(--ink); stroke-width: 2; }
.drawing .thin { stroke: var(--line); fill: none; } .drawing .off { stroke-dasharray: 3 4; }
.drawing .call { fill: var(--ground); stroke: var(--soft); } .drawing .write { stroke: var(--write); stroke-width: 2; }
.drawing .capture { stroke: var(--capture); stroke-width: 2; }
.drawing .refused { stroke: var(--refused); stroke-width: 2; stroke-dasharray: 4 2; }
.drawing .dot { fill: var(--ground); stroke: var(--ink); stroke-width: 2; } .drawing .dot.write { fill: var(--write); }
.drawing .cross { stroke: var(--refused); stroke-width: 3; } .drawing .why { stroke: var(--refused); fill: none;
  stroke-width: 2; stroke-dasharray: 5 3; } .drawing .since { fill: var(--band); }
.drawing .bracket { stroke: var(--capture); stroke-width: 2; fill: none; } .drawing .count { fill: var(--capture); }
.drawing .insert { fill: var(--insert); } .drawing .update { fill: var(--update); }
.drawing .delete { fill: var(--delete); } .drawing .diff { fill: var(--diff); }
.drawing .letter { fill: var(--ground); font-size: 10px; font-weight: 700; }
.drawing .gone { fill: none; stroke: var(--line); stroke-dasharray: 3 3; } .drawing .mono { font-family: monospace; }
"""


def x_of(number):
    return LEFT + STEP * number


def text(x, y, content, of="", anchor="middle"):
    return f'<text x="{x}" y="{y}" text-anchor="{anchor}" class="{of}">{escape(str(content))}</text>'


def line(x, y, to_x, to_y, of):
    return f'<line x1="{x}" y1="{y}" x2="{to_x}" y2="{to_y}" class="{of}"/>'


def rectangle(x, y, width, height, of, more=""):
    return f'<rect x="{x}" y="{y}" width="{width}" height="{height}" class="{of}" {more}/>'


def svg(width, height, title, parts, style=STYLE):
    """A drawing. Where a page has the style already, it is left out."""
    styled = f"<style>{style}</style>" if style else ""
    return (f'<svg xmlns="http://www.w3.org/2000/svg" class="drawing" width="{width}" height="{height}" '
            f'viewBox="0 0 {width} {height}" data-left="{LEFT}" data-step="{STEP}" role="img" '
            f'aria-label="{escape(title)}">{styled}'
            f'{rectangle(0, 0, width, height, "ground")}{"".join(parts)}</svg>')


# ---- The history

def history(points, style=STYLE):
    """The history as a line, each worker's calls on it, and each session's touches and captures."""
    workers = sorted({point.call.worker for point in points[1:]}, key=lambda it: -1 if it is None else it)
    places = {worker: TOP + LANE * number + 30 for number, worker in enumerate(workers)}
    sessions = sorted({it["number"] for point in points for it in point.sessions})
    below = TOP + LANE * len(workers) + 36
    rows = {number: below + SESSION * place for place, number in enumerate(sessions)}
    width, height = x_of(len(points) - 1) + STEP, below + SESSION * len(sessions)
    parts = [rectangle(0, 0, 0, height, "since", 'id="cursor"'), text(LEFT - 16, TOP + 4, "history", anchor="end"),
             line(LEFT, TOP, width - STEP // 2, TOP, "axis")]
    for worker, y in places.items():
        parts += [text(LEFT - 16, y + 4, "main" if worker is None else f"worker {worker}", anchor="end"),
                  line(LEFT, y, width - STEP // 2, y, "thin")]
    for number, y in rows.items():
        parts += [text(LEFT - 16, y + 4, f"session {number}", anchor="end"), *session_lane(points, number, y)]
    for point in points[1:]:
        parts += call_marks(point, points, places[point.call.worker])
    return svg(width, height, f"The history of {len(points) - 1} calls", parts, style)


def call_marks(point, points, y):
    """A call on the history and on the lane of its worker."""
    x, call = x_of(point.number), point.call
    about = f"<title>{escape(f'{point.number}: {call.line} => {call.reply}')}</title>"
    parts = []
    if call.base is not None:
        begin = begin_of(point, points)
        parts += [rectangle(begin, y - 13, x - begin, 26, "since")]
        if x - begin > 90:
            parts.append(text(begin + 4, y + 4, f"reads v{call.base}", "soft", "start"))
    if point.cause is not None:
        cause = x_of(point.cause)
        above = TOP - 26 - min(20, (point.number - point.cause) * 4)
        parts.append(f'<path d="M{cause} {TOP - 7} C{cause} {above} {x} {above} {x} {TOP - 9}" class="why"/>')
    parts.append(line(x, TOP, x, y, "thin"))
    if point.kind == "refused":
        parts += [line(x - 5, TOP - 5, x + 5, TOP + 5, "cross"), line(x - 5, TOP + 5, x + 5, TOP - 5, "cross")]
    else:
        parts.append(f'<circle cx="{x}" cy="{TOP}" r="{6 if point.kind == "write" else 4}" class="dot {point.kind}"/>')
    if point.kind == "write":
        parts.append(text(x - 8, TOP - 8, f"v{point.version}", "soft", "end"))
    word = SHORT.get(call.command.word, call.command.word)
    parts += [rectangle(x - 36, y - 11, 72, 22, f"call {point.kind}", 'rx="5"'), text(x, y + 4, word)]
    return [f'<g class="point" data-at="{point.number}">{about}{"".join(parts)}</g>']


def begin_of(point, points):
    """Where a transaction may have begun at the earliest: at its base, and behind the call of its worker before it."""
    base = next(it.number for it in points if it.version >= point.call.base)
    own = [it.number for it in points[1:point.number] if it.call.worker == point.call.worker]
    return max([x_of(base), *(x_of(number) + 36 for number in own)])


def session_lane(points, number, y):
    """A session: the line of its life, its touches and its captures."""
    parts = []
    for point in points:
        state = next((it for it in point.sessions if it["number"] == number), None)
        if state:
            off = " off" if "disabled" in state["flags"] else ""
            parts.append(line(x_of(point.number), y, x_of(point.number) + STEP, y, f"thin{off}"))
    for point in points:
        kinds = [touch.kind for touch in point.touches if touch.session == number]
        for place, kind in enumerate(kinds[:3]):
            x = x_of(point.number) - 9 * min(3, len(kinds)) + 18 * place
            parts += [rectangle(x, y - 8, 16, 16, kind, 'rx="3"'), text(x + 8, y + 4, LETTERS[kind], "letter")]
        if len(kinds) > 3:
            parts.append(text(x_of(point.number) + 32, y + 4, f"+{len(kinds) - 3}", "soft", "start"))
        if point.capture and point.capture.session == number:
            parts += capture_bracket(point, y)
    return parts


def capture_bracket(point, y):
    """What a capture spans, and how many changes it has."""
    since, x, n = x_of(point.capture.since), x_of(point.number), len(point.capture.changes)
    path = f'<path d="M{since} {y + 14} v6 H{x} v-6" class="bracket"/>'
    return [path, text(x - 4, y + 34, f"{n} change{'' if n == 1 else 's'}", "count", "end")]


# ---- A capture

def capture_of(points, number):
    """The records of a session at the last point."""
    for session in points[-1].sessions:
        if session["number"] == number:
            return capture(session["records"], f"Session {number}, at version {points[-1].version}")
    raise ValueError(f"there is no session {number} at the end of the run")


def capture(records, title):
    """How a capture follows: of each touched key the row before the first touch, the row now, and the change."""
    columns = (16, "key"), (124, "first image"), (312, "row now"), (500, "the capture has")
    parts = [text(16, 26, title, anchor="start")]
    parts += [text(x, 52, content, "soft", "start") for x, content in columns]
    for place, record in enumerate(records):
        y = 84 + 40 * place
        parts.append(text(16, y, record["key"], "mono", "start"))
        for x, content in ((124, record["first"]), (312, record["now"])):
            of = "thin call" if content else "gone"
            parts += [rectangle(x, y - 18, 164, 28, of, 'rx="4"'),
                      text(x + 10, y + 1, content or "no row", "mono" if content else "soft", "start")]
        parts.append(text(300, y + 1, "→", "soft"))
        parts.append(text(488, y + 1, "→", "soft"))
        if record["kind"]:
            parts += [rectangle(500, y - 12, 16, 16, record["kind"], 'rx="3"'),
                      text(508, y, LETTERS[record["kind"]], "letter"),
                      text(524, y + 1, record["kind"].upper(), "", "start")]
        else:
            parts.append(text(500, y + 1, "no change", "soft", "start"))
    return svg(640, 84 + 40 * len(records), title, parts)
