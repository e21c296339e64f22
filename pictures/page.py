"""The page of a run: one file of HTML, with its style, its script and what it shows."""
import json
import os
import re
from html import escape

import drawing

HERE = os.path.dirname(os.path.abspath(__file__))


def contents(name):
    with open(f"{HERE}/{name}", encoding="utf-8") as file:
        return file.read()


def page(points, title):
    """The page, in which `page.js` shows the point that is chosen."""
    shown = json.dumps([shown_point(point) for point in points], separators=(",", ":")).replace("<", "\\u003c")
    parts = {"TITLE": escape(title), "SUMMARY": escape(summary(points)), "STYLE": drawing.STYLE + contents("page.css"),
             "HISTORY": drawing.history(points, style=""), "LAST": str(len(points) - 1), "POINTS": shown,
             "SCRIPT": contents("page.js")}
    return re.sub("@([A-Z]+)@", lambda found: parts[found[1]], contents("page.html"))


def summary(points):
    """The run in a sentence."""
    calls = [point.call for point in points[1:]]
    workers = {call.worker for call in calls if call.worker is not None}
    refused = sum(point.kind == "refused" for point in points)
    by = f" by {len(workers)} worker{'s' * (len(workers) != 1)} and the main thread" if workers else ""
    return f"{len(calls)} calls{by}, {points[-1].version} versions, {refused} refused."


def shown_point(point):
    """What the page shows of a point."""
    shown = {"kind": point.kind, "version": point.version, "tables": point.tables, "sessions": point.sessions}
    if point.call:
        call = point.call
        shown |= {"who": "main" if call.worker is None else f"worker {call.worker}", "line": call.line,
                  "reply": call.reply, "base": call.base, "cause": point.cause, "item": call.item,
                  "looked": [[item.text, item.changed] for item in point.looked]}
    if point.capture:
        shown["capture"] = {"session": point.capture.session, "since": point.capture.since,
                            "changes": point.capture.changes}
    return shown
