#!/usr/bin/env python3
"""Makes a page of a history: a lane for each controller, time downwards, a dot for each write.

usage: cmrun run --workers 0 < scenario.json | tools/lanes.py [--title TEXT] > page.html
       tools/lanes.py HISTORY > page.html

The page stands alone and needs nothing but a browser. From each write lines lead to the versions that its pass had seen, so that a
stale cache is seen as a long line, and a red one leads to the first write that the pass had not seen though it was stored. The entry is shown under the pointer,
rows can be narrowed to one Certificate, and another history can be dropped on the page.
"""
import json
import os

import cli
from history import History

PAGE = f"{cli.TOP}/tools/lanes.html"
# The entries that the page shows or needs to know; of deliveries it needs none.
SHOWN = ("begin", "call", "ask", "answered", "judged", "stop", "start", "tick", "script")


def shown_lines(history):
    """The lines that the page is made of: passes without a call or an answer are left out."""
    wanted = {it["who"] for it in history.entries if it["is"] == "call"} | {it["pass"] for it in history.entries if it["is"] in ("answered", "judged")}
    yield {"scenario": history.scenario}
    for entry in history.entries:
        if entry["is"] in SHOWN and (entry["is"] != "begin" or entry["pass"] in wanted):
            if entry["is"] != "ask" or entry["order"]["is"] in ("sign", "judge"):
                yield entry


def page_of(history, title):
    """The page, with the history in it as data that no name can break out of."""
    with open(PAGE, encoding="utf-8") as file:
        page = file.read()
    data = json.dumps({"title": title, "lines": list(shown_lines(history))}, separators=(",", ":"), ensure_ascii=True)
    for mark, escape in (("<", "\\u003c"), (">", "\\u003e"), ("&", "\\u0026")):
        data = data.replace(mark, escape)
    return page.replace(">DATA<", f">{data}<", 1)


def main():
    parser = cli.Parser(__doc__)
    parser.add_argument("history", nargs="?")
    parser.add_argument("--title", metavar="TEXT")
    given = parser.parse_args()
    history = History.read(cli.read_bytes(given.history))
    # (a history that cannot be folded is refused here, and not by the page)
    history.end()
    title = given.title or (os.path.basename(given.history) if given.history else "history")
    print(page_of(history, title), end="")


if __name__ == "__main__":
    cli.run_tool(main)
