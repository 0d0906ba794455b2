#!/usr/bin/env python3
"""Runs the library of scenarios, and compares what comes out with what its pages show.

usage: tools/library.py [--program CMRUN] [--write] [NAME ..]

A question is three files of scenarios/: NAME.json (the scenario), NAME.expect.json (what is expected of its run), and NAME.md: the
question as its heading, a line `Topic: ..`, the answer, and what tools print in fences such as

    ```timeline --from 100
    ```status default/web
    ```why

Each fence is run on the scenario and has to be as the page shows it; scenarios/README.md has to list all questions. `--write` writes
the fences and the list anew. The last line is `N passed, M failed`.
"""
import os
import re
import shlex
from concurrent.futures import ThreadPoolExecutor

import cli
import status
import timeline
import why
from cli import BadInput
from expect import check_run
from history import History

FOLDER = f"{cli.TOP}/scenarios"
FENCE = re.compile(r"^```(timeline|status|why)([^\n]*)\n(.*?)^```$", re.M | re.S)
INDEX = f"{FOLDER}/README.md"
MARK = "<!-- tools/library.py --write writes what follows -->\n"


class Page:
    """A question of the library."""

    def __init__(self, name):
        self.name = name
        self.scenario, self.page, self.expected = (f"{FOLDER}/{name}{end}" for end in (".json", ".md", ".expect.json"))
        self.text = cli.read_bytes(self.page).decode()
        heading = re.match(r"# (.+)\n\nTopic: (.+)\n", self.text)
        if not heading:
            raise BadInput(f"scenarios/{name}.md does not begin with a question and its topic")
        self.question, self.topic = heading[1], heading[2]


def names():
    return sorted(it.removesuffix(".md") for it in os.listdir(FOLDER) if it.endswith(".md") and it != "README.md")


def shown(program, page, tool, words, history):
    """What a tool prints of the page's scenario."""
    if tool == "why":
        lines = why.explain(program, cli.read_bytes(page.scenario))[1]
    elif tool == "status":
        bound = timeline.bound_of(words[words.index("--at") + 1], "--at") if "--at" in words else None
        most = int(words[words.index("--events") + 1]) if "--events" in words else 20
        name = words[0] if words and "/" in words[0] else None
        state, events = status.state_and_events(status.up_to(history, bound), name)
        lines = status.describe(state, name, events, most) if name else status.overview(state)
    else:
        option = lambda name: words[words.index(name) + 1] if name in words else None
        first, last = timeline.bound_of(option("--from"), "--from"), timeline.bound_of(option("--to"), "--to")
        lines = timeline.lines(history, option("--certificate"), first, last)
    return "".join(f"{line}\n" for line in lines)


def new_text(program, page):
    """The page with its fences written anew."""
    fences = FENCE.findall(page.text)
    if not fences:
        raise BadInput(f"scenarios/{page.name}.md shows no output")
    history = None
    if any(tool != "why" for tool, _, _ in fences):
        ran = cli.run_scenario(program, cli.read_bytes(page.scenario))
        if ran.status:
            raise BadInput(f"scenarios/{page.name}.json: {ran.error}")
        history = History.read(ran.output)
    fence = lambda found: f"```{found[1]}{found[2]}\n{shown(program, page, found[1], shlex.split(found[2]), history)}```"
    return FENCE.sub(fence, page.text)


def checked(program, name, write):
    """The page, and what is wrong with it."""
    page, wrong = Page(name), []
    for is_good, text in check_run(program, cli.read_bytes(page.scenario), cli.read_json(page.expected, "expectations")):
        if not is_good:
            wrong.append(text)
    text = new_text(program, page)
    if text != page.text and write:
        cli.write_text(page.page, text)
    elif text != page.text:
        old, new = page.text.splitlines(), text.splitlines()
        at = next((place for place, (a, b) in enumerate(zip(old, new)) if a != b), min(len(old), len(new)))
        wrong.append(f"line {at + 1} of scenarios/{name}.md differs from what the tools print: {new[at] if at < len(new) else 'nothing'}")
    return page, wrong


def index_of(pages):
    """The list of questions by topic."""
    topics = {}
    for page in pages:
        topics.setdefault(page.topic, []).append(page)
    lines = []
    for topic, found in sorted(topics.items()):
        lines += [f"## {topic}", "", "| Question | Scenario |", "|---|---|"]
        lines += [f"| [{page.question}]({page.name}.md) | [{page.name}.json]({page.name}.json) |" for page in found]
        lines.append("")
    return "\n".join(lines).rstrip("\n") + "\n"


def check_index(pages, write):
    """What is wrong with the list of questions."""
    text = cli.read_bytes(INDEX).decode()
    head, mark, rest = text.partition(MARK)
    if not mark:
        return [f"scenarios/README.md lacks its line {MARK.strip()}"]
    wanted = "\n" + index_of(pages)
    if rest == wanted:
        return []
    if write:
        cli.write_text(INDEX, head + mark + wanted)
        return []
    return ["scenarios/README.md does not list the questions as they are (tools/library.py --write)"]


def check_all(program, wanted, write, jobs=4):
    """Checks these questions, and gives the pages and what is wrong, name by name."""
    results = {}
    with ThreadPoolExecutor(jobs) as pool:
        for name, (page, wrong) in zip(wanted, pool.map(lambda it: checked(program, it, write), wanted)):
            results[name] = page, wrong
    return results


def main():
    parser = cli.Parser(__doc__)
    parser.add_argument("names", nargs="*", metavar="NAME")
    parser.add_argument("--write", action="store_true")
    cli.add_program(parser)
    given = parser.parse_args()
    known = names()
    wanted = [os.path.basename(it).removesuffix(".json").removesuffix(".md") for it in given.names] or known
    for name in wanted:
        if name not in known:
            raise BadInput(f"the library has no question {name}", 2)
    results = check_all(cli.program_of(given.program), wanted, given.write)
    failed = 0
    for name, (_, wrong) in results.items():
        failed += bool(wrong)
        for text in wrong:
            print(cli.one_line(f"{name}: {text}"))
    if wanted == known:
        wrong = check_index([page for page, _ in results.values()], given.write)
        failed += len(wrong)
        print("".join(f"{text}\n" for text in wrong), end="")
    print(f"{len(results) + (wanted == known) - failed} passed, {failed} failed")
    return 1 if failed else 0


if __name__ == "__main__":
    cli.run_tool(main)
