#!/usr/bin/env python3
"""Explains what came of a scenario: why it was refused, what was taken without a word and hardly meant, or why it never ends.

usage: tools/why.py [--program CMRUN] SCENARIO          (or the scenario on standard input)

Of a refused scenario it says the line and the column, what stands there, what may stand there, and the name that was probably
meant; then every other place that does not fit. Of a run it warns of the silent mistakes, and gives the cause of each wait. Of a
run that never comes to rest it shows one turn of the loop, with its cause. The exit status is that of the program.
"""
import difflib
import json
import re
import sys

import cli
from history import KINDS, ROLES, WATCHES, History, key_fingerprint, rule_text, seconds_of
from loop import MOST_EVENTS, causes, enough_events, find_loop, turn_lines
from schema import Schema
from status import cause_of
from timeline import reply_text, step_text

LEFT_OUT = set("keystores secretTemplate additionalOutputFormats literalSubject subject otherNames nameConstraints encodeUsagesInRequest signatureAlgorithm extra groups uid username immutable stringData".split())
RENAMED = {"dnsName": "dnsNames", "altNames": "dnsNames", "steps": "script", "issuer": "issuerRef", "organization": "commonName"}
PEM = "LS0tLS1CRUdJTi"
USUAL_EVENTS = 100000
LAST_MOMENT = "9900-01-01T00:00:00Z"


# ---- places in a text


def offsets(text):
    """The offset of each value of a JSON text, by its path joined with dots; of a repeated member the last counts."""
    found, decoder = {}, json.JSONDecoder()
    space = re.compile(r"[ \t\n\r]*")

    def value(at, path):
        found[".".join(path)] = at
        if text[at] == "{":
            return members(at, path)
        if text[at] == "[":
            return items(at, path)
        return decoder.raw_decode(text, at)[1]

    def skip(at):
        return space.match(text, at).end()

    def members(at, path):
        at = skip(at + 1)
        while text[at] != "}":
            name, at = decoder.raw_decode(text, at)
            at = skip(value(skip(skip(at) + 1), (*path, name)))
            at = skip(at + 1) if text[at] == "," else at
        return at + 1

    def items(at, path):
        at, place = skip(at + 1), 0
        while text[at] != "]":
            at = skip(value(at, (*path, str(place))))
            at = skip(at + 1) if text[at] == "," else at
            place += 1
        return at + 1

    value(skip(0), ())
    return found


def line_of(text, at):
    """The line and the column of an offset, from 1, and the line itself."""
    start = text.rfind("\n", 0, at) + 1
    end = text.find("\n", at)
    return text.count("\n", 0, at) + 1, at - start + 1, text[start : end if end >= 0 else len(text)]


def shown_line(text, at):
    """The line of an offset with a mark beneath, cut to what fits a terminal."""
    line, column, whole = line_of(text, at)
    first = max(0, column - 60)
    part = "".join(c if c.isprintable() else "?" for c in whole[first : first + 110].replace("\t", " "))
    return [f"  line {line}, column {column}:", f"    {part}", f"    {' ' * (column - 1 - first)}^"]


# ---- a refused scenario


def explain_bytes(data):
    """Why bytes are no JSON."""
    try:
        yield from explain_json(data.decode())
    except UnicodeDecodeError as bad:
        yield f"  it is not UTF-8: its byte {bad.start + 1} is none of a text"
        if data[:2] in (b"\xff\xfe", b"\xfe\xff"):
            yield "  it looks like UTF-16: save it as UTF-8"


def explain_json(text):
    """Why a text is no JSON."""
    try:
        json.loads(text, parse_constant=lambda word: (_ for _ in ()).throw(json.JSONDecodeError(f"{word} is no JSON", text, max(text.find(word), 0))))
    except json.JSONDecodeError as bad:
        yield f"  {bad.msg}"
        yield from shown_line(text, min(bad.pos, max(len(text) - 1, 0))) if text else ["  the input is empty"]
        yield from json_hints(text, bad)
        return
    except (ValueError, RecursionError):
        pass
    yield "  it is nested more than 127 levels deep, or has a number that no double holds, or half a surrogate pair"


def json_hints(text, bad):
    start = text.lstrip()[:1]
    if text.startswith("\ufeff"):
        yield "  it begins with a byte order mark: save it as UTF-8 without one"
    elif bad.msg.startswith("Extra data"):
        yield "  one JSON value is wanted, and more follows: put all objects into the script of one scenario"
    elif text and start not in ("{", "[") and re.search(r"^[\w-]+:", text, re.M):
        yield "  this looks like YAML: `kubectl .. -o json` or `yq -o json` gives JSON"
    elif "//" in text or "/*" in text:
        yield "  JSON has no comments"
    elif "'" in text[bad.pos : bad.pos + 2]:
        yield "  JSON has double quotes alone"
    elif re.search(r",\s*[}\]]", text[max(bad.pos - 200, 0) : bad.pos + 2]):
        yield "  a comma before } or ] is one too many"


def close_name(name, names):
    """The name that was probably meant, None where none is near."""
    if RENAMED.get(name) in names:
        return RENAMED[name]
    found = difflib.get_close_matches(name, names, 1, 0.5)
    return found[0] if found else None


def close_word(value, words):
    """The word among those that may stand there that is nearest to a value, None where none is near."""
    if not isinstance(value, str):
        return None
    tidy = {word.lower(): word for word in words}
    wanted = value.replace("-", "").lower()
    near = difflib.get_close_matches(wanted, tidy, 1, 0.7)
    parts = [word for word in tidy if len(word) > 3 and word in wanted]
    return tidy[near[0]] if near else tidy[parts[0]] if parts else None


def shown_value(value):
    text = json.dumps(value, ensure_ascii=False)
    return text if len(text) <= 90 else text[:90] + " .."


def value_at(value, path):
    """The value at a path, and whether there is one."""
    for part in path:
        try:
            value = value[part]
        except (KeyError, IndexError, TypeError):
            return None, False
    return value, True


def explain_fault(fault, scenario):
    """What a place has, what it may have, and the name that was probably meant."""
    value, is_there = value_at(scenario, fault.path)
    leaf = str(fault.path[-1]) if fault.path else ""
    yield f"  there is {shown_value(value)}" if is_there else "  there is nothing, and it has to be there"
    if fault.names:
        if leaf in LEFT_OUT:
            yield f"  `{leaf}` is a member of the real API that the model leaves out: take it away"
            return
        near = close_name(leaf, fault.names)
        yield f"  there is no member `{leaf}` here{f'; did you mean `{near}`?' if near else ''}"
        yield f"  members: {', '.join(name for name in sorted(fault.names))}"
        if not fault.path[:-1] and "apiVersion" in scenario:
            yield '  a manifest is no scenario: wrap it as {"script":[{"do":"apply","object":MANIFEST}]}'
    elif fault.wanted:
        yield f"  wanted: {fault.wanted}"
        near = close_word(value, fault.words)
        if near:
            yield f"  did you mean {near}?"
    yield from special_hints(fault, value, scenario)


def special_hints(fault, value, scenario):
    leaf = str(fault.path[-1]) if fault.path else ""
    if not fault.path and isinstance(value, list):
        yield '  a list of steps goes into {"script":[..]}'
    if leaf == "kind" and value in ("Issuer", "ClusterIssuer"):
        yield "  issuers are no objects of the model: rows of `material` answer for them"
    if leaf == "kind" and value == "List":
        yield "  `tools/cluster.py` turns a list of kubectl into a scenario"
    if leaf in ("data", "der") or len(fault.path) > 1 and fault.path[-2] == "data":
        if isinstance(value, str) and "\n" in value:
            yield "  take the line breaks out (base64 -w0)"


def explain_place(path, scenario):
    """Why the program refuses a place that has the right form: a step that cannot be made when its turn comes, and the like."""
    parts = path.split(".")
    if parts[0] == "script" and len(parts) == 2 and parts[1].isdecimal():
        yield from explain_step(int(parts[1]), scenario)
    elif parts[0] == "faults":
        yield "  the numbers have to rise: each above the one before"
    else:
        yield "  its form is not what docs/SCENARIO.md says"


def explain_step(place, scenario):
    if place >= 10000:
        yield "  a script has at most 10000 steps"
        return
    running, held, seconds = set(scenario.get("roles", ROLES)), set(), seconds_of(scenario.get("now", "2030-01-01T00:00:00Z"))
    for step in scenario["script"][: place + 1]:
        role, kind, last = step.get("role"), step.get("kind"), step
        problem = None
        if step["do"] == "stop":
            problem = None if role in running else f"{role} does not run at this step, so it cannot be stopped"
            running.discard(role)
        elif step["do"] == "start":
            problem = f"{role} runs already at this step: it has to be stopped before it is started" if role in running else None
            running.add(role)
        elif step["do"] == "hold":
            problem = f"{role} has no watch of {kind}: it is told of {', '.join(WATCHES[role])}" if kind not in WATCHES[role] else f"{role} is held from {kind} already" if (role, kind) in held else None
            held.add((role, kind))
        elif step["do"] == "release":
            problem = None if (role, kind) in held else f"{role} is not held from {kind} at this step"
            held.discard((role, kind))
        elif step["do"] == "tick":
            seconds += step["seconds"]
            problem = f"the moment passes {LAST_MOMENT}" if seconds > seconds_of(LAST_MOMENT) else None
    yield f"  step {place + 1}: {step_text(last)}"
    yield f"  {problem or 'it cannot be made when its turn comes'}"


def explain_refusal(path, text):
    """Why a scenario is refused at a path, and what else does not fit."""
    scenario = json.loads(text)
    faults = Schema.load().faults(scenario)
    places = offsets(text)
    near = path
    while near not in places and near:
        near = near.rpartition(".")[0]
    yield from shown_line(text, places[near])
    here = [fault for fault in faults if fault.place == path]
    if here:
        yield from explain_fault(here[0], scenario)
    elif not faults:
        yield from explain_place(path, scenario)
    others = [fault for fault in faults if fault.place != path]
    if others:
        yield f"{len(others)} more {'place does' if len(others) == 1 else 'places do'} not fit:"
    for fault in others[:20]:
        line = f"line {line_of(text, places[fault.place])[0]}: " if fault.place in places else ""
        leaf = str(fault.path[-1]) if fault.path else ""
        wanted = "left out of the model: take it away" if leaf in LEFT_OUT and fault.names else fault.wanted or fault.what
        yield cli.one_line(f"  {line}{fault.place}: {wanted}")


# ---- a run


def applied(scenario):
    """The applied objects, as (place, object, namespace/name)."""
    for place, step in enumerate(scenario.get("script", [])):
        if step["do"] == "apply":
            meta = step["object"]["metadata"]
            yield place, step["object"], f"{meta.get('namespace', 'default')}/{meta['name']}"


def texts_in(value, path=()):
    if isinstance(value, str):
        yield path, value
    elif isinstance(value, (dict, list)):
        for name, inner in value.items() if isinstance(value, dict) else enumerate(value):
            yield from texts_in(inner, (*path, str(name)))


def warn_of_text(scenario):
    """The mistakes that the scenario alone shows."""
    names = {name for _, thing, name in applied(scenario) if thing["kind"] == "Certificate"}
    for name in scenario.get("material", {}):
        if name not in names:
            near = difflib.get_close_matches(name, names, 1)
            yield f"material.{name}: no step applies that Certificate, so its rows are never used{f'; did you mean {near[0]}?' if near else ''}"
    for path, text in texts_in(scenario):
        if text.startswith(PEM):
            yield f"{'.'.join(path)}: this is base64 of PEM, and the model reads base64 of DER: it counts as unreadable (openssl .. -outform DER, or tools/cluster.py, turns it into DER)"
    for place, thing, _ in applied(scenario):
        yield from warn_of_object(f"script.{place}.object", thing)
    yield from warn_of_ticks(scenario)
    for place, role, kind in held_at_end(scenario):
        yield f"script.{place}: {role} is held from {kind} to the end: what is not Ready then waits for `stopped`"


def warn_of_object(path, thing):
    if thing.get("status"):
        yield f"{path}.status: it is dropped: the controllers of the run write the status"
    for place, owner in enumerate(thing["metadata"].get("ownerReferences", [])):
        if owner.get("kind") not in KINDS or not re.fullmatch(r"uid-(0|[1-9]\d*)", str(owner.get("uid"))):
            yield f"{path}.metadata.ownerReferences.{place}: it is dropped: an owner is of a kind of the model, and its uid is uid- and the version at which it was created"
    ref = thing.get("spec", {}).get("issuerRef", {})
    if ref.get("kind", "Issuer") not in ("Issuer", "ClusterIssuer", "") and ref.get("group", "cert-manager.io") == "cert-manager.io":
        yield f"{path}.spec.issuerRef.kind: {ref['kind']} is neither Issuer nor ClusterIssuer; a real cluster refuses it, and here it is issued like any other"


def warn_of_ticks(scenario):
    """A tick right after a step of a user, where some controller runs: it has had no pass yet."""
    is_acted = False
    for place, step in enumerate(scenario.get("script", [])):
        if step["do"] == "tick" and is_acted and scenario.get("roles", ROLES):
            yield f"script.{place}: time passes before the controllers have acted on the steps before it; put a `settle` in front"
        if step["do"] in ("apply", "delete", "approve", "deny", "answer", "renew"):
            is_acted = True
        elif step["do"] in ("settle", "until"):
            is_acted = False


def held_at_end(scenario):
    held = {}
    for place, step in enumerate(scenario.get("script", [])):
        if step["do"] == "hold":
            held[step["role"], step["kind"]] = place
        if step["do"] == "release":
            held.pop((step["role"], step["kind"]), None)
    return [(place, *key) for key, place in held.items()]


class Watched:
    """What a run shows of its steps: the calls that each made, and how often each role had written each kind."""

    def __init__(self, history):
        self.told, self.counts, self.step = [], {}, None
        self.calls_of_step = {}
        self.questions, self.keys = {}, {}
        for event in history.events():
            self.take(event)
        self.state = event.state if history.entries else history.end()

    def take(self, event):
        if event.kind == "script":
            self.step = event.step
            self.calls_of_step[event.entry["step"]] = 0
            self.until(event)
        elif event.kind == "call" and event.who == "user":
            self.calls_of_step[event.state.step] = self.calls_of_step.get(event.state.step, 0) + 1
            self.refused(event)
        elif event.write:
            key = event.who, event.write.key.split("/")[0]
            self.counts[key] = self.counts.get(key, 0) + 1
        elif event.kind == "made":
            name = event.order["certificate"]
            self.keys.setdefault(name, []).append(event)
        elif event.kind == "answered":
            self.questions[event.order["request"]] = event.order["number"]

    def until(self, event):
        step = event.step
        if step["do"] != "until":
            return
        made = self.counts.get((step["role"], step["kind"]), 0)
        if made < step["writes"]:
            self.told.append(f"script.{event.entry['step'] - 1}: {step_text(step)}: it came to rest with {made} such writes, so the step ended without them")

    def refused(self, event):
        entry, place = event.entry, event.state.step - 1
        reply = entry["reply"]
        if "ok" in reply or "unchanged" in reply:
            return
        hint = ""
        if "object" in self.step and "resourceVersion" in self.step["object"]["metadata"] and ("notFound" in reply or "conflict" in reply):
            hint = f"; take script.{place}.object.metadata.resourceVersion away: with it the step is an update of that version, and never a create"
        self.told.append(f"script.{place}: {entry['call']} of {entry['key']} (entry {entry['n']}) was refused: {reply_text(entry)}{hint}")


def warn_of_run(scenario, history, watched):
    """The mistakes that the run shows."""
    yield from watched.told
    for place, step in enumerate(scenario.get("script", [])):
        if step["do"] in ("approve", "deny", "answer", "renew") and not watched.calls_of_step.get(place + 1, 0):
            what = f"a request of revision {step['revision']} of {step['certificate']}" if "revision" in step else f"Certificate {step['certificate']}"
            yield f"script.{place}: {step_text(step)}: nothing happened, for there was no such thing as {what} at that time"
    calls = watched.state.calls
    for place, number in enumerate(scenario.get("faults", [])):
        if number > calls:
            yield f"faults.{place}: the run makes {calls} calls, so call {number} never comes"
    for name, rows in scenario.get("material", {}).items():
        yield from warn_of_keys(name, rows.get("keys", []), watched.keys.get(name, []))


def warn_of_keys(name, rows, made):
    for place, (row, event) in enumerate(zip(rows, made)):
        if "der" in row and event.entry["key"] != row["der"]:
            yield f"material.{name}.keys.{place}: the row was passed over, for its key is not of the algorithm and size that were asked for; key {key_fingerprint(event.entry['key'])} was made instead"


def explain_run(scenario, history):
    """Warnings, and the cause of each wait."""
    watched = Watched(history)
    for text in [*warn_of_text(scenario), *warn_of_run(scenario, history, watched)]:
        yield f"warning: {text}"
    for it in history.summary["waiting"]:
        yield f"{it['certificate']} waits for {it['wait']}: {cause_of(watched.state, it['certificate'], it['wait'])}"


# ---- a run that never ends


def needed_entries(program, scenario, events):
    """How many entries a run needs; None where these do not suffice."""
    ran = cli.run_scenario(program, {**scenario, "events": events}, seconds=600)
    return len(ran.output.splitlines()) - 2 if ran.status == 0 else None


def explain_full(program, scenario):
    """Why a run needs more entries than it may have."""
    allowed = scenario.get("events", USUAL_EVENTS)
    enough = enough_events(scenario)
    needed = needed_entries(program, scenario, enough) if allowed < enough else None
    loop = None if needed else find_loop(lambda it: cli.run_scenario(program, it), scenario)
    if loop is None:
        needed = needed or needed_entries(program, scenario, MOST_EVENTS)
        yield f'it ends, and needs {needed} entries: put "events":{needed} or more into the scenario' if needed else f"it does not end within {MOST_EVENTS} entries, and no turn of a loop was found"
        return
    yield from [f"warning: {text}" for text in warn_of_text(scenario)]
    where = f"step {loop.step} ({step_text(scenario['script'][loop.step - 1])})" if loop.step else "the rest after the last step"
    yield f"never at rest: {where} does not end. One turn has {loop.period} writes:"
    yield from turn_lines(loop)
    for text in causes(loop):
        yield f"because {text}"


def first_run(program, data):
    """Runs a scenario, with no more entries than it is likely to need: a run without end takes long to fill its history."""
    try:
        scenario = json.loads(data.decode())
    except (ValueError, RecursionError):
        return cli.run_scenario(program, data)
    steps = scenario.get("script") if isinstance(scenario, dict) else None
    if isinstance(steps, list) and scenario.get("events", USUAL_EVENTS) == USUAL_EVENTS:
        ran = cli.run_scenario(program, {**scenario, "events": min(enough_events(scenario), USUAL_EVENTS)})
        if ran.status in (0, 6):
            return ran
    return cli.run_scenario(program, data)


def explain(program, data):
    """Runs a scenario, and gives the status and the lines that explain what came of it."""
    ran = first_run(program, data)
    told = [ran.error] if ran.error else []
    if ran.error == "cmrun: not JSON":
        told += explain_bytes(data)
    elif ran.error.startswith("cmrun: bad scenario at"):
        told += explain_refusal(ran.error.partition(" at ")[2] if " at " in ran.error else "", data.decode())
    elif ran.status == 6:
        told += explain_full(program, json.loads(data.decode()))
    elif ran.status == 0:
        found = list(explain_run(json.loads(data.decode()), History.read(ran.output)))
        told += found or ["nothing to explain: the run is finished, and all its Certificates are ready"]
    return ran.status, told


def main():
    parser = cli.Parser(__doc__)
    parser.add_argument("scenario", nargs="?")
    cli.add_program(parser)
    given = parser.parse_args()
    status, told = explain(cli.program_of(given.program), cli.read_bytes(given.scenario))
    # The program's own line goes where the program writes it.
    for line in told:
        print(line, file=sys.stderr if line.startswith("cmrun: ") else sys.stdout, flush=True)
    return status


if __name__ == "__main__":
    cli.run_tool(main)
