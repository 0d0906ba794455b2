#!/usr/bin/env python3
"""Runs a scenario with each of many disturbances, and groups what comes out: what is stored at the end, and what it cost.

usage: tools/explore.py [--program CMRUN] [--pairs N] [--seed S] [--lags 2,6] [--write DIR] [--all] SCENARIO

At each accepted write of a controller in the plain run, each controller is stopped and started again, and each watch is held until
so many further writes were made (--lags); each call of the store fails once; and N pairs of these are drawn by a seed. Equal outcomes
are one line, the plain run's first and the rarest last, with the least disturbance that leads there; --write puts a scenario of each
outcome but the plain one into a folder, as small as it can be made with that outcome.

What is explored is cost and liveness: issuances, keys, questions, waits, and whether the run comes to rest at all. Safety is not
explored but proved, for every interleaving; all the same each history is audited, by `cmrun audit` where the program has it and else
by tools/scan_history.py, and the exit status is 1 where an audit finds something.
"""
import collections
import json
import os
import random
import sys
from concurrent.futures import ThreadPoolExecutor

import cli
from cli import BadInput
from expect import Facts
from history import ROLES, WATCHES, History, is_true
from scan_history import scan

MOST_EVENTS = 250000


class Disturbance:
    """Something that goes wrong in a run: after some write of the plain run (None for a call that fails), these steps, or this fault."""

    def __init__(self, text, point=None, steps=(), fault=None):
        self.text, self.point, self.steps, self.fault = text, point, list(steps), fault

    @property
    def size(self):
        return len(self.steps) + (self.fault is not None)


class Point:
    """An accepted write of a controller in the plain run: the script's steps before it, and how many such writes there were."""

    def __init__(self, step, role, kind, count):
        self.step, self.role, self.kind, self.count = step, role, kind, count

    def until(self):
        return {"do": "until", "role": self.role, "kind": self.kind, "writes": self.count}

    def __str__(self):
        return f"{self.role}'s {self.kind} write {self.count}"


def points_of(history):
    """The writes of the plain run, and the number of its calls."""
    counts, found, state = collections.Counter(), [], None
    for event in history.events():
        state = event.state
        if event.write and event.who != "user":
            key = event.who, event.write.key.split("/")[0]
            counts[key] += 1
            found.append(Point(event.state.step, *key, counts[key]))
    return found, state.calls if state else 0


def stopped_at(scenario, step):
    """The roles that do not run after some steps of the script, and the watches that are held then."""
    running, held = set(scenario.get("roles", ROLES)), set()
    for it in scenario["script"][:step]:
        if it["do"] == "stop":
            running.discard(it["role"])
        elif it["do"] == "start":
            running.add(it["role"])
        elif it["do"] == "hold":
            held.add((it["role"], it["kind"]))
        elif it["do"] == "release":
            held.discard((it["role"], it["kind"]))
    return set(ROLES) - running, held


def singles(scenario, history, lags):
    """Each disturbance by itself."""
    points, calls = points_of(history)
    for place, point in enumerate(points):
        stopped, held = stopped_at(scenario, point.step)
        for role in ROLES:
            if role in stopped:
                continue
            steps = [{"do": "stop", "role": role}, {"do": "start", "role": role, "behind": 0}]
            yield Disturbance(f"{role} stops and starts at {point}", point, steps)
            for kind in WATCHES[role]:
                if (role, kind) not in held:
                    yield from lagging(points, place, role, kind, lags)
    faults = set(scenario.get("faults", []))
    for number in range(1, calls + 1):
        if number not in faults:
            yield Disturbance(f"call {number} fails", fault=number)


def lagging(points, place, role, kind, lags):
    """A watch that is held until some later write of the plain run, or until as many own writes; and the same after a start with old caches."""
    point = points[place]
    ends = {}
    for lag in lags:
        last = points[min(place + lag, len(points) - 1)]
        if last is not point and last.step == point.step:
            ends[f"until {last}"] = last.until(), lag
        else:
            ends["until rest"] = {"do": "settle"}, lag
    if role == "trigger":
        # (where a stale trigger issues again and again, a write of the plain run may never come)
        made = sum(1 for it in points[: place + 1] if it.role == "trigger")
        ends["until its second write from there"] = Point(point.step, "trigger", "Certificate", made + 2).until(), lags[0]
    hold, release = {"do": "hold", "role": role, "kind": kind}, {"do": "release", "role": role, "kind": kind}
    for how, (until, lag) in ends.items():
        yield Disturbance(f"{role} is not told of {kind} from {point} {how}", point, [hold, until, release])
        restart = [hold, {"do": "stop", "role": role}, {"do": "start", "role": role, "behind": lag}]
        yield Disturbance(f"{role} starts {lag} behind at {point} and is not told of {kind} {how}", point, [*restart, until, release])


def disturbed(scenario, disturbances):
    """The scenario with these disturbances; the later one in the script is put in first, so that places stay right."""
    script = list(scenario.get("script", []))
    faults = set(scenario.get("faults", []))
    for it in sorted(disturbances, key=lambda it: -(it.point.step if it.point else 0)):
        if it.fault is not None:
            faults.add(it.fault)
        else:
            script[it.point.step : it.point.step] = [it.point.until(), *it.steps]
    changed = {**scenario, "script": script}
    if faults:
        changed["faults"] = sorted(faults)
    return changed


# ---- outcomes


class Outcomes:
    """Runs scenarios, and tells what came out of each."""

    def __init__(self, program, events):
        self.program, self.events, self.audits = program, events, []
        self.has_audit = cli.run_scenario(program, b"", words=("audit",)).status == 1

    def run(self, scenario):
        return cli.run_scenario(self.program, {**scenario, "events": self.events})

    def of(self, scenario, text):
        """The outcome of a scenario as a line; a refused scenario has none."""
        ran = self.run(scenario)
        if ran.status == 6:
            return f"never at rest (within {self.events} entries)"
        if ran.status:
            return None
        self.audit(ran.output, text)
        return digest(History.read(ran.output))

    def audit(self, output, text):
        """Notes what an audit finds in a history."""
        if self.has_audit:
            verdict = json.loads(cli.run_scenario(self.program, output, words=("audit",)).output)
            found = [] if verdict["audit"].get("yes") else [json.dumps(verdict["audit"])]
        else:
            found = scan(output.decode()).wrong
        self.audits += [f"{text}: {it}" for it in found]


def digest(history):
    """What is stored at the end of a run, and what it cost."""
    facts, summary = Facts(history), history.summary
    certificates = facts.state.certificates()
    revisions = [it.value.get("status", {}).get("revision", 0) for it in certificates.values()]
    count = lambda table: sum(map(len, table.values()))
    told = [f"ready {summary['ready']} of {summary['certificates']}"]
    waits = collections.Counter(it["wait"] for it in summary["waiting"])
    told += [f"{number} waiting for {wait}" for wait, number in sorted(waits.items())]
    told.append(f"revisions {','.join(map(str, revisions)) or '-'}")
    told.append(f"{count(facts.keys)} keys, {count(facts.requests)} requests, {count(facts.questions)} questions made")
    shared = [name for name in certificates if facts.shared_key(name)]
    told += [f"revisions share a key: {', '.join(shared)}"] if shared else []
    failed = sum(1 for it in certificates.values() if it.value.get("status", {}).get("failedIssuanceAttempts"))
    told += [f"{failed} with failures"] if failed else []
    stray = [key for key, it in facts.state.objects.items() if key.startswith("Secret/") and "cert-manager.io/next-private-key" in it.value["metadata"].get("labels", {})]
    told += [f"{len(stray)} next private keys left"] if stray else []
    unready = [name for name, it in certificates.items() if not is_true(it.value, "Ready")]
    return "; ".join(told) + (f" ({', '.join(unready)} not ready)" if unready else "")


def explore(outcomes, scenario, candidates, jobs):
    """The disturbances by their outcome; of those that make a step impossible there is none."""
    found = collections.defaultdict(list)
    judge = lambda them: outcomes.of(disturbed(scenario, them), " and ".join(it.text for it in them))
    with ThreadPoolExecutor(jobs) as pool:
        for them, outcome in zip(candidates, pool.map(judge, candidates)):
            found[outcome].append(them)
    impossible = len(found.pop(None, []))
    return found, impossible


def least(group):
    return min(group, key=lambda them: (len(them), sum(it.size for it in them), max(it.point.step if it.point else 0 for it in them)))


def shrunk(outcomes, scenario, outcome):
    """The scenario with as few steps, faults and rows as have the same outcome."""
    changed = True
    while changed:
        changed = False
        for name in ("script", "faults"):
            for place in reversed(range(len(scenario.get(name, [])))):
                fewer = {**scenario, name: scenario[name][:place] + scenario[name][place + 1 :]}
                if outcomes.of(fewer, "while shrinking") == outcome:
                    scenario, changed = fewer, True
    return {name: value for name, value in scenario.items() if value != [] or name == "roles"}


def events_for(scenario, history):
    """Enough entries for any disturbed run that ends."""
    return min(max(5 * len(history.entries) + 2000, 4000), MOST_EVENTS, scenario.get("events", MOST_EVENTS) * 5)


def report(found, plain, show_all):
    """The lines of the outcomes, the plain one first and then from common to rare."""
    ordered = sorted(found.items(), key=lambda item: (item[0] != plain, -len(item[1])))
    for place, (outcome, group) in enumerate(ordered):
        yield f"{len(group):>6}  {outcome}{'   <- the plain run' if outcome == plain else ''}"
        if outcome != plain:
            yield f"        least: {' and '.join(it.text for it in least(group))}"
            if show_all:
                yield from (f"          {' and '.join(it.text for it in them)}" for them in group)


def numbers_in(text, option):
    try:
        found = sorted({int(it) for it in text.split(",")})
    except ValueError:
        found = []
    if not found or found[0] < 1:
        raise BadInput(f"{option} takes whole numbers from 1 on, with commas between them", 2)
    return found


def main():
    parser = cli.Parser(__doc__)
    parser.add_argument("scenario", metavar="SCENARIO", help="a scenario, or - for standard input")
    parser.add_argument("--pairs", type=int, default=0, metavar="N", help="how many pairs of disturbances to try (default 0)")
    parser.add_argument("--seed", type=int, default=1, metavar="S", help="what draws the pairs (default 1)")
    parser.add_argument("--lags", default="2,6", metavar="N,..", help="for how many writes a watch is held (default 2,6)")
    parser.add_argument("--write", metavar="DIR", help="the folder for a scenario of each outcome")
    parser.add_argument("--all", action="store_true", help="list each disturbance")
    parser.add_argument("--jobs", type=int, default=os.cpu_count() or 1, metavar="N")
    cli.add_program(parser)
    given = parser.parse_args()
    lags, program = numbers_in(given.lags, "--lags"), cli.program_of(given.program)
    data = cli.read_bytes(given.scenario)
    scenario = cli.json_of(data, "scenario")
    ran = cli.run_scenario(program, data)
    if ran.status:
        raise BadInput(f"{given.scenario}: {ran.error.removeprefix('cmrun: ')} (tools/why.py says more)")
    history = History.read(ran.output)
    outcomes = Outcomes(program, events_for(scenario, history))
    alone = list(singles(scenario, history, lags))
    drawn = random.Random(given.seed)
    candidates = [(it,) for it in alone] + [tuple(drawn.sample(alone, 2)) for _ in range(max(given.pairs, 0)) if len(alone) > 1]
    plain = outcomes.of(scenario, "the plain run")
    found, impossible = explore(outcomes, scenario, candidates, max(given.jobs, 1))
    found[plain].insert(0, ())
    print(f"{len(candidates) + 1} runs (seed {given.seed}), {len(found)} distinct outcomes{f', {impossible} not possible' if impossible else ''}")
    for line in report(found, plain, given.all):
        print(line)
    if given.write:
        write_all(outcomes, scenario, found, plain, given.write)
    for text in outcomes.audits:
        print(f"AUDIT {text}")
    print(f"each history that ends was audited: {len(outcomes.audits)} wrong. Cost and liveness are explored here; safety is proved for every interleaving")
    return 1 if outcomes.audits else 0


def write_all(outcomes, scenario, found, plain, folder):
    """Writes a scenario of each outcome but the plain one."""
    os.makedirs(folder, exist_ok=True)
    rare = [it for it in sorted(found.items(), key=lambda item: -len(item[1])) if it[0] != plain]
    for number, (outcome, group) in enumerate(rare, 1):
        small = shrunk(outcomes, disturbed(scenario, least(group)), outcome)
        if outcome.startswith("never at rest"):
            small = {**small, "events": outcomes.events}
        path = f"{folder}/outcome-{number}.json"
        cli.write_text(path, cli.scenario_text(small))
        print(f"{path}: {outcome}", file=sys.stderr)


if __name__ == "__main__":
    cli.run_tool(main)
