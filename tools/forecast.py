#!/usr/bin/env python3
"""Says what comes when in the next days: renewals, expiries, ends of back-offs, and what an outage of an issuer would do.

usage: tools/forecast.py [--program CMRUN] --days N [what-ifs] [--histogram] [--scenario FILE] SCENARIO
       kubectl get certificates,secrets,certificaterequests -A -o json | tools/cluster.py | tools/forecast.py --days 90 -

From the end of the scenario on, time goes from one moment to the next at which something is due, and at each all comes to rest. What-ifs
(each may be given more than once; FROM and UNTIL are moments as 2030-03-02T00:00:00Z, or days from the beginning as +1 or +3.5):

  --down ISSUER FROM UNTIL      the issuer does not answer: requests stay pending, and are looked at again at UNTIL
  --fails ISSUER FROM UNTIL     the issuer refuses each request, so that back-offs begin
  --denies ISSUER FROM UNTIL    each request for it is denied

--histogram counts the questions to issuers by the hour; --scenario writes the scenario with all its ticks, for the other tools.
"""
import collections
import re
import sys

import cli
from cli import BadInput
from history import DEFAULT_NOW, History, back_off_end, condition, is_moment, is_name_pair, moment_of, seconds_of
from loop import running_after

MOST_RUNS = 400
MOST_EVENTS = 250000
LAST = seconds_of("9900-01-01T00:00:00Z")


class WhatIf:
    """An issuer that is not as usual from a moment until another."""

    def __init__(self, kind, issuer, first, last):
        self.kind, self.issuer, self.first, self.last = kind, issuer, first, last

    def holds(self, issuer, now):
        return self.issuer == issuer and self.first <= now < self.last


class Forecast:
    """A scenario that goes on, and what its runs have shown so far."""

    def __init__(self, program, scenario, days, what_ifs):
        self.program, self.base, self.what_ifs = program, scenario, what_ifs
        self.begin = seconds_of(scenario.get("now", DEFAULT_NOW)) + sum(it.get("seconds", 0) for it in scenario.get("script", []))
        self.end = min(self.begin + int(days * 86400), LAST)
        self.moments = {moment for it in what_ifs for moment in (it.first, it.last) if self.begin < moment <= self.end}
        self.denials = {}
        self.rows = {name: dict(rows) for name, rows in scenario.get("material", {}).items()}
        self.history, self.runs = None, 0

    def scenario(self):
        """The scenario with a tick to each moment, at each of which all comes to rest."""
        script, now = [*self.base.get("script", []), *self.rest_at(self.begin)], self.begin
        for moment in sorted(self.moments):
            script += [{"do": "tick", "seconds": moment - now}, *self.rest_at(moment)]
            now = moment
        material = {name: rows for name, rows in self.rows.items() if rows}
        changed = {**self.base, "events": MOST_EVENTS, "script": script}
        return {**changed, "material": material} if material else changed

    def rest_at(self, moment):
        """The steps that let all come to rest. Where requests are to be denied, the approver comes after the denials."""
        if not any(it.kind == "denies" and it.first <= moment < it.last for it in self.what_ifs):
            return [{"do": "settle"}]
        stop, start = {"do": "stop", "role": "approver"}, {"do": "start", "role": "approver", "behind": 0}
        return [stop, {"do": "settle"}, *self.denials.get(moment, []), start, {"do": "settle"}]

    def run(self):
        self.runs += 1
        ran = cli.run_scenario(self.program, self.scenario(), seconds=600)
        if ran.status:
            more = "; tools/why.py says why" if ran.status == 6 else ""
            raise BadInput(f"the scenario with its ticks: {ran.error.removeprefix('cmrun: ')}{more}")
        self.history = History.read(ran.output)

    def go(self):
        """Runs until no moment, no row and no denial is missing."""
        while True:
            self.run()
            if not (self.mend_rows() or self.deny() or self.add_moments()):
                return
            if self.runs >= MOST_RUNS:
                raise BadInput(f"more than {MOST_RUNS} runs are needed: ask for fewer days")

    def later(self):
        """The events from the last step of the scenario itself on."""
        last = len(self.base.get("script", []))
        return (event for event in self.history.events() if event.state.step >= last)

    # ---- what is missing

    def add_moments(self):
        """Adds the moments at which something became due that no tick goes to."""
        found, looks = set(), set()
        for event in self.history.events():
            thing = event.write.after if event.write else None
            if thing:
                now = max(seconds_of(event.state.now), self.begin)
                ahead = {moment for moment in due(thing) if now < moment <= self.end}
                (found if thing["kind"] == "Certificate" else looks).update(ahead)
        # A look at a pending request in an outage would find the issuer down again.
        found |= {moment for moment in looks if not any(it.kind == "down" and it.first < moment < it.last for it in self.what_ifs)}
        new = sorted(found - self.moments)
        # The earliest come first: what happens at them may move the later ones.
        self.moments |= set(new[: max(len(new) // 2, 50)])
        return bool(new)

    def usual_row(self, name, number):
        rows = self.base.get("material", {}).get(name, {}).get("replies", [])
        return rows[min(number, len(rows)) - 1] if rows else {"reply": "issue"}

    def mend_rows(self):
        """Sets the row of the first question of each Certificate that was not answered as its issuer would then."""
        changed, done = False, set()
        for event in self.later():
            if event.kind != "answered":
                continue
            stored = event.state.objects.get("CertificateRequest/" + event.order["request"])
            name = event.order["request"].split("/")[0] + "/" + stored.value["metadata"].get("annotations", {}).get("cert-manager.io/certificate-name", "")
            if name in done or not is_name_pair(name) or name.endswith("/"):
                continue
            number, issuer, now = event.order["number"], stored.value["spec"]["issuerRef"]["name"], seconds_of(event.of.now)
            rows = self.rows.setdefault(name, {}).setdefault("replies", list(self.base.get("material", {}).get(name, {}).get("replies", [])))
            wanted = self.wanted_row(name, number, issuer, now)
            have = rows[min(number, len(rows)) - 1] if rows else {"reply": "issue"}
            if have != wanted:
                while len(rows) < number:
                    rows.append(self.usual_row(name, len(rows) + 1))
                rows[number - 1] = wanted
                del rows[number:]
                rows.append(self.usual_row(name, number + 1))
                done.add(name)
                changed = True
        return changed

    def wanted_row(self, name, number, issuer, now):
        for it in self.what_ifs:
            if it.holds(issuer, now) and it.kind == "down":
                return {"reply": "pending"}
            if it.holds(issuer, now) and it.kind == "fails":
                return {"reply": "fail", "message": f"{issuer} is out of order"}
        return self.usual_row(name, number)

    def deny(self):
        """Adds denials for the first moment at which requests wait for the approver that are to be denied."""
        for event in self.later():
            if event.kind == "start" and event.entry["role"] == "approver":
                moment = seconds_of(event.state.now)
                steps = [step for name in event.state.certificates() for step in self.denial(event.state, name, moment)]
                if steps:
                    self.denials.setdefault(moment, []).extend(steps)
                    return True
        return False

    def denial(self, state, name, moment):
        """The step that denies the request of a Certificate, where its issuer's are denied at the moment and it has no verdict."""
        value = state.certificate(name).value
        issuer, revision = value["spec"]["issuerRef"]["name"], value.get("status", {}).get("revision", 0) + 1
        if not any(it.kind == "denies" and it.holds(issuer, moment) for it in self.what_ifs):
            return []
        found = [it.value for it in state.requests(name, revision).values()]
        is_open = len(found) == 1 and not condition(found[0], "Approved") and not condition(found[0], "Denied")
        return [{"do": "deny", "certificate": name, "revision": revision}] if is_open else []

    # ---- what is told

    def news(self):
        """What happens at each moment from the end of the scenario on, as (moment, texts)."""
        told = collections.OrderedDict()
        for event in self.later():
            text = news_of(event) if event.write or event.kind == "answered" else None
            if text:
                told.setdefault(event.state.now, []).append(text)
        return told

    def questions(self):
        """How many questions issuers were asked, by the hour."""
        return collections.Counter(event.state.now[:13] for event in self.later() if event.kind == "answered")


def due(thing):
    """The seconds at which something is due by what an object says."""
    status = thing.get("status", {})
    for name in ("renewalTime", "notAfter"):
        if is_moment(status.get(name)):
            yield seconds_of(status[name])
    if thing["kind"] == "Certificate" and back_off_end(status) is not None:
        yield back_off_end(status)
    ready = condition(thing, "Ready")
    if thing["kind"] == "CertificateRequest" and ready.get("reason") == "Pending":
        yield seconds_of(ready["lastTransitionTime"]) + 60


def news_of(event):
    """What an event means to who runs the cluster; None where it means nothing."""
    if event.kind == "answered":
        answer, request = event.entry["answer"], event.order["request"]
        return f"{request} pending" if answer["is"] == "pending" else f"{request} refused: {answer['message']}" if answer["is"] == "failed" else None
    write = event.write
    if event.who == "user":
        return None
    if event.who == "trigger":
        return f"{event.of.key} is to be issued ({condition(write.after, 'Issuing')['reason']})"
    if event.who == "issuing" and write.key.startswith("Certificate/"):
        told, status = condition(write.after, "Issuing"), write.after["status"]
        if told["reason"] == "Issued":
            return f"{event.of.key} ISSUED"
        return f"{event.of.key} FAILED ({told['reason']}, attempt {status.get('failedIssuanceAttempts')}, next at {moment_of(back_off_end(status))})"
    if event.who == "readiness":
        was, now = condition(write.before, "Ready"), condition(write.after, "Ready")
        if was and (was["status"], was["reason"]) != (now["status"], now["reason"]):
            return f"{event.of.key} {'is Ready' if now['status'] == 'True' else 'IS NOT READY'} ({now['reason']})"
    return None


def moment_in(text, begin, option):
    """A moment, or days from the beginning."""
    if is_moment(text):
        return seconds_of(text)
    if re.fullmatch(r"\+\d+(\.\d+)?", text):
        return begin + int(float(text) * 86400)
    raise BadInput(f"{option}: {text} is neither a moment as 2030-03-02T00:00:00Z nor days as +3", 2)


def what_ifs_of(given, begin):
    found = []
    for kind in ("down", "fails", "denies"):
        for issuer, first, last in getattr(given, kind) or []:
            it = WhatIf(kind, issuer, moment_in(first, begin, f"--{kind}"), moment_in(last, begin, f"--{kind}"))
            if it.first >= it.last:
                raise BadInput(f"--{kind} {issuer}: it ends before it begins", 2)
            found.append(it)
    return found


def check_issuers(what_ifs, scenario):
    """Refuses a what-if about an issuer that no Certificate names."""
    names = {it["object"].get("spec", {}).get("issuerRef", {}).get("name") for it in scenario.get("script", []) if it.get("do") == "apply" and it["object"].get("kind") == "Certificate"}
    for it in what_ifs:
        if it.kind == "denies" and "approver" not in running_after(scenario, scenario.get("script", [])):
            raise BadInput("--denies: the approver does not run at the end of the scenario", 2)
        if it.issuer not in names:
            raise BadInput(f"no Certificate names the issuer {it.issuer}: there are {', '.join(sorted(filter(None, names))) or 'none'}", 2)


def report(forecast, histogram):
    for moment, texts in forecast.news().items():
        yield f"--- {moment} ---"
        yield from (f"  {text}" for text in texts)
    counts = forecast.questions()
    if histogram:
        yield "questions to issuers by the hour:"
        yield from (f"  {hour}:00  {number:>5}  {'#' * min(number, 100)}" for hour, number in sorted(counts.items()))
    summary = forecast.history.summary
    waits = ", ".join(f"{it['certificate']} ({it['wait']})" for it in summary["waiting"])
    peak = f", at most {max(counts.values())} in an hour" if counts else ""
    yield f"until {moment_of(forecast.end)}: {sum(counts.values())} questions to issuers{peak}; then {summary['ready']} of {summary['certificates']} ready{f', waiting: {waits}' if waits else ''}"


def main():
    parser = cli.Parser(__doc__)
    parser.add_argument("input", metavar="SCENARIO", help="a scenario, or - for standard input")
    parser.add_argument("--days", type=float, required=True, metavar="N")
    for kind in ("down", "fails", "denies"):
        parser.add_argument(f"--{kind}", nargs=3, action="append", metavar=("ISSUER", "FROM", "UNTIL"))
    parser.add_argument("--histogram", action="store_true")
    parser.add_argument("--scenario", metavar="FILE")
    cli.add_program(parser)
    given = parser.parse_args()
    if not 0 < given.days <= 36525:
        raise BadInput("--days takes a number above 0, and at most 36525", 2)
    program = cli.program_of(given.program)
    scenario = cli.read_json(given.input, "scenario")
    ran = cli.run_scenario(program, scenario)
    if ran.status:
        raise BadInput(f"the scenario: {ran.error.removeprefix('cmrun: ')} (tools/why.py says more)")
    begin = seconds_of(scenario.get("now", DEFAULT_NOW)) + sum(it.get("seconds", 0) for it in scenario.get("script", []))
    what_ifs = what_ifs_of(given, begin)
    check_issuers(what_ifs, scenario)
    forecast = Forecast(program, scenario, given.days, what_ifs)
    forecast.go()
    for line in report(forecast, given.histogram):
        print(line)
    if given.scenario:
        cli.write_text(given.scenario, cli.scenario_text(forecast.scenario()))
    return 0


if __name__ == "__main__":
    cli.run_tool(main)
