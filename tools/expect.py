#!/usr/bin/env python3
"""Holds a run against what is expected of it, and says `ok` or `FAILED` with the entries, for the CI of who keeps manifests.

usage: tools/expect.py [--program CMRUN] SCENARIO [EXPECTATIONS]      runs the scenario (EXPECTATIONS: SCENARIO with .expect.json)
       cmrun run --workers 0 < SCENARIO | tools/expect.py EXPECTATIONS

Expectations are an object {"status":N, "expect":[..]}: the exit status of the run (0 where it is left out), and a list of objects.
One with `certificate` ("namespace/name") may say: exists, ready, reason (why it is Ready or not), issuing (the status of that
condition), issuingReason, revision, attempts, wait, until (the end of the back-off), notAfter, renewalTime, requests (stored ones),
and of all up to then: requestsMade, keysMade, issuerQuestions, newKeyEachRevision, reissuedFor (the reasons of the trigger, in order).
One without may say: certificates, allReady, secrets, secretsNamed, rules (the admission rules that refused users' calls),
refused (the refused calls of users), conflicts. Each may have `at`: "end" (where it is left out), a moment, or the number of an entry.
A number may be {"min":a,"max":b}, either of them left out. The exit status is 1 where something failed.
"""
import json
import os

import cli
from cli import BadInput
from history import History, back_off_end, condition, is_name_pair, key_fingerprint, moment_of
from status import up_to
from timeline import bound_of


class Facts:
    """What a history shows up to its end, beside what is stored there."""

    def __init__(self, history):
        self.state = history.end() if not history.entries else None
        self.requests, self.keys, self.questions, self.reasons = {}, {}, {}, {}
        self.revision_keys, self.refused, self.conflicts = {}, [], 0
        self.request_owners = {}
        for event in history.events():
            self.state = event.state
            self.take(event)

    def take(self, event):
        if event.kind == "made":
            self.add(self.keys, event.order["certificate"], event.n)
        elif event.kind == "answered":
            self.add(self.questions, self.request_owners.get(event.order["request"]), event.n)
        elif event.kind == "call" and event.write is None:
            self.take_refusal(event)
        elif event.write:
            self.take_write(event, event.write)

    def take_refusal(self, event):
        reply = event.entry["reply"]
        if "conflict" in reply:
            self.conflicts += 1
        if event.who == "user" and "unchanged" not in reply:
            self.refused.append((event.n, reply))

    def take_write(self, event, write):
        if event.who == "requestmanager" and write.before is None:
            self.add(self.requests, event.of.key, event.n)
        if write.key.startswith("CertificateRequest/") and write.after:
            name = write.after["metadata"].get("annotations", {}).get("cert-manager.io/certificate-name")
            namespace, short = write.key.split("/")[1:]
            self.request_owners[f"{namespace}/{short}"] = f"{namespace}/{name}"
        if event.who == "trigger":
            self.add(self.reasons, event.of.key, condition(write.after, "Issuing").get("reason"))
        if event.who == "issuing" and write.key.startswith("Certificate/"):
            self.take_revision(event, write)

    def take_revision(self, event, write):
        """Notes the key of each revision that issuing raises."""
        status = write.after.get("status", {})
        if status.get("revision", 0) == write.before.get("status", {}).get("revision", 0):
            return
        secret = event.state.objects.get(event.state.target(event.of.key))
        text = secret.value.get("data", {}).get("tls.key", "") if secret else ""
        self.add(self.revision_keys, event.of.key, (status["revision"], key_fingerprint(text), event.n))

    @staticmethod
    def add(table, name, item):
        table.setdefault(name, []).append(item)

    def shared_key(self, name):
        """Two revisions of a Certificate that have one key, as a text; None where each has its own."""
        seen = {}
        for revision, key, number in self.revision_keys.get(name, []):
            if key in seen:
                return f"revisions {seen[key][0]} and {revision} have key {key} (entries {seen[key][1]}, {number})"
            seen[key] = revision, number
        return None


def of_certificate(facts, name):
    """What a history says of a Certificate, by the names that an expectation uses."""
    stored = facts.state.certificate(name)
    told = {
        "exists": stored is not None,
        "requestsMade": len(facts.requests.get(name, [])),
        "keysMade": len(facts.keys.get(name, [])),
        "issuerQuestions": len(facts.questions.get(name, [])),
        "newKeyEachRevision": facts.shared_key(name) is None,
        "reissuedFor": facts.reasons.get(name, []),
    }
    if stored is None:
        return told
    status = stored.value.get("status", {})
    ready, issuing = condition(stored.value, "Ready"), condition(stored.value, "Issuing")
    end = back_off_end(status)
    told.update(
        ready=ready.get("status") == "True",
        reason=ready.get("reason"),
        issuing=issuing.get("status"),
        issuingReason=issuing.get("reason"),
        revision=status.get("revision", 0),
        attempts=status.get("failedIssuanceAttempts", 0),
        wait=facts.state.wait_of(name),
        until=moment_of(end) if end is not None else None,
        notAfter=status.get("notAfter"),
        renewalTime=status.get("renewalTime"),
        requests=len(facts.state.owned(name, "CertificateRequest")),
    )
    return told


def of_all(facts):
    state = facts.state
    certificates = state.certificates()
    secrets = sorted(key.partition("/")[2] for key in state.objects if key.startswith("Secret/"))
    return {
        "certificates": len(certificates),
        "allReady": all(condition(it.value, "Ready").get("status") == "True" for it in certificates.values()),
        "secrets": len(secrets),
        "secretsNamed": secrets,
        "rules": [reply["invalid"] for _, reply in facts.refused if "invalid" in reply],
        "refused": len(facts.refused),
        "conflicts": facts.conflicts,
    }


ONE = ("exists", "ready", "reason", "issuing", "issuingReason", "revision", "attempts", "wait", "until", "notAfter", "renewalTime", "requests")
SO_FAR = ("requestsMade", "keysMade", "issuerQuestions", "newKeyEachRevision", "reissuedFor")
ALL = ("certificates", "allReady", "secrets", "secretsNamed", "rules", "refused", "conflicts")


def is_met(wanted, found):
    if isinstance(wanted, dict):
        return isinstance(found, int) and wanted.get("min", found) <= found <= wanted.get("max", found)
    return wanted == found and isinstance(wanted, bool) == isinstance(found, bool)


def details(facts, name, member):
    """The entries that show why an expectation is not met."""
    table = {"requestsMade": facts.requests, "keysMade": facts.keys, "issuerQuestions": facts.questions}.get(member)
    if table and table.get(name):
        return f" (entries {', '.join(map(str, table[name]))})"
    if member == "newKeyEachRevision" and facts.shared_key(name):
        return f": {facts.shared_key(name)}"
    if member in ("rules", "refused") and facts.refused:
        return f" (entries {', '.join(str(number) for number, _ in facts.refused)})"
    return ""


def check_form(expected):
    """Refuses expectations that have not their form."""
    if not isinstance(expected, dict) or not set(expected) <= {"status", "expect"} or not isinstance(expected.get("status", 0), int):
        raise BadInput('expectations are {"status":N,"expect":[..]} (--help says more)')
    items = expected.get("expect", [])
    if not isinstance(items, list):
        raise BadInput("`expect` is a list")
    for place, item in enumerate(items):
        known = {"at", "certificate", *ONE, *SO_FAR} if isinstance(item, dict) and "certificate" in item else {"at", *ALL}
        if not isinstance(item, dict) or not set(item) <= known:
            wrong = sorted(set(item) - known) if isinstance(item, dict) else ["no object"]
            raise BadInput(f"expect.{place}: {', '.join(wrong)}: not known; it may have {', '.join(sorted(known))}")
        if not is_name_pair(item.get("certificate", "a/b")) or not isinstance(item.get("at", "end"), (str, int)):
            raise BadInput(f"expect.{place}: `certificate` is namespace/name, `at` is end, a moment or the number of an entry")
    return items


def judged(history, items):
    """Each expectation as (is it met, text)."""
    known = {}
    for place, item in enumerate(items):
        at = str(item.get("at", "end"))
        if at not in known:
            known[at] = Facts(history if at == "end" else up_to(history, bound_of(at, f"expect.{place}.at")))
        facts, name = known[at], item.get("certificate")
        told = of_certificate(facts, name) if name else of_all(facts)
        where = f"{name or 'all'}{'' if at == 'end' else f' at {at}'}"
        for member, wanted in item.items():
            if member in ("at", "certificate"):
                continue
            found = told.get(member)
            if is_met(wanted, found):
                yield True, f"ok      {where}: {member} {json.dumps(wanted)}"
            else:
                yield False, f"FAILED  {where}: {member} is {json.dumps(found)}, wanted {json.dumps(wanted)}{details(facts, name, member)}"


def check_run(program, scenario, expected):
    """Runs a scenario, given as bytes, and gives each expectation as (is it met, text)."""
    items = check_form(expected)
    ran = cli.run_scenario(program, scenario)
    wanted = expected.get("status", 0)
    is_right = ran.status == wanted
    yield is_right, f"{'ok      ' if is_right else 'FAILED  '}exit status {ran.status}{'' if is_right else f', wanted {wanted}'}{f' ({ran.error})' if ran.error else ''}"
    if is_right and ran.status == 0:
        yield from judged(History.read(ran.output), items)


def expectations_of(path):
    return f"{path.removesuffix('.json')}.expect.json"


def results_of(given):
    words = given.words
    if len(words) == 1 and not words[0].endswith(".expect.json") and os.path.exists(expectations_of(words[0])):
        words = [words[0], expectations_of(words[0])]
    if len(words) == 1:
        items = check_form(cli.read_json(words[0], "expectations"))
        return judged(History.read(cli.read_bytes(None)), items)
    return check_run(cli.program_of(given.program), cli.read_bytes(words[0]), cli.read_json(words[1], "expectations"))


def main():
    parser = cli.Parser(__doc__)
    parser.add_argument("words", nargs="+", metavar="SCENARIO or EXPECTATIONS")
    cli.add_program(parser)
    given = parser.parse_args()
    if len(given.words) > 2:
        raise BadInput("it takes a scenario and its expectations", 2)
    results = list(results_of(given))
    for _, text in results:
        print(cli.one_line(text))
    failed = sum(not is_good for is_good, _ in results)
    print(f"{len(results) - failed} ok, {failed} failed")
    return 1 if failed else 0


if __name__ == "__main__":
    cli.run_tool(main)
