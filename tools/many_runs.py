#!/usr/bin/env python3
"""Runs scenarios in threads, many times each, and checks how each run ends, and the history that it prints.

usage: tools/many_runs.py [--runs N] [--workers 2,4,8] -- PROGRAM

PROGRAM is the built program, as crates/cmrun/out/cmrun (`rt run` builds it). Each run has to end within 30 seconds with the
exit status 0 and with the summary that the scenario has to have, whatever the order in which the threads came, and
neither `scan_history.py` nor the program's own `audit` may find anything in its history that should not be there. A last line says how many runs there were and
how many went wrong, and the exit status is 1 where one did. It is no part of the gate.
"""
import argparse
import json
import subprocess
import sys
import time

from scan_history import scan

OBJECT = {
    "apiVersion": "cert-manager.io/v1",
    "kind": "Certificate",
    "metadata": {"name": "web", "namespace": "default"},
    "spec": {
        "dnsNames": ["example.com"],
        "issuerRef": {"name": "ca"},
        "privateKey": {"algorithm": "ECDSA"},
        "secretName": "web-tls",
    },
}


def applied(group=None):
    """The step that applies the Certificate, with an issuer of this group."""
    spec = dict(OBJECT["spec"], issuerRef={"name": "ca", **({"group": group} if group else {})})
    return {"do": "apply", "object": dict(OBJECT, spec=spec)}


SETTLE = {"do": "settle"}
ONE = {"material": {"default/web": {"keys": [{"synthetic": 1}]}}, "script": [applied()]}
# The issuer, which no controller here is, answers before anybody approves.
ANSWERED = {
    "script": [
        applied("example.org"),
        SETTLE,
        {"do": "answer", "certificate": "default/web", "revision": 1, "row": {"reply": "issue"}},
        SETTLE,
        {"do": "approve", "certificate": "default/web", "revision": 1},
        SETTLE,
    ]
}
# Issuing is stopped between its two writes, and started again.
STOPPED = {
    "script": [
        applied(),
        {"do": "until", "kind": "Secret", "role": "issuing", "writes": 1},
        {"do": "stop", "role": "issuing"},
        {"behind": 0, "do": "start", "role": "issuing"},
        SETTLE,
    ]
}
# The key manager stops as soon as it has made a key, and starts with old views.
BEHIND = {
    "script": [
        applied(),
        {"do": "until", "kind": "Secret", "role": "keymanager", "writes": 1},
        {"do": "stop", "role": "keymanager"},
        {"behind": 12, "do": "start", "role": "keymanager"},
        SETTLE,
    ]
}

RUNS = [
    ("one Certificate", ["run"], ONE, 1),
    ("answered before it is approved", ["run"], ANSWERED, 1),
    ("issuing stops between its writes", ["run"], STOPPED, 1),
    ("the key manager starts behind", ["run"], BEHIND, 1),
    ("load 20", ["load", "20"], None, 20),
]


def ends_well(program, words, scenario, count, workers):
    """Why a run ended badly, None where it did not, and the seconds that it took."""
    began = time.monotonic()
    try:
        run = subprocess.run(
            [program, *words, "--workers", str(workers)],
            input=json.dumps(scenario) if scenario else "",
            capture_output=True,
            text=True,
            timeout=30,
        )
    except subprocess.TimeoutExpired:
        return "did not end within 30 seconds", 30.0
    took = time.monotonic() - began
    if run.returncode:
        return f"status {run.returncode}: {run.stderr.strip()}", took
    return why_wrong(run.stdout, count) or why_refused(program, run.stdout), took


def why_refused(program, history):
    """What the program's audit says of a printed history; None where it says yes, with a line for each entry."""
    verdict = {"audit": {"entries": len(history.splitlines()) - 2, "yes": True}}
    run = subprocess.run([program, "audit"], input=history, capture_output=True, text=True, timeout=30, check=False)
    if run.returncode:
        return f"audit, status {run.returncode}: {run.stderr.strip()}"
    return None if json.loads(run.stdout) == verdict else f"audit: {run.stdout.strip()}"


def why_wrong(history, count):
    """What is wrong in a printed history of so many Certificates that are ready in the end; None where nothing is."""
    wanted = {"summary": {"certificates": count, "ready": count, "secrets": count, "waiting": []}}
    summary = history.splitlines()[-1]
    if json.loads(summary) != wanted:
        return f"another summary: {summary}"
    found = scan(history)
    if found.secrets < count:
        return f"{found.secrets} Secrets by issuing"
    return found.wrong[0] if found.wrong else None


def main():
    parser = argparse.ArgumentParser()
    parser.add_argument("--runs", type=int, default=1000)
    parser.add_argument("--workers", default="2,4,8")
    parser.add_argument("program")
    given = parser.parse_args()
    bad = made = 0
    for name, words, scenario, count in RUNS:
        for workers in map(int, given.workers.split(",")):
            seconds, wrong = [], {}
            for _ in range(given.runs):
                why, took = ends_well(given.program, words, scenario, count, workers)
                seconds.append(took)
                if why:
                    wrong[why] = wrong.get(why, 0) + 1
            made += given.runs
            bad += sum(wrong.values())
            mean = 1000 * sum(seconds) / len(seconds)
            print(f"{name}, {workers} workers: {given.runs} runs, {sum(wrong.values())} wrong, {mean:.1f} ms a run, longest {1000 * max(seconds):.0f} ms", flush=True)
            for why, often in wrong.items():
                print(f"    {often} times: {why}", flush=True)
    print(f"{made} runs, {bad} wrong")
    return 1 if bad else 0


if __name__ == "__main__":
    sys.exit(main())
