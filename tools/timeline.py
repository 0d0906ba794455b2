#!/usr/bin/env python3
"""Prints a history for people: one line for each write, question, refused call, stop, start and tick.

usage: cmrun run --workers 0 < scenario.json | tools/timeline.py [--certificate NS/NAME] [--from AT] [--to AT]
       tools/timeline.py HISTORY

Each line has the number of its entry and who did it (a controller, `user` or `script`). A write is shown as what it changed.
A private key is shown by six digits of its public key and a certificate by six of its own, so that equal ones are seen.
AT is the number of an entry or a moment, as 2030-03-02T00:00:00Z.
"""
import cli
from cli import BadInput
from history import History, certificate_fingerprint, certificates_of, is_moment, is_name_pair, key_fingerprint, rule_text, seconds_of, write_text


def step_text(step):
    """A step of the script in one line."""
    told = [step["do"]]
    told += [f"{name} {value}" for name, value in step.items() if name not in ("do", "object", "row")]
    if "object" in step:
        meta = step["object"]["metadata"]
        told.append(f"{step['object']['kind']}/{meta.get('namespace', 'default')}/{meta['name']}")
    if isinstance(step.get("row"), dict):
        told.append(str(step["row"].get("reply")))
    return " ".join(told)


def reply_text(entry):
    """What a call was answered that wrote nothing."""
    reply = entry["reply"]
    if "conflict" in reply:
        lost = reply["conflict"]
        return f"conflict: it names version {lost.get('named')}, and version {lost.get('have')} is stored"
    if "invalid" in reply:
        return f"invalid by rule {reply['invalid']}: {rule_text(reply['invalid'])}"
    if "unavailable" in reply:
        return f"the store's call {reply['unavailable']} is made to fail"
    if "notFound" in reply:
        return "it does not exist"
    return "it exists already" if "alreadyExists" in reply else "unchanged"


def answer_text(event):
    """What came back for a question."""
    entry, order = event.entry, event.order or {}
    if event.kind == "judged":
        return f"judges {order.get('request')}: {'yes' if entry['yes'] else 'no'}"
    if event.kind == "made":
        return f"is given key {key_fingerprint(entry['key'])} for {order.get('certificate')} (key {order.get('number')})"
    answer = entry["answer"]
    told = {"issued": "issued", "pending": "pending", "failed": f"failed: {answer.get('message')}"}[answer["is"]]
    if answer["is"] == "issued":
        told += f" {certificate_fingerprint(answer.get('certificate', ''))}"
    return f"asks the issuer about {order.get('request')} (question {order.get('number')}): {told}"


def call_text(event):
    """The line of a call that wrote nothing; None for a read that was answered."""
    entry = event.entry
    if "found" in entry["reply"]:
        return None
    refused = "" if "unchanged" in entry["reply"] else "REFUSED "
    return f"{refused}{entry['call']} {call_key(entry)}: {reply_text(entry)}"


def event_text(event):
    """The line of an event; None for one that people leave out."""
    entry, kind = event.entry, event.kind
    if event.write:
        return f"v{event.write.version} {write_text(event.write)}"
    if kind == "call":
        return call_text(event)
    if kind in ("answered", "judged", "made"):
        return answer_text(event)
    if kind == "script":
        return f"step {entry['step']}: {step_text(event.step)}"
    if kind == "stop":
        return "STOPS"
    if kind == "start":
        return f"STARTS, told of the writes up to v{entry['at']}"
    if kind == "list":
        return f"lists {entry['kind']} anew, up to v{entry['to']}: its window had passed"
    return None


def call_key(entry):
    if entry["call"] != "generate":
        return entry["key"]
    thing = entry["object"]
    return f"{thing['kind']}/{thing['metadata']['namespace']}/{entry['key']}.."


def concerns(event, name):
    """Whether an event is about the Certificate; steps of the script, stops and starts are about each."""
    if event.write:
        return name in certificates_of(event.write.thing, event.state)
    if event.kind == "call":
        stored = event.state.objects.get(event.entry["key"])
        thing = stored.value if stored else event.entry.get("object")
        return name in certificates_of(thing, event.state) if thing else event.entry["key"].endswith("/" + name)
    if event.of and event.of.key != name:
        stored = event.state.objects.get("CertificateRequest/" + event.of.key)
        return bool(stored) and name in certificates_of(stored.value, event.state)
    return True


def bound_of(text, option):
    """A bound as (is it a moment, its value); None where there is none."""
    if text is None:
        return None
    if text.isdecimal():
        return False, int(text)
    if is_moment(text):
        return True, seconds_of(text)
    raise BadInput(f"{option} takes the number of an entry or a moment as 2030-03-02T00:00:00Z", 2)


def is_past(event, bound, strictly):
    """Whether an event lies at or after a bound, or strictly after it. Without a bound all lie after it, and none strictly."""
    if bound is None:
        return not strictly
    at = seconds_of(event.state.now) if bound[0] else event.n
    return at > bound[1] if strictly else at >= bound[1]


def lines(history, name=None, first=None, last=None):
    """The lines of the timeline."""
    shown, is_cut = None, False
    for event in history.events():
        is_cut = is_past(event, last, True)
        if is_cut:
            break
        if not is_past(event, first, False):
            continue
        text = event_text(event)
        if text is None or name and not concerns(event, name):
            continue
        if event.state.now != shown:
            shown = event.state.now
            yield f"--- {shown} ---"
        yield f"{event.n:>6}  {event.who:<14} {text}"
    if not is_cut:
        yield summary_text(history.summary)


def summary_text(summary):
    waits = ", ".join(f"{it['certificate']} waits for {it['wait']}" for it in summary["waiting"])
    return f"end: {summary['ready']} of {summary['certificates']} Certificates ready, {summary['secrets']} Secrets{'; ' if waits else ''}{waits}"


def main():
    parser = cli.Parser(__doc__)
    parser.add_argument("history", nargs="?")
    parser.add_argument("--certificate", metavar="NS/NAME")
    parser.add_argument("--from", dest="first", metavar="AT")
    parser.add_argument("--to", dest="last", metavar="AT")
    given = parser.parse_args()
    if given.certificate and not is_name_pair(given.certificate):
        raise BadInput("--certificate takes namespace/name", 2)
    first, last = bound_of(given.first, "--from"), bound_of(given.last, "--to")
    history = History.read(cli.read_bytes(given.history))
    # (a history that cannot be folded is refused before anything is printed)
    for line in list(lines(history, given.certificate, first, last)):
        print(line)


if __name__ == "__main__":
    cli.run_tool(main)
