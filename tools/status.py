#!/usr/bin/env python3
"""Says of one Certificate what `cmctl status certificate` and `kubectl describe` say, from a history.

usage: cmrun run --workers 0 < scenario.json | tools/status.py NS/NAME [--at AT] [--events N]
       tools/status.py NS/NAME HISTORY

It tells what is stored at the end, or after the entry AT (the number of an entry, or a moment: then its last entry): conditions,
times, the Secret with fingerprints of key and certificate, the requests, until when a back-off lasts, what the Certificate waits
for with the cause (which issuer, which policy, which key), and the events. Without NS/NAME it lists all Certificates.
"""
import difflib
import os

import cli
from cli import BadInput
from history import (
    DEFAULT_NOW,
    REVISION,
    ROLES,
    TEMPORARY,
    History,
    State,
    annotation,
    back_off_end,
    certificate_fingerprint,
    certificates_of,
    condition,
    is_name_pair,
    is_true,
    key_fingerprint,
    key_kind,
    moment_of,
    revision_of,
    seconds_of,
)
from timeline import bound_of, reply_text

OWN_GROUP = "cert-manager.io"


# ---- why a Certificate waits


def issuer_text(ref):
    text = f"{ref.get('kind') or 'Issuer'} {ref['name']}"
    group = ref.get("group") or OWN_GROUP
    return text if group == OWN_GROUP else f"{text} of the group {group}"


def cause_of_stop(state):
    stopped = [role for role in ROLES if role not in state.running]
    held = [f"{role} is not told of {kind}" for role, kind in sorted(state.held)]
    return "; ".join([*(f"{role} does not run" for role in stopped), *held])


def failure_of(state, name):
    """Why the last issuance of a Certificate failed."""
    value = state.certificate(name).value
    reason = condition(value, "Issuing").get("reason", "")
    if reason == "InvalidCertificate":
        return "the certificate that the issuer gave is not for the private key of the issuance"
    for key, it in state.requests(name, value.get("status", {}).get("revision", 0) + 1).items():
        denied, ready = condition(it.value, "Denied"), condition(it.value, "Ready")
        if denied:
            return f"{key.split('/')[2]} was denied: {denied['message']}"
        if ready.get("reason") == "Failed":
            return f"{key.split('/')[2]} failed: {ready['message']}"
    return f"the last issuance ended with {reason}" if reason else "the last issuance failed"


def cause_of_approval(state, name):
    ref = state.certificate(name).value["spec"]["issuerRef"]
    if (ref.get("group") or OWN_GROUP) != OWN_GROUP:
        return f"its issuer is {issuer_text(ref)}, whose requests the approver leaves to others: it takes a step `approve`"
    issuers = state.scenario.get("approver", {}).get("issuers", ["*"])
    if "*" not in issuers and ref["name"] not in issuers:
        close = difflib.get_close_matches(ref["name"], issuers, 1)
        known = f"it knows {', '.join(issuers) or 'none'}"
        return f"the approver does not know the issuer {ref['name']} ({known}){f'; did you mean {close[0]}?' if close else ''}"
    return "the approver has not judged it yet"


def wanted_key(spec):
    key = spec.get("privateKey", {})
    algorithm = key.get("algorithm", "RSA")
    return algorithm, key.get("size", 2048 if algorithm == "RSA" else 256)


def cause_of_key(state, name):
    spec = state.certificate(name).value["spec"]
    target = state.objects.get(state.target(name))
    text = target.value.get("data", {}).get("tls.key", "") if target else ""
    found, wanted = key_kind(text), wanted_key(spec)
    if found and found != wanted and spec.get("privateKey", {}).get("rotationPolicy") == "Never":
        return f"rotationPolicy is Never, and the key in Secret {spec['secretName']} is {found[0]} {found[1]} where {wanted[0]} {wanted[1]} is wanted: delete that Secret, or set rotationPolicy to Always"
    return "no next private key is stored"


def cause_of_pending(state, name):
    value = state.certificate(name).value
    ref = value["spec"]["issuerRef"]
    request = next(iter(state.requests(name, value.get("status", {}).get("revision", 0) + 1).values())).value
    ready = condition(request, "Ready")
    if (ref.get("group") or OWN_GROUP) != OWN_GROUP:
        return f"its issuer is {issuer_text(ref)}, which is none of this model: it takes a step `answer`"
    if ready.get("reason") == "Pending":
        return f"{issuer_text(ref)} has not decided; it is asked again from {moment_of(seconds_of(ready['lastTransitionTime']) + 60)} on"
    return f"{issuer_text(ref)} was not asked yet"


def cause_of(state, name, wait):
    """Why a Certificate waits, in one sentence."""
    status = state.certificate(name).value.get("status", {})
    if wait == "stopped":
        return cause_of_stop(state)
    if wait == "backoff":
        return f"until {moment_of(back_off_end(status))}, after failed attempt {status.get('failedIssuanceAttempts', 1)}: {failure_of(state, name)}"
    if wait == "key":
        return cause_of_key(state, name)
    if wait == "unapproved":
        return cause_of_approval(state, name)
    if wait == "name":
        return f"Secret {state.certificate(name).value['spec']['secretName']} is marked as the next private key of a Certificate"
    if wait == "pending":
        return cause_of_pending(state, name)
    return "it goes on: the history ends or is cut here before all is at rest"


# ---- events


def events_of(event, name):
    """The events that Kubernetes would show for an entry, as (type, reason, from, message)."""
    if event.kind == "call" and event.write is None:
        if event.who == "user" and "unchanged" not in event.entry["reply"] and event.entry["key"].endswith("/" + name):
            return [("Warning", "Refused", "user", f"{event.entry['call']} of {event.entry['key']}: {reply_text(event.entry)}")]
        return []
    if event.write is None or name not in certificates_of(event.write.thing, event.state):
        return []
    return written(event, event.write)


def written(event, write):
    who, thing, short = event.who, write.thing, write.key.split("/")[2]
    created, deleted = write.before is None, write.after is None
    if who == "trigger":
        return [("Normal", "Issuing", who, condition(thing, "Issuing").get("message", ""))]
    if who == "keymanager" and created:
        return [("Normal", "Generated", who, f'Stored new private key in temporary Secret resource "{short}"')]
    if who == "requestmanager":
        return [("Normal", "Requested" if created else "Removed", who, f'{"Created new" if created else "Deleted"} CertificateRequest resource "{short}"')]
    if who == "revision":
        return [("Normal", "Removed", who, f'Deleted CertificateRequest resource "{short}" beyond the history limit')]
    if who == "approver":
        told = condition(thing, "Denied") or condition(thing, "Approved")
        return [("Warning" if told["type"] == "Denied" else "Normal", told["type"], who, f"{short}: {told['message']}")]
    if who == "issuer":
        told = condition(thing, "Ready")
        return [("Normal" if told["status"] == "True" else "Warning", told["reason"], who, f"{short}: {told['message']}")]
    if who == "issuing":
        return issued(who, write, thing, short)
    if who == "readiness":
        was, told = condition(write.before or {}, "Ready"), condition(thing, "Ready")
        return [] if was and was["reason"] == told["reason"] else [("Normal" if told["status"] == "True" else "Warning", told["reason"], who, told["message"])]
    return of_user(who, write, deleted)


def of_user(who, write, deleted):
    """What a step of the script wrote: an object, or conditions."""
    if write.verb != "updateStatus":
        return [("Normal", "Deleted" if deleted else "Applied", who, f"{write.verb} of {write.key}")]
    changed = [it for it in write.after.get("status", {}).get("conditions", []) if it != condition(write.before, it["type"])]
    return [("Normal", it["reason"], who, f"{write.key}: {it['type']} {it['status']}: {it['message']}") for it in changed]


def issued(who, write, thing, short):
    if thing["kind"] == "Secret":
        what = "a stand-in certificate" if annotation(thing, TEMPORARY) == "true" else "key and certificate"
        return [("Normal", "Stored", who, f'Wrote {what} to Secret "{short}"')]
    told, status = condition(thing, "Issuing"), thing["status"]
    attempt = f" (attempt {status['failedIssuanceAttempts']})" if "failedIssuanceAttempts" in status else ""
    return [("Normal" if told["reason"] == "Issued" else "Warning", told["reason"], who, told["message"] + attempt)]


# ---- the page


def conditions_text(thing):
    return ", ".join(f"{it['type']}={it['status']}({it['reason']})" for it in thing.get("status", {}).get("conditions", [])) or "no conditions"


def head(name, state, value):
    namespace, short = name.split("/")
    yield f"Name: {short}"
    yield f"Namespace: {namespace}"
    yield f"At: {state.now}"
    yield "Conditions:" if value.get("status", {}).get("conditions") else "Conditions: none"
    for it in value.get("status", {}).get("conditions", []):
        yield f"  {it['type']}: {it['status']}, Reason: {it['reason']}, Message: {it['message']}, since {it['lastTransitionTime']}"


def names(spec):
    for title, member in (("Common Name", "commonName"), ("DNS Names", "dnsNames"), ("IP Addresses", "ipAddresses"), ("URIs", "uris"), ("Email Addresses", "emailAddresses")):
        if spec.get(member):
            yield f"{title}: {spec[member] if isinstance(spec[member], str) else ', '.join(spec[member])}"


def times(status):
    for title, member in (
        ("Revision", "revision"),
        ("Not Before", "notBefore"),
        ("Not After", "notAfter"),
        ("Renewal Time", "renewalTime"),
        ("Last Failure", "lastFailureTime"),
        ("Failed Attempts", "failedIssuanceAttempts"),
        ("Next Private Key", "nextPrivateKeySecretName"),
    ):
        if member in status:
            yield f"{title}: {status[member]}"
    if back_off_end(status) is not None:
        yield f"Back-off Until: {moment_of(back_off_end(status))}"


def secret(state, name):
    target = state.target(name)
    stored = state.objects.get(target)
    if stored is None:
        yield f"Secret: {target.split('/')[2]} (does not exist)"
        return
    data = stored.value.get("data", {})
    yield f"Secret: {target.split('/')[2]} (version {stored.version})"
    if "tls.key" in data:
        kind = key_kind(data["tls.key"])
        yield f"  Key: {key_fingerprint(data['tls.key'])}{f', {kind[0]} {kind[1]}' if kind else ''}"
    if "tls.crt" in data:
        stands_in = ", which stands in until an issuer has signed" if annotation(stored.value, TEMPORARY) == "true" else ""
        yield f"  Certificate: {certificate_fingerprint(data['tls.crt'])}{stands_in}"


def requests(state, name):
    found = state.owned(name, "CertificateRequest")
    yield "CertificateRequests:" if found else "CertificateRequests: none"
    for key, it in sorted(found.items(), key=lambda item: (revision_of(item[1].value) or 0, item[0])):
        yield f"  {key.split('/')[2]}  revision {annotation(it.value, REVISION)}  {conditions_text(it.value)}"


def describe(state, name, events, most):
    """The lines of one Certificate."""
    value = state.certificate(name).value
    yield from head(name, state, value)
    yield from names(value["spec"])
    yield f"Issuer: {issuer_text(value['spec']['issuerRef'])}"
    yield from times(value.get("status", {}))
    ready = is_true(value, "Ready")
    wait = state.wait_of(name)
    yield f"Waits for: {'nothing' if ready else wait or 'nothing that has a name'}{'' if ready else f' ({cause_of(state, name, wait)})'}"
    yield from secret(state, name)
    yield from requests(state, name)
    count = len(events)
    yield "Events: none" if not count else f"Events: {count}" if not most else f"Events: (the last {most} of {count})" if count > most else "Events:"
    for at, kind, reason, who, message in events[-most:] if most else []:
        yield f"  {at}  {kind:<8} {reason:<19} {who:<15} {message}"


def overview(state):
    """A line for each Certificate."""
    yield f"{'CERTIFICATE':<40} {'READY':<6} {'REVISION':<9} {'RENEWAL':<21} WAITS FOR"
    for name, it in state.certificates().items():
        status = it.value.get("status", {})
        wait = state.wait_of(name)
        told = f"{wait} ({cause_of(state, name, wait)})" if wait else ""
        yield f"{name:<40} {condition(it.value, 'Ready').get('status', '-'):<6} {status.get('revision', '-'):<9} {status.get('renewalTime', '-'):<21} {told}".rstrip()


def up_to(history, bound):
    """The history without what comes after an entry or a moment."""
    if bound is None:
        return history
    kept, now = [], seconds_of(history.scenario.get("now", DEFAULT_NOW))
    for entry in history.entries:
        now = seconds_of(entry["now"]) if entry["is"] == "tick" else now
        if (now if bound[0] else entry["n"]) > bound[1]:
            break
        kept.append(entry)
    if not kept and history.entries:
        raise BadInput("nothing had happened by then", 2)
    return History(history.scenario, kept, history.summary)


def state_and_events(history, name):
    """What is stored at the end of a history, and the events of a Certificate in it."""
    state, events = State(history.scenario), []
    for entry in history.entries:
        event = state.take(entry)
        if name:
            events += [(state.now, *it) for it in events_of(event, name)]
    return state, events


def name_and_path(words):
    """The Certificate and the history that the words name; a word with one slash that is no file is a Certificate."""
    words = list(words)
    is_name = words and is_name_pair(words[0]) and not os.path.exists(words[0]) and not words[0].startswith("/")
    name = words.pop(0) if is_name else None
    if len(words) > 1:
        raise BadInput("it takes one Certificate namespace/name and one history", 2)
    return name, words[0] if words else None


def main():
    parser = cli.Parser(__doc__)
    parser.add_argument("words", nargs="*", metavar="NS/NAME or HISTORY")
    parser.add_argument("--at", metavar="AT")
    parser.add_argument("--events", type=int, default=20, metavar="N", help="how many of the last events to show (default 20)")
    given = parser.parse_args()
    name, path = name_and_path(given.words)
    bound = bound_of(given.at, "--at")
    history = History.read(cli.read_bytes(path))
    state, events = state_and_events(up_to(history, bound), name)
    if name is None:
        found = overview(state)
    elif state.certificate(name):
        found = describe(state, name, events, max(given.events, 0))
    else:
        close = difflib.get_close_matches(name, state.certificates(), 1)
        raise BadInput(f"no Certificate {name} exists at {state.now}{f'; did you mean {close[0]}?' if close else ''}")
    for line in list(found):
        print(line)
    return 0


if __name__ == "__main__":
    cli.run_tool(main)
