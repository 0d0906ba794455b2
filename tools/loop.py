"""Finds why a run never comes to rest: the step that never ends, and one turn of what goes round.

A run that needs more entries than it may have prints nothing. To see it, the scenario is run again up to the step that hangs, then
until some controller has made many writes, and then all controllers are stopped, so that the run ends and prints its history.
"""
from history import KINDS, PREFIX, WATCHES, History, State, annotation, condition, is_true, moment_of, revision_of, seconds_of, validity_of
from timeline import event_text

MOST_EVENTS = 250000
# How many writes of one controller are waited for: enough for some turns of a loop, and more where many Certificates are issued first.
WRITES = (40, 400, 4000)
LEAST_TURNS = 3
# The writes that each role can make.
WRITERS = (
    ("trigger", "Certificate"),
    ("issuing", "Secret"),
    ("issuing", "Certificate"),
    ("revision", "CertificateRequest"),
    ("requestmanager", "CertificateRequest"),
    ("keymanager", "Secret"),
    ("issuer", "CertificateRequest"),
    ("readiness", "Certificate"),
)


class Loop:
    """What was found: the step that never ends (from 1; None behind the last), the history up to there, and the entries of one turn."""

    def __init__(self, step, history, turn, period):
        self.step, self.history, self.turn, self.period = step, history, turn, period


def running_after(scenario, steps):
    """The roles that run after some steps."""
    running = set(scenario.get("roles", WATCHES))
    for step in steps:
        if step["do"] == "stop":
            running.discard(step["role"])
        if step["do"] == "start":
            running.add(step["role"])
    return running


def stops(scenario, steps):
    """Steps that stop all who run."""
    running = running_after(scenario, steps)
    return [{"do": "stop", "role": role} for role in WATCHES if role in running]


def enough_events(scenario):
    """More entries than the scenario needs, unless it goes round without end."""
    return min(6000 + 600 * len(scenario.get("script", [])), MOST_EVENTS)


def with_script(scenario, steps):
    return {**scenario, "events": enough_events(scenario), "script": steps}


def hanging_step(run, scenario):
    """The place of the first waiting step that never ends; the length of the script where that is the rest at its end."""
    script = scenario.get("script", [])
    waits = [place for place, step in enumerate(script) if step["do"] in ("settle", "until")]
    low, high = 0, len(waits)
    while low < high:
        middle = (low + high) // 2
        steps = script[: waits[middle] + 1]
        if run(with_script(scenario, steps + stops(scenario, steps))).status == 6:
            high = middle
        else:
            low = middle + 1
    return waits[low] if low < len(waits) else len(script)


def find_loop(run, scenario):
    """The loop of a scenario whose run does not end; None where no writer goes on without end. `run` runs a scenario."""
    script = scenario.get("script", [])
    place = hanging_step(run, scenario)
    before = script[:place]
    running = running_after(scenario, before)
    for writes in WRITES:
        for role, kind in WRITERS:
            if role not in running:
                continue
            steps = [*before, {"do": "until", "role": role, "kind": kind, "writes": writes}]
            ran = run(with_script(scenario, steps + stops(scenario, steps)))
            history = History.read(ran.output) if ran.status == 0 else None
            found = turn_of(history) if history else None
            if found:
                return Loop(place + 1 if place < len(script) else None, history, *found)
    return None


def short_key(write):
    """The key of a write, without the part of a name that is generated."""
    thing = write.thing
    marks = thing["metadata"].get("labels", {}), thing["metadata"].get("annotations", {})
    generated = any(f"{PREFIX}{name}" in mark for mark in marks for name in ("next-private-key", "private-key-secret-name"))
    return write.key.rpartition("-")[0] + "-*" if generated else write.key


def signature(event):
    """What makes two writes the same part of a turn."""
    conditions = [(it["type"], it["status"], it["reason"]) for it in event.write.thing.get("status", {}).get("conditions", [])]
    return event.who, event.write.verb, short_key(event.write), str(conditions)


def turn_of(history):
    """The numbers of the first and the last entry of a turn, and how many writes it has; None where nothing repeats."""
    events = [event for event in history.events() if event.write and event.who != "user"]
    marks = [signature(event) for event in events]
    for period in range(1, len(marks) // LEAST_TURNS + 1):
        tail = marks[-period * LEAST_TURNS :]
        if all(tail[place] == tail[place % period] for place in range(len(tail))):
            first = len(events) - 2 * period
            # A turn is shown from the trigger's write on, where it has one.
            first += next((place for place in range(period) if marks[first + place][0] == "trigger"), 0)
            last = min(first + period, len(events) - 1)
            return (events[first].n, events[last].n - 1 if last > first else events[last].n), period
    return None


def causes(loop):
    """Why the turn comes round, in sentences."""
    state = State(loop.history.scenario)
    told, seen = [], set()
    for entry in loop.history.entries:
        event = state.take(entry)
        if not loop.turn[0] <= event.n <= loop.turn[1] or not event.write:
            continue
        for text in causes_of(event, state):
            if text not in seen:
                seen.add(text)
                told.append(text)
    return told


def causes_of(event, state):
    write = event.write
    if event.who == "trigger" and write.after:
        name = event.of.key
        reason = condition(write.after, "Issuing").get("reason")
        for kind in KINDS:
            if ("trigger", kind) in state.held:
                yield f"trigger is held from {kind} events, so it does not see what was issued: for {name} it finds {reason} each time"
                return
        if reason == "Renewing":
            yield from renewal_cause(state, name)
    if event.who == "revision" and write.after is None:
        yield from deletion_cause(write, state)


def renewal_cause(state, name):
    """The certificate is due again at the moment at which it is issued."""
    target = state.objects.get(state.target(name))
    times = validity_of(target.value.get("data", {}).get("tls.crt", "")) if target else None
    if times:
        now = seconds_of(state.now)
        spec = state.certificate(name).value["spec"]
        lead = f", renewBefore {spec['renewBefore']}" if "renewBefore" in spec else f", renewBeforePercentage {spec['renewBeforePercentage']}" if "renewBeforePercentage" in spec else ""
        so = "it had expired" if times[1] <= now else "it was due for renewal"
        yield f"the certificate that the issuer gave for {name} is valid from {moment_of(times[0])} to {moment_of(times[1])}{lead}: at {state.now}, when it was issued, {so} already"


def deletion_cause(write, state):
    """The revision controller deletes the request of the revision in use, since a later one is kept."""
    for name, it in state.certificates().items():
        later = [key for key, request in state.owned(name, "CertificateRequest").items() if is_true(request.value, "Ready") and (revision_of(request.value) or 0) > (revision_of(write.before) or 0)]
        if later and annotation(write.before, f"{PREFIX}certificate-name") == name.split("/")[1]:
            limit = it.value["spec"].get("revisionHistoryLimit")
            yield f"revisionHistoryLimit of {name} is {limit}, and {later[-1].split('/')[2]} has revision {revision_of(state.objects[later[-1]].value)}, so a request of revision {revision_of(write.before)} is deleted as the oldest as soon as it is Ready, and comes again"


def turn_lines(loop):
    """The timeline of one turn."""
    for event in loop.history.events():
        if loop.turn[0] <= event.n <= loop.turn[1]:
            text = event_text(event)
            if text:
                yield f"{event.n:>6}  {event.who:<14} {text}"
