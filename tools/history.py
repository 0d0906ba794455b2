"""Reads the history that a run printed, and folds it: what is stored after each entry, what each pass saw, and who caused what.

    history = History.read(data)
    for event in history.events():
        event.entry, event.who, event.write, event.state

An update prints what was sent, and a status update the whole object: what is stored afterwards is told here once, for all tools.
docs/HISTORY.md describes the lines.
"""
import base64
import binascii
import datetime
import hashlib
import json
import re

from cli import TOP, BadInput
from scan_history import certificate_public, key_public, value as der_value, values as der_values

ROLES = ("trigger", "keymanager", "requestmanager", "approver", "issuer", "issuing", "readiness", "revision")
KINDS = ("Certificate", "CertificateRequest", "Secret")
# The kinds that each role is told of.
WATCHES = {
    "trigger": KINDS,
    "keymanager": ("Certificate", "Secret"),
    "requestmanager": KINDS,
    "approver": ("CertificateRequest",),
    "issuer": ("CertificateRequest",),
    "issuing": KINDS,
    "readiness": KINDS,
    "revision": ("Certificate", "CertificateRequest"),
}
CALLS = ("create", "generate", "update", "updateStatus", "delete", "get")
REPLIES = ("ok", "unchanged", "found", "conflict", "notFound", "alreadyExists", "invalid", "unavailable")
PREFIX = "cert-manager.io/"
NEXT_KEY = PREFIX + "next-private-key"
CERTIFICATE_NAME = PREFIX + "certificate-name"
REVISION = PREFIX + "certificate-revision"
TEMPORARY = PREFIX + "temporary-certificate"
DEFAULT_NOW = "2030-01-01T00:00:00Z"
MOMENT = re.compile(r"-?\d{1,4}-\d\d-\d\dT\d\d:\d\d:\d\dZ\Z")


# ---- moments and fingerprints


def seconds_of(moment):
    """The seconds since 1970 of a moment such as 2030-01-01T00:00:00Z."""
    at = datetime.datetime.strptime(moment, "%Y-%m-%dT%H:%M:%SZ")
    return int((at - datetime.datetime(1970, 1, 1)).total_seconds())


def moment_of(seconds):
    """The moment of that many seconds since 1970."""
    at = datetime.datetime(1970, 1, 1) + datetime.timedelta(seconds=seconds)
    return f"{at.year:04}-" + at.strftime("%m-%dT%H:%M:%SZ")


def is_moment(text):
    if not isinstance(text, str) or not MOMENT.match(text):
        return False
    try:
        seconds_of(text)
    except ValueError:
        return False
    return True


def short_hash(data):
    return hashlib.sha256(data).hexdigest()[:6]


def decoded(text):
    """The bytes of a base64 text."""
    return base64.b64decode(text, validate=True)


def public_of(read, data):
    """The public key that `read` finds in a key file or a certificate; None where the bytes have none."""
    try:
        return read(data)
    except (IndexError, KeyError, ValueError, TypeError, RecursionError):
        return None


def key_fingerprint(text):
    """Six digits for a private key, given in base64: the same for two files that have one public key."""
    data = decoded(text)
    public = public_of(key_public, data)
    return short_hash(repr(public).encode()) if public else f"unreadable {short_hash(data)}" if data else "empty"


def certificate_fingerprint(text):
    """Six digits for a certificate, given in base64, and those of the key that it is for."""
    data = decoded(text)
    public = public_of(certificate_public, data)
    if not data:
        return "empty"
    return f"{short_hash(data)} for key {short_hash(repr(public).encode())}" if public else f"unreadable {short_hash(data)}"


def request_public(octets):
    """The public key of a certificate signing request."""
    body = der_values(der_values(der_value(octets, 0)[1])[0][1])
    algorithm, bits = der_values(body[2][1])
    if len(bits[1]) > 1 and bits[1][1] == 4:
        return "ec", bits[1][1:]
    modulus, exponent = der_values(der_value(bits[1][1:], 0)[1])
    return "rsa", modulus[1], exponent[1]


def request_fingerprint(text):
    """Which key a signing request, given in base64, is for."""
    data = decoded(text)
    public = public_of(request_public, data)
    return f"for key {short_hash(repr(public).encode())}" if public else f"unreadable {short_hash(data)}"


def key_kind(text):
    """The algorithm and the size of a private key, given in base64, as a person names them; None where it has no reading."""
    public = public_of(key_public, decoded(text))
    if public is None:
        return None
    if public[0] == "ec":
        return "ECDSA", {65: 256, 97: 384, 133: 521}.get(len(public[1]), 0)
    return "RSA", int.from_bytes(public[1], "big").bit_length()


def validity_of(text):
    """The seconds at which a certificate, given in base64, begins and ends; None where it has no reading."""
    try:
        body = der_values(der_values(der_value(decoded(text), 0)[1])[0][1])
        times = der_values(body[4 if body[0][0] == 0xA0 else 3][1])
        return tuple(certificate_moment(tag, octets.decode("ascii")) for tag, octets in times)
    except (IndexError, KeyError, ValueError, TypeError):
        return None


def certificate_moment(tag, text):
    """The second that a UTCTime or a GeneralizedTime writes."""
    if tag == 0x17:
        text = ("20" if text[:2] < "50" else "19") + text
    at = datetime.datetime.strptime(text, "%Y%m%d%H%M%SZ")
    return int((at - datetime.datetime(1970, 1, 1)).total_seconds())


def back_off_end(status):
    """The second at which the back-off of a Certificate's status ends; None where no failure is noted."""
    last = status.get("lastFailureTime")
    if not is_moment(last):
        return None
    attempts = min(max(int(status.get("failedIssuanceAttempts", 1)), 1), 6)
    return seconds_of(last) + 3600 * 2 ** (attempts - 1)


# ---- objects


def condition(thing, kind):
    """The condition of that type, or an empty one."""
    for it in thing.get("status", {}).get("conditions", []):
        if it["type"] == kind:
            return it
    return {}


def is_true(thing, kind):
    return condition(thing, kind).get("status") == "True"


def annotation(thing, name):
    return thing["metadata"].get("annotations", {}).get(name)


def key_of(thing):
    return f"{thing['kind']}/{thing['metadata'].get('namespace', 'default')}/{thing['metadata']['name']}"


def owner_uids(thing):
    return {it.get("uid") for it in thing["metadata"].get("ownerReferences", [])}


def is_next_key(thing):
    return thing["metadata"].get("labels", {}).get(NEXT_KEY) == "true"


def revision_of(thing):
    """The revision that a request's annotation states, None where it states none."""
    text = annotation(thing, REVISION)
    return int(text) if text and re.fullmatch(r"0|[1-9][0-9]{0,19}", text) else None


class Stored:
    """An object as the store has it: its value, the version of its last write, its uid, and the entry of that write."""

    __slots__ = ("value", "version", "uid", "entry")

    def __init__(self, value, version, uid, entry):
        self.value, self.version, self.uid, self.entry = value, version, uid, entry


# ---- the form of lines


def is_count(value):
    return isinstance(value, int) and not isinstance(value, bool) and value >= 0


def is_text(value):
    return isinstance(value, str)


def is_base64(value):
    if not isinstance(value, str):
        return False
    try:
        decoded(value)
    except (binascii.Error, ValueError):
        return False
    return True


def is_pairs(value):
    return isinstance(value, dict) and all(isinstance(it, str) for it in value.values())


def is_list_of(test):
    return lambda value: isinstance(value, list) and all(map(test, value))


def has_members(**tests):
    """A test on objects: each member is there and passes; one whose name ends in `_` may be absent."""

    def test(value):
        if not isinstance(value, dict):
            return False
        for name, is_good in tests.items():
            plain = name.rstrip("_")
            if plain in value:
                if not is_good(value[plain]):
                    return False
            elif plain == name:
                return False
        return True

    return test


def is_flag(value):
    return isinstance(value, bool)


def is_name_pair(value):
    return isinstance(value, str) and value.count("/") == 1


def is_key(value):
    return isinstance(value, str) and value.count("/") == 2 and value.split("/")[0] in KINDS


is_issuer = has_members(name=is_text, kind_=is_text, group_=is_text)
is_condition = has_members(type=is_text, status=is_text, reason=is_text, message=is_text, lastTransitionTime=is_text)
is_status = has_members(
    conditions_=is_list_of(is_condition),
    lastFailureTime_=is_text,
    failedIssuanceAttempts_=is_count,
    notBefore_=is_text,
    notAfter_=is_text,
    renewalTime_=is_text,
    revision_=is_count,
    nextPrivateKeySecretName_=is_text,
    certificate_=is_base64,
    ca_=is_base64,
    failureTime_=is_text,
)
is_metadata = has_members(
    name=is_text,
    namespace=is_text,
    labels_=is_pairs,
    annotations_=is_pairs,
    ownerReferences_=is_list_of(has_members(kind=is_text, name=is_text, uid=is_text)),
)


def is_object(value):
    return isinstance(value, dict)


is_texts = is_list_of(is_text)
is_certificate_spec = has_members(
    secretName=is_text,
    issuerRef=is_issuer,
    commonName_=is_text,
    dnsNames_=is_texts,
    ipAddresses_=is_texts,
    uris_=is_texts,
    emailAddresses_=is_texts,
    usages_=is_texts,
    privateKey_=is_object,
    renewBefore_=is_text,
)
is_request_spec = has_members(issuerRef=is_issuer, request=is_base64)


def is_data(value):
    return isinstance(value, dict) and all(map(is_base64, value.values()))


FORMS = {
    "Certificate": has_members(metadata=is_metadata, spec=is_certificate_spec, status_=is_status),
    "CertificateRequest": has_members(metadata=is_metadata, spec=is_request_spec, status_=is_status),
    "Secret": has_members(metadata=is_metadata, data_=is_data, type_=is_text),
}


def is_stored_form(value):
    """Whether the value has the form of an object as a history prints it."""
    return isinstance(value, dict) and value.get("kind") in KINDS and FORMS[value["kind"]](value)


def is_reply(value):
    """Whether the value has the form of a reply: one of the known ones, with a number, or two of a conflict."""
    if not isinstance(value, dict) or len(set(value) & set(REPLIES)) != 1:
        return False
    if "conflict" in value:
        return has_members(have=is_count, named=is_count)(value["conflict"])
    return all(is_count(it) for name, it in value.items() if name != "name") and is_text(value.get("name", ""))


def is_order(value):
    forms = {
        "key": has_members(certificate=is_name_pair, number=is_count),
        "csr": has_members(body=is_base64, key=is_base64),
        "sign": has_members(request=is_name_pair, number=is_count, version=is_count),
        "judge": has_members(request=is_name_pair, version=is_count),
    }
    return isinstance(value, dict) and value.get("is") in forms and forms[value["is"]](value)


def is_answer(value):
    return isinstance(value, dict) and value.get("is") in ("issued", "pending", "failed") and is_base64(value.get("certificate", "")) and is_text(value.get("message", ""))


def is_cause(value):
    return value in ("wrote", "nothing") or isinstance(value, dict) and is_count(value.get("entry"))


is_role = ROLES.__contains__
is_kind = KINDS.__contains__
is_told = {"role": is_role, "kind": is_kind, "to": is_count}
ENTRIES = {
    "script": {"step": is_count},
    "call": {"call": CALLS.__contains__, "key": is_text, "reply": is_reply, "who": lambda it: it == "user" or is_count(it)},
    "deliver": is_told,
    "list": is_told,
    "begin": {"pass": is_count, "role": is_role, "key": is_name_pair, "at": lambda it: isinstance(it, dict) and all(is_count(it.get(kind)) for kind in KINDS), "now": is_moment},
    "ask": {"pass": is_count, "order": is_order},
    "made": {"pass": is_count, "key": is_base64},
    "signed": {"pass": is_count, "signature": is_base64},
    "answered": {"pass": is_count, "answer": is_answer},
    "judged": {"pass": is_count, "yes": is_flag},
    "end": {"pass": is_count, "cause": is_cause},
    "stop": {"role": is_role},
    "start": {"role": is_role, "at": is_count},
    "tick": {"now": is_moment},
}


def wrong_member(entry):
    """The first member of an entry that has not the form of its kind of line; None where all have."""
    kind = entry.get("is")
    if not isinstance(kind, str) or kind not in ENTRIES:
        return "is"
    for name, test in ENTRIES[kind].items():
        try:
            if name not in entry or not test(entry[name]):
                return name
        except TypeError:
            return name
    if kind != "call":
        return None
    if entry["call"] not in ("delete", "get") and not is_stored_form(entry.get("object")):
        return "object"
    return None if entry["call"] == "generate" or is_key(entry["key"]) else "key"


# ---- reading


class History:
    """A history that was read: the scenario of its first line, its entries, and the summary of its last line."""

    def __init__(self, scenario, entries, summary):
        self.scenario, self.entries, self.summary = scenario, entries, summary

    @staticmethod
    def read(data):
        """Reads the bytes that a run printed; BadInput names the first line that no run prints."""
        try:
            lines = data.decode("utf-8").split("\n")
        except UnicodeDecodeError:
            raise BadInput("the history is not UTF-8") from None
        if lines[-1] == "":
            lines.pop()
        if not lines:
            raise BadInput("the history is empty")
        values = [line_value(text, place) for place, text in enumerate(lines, 1)]
        if set(values[0]) == {"summary"}:
            raise BadInput("this is a summary alone: run without --summary")
        if not isinstance(values[0].get("scenario"), dict) or not is_scenario_shape(values[0]["scenario"]):
            raise BadInput("line 1 is not the line of a scenario, with which a history begins")
        if not is_summary(values[-1].get("summary")):
            raise BadInput(f"the history is cut after line {len(values)}: its last line is not a summary")
        check_entries(values[1:-1])
        return History(values[0]["scenario"], values[1:-1], values[-1]["summary"])

    @property
    def script(self):
        return self.scenario.get("script", [])

    def events(self):
        """Goes through the entries, one event each."""
        state = State(self.scenario)
        for entry in self.entries:
            yield state.take(entry)

    def end(self):
        """The state after the last entry."""
        state = State(self.scenario)
        for entry in self.entries:
            state.take(entry)
        return state


def line_value(text, place):
    try:
        value = json.loads(text)
    except ValueError as bad:
        raise BadInput(f"line {place} is not JSON ({bad}): no history, or one that is cut") from None
    if not isinstance(value, dict):
        raise BadInput(f"line {place} is not an object: no history")
    return value


def is_scenario_shape(scenario):
    """Whether the parts of a scenario that the tools look at have their form."""
    steps = scenario.get("script", [])
    return (
        isinstance(steps, list)
        and all(isinstance(it, dict) and isinstance(it.get("do"), str) for it in steps)
        and is_moment(scenario.get("now", DEFAULT_NOW))
        and is_list_of(is_role)(scenario.get("roles", []))
        and isinstance(scenario.get("approver", {}), dict)
        and isinstance(scenario.get("material", {}), dict)
        and all(it.get("role", ROLES[0]) in ROLES and it.get("kind", KINDS[0]) in KINDS for it in steps)
        and all(is_object_named(it["object"]) for it in steps if "object" in it)
    )


def is_object_named(value):
    return isinstance(value, dict) and value.get("kind") in KINDS and isinstance(value.get("metadata"), dict) and is_text(value["metadata"].get("name"))


is_summary = has_members(certificates=is_count, ready=is_count, secrets=is_count, waiting=is_list_of(has_members(certificate=is_name_pair, wait=is_text)))


def check_entries(entries):
    for number, entry in enumerate(entries, 1):
        wrong = wrong_member(entry)
        if wrong:
            raise BadInput(f"line {number + 1}: `{wrong}` is not what a history of a run has there")
        if entry.get("n") != number:
            raise BadInput(f"line {number + 1}: its `n` is not {number}: a line is missing, or there is one too many")


# ---- folding


class Pass:
    """A pass of a role on a key: the positions that its caches had at its begin, and the question that it asked last."""

    __slots__ = ("number", "role", "key", "at", "now", "entry", "order")

    def __init__(self, entry):
        self.number, self.role, self.key = entry["pass"], entry["role"], entry["key"]
        self.at, self.now, self.entry, self.order = entry["at"], entry["now"], entry["n"], None


class Write:
    """An accepted write: its key, what was stored before it (None for a create) and what is stored after it (None for a delete)."""

    __slots__ = ("key", "verb", "version", "before", "after")

    def __init__(self, key, verb, version, before, after):
        self.key, self.verb, self.version, self.before, self.after = key, verb, version, before, after

    @property
    def thing(self):
        return self.before if self.after is None else self.after


class Event:
    """An entry with who did it (a role, or `user`), its pass where it has one, and its write where it is an accepted one."""

    __slots__ = ("entry", "who", "of", "write", "state", "order", "step")

    def __init__(self, entry, who, of, write, state, order=None, step=None):
        self.entry, self.who, self.of, self.write = entry, who, of, write
        self.state, self.order, self.step = state, order, step

    @property
    def n(self):
        return self.entry["n"]

    @property
    def kind(self):
        return self.entry["is"]


class State:
    """What is so after the entries that were taken: the moment, the objects, who runs, and which watches are held."""

    def __init__(self, scenario):
        self.scenario = scenario
        self.script = scenario.get("script", [])
        self.now = scenario.get("now", DEFAULT_NOW)
        self.version = 0
        self.calls = 0
        self.objects = {}
        self.passes = {}
        self.running = set(scenario.get("roles", ROLES))
        self.held = set()
        self.step = 0
        self.writers = {}

    def take(self, entry):
        """Takes the next entry, and answers its event."""
        kind, number = entry["is"], entry.get("pass")
        if kind == "begin":
            self.passes[number] = Pass(entry)
        elif kind == "tick":
            self.now = entry["now"]
        elif kind == "stop":
            self.running.discard(entry["role"])
        elif kind == "start":
            self.running.add(entry["role"])
        elif kind == "script":
            return self.take_step(entry)
        elif kind == "call":
            return self.take_call(entry)
        if number is None:
            return Event(entry, entry.get("role", "script"), None, None, self)
        of = self.pass_of(entry, number)
        if kind == "ask":
            of.order = entry["order"]
        return Event(entry, of.role, of, None, self, of.order)

    def pass_of(self, entry, number):
        of = self.passes.get(number)
        if of is None:
            raise BadInput(f"line {entry['n'] + 1}: pass {number} has not begun")
        return of

    def take_step(self, entry):
        self.step = entry["step"]
        if not 1 <= self.step <= len(self.script):
            raise BadInput(f"line {entry['n'] + 1}: the scenario has no step {self.step}")
        step = self.script[self.step - 1]
        if step["do"] == "hold":
            self.held.add((step.get("role"), step.get("kind")))
        elif step["do"] == "release":
            self.held.discard((step.get("role"), step.get("kind")))
        return Event(entry, "script", None, None, self, step=step)

    def take_call(self, entry):
        self.calls += 1
        of = None if entry["who"] == "user" else self.pass_of(entry, entry["who"])
        who = of.role if of else "user"
        write = self.write_of(entry) if "ok" in entry["reply"] else None
        if write:
            self.writers[write.version] = (who, write, entry["n"])
        return Event(entry, who, of, write, self)

    def write_of(self, entry):
        """Applies an accepted write."""
        version, verb = entry["reply"]["ok"], entry["call"]
        if version != self.version + 1 or verb == "get":
            raise BadInput(f"line {entry['n'] + 1}: version {version} does not follow version {self.version}")
        self.version = version
        if verb in ("create", "generate"):
            return self.created(entry, version)
        key = entry["key"]
        before = self.objects.get(key)
        if before is None:
            raise BadInput(f"line {entry['n'] + 1}: {key} does not exist, and is written")
        if verb == "delete":
            del self.objects[key]
            return Write(key, verb, version, before.value, None)
        value = self.updated(before.value, entry["object"], verb)
        self.objects[key] = Stored(value, version, before.uid, entry["n"])
        return Write(key, verb, version, before.value, value)

    def created(self, entry, version):
        value = {**entry["object"], "metadata": dict(entry["object"]["metadata"])}
        if entry["call"] == "generate":
            value["metadata"]["name"] = entry["reply"].get("name", "")
        key = key_of(value)
        if key in self.objects:
            raise BadInput(f"line {entry['n'] + 1}: {key} exists, and is created")
        self.objects[key] = Stored(value, version, version, entry["n"])
        return Write(key, entry["call"], version, None, value)

    @staticmethod
    def updated(before, sent, verb):
        """What is stored after an update of an object: one writes all but the status, the other the status alone."""
        if verb == "updateStatus":
            return {**before, "status": sent.get("status", {})}
        after = dict(sent)
        if "status" in before:
            after["status"] = before["status"]
        return after

    # ---- what belongs to a Certificate

    def certificate(self, name):
        """The Certificate `namespace/name` that is stored, or None."""
        return self.objects.get("Certificate/" + name)

    def certificates(self):
        return {key[len("Certificate/") :]: it for key, it in sorted(self.objects.items()) if key.startswith("Certificate/")}

    def owned(self, name, kind):
        """The stored objects of a kind in the Certificate's namespace that its uid owns, in order of their names."""
        certificate = self.certificate(name)
        start = f"{kind}/{name.split('/')[0]}/"
        uid = f"uid-{certificate.uid}" if certificate else None
        return {key: it for key, it in sorted(self.objects.items()) if key.startswith(start) and uid in owner_uids(it.value)}

    def next_keys(self, name):
        return {key: it for key, it in self.owned(name, "Secret").items() if is_next_key(it.value)}

    def requests(self, name, revision):
        """The owned requests of a revision."""
        return {key: it for key, it in self.owned(name, "CertificateRequest").items() if revision_of(it.value) == revision}

    def target(self, name):
        """The key of the Secret that the Certificate names."""
        certificate = self.certificate(name)
        return f"Secret/{name.split('/')[0]}/{certificate.value['spec']['secretName']}" if certificate else None

    def wait_of(self, name):
        """What a Certificate waits for, as the summary says it at the end of a run; None where it is Ready or nothing fits."""
        certificate = self.certificate(name)
        if certificate is None or is_true(certificate.value, "Ready"):
            return None
        status = certificate.value.get("status", {})
        if len(self.running) < len(ROLES) or self.held:
            return "stopped"
        until = back_off_end(status)
        if not is_true(certificate.value, "Issuing"):
            return "backoff" if until is not None and seconds_of(self.now) < until else None
        if not self.next_keys(name):
            return "key"
        found = list(self.requests(name, status.get("revision", 0) + 1).values())
        return self.wait_of_request(name, found[0].value) if len(found) == 1 else None

    def wait_of_request(self, name, request):
        conditions = {it["type"] for it in request.get("status", {}).get("conditions", [])}
        ready = condition(request, "Ready")
        if not conditions & {"Approved", "Denied"}:
            return "unapproved"
        target = self.objects.get(self.target(name))
        if ready.get("status") == "True" and ready["reason"] == "Issued" and target and is_next_key(target.value):
            return "name"
        if is_true(request, "Approved") and (not ready or ready["reason"] == "Pending"):
            return "pending"
        return None


def certificates_of(thing, state):
    """The names `namespace/name` of the Certificates that an object belongs to, as its marks and the store have it."""
    namespace = thing["metadata"].get("namespace", "default")
    if thing["kind"] == "Certificate":
        return {f"{namespace}/{thing['metadata']['name']}"}
    named = annotation(thing, CERTIFICATE_NAME)
    found = {f"{namespace}/{named}"} if named else set()
    found |= {f"{namespace}/{it['name']}" for it in thing["metadata"].get("ownerReferences", []) if it["kind"] == "Certificate"}
    if thing["kind"] == "Secret":
        start = f"Certificate/{namespace}/"
        name = thing["metadata"]["name"]
        found |= {key[len("Certificate/") :] for key, it in state.objects.items() if key.startswith(start) and it.value["spec"]["secretName"] == name}
    return found


# ---- what a person reads of an object


def admission_rules():
    """What each rule of admission refuses, by its number: the table of docs/HISTORY.md."""
    with open(f"{TOP}/docs/HISTORY.md", encoding="utf-8") as file:
        part = file.read().partition("## Rules of admission")[2].partition("\n## ")[0]
    return {int(number): text.strip() for number, text in re.findall(r"^\| (\d+) \| ([^|]+)\|", part, re.M)}


def rule_text(number):
    """What the rule of that number refuses."""
    return admission_rules().get(number, "no rule of this program")


def condition_text(it):
    told = f": {it['message']}" if it["type"] == "Denied" or it["type"] == "Ready" and it["reason"] == "Failed" else ""
    return f"{it['status']}({it['reason']}{told})"


def value_text(value):
    return value if isinstance(value, str) else json.dumps(value, separators=(",", ":"), ensure_ascii=False)


def facts(thing):
    """What an object says, member by member, with keys and certificates as fingerprints."""
    found = {}
    status = thing.get("status", {})
    for it in status.get("conditions", []):
        found[it["type"]] = condition_text(it)
    for name, value in status.items():
        if name != "conditions":
            found[name] = certificate_fingerprint(value) if name in ("certificate", "ca") and value else value_text(value)
    for name, value in thing.get("spec", {}).items():
        found[f"spec.{name}"] = request_fingerprint(value) if name == "request" else value_text(value)
    for name, value in sorted(thing.get("data", {}).items()):
        read = key_fingerprint if name == "tls.key" else certificate_fingerprint
        found[f"data.{name}"] = read(value) if name in ("tls.key", "tls.crt", "ca.crt") else f"{len(decoded(value))} bytes"
    for mark, name in (("@", "annotations"), ("#", "labels")):
        for key, value in thing["metadata"].get(name, {}).items():
            found[mark + key.removeprefix(PREFIX)] = value
    return found


def creation(thing):
    """What a person reads of an object that is created: of one that a role creates for a Certificate, what tells it from others."""
    told = facts(thing)
    if thing["kind"] == "CertificateRequest" and annotation(thing, REVISION):
        return [f"revision {annotation(thing, REVISION)}", f"of {annotation(thing, CERTIFICATE_NAME)}", told["spec.request"]]
    if is_next_key(thing):
        return ["the next private key", *(f"{name}={value}" for name, value in told.items() if name.startswith("data."))]
    return [f"{name}={value}" for name, value in told.items()]


def changed_parts(before, after):
    """The two objects without the parts that are equal in both, so that only what differs is read."""
    names = [name for name in ("status", "spec", "data") if before.get(name) != after.get(name)]
    pick = lambda thing: {"metadata": thing["metadata"], **{name: thing[name] for name in names if name in thing}}
    return pick(before), pick(after)


def difference(before, after):
    """What changed from one object to another, as texts."""
    before, after = changed_parts(before, after)
    old, new = facts(before), facts(after)
    changed = []
    for name in dict.fromkeys([*old, *new]):
        if old.get(name) == new.get(name):
            continue
        if name not in new:
            changed.append(f"no {name} any more")
        elif name not in old:
            changed.append(f"{name}={new[name]}")
        else:
            changed.append(f"{name}: {old[name]} -> {new[name]}")
    for it in after.get("status", {}).get("conditions", []):
        was = condition(before, it["type"])
        if was and was["lastTransitionTime"] != it["lastTransitionTime"] and old[it["type"]] == new[it["type"]]:
            changed.append(f"{it['type']} stays {new[it['type']]}, now since {it['lastTransitionTime']}")
    return changed


def write_text(write):
    """A write as a person reads it: what was created, changed or deleted."""
    if write.after is None:
        return f"deletes {write.key}"
    if write.before is None:
        return f"creates {write.key}  {', '.join(creation(write.after))}"
    return f"writes {write.key}  {', '.join(difference(write.before, write.after)) or 'nothing that a reader sees'}"
