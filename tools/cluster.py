#!/usr/bin/env python3
"""Makes a scenario of what is stored in a cluster.

usage: kubectl get certificates,secrets,certificaterequests -A -o json | tools/cluster.py > scenario.json

The scenario begins with no controller running, puts the Certificates, their Secrets and their current requests into the store, and
then starts all eight: nothing is issued again that is in order. Its first moment is now (--now takes another).

No private key leaves the cluster by it: each is replaced by a stand-in of its kind, and so is its public key in certificates and
requests, so that what fitted still fits (--keep-keys keeps them). Of metadata only names, namespaces and the labels and annotations
of cert-manager are kept. What the model has no member for, and what it would refuse, is left out and named on standard error.
"""
import base64
import binascii
import datetime
import re
import sys

import cli
from cli import BadInput
from history import (
    CERTIFICATE_NAME,
    PREFIX,
    REVISION,
    ROLES,
    annotation,
    condition,
    is_moment,
    public_of,
    request_public,
    rule_text,
)
from scan_history import certificate_public, key_public
from scan_history import value as der_value

from schema import Schema

EC = bytes.fromhex("06072a8648ce3d0201")
RSA = bytes.fromhex("06092a864886f70d0101010500")
# The curve of a point by its octets, and the octets of a coordinate.
CURVES = {65: ("06082a8648ce3d030107", 32), 97: ("06052b81040022", 48), 133: ("06052b81040023", 66)}
SECRET_DATA = ("tls.key", "tls.crt", "ca.crt")


# ---- DER, and keys that stand in


def tlv(tag, body):
    """A DER value."""
    size = len(body)
    if size < 128:
        return bytes([tag, size]) + body
    octets = size.to_bytes((size.bit_length() + 7) // 8, "big")
    return bytes([tag, 0x80 | len(octets)]) + octets + body


def integer(number):
    return tlv(2, number.to_bytes(number.bit_length() // 8 + 1, "big"))


def pieces(octets):
    """The DER values in a row, each whole."""
    at, found = 0, []
    while at < len(octets):
        end = der_value(octets, at)[2]
        found.append(octets[at:end])
        at = end
    return found


def stand_in_number(public, number):
    """The numbers of a stand-in key of the kind of a public key: modulus and exponent, or the octets of a coordinate."""
    if public[0] == "ec":
        return number.to_bytes(CURVES[len(public[1])][1], "big")
    bits = int.from_bytes(public[1], "big").bit_length()
    return (1 << (bits - 1)) | number


def public_info(public, number):
    """The SubjectPublicKeyInfo of a stand-in key."""
    if public[0] == "ec":
        part = stand_in_number(public, number)
        curve = bytes.fromhex(CURVES[len(public[1])][0])
        return tlv(0x30, tlv(0x30, EC + curve) + tlv(3, b"\0\4" + part + part))
    key = tlv(0x30, integer(stand_in_number(public, number)) + integer(65537))
    return tlv(0x30, tlv(0x30, RSA) + tlv(3, b"\0" + key))


def key_file(public, number):
    """The private key file of a stand-in key, in PKCS1 form."""
    if public[0] == "ec":
        part = stand_in_number(public, number)
        curve = bytes.fromhex(CURVES[len(public[1])][0])
        return tlv(0x30, integer(1) + tlv(4, part) + tlv(0xA0, curve) + tlv(0xA1, tlv(3, b"\0\4" + part + part)))
    return tlv(0x30, integer(0) + integer(stand_in_number(public, number)) + integer(65537) + integer(1) * 6)


def with_public(octets, info, place_of):
    """A certificate or a request with another SubjectPublicKeyInfo."""
    parts = pieces(der_value(octets, 0)[1])
    body = pieces(der_value(parts[0], 0)[1])
    body[place_of(body)] = info
    return tlv(0x30, tlv(0x30, b"".join(body)) + b"".join(parts[1:]))


ALTERNATIVE_NAMES = bytes.fromhex("0603551d11")
EXTENSION_REQUEST = bytes.fromhex("06092a864886f70d01090e")


def request_like(octets):
    """A signing request for the key, the subject and the names of a certificate; its signature is none."""
    parts = pieces(der_value(octets, 0)[1])
    body = pieces(der_value(parts[0], 0)[1])
    subject, info = body[5:7] if body[0][0] == 0xA0 else body[4:6]
    attributes = b""
    if body[-1][0] == 0xA3:
        extensions = pieces(der_value(der_value(body[-1], 0)[1], 0)[1])
        names = [it for it in extensions if der_value(it, 0)[1].startswith(ALTERNATIVE_NAMES)]
        attributes = tlv(0x30, EXTENSION_REQUEST + tlv(0x31, tlv(0x30, b"".join(names)))) if names else b""
    asked = tlv(0x30, integer(0) + subject + info + tlv(0xA0, attributes))
    return tlv(0x30, asked + parts[1] + parts[2])


class Keys:
    """Which stand-in takes the place of which key."""

    def __init__(self, keeps):
        self.keeps, self.numbers = keeps, {}

    def number(self, public):
        return self.numbers.setdefault(public, 1001 + len(self.numbers))

    def is_known_kind(self, public):
        return public is not None and (public[0] == "rsa" or len(public[1]) in CURVES and public[1][:1] == b"\4")

    def key(self, octets):
        """The key file to store; None where it has no reading, and must not be shown."""
        if self.keeps:
            return octets
        public = public_of(key_public, octets)
        return key_file(public, self.number(public)) if self.is_known_kind(public) else None

    def certificate(self, octets):
        return self.replaced(octets, certificate_public, lambda body: 6 if body[0][0] == 0xA0 else 5)

    def request(self, octets):
        return self.replaced(octets, request_public, lambda body: 2)

    def replaced(self, octets, read, place_of):
        public = public_of(read, octets)
        if self.keeps or not self.is_known_kind(public):
            return octets
        return with_public(octets, public_info(public, self.number(public)), place_of)


def der_of(text, label):
    """The DER in base64 data that holds PEM or DER; None where it has neither."""
    try:
        octets = base64.b64decode("".join(text.split()), validate=True)
    except (binascii.Error, ValueError):
        return None
    if b"-----BEGIN" not in octets:
        return octets
    found = re.search(rb"-----BEGIN [A-Z0-9 ]*" + label + rb"-----([A-Za-z0-9+/=\s]*)-----END", octets)
    try:
        return base64.b64decode(b"".join(found[1].split()), validate=True) if found else None
    except (binascii.Error, ValueError):
        return None


def text_of(octets):
    return base64.b64encode(octets).decode()


# ---- what admission would refuse


def duration_of(text):
    """The seconds of a duration such as 2160h0m0s."""
    found = re.fullmatch(r"(?:(\d+)h)?(?:(\d+)m)?(?:(\d+)s)?", text)
    return sum(int(part or 0) * unit for part, unit in zip(found.groups(), (3600, 60, 1))) if found else 0


def refusing_rule(name, spec):
    """The least rule of admission that a Certificate breaks by itself; None where it breaks none."""
    lists = [spec.get(it, []) for it in ("dnsNames", "ipAddresses", "uris", "emailAddresses")]
    common, key = spec.get("commonName", ""), spec.get("privateKey", {})
    duration = duration_of(spec.get("duration", "2160h"))
    before = duration_of(spec["renewBefore"]) if "renewBefore" in spec else None
    percent = spec.get("renewBeforePercentage")
    is_rsa = key.get("algorithm", "RSA") == "RSA"
    sizes = (2048, 3072, 4096, 8192) if is_rsa else (256, 384, 521)
    usages = spec.get("usages", [])
    rules = {
        1: not common and not any(lists),
        2: len(common.encode()) > 64,
        3: not 3600 <= duration <= 3153600000,
        4: before is not None and before < 300,
        5: before is not None and before >= duration,
        6: key.get("size", sizes[0]) not in sizes,
        12: spec.get("revisionHistoryLimit") == 0,
        13: len(name) > 240
        or any(len(it) > 100 for it in lists)
        or len(common.encode()) + sum(len(it) for part in lists for it in part) > 16384
        or len(usages) > 40
        or any(not 1 <= len(it.encode()) <= 64 for it in usages),
        15: before is not None and percent is not None,
        16: percent is not None and (not 1 <= percent <= 99 or duration * percent < 30000),
    }
    return next((rule for rule, is_broken in rules.items() if is_broken), None)


# ---- objects


class Cluster:
    """What of a cluster comes into a scenario, and notes on what does not."""

    def __init__(self, items, keys, before_118):
        self.items, self.keys, self.before_118 = items, keys, before_118
        self.schema, self.notes, self.script = Schema.load(), [], []
        self.certificates = []

    def note(self, thing, text):
        self.notes.append(f"{thing['kind']} {name_of(thing)}: {text}")

    def of_kind(self, kind):
        return [it for it in self.items if it["kind"] == kind]

    def build(self):
        taken = {}
        for thing in self.of_kind("Certificate"):
            applied = self.certificate(thing)
            if applied and self.is_admitted(thing, applied, taken):
                self.certificates.append((thing, applied))
                self.script.append({"do": "apply", "object": applied})
        for thing, applied in self.certificates:
            self.secret(thing, applied)
        for place, (thing, applied) in enumerate(self.certificates):
            self.request(thing, applied, place)
        self.script += [{"do": "start", "role": role, "behind": 0} for role in ROLES]
        return self.script

    def fits(self, thing, applied):
        """Whether the model reads the object; what does not fit is named."""
        faults = self.schema.faults({"script": [{"do": "apply", "object": applied}]})
        for fault in faults[:3]:
            self.note(thing, f"left out: {fault.place.removeprefix('script.0.object.')}: wanted {fault.wanted or fault.what}")
        return not faults

    def certificate(self, thing):
        """A Certificate as the model reads it; None where it is left out."""
        algorithm = (thing["spec"].get("privateKey") or {}).get("algorithm")
        if algorithm not in (None, "RSA", "ECDSA"):
            self.note(thing, f"left out: its key is {algorithm}")
            return None
        known = self.schema.root["$defs"]["certificateSpec"]["properties"]
        spec = self.only(thing, thing["spec"], known, "spec")
        if isinstance(spec.get("privateKey"), dict):
            spec["privateKey"] = self.only(thing, spec["privateKey"], known["privateKey"]["properties"], "spec.privateKey")
        spec["issuerRef"] = {name: text for name, text in spec.get("issuerRef", {}).items() if name in ("name", "kind", "group")} if isinstance(spec.get("issuerRef"), dict) else {}
        self.set_defaults(spec)
        applied = {"apiVersion": "cert-manager.io/v1", "kind": "Certificate", "metadata": metadata_of(thing), "spec": spec}
        if not self.fits(thing, applied):
            return None
        self.note_status(thing)
        return applied

    def set_defaults(self, spec):
        """Writes down what the cluster's version takes for granted, where that differs from the model."""
        if self.before_118:
            spec["privateKey"] = {"rotationPolicy": "Never", **(spec.get("privateKey") or {})}
        else:
            spec.setdefault("revisionHistoryLimit", 1)

    def only(self, thing, value, known, path):
        """The members that the model has; the others are named."""
        lost = sorted(name for name in value if name not in known)
        if lost:
            self.note(thing, f"without {', '.join(f'{path}.{name}' for name in lost)}")
        return {name: inner for name, inner in value.items() if name in known and inner is not None}

    def note_status(self, thing):
        status = thing.get("status") or {}
        if status.get("lastFailureTime"):
            self.note(thing, f"without its back-off: it failed {status.get('failedIssuanceAttempts', 1)} times, last at {status['lastFailureTime']}")
        if condition(thing, "Issuing").get("status") == "True":
            self.note(thing, "without the issuance that is in progress")

    def is_admitted(self, thing, applied, taken):
        """Whether the store accepts it: uids hang on the order of what is accepted."""
        spec, meta = applied["spec"], applied["metadata"]
        rule = refusing_rule(meta["name"], spec)
        other = taken.setdefault((meta["namespace"], spec["secretName"]), name_of(thing)) if rule is None else None
        rule = 7 if rule is None and other != name_of(thing) else rule
        if rule:
            self.note(thing, f"left out: admission refuses it by rule {rule}: {rule_text(rule)}{f' ({other})' if rule == 7 else ''}")
        return rule is None

    def secret(self, certificate, applied):
        """Applies the Secret that a Certificate names."""
        wanted = key_of_target(applied)
        for thing in self.of_kind("Secret"):
            if (namespace_of(thing), thing["metadata"]["name"]) == wanted:
                data = self.data(thing)
                kind = thing.get("type", "Opaque")
                if kind == "kubernetes.io/tls":
                    data = {"tls.crt": "", "tls.key": "", **data}
                result = {"apiVersion": "v1", "kind": "Secret", "metadata": metadata_of(thing), "type": kind, "data": data}
                if self.fits(thing, result):
                    self.script.append({"do": "apply", "object": result})
                return
        self.note(certificate, f"its Secret {wanted[1]} does not exist: it will be issued")

    def data(self, thing):
        """The data of a Secret, as DER, with stand-ins for keys."""
        found = {}
        for name, text in (thing.get("data") or {}).items():
            if name not in SECRET_DATA or not isinstance(text, str):
                self.note(thing, f"without data.{name}")
                continue
            octets = der_of(text, b"PRIVATE KEY" if name == "tls.key" else b"CERTIFICATE")
            kept = octets if not octets else self.keys.key(octets) if name == "tls.key" else self.keys.certificate(octets)
            if kept is None:
                self.note(thing, f"data.{name} is of no kind that the model reads, and counts as unreadable")
            found[name] = text_of(kept if kept is not None else b"unreadable")
        return found

    def request(self, certificate, applied, place):
        """Applies the current request of a Certificate, approved and answered."""
        name, namespace = applied["metadata"]["name"], applied["metadata"]["namespace"]
        revision = str(certificate["status"].get("revision", 0))
        fitting = [it for it in self.of_kind("CertificateRequest") if namespace_of(it) == namespace and annotation(it, CERTIFICATE_NAME) == name and annotation(it, REVISION) == revision]
        if len(fitting) > 1:
            self.note(certificate, f"it has {len(fitting)} requests of its revision {revision}, and one is wanted: it will be issued anew")
        elif fitting:
            self.stored_request(fitting[0], applied, place)
        else:
            self.made_request(certificate, applied, place)

    def stored_request(self, thing, applied, place):
        der = der_of(str(thing["spec"].get("request")), b"CERTIFICATE REQUEST")
        signed = der_of(str(thing["status"].get("certificate")), b"CERTIFICATE")
        if not der or not signed:
            self.note(thing, "left out: it has no request or no certificate that the model reads")
            return
        spec = dict(thing["spec"])
        ref = spec.get("issuerRef")
        spec["issuerRef"] = {it: text for it, text in ref.items() if it in ("name", "kind", "group")} if isinstance(ref, dict) else {}
        self.apply_request(thing, applied, place, spec, self.keys.request(der), signed)

    def made_request(self, certificate, applied, place):
        """Without a request cert-manager compares the spec with the certificate itself, so one is made of that."""
        stored = next((it["object"] for it in self.script if it["do"] == "apply" and it["object"]["kind"] == "Secret" and key_of_target(applied) == (namespace_of(it["object"]), it["object"]["metadata"]["name"])), None)
        signed = base64.b64decode(stored["data"].get("tls.crt", "")) if stored else b""
        try:
            der = request_like(signed)
        except (IndexError, KeyError, ValueError):
            if stored:
                self.note(certificate, "it has no request, and its certificate has no reading: it will be issued anew")
            return
        self.note(certificate, "it has no request of its revision: one is made of its certificate, with which cert-manager compares then")
        name = f"{applied['metadata']['name'][:50]}-of-certificate"
        thing = {"kind": "CertificateRequest", "metadata": {"name": name, "namespace": applied["metadata"]["namespace"], "annotations": {CERTIFICATE_NAME: applied["metadata"]["name"]}}}
        self.apply_request(thing, applied, place, applied["spec"], der, signed)

    def apply_request(self, thing, applied, place, spec, der, signed):
        """The steps that put a request into the store, approve it, and give it its certificate."""
        known = self.schema.root["$defs"]["requestSpec"]["properties"]
        meta = metadata_of(thing)
        # A Certificate begins with no revision, so the request in use states revision 0.
        meta["annotations"][REVISION] = "0"
        name = f"{applied['metadata']['namespace']}/{applied['metadata']['name']}"
        meta["ownerReferences"] = [{"kind": "Certificate", "name": applied["metadata"]["name"], "uid": f"uid-{place + 1}", "controller": True}]
        kept = {it: value for it, value in spec.items() if it in known and value is not None}
        result = {"apiVersion": "cert-manager.io/v1", "kind": "CertificateRequest", "metadata": meta, "spec": {**kept, "request": text_of(der)}}
        row = {"reply": "raw", "der": text_of(self.keys.certificate(signed))}
        if self.fits(thing, result):
            self.script += [
                {"do": "apply", "object": result},
                {"do": "approve", "certificate": name, "revision": 0},
                {"do": "answer", "certificate": name, "revision": 0, "row": row},
            ]


def namespace_of(thing):
    return thing["metadata"].get("namespace", "default")


def key_of_target(applied):
    return applied["metadata"]["namespace"], applied["spec"]["secretName"]


def name_of(thing):
    return f"{thing['metadata'].get('namespace', 'default')}/{thing['metadata']['name']}"


def metadata_of(thing):
    """Name and namespace, with the labels and annotations that cert-manager looks at."""
    meta = {"name": thing["metadata"]["name"], "namespace": thing["metadata"].get("namespace", "default"), "annotations": {}}
    for part in ("annotations", "labels"):
        kept = {name: text for name, text in (thing["metadata"].get(part) or {}).items() if name.startswith(PREFIX) and isinstance(text, str)}
        if kept or part == "annotations":
            meta[part] = kept
    return meta


def items_of(value):
    """The objects of a list of kubectl."""
    if not isinstance(value, dict) or not isinstance(value.get("items"), list):
        raise BadInput("this is no list of kubectl: kubectl get certificates,secrets,certificaterequests -A -o json")
    items = []
    for place, it in enumerate(value["items"]):
        if not isinstance(it, dict) or not isinstance(it.get("metadata"), dict) or not isinstance(it["metadata"].get("name"), str):
            raise BadInput(f"items.{place} is no object with metadata and a name")
        if it.get("kind") in ("Certificate", "CertificateRequest", "Secret"):
            if it["kind"] != "Secret" and not isinstance(it.get("spec"), dict):
                raise BadInput(f"items.{place} has no spec")
            items.append(cleaned(it))
    return items


def cleaned(thing):
    """The object with parts of another form taken for absent."""
    meta = thing["metadata"]
    for part in ("annotations", "labels"):
        if not isinstance(meta.get(part), dict):
            meta[part] = {}
    if not isinstance(meta.get("namespace", "default"), str):
        meta.pop("namespace")
    status = thing.get("status")
    thing["status"] = status if isinstance(status, dict) else {}
    conditions = thing["status"].get("conditions")
    thing["status"]["conditions"] = [it for it in conditions if isinstance(it, dict) and isinstance(it.get("type"), str)] if isinstance(conditions, list) else []
    if thing["kind"] == "Secret" and not isinstance(thing.get("data"), dict):
        thing["data"] = {}
    if not isinstance(thing.get("type", ""), str):
        thing.pop("type")
    return thing


def is_before_118(version):
    found = re.fullmatch(r"v?1\.(\d+)(\.\d+)?", version)
    if not found:
        raise BadInput("--cert-manager takes a version as 1.17", 2)
    return int(found[1]) < 18


def main():
    parser = cli.Parser(__doc__)
    parser.add_argument("list", nargs="?", help="the list (default standard input)")
    parser.add_argument("--now", metavar="MOMENT", help="the moment of the beginning, as 2030-01-01T00:00:00Z (default now)")
    parser.add_argument("--keep-keys", action="store_true", help="keep the real private keys")
    parser.add_argument("--cert-manager", default="1.18", metavar="VERSION", help="the cluster's version, whose defaults are written down: before 1.18 rotationPolicy Never, from 1.18 on revisionHistoryLimit 1 (default 1.18)")
    given = parser.parse_args()
    now = given.now or datetime.datetime.now(datetime.timezone.utc).strftime("%Y-%m-%dT%H:%M:%SZ")
    if not is_moment(now):
        raise BadInput("--now takes a moment as 2030-01-01T00:00:00Z", 2)
    before_118 = is_before_118(given.cert_manager)
    cluster = Cluster(items_of(cli.read_json(given.list, "the list")), Keys(given.keep_keys), before_118)
    script = cluster.build()
    print(cli.scenario_text({"now": now, "roles": [], "events": 250000, "script": script}), end="")
    for text in cluster.notes:
        print(f"cluster: {cli.one_line(text)}", file=sys.stderr)
    return 0


if __name__ == "__main__":
    cli.run_tool(main)
