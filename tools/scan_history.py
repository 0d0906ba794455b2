#!/usr/bin/env python3
"""Reads the history that a run printed, and says what in it should never be.

usage: PROGRAM run < scenario.json | tools/scan_history.py

It shares no line with the program: objects, keys and certificates are read here once more. Of each accepted write of a
Secret by issuing it wants one public key in key and certificate, the key of the Secret that the Certificate's status names,
and the certificate of a request of the revision in progress that was approved by then and is denied nowhere, or the mark of
a stand-in certificate; of each question to an issuer, that its request was approved by then and is denied nowhere; of each
accepted status of a Certificate, that its revision stays or rises by one, and rises by issuing alone; of each pass of
issuing that ends, that it wrote, names one of its own refused entries, or did nothing at all. One line says what was looked
at, the lines before it what is wrong; the exit status is 1 where anything is.
"""
import base64
import json
import sys

REVISION = "cert-manager.io/certificate-revision"
STANDS_IN = "cert-manager.io/temporary-certificate"
EC_KEY = bytes.fromhex("06072a8648ce3d0201")


def value(octets, at):
    """The tag of the DER value that begins here, its contents, and where it ends."""
    size, body = octets[at + 1], at + 2
    if size > 127:
        body += size & 127
        size = int.from_bytes(octets[at + 2 : body], "big")
    return octets[at], octets[body : body + size], body + size


def values(octets):
    """The DER values that stand one behind the other."""
    at, found = 0, []
    while at < len(octets):
        tag, contents, at = value(octets, at)
        found.append((tag, contents))
    return found


def rsa(contents, first):
    """The modulus and the public exponent, from this value of a sequence on."""
    numbers = values(contents)
    return "rsa", numbers[first][1], numbers[first + 1][1]


def key_public(octets):
    """The public key of a key file."""
    contents = value(octets, 0)[1]
    parts = values(contents)
    if parts[0][1] == b"\x01":
        return "ec", value(dict(parts)[0xA1], 0)[1][1:]
    if parts[1][0] == 0x30:
        return key_public(parts[2][1])
    return rsa(contents, 1)


def certificate_public(octets):
    """The public key of a certificate."""
    body = values(values(value(octets, 0)[1])[0][1])
    place = 6 if body[0][0] == 0xA0 else 5
    algorithm, bits = values(body[place][1])
    if algorithm[1].startswith(EC_KEY):
        return "ec", bits[1][1:]
    return rsa(value(bits[1][1:], 0)[1], 0)


def is_true(thing, kind):
    conditions = thing.get("status", {}).get("conditions", [])
    return any(c["type"] == kind and c["status"] == "True" for c in conditions)


class Scan:
    """What stands after the lines that were read, and what was wrong in them."""

    def __init__(self, entries):
        self.entries = entries
        self.wrong = []
        self.stands = {}
        self.certificates = {}
        self.roles = {}
        self.calls = {}
        self.approved = set()
        self.secrets = self.raises = self.questions = 0
        self.denied = {key_of(e) for e in entries if is_write(e, "CertificateRequest") and is_true(e["object"], "Denied")}

    def fault(self, entry, why):
        self.wrong.append(f"entry {entry['n']}: {why}")

    def read(self):
        for entry in self.entries:
            if entry["is"] == "begin":
                self.roles[entry["pass"]] = entry
            if entry["is"] == "call":
                self.calls.setdefault(entry["who"], []).append(entry)
            if entry["is"] == "ask" and entry["order"]["is"] == "sign":
                self.question(entry)
            if entry["is"] == "call" and "ok" in entry["reply"]:
                self.write(entry)
            if entry["is"] == "end" and self.roles[entry["pass"]]["role"] == "issuing":
                self.end(entry)
        return self

    def question(self, entry):
        self.questions += 1
        key = "CertificateRequest/" + entry["order"]["request"]
        if key not in self.approved or key in self.denied:
            self.fault(entry, f"an issuer is asked about {key}")

    def write(self, entry):
        key = key_of(entry)
        if entry["call"] == "delete":
            self.stands.pop(key, None)
            return
        begin = self.roles.get(entry["who"])
        by_issuing = begin is not None and begin["role"] == "issuing"
        if by_issuing and key.startswith("Secret/"):
            self.secret(entry, "Certificate/" + begin["key"])
        if key.startswith("Certificate/"):
            self.revision(entry, key, by_issuing)
        if key.startswith("CertificateRequest/") and is_true(entry["object"], "Approved"):
            self.approved.add(key)
        before = self.stands.get(key, {})
        after = dict(entry["object"])
        if entry["call"] == "updateStatus":
            after = dict(before, status=after.get("status", {}))
        elif entry["call"] == "update" and "status" in before:
            after["status"] = before["status"]
        self.stands[key] = after

    def revision(self, entry, key, by_issuing):
        if entry["call"] == "create":
            self.certificates[key] = 0
        if entry["call"] != "updateStatus":
            return
        before = self.certificates[key]
        after = entry["object"].get("status", {}).get("revision", 0)
        if after == before:
            return
        if after != before + 1 or not by_issuing:
            self.fault(entry, f"the revision goes from {before} to {after}")
        self.raises += 1
        self.certificates[key] = after

    def secret(self, entry, certificate):
        self.secrets += 1
        data = {name: base64.b64decode(part) for name, part in entry["object"].get("data", {}).items()}
        if key_public(data["tls.key"]) != certificate_public(data["tls.crt"]):
            self.fault(entry, "the key and the certificate have two public keys")
        status = self.stands[certificate].get("status", {})
        named = f"Secret/{certificate.split('/')[1]}/{status.get('nextPrivateKeySecretName')}"
        if self.stands.get(named, {}).get("data", {}).get("tls.key") != entry["object"]["data"]["tls.key"]:
            self.fault(entry, "the key is not that of the issuance")
        if entry["object"]["metadata"].get("annotations", {}).get(STANDS_IN) == "true":
            return
        if not any(self.backs(key, thing, certificate, entry) for key, thing in self.stands.items()):
            self.fault(entry, "no approved request of the revision has the certificate")

    def backs(self, key, thing, certificate, entry):
        if not key.startswith("CertificateRequest/") or key not in self.approved or key in self.denied:
            return False
        revision = thing["metadata"].get("annotations", {}).get(REVISION)
        signed = thing.get("status", {}).get("certificate")
        return revision == str(self.certificates[certificate] + 1) and signed == entry["object"]["data"]["tls.crt"]

    def end(self, entry):
        own = self.calls.get(entry["pass"], [])
        if entry["cause"] == "wrote" and not any(e["reply"].keys() & {"ok", "unchanged"} for e in own):
            self.fault(entry, "it says that it wrote, and did not")
        if entry["cause"] == "nothing" and own:
            self.fault(entry, "it says that it did nothing, and called the store")
        if isinstance(entry["cause"], dict) and not any(e["n"] == entry["cause"]["entry"] for e in own):
            self.fault(entry, "it names an entry of another as its cause")


def is_write(entry, kind):
    return entry["is"] == "call" and "ok" in entry["reply"] and entry.get("object", {}).get("kind") == kind


def key_of(entry):
    """The key that the call is about, with the name that the store gave."""
    if entry["call"] == "generate":
        thing = entry["object"]
        return f"{thing['kind']}/{thing['metadata']['namespace']}/{entry['reply']['name']}"
    return entry["key"]


def scan(text):
    """The scan of a printed history: between the line of the scenario and that of the summary."""
    return Scan([json.loads(line) for line in text.splitlines()[1:-1]]).read()


def main():
    found = scan(sys.stdin.read())
    for wrong in found.wrong:
        print(wrong)
    print(f"{len(found.entries)} entries, {found.secrets} Secrets by issuing, {found.raises} raises, {found.questions} questions, {len(found.wrong)} wrong")
    return 1 if found.wrong else 0


if __name__ == "__main__":
    sys.exit(main())
