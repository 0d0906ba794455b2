#!/usr/bin/env python3
"""Makes a scenario whose names collide in maps whose hasher has the fixed seed, to measure what a run makes of them.

usage: tools/colliding_names.py COUNT [--ordinary] [--roles trigger|none|all] [--counts] > SCENARIO

The scenario applies COUNT Certificates, 1 to 9,999. With all roles it ends within its events up to 1,600 of them. The keys of all
Certificates have one hash, and the keys of all Secrets that they name have one. `--ordinary` makes the same scenario with names of the
same length, with as many first letters in common, whose hashes differ. What the two cost is to be compared:

    for names in "" --ordinary; do
        tools/colliding_names.py 5000 $names > scenario.json
        valgrind --tool=callgrind --callgrind-out-file=/dev/null cmrun run --summary --workers 0 < scenario.json
    done

The default hasher begins with a fixed state, and takes a name sixteen bytes at a time: the first eight xor the state, times the last
eight xor a constant. Where the first eight are the state itself, the product is zero, whatever the last eight are. So a name here is
sixteen bytes after which the state spells letters and digits, then that state, then eight digits at will. The hashes agree in all of
their bits: in those that choose the place in a table of any size, and in those that are compared there in front of the keys.

The names of requests and of the Secrets of private keys are generated, and their keys do not collide. With `--counts` names collide
where questions are counted, under a namespace and a name without a kind, and no longer as the keys of Certificates.

The maps of `cmrun` have a seed of their own for each run, so both scenarios cost it the same; with the fixed seed 5,000 names that
collide took it 103 times as long.
"""
import itertools

import cli

# The constants of the default hasher, core/src/hash/fold.rt in the toolchain.
SEED = 0x243F6A8885A308D3
MULTIPLIER = 0x9E3779B97F4A7C15
WORD_MASK = (1 << 64) - 1
# The ranks of kinds, as crates/cmc_meta/src/key.rt has them.
CERTIFICATE, SECRET = 0, 2

NAMESPACE = b"load"
# Begin colliding names. With these few sixteen bytes have to be tried.
CERTIFICATE_HEAD, SECRET_HEAD, COUNT_HEAD = b"certifd5", b"secretja", b"countxie"
ORDINARY_STEM = b"ordinary" * 3
LENGTH = 32
LETTERS = b"abcdefghijklmnopqrstuvwxyz0123456789"
# Marks the bits that no letter or digit has.
HIGH_BITS = 0x8080808080808080
ROLES = {"trigger": ["trigger"], "none": [], "all": None}
MOST = 9999


# ---- the hash


def folded(product):
    """Joins the halves of a product of two words by xor."""
    return (product ^ product >> 64) & WORD_MASK


def word(data, at, size=8):
    """Reads a number, its lowest byte first."""
    return int.from_bytes(data[at : at + size], "little")


def short_word(data):
    """Reads up to eight bytes as one number."""
    size = len(data)
    if size >= 4:
        return word(data, 0, 4) | word(data, size - 4, 4) << 32
    return data[0] | data[size // 2] << 8 | data[-1] << 16 if data else 0


def after_bytes(state, data):
    """Gives the hasher's state after a write of these bytes."""
    size = len(data)
    if size <= 8:
        return folded((state ^ short_word(data)) * (MULTIPLIER ^ 2 * size))
    state = (state + size) & WORD_MASK
    # The last sixteen bytes are always taken, and may be in part those before them.
    for at in (*range(0, size - 16, 16), size - 16):
        state = folded((word(data, max(at, 0)) ^ state) * (word(data, at + 8) ^ MULTIPLIER))
    return state


def after_name(state, name):
    """Gives the hasher's state after a name: one of at most eight bytes is written as a number, its first byte highest."""
    if len(name) <= 8:
        return after_bytes(state, name.ljust(8, b"\0")[::-1])
    return after_bytes(after_bytes(state, name), b"\xff")


def before_name(kind=None):
    """Gives the hasher's state where the name comes in a key of this kind or, without a kind, where questions are counted."""
    return after_name(SEED if kind is None else after_bytes(SEED, bytes([kind])), NAMESPACE)


def table_hash(state, name):
    """Gives the 32 bits that a table sees: the lowest choose the place, and the highest eight are compared there."""
    whole = after_name(state, name)
    return (whole ^ whole >> 32) & 0xFFFFFFFF


# ---- the names


def colliding_stem(state, head):
    """Looks for the first 24 bytes of names that all have one hash: the head, eight bytes at will, and the state after these."""
    left = word(head, 0) ^ (state + LENGTH) & WORD_MASK
    ends = [word(bytes(it), 0) << 40 for it in itertools.product(LETTERS, repeat=3)]
    for start in itertools.product(LETTERS, repeat=5):
        right = word(bytes(start), 0) ^ MULTIPLIER
        for end in ends:
            product = left * (right ^ end)
            # Most states are refused by this one test.
            if not (product ^ product >> 64) & HIGH_BITS:
                pinned = folded(product).to_bytes(8, "little")
                if all(it in LETTERS for it in pinned):
                    return head + (right ^ end ^ MULTIPLIER).to_bytes(8, "little") + pinned
    raise AssertionError(f"no state after {head} spells letters and digits")


def stems(is_ordinary, in_counts):
    """Gives the first 24 bytes of the names of Certificates, and those of the names of Secrets."""
    if is_ordinary:
        return ORDINARY_STEM, ORDINARY_STEM
    state, head = (before_name(), COUNT_HEAD) if in_counts else (before_name(CERTIFICATE), CERTIFICATE_HEAD)
    return colliding_stem(state, head), colliding_stem(before_name(SECRET), SECRET_HEAD)


# ---- the scenario


def certificate(name, secret, dns_name):
    spec = {
        "dnsNames": [dns_name],
        "issuerRef": {"name": "ca"},
        "privateKey": {"algorithm": "ECDSA"},
        "revisionHistoryLimit": 1,
        "secretName": secret,
    }
    metadata = {"name": name, "namespace": NAMESPACE.decode()}
    return {"apiVersion": "cert-manager.io/v1", "kind": "Certificate", "metadata": metadata, "spec": spec}


def scenario(count, roles, is_ordinary=False, in_counts=False):
    first, second = (it.decode() for it in stems(is_ordinary, in_counts))
    applied = [certificate(f"{first}{it:08d}", f"{second}{it:08d}", f"c{it:05d}.example") for it in range(count)]
    script = [*({"do": "apply", "object": it} for it in applied), {"do": "settle"}]
    running = {} if ROLES[roles] is None else {"roles": ROLES[roles]}
    return {"events": 250000, **running, "script": script}


def main():
    parser = cli.Parser(__doc__)
    parser.add_argument("count", type=int, metavar="COUNT")
    parser.add_argument("--ordinary", action="store_true", help="names whose hashes differ")
    parser.add_argument("--roles", choices=ROLES, default="trigger", help="the controllers that run (default trigger)")
    parser.add_argument("--counts", action="store_true", help="names that collide where questions are counted; needs all roles")
    given = parser.parse_args()
    if not 1 <= given.count <= MOST:
        raise cli.BadInput(f"COUNT is 1 to {MOST}", 2)
    if given.counts and given.roles != "all":
        raise cli.BadInput("--counts needs --roles all: the trigger asks no questions", 2)
    print(cli.scenario_text(scenario(given.count, given.roles, given.ordinary, given.counts)), end="")


if __name__ == "__main__":
    cli.run_tool(main)
