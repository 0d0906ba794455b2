#!/usr/bin/env python3
"""Tests of the tools: stored outputs, hostile input, the schema, the library, and the commands of the cookbook.

usage: tools/test_tools.py [PROGRAM] [--write]

PROGRAM is the built program; where it is not named, the proved one of crates/cmrun/out, else the one that tools/demo has built. What
needs it is skipped where there is none. tools/stored has histories and what tools print of them; --write writes those outputs anew,
to be read before they are kept. The last line is `N passed, M failed`, with `, K skipped` where something was skipped.
"""
import base64
import contextlib
import io
import json
import os
import random
import re
import shutil
import subprocess
import sys
import tempfile
from concurrent.futures import ThreadPoolExecutor

TOOLS = os.path.dirname(os.path.realpath(__file__))
TOP = os.path.dirname(TOOLS)
STORED = f"{TOOLS}/stored"
sys.path.insert(0, TOOLS)
sys.dont_write_bytecode = True
import cli  # noqa: E402
import colliding_names  # noqa: E402
import expect  # noqa: E402
import lanes  # noqa: E402
import library  # noqa: E402
import status  # noqa: E402
import timeline  # noqa: E402
import why  # noqa: E402
from cluster import Cluster, Keys, items_of  # noqa: E402
from history import History, admission_rules  # noqa: E402
from schema import Schema  # noqa: E402

HISTORY_TOOLS = ("timeline.py", "status.py", "lanes.py")
# The seconds of a processor that a tool may take on 250,000 lines.
LONGEST = 60


def ran(words, data=b"", cwd=TOP, seconds=600, tools=TOOLS):
    """Runs a tool, and gives its status, its output, and its lines on standard error."""
    environment = {**os.environ, "PYTHONDONTWRITEBYTECODE": "1"}
    it = subprocess.run([sys.executable, f"{tools}/{words[0]}", *words[1:]], input=data, capture_output=True, cwd=cwd, timeout=seconds, env=environment, check=False)
    return it.returncode, it.stdout.decode(), it.stderr.decode()


def stored(name):
    with open(f"{STORED}/{name}", "rb") as file:
        return file.read()


def certificate(name="web", **spec):
    whole = {"secretName": f"{name}-tls", "issuerRef": {"name": "ca"}, "dnsNames": ["example.com"], **spec}
    return {"apiVersion": "cert-manager.io/v1", "kind": "Certificate", "metadata": {"name": name}, "spec": whole}


def applied(*things, **members):
    return {**members, "script": [{"do": "apply", "object": it} for it in things]}


# ---- stored outputs

SHOP = "storefront/shop"
OUTPUTS = {
    "shop.timeline": ["timeline.py", "shop.history"],
    "shop.timeline-part": ["timeline.py", "shop.history", "--certificate", SHOP, "--from", "2030-03-02T00:00:00Z", "--to", "260"],
    "lagging.timeline": ["timeline.py", "lagging.history"],
    "shop.status": ["status.py", SHOP, "shop.history"],
    "shop.status-at": ["status.py", SHOP, "shop.history", "--at", "2030-03-02T00:00:00Z", "--events", "3"],
    "changed.status-at": ["status.py", "default/web", "changed.history", "--at", "152", "--events", "2"],
    "stopped.status": ["status.py", "stopped.history"],
    "cluster.scenario": ["cluster.py", "cluster.json", "--now", "2026-12-01T00:00:00Z"],
    "cluster.scenario-1.17": ["cluster.py", "cluster.json", "--now", "2026-12-01T00:00:00Z", "--cert-manager", "1.17", "--keep-keys"],
}
WITH_PROGRAM = {
    "cluster.forecast": ["forecast.py", "--days", "120", "--histogram", "cluster.scenario.out"],
    "cluster.forecast-down": ["forecast.py", "--days", "12", "--down", "internal", "+4", "2026-12-10T00:00:00Z", "cluster.scenario.out"],
    "shop.forecast-fails": ["forecast.py", "--days", "61", "--fails", "letsencrypt", "+59.9", "+60.2", "../../examples/shop.json"],
    "shop.forecast-denies": ["forecast.py", "--days", "61", "--denies", "letsencrypt", "+59", "+61", "../../examples/shop.json"],
    "typo.explore": ["explore.py", "--lags", "2", "--pairs", "20", "--seed", "7", "../../scenarios/issuer-name-typo.json"],
    "shop.expect": ["expect.py", "shop.expect.json"],
}


def outputs_of(words):
    """What a tool prints, and its lines on standard error with its status where there are any."""
    data = stored("shop.history") if words[0] == "expect.py" else b""
    code, out, err = ran(words, data, cwd=STORED)
    return {"out": out, **({"err": f"{err}status {code}\n"} if err or code else {})}


def check_stored(name, words, write):
    for end, text in outputs_of(words).items():
        if write:
            cli.write_text(f"{STORED}/{name}.{end}", text)
        assert stored(f"{name}.{end}").decode() == text, f"its output is not what {name}.{end} has"


# ---- the fold


def test_update_keeps_status():
    """After a user's update of a Certificate its conditions are stored still, though the line of the update shows none."""
    history = History.read(stored("changed.history"))
    for event in history.events():
        if event.who == "user" and event.entry["call"] == "update":
            assert "status" not in event.entry["object"]
            conditions = {it["type"] for it in event.state.certificate("default/web").value["status"]["conditions"]}
            assert conditions == {"Issuing", "Ready"}
            return
    raise AssertionError("the history has no update")


def test_versions_and_uids():
    """An object's uid is the version of its create, and its version that of its last write."""
    state = History.read(stored("shop.history")).end()
    shop, secret = state.certificate(SHOP), state.objects["Secret/storefront/shop-tls"]
    assert (shop.uid, shop.version, secret.uid, secret.version, state.version) == (1, 33, 8, 29, 33)


def test_rules_are_the_models():
    """docs/HISTORY.md has the numbers of the rules that the definition of admission has."""
    with open(f"{TOP}/crates/cmc_model/specs/Admission.antt", encoding="utf-8") as file:
        numbers = {int(it) for it in re.findall(r"\((\d+), (?:has|is|are|keeps|changes|loses|taken)", file.read())}
    assert set(admission_rules()) == numbers == set(range(1, 17)), f"{sorted(numbers)}"


def anchors_of(path):
    """The names under which the headings of a page can be linked."""
    with open(path, encoding="utf-8") as file:
        heads = re.findall(r"^#+ +(.*)$", file.read(), re.M)
    return {re.sub(r"[^\w -]", "", it.lower()).strip().replace(" ", "-") for it in heads}


def test_links():
    """Each link of a page leads to a file of the repository, and to a heading of it where it names one."""
    pages = [f"{TOP}/README.md", *(f"{TOP}/{folder}/{name}" for folder in ("docs", "scenarios") for name in os.listdir(f"{TOP}/{folder}") if name.endswith(".md"))]
    for page in pages:
        with open(page, encoding="utf-8") as file:
            for target, anchor in re.findall(r"\]\(([^)#\s]*)(?:#([^)]*))?\)", file.read()):
                path = os.path.join(os.path.dirname(page), target) if target else page
                assert "://" in target or os.path.exists(path), f"{os.path.relpath(page, TOP)}: {target}"
                assert not anchor or "://" in target or anchor in anchors_of(path), f"{os.path.relpath(page, TOP)}: {target}#{anchor}"


def test_changing_paths():
    """Each path that these pages name is there, at the top or in crates/, but for those of a controller that is new."""
    for page, fewest in (("CHANGING", 50), ("PROOFS", 30), ("ARCHITECTURE", 20), ("THEOREMS", 15)):
        with open(f"{TOP}/docs/{page}.md", encoding="utf-8") as file:
            paths = [it for it in re.findall(r"`([^`\s]+/[^`\s]+)`", file.read()) if "NAME" not in it and not it.startswith("src/")]
        gone = [it for it in paths if not any(os.path.exists(f"{TOP}/{folder}{it}{end}") for folder in ("", "crates/") for end in ("", ".antt"))]
        assert len(paths) > fewest and not gone, f"{page}: {gone}"


def test_expect_members():
    """Each member that an expectation may have is told of a Certificate or of all."""
    facts = expect.Facts(History.read(stored("shop.history")))
    assert set(expect.of_certificate(facts, SHOP)) == {*expect.ONE, *expect.SO_FAR}
    assert set(expect.of_all(facts)) == set(expect.ALL)


# ---- hostile input


def broken_histories():
    """Inputs that are no history, with a word that the refusal has."""
    good = stored("shop.history")
    lines = good.splitlines(keepends=True)
    swapped = [*lines[:5], lines[6], lines[5], *lines[7:]]
    yield "empty", b"", "empty"
    yield "broken JSON", b'{"scenario":{}\n', "line 1 is not JSON"
    yield "cut in a line", good[: len(good) // 2], "not JSON"
    yield "cut after a line", b"".join(lines[:200]), "cut after line 200"
    yield "not UTF-8", b"\xff\xfe\x00", "UTF-8"
    yield "a summary alone", lines[-1], "summary"
    yield "a scenario", b'{"script":[]}', "line 1"
    yield "a list", b"[1,2]\n", "line 1"
    yield "lines in another order", b"".join(swapped), "`n`"
    yield "a deep value", b"[" * 200000 + b"\n", ""
    yield "a write of what is not stored", good.replace(b'"call":"create"', b'"call":"update"', 1), "does not exist"
    yield "base64 that is none", good.replace(b'"tls.key":"', b'"tls.key":"?', 1), "`object`"
    yield "another first moment", good.replace(b'{"scenario":{', b'{"scenario":{"now":5,', 1), "line 1"


def is_one_line(err):
    return err.count("\n") == 1 and "Traceback" not in err


def test_broken_histories():
    """Each history that no run prints is refused in a line that says where."""
    for name, data, word in broken_histories():
        try:
            History.read(data).end()
        except cli.BadInput as bad:
            assert word in str(bad), f"{name}: {bad}"
        except RecursionError:
            assert name == "a deep value"
        else:
            raise AssertionError(f"{name} is taken")


def test_history_tools_refuse():
    """Each tool that reads a history ends on hostile input with one line and the status 1."""
    broken = {name: data for name, data, _ in broken_histories()}
    for tool in (*HISTORY_TOOLS, "expect.py"):
        for name in ("empty", "cut in a line", "cut after a line", "a deep value", "a write of what is not stored"):
            code, out, err = ran([tool, *([f"{STORED}/shop.expect.json"] if tool == "expect.py" else [])], broken[name])
            assert code == 1 and is_one_line(err) and not out, f"{tool} on {name}: status {code}, {err[-200:]!r}"


def test_words_are_refused():
    """Words that a tool does not know end with one line and the status 2."""
    cases = [
        ["timeline.py", "--no-such"],
        ["timeline.py", "--certificate", "web"],
        ["timeline.py", "--from", "yesterday"],
        ["status.py", "a/b", "c", "d"],
        ["status.py", "--at", "2030-13-01T00:00:00Z"],
        ["lanes.py", "a", "b"],
        ["expect.py"],
        ["cluster.py", "--now", "today"],
        ["cluster.py", "--cert-manager", "2"],
        ["colliding_names.py"],
        ["colliding_names.py", "0"],
        ["colliding_names.py", "5", "--counts"],
        ["forecast.py", "x"],
        ["forecast.py", "x", "--days", "0"],
        ["explore.py", "x", "--lags", "0"],
        ["library.py", "--program", "/nonexistent"],
        ["why.py", "--program", "/nonexistent", "x"],
        ["demo", "--no-such"],
        ["names", "x"],
        ["names", "--at-most", "1"],
        ["do"],
        ["do", "above"],
        ["do", "above", "no_such"],
        ["do", "check", "no_such"],
        ["do", "rows", "--program", "/nonexistent", "true"],
    ]
    for words in cases:
        code, out, err = ran(words)
        assert code == 2 and is_one_line(err) and not out, f"{words}: status {code}, {err!r}"


def test_missing_files():
    for words in (["timeline.py", "/nonexistent"], ["status.py", "/nonexistent"], ["schema.py", "/nonexistent"], ["cluster.py", "/nonexistent"], ["timeline.py", TOP]):
        code, _, err = ran(words)
        assert code == 1 and is_one_line(err), f"{words}: status {code}, {err!r}"


def test_mutated_histories():
    """No change of a history leads to another error than one that is told in a line."""
    lines = stored("changed.history").decode().splitlines()
    drawn = random.Random(5)
    others = [None, 5, -1, "", "x", [], {}, True, "2030-01-01T00:00:00Z", "AAAA", {"ok": 3}, {"invalid": "x"}]
    for _ in range(400):
        changed = list(lines)
        place = drawn.randrange(len(lines))
        value = json.loads(changed[place])
        mutate(value, drawn, others)
        changed[place] = json.dumps(value)
        use_history("\n".join(changed).encode())


def mutate(value, drawn, others):
    """Changes one member somewhere in a value."""
    while True:
        members = list(value) if isinstance(value, dict) else list(range(len(value)))
        if not members:
            return
        name = drawn.choice(members)
        inner = value[name]
        if not isinstance(inner, (dict, list)) or not inner or drawn.random() < 0.3:
            if drawn.random() < 0.2:
                del value[name]
            else:
                value[name] = drawn.choice(others)
            return
        value = inner


def use_history(data):
    with contextlib.suppress(cli.BadInput):
        history = History.read(data)
        list(timeline.lines(history, "default/web"))
        state, events = status.state_and_events(history, "default/web")
        list(status.overview(state))
        if state.certificate("default/web"):
            list(status.describe(state, "default/web", events, 20))
        lanes.page_of(history, "x")
        expect.of_all(expect.Facts(history))


def test_mutated_lists():
    """No change of a list of kubectl leads to another error than one that is told in a line."""
    whole = json.loads(stored("cluster.json"))
    drawn = random.Random(6)
    others = [None, 5, "", "x", [], {}, True, "AAAA", ["a"], {"a": "b"}]
    for _ in range(150):
        value = json.loads(json.dumps(whole))
        mutate(drawn.choice(value["items"]), drawn, others)
        with contextlib.suppress(cli.BadInput):
            Cluster(items_of(value), Keys(False), False).build()


def test_lists_are_refused():
    for data in (b"", b"{", b"[]", b'{"items":5}', b'{"items":[5]}', b'{"items":[{"kind":"Certificate","metadata":{"name":"a"}}]}', stored("shop.history")):
        code, out, err = ran(["cluster.py"], data)
        assert code == 1 and is_one_line(err) and not out, f"{data[:40]}: status {code}, {err!r}"


def test_no_key_leaves_the_cluster():
    """No octets of a private key are in the scenario, and all pairs fit as they did."""
    text = stored("cluster.scenario.out").decode()
    whole = json.loads(stored("cluster.json"))
    for thing in whole["items"]:
        data = thing.get("data") or {}
        if "tls.key" in data:
            pem = base64.b64decode(data["tls.key"]).decode()
            der = base64.b64decode("".join(pem.split("-----")[2].split()))
            for start in range(20, len(der) - 30, 10):
                for cut in range(3):
                    part = base64.b64encode(der[start + cut : start + cut + 21]).decode()[4:-4]
                    assert part not in text, f"a part of the key of {thing['metadata']['name']}"
    assert "password" not in text and "hunter2" not in text and base64.b64encode(b"hunter2").decode() not in text


def long_history(lines):
    """A history of so many lines, one in eight of them a write: users change 500 Certificates, and a controller is told and looks."""
    things = [certificate(f"c{place:03}") for place in range(500)]
    for it in things:
        it["metadata"]["namespace"] = "default"
    out, version = io.StringIO(), 0
    out.write('{"scenario":{}}\n')
    for number in range(1, lines - 1):
        turn, part = divmod(number - 1, 8)
        if part == 0:
            version += 1
            entry = written(things[turn % 500], version)
        elif part < 6:
            entry = {"is": "deliver", "kind": "Certificate", "role": "trigger", "to": version}
        else:
            looks = {"is": "begin", "at": {"Certificate": version, "CertificateRequest": 0, "Secret": 0}, "key": f"default/c{turn % 500:03}", "now": "2030-01-01T00:00:00Z", "role": "trigger"}
            entry = {**looks, "pass": turn + 1} if part == 6 else {"is": "end", "cause": "nothing", "pass": turn + 1}
        out.write(json.dumps({**entry, "n": number}) + "\n")
    out.write('{"summary":{"certificates":500,"ready":0,"secrets":0,"waiting":[]}}\n')
    return out.getvalue().encode()


def written(thing, version):
    """The call of a user that creates a Certificate, or changes it."""
    entry = {"is": "call", "who": "user", "key": f"Certificate/default/{thing['metadata']['name']}"}
    if version <= 500:
        return {**entry, "call": "create", "object": thing, "reply": {"ok": version, "name": thing["metadata"]["name"]}}
    thing["spec"]["dnsNames"] = [f"n{version}.example.com"]
    return {**entry, "call": "update", "object": thing, "version": version - 500, "reply": {"ok": version}}


def test_long_history():
    """A history of 250,000 lines is read within a minute of a processor."""
    with tempfile.TemporaryDirectory() as folder:
        path = f"{folder}/long.history"
        with open(path, "wb") as file:
            file.write(long_history(250000))
        for words in (["timeline.py", path], ["status.py", "default/c007", path], ["lanes.py", path]):
            code, size, took = measured(words, f"{folder}/output")
            assert code == 0 and size > 1000 and took < LONGEST, f"{words[0]}: status {code}, {took:.0f} seconds, {size} bytes"


def measured(words, path):
    """Runs a tool with its output in a file, and gives its status, the size of the output, and the seconds of a processor that it took."""
    with open(path, "wb") as file:
        child = subprocess.Popen([sys.executable, f"{TOOLS}/{words[0]}", *words[1:]], stdin=subprocess.DEVNULL, stdout=file, stderr=file)
        _, ended, used = os.wait4(child.pid, 0)
        child.returncode = os.waitstatus_to_exitcode(ended)
    return child.returncode, os.path.getsize(path), used.ru_utime + used.ru_stime


def test_page_is_escaped():
    """A name that is HTML stays data: no line of the page but its own has a tag."""
    history = History.read(stored("shop.history").replace(b'"letsencrypt"', b'"</script><script>alert(1)</script>"'))
    page = lanes.page_of(history, "</script><img src=x onerror=alert(1)>")
    with open(lanes.PAGE, encoding="utf-8") as file:
        assert re.findall(r"<\w+", page) == re.findall(r"<\w+", file.read())
    data = json.loads(re.search(r'id="data">(.*?)</script>', page, re.S)[1])
    assert data["title"] == "</script><img src=x onerror=alert(1)>" and len(data["lines"]) > 50
    shown = [it for it in data["lines"] if it.get("is") == "call"]
    assert [it["n"] for it in shown] == [it["n"] for it in history.entries if it["is"] == "call"]


def test_tools_write_nothing():
    """No tool leaves a file where it runs."""
    with tempfile.TemporaryDirectory() as folder:
        for name in HISTORY_TOOLS:
            ran([name], stored("shop.history"), cwd=folder)
        ran(["cluster.py"], stored("cluster.json"), cwd=folder)
        assert os.listdir(folder) == []


# ---- tools that read the code


@contextlib.contextmanager
def small_tree(files):
    """The tools of a repository that has these files alone."""
    with tempfile.TemporaryDirectory() as folder:
        for path, text in files.items():
            os.makedirs(os.path.dirname(f"{folder}/{path}"), exist_ok=True)
            cli.write_text(f"{folder}/{path}", text)
        os.makedirs(f"{folder}/tools")
        for name in ("calls", "cli.py", "dear", "do", "names"):
            shutil.copy(f"{TOOLS}/{name}", f"{folder}/tools/{name}")
        yield f"{folder}/tools"


WORDS = {
    "crates/low/specs/Keys.antt": """-- pub no_word : Type 0
pub use Rattle.low.specs.Names.{one}
abbrev pub two : Bool
two = true
unfoldable pub once : Bool
pub record Same : Type 0 where
  pub field : Bool
abbrev mutual
  pub within : Bool
  within = two
""",
    "crates/low/specs/Names.antt": "pub data Same : Type 0 where\npub record two (n : ℕ) : Type 0 where\n  pub field : Bool\n",
    "crates/low/specs/Lib.antt": "pub mod Keys\npub mod Names\n",
    "crates/high/specs/Lib.antt": "pub mod Keys\n",
    "crates/high/specs/Keys.antt": "abbrev pub within {ℓ} : Bool\nabbrev hidden : Bool\n",
    "crates/high/src/long.rt": "\n" * 601,
    "crates/high/src/short.rt": "\n" * 600,
    "crates/high/out/long.rt": "\n" * 601,
    "crates/all_tests/src/long.rt": "\n" * 601,
    "docs/STYLE.md": "| `two` | |\n<!-- one rule: begin -->\n| Words |\n|---|\n| `Same` `gone` | a rule of `within` |\n<!-- one rule: end -->\n",
}


def test_names():
    """Words that several modules define are listed, but for those of the table, and so are long files; more than so many are refused."""
    count = "2 words with several definitions, 1 files of more than 600 lines\n"
    lists = """two: low/specs/Keys, low/specs/Names
within: high/specs/Keys, low/specs/Keys
gone: in the table of docs/STYLE.md, and defined by no two modules
crates/high/src/long.rt: 601 lines
"""
    with small_tree(WORDS) as tools:
        assert ran(["names"], tools=tools) == (0, lists + count, "")
        assert ran(["names", "--at-most", "2", "1"], tools=tools) == (0, count, "")
        for words, files, word in (("1", "1", "2 words"), ("2", "0", "1 files")):
            code, out, err = ran(["names", "--at-most", words, files], tools=tools)
            assert code == 1 and out == lists + count and err.startswith("names: ") and word in err, f"{code} {out} {err}"
        assert ran(["do", "names"], tools=tools) == (0, lists + count, "")


def test_names_may_not_rise():
    """The gate refuses more double words and long files than the page on style says that there are."""
    with open(f"{TOP}/docs/STYLE.md", encoding="utf-8") as page, open(f"{TOP}/.ci/run", encoding="utf-8") as gate:
        said = re.findall(r"there are (\d+) such words and (\d+) such files", page.read())
        assert len(said) == 1 and said == re.findall(r"tools/names --at-most (\d+) (\d+)", gate.read()), said


def test_above():
    """What proves again is the crate and all above it, in their order, with what each takes."""
    files = {
        "crates.txt": "# NAME: DEP ..\ntop may_wait=1: mid other\nlow:\nmid: low std\nother:\ntests: low\n",
        "docs/costs.tsv": "crate\tC\tmeasured\tmeasured with tests\nlow\t20\t30\t\nmid\t50\t\t\ntop\t9\t8\t7\ntests\t14\t\t100\nall\t9\t\t\n",
    }
    with small_tree(files) as tools:
        lines = "    15  top\n    30  low\n    50  mid (estimated)\n   114  tests\n4 crates, 209 seconds of one processor\n"
        assert ran(["do", "above", "low"], tools=tools) == (0, lines, "")
        assert ran(["do", "above", "top"], tools=tools) == (0, "    15  top\n1 crates, 15 seconds of one processor\n", "")


def test_dear():
    """The functions of a check by what each took, the dearest first, from the lines that were kept of it."""
    log = "10.0 begins\n14.5 rt: says more\n15.0 checked low::a, 1 of 3\n17.5 checked low::b, 2 of 3\n22.0 checked low::List::c, 3 of 3\n23.0 logic=proved\n"
    with small_tree({"kept.log": log, "empty.log": "10.0 begins\n"}) as tools:
        top = os.path.dirname(tools)
        whole = "    5.0 before the second function\n    4.5 low::List::c\n    2.5 low::b\n   12.0 in all, 3 functions\n"
        assert ran(["dear", f"{top}/kept.log"], tools=tools) == (0, whole, "")
        assert ran(["dear", f"{top}/kept.log", "--most", "1"], tools=tools) == (0, whole.replace("    2.5 low::b\n", ""), "")
        assert ran(["dear", f"{top}/empty.log"], tools=tools)[0] == 1
        assert ran(["dear", "low"], tools=tools) == (2, "", "dear: there is neither a crate nor a file low\n")


# ---- the page of calls

SOURCES = {
    "crates.txt": "# NAME: DEP ..\nlow:\ncmc_der: low\nlow_tests: low\n",
    "crates/cmc_der/src/lib.rt": "//! What is inside.\npub use tags::read_tag;\n",
    "crates/cmc_der/src/tags.rt": "/// Reads a tag.\npub fn read_tag(octet: u8) -> Result<Tag, NotDer> {\n}\n",
    "crates/low/src/lib.rt": "//! What is low: a crate.\n#![tactic(auto)]\n\nmod list;\nmod maker;\n\npub use list::{List, law, longest, read};\npub use maker::Maker;\npub use cmc_der::Tag;\n",
    "crates/low/src/list.rt": """/// A list.
pub struct List {
    items: Vec<u64>,
}

impl Drop for List {
    fn drop(self) {}
}

impl List {
    /// No items.
    pub fn new(alloc: Global) -> List
        ensures { result ≡ [] }
    {
    }

    /// Adds an item.
    pub fn put(&mut self, item: u64) -> Result<(), AllocError>
        ensures ok { OnOk result (self.new ≡ item) }
        ensures err { OnErr result (self.new ≡ self.old) }
    {
    }

    /// Inside.
    pub(crate) fn hidden(&self) {}
}

/// Reads a list (RFC 1) of a text. It says more.
///
/// # Errors
///
/// `BadList` where it is none.
pub fn read(
    text: &str,
) -> Result<List, BadList>
    requires short { length text ≤ 9 }
    ensures found { IfOk result (λ l. l ≡ text) }
    ensures { IsTrue yes }
{
}

/// What is said of this one has so many words that not all of them can be shown here.
pub fn longest() {}

/// A law: nothing is lost.
pub fn law()
    ensures kept { IsTrue yes }
{}

/// Not given on.
pub fn unused() {}
""",
    "crates/low/src/maker.rt": "/// Makes.\npub trait Maker: Drop {\n    /// A value.\n    fn make(&self) -> u64;\n}\n\nimpl Maker for List {\n    fn make(&self) -> u64 {\n    }\n}\n",
}


def test_calls():
    """A crate's public calls are printed with what is said of them; of all crates those that are parts or tests are named alone."""
    low = """**low**: What is low
- *List* new; `put` Adds an item
- `read` Reads a list of a text `BadList` *short found*; `longest` What is said of this one has so many words that not all of ..
- *Maker* `make` A value
- laws: `law` *kept*
- of cmc_der: Tag
"""
    inside = "**cmc_der**: What is inside\n- `read_tag` Reads a tag `NotDer`\n"
    with small_tree(SOURCES) as tools:
        assert ran(["calls", "low"], tools=tools) == (0, low, "")
        assert ran(["calls", "low", "cmc_der"], tools=tools) == (0, f"{low}\n{inside}", "")
        code, out, err = ran(["calls"], tools=tools)
        assert (code, err) == (0, "") and out.startswith("# Public calls\n"), f"{code} {out} {err}"
        assert out.endswith(f"\n\n{low}\nParts of these: cmc_der. Tests: low_tests.\n"), out
        assert ran(["calls", "none"], tools=tools) == (2, "", "calls: crates.txt has no crate none\n")


def test_calls_names_each_crate():
    """What is printed of this repository names each of its crates, and a call of each that is public surface."""
    code, out, err = ran(["calls"])
    with open(f"{TOP}/crates.txt", encoding="utf-8") as file:
        crates = re.findall(r"^(\w+)[^:#\n]*:", file.read(), re.M)
    assert (code, err) == (0, "") and len(crates) > 60
    for crate in crates:
        said = f"\n**{crate}**: " in out
        assert said or re.search(rf"\b{crate}\b", out.splitlines()[-1]), crate
        assert not said or re.search(rf"\*\*{crate}\*\*: [^\n]+\n- ", out), crate


# ---- names that collide

# Hashes that were found in the memory of a run: of a Certificate's key, of a Secret's, and of a name under which questions are counted.
SEEN_HASHES = {colliding_names.CERTIFICATE: 0x15CD9E6C, colliding_names.SECRET: 0xFB946D57, None: 0x28D290DB}


def test_table_hashes():
    """The hash is the program's."""
    for kind, seen in SEEN_HASHES.items():
        assert colliding_names.table_hash(colliding_names.before_name(kind), b"ordinaryordinaryordinary00000000") == seen, kind


def made_names(words):
    """The names that a scenario of colliding_names.py has: those of Certificates, and those of the Secrets that they name."""
    code, out, err = ran(["colliding_names.py", *words])
    assert code == 0, err
    scenario = json.loads(out)
    assert not Schema.load().faults(scenario)
    objects = [it["object"] for it in scenario["script"] if it["do"] == "apply"]
    assert {it["metadata"]["namespace"] for it in objects} == {colliding_names.NAMESPACE.decode()}
    return [it["metadata"]["name"] for it in objects], [it["spec"]["secretName"] for it in objects]


def test_colliding_names():
    """The names are distinct, subdomains, and of one length. All bits that a table sees of their hashes agree, and those of ordinary names differ."""
    cases = [([], colliding_names.CERTIFICATE, 1, 1), (["--counts", "--roles", "all"], None, 1, 1), (["--ordinary"], colliding_names.CERTIFICATE, 4990, 5000)]
    for words, kind, fewest, most in cases:
        for names, place in zip(made_names(["5000", *words]), (kind, colliding_names.SECRET)):
            assert len(set(names)) == 5000 and {len(it) for it in names} == {colliding_names.LENGTH}
            assert all(re.fullmatch(r"[a-z0-9]([-a-z0-9]*[a-z0-9])?", it) for it in names)
            before = colliding_names.before_name(place)
            hashes = {colliding_names.table_hash(before, it.encode()) for it in names}
            assert fewest <= len(hashes) <= most, f"{words}: {len(hashes)} hashes of {len(names)} names"


# ---- the schema

SETTLE = {"do": "settle"}
# Mistakes that a schema can refuse, with the path that the program names.
MISTAKES = [
    ([{"do": "settle"}], ""),
    (certificate(), "apiVersion"),
    ({"steps": []}, "steps"),
    ({"role": ["trigger"]}, "role"),
    ({"roles": ["key-manager"]}, "roles.0"),
    ({"roles": ["certificates-trigger"]}, "roles.0"),
    ({"faults": [0]}, "faults.0"),
    ({"events": 1000000}, "events"),
    ({"window": 0}, "window"),
    ({"now": "2030-01-01T00:00:00+01:00"}, "now"),
    ({"now": "2030-01-01T00:00:00.5Z"}, "now"),
    ({"now": "2030-01-01 00:00:00Z"}, "now"),
    ({"script": [{"do": "sleep"}]}, "script.0.do"),
    ({"script": [{}]}, "script.0.do"),
    ({"script": [{"do": "tick", "seconds": "1h"}]}, "script.0.seconds"),
    ({"script": [{"do": "tick", "seconds": -1}]}, "script.0.seconds"),
    ({"script": [{"do": "tick", "seconds": 0}]}, "script.0.seconds"),
    ({"script": [{"do": "tick", "seconds": 1.5}]}, "script.0.seconds"),
    ({"script": [{"do": "start", "role": "issuer"}]}, "script.0.behind"),
    ({"script": [{"do": "hold", "role": "trigger", "kind": "certificates"}]}, "script.0.kind"),
    ({"script": [{"do": "delete", "key": "secret/default/web"}]}, "script.0.key"),
    (applied(certificate(), material={"default/web": {"replies": [{"reply": "issued"}]}}), "material.default/web.replies.0.reply"),
    (applied(certificate(), material={"default/web": {"replies": [{"reply": "raw", "der": "-----BEGIN"}]}}), "material.default/web.replies.0.der"),
    (applied(certificate(), material={"web": {}}), "material.web"),
    (applied(certificate(dnsNames="example.com")), "script.0.object.spec.dnsNames"),
    (applied(certificate(dnsName=["example.com"])), "script.0.object.spec.dnsName"),
    (applied(certificate(issuerRef="ca")), "script.0.object.spec.issuerRef"),
    (applied(certificate(duration=90)), "script.0.object.spec.duration"),
    (applied(certificate(duration="90d")), "script.0.object.spec.duration"),
    (applied(certificate(duration="1.5h")), "script.0.object.spec.duration"),
    (applied(certificate(privateKey={"size": "2048"})), "script.0.object.spec.privateKey.size"),
    (applied(certificate(privateKey={"algorithm": "ecdsa"})), "script.0.object.spec.privateKey.algorithm"),
    (applied(certificate(privateKey={"algorithm": "Ed25519"})), "script.0.object.spec.privateKey.algorithm"),
    (applied(certificate(secretName="Upper_Case")), "script.0.object.spec.secretName"),
    (applied(certificate(ipAddresses=["::ffff:10.0.0.1"])), "script.0.object.spec.ipAddresses.0"),
    (applied(certificate(ipAddresses=["10.0.0.01"])), "script.0.object.spec.ipAddresses.0"),
    (applied(certificate(ipAddresses=None)), "script.0.object.spec.ipAddresses"),
    (applied(certificate(dnsNames=["b\u00fccher.example"])), "script.0.object.spec.dnsNames.0"),
    (applied(certificate(secretTemplate={})), "script.0.object.spec.secretTemplate"),
    (applied(certificate(keystores={})), "script.0.object.spec.keystores"),
    (applied({"apiVersion": "v1", "kind": "Secret", "metadata": {"name": "s"}, "data": {"a": "A"}}), "script.0.object.data.a"),
    (applied({"apiVersion": "v1", "kind": "Secret", "metadata": {"name": "s"}, "data": {"a": "QUJD\nREVG"}}), "script.0.object.data.a"),
    (applied({"apiVersion": "v1", "kind": "Secret", "metadata": {"name": "s"}, "stringData": {"a": "b"}}), "script.0.object.stringData"),
    (applied({"apiVersion": "cert-manager.io/v1", "kind": "ClusterIssuer", "metadata": {"name": "x"}}), "script.0.object.kind"),
    (applied({"kind": "Certificate"}), "script.0.object.apiVersion"),
    ({"approver": {"policies": [{"dnsNames": ["*"]}]}}, "approver.policies.0.name"),
    ({"approver": {"policy": []}}, "approver.policy"),
]


def test_schema_refuses():
    """The schema refuses each mistake, at the path that the program names too."""
    schema = Schema.load()
    for value, path in MISTAKES:
        places = [fault.place for fault in schema.faults(value)]
        assert path in places, f"{path}: {places}"


def scenario_files():
    """The examples and the library, but for the example of another command, whose input is no scenario."""
    for folder in ("examples", "scenarios"):
        for name in sorted(os.listdir(f"{TOP}/{folder}")):
            if name.endswith(".json") and not name.endswith(".expect.json") and name != "collect.json":
                yield f"{TOP}/{folder}/{name}"


def test_schema_accepts():
    """The schema accepts each example and each scenario of the library."""
    schema, files = Schema.load(), list(scenario_files())
    assert len(files) > 80
    for path in files:
        faults = schema.faults(cli.read_json(path, "scenario"))
        assert not faults, f"{path}: {faults[0].place}"


# ---- with the program


def test_program_agrees_with_schema(program):
    """The program names the same first path for each mistake."""
    for value, path in MISTAKES:
        run = cli.run_scenario(program, value)
        assert run.status == 1 and run.error == f"cmrun: bad scenario at {path}".strip(), f"{path}: {run.error}"


def test_waits_are_the_summarys(program):
    """What status says that a Certificate waits for is what the program's summary says."""
    seen = set()
    for path in scenario_files():
        run = cli.run_scenario(program, cli.read_bytes(path))
        if run.status == 0:
            history = History.read(run.output)
            state = history.end()
            found = [{"certificate": name, "wait": state.wait_of(name)} for name in state.certificates() if state.wait_of(name)]
            assert found == history.summary["waiting"], f"{path}: {found}"
            assert len(state.certificates()) == history.summary["certificates"], path
            assert sum(key.startswith("Secret/") for key in state.objects) == history.summary["secrets"], path
            seen |= {it["wait"] for it in found}
    assert seen == {"stopped", "backoff", "key", "unapproved", "name", "pending"}, seen


# What why says of a scenario, as (scenario, a text that it prints).
EXPLAINED = [
    ("", "the input is empty"),
    ("script:\n- do: settle\n", "this looks like YAML"),
    ('{"script":[{"do":"settle"},]}', "line 1, column 28"),
    ("{'script':[]}", "JSON has double quotes alone"),
    ('{"script":[]}\n{}', "one JSON value is wanted"),
    ('\ufeff{}', "byte order mark"),
    ('{"a":' * 200 + "1" + "}" * 200, "127 levels"),
    ('{"events":' + "9" * 5000 + "}", "no double holds"),
    ('{"events":NaN}', "NaN is no JSON"),
    ("{}".encode("utf-16"), "it looks like UTF-16"),
    (b'{"a":"\xff"}', "its byte 7 is none of a text"),
    ('{"roles":["key-manager"]}', "did you mean keymanager?"),
    ('{"steps":[]}', "did you mean `script`?"),
    ('{"faults":[5,3]}', "each above the one before"),
    (applied(certificate(dnsName=["a"])), "did you mean `dnsNames`?"),
    (applied(certificate(keystores={}, subject={})), "left out of the model"),
    ({"script": [{"do": "stop", "role": "issuer"}] * 2}, "issuer does not run at this step"),
    ({"script": [{"do": "hold", "role": "approver", "kind": "Secret"}]}, "it is told of CertificateRequest"),
    ({"script": [{"do": "start", "role": "issuer", "behind": 0}]}, "issuer runs already"),
    ({"script": [{"do": "release", "role": "issuer", "kind": "CertificateRequest"}]}, "is not held"),
    (applied({**certificate(), "metadata": {"name": "web", "resourceVersion": "7"}}), "metadata.resourceVersion away"),
    (applied(certificate(), material={"default/wbe": {}}), "did you mean default/web?"),
    (applied(certificate("a"), certificate("b", secretName="a-tls")), "rule 7: a second Certificate"),
    ({"script": [{"do": "apply", "object": certificate()}, {"do": "tick", "seconds": 5}]}, "put a `settle` in front"),
    ({"script": [{"do": "apply", "object": certificate()}, {"do": "until", "role": "issuing", "kind": "Secret", "writes": 9}]}, "it came to rest with 1 such writes"),
    ({"script": [{"do": "approve", "certificate": "default/web", "revision": 1}]}, "nothing happened"),
    ({"faults": [999], "script": []}, "call 999 never comes"),
    ({"events": 20, "script": [{"do": "apply", "object": certificate()}]}, "it ends, and needs 148 entries"),
    ({"events": 2000, "material": {"default/web": {"replies": [{"reply": "issue", "seconds": 1}]}}, "script": [{"do": "apply", "object": certificate()}]}, "One turn has 6 writes"),
    (applied(certificate()), "nothing to explain"),
]


def test_why(program):
    for scenario, text in EXPLAINED:
        data = scenario if isinstance(scenario, bytes) else scenario.encode() if isinstance(scenario, str) else json.dumps(scenario).encode()
        told = "\n".join(why.explain(program, data)[1])
        assert text in told, f"{data[:80]}: wanted {text!r} in {told[:400]!r}"


def test_scenario_tools_refuse(program):
    """The tools that read a scenario end on hostile input with one line, and why with an explanation."""
    tools = {
        "why.py": ["--program", program],
        "explore.py": ["--program", program, "-"],
        "forecast.py": ["--program", program, "--days", "3", "-"],
        "expect.py": ["--program", program, "-", f"{STORED}/shop.expect.json"],
    }
    for data in (b"", b"\xff", b"[" * 100000, b'{"script":[5]}', b'{"script":[{"do":"apply"}]}'):
        for tool, words in tools.items():
            code, _, err = ran([tool, *words], data)
            assert code in (1, 2) and "Traceback" not in err and err.count("\n") <= 1, f"{tool} on {data[:30]}: status {code}, {err!r}"


def test_library(program):
    """Each question of the library has the answer that its page shows, and the list has all of them."""
    results = library.check_all(program, library.names(), False)
    wrong = [f"{name}: {text}" for name, (_, texts) in results.items() for text in texts]
    wrong += library.check_index([page for page, _ in results.values()], False)
    assert not wrong, "; ".join(wrong[:5])
    assert len(results) >= 40
    with open(f"{TOP}/README.md", encoding="utf-8") as file:
        assert f"\n{len(results)} questions with answers" in file.read(), f"README says another number than {len(results)}"


def test_explore_asks_the_audit(program):
    """Where the program has the command audit, each history is audited by it, and what it finds is the exit status."""
    with tempfile.TemporaryDirectory() as folder:
        fake = f"{folder}/cmrun"
        verdict = '{"audit":{"clause":"issue","entry":2,"yes":false}}'
        cli.write_text(fake, f"""#!/bin/sh
if [ "$1" != audit ]; then exec {program} "$@"; fi
if [ "$(wc -c)" = 0 ]; then echo "cmrun: bad history at line 1" >&2; exit 1; fi
echo '{verdict}'
""")
        os.chmod(fake, 0o755)
        cli.write_text(f"{folder}/scenario.json", json.dumps(applied(certificate(), roles=[])))
        code, out, err = ran(["explore.py", "--program", fake, f"{folder}/scenario.json"])
        assert code == 1 and not err and "was audited: 2 wrong" in out and out.count("AUDIT ") == 2, out + err


def test_readme_excerpt(program):
    """What README shows of the first run is what it prints."""
    history = History.read(cli.run_scenario(program, cli.read_bytes(f"{TOP}/examples/shop.json")).output)
    printed = list(timeline.lines(history))
    with open(f"{TOP}/README.md", encoding="utf-8") as file:
        shown = [line[4:] for line in file.read().splitlines() if re.match(r"    (---| +\d+  \w)", line)]
    assert len(shown) >= 8
    for line in shown:
        assert line in printed, line


def test_audited_example(program):
    """The page on the audit shows the verdicts that the program gives on the example, as it is and with its one word put right."""
    changed = cli.read_bytes(f"{TOP}/examples/unapproved.jsonl")
    right = changed.replace(b'"is":"judged","n":61,"pass":10,"yes":false', b'"is":"judged","n":61,"pass":10,"yes":true')
    assert right != changed
    with open(f"{TOP}/docs/AUDIT.md", encoding="utf-8") as file:
        page = file.read()
    for history, word in ((right, '"yes":true'), (changed, '"yes":false')):
        run = cli.run_scenario(program, history, words=["audit"])
        assert run.status == 0 and word in run.output.decode() and f"    {run.output.decode()}" in page, f"{run.status} {run.output} {run.error}"


def test_cookbook(program):
    """Each command of the cookbook prints what the page shows; a line `[..]` stands for any lines."""
    with open(f"{TOP}/docs/COOKBOOK.md", encoding="utf-8") as file:
        blocks = re.findall(r"^```console\n(.*?)^```$", file.read(), re.M | re.S)
    commands = [it for block in blocks for it in re.findall(r"^\$ ([^\n]+)\n((?:(?!\$ ).*\n)*)", block, re.M)]
    assert len(commands) >= 10
    with tempfile.TemporaryDirectory() as folder:
        os.symlink(program, f"{folder}/cmrun")
        environment = {**os.environ, "PATH": f"{folder}:{os.environ['PATH']}", "PYTHONDONTWRITEBYTECODE": "1", "OUT": folder}
        for command, shown in commands:
            it = subprocess.run(["bash", "-c", command], cwd=TOP, env=environment, stdout=subprocess.PIPE, stderr=subprocess.STDOUT, text=True, timeout=600, check=False)
            pattern = "".join(".*" if line == "[..]" else re.escape(line) + "\n" for line in shown.splitlines())
            assert re.fullmatch(pattern, it.stdout, re.S), f"{command}: {it.stdout[:600]}"


# ---- running


def cases(program, write):
    """The tests as (name, function); a function of None is skipped."""
    for name, words in OUTPUTS.items():
        yield name, lambda name=name, words=words: check_stored(name, words, write)
    for name, words in WITH_PROGRAM.items():
        extra = ["--program", program] if program and words[0] != "expect.py" else []
        yield name, program and (lambda name=name, words=[words[0], *extra, *words[1:]]: check_stored(name, words, write))
    for name, function in list(globals().items()):
        if name.startswith("test_"):
            needs = function.__code__.co_argcount
            yield name, (lambda function=function: function(program)) if needs and program else function if not needs else None


def main():
    words = sys.argv[1:]
    write = "--write" in words
    named = [it for it in words if it != "--write"]
    try:
        program = cli.program_of(named[0] if named else None)
    except cli.BadInput as bad:
        if named:
            raise
        print(f"skipped what needs the program: {bad}")
        program = None
    results = []
    # (what is written anew is read by later tests)
    with ThreadPoolExecutor(1 if write else 4) as pool:
        for why_not in pool.map(lambda case: outcome(*case), cases(program, write)):
            results.append(why_not)
            if why_not:
                print(f"FAILED {why_not}", flush=True)
    skipped = sum(1 for it in results if it is None)
    failed = sum(1 for it in results if it)
    print(f"{len(results) - skipped - failed} passed, {failed} failed{f', {skipped} skipped' if skipped else ''}")
    return 1 if failed else 0


def outcome(name, function):
    """Runs a test: why it failed, an empty text where it passed, and None where it is skipped."""
    if function is None:
        return None
    try:
        function()
        return ""
    except (AssertionError, cli.BadInput, OSError, subprocess.TimeoutExpired) as error:
        return f"{name}: {type(error).__name__}: {str(error)[:1500]}"


if __name__ == "__main__":
    cli.run_tool(main)
