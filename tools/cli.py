"""What the tools of this folder share: one line for bad input, the program that they run, and what they read.

A tool ends with the status 1 where its input cannot be used, and with 2 where its words cannot, with one line on standard error.
"""
import argparse
import gc
import json
import os
import subprocess
import sys

TOP = os.path.dirname(os.path.dirname(os.path.realpath(__file__)))
# The proved program, as `rt run` and `rt ci` leave it, and the unproved one that tools/demo builds.
PROVED = f"{TOP}/crates/cmrun/out/cmrun"
UNPROVED = f"{TOP}/out/cmrun"
MOST_BYTES = 1 << 30
STATUSES = {
    0: "finished",
    1: "the input is too long, no JSON or no scenario",
    2: "the words of the command line are wrong",
    3: "a read failed",
    4: "a write failed",
    5: "memory ran out",
    6: "history is full",
}


class BadInput(Exception):
    """Input that cannot be used. Its text is the line that says why."""

    def __init__(self, text, status=1):
        super().__init__(text)
        self.status = status


class Parser(argparse.ArgumentParser):
    """A parser of command lines whose refusal is one line."""

    def __init__(self, doc, **named):
        summary, _, rest = doc.partition("\n")
        named.setdefault("formatter_class", argparse.RawDescriptionHelpFormatter)
        super().__init__(description=summary, epilog=rest.strip(), **named)

    def parse_args(self, args=None, namespace=None):
        """Options may stand between other words."""
        return self.parse_intermixed_args(args, namespace)

    def error(self, message):
        raise BadInput(f"{message} (--help says what may be given)", 2)


def one_line(text):
    """The text in one line, cut to 600 characters, without control characters."""
    text = " ".join(str(text).split())
    text = "".join(c if c.isprintable() else "?" for c in text)
    return text if len(text) <= 600 else text[:600] + " .."


def run_tool(main, name=None):
    """Runs `main`, and ends the process with its status; an error that input can cause is told in one line."""
    # A history is a tree of some million values without cycles: looking for cycles would take most of the time.
    gc.disable()
    name = name or os.path.splitext(os.path.basename(sys.argv[0]))[0]
    # Names of people's objects may have any character.
    for stream in (sys.stdout, sys.stderr):
        stream.reconfigure(errors="backslashreplace")
    try:
        status = main() or 0
        sys.stdout.flush()
    except BadInput as bad:
        status = refuse(name, bad, bad.status)
    except BrokenPipeError:
        # Whoever read the output has enough of it.
        os.dup2(os.open(os.devnull, os.O_WRONLY), 1)
        status = 0
    except OSError as error:
        status = refuse(name, f"{error.filename or 'input or output'}: {error.strerror or error}", 1)
    except RecursionError:
        status = refuse(name, "the input is nested too deeply", 1)
    except MemoryError:
        status = refuse(name, "memory ran out", 1)
    except KeyboardInterrupt:
        status = 130
    sys.exit(status)


def refuse(name, text, status):
    print(f"{name}: {one_line(text)}", file=sys.stderr)
    return status


def read_bytes(path):
    """The bytes of a file, or of standard input where the path is None or `-`."""
    if path in (None, "-"):
        data = sys.stdin.buffer.read(MOST_BYTES + 1)
    else:
        with open(path, "rb") as file:
            data = file.read(MOST_BYTES + 1)
    if len(data) > MOST_BYTES:
        raise BadInput("the input has more than a gigabyte")
    return data


def read_json(path, what):
    """The JSON value of a file, or of standard input."""
    return json_of(read_bytes(path), what if path in (None, "-") else f"{what} {path}")


def json_of(data, what):
    try:
        return json.loads(data.decode("utf-8-sig"))
    except UnicodeDecodeError:
        raise BadInput(f"{what}: not UTF-8") from None
    except json.JSONDecodeError as bad:
        raise BadInput(f"{what}: not JSON: {bad.msg} at line {bad.lineno}, column {bad.colno}") from None
    except ValueError as bad:
        raise BadInput(f"{what}: not JSON: {bad}") from None


def write_text(path, text):
    with open(path, "w", encoding="utf-8") as file:
        file.write(text)


def scenario_text(scenario):
    """A scenario as JSON with a line for each step and for the rows of each Certificate."""
    line = lambda value: json.dumps(value, ensure_ascii=False)
    parts = []
    for name, value in scenario.items():
        if name == "script" and value:
            inner = ",\n".join(f"    {line(step)}" for step in value)
            parts.append(f'  "script": [\n{inner}\n  ]')
        elif name == "material" and value:
            inner = ",\n".join(f"    {line(key)}: {line(rows)}" for key, rows in value.items())
            parts.append(f'  "material": {{\n{inner}\n  }}')
        else:
            parts.append(f"  {line(name)}: {line(value)}")
    return "{\n" + ",\n".join(parts) + "\n}\n"


def add_program(parser):
    parser.add_argument("--program", metavar="CMRUN", help="the program to run (where it is not named: the proved one of crates/cmrun/out, else the one that tools/demo has built)")


def program_of(given):
    """The path of the program to run."""
    if given:
        if not os.access(given, os.X_OK):
            raise BadInput(f"{given} is no program that can be run", 2)
        return os.path.realpath(given)
    for path in (PROVED, UNPROVED):
        if os.access(path, os.X_OK):
            return path
    raise BadInput("no program is built yet: run tools/demo once, or name one by --program", 2)


class Run:
    """What a run of the program gave: its exit status, the bytes that it wrote, and its line on standard error."""

    def __init__(self, status, output, error):
        self.status, self.output, self.error = status, output, error


def run_scenario(program, scenario, seconds=120, words=("run", "--workers", "0")):
    """Runs a scenario, given as bytes or as a value, by the plain order."""
    data = scenario if isinstance(scenario, bytes) else json.dumps(scenario).encode()
    try:
        ran = subprocess.run([program, *words], input=data, capture_output=True, timeout=seconds, check=False)
    except subprocess.TimeoutExpired:
        raise BadInput(f"{program} had not ended after {seconds} seconds") from None
    except BrokenPipeError:
        raise BadInput(f"{program} does not read its input") from None
    return Run(ran.returncode, ran.stdout, ran.stderr.decode(errors="replace").strip())
