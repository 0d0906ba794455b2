#!/usr/bin/env python3
"""Holds a scenario against docs/scenario.schema.json, and names every place that does not fit.

usage: tools/schema.py SCENARIO ..

An editor that knows JSON Schema says the same while you write. It knows what the schema uses and no more: type, enum, const,
pattern, bounds, required, properties, propertyNames, items, allOf, anyOf, if, $ref. The exit status is 1 where something does not fit.
"""
import json
import re

import cli

SCHEMA = f"{cli.TOP}/docs/scenario.schema.json"
TYPES = {
    "object": lambda it: isinstance(it, dict),
    "array": lambda it: isinstance(it, list),
    "string": lambda it: isinstance(it, str),
    "boolean": lambda it: isinstance(it, bool),
    "integer": lambda it: isinstance(it, int) and not isinstance(it, bool),
}


# What a value of a type is called where nothing else is said of it.
TYPE_NAMES = {"object": "an object", "array": "a list", "string": "a text", "boolean": "true or false"}


def wanted_of(schema):
    """What may be there: what the schema says of it, and of words and whole numbers which ones."""
    said, form = schema.get("description", ""), ""
    if "enum" in schema:
        *words, last = schema["enum"]
        form = f"{', '.join(words)} or {last}" if words else last
    elif schema.get("type") == "integer":
        low, high = schema["minimum"], schema["maximum"]
        form = f"a whole number, {low} to {high}" if high < 1 << 32 else f"a whole number from {low} on"
    if not said and not form and "type" in schema:
        form = TYPE_NAMES[schema["type"]] + (f" of at most {schema['maxLength']} bytes" if "maxLength" in schema else "")
    return f"{said}: {form}" if said and form else said or form


class Fault:
    """A place that does not fit: its path, what is wrong there, what may be there, and the words or member names to choose from."""

    def __init__(self, path, what, wanted="", names=(), words=()):
        self.path, self.what, self.wanted = path, what, wanted
        self.names, self.words = tuple(names), tuple(words)

    @property
    def place(self):
        return ".".join(map(str, self.path))


class Schema:
    """A schema whose references lead into itself."""

    def __init__(self, root):
        self.root = root

    @staticmethod
    def load():
        with open(SCHEMA, encoding="utf-8") as file:
            return Schema(json.load(file))

    def faults(self, value):
        """All places of a value that do not fit, each once."""
        found = {}
        for fault in self.at(self.root, value, ()):
            found.setdefault((fault.place, fault.what), fault)
        return list(found.values())

    def resolved(self, schema):
        if "$ref" not in schema:
            return schema
        target = self.root
        for part in schema["$ref"].removeprefix("#/").split("/"):
            target = target[part]
        return target

    def at(self, schema, value, path):
        schema = self.resolved(schema)
        wanted = wanted_of(schema)
        if "type" in schema and not TYPES[schema["type"]](value):
            yield Fault(path, f"it is no {schema['type']}", wanted)
            return
        yield from self.alone(schema, value, path, wanted)
        if isinstance(value, dict):
            yield from self.members(schema, value, path, wanted)
        if isinstance(value, list):
            yield from self.items(schema, value, path, wanted)
        for part in schema.get("allOf", []):
            yield from self.at(part, value, path)
        forms = [self.resolved(part) for part in schema.get("anyOf", [])]
        if isinstance(value, dict) and all("properties" in form for form in forms):
            # A member like `do` says which form is meant; where it says none, its own words are the fault.
            for form in forms:
                if self.is_meant(form, value):
                    yield from self.at(form, value, path)
        elif forms and all(list(self.at(form, value, path)) for form in forms):
            yield Fault(path, "no form fits", wanted)
        if "if" in schema:
            fits = not list(self.at(schema["if"], value, path))
            yield from self.at(schema.get("then" if fits else "else", {}), value, path)

    @staticmethod
    def is_meant(form, value):
        """Whether the members by which a form is told from others are its own."""
        marks = {name: inner for name, inner in form["properties"].items() if "const" in inner or "enum" in inner and name == "do"}
        return all(name in value and any(same(value[name], it) for it in inner.get("enum", [inner.get("const")])) for name, inner in marks.items())

    @staticmethod
    def alone(schema, value, path, wanted):
        """What is said of a value without its parts."""
        wrong = "enum" in schema and not any(same(value, it) for it in schema["enum"])
        wrong |= "const" in schema and not same(value, schema["const"])
        if isinstance(value, str):
            # Each pattern is of the whole text: Python's `$` would let a line feed pass at its end.
            wrong |= "pattern" in schema and not re.fullmatch(schema["pattern"][1:-1], value)
            wrong |= not schema.get("minLength", 0) <= len(value) <= schema.get("maxLength", len(value))
        if TYPES["integer"](value):
            wrong |= not schema.get("minimum", value) <= value <= schema.get("maximum", value)
        if wrong:
            yield Fault(path, "its value cannot stand here", wanted, words=schema.get("enum", ()))

    def members(self, schema, value, path, wanted):
        for name in schema.get("required", []):
            if name not in value:
                inner = self.resolved(schema.get("properties", {}).get(name, {}))
                yield Fault((*path, name), "it is missing", wanted_of(inner))
        if not schema.get("minProperties", 0) <= len(value) <= schema.get("maxProperties", len(value)):
            yield Fault(path, "it has too few or too many members", wanted)
        known = schema.get("properties", {})
        for name, inner in value.items():
            here = (*path, name)
            if "propertyNames" in schema:
                yield from self.at(schema["propertyNames"], name, here)
            if name in known:
                yield from self.at(known[name], inner, here)
            elif schema.get("additionalProperties") is False:
                yield Fault(here, "there is no such member", "", known)
            elif "additionalProperties" in schema:
                yield from self.at(schema["additionalProperties"], inner, here)

    def items(self, schema, value, path, wanted):
        if len(value) > schema.get("maxItems", len(value)):
            yield Fault((*path, schema["maxItems"]), "the list is too long", wanted)
        for place, item in enumerate(value):
            if "items" in schema:
                yield from self.at(schema["items"], item, (*path, place))


def same(a, b):
    """Equal, and of one type: true is not 1."""
    return a == b and isinstance(a, bool) == isinstance(b, bool)


def main():
    parser = cli.Parser(__doc__)
    parser.add_argument("scenarios", nargs="+", metavar="SCENARIO")
    given = parser.parse_args()
    schema, bad = Schema.load(), 0
    for path in given.scenarios:
        for fault in schema.faults(cli.read_json(path, "scenario")):
            bad += 1
            print(cli.one_line(f"{path}: {fault.place or 'the whole'}: {fault.what}{f': {fault.wanted}' if fault.wanted else ''}{f': there are {chr(44).join(fault.names)}' if fault.names else ''}"))
    print(f"{len(given.scenarios)} scenarios, {bad} faults")
    return 1 if bad else 0


if __name__ == "__main__":
    cli.run_tool(main)
