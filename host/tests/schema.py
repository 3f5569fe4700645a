#!/usr/bin/env python3
"""Holds lines of JSON against a schema, as host/scan.schema.json: schema.py SCHEMA <LINES. Prints each line that is not as it says, and why; the exit status is 0
only where there is none and at least one line. It knows the words of JSON Schema that the schema has, and stops at any other."""
import json
import sys

TYPES = {"object": dict, "array": list, "string": str, "number": (int, float), "integer": int, "boolean": bool, "null": type(None)}
SAID = {"$schema", "title", "description", "$defs"}


def is_type(value, name):
    return isinstance(value, TYPES[name]) and (name == "boolean" or not isinstance(value, bool))


def wrong_object(root, schema, value):
    """The first reason why the object is not as it must be."""
    known = schema.get("properties", {})
    for key in schema.get("required", []):
        if key not in value:
            return f"no {key}"
    for key, inner in value.items():
        if key not in known:
            if schema.get("additionalProperties", True) is False:
                return f"unknown: {key}"
            continue
        reason = wrong(root, known[key], inner)
        if reason:
            return f"{key}: {reason}"
    return None


def wrong_choice(root, choices, value):
    reasons = [wrong(root, choice, value) for choice in choices]
    fits = reasons.count(None)
    return None if fits == 1 else f"fits {fits} of {len(choices)} forms: " + "; ".join(filter(None, reasons))


def wrong(root, schema, value):
    """The first reason why the value is not as the schema says; None where it is."""
    if "$ref" in schema:
        return wrong(root, root["$defs"][schema["$ref"].rsplit("/", 1)[1]], value)
    for word, must in schema.items():
        reason = None
        if word == "oneOf":
            reason = wrong_choice(root, must, value)
        elif word == "type":
            reason = None if is_type(value, must) else f"{value!r} is no {must}"
        elif word == "enum":
            reason = None if value in must else f"{value!r} is none of {must}"
        elif word == "const":
            reason = None if value is must else f"{value!r} is not {must!r}"
        elif word == "minimum":
            reason = None if value >= must else f"{value} is below {must}"
        elif word == "maximum":
            reason = None if value <= must else f"{value} is above {must}"
        elif word == "items":
            reason = next(filter(None, (wrong(root, must, item) for item in value)), None)
        elif word == "properties":
            reason = wrong_object(root, schema, value)
        elif word not in SAID and word not in ("required", "additionalProperties"):
            sys.exit(f"schema.py: does not know the word {word}")
        if reason:
            return reason
    return None


def main():
    with open(sys.argv[1], encoding="utf-8") as file:
        root = json.load(file)
    lines = sys.stdin.buffer.read().splitlines()
    bad = 0
    for line in lines:
        reason = wrong(root, root, json.loads(line))
        if reason:
            bad += 1
            print(f"{line[:200]!r}: {reason}")
    return 1 if bad or not lines else 0


if __name__ == "__main__":
    sys.exit(main())
