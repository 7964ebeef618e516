#!/usr/bin/env python3
"""Checks docs/config.schema.json: the examples fit it, and each of these faulty configurations doesn't.

Not part of .ci/run: it needs the package python3-jsonschema.
"""
import copy
import json
import pathlib
import sys

import jsonschema

TOP = pathlib.Path(__file__).resolve().parent.parent
SCHEMA = json.loads((TOP / "docs/config.schema.json").read_text())
WHOLE = {
    "receivers": {"otlpjsonfile": {}},
    "processors": {"transform": {"log_statements": [{"context": "log", "statements": []}]}},
    "connectors": {"routing": {"table": [{"condition": "true", "pipelines": ["logs/b"]}]}},
    "exporters": {"file": {"path": "out"}},
    "service": {
        "pipelines": {
            "logs": {"receivers": ["otlpjsonfile"], "processors": ["transform"], "exporters": ["routing"]},
            "logs/b": {"receivers": ["routing"], "exporters": ["file"]},
        }
    },
}
# For each fault that a schema can see: where, and what is put there (nothing: the member goes).
FAULTS = [
    ("WrongKind", "receivers", []),
    ("WrongKind", "exporters/file/path", ""),
    ("WrongKind", "processors/transform/log_statements/0/statements/0", 1),
    ("UnknownKey", "recievers", {}),
    ("UnknownKey", "receivers/otlpjsonfile~1b", {}),
    ("UnknownKey", "exporters/file/format", "json"),
    ("MissingKey", "service", None),
    ("MissingKey", "receivers/otlpjsonfile", None),
    ("MissingKey", "processors/transform/log_statements/0/context", None),
    ("BadName", "exporters/file~1", {"path": "o"}),
    ("UnknownComponent", "processors/batch", {}),
    ("BadMode", "processors/transform/error_mode", "drop"),
    ("BadMode", "connectors/routing/table/0/action", "take"),
    ("Repeated", "service/pipelines/logs~1b/exporters", ["file", "file"]),
    ("NoReceiver", "service/pipelines/logs/receivers", []),
    ("NoExporter", "connectors/routing/table/0/pipelines", []),
]


def changed(place, value):
    conf = copy.deepcopy(WHOLE)
    *above, last = [part.replace("~1", "/") for part in place.split("/")]
    at = conf
    for part in above:
        at = at[int(part) if isinstance(at, list) else part]
    if isinstance(at, list):
        at.insert(int(last), value)
    elif value is None:
        del at[last]
    else:
        at[last] = value
    return conf


def main():
    jsonschema.Draft202012Validator.check_schema(SCHEMA)
    judge = jsonschema.Draft202012Validator(SCHEMA)
    wrong = []
    if not judge.is_valid(WHOLE):
        wrong.append("the whole configuration doesn't fit")
    for file in sorted(TOP.glob("examples/*/conf.json")):
        if not judge.is_valid(json.loads(file.read_text())):
            wrong.append(f"{file.relative_to(TOP)} doesn't fit")
    for name, place, value in FAULTS:
        if judge.is_valid(changed(place, value)):
            wrong.append(f"{name} at {place} fits")
    print("\n".join(wrong) or f"the examples fit, and {len(FAULTS)} faults don't")
    return 1 if wrong else 0


if __name__ == "__main__":
    sys.exit(main())
