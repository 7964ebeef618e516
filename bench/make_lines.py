#!/usr/bin/env python3
"""Writes OTLP logs payloads of texts, one a line, in the form that the collector writes.

    make_lines.py SEED BYTES > FILE

Whole lines are written until BYTES bytes are reached. Lines are ASCII without backslashes, and at most
OPENING of their bytes are `[` or `{`. The same SEED and BYTES give the same file.
"""
import json
import random
import sys

OPENING = 300
BLOCK = 8 << 20

SERVICES = ["cart", "checkout", "currency", "email", "frontend", "payment", "quote", "shipping"]
METHODS = ["GET", "POST", "PUT", "DELETE"]
LEVELS = ["debug", "info", "warn", "error"]
WORDS = (
    "accepted added answer asked batch before cache call card cart client closed code connection count "
    "database entry event failed field for found from handler in item key line lock message missing "
    "network not of order page payment peer policy queue read received record refused region reply "
    "request retry route saved sent server session shard size slow socket started stored stream table "
    "task timeout token topic updated user value version waiting worker written"
).split()


def words(rng, least, most):
    return " ".join(rng.choices(WORDS, k=rng.randint(least, most)))


def hexadecimal(rng, digits):
    return f"{rng.getrandbits(4 * digits):0{digits}x}"


def attributes(pairs):
    return [{"key": key, "value": {"stringValue": value}} for key, value in pairs]


def resource(rng):
    service = rng.choice(SERVICES)
    return attributes([
        ("service.name", service),
        ("service.version", f"{rng.randint(0, 4)}.{rng.randint(0, 20)}.{rng.randint(0, 99)}"),
        ("k8s.pod.name", f"{service}-{hexadecimal(rng, 10)}-{hexadecimal(rng, 5)}"),
        ("host.name", f"node-{rng.randint(1, 200)}"),
    ])


def record(rng):
    status = rng.choice(["200", "200", "200", "204", "301", "404", "500"])
    path = "/".join(rng.choices(WORDS, k=rng.randint(1, 4)))
    pairs = [
        ("http.request.method", rng.choice(METHODS)),
        ("url.path", f"/{path}"),
        ("http.response.status_code", status),
        ("trace", hexadecimal(rng, 32)),
        ("log.level", rng.choice(LEVELS)),
        ("user.agent", f"Mozilla/5.0 ({words(rng, 2, 6)}) {words(rng, 1, 4)}"),
        ("exception.message", f"{words(rng, 4, 30)}; {words(rng, 2, 12)} [{rng.randint(0, 9999)}]"),
    ]
    kept = [pair for pair in pairs if rng.random() < 0.6]
    return {"body": {"stringValue": f"{words(rng, 5, 40)}."}, "attributes": attributes(kept)}


def without_empty(log):
    # an empty list of attributes is not written
    return log if log["attributes"] else {"body": log["body"]}


def payload(rng):
    scopes = []
    for _ in range(rng.randint(1, 2)):
        logs = [without_empty(record(rng)) for _ in range(rng.randint(3, 9))]
        scope = {"attributes": attributes([("library", rng.choice(WORDS))])}
        scopes.append({"scope": scope, "logRecords": logs})
    return {"resourceLogs": [{"resource": {"attributes": resource(rng)}, "scopeLogs": scopes}]}


def line(rng):
    while True:
        text = json.dumps(payload(rng), separators=(",", ":"))
        assert text.isascii() and "\\" not in text
        if text.count("[") + text.count("{") <= OPENING:
            return text + "\n"


def main():
    if len(sys.argv) != 3:
        sys.exit("usage: make_lines.py SEED BYTES > FILE")
    rng, wanted = random.Random(int(sys.argv[1])), int(sys.argv[2])
    lines, size = [], 0
    while size < min(wanted, BLOCK):
        lines.append(line(rng).encode())
        size += len(lines[-1])
    # a longer file says the same block again
    block, left = b"".join(lines), wanted
    while left >= len(block):
        sys.stdout.buffer.write(block)
        left -= len(block)
    for text in lines:
        if left <= 0:
            break
        sys.stdout.buffer.write(text)
        left -= len(text)


main()
