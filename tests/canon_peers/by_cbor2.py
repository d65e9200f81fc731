"""Answers lines of hex by what cbor2 writes with canonical=True, or by `refused` where it does not read a line."""

import sys

import cbor2


def answer(line):
    try:
        return "ok " + cbor2.dumps(cbor2.loads(bytes.fromhex(line)), canonical=True).hex()
    except Exception:  # whatever it raises, the line is not compared
        return "refused"


for row in sys.stdin:
    print(answer(row.strip()))
