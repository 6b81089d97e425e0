#!/usr/bin/env python3
"""Prints the vectors of base64 and of URLs as lines for streams.c: a letter, the status, then in hexadecimal the input, the
printed MIME type of a URL, and the bytes. A list that is empty is written as '-'."""
import json
import pathlib

VECTORS = pathlib.Path(__file__).resolve().parent.parent.parent / "vectors"
FAULTS = {"padding": 8, "lone symbol": 9, "symbol after padding": 10}
REFUSALS = {"no scheme": 1, "no comma": 2}


def status(vector):
    if "refusal" in vector:
        return REFUSALS[vector["refusal"]]
    if "fault" in vector:
        return FAULTS.get(vector["fault"]) or 256 + vector["byte"]
    return 0


for letter, folder, answer in (("u", "url", "body"), ("b", "base64", "bytes")):
    for path in sorted((VECTORS / folder).glob("*.json")):
        for vector in json.loads(path.read_text(encoding="utf-8")):
            parts = [vector["input"].encode().hex(), vector.get("mime", "").encode().hex(),
                     vector.get(answer) or vector.get("before", "")]
            print(letter, status(vector), *[part or "-" for part in parts])
