"""Counts the vectors below this folder, and those that are refused or have a fault."""
import json
from pathlib import Path

vectors = [vector for file in sorted(Path(__file__).parent.glob("*/*.json")) for vector in json.loads(file.read_text())]
refused = [vector for vector in vectors if "refusal" in vector]
faulty = [vector for vector in vectors if "fault" in vector]
bodies = [bytes.fromhex(vector["body"]) for vector in vectors if "body" in vector]
print(f"{len(vectors):,} vectors, {len(refused)} refused, {len(faulty)} with a fault, {len(bodies):,} bodies")
