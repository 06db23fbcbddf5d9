#!/usr/bin/env python3
"""Writes the spans of night.py as a collector does, 100 of any traces on each line: mixed_night.py SEED [COUNT]."""
import random
import sys

from night import text, traces

SPANS = 100


def main(seed, count="2000"):
    spans = [(service, span) for trace in traces(seed, count) for service, own in trace.spans.items() for span in own]
    random.Random(f"mixed {seed}").shuffle(spans)
    for at in range(0, len(spans), SPANS):
        line = {}
        for service, span in spans[at : at + SPANS]:
            line.setdefault(service, []).append(span)
        print(text(line))


main(*sys.argv[1:])
