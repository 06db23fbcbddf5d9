#!/usr/bin/env python3
"""Writes the traces of a night in OTLP/JSON, one on each line: night.py [COUNT [SEED]]. With no COUNT, the five of
docs/FLEET.md, whose times are chosen by hand.

A trace is an order: a request to `shop`, which calls `stock` and then `billing`. Times are in milliseconds."""
import json
import random
import sys

BEGAN = 1763974800000
# What the shop works before, between and behind its two calls, and the call to stock and to billing, in milliseconds.
FIVE = [(10, 50, 10, 20, 10), (10, 40, 10, 20, 10), (10, 60, 10, 10, 10), (10, 30, 10, 40, 10), (10, 900, 10, 20, 10)]
FAILED = "java.io.IOException"


def span(trace, number, parent, name, begin, end, failed=None):
    made = {"traceId": f"{trace:032x}", "spanId": f"{trace * 8 + number:016x}", "name": name, "kind": 2}
    made |= {"startTimeUnixNano": str((BEGAN + begin) * 1_000_000), "endTimeUnixNano": str((BEGAN + end) * 1_000_000)}
    if parent:
        made["parentSpanId"] = f"{trace * 8 + parent:016x}"
    if failed:
        made["status"] = {"code": 2}
        made["events"] = [{"name": "exception", "attributes": [{"key": "exception.type", "value": {"stringValue": failed}}]}]
    return made


def of_service(service, *spans):
    resource = {"attributes": [{"key": "service.name", "value": {"stringValue": service}}]}
    return {"resource": resource, "scopeSpans": [{"spans": list(spans)}]}


def order(trace, before, stock, between, billing, behind, fails):
    """A trace, where `fails` the one of an order whose billing failed."""
    asked = before + stock
    billed = asked + between
    paid = billed + billing
    failed = FAILED if fails else None
    return {
        "resourceSpans": [
            of_service("shop", span(trace, 1, None, "GET /order", 0, paid + behind, failed)),
            of_service("stock", span(trace, 2, 1, "GET /items", before, asked)),
            of_service("billing", span(trace, 3, 1, "POST /charge", billed, paid, failed)),
        ]
    }


def night(count, seed):
    rng = random.Random(seed)
    for trace in range(1, count + 1):
        stock = int(rng.expovariate(1 / 30)) + (800 if rng.random() < 0.02 else 5)
        yield order(trace, rng.randint(1, 10), stock, rng.randint(1, 10), rng.randint(5, 60), rng.randint(1, 10), rng.random() < 0.01)


def five():
    for trace, times in enumerate(FIVE, 1):
        yield order(trace, *times, trace == 4)


def main(words):
    traces = night(int(words[0]), words[1] if len(words) > 1 else "") if words else five()
    for trace in traces:
        print(json.dumps(trace, separators=(",", ":")))


main(sys.argv[1:])
