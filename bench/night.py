#!/usr/bin/env python3
"""Writes the traces of a night in OTLP/JSON, one on each line: night.py SEED [COUNT], 2,000 where no COUNT is given.

Each trace has 40 spans of 10 services, and each service one kind of span: a request to `edge`, which asks `user`, then loads
three orders one after the other, and then has `billing` charge and `audit` write. An order asks `stock` four times at once, each
of which reads `db`, and behind them `prices` and `tax`, one after the other. Times are in microseconds."""
import json
import random
import sys

BEGAN = 1763974800000000
TICK = 1000


class Trace:
    """A trace that is made span by span."""

    def __init__(self, number, rng):
        self.number, self.rng, self.spans = number, rng, {}

    def span(self, service, name, parent, begin, called):
        """Adds a span that begins at a tick and, behind some work of its own, calls what `called` adds below it; the tick of its end."""
        number = sum(len(it) for it in self.spans.values()) + 1
        made = {"traceId": f"{self.number:032x}", "spanId": f"{self.number * 64 + number:016x}", "name": name, "kind": 2}
        if parent:
            made["parentSpanId"] = parent
        self.spans.setdefault(service, []).append(made)
        end = called(made["spanId"], begin + self.work(20)) + self.work(20)
        made |= {"startTimeUnixNano": str((BEGAN + begin) * TICK), "endTimeUnixNano": str((BEGAN + end) * TICK)}
        return end

    def work(self, mean):
        return 1 + int(self.rng.expovariate(1 / mean))

    def leaf(self, service, name, mean):
        return lambda parent, at: self.span(service, name, parent, at, lambda own, begun: begun + self.work(mean))

    def stock(self, parent, at):
        return self.span("stock", "GET /items", parent, at, self.leaf("db", "SELECT items", 200))

    def order(self, parent, at):
        def called(own, begun):
            end = max(self.stock(own, begun + 3 * turn) for turn in range(4))
            end = self.leaf("prices", "quote", 80)(own, end + self.work(5))
            return self.leaf("tax", "rate", 40)(own, end + self.work(5))

        return self.span("orders", "load", parent, at, called)

    def request(self):
        def called(own, begun):
            end = self.leaf("user", "authorize", 60)(own, begun)
            for _ in range(3):
                end = self.order(own, end + self.work(10))
            end = self.span("billing", "POST /charge", own, end + self.work(10), self.leaf("bank", "POST /payments", 500))
            for _ in range(3):
                end = self.leaf("audit", "write", 15)(own, end + self.work(5))
            return end

        self.span("edge", "GET /orders", None, 0, called)


def traces(seed, count="2000"):
    """The traces that a seed gives."""
    rng = random.Random(f"night {seed}")
    for number in range(1, int(count) + 1):
        trace = Trace(number, rng)
        trace.request()
        yield trace


def text(spans):
    """A line of OTLP/JSON with spans, by their services."""
    of = lambda service: {"attributes": [{"key": "service.name", "value": {"stringValue": service}}]}
    parts = [{"resource": of(service), "scopeSpans": [{"spans": own}]} for service, own in spans.items()]
    return json.dumps({"resourceSpans": parts}, separators=(",", ":"))


if __name__ == "__main__":
    for trace in traces(*sys.argv[1:]):
        print(text(trace.spans))
