"""Traces of calls as services make them, made at random: calls in turn and side by side, own work between them, calls that
fail, that are tried again, that are given up while what they called runs on, messages, links, and clocks that are apart."""
import random

LATE = ["java.util.concurrent.TimeoutException", "java.net.SocketTimeoutException", "io.grpc.DEADLINE_EXCEEDED"]
FAILURES = ["java.io.IOException", "com.shop.Refused", "java.util.concurrent.ExecutionException", None]
CALLS = ["GET /stock", "charge", "load", "SELECT", "render"]
SERVICES = ["shop", "stock", "pay", "db"]
MOST_SPANS = 120


class Calls:
    """Spans in the order of their making; times are ticks, and a span's place is its parent's name for it."""

    def __init__(self, rng):
        self.rng, self.spans = rng, []

    def add(self, parent, name, start, end, **told):
        span = {
            "id": f"{len(self.spans) + 1:x}",
            "service": self.rng.choice(SERVICES),
            "name": name,
            "start": start,
            "end": end,
            "parent": parent,
            "links": [],
            "kind": self.rng.choice((1, 2, 3, 3)),
            "failed": False,
            "exception": None,
            "target": None,
        }
        self.spans.append(span | told)
        return len(self.spans) - 1

    def fail(self, place, exceptions):
        exception = self.rng.choice(exceptions)
        self.spans[place] |= {"failed": True, "exception": exception}

    def inside(self, place, depth):
        """What the span at the place called, between its start and its end."""
        rng, span = self.rng, self.spans[place]
        start, end = span["start"], span["end"]
        now = start
        while now < end and len(self.spans) < MOST_SPANS and rng.random() < (0.9 if depth < 2 else 0.45):
            now += rng.choice((0, 0, 1, 5, 20))
            if now > end:
                break
            now = self.call(place, now, end, depth)
        if rng.random() < 0.15:
            self.fail(place, FAILURES)

    def call(self, place, start, end, depth):
        """A call from the place, tried again or not; the tick at which the caller goes on."""
        rng = self.rng
        told = {"service": rng.choice(SERVICES), "kind": 3, "target": rng.choice((None, "/a", "/b"))}
        name, now, done = rng.choice(CALLS), start, start
        for _ in range(rng.choice((1, 1, 1, 1, 2, 3))):
            done = min(end + rng.choice((0, 0, 0, 0, 7)), now + rng.choice((0, 3, 10, 40, 90)))
            call = self.add(place, name, now, done, **told)
            has_failed = rng.random() < 0.4
            if rng.random() < 0.2:
                # it is given up while what it called runs on, or just before that would have answered
                self.fail(call, LATE + [None])
                callee = self.add(call, "serve", min(now + rng.choice((0, 2)), done), done + rng.choice((-1, 0, 5, 60)))
                spans = self.spans[callee]
                spans["end"] = None if rng.random() < 0.1 else max(spans["start"], spans["end"])
                if spans["end"] is not None and depth < 3:
                    self.inside(callee, depth + 1)
                has_failed = True
            elif depth < 3:
                self.inside(call, depth + 1)
            if has_failed and not self.spans[call]["failed"]:
                self.fail(call, FAILURES)
            now = done + rng.choice((0, 1, 10, 30))
            if now >= end or not has_failed:
                break
        # the next call begins when this one has ended, or beside it
        return rng.choice((done, done, done, start + 1))

    def disturb(self):
        """Links, messages, and clocks that are apart."""
        rng = self.rng
        for place, span in enumerate(self.spans):
            if rng.random() < 0.05:
                span["links"].append(rng.randrange(len(self.spans)))
            if rng.random() < 0.05:
                span["kind"] = rng.choice((4, 5))
            if place and rng.random() < 0.03:
                by = rng.randrange(-15, 15)
                span["start"] = max(1, span["start"] + by)
                span["end"] = span["end"] and max(span["start"], span["end"] + by)


def calls(seed):
    """The spans of a service's calls, made at random."""
    made = Calls(random.Random(f"calls {seed}"))
    length = made.rng.choice((30, 100, 400))
    root = made.add(None, "POST /order", 1_000, 1_000 + length)
    made.inside(root, 0)
    if made.rng.random() < 0.6:
        made.disturb()
    return made.spans
