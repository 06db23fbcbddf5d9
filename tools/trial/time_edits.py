"""A second reading of what edits of times do to an imported trace, from its spans alone: when each span would have ended,
and whether it would have failed, if the stages that the import makes of it took other times.

Of calls what is inferred is read anew here: what waits for what, a caller's own work, calls that were tried again, and calls
that were given up; clocks and late ends are left as they are told. Times are ticks."""
from dataclasses import dataclass, field
from typing import Any

PRODUCER, CONSUMER = 4, 5
WRAPPERS = ("java.util.concurrent.CompletionException", "java.util.concurrent.ExecutionException")
LATE_WORDS = ("timeout", "timedout", "timed_out", "deadline")


@dataclass(eq=False)
class Point:
    """Something that completes: the start or the end of a span, a time of own work, what several attempts came to, or several
    of these together; when it did, and with which exception, if it failed."""

    kind: str
    span: Any
    sources: list = field(default_factory=list)
    tick: Any = None
    exception: Any = None


@dataclass(eq=False)
class Span:
    """A span as the rules see it."""

    told: dict
    place: int
    start: int
    end: Any
    parent: Any = None
    host: Any = None
    children: list = field(default_factory=list)
    links: list = field(default_factory=list)
    following: Any = None  # the attempt after this one
    first: Any = None  # the first attempt
    called: list = field(default_factory=list)  # what ran on, or was to answer, when it was given up
    works: list = field(default_factory=list)
    begins: Any = None  # what its start waits for, inside its host
    ends_from: Any = None  # what its end waits for
    answers_from: Any = None  # what its answer waits for, if it was given up
    hands_on: bool = False  # whether it fails as what its end waits for did

    def __post_init__(self):
        self.first = self
        self.begun = Point("start", self, tick=self.start)
        self.whole = Point("whole", self, tick=self.end)
        self.tried = self.whole

    @property
    def exception(self):
        name = self.told["exception"]
        return None if name in WRAPPERS else name

    @property
    def failed(self):
        return self.told["failed"]

    @property
    def starts(self):
        return (self.start, 1)

    @property
    def ends(self):
        """At one tick what took time ends first, then spans start, then what took none ends."""
        return None if self.end is None else (self.end, 0 if self.start < self.end else 2)

    @property
    def order(self):
        return (self.start, self.place)

    @property
    def call(self):
        return tuple(self.told[it] for it in ("service", "name", "kind", "target"))

    @property
    def last(self):
        """The last attempt of the call."""
        return self.following.last if self.following else self

    def is_waited_for(self):
        """Whether the parent waits for it."""
        caller = self.parent
        if caller is None or self.end is None or caller.told["kind"] == PRODUCER and self.told["kind"] == CONSUMER:
            return False
        return caller.end is None or self.ends <= caller.ends

    def begins_inside(self):
        return self.host is not None and (self.host.end is None or self.host.ends > self.starts)


def read(told):
    """The spans of a trace, with all that is inferred of them."""
    first = min(it["start"] for it in told)
    spans = [Span(it, place, it["start"] - first, None if it["end"] is None else it["end"] - first) for place, it in enumerate(told)]
    for span in spans:
        parent = span.told["parent"]
        span.parent = None if parent is None else spans[parent]
        span.links = [spans[it] for it in span.told["links"] if it != span.place]
    in_order = sorted(spans, key=lambda it: it.order)
    for span in in_order:
        if span.parent:
            span.parent.children.append(span)
        host = span.parent
        while host and host.start > span.start:
            host = host.parent
        span.host = host
    for span in in_order:
        find_attempts(span)
    for span in in_order:
        find_given_up(span)
    bounds = bounds_of(spans)
    for span in spans:
        span.links = [it for it in span.links if it.end is not None and it.ends < span.starts and it.ends < bounds[span]]
    for span in spans:
        if span.following:
            span.tried = Point("tried", span, tick=span.last.end)
    for span in in_order:
        find_beginnings(span)
    for span in sorted(spans, key=depth, reverse=True):
        find_failure(span)
    return spans


def depth(span):
    return 0 if span.parent is None else 1 + depth(span.parent)


def find_attempts(caller):
    """A failed call is tried again by the first call of the same that starts after it and tries no other again."""
    waited = [it for it in caller.children if it.is_waited_for() and it.host is caller and it.begins_inside()]
    again = set()
    for call in waited:
        later = (it for it in waited if it.call == call.call and call.ends < it.starts and it not in again and it is not call)
        following = next(later, None) if call.failed else None
        if following:
            again.add(following)
            call.following, following.first = following, call.first


def is_message(caller, call):
    return caller.told["kind"] == PRODUCER or call.told["kind"] == CONSUMER


def is_late(span):
    return span.exception is not None and any(it in span.exception.lower() for it in LATE_WORDS)


def find_given_up(span):
    """A span was given up if it failed by itself while what it had called ran on, or just before that answered."""
    if not span.failed or span.end is None or not (is_late(span) or span.exception is None):
        return
    waited = [it for it in span.children if it.is_waited_for()]
    if any(it.last.failed for it in waited if it.first is it):
        return
    since = [it for it in span.children if span.start <= it.start]
    ran_on = [it for it in since if not is_message(span, it) and it.starts < span.ends and (it.end is None or span.ends < it.ends)]
    answering = [it for it in since if it.is_waited_for() and it.told["kind"] != PRODUCER]
    span.called = ran_on or (answering[-1:] if is_late(span) else [])


def bounds_of(spans):
    """The end of the first caller that gave up each span or one above it; what is linked has to end before that."""
    never = (float("inf"), 0)
    bounds = {}
    for span in sorted(spans, key=depth):
        caller = span.parent
        bounds[span] = never if caller is None else min(bounds[caller], caller.ends if span in caller.called else never)
    return bounds


def together(span, points):
    """Several points as one; it failed as the first of them that did."""
    if len(points) == 1:
        return points[0]
    return Point("join", span, points, max(it.tick or 0 for it in points))


def find_beginnings(span):
    """What each start inside the span waits for, and what its end does."""
    inside = [it for it in everyone(span) if it.host is span and it.first is it and it.begins_inside()]
    for it in everyone(span):
        if it.host is span and it.first is it and not it.begins_inside():
            it.begins = span.whole
    looks = [(it.starts, it.order, it) for it in inside]
    looks += [(it.last.ends, it.last.order, it) for it in span.children if it.is_waited_for() and it.first is it]
    has, ended = span.begun, []
    for moment, _, it in sorted(looks, key=lambda look: look[:2]):
        if moment[1] != 1:
            ended.append(it)
            continue
        has, ended = had(span, has, ended), []
        if has.tick < it.start:
            has = Point("work", span, [has], it.start)
            span.works.append(has)
        it.begins = has
    is_alone = not looks
    has = had(span, has, ended) if span.end is not None else has
    for it in span.children:
        while it.following:
            it.following.begins, it = it.whole, it.following
    if not is_alone or span.called:
        span.ends_from = has
    if span.called:
        called = sorted(span.called, key=lambda it: (it.end is None, it.ends or (), it.order))
        span.answers_from = had(span, has, called)


def everyone(span):
    """All that is below the span."""
    for it in span.children:
        yield it
        yield from everyone(it)


def had(span, has, ended):
    """What the span has once these have ended, and what it had too, unless one of these began from that."""
    if not ended:
        return has
    before = [] if any(it.begins is has for it in ended) else [has]
    return together(span, [*before, *(it.tried for it in ended)])


def exception_of(point):
    if point.kind in ("start", "work"):
        return None
    if point.kind == "tried":
        return point.span.last.whole.exception
    if point.kind == "join":
        failed = [it for it in point.sources if exception_of(it)]
        return exception_of(min(failed, key=lambda it: it.tick)) if failed else None
    return point.exception


def find_failure(span):
    """With which exception the span failed, and whether it handed on what it had."""
    if not span.failed or span.end is None:
        return
    given = exception_of(span.ends_from) if span.ends_from else None
    if given is None and not span.called and span.ends_from:
        calls = [it for it in span.children if it.is_waited_for() and it.first is it and exception_of(it.tried)]
        calls = [it for it in calls if span.exception in (None, exception_of(it.tried))]
        if calls:
            last = max(calls, key=lambda it: (it.last.ends, it.last.order))
            span.ends_from = together(span, [span.ends_from, last.tried])
            given = exception_of(last.tried)
    span.whole.exception = span.exception or given or "SpanFailed"
    span.hands_on = given is not None


class WhatIf:
    """What would have been if stages had taken these times: from a span and a part of it to how long it was queued and ran."""

    def __init__(self, times):
        self.times, self.known = times, {}

    def of(self, point):
        """When the point completes, none where it doesn't, and whether it fails."""
        if point not in self.known:
            self.known[point] = getattr(self, point.kind)(point)
        return self.known[point]

    def time(self, span, part):
        return self.times[span.place, part]

    def latest(self, points):
        told = [self.of(it) for it in points]
        return None if any(it[0] is None for it in told) else max(it[0] for it in told), any(it[1] for it in told)

    def join(self, point):
        return self.latest(point.sources)

    def begins(self, span):
        """When the span begins, without its queue."""
        sources = [*([span.begins] if span.begins else []), *(it.whole for it in span.links)]
        return self.latest(sources)[0] if sources else span.start

    def start(self, point):
        queued, ran = self.time(point.span, "start")
        return self.begins(point.span) + queued + ran, False

    def work(self, point):
        queued, ran = self.time(point.span, ("work", point.span.works.index(point)))
        return self.latest(point.sources)[0] + queued + ran, False

    def tried(self, point):
        """The first attempt that doesn't fail."""
        tick, failed = self.of(point.span.whole)
        if not failed:
            return tick, False
        after, still_failed = self.of(point.span.following.tried)
        return max(tick, after), still_failed

    def whole(self, point):
        span = point.span
        if span.end is None:
            return None, False
        if span.called:
            return self.given_up(span)
        queued, ran = self.time(span, "whole")
        if span.ends_from is None:
            return self.begins(span) + queued + ran, span.failed
        tick, failed = self.of(span.ends_from)
        return tick + queued + ran, failed if span.failed and span.hands_on else span.failed

    def given_up(self, span):
        """The earlier of the limit, at which it fails, and of the answer."""
        limit = self.of(span.begun)[0] + sum(self.time(span, "limit"))
        tick, failed = self.of(span.answers_from)
        answer = None if tick is None else tick + sum(self.time(span, "answer"))
        return (limit, True) if answer is None or limit <= answer else (answer, failed)
