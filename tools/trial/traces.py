"""Traces that are imported: what is refused, what is told of it, and 300 traces made at random, and 100 in Zipkin's form, whose
recordings have to tell what the spans told."""
import collections
import concurrent.futures
import json
import random
import re

from .cases import NO_READ, R
from .readme import read
from .run import CLOSED, Case, LANES, Shut, Sparse, run, shown

MOST_OF_FILE = 268_435_456
MOST_STAGES = 65_536
TRACE = "4bf92f3577b34da6"
EXCEPTIONS = ["java.io.IOException", "java.sql.SQLException", "com.shop.StockServiceDown", "Refused", "java.lang.IllegalStateException"]
NANOSECONDS = {"ns": 1, "us": 1_000, "ms": 1_000_000}
KINDS = {2: "SERVER", 3: "CLIENT", 4: "PRODUCER", 5: "CONSUMER"}
TARGETS = ["url.full", "http.url", "url.path", "http.target", "db.query.text", "db.statement", "rpc.method", "server.address", "net.peer.name", "peer.service", "messaging.destination.name"]
MADE, MADE_IN_ZIPKIN = 300, 100


def attribute(name, value):
    return {"key": name, "value": {"stringValue": value}}


def otlp(*spans, **members):
    """A trace of OTLP/JSON with these spans of a service."""
    resource = {"attributes": [attribute("service.name", "shop")]}
    return json.dumps({"resourceSpans": [{"resource": resource, "scopeSpans": [{"spans": list(spans)}]}], **members})


def span(name="a", start=1_000, end=2_000, number="1", trace=TRACE, **members):
    return {"traceId": trace, "spanId": number, "name": name, "startTimeUnixNano": str(start), "endTimeUnixNano": str(end), **members}


# Traces that are made at random.


def times(rng, parent, unit):
    """From when to when a span goes, mostly inside its parent, in nanoseconds; nothing where that isn't known."""
    low, high = (parent["start"], parent["end"]) if parent and parent["start"] and parent["end"] else (1_000_000, 1_000_000 + 400 * unit)
    low, high = min(low, high), max(low, high)
    start = rng.randrange(low, high + 1)
    end = rng.randrange(start, high + 1)
    chance = rng.random()
    if chance < 0.1:
        return start, start
    if chance < 0.2:
        return start, end + rng.randrange(200 * unit)
    if chance < 0.3:
        skew = rng.randrange(-50 * unit, 50 * unit)
        return max(1, start + skew), max(1, end + skew)
    return (end + 1, start) if chance < 0.33 and start > 1 else (start, end)


def spans_of(rng, count, unit, has_open):
    """Spans, as both formats can tell them; `parents` and `links` are places of others."""
    spans, is_fan = [], rng.random() < 0.2
    for at in range(count):
        near = (0 if is_fan else rng.randrange(max(0, at - rng.choice((3, 40))), at)) if at else None
        start, end = times(rng, spans[near] if near is not None and rng.random() < 0.9 else None, unit)
        if has_open and rng.random() < 0.06:
            start, end = rng.choice(((start, 0), (0, end)))
        has_failed = rng.random() < 0.25
        spans.append(
            {
                "id": f"{rng.choice((at, at, at, rng.randrange(count))) + 1:x}" if rng.random() < 0.15 else f"{at + 1:x}",
                "service": rng.choice(("shop", "stock", "db", "mail")),
                "name": rng.choice(("GET /order", "load", "reserve", "UPDATE", "render", "call 7")),
                "start": start,
                "end": end,
                "parent": near if rng.random() < 0.93 else None,
                "links": [rng.randrange(count)] if rng.random() < 0.08 else [],
                "kind": rng.choice((1, 2, 3, 3, 4, 5)),
                "failed": has_failed,
                "exception": rng.choice(EXCEPTIONS) if has_failed and rng.random() < 0.7 else None,
                "target": {},
                "shared": False,
            }
        )
    for _ in range(rng.choice((0, 0, 0, 1, 2))):
        # a circle of parents, or a span below one that comes after it
        spans[rng.randrange(count)]["parent"] = rng.randrange(count)
    if count > 3 and rng.random() < 0.1:
        spans.append(dict(spans[rng.randrange(count)]))
    return spans


def otlp_span(spans, it):
    told = {"traceId": TRACE, "spanId": it["id"], "name": it["name"], "kind": it["kind"]}
    told |= {"parentSpanId": spans[it["parent"]]["id"]} if it["parent"] is not None else {}
    told |= {"startTimeUnixNano": str(it["start"]), "endTimeUnixNano": str(it["end"])}
    told |= {"links": [{"traceId": TRACE, "spanId": spans[link]["id"]} for link in it["links"]]} if it["links"] else {}
    told |= {"attributes": [attribute(*part) for part in it["target"].items()]} if it["target"] else {}
    told |= {"status": {"code": 2}} if it["failed"] else {}
    return told | ({"events": [{"name": "exception", "attributes": [attribute("exception.type", it["exception"])]}]} if it["exception"] else {})


def as_otlp(spans, by_line):
    resources = [
        {"resource": {"attributes": [attribute("service.name", it["service"])]}, "scopeSpans": [{"spans": [otlp_span(spans, it)]}]} for it in spans
    ]
    if by_line:
        return "".join(json.dumps({"resourceSpans": [it]}) + "\n" for it in resources)
    return json.dumps({"resourceSpans": resources})


def tagged(it):
    """The tags of a span of Jaeger's: its kind, what it is to, and whether it failed."""
    tags = it["target"] | ({"span.kind": KINDS[it["kind"]].lower()} if it["kind"] in KINDS else {}) | ({"error": True} if it["failed"] else {})
    return [{"key": key, "value": value} for key, value in tags.items()]


def jaeger_span(spans, it):
    references = [{"refType": "CHILD_OF", "traceID": TRACE, "spanID": spans[it["parent"]]["id"]}] if it["parent"] is not None else []
    references += [{"refType": "FOLLOWS_FROM", "traceID": TRACE, "spanID": spans[link]["id"]} for link in it["links"]]
    told = {"traceID": TRACE, "spanID": it["id"], "operationName": it["name"], "references": references, "processID": it["service"]}
    told |= {"startTime": it["start"], "duration": it["end"] - it["start"], "tags": tagged(it)}
    return told | ({"logs": [{"fields": [{"key": "error.kind", "value": it["exception"]}]}]} if it["exception"] else {})


def as_jaeger(spans):
    processes = {it: {"serviceName": it} for it in {it["service"] for it in spans}}
    return json.dumps({"data": [{"traceID": TRACE, "spans": [jaeger_span(spans, it) for it in spans], "processes": processes}]})


def zipkin_tags(it):
    """What it is to, and of a failure an `error` that isn't `false`, and the exception by one of two names."""
    exception = {("error.type", "exception.type")[it["kind"] % 2]: it["exception"]} if it["exception"] else {}
    return it["target"] | exception | {"error": ("", "500", "true")[it["kind"] % 3] if it["failed"] else "false"}


def client_of(spans, it):
    """The span that has the id by which it is told: the client, of a server's half."""
    return spans[it["parent"]] if it["shared"] else it


def zipkin_span(spans, it):
    """A server's half has the parent of its client too. What is open has no duration."""
    client = client_of(spans, it)
    told = {"traceId": TRACE, "id": client["id"], "name": it["name"], "localEndpoint": {"serviceName": it["service"]}, "tags": zipkin_tags(it)}
    told |= {"parentId": client_of(spans, spans[client["parent"]])["id"]} if client["parent"] is not None else {}
    told |= {"kind": KINDS[it["kind"]]} if it["kind"] in KINDS else {}
    told |= {"timestamp": it["start"]} | ({"duration": it["end"] - it["start"]} if it["end"] else {})
    return told | ({"shared": True} if it["shared"] else {})


def as_zipkin(spans):
    return json.dumps([zipkin_span(spans, it) for it in spans])


def in_microseconds(spans):
    """Puts whole microseconds in place of their times; none is negative, and no start is unknown."""
    for it in spans:
        start = (it["start"] or it["end"]) // 1_000 + 1
        it["start"], it["end"] = start, it["end"] and max(it["end"] // 1_000 + 1, start)


def in_nanoseconds(spans):
    for it in spans:
        it["start"], it["end"] = it["start"] * 1_000, it["end"] * 1_000


def made(seed):
    """A trace that is made at random: its text, the nanoseconds of a tick, the unit's name, and its spans in nanoseconds."""
    rng = random.Random(f"traces {seed}")
    unit = rng.choice(("us", "us", "ns", "ms"))
    form = rng.choice(("otlp", "otlp", "lines", "jaeger"))
    count = rng.choice((1, 2, 3, 5, 8, 20, 60, 200)) if seed % 50 else 1_200
    spans = spans_of(rng, count, NANOSECONDS[unit], form != "jaeger")
    if form != "jaeger":
        return as_otlp(spans, form == "lines"), unit, spans
    in_microseconds(spans)
    text = as_jaeger(spans)
    in_nanoseconds(spans)
    return text, unit, spans


def trace_of(seed):
    return made(seed)[0]


def share(rng, spans):
    """Some spans become servers' halves of their parents. What is below one of the two is below the server's half where it is
    of the server's service, else below the client's: their one id tells no more."""
    ids, taken = collections.Counter(it["id"] for it in spans), set()
    for place, half in enumerate(spans):
        both = {place, half["parent"]}
        if len(both - {None}) < 2 or both & taken or any(ids[spans[it]["id"]] > 1 for it in both) or rng.random() < 0.5:
            continue
        taken |= both
        half["shared"] = True
        for it in spans:
            if it["parent"] in both and it is not half:
                it["parent"] = place if it["service"] == half["service"] else half["parent"]


def made_in_zipkin(seed):
    """A trace without links, in Zipkin's form, the unit's name, its spans in nanoseconds, and the same in OTLP/JSON."""
    rng = random.Random(f"traces of Zipkin {seed}")
    unit = rng.choice(("us", "us", "ns", "ms"))
    spans = spans_of(rng, rng.choice((1, 2, 3, 5, 8, 20, 60, 200)), NANOSECONDS[unit], True)
    for it in spans:
        it["links"], it["target"] = [], {rng.choice(TARGETS): rng.choice("ab")} if rng.random() < 0.5 else {}
    share(rng, spans)
    in_microseconds(spans)
    text = as_zipkin(spans)
    in_nanoseconds(spans)
    return text, unit, spans, as_otlp(spans, False)


def zipkin_trace_of(seed):
    return made_in_zipkin(seed)[0]


def meant(unit, spans):
    """What the spans tell, each by its id: the ticks from which and to which it went (none to, where it is open), and with what it failed."""
    ticks = NANOSECONDS[unit]
    first = min(time for it in spans for time in (it["start"], it["end"]) if time)
    seen, told = set(), []
    for it in spans:
        known = (it["id"], it["shared"], it["service"], it["name"], it["start"], it["end"])
        if known in seen:
            continue
        seen.add(known)
        end = (it["end"] - first) // ticks if it["end"] else None
        start = (it["start"] - first) // ticks if it["start"] else end
        start = min(start, end) if end is not None else start
        told.append((it["id"], start, end, it["failed"] and end is not None, it["exception"] if end is not None else None))
    return told


STATE = re.compile(r"(\S+) \S+ rank \d+ (?:(pending)|(value|bare|wrapped):(\S+) at (\d+))")
TIMES = re.compile(r"(\S+) start (\S+) queued \d+ runs \d+")


def with_their_ids(recording, spans):
    """The recording, in which the server's halves have the ids of their clients."""
    ids = {it["id"]: client_of(spans, it)["id"] for it in spans}
    return re.sub(rb'("(?:span|x-work-of)":)"(\w+)"', lambda it: b'%s"%s"' % (it[1], ids[it[2].decode()].encode()), recording)


def zipkin_complaint(program, seed):
    """What the recording of a trace in Zipkin's form tells otherwise than its spans, or than that of the same in OTLP/JSON; or nothing."""
    text, unit, spans, plain = made_in_zipkin(seed)
    came, wanted = (run(program, Case("import", ["import", "--unit", unit], None, stdin=it)) for it in (text, plain))
    if (came.status, came.out, came.err) != (wanted.status, with_their_ids(wanted.out, spans), wanted.err):
        return f"in OTLP/JSON it is {shown(wanted.out)} {shown(wanted.err)}, in Zipkin's form {shown(came.out)} {shown(came.err)}"
    for it in spans:
        it["id"] = client_of(spans, it)["id"]
    return complaint(program, text, unit, spans)


def complaint(program, text, unit, spans):
    """What the recording of a trace tells otherwise than its spans, or nothing."""
    came = run(program, Case("import", ["import", "--unit", unit, "--clocks", "as-told"], None, stdin=text))
    if came.status != 0:
        return f"refused: {shown(came.out)} {shown(came.err)}"
    files = {"r.json": came.out}
    steps = '{"do":"report","version":0,"what":"all"}\n{"do":"report","version":0,"what":"times"}\n'
    told = run(program, Case("serve", ["serve", "r.json"], None, stdin=steps, files=files))
    strict = run(program, Case("report", ["report", "--strict", "r.json"], None, files=files))
    if told.status != 0 or strict.status != 0:
        return f"its recording is refused, or warned of: {shown(told.out)} {shown(strict.err)}"
    lines = told.out.decode().splitlines()
    states = {found[1]: found for found in map(STATE.fullmatch, lines) if found}
    starts = {found[1]: found[2] for found in map(TIMES.fullmatch, lines) if found}
    return differences(json.loads(came.out)["stages"], states, starts, meant(unit, spans))


def differences(stages, states, starts, wanted):
    """Where the stages of spans start, end or fail otherwise than the spans."""
    found = []
    for stage in stages:
        if "span" not in stage:
            continue
        name, state = stage["name"], states[stage["name"]]
        is_open, has_failed = bool(state[2]), state[3] in ("bare", "wrapped")
        first = f"{name}.start" if f"{name}.start" in states else name
        end = None if is_open else int(state[5])
        if first != name and int(states[first][5]) != int(starts[first]):
            return f"{first} doesn't complete where it starts"
        start = stage.get("created", 0) if is_open and first == name else int(starts[first])
        found.append((stage["span"], start, end, has_failed, state[4] if has_failed else None))
    names = collections.Counter(it[:4] for it in wanted)
    came = collections.Counter(it[:4] for it in found)
    if names != came:
        return f"wanted {sorted((names - came).elements(), key=str)[:3]}, came {sorted((came - names).elements(), key=str)[:3]}"
    thrown = collections.Counter(it for it in wanted if it[4])
    return "" if not thrown - collections.Counter(found) else f"not thrown: {sorted((thrown - collections.Counter(found)).elements(), key=str)[:3]}"


def traces(top, program):
    """The name of each case, its complaint or nothing, and no refusal."""
    with concurrent.futures.ThreadPoolExecutor(LANES) as lanes:
        told = list(lanes.map(lambda seed: complaint(program, *made(seed)), range(MADE)))
        in_zipkin = list(lanes.map(lambda seed: zipkin_complaint(program, seed), range(MADE_IN_ZIPKIN)))
    for seed, said in enumerate(told):
        yield f"trace {seed}: its recording tells what its spans do", said, set()
    for seed, said in enumerate(in_zipkin):
        yield f"trace {seed} in Zipkin's form: its recording tells what its spans do, and is that of OTLP/JSON", said, set()
    page = read(top, "docs/TRACES.md")
    for name, unit in (("search.zipkin.trace", "us"), ("pay.jaeger.trace", "us"), ("order.otlp.trace", "us"), ("late-order.otlp.trace", "ms")):
        came = run(program, Case(name, ["import", "--unit", unit, "-"], None, stdin=read(top, f"examples/{name}")))
        yield f"docs/TRACES.md shows the recording of {name}", unshown(came.out, page), set()
    told = run(program, Case("explain", ["explain", "-"], None, stdin=came.out))
    tour = read(top, "docs/TOUR.md")
    yield "docs/TOUR.md shows why the traced order was late", unshown(told.out, tour), set()
    script = read(top, "examples/late-order.script")
    told = run(program, Case("serve", ["serve", "r.json"], None, stdin=script, files={"r.json": came.out}))
    for name, text in (("docs/TRACES.md", page), ("docs/TOUR.md", tour)):
        yield f"{name} shows what makes the traced order sooner", unshown(told.out, text), set()


def unshown(out, page):
    """The complaint where a page doesn't show in a block what was printed, or nothing."""
    return "" if f"```\n{out.decode()}```\n" in page else f"it doesn't show {shown(out)}"


# What is refused, and what is told of it.


def refused(name, line, text, err="", words=(), **more):
    return Case(f"import: {name}", ["import", *words], f"refused {line}\n", 1, err=err, stdin=text, **more)


TWO = otlp(span(), span(number="2", trace="7"))
FAR = otlp(span(), span("b", 1_000, 2_000 + (2**40 + 1) * 1_000, "2"))
JAEGER = json.dumps({"data": [{"spans": [{"traceID": "1", "spanID": "1", "operationName": "a", "startTime": 1, "duration": 2}]}]})


def trace_cases():
    one = b'(?s)\\{"form":2,.*"name":"shop\\.a".*'
    yield Case("import of a trace", ["import"], re.compile(one), stdin=otlp(span()))
    yield Case("import of -", ["import", "-"], re.compile(one), stdin=otlp(span()))
    yield Case("import of a file", ["import", "t"], re.compile(one), stdin=CLOSED, files={"t": otlp(span())})
    yield Case("import of Jaeger's", ["import"], re.compile(rb'(?s)\{"form":2,.*"name":"service\.a".*'), stdin=JAEGER)
    yield Case("import of lines, blank ones between", ["import"], re.compile(rb'(?s)\{"form":2,.*shop\.b.*'), stdin=f"\n{otlp(span())}\n \t\r\n{otlp(span('b', number='2'))}\n")
    for unit in NANOSECONDS:
        yield Case(f"import --unit {unit}", ["import", "--unit", unit], re.compile(rf'(?s)\{{"form":2,.*"unit":"{unit}".*'.encode()), stdin=otlp(span()))
    yield Case("import --trace", ["import", "--trace", "7"], re.compile(rb'(?s)\{"form":2,"trace":"7".*'), stdin=TWO)
    yield Case("import --trace with leading zeros", ["import", "--trace", "0007"], re.compile(rb'(?s)\{"form":2,"trace":"7".*'), stdin=TWO)
    yield Case("import of no file", ["import", "absent"], NO_READ, 3, err="No such file")
    yield Case("import of a folder", ["import", "folder"], NO_READ, 3, files={"folder": None})
    yield Case("import of a file that may not be read", ["import", "shut"], NO_READ, 3, files={"shut": Shut(otlp(span()))})
    yield Case("import of a closed standard input", ["import"], NO_READ, 3, stdin=CLOSED)
    for stdout in ("full", "closed", "gone"):
        yield Case(f"import on a {stdout} standard output", ["import"], "", 3, stdin=otlp(span()), stdout=stdout)
    yield Case("import of two files", ["import", "a", "b"], "", 2, err="'b'")
    yield Case("import --unit s", ["import", "--unit", "s"], "", 2, err="possible values: us, ns, ms")
    yield Case("import --trace with a beginning", ["import", "--trace", "4B"], re.compile(rf'(?s)\{{"form":2,"trace":"{TRACE}".*'.encode()), stdin=TWO)
    beginning = rf'it has several traces whose ids begin with "04B": choose one of them by --trace and its id, or a longer beginning of it\n{TRACE} "a" [^\n]*\n4b7 "a" [^\n]*\n\Z'
    yield Case("import --trace with a beginning of two", ["import", "--trace", "04B"], f"refused 82 SeveralTraces {TRACE} 4b7\n", 1, err=beginning, stdin=otlp(span(), span(trace="4b7"), span(trace="7")))
    yield from list_cases()
    yield from each_cases()
    yield from guess_cases()
    yield Case("import --strict, which it hasn't", ["import", "--strict"], "", 2, err="--strict")
    yield from refusals()


ROWS = f'''7 "a" 1970-01-01T00:00:00.000000500Z 0.001 ms, spans 1, failed 0
{TRACE} "a" 1970-01-01T00:00:00.000001000Z 0.001 ms, spans 2, failed 1
'''
JSON_ROW = f'{{"failures":1,"length":1000,"root":"a","spans":2,"start":"1970-01-01T00:00:00.000001000Z","trace":"{TRACE}"}}\n'
FAILED = {"status": {"code": 2}}


def list_cases():
    both = otlp(span(), span("b", number="2", parentSpanId="1", **FAILED), span(start=500, end=1_500, trace="7"))
    yield Case("import --list", ["import", "--list"], ROWS, stdin=both)
    yield Case("import --list of a file", ["import", "--list", "t"], ROWS, stdin=CLOSED, files={"t": both})
    yield Case("import --list as JSON", ["import", "--list", "--format", "json"], re.compile(f".*\n{re.escape(JSON_ROW)}".encode()), stdin=both)
    timeless = otlp(span(start=0, end=0))
    yield Case("import --list of a trace without times", ["import", "--list"], f'{TRACE} "a" - 0.000 ms, spans 1, failed 0\n', stdin=timeless)
    yield Case("import --list of a trace without times as JSON", ["import", "--list", "--format", "json"], re.compile(b'.*"start":null.*\n'), stdin=timeless)
    yield Case("import --list of no trace", ["import", "--list"], "refused 80 NotATrace\n", 1, err="resourceSpans", stdin="{}")
    yield Case("import --list of no trace as JSON", ["import", "--list", "--format", "json"], '{"name":"NotATrace","number":80,"reply":"refused"}\n', 1, stdin="{}")
    yield Case("import --list --each", ["import", "--list", "--each"], "", 2, err="cannot be used with", stdin=both)
    yield Case("import --list --trace", ["import", "--list", "--trace", "7"], "", 2, err="cannot be used with", stdin=both)
    for stdout in ("full", "closed", "gone"):
        yield Case(f"import --list on a {stdout} standard output", ["import", "--list"], "", 3, stdin=both, stdout=stdout)


def each_cases():
    lines = re.compile(rf'\{{"form":2,"trace":"{TRACE}",.*\]\}}\n\{{"form":2,"trace":"7",.*\]\}}\n'.encode())
    yield Case("import --each", ["import", "--each"], lines, stdin=TWO)
    yield Case("import --each of one trace", ["import", "--each"], re.compile(rb'\{"form":2,.*"stages":\[\{.*\}\]\}\n'), stdin=otlp(span()))
    some = otlp(span(), span(start=0, end=0, trace="7"), span(trace="8"))
    others = re.compile(rf'\{{"form":2,"trace":"{TRACE}",.*\n\{{"form":2,"trace":"8",.*\n'.encode())
    told = r"whatif: trace 7: refused 83 NoTime 1"
    why = r': the span 1 \("a"\) has neither a start nor an end'
    yield Case("import --each, of which one is refused", ["import", "--each"], others, 1, err=told + why, stdin=some)
    yield Case("import --each, of which one is refused, quietly", ["import", "--each", "--quiet"], others, 1, err=rf"\A{told}\n\Z", stdin=some)
    yield Case("import --each of no trace", ["import", "--each"], "refused 80 NotATrace\n", 1, err="resourceSpans", stdin="{}")
    yield Case("import --each --trace", ["import", "--each", "--trace", "7"], "", 2, err="cannot be used with", stdin=TWO)
    for stdout in ("full", "closed", "gone"):
        yield Case(f"import --each on a {stdout} standard output", ["import", "--each"], "", 3, stdin=TWO, stdout=stdout)


def client(start, end, number="2", **members):
    return span("call", start * 1_000, end * 1_000, number, parentSpanId="1", kind=3, **members)


def elsewhere(*spans, service="stock"):
    """Spans of another service than the first ones."""
    resource = {"attributes": [attribute("service.name", service)]}
    return {"resource": resource, "scopeSpans": [{"spans": list(spans)}]}


def two_services(mine, theirs, service="stock"):
    trace = json.loads(otlp(*mine))
    trace["resourceSpans"].append(elsewhere(*theirs, service=service))
    return json.dumps(trace)


def three_services(mine, theirs, others):
    trace = json.loads(two_services(mine, theirs))
    trace["resourceSpans"].append(elsewhere(*others, service="db"))
    return json.dumps(trace)


def guess_cases():
    """What is told of each guess, and of what was left out."""
    late = FAILED | {"attributes": [attribute("error.type", "java.util.concurrent.TimeoutException")]}
    root = span(start=1_000_000, end=9_000_000)
    calling, serving = [root, client(2_000, 3_000)], [span("serve", 4_000_000, 4_500_000, "3", parentSpanId="2")]
    apart = two_services(calling, serving)
    below = three_services(calling, serving, [span("query", 4_100_000, 4_400_000, "4", parentSpanId="3")])
    guesses = {
        "a clock that is moved": (apart, r"the clock of stock is moved by -1\.75 ms: 1 of its calls would lie outside of their callers"),
        "a clock whose name has what can't be seen": (two_services(calling, serving, "st\nock\33"), r'the clock of "st\\u000aock\\u001b" is moved by -1\.75 ms: 1 of its calls'),
        "a clock without a name": (two_services(calling, serving, ""), r"a clock without a name is moved by -1\.75 ms: 1 of its calls"),
        "a clock that is moved with another": (below, r"the clock of db is moved by -1\.75 ms$"),
        "an end that is a little late": (otlp(root, client(2_000, 9_001)), r"shop\.call ended 1 us after its caller: taken to have ended with it"),
        "a second attempt": (otlp(root, client(2_000, 3_000, **FAILED), client(4_000, 5_000, "3")), r"shop\.call\.2 is taken for a second attempt of shop\.call"),
        "a call that was given up": (otlp(root | late, client(2_000, 12_000)), r"shop\.a was given up at 8000 while shop\.call ran on: shop\.a\.limit and shop\.a\.answer stand for it"),
        "a call whose answer was on its way": (otlp(root | late, client(2_000, 8_999)), r"shop\.a was given up at 8000 while shop\.call was to answer"),
        "parents that are missing": (otlp(root | {"parentSpanId": "77"}), "1 span names parents that are not in the trace: it is taken for a root"),
        "a call that outlives its caller": (otlp(root, client(2_000, 30_000)), r"shop\.call outlives its caller shop\.a: nothing waits for it"),
        "a line that is cut": (otlp(root) + '\n{"resource', "the last line is cut, and was left out"),
        "more than sixteen": (otlp(root, *(client(2_000, 30_000, f"{it:x}") for it in range(2, 22))), "calls that outlive their callers: 4 more"),
    }
    for name, (text, told) in guesses.items():
        yield Case(f"import tells {name}", ["import"], re.compile(rb'(?s)\{"form":2,.*'), err=rf"(?m)^whatif: {told}", stdin=text)
        yield Case(f"import --quiet tells nothing of {name}", ["import", "--quiet"], None, err=r"\A\Z", stdin=text)
    linked = span("b", 2_000_000, 3_000_000, "2", parentSpanId="77", links=[{"traceId": TRACE, "spanId": "1"}])
    for name, text in {"a link for a missing parent": otlp(root, linked), "a span that is its own parent": otlp(root | {"parentSpanId": "1"})}.items():
        yield Case(f"import tells of no missing parent: {name}", ["import"], None, err=r"(?s)\A(?!.*taken for a root)", stdin=text)
    for words in (["--clocks", "as-told"], ["--calls", "as-told"]):
        told = [it for name, it in guesses.items() if name.split()[1] in {"--clocks": ("clock", "end"), "--calls": ("second", "call")}[words[0]] and "outlives" not in name]
        for text, _ in told:
            yield Case(f"import {' '.join(words)} infers nothing", ["import", *words], None, err=r"\A(?!.*(moved|taken|given up))", stdin=text)


def refusals():
    yield refused("no bytes", "70 JSON", "", "it has no text")
    yield refused("blank lines", "70 JSON", " \n\n", "it has no text")
    yield refused("no JSON", "70 JSON", '{"data":[', "standard input: ")
    yield refused("no UTF-8", "70 JSON", b'{"data":"\xff"}', "UTF-8")
    yield refused("packed bytes", "70 JSON", b"\x1f\x8b\x08", "gunzip")
    yield refused("a third line that is none", "70 JSON", f"{otlp(span())}\n\n{otlp(span())}]\n", "line 3 is no JSON text")
    yield refused("a recording", "80 NotATrace", R, "whatif report takes it as it is")
    yield refused("other JSON", "80 NotATrace", "{}", "resourceSpans")
    yield refused("a line of other JSON", "80 NotATrace", f"{otlp(span())}\n[]\n")
    yield refused("a member of another form", "71 Shape spanId", otlp(span(number="x")), 'the member "spanId" of the span x "a" is "x": an id has up to 32 hexadecimal digits')
    yield refused("a span without an id", "71 Shape spanId", otlp({"traceId": TRACE}))
    yield refused("two traces", f"82 SeveralTraces {TRACE} 7", TWO, "choose one of them by --trace and its id, or a beginning of it that no other has")
    yield refused("two traces, quietly", f"82 SeveralTraces {TRACE} 7", TWO, r"\A\Z", ["--quiet"])
    yield refused("no span", "81 NoTrace", '{"resourceSpans":[]}', "it has no span$")
    yield refused("no span of a trace", "81 NoTrace", TWO, 'no span of the trace "8"', ["--trace", "8"])
    yield refused("no times", "83 NoTime 1", otlp(span(start=0, end=0)), r'the span 1 \("a"\) has neither a start nor an end: it has to have one of the two')
    yield refused("no times of a span whose name has a line end", "83 NoTime 1", otlp(span("a\n\33", 0, 0)), r'the span 1 \("a\\u000a\\u001b"\) has neither')
    yield refused("a late span", "84 TooLate 2", FAR, "a coarser unit may help, as --unit ms")
    yield Case("import: a late span in a coarser unit", ["import", "--unit", "ms"], None, 0, stdin=FAR)
    yield refused("too many spans", "85 TooManyStages", lambda: otlp(*(span(number=f"{it + 1:x}") for it in range(MOST_STAGES + 1))), "65536", seconds=60)
    yield Case("import of a file that is too long", ["import", "long"], "refused 72 TooLong\n", 1, err="it has more than 268435456 bytes", files={"long": Sparse(MOST_OF_FILE + 1)}, seconds=60)
