"""Traces in each of the forms in which tools write them: the recording is that of the same spans in plain OTLP/JSON or Jaeger
JSON, byte for byte, and the same is told of it on standard error. And texts that only look like a trace."""
import base64
import concurrent.futures
import json
from dataclasses import dataclass
from typing import Any

from .run import LANES, Case, run, shown
from .traces import TARGETS, TRACE, as_jaeger, as_otlp, as_zipkin, attribute, in_nanoseconds, refused, with_their_ids

LONG_TRACE = f"5e0a91c3d7b24f68{TRACE}"
BEGIN = 1_700_000_000_000_000
LATE = {"failed": True, "exception": "java.net.SocketTimeoutException"}
PRICES = {"url.full": "http://prices/all"}
CUT = "whatif: the last line is cut, and was left out"
OTLP_KINDS = {1: "SPAN_KIND_INTERNAL", 2: "SPAN_KIND_SERVER", 3: "SPAN_KIND_CLIENT", 4: "SPAN_KIND_PRODUCER", 5: "SPAN_KIND_CONSUMER"}
# Durations that are none, and ids that are none.
NEGATIVE = (-1, "-7", 2**64 - 7, str(2**64 - 7), -(2**63), 2**63, "0")
NO_IDS = ("", "0", "0" * 16, base64.b64encode(bytes(8)).decode())


@dataclass(frozen=True)
class Form:
    """A text, the same spans in a plain form, and what else is told of the text."""

    name: str
    text: str
    plain: str
    told: tuple = ()
    spans: Any = None  # those whose ids the servers' halves have otherwise in the plain form


def told(number, parent, service, name, kind, start, end, **more):
    """A span as the writers of traces.py take it, from and to so many microseconds after the first one began."""
    span = {"id": f"c0{number:014x}", "parent": parent, "service": service, "name": name, "kind": kind, "start": BEGIN + start, "end": end and BEGIN + end}
    return span | {"links": [], "failed": False, "exception": None, "target": {}, "shared": False} | more


# A call that is given up and tried again, a message, for which its producer doesn't wait, a span of no length, failures that are
# handled, and a clock that is apart.
REQUEST = [
    told(1, None, "web", "GET /basket", 2, 0, 900),
    told(2, 0, "web", "load prices", 3, 100, 300, target=PRICES, **LATE),
    told(3, 1, "prices", "GET /all", 2, 120, 350),
    told(4, 0, "web", "load prices", 3, 320, 480, target=PRICES),
    told(5, 3, "prices", "GET /all", 2, 340, 470),
    told(6, 0, "web", "publish", 4, 500, 520),
    told(7, 5, "mail", "send", 5, 505, 515),
    told(8, 0, "web", "note", 1, 530, 530),
    told(9, 0, "web", "render", 1, 540, 700, failed=True, exception="com.shop.Broken"),
    told(10, 8, "web", "draw", 1, 600, 650, failed=True),
    told(11, 0, "web", "query", 3, 720, 860, target={"db.statement": "SELECT 1"}),
    told(12, 10, "db", "SELECT", 2, 300, 400),
]
LINKED = [it | {"links": [2]} if it["name"] == "render" else it for it in REQUEST]
OPEN = [it | {"end": 0} if it["name"] in ("send", "draw") else it for it in REQUEST]
# Calls of each kind that failed, and later others, each of which tries that of its kind again.
KINDS_AGAIN = [
    told(1, None, "web", "GET /", 2, 0, 200),
    *(told(1 + kind, 0, "web", "call", kind, 10 * kind, 10 * kind + 5, failed=True) for kind in range(1, 6)),
    *(told(7 + nth, 0, "web", "call", kind, 100 + 10 * nth, 105 + 10 * nth) for nth, kind in enumerate((3, 1, 5, 2, 4))),
]


def plain(spans):
    """The spans in OTLP/JSON."""
    spans = [dict(it) for it in spans]
    in_nanoseconds(spans)
    return as_otlp(spans, False)


def by_lines(*texts):
    return "".join(json.dumps(it) + "\n" for it in texts)


def changed(text, change):
    """The text, each object of which was changed."""

    def hook(it):
        change(it)
        return it

    return json.dumps(json.loads(text, object_hook=hook))


def halves(items):
    """A list in two parts."""
    middle = len(items) // 2
    return items[:middle], items[middle:]


# Of each format.


def in_base64(it):
    for name in ("traceId", "spanId", "parentSpanId", "traceID", "spanID"):
        if name in it:
            it[name] = base64.b64encode(bytes.fromhex(it[name])).decode()


def rooted(is_span, member, value):
    """An id that is none in place of the parent that a span doesn't have."""
    return lambda it: it.setdefault(member, value) if is_span(it) else None


def in_capitals(it):
    """Ids of other spans and of the trace in capitals, with zeros before them."""
    for name in ("traceId", "parentSpanId", "traceID"):
        if name in it:
            it[name] = f"00{it[name].upper()}"


def in_texts(it):
    for name in ("startTime", "timestamp", "duration"):
        if name in it:
            it[name] = str(it[name])


def nulls_for(is_span, *names):
    """Puts null in place of each of these members that isn't there."""

    def change(it):
        if is_span(it):
            it.update({name: None for name in names if name not in it})

    return change


def with_more(it):
    """Members that nothing reads, the first of them before the others."""
    members = dict(it)
    it.clear()
    it.update({"flags": 1, **members, "droppedLinksCount": 0, "scope": {"name": "spans"}, "x": [{"spanId": 7}]})


# OTLP/JSON.


def is_otlp_span(it):
    return "startTimeUnixNano" in it


def by_names(it):
    """Kinds and codes by their names."""
    if is_otlp_span(it):
        it["kind"] = OTLP_KINDS[it["kind"]]
    if "code" in it:
        it["code"] = "STATUS_CODE_ERROR"


def in_numbers(it):
    for name in ("startTimeUnixNano", "endTimeUnixNano"):
        if name in it:
            it[name] = int(it[name])


def to_libraries(text):
    return text.replace('"scopeSpans"', '"instrumentationLibrarySpans"')


def beside(resources):
    """Two scopes of the first service, one in each of the two lists."""
    first, second, *others = resources
    return {"resourceSpans": [first | {"instrumentationLibrarySpans": second["scopeSpans"]}, *others]}


def otlp_lists(text):
    """The export `text` with its resources elsewhere, or in several texts."""
    export = json.loads(text)
    resources = export["resourceSpans"]
    early, late = ({"resourceSpans": it} for it in halves(resources))
    signals = {"resourceMetrics": [{"scopeMetrics": []}]}, {"resourceLogs": [{"scopeLogs": []}]}
    return {
        "batches": json.dumps({"batches": resources}),
        "a result": json.dumps({"result": export}),
        "a trace": json.dumps({"trace": export}),
        "a result on each line": by_lines({"result": early}, {"result": late}),
        "resources alone": by_lines(*resources),
        "a list of resources alone": json.dumps(resources),
        "libraries": to_libraries(text),
        "libraries alone": to_libraries(by_lines(*resources)),
        "libraries beside scopes": json.dumps(beside(resources)),
        "lines": by_lines(early, late),
        "lines, the last of which has no end": by_lines(early, late).rstrip(),
        "lines that end in CR LF": by_lines(early, late).replace("\n", "\r\n"),
        "laid out": json.dumps(export, indent=2),
        "a list": json.dumps([early, late]),
        "lists in a list": json.dumps([[early], [[late]]]),
        "data beside spans": json.dumps({"data": [{"spans": [7]}]} | export),
        "metrics and logs on lines": by_lines(signals[0], early, *signals, late, signals[1]),
        "metrics and logs in a list": json.dumps([signals[1], early, [signals[0]], late]),
        "spans and metrics in a text": json.dumps(signals[0] | export),
    }


def otlp_forms():
    text = plain(LINKED)
    texts = otlp_lists(text) | {
        "kinds and codes by their names": changed(text, by_names),
        "ids in base64": changed(text, in_base64),
        "ids in capitals": changed(text, in_capitals),
        "times in numbers": changed(text, in_numbers),
        "null": changed(text, nulls_for(is_otlp_span, "parentSpanId", "links", "attributes", "events", "status")),
        "members that nothing reads": changed(text, with_more),
    }
    texts |= {f"a root's parent {it!r}": changed(text, rooted(is_otlp_span, "parentSpanId", it)) for it in NO_IDS}
    for name, other in texts.items():
        yield Form(f"OTLP/JSON: {name}", other, text)
    long = text.replace(TRACE, LONG_TRACE)
    yield Form("OTLP/JSON: ids of 16 bytes in base64", changed(long, in_base64), long)
    yield Form("OTLP/JSON: kind null", changed(text, lambda it: it.update(kind=None) if it.get("kind") == 1 else None), text)
    yield Form("OTLP/JSON: each kind by its name", changed(plain(KINDS_AGAIN), by_names), plain(KINDS_AGAIN))
    no_ends = changed(plain(OPEN), lambda it: it.pop("endTimeUnixNano") if it.get("endTimeUnixNano") == "0" else None)
    yield Form("OTLP/JSON: no end", no_ends, plain(OPEN))


# Jaeger JSON.


def is_jaeger_span(it):
    return "operationName" in it


def with_process(processes, span):
    """The span with its process in it."""
    others = {name: value for name, value in span.items() if name != "processID"}
    return others | {"process": processes[span["processID"]]}


def without_traces(it):
    if "refType" in it:
        del it["traceID"]


def with_strange_references(it):
    """A reference into another trace before the others."""
    if is_jaeger_span(it):
        it["references"] = [{"refType": "CHILD_OF", "traceID": "7", "spanID": it["spanID"]}, *it["references"]]


def by_parent(references):
    """The parent in place of references; `references` are what stands in their list."""

    def change(it):
        if is_jaeger_span(it):
            parents = [each["spanID"] for each in it.pop("references")]
            it.update({"parentSpanID": parents[0]} if parents else {})
            it.update({"references": references} if references != "none" else {})

    return change


def lasting(duration):
    """Another duration of the span of no length."""
    return lambda it: it.update(duration=duration) if it.get("duration") == 0 else None


def with_error(key, value):
    """Another tag by which a span tells that it failed."""
    return lambda it: it.update(key=key, value=value) if it.get("key") == "error" else None


def exception_in_tag(it):
    for log in it.pop("logs", []):
        it["tags"].append({"key": "error.type", "value": log["fields"][0]["value"]})


def exception_by_type(it):
    """Exceptions by their other name, and another one in an earlier log."""
    for log in it.get("logs", []):
        log["fields"] = [{"key": "error.kind", "value": "other.Kind"}, {"key": "exception.type", "value": log["fields"][0]["value"]}]
        it["logs"] = [{"fields": [{"key": "exception.type", "value": "earlier.Kind"}]}, log, {"fields": [{"key": "event", "value": "done"}]}]


def jaeger_lists(text):
    """The answer `text` with its traces, spans and processes elsewhere, or in several texts."""
    answer = json.loads(text)
    trace = answer["data"][0]
    early, late = (trace | {"spans": it} for it in halves(trace["spans"]))
    alone = [with_process(trace["processes"], it) for it in trace["spans"]]
    return {
        "a trace alone": json.dumps(trace),
        "traces alone, by lines": by_lines(early, late),
        "a list of traces": json.dumps([early, late]),
        "two traces of one id": json.dumps({"data": [early, late]}),
        "answers by lines": by_lines({"data": [early]}, {"data": [late]}),
        "data null": by_lines({"data": None}, answer, {"data": None, "errors": []}),
        "spans alone": by_lines(*alone),
        "a list of spans": json.dumps(alone),
        "processes in spans": json.dumps({"data": [{"spans": alone}]}),
        "processes in spans beside others": json.dumps({"data": [{"spans": [it | {"processID": "web"} for it in alone], "processes": {"web": {"serviceName": "other"}}}]}),
    }


def jaeger_forms():
    text, unlinked = as_jaeger(LINKED), as_jaeger(REQUEST)
    yield Form("Jaeger JSON", text, plain(LINKED))
    yield Form("Jaeger JSON: each kind", as_jaeger(KINDS_AGAIN), plain(KINDS_AGAIN))
    texts = jaeger_lists(text) | {
        "references without a trace": changed(text, without_traces),
        "references into another trace": changed(text, with_strange_references),
        "ids in base64": changed(text, in_base64),
        "ids in capitals": changed(text, in_capitals),
        "times in texts": changed(text, in_texts),
        "error as a text": changed(text, with_error("error", "true")),
        "a status code": changed(text, with_error("otel.status_code", "ERROR")),
        "exceptions in tags": changed(text, exception_in_tag),
        "exceptions by their type": changed(text, exception_by_type),
        "null": changed(text, nulls_for(is_jaeger_span, "logs", "warnings", "parentSpanID", "process")),
        "members that nothing reads": changed(text, with_more),
    }
    texts |= {f"a duration {json.dumps(it)}": changed(text, lasting(it)) for it in NEGATIVE}
    for name, other in texts.items():
        yield Form(f"Jaeger JSON: {name}", other, text)
    for name, references in (("no references", "none"), ("empty references", []), ("references null", None)):
        yield Form(f"Jaeger JSON: parents beside {name}", changed(unlinked, by_parent(references)), unlinked)
    for it in NO_IDS:
        by_parents = changed(changed(unlinked, by_parent("none")), rooted(is_jaeger_span, "parentSpanID", it))
        yield Form(f"Jaeger JSON: a root's parent {it!r}", by_parents, unlinked)
    no_durations = changed(unlinked, lambda it: it.pop("duration") if it.get("operationName") in ("send", "draw") else None)
    yield Form("Jaeger JSON: no duration", no_durations, plain(OPEN))


# Zipkin.


def is_zipkin_span(it):
    return "localEndpoint" in it


def with_tag(name, value):
    """Another value of the tag by which a span tells that it failed, or none."""

    def change(it):
        is_failure = it.get("error", "false") != "false"
        if "error" in it and is_failure == (name == "failed"):
            it.update(error=value)

    return change


def without_error(it):
    if it.get("error") == "false":
        del it["error"]


def exception_by(**names):
    """The tags that name exceptions; None is where the name goes."""

    def change(it):
        exception = it.pop("error.type", None) or it.pop("exception.type", None)
        it.update({key.replace("_", "."): value or exception for key, value in names.items()} if exception else {})

    return change


def unshared(value):
    return lambda it: it.update(shared=value) if is_zipkin_span(it) else None


WRAPPER = "java.util.concurrent.CompletionException"


def zipkin_forms():
    text, otlp = as_zipkin(REQUEST), plain(REQUEST)
    spans = json.loads(text)
    early, late = halves(spans)
    texts = {
        "a list": text,
        "lists in a list": json.dumps([early, [late]]),
        "lists by lines": by_lines(early, late),
        "times in texts": changed(text, in_texts),
        "no error": changed(text, without_error),
        **{f"error {json.dumps(it)} of what succeeded": changed(text, with_tag("succeeded", it)) for it in (False, None)},
        **{f"error {json.dumps(it)} of what failed": changed(text, with_tag("failed", it)) for it in (True, "False", "", 0, "x")},
        "exceptions by error.type": changed(text, exception_by(error_type=None)),
        "exceptions by exception.type": changed(text, exception_by(exception_type=None)),
        "exceptions by both": changed(text, exception_by(exception_type=None, error_type="other.Kind")),
        "exceptions in wrappers": changed(text, exception_by(exception_type=WRAPPER, error_type=None)),
        "not shared": changed(text, unshared(False)),
        "null": changed(text, nulls_for(is_zipkin_span, "parentId", "kind", "shared", "remoteEndpoint", "annotations")),
        "tags null": changed(text, lambda it: it.update(tags=None) if it.get("tags") == {"error": "false"} else None),
        "members that nothing reads": changed(text, lambda it: with_more(it) if is_zipkin_span(it) else None),
    }
    texts |= {f"a duration {json.dumps(it)}": changed(text, lasting(it)) for it in NEGATIVE}
    texts |= {f"a root's parent {it!r}": changed(text, rooted(is_zipkin_span, "parentId", it)) for it in NO_IDS}
    for name, other in texts.items():
        yield Form(f"Zipkin: {name}", other, otlp)
    yield Form("Zipkin: each kind", as_zipkin(KINDS_AGAIN), plain(KINDS_AGAIN))
    yield Form("Zipkin: no duration", as_zipkin(OPEN), plain(OPEN))
    yield Form("Zipkin: duration null", changed(as_zipkin(OPEN), nulls_for(is_zipkin_span, "duration")), plain(OPEN))
    yield from shared_forms()


# Two calls that their servers share, and what is below one of the two halves by its service: `cache` is of neither, so it is below
# the client's half, and `disk` is client and server, so `spin` is below the server's.
SHARED = [
    told(1, None, "web", "GET /search", 2, 0, 400),
    told(2, 0, "web", "find", 3, 20, 300),
    told(3, 1, "index", "GET /find", 2, 60, 260, shared=True),
    told(4, 2, "index", "read", 1, 80, 200),
    told(5, 1, "web", "parse", 1, 265, 290),
    told(6, 1, "cache", "store", 3, 270, 320),
    told(7, 3, "disk", "seek", 3, 90, 150, **LATE),
    told(8, 6, "disk", "SEEK", 2, 95, 170, shared=True),
    told(9, 7, "disk", "spin", 1, 100, 160),
]
APART = [it | {"start": it["start"] + 5_000, "end": it["end"] + 5_000} if it["service"] == "index" else it for it in SHARED]


def turned(spans):
    """The same spans from the last to the first."""
    last = len(spans) - 1
    return [it | {"parent": it["parent"] if it["parent"] is None else last - it["parent"]} for it in reversed(spans)]


def shared_forms():
    """Spans that client and server share are two spans in OTLP/JSON, of two ids."""
    for name, spans in (("what is shared", SHARED), ("what is shared, by two clocks", APART), ("what is shared, the server first", turned(SHARED))):
        yield Form(f"Zipkin: {name}", as_zipkin(spans), plain(spans), spans=spans)
    without_parents = changed(as_zipkin(SHARED), lambda it: it.pop("parentId") if it.get("shared") else None)
    yield Form("Zipkin: what is shared, without its parent", without_parents, plain(SHARED), spans=SHARED)


# Of several formats.


def on_host(text):
    """The export, in which the database has a host."""

    def change(it):
        if attribute("service.name", "db") in it.get("attributes", []):
            it["attributes"].append(attribute("host.name", "10.0.0.7"))

    return changed(text, change)


def mixed_forms():
    """Texts of several formats in one file, and what tells the host of a clock in each of them."""
    early, late = halves(json.loads(plain(REQUEST))["resourceSpans"])
    jaeger, zipkin = json.loads(as_jaeger(REQUEST))["data"][0], json.loads(as_zipkin(REQUEST))
    middle = len(early)
    parts = [{"resourceSpans": early[:3]}, jaeger | {"spans": jaeger["spans"][3:middle]}, zipkin[middle:9], late[9 - middle]]
    others = [{"data": [jaeger | {"spans": jaeger["spans"][10:]}]}]
    yield Form("several formats by lines", by_lines(*parts, *others), plain(REQUEST))
    yield Form("several formats in a list", json.dumps([parts[:2], *parts[2:], others]), plain(REQUEST))
    hosted = on_host(plain(REQUEST))
    yield Form("the host of Zipkin's clock", changed(as_zipkin(REQUEST), lambda it: it.update(ipv4="10.0.0.7") if it.get("serviceName") == "db" else None), hosted)
    for key in ("ip", "hostname"):
        tags = {"tags": [{"key": key, "value": "10.0.0.7"}]}
        yield Form(f"the host of Jaeger's clock, by {key}", changed(as_jaeger(REQUEST), lambda it: it.update(tags) if it.get("serviceName") == "db" else None), hosted)


def cut_forms():
    """Files that are still written: of each format, a last line that is cut at several places."""
    jaeger = json.loads(as_jaeger(REQUEST))["data"][0]
    files = {
        "OTLP/JSON": [{"resourceSpans": [it]} for it in json.loads(plain(REQUEST))["resourceSpans"]],
        "Jaeger JSON": [with_process(jaeger["processes"], it) for it in jaeger["spans"]],
        "Zipkin": [[it] for it in json.loads(as_zipkin(REQUEST))],
    }
    for name, texts in files.items():
        whole, last = by_lines(*texts[:-1]), json.dumps(texts[-1])
        for length in (1, 40, len(last) - 1):
            yield Form(f"{name}: a last line that is cut after {length} bytes", whole + last[:length], whole, (CUT,))


# What a call is to: the third call tries the first again, and the fourth the second.


def calls_to(key):
    """Four calls of one name, by turns to two targets; the first two failed."""
    places = (("a", 10, True), ("b", 30, True), ("a", 50, False), ("b", 70, False))
    calls = [told(2 + nth, 0, "web", "call", 3, start, start + 15, failed=failed, target={key: target}) for nth, (target, start, failed) in enumerate(places)]
    return [told(1, None, "web", "GET /", 2, 0, 100), *calls]


def target_forms():
    """Each attribute or tag that is a part of a target makes what `url.full` makes."""
    wanted = plain(calls_to("url.full"))
    for key in TARGETS:
        for name, text in (("OTLP/JSON", plain), ("Jaeger JSON", as_jaeger), ("Zipkin", as_zipkin)):
            yield Form(f"{name}: {key} is of a target", text(calls_to(key)), wanted)


def all_forms():
    return [*otlp_forms(), *jaeger_forms(), *zipkin_forms(), *mixed_forms(), *cut_forms(), *target_forms()]


def complaint(program, form):
    """How a text is imported otherwise than the same spans in a plain form, or nothing."""
    came, wanted = (run(program, Case("import", ["import"], None, stdin=it)) for it in (form.text, form.plain))
    out = with_their_ids(wanted.out, form.spans) if form.spans else wanted.out
    err = sorted([*wanted.err.decode().splitlines(), *form.told])
    if wanted.status != 0 or not wanted.out:
        return f"the plain form is refused: {shown(wanted.out)} {shown(wanted.err)}"
    if (came.status, came.out) != (0, out):
        return f"wanted {shown(out)}, came {came.status} {shown(came.out)} {shown(came.err)}"
    return "" if sorted(came.err.decode().splitlines()) == err else f"wanted {err} on standard error, came {shown(came.err)}"


def forms(program, only):
    """The name of each case whose name has the word in it, its complaint or nothing, and no refusal."""
    named = {f"import of a form: {it.name}": it for it in all_forms()}
    chosen = {name: it for name, it in named.items() if only in name}
    with concurrent.futures.ThreadPoolExecutor(LANES) as lanes:
        for name, said in zip(chosen, lanes.map(lambda it: complaint(program, it), chosen.values())):
            yield name, said, set()


# One row of the list, whichever the format.
ROW = f'{TRACE} "GET /basket" 2023-11-14T22:13:20.000000000Z 0.900 ms, spans 12, failed 3\n'


def listed_forms():
    for name, text in (("OTLP/JSON", plain(LINKED)), ("Jaeger JSON", as_jaeger(LINKED)), ("Zipkin", as_zipkin(REQUEST))):
        yield Case(f"import --list of {name}", ["import", "--list"], ROW, stdin=text)


# Texts that are no trace, or have no span.


def zipkin_text(**members):
    return json.dumps([{"traceId": "7a", "id": "1", "name": "get", "timestamp": 1, "duration": 2} | members])


STRANGE = {
    "X-Ray's": ('{"Traces":[{"Id":"1-5e0a91c3","Segments":[]}]}', "X-Ray's: the collector's receiver awsxray makes OTLP of segments"),
    "a segment of X-Ray's": ('{"trace_id":"1-5e0a91c3","id":"70de","start_time":1.5,"end_time":1.6}', "X-Ray's"),
    "Datadog's": ('[[{"trace_id":7,"span_id":8,"name":"web","start":1,"duration":2}]]', "Datadog's: the collector's receiver datadog"),
    "a search of Datadog's": ('{"traceid":"7","spanid":"8"}', "Datadog's"),
    "Honeycomb's": ('[{"trace.trace_id":"7","trace.span_id":"8","duration_ms":2}]', "Honeycomb's rows: send the spans to a collector too"),
    "Chrome's": ('{"traceEvents":[{"ph":"X","ts":1,"dur":2}]}', "trace events of Chrome's: these have no spans of services"),
    "a list of Chrome's": ('[{"ph":"X","ts":1,"dur":2}]', "trace events of Chrome's"),
    "Elastic's": ('{"hits":{"hits":[]}}', "Elastic's documents: send the spans to a collector too"),
    "a document of Elastic's": ('{"processor":{"event":"transaction"},"transaction":{"id":"7"}}', "Elastic's documents"),
}
# Members of Zipkin's in a form that they may not have.
MISSHAPEN = {"traceId": "7 a", "id": "0", "name": 3, "kind": 3, "parentId": "x", "localEndpoint": "web", "timestamp": -1, "duration": 1.5, "tags": [{"key": "error"}]}


def refused_forms():
    yield refused("data null", "81 NoTrace", '{"data":null}', "it has no span")
    for signal in ("resourceMetrics", "resourceLogs"):
        yield refused(f"{signal} alone", "81 NoTrace", json.dumps({signal: [{}]}), "it has no span")
    yield refused("metrics in a list alone", "81 NoTrace", '[{"resourceMetrics":[]}]', "it has no span")
    yield refused("a list in a list that is empty", "80 NotATrace", "[[]]", "what is no object is no trace; a trace has")
    yield refused("a list of numbers", "80 NotATrace", "[7]", "what is no object is no trace")
    yield refused("the id of a trace alone", "80 NotATrace", '{"traceID":"7"}', 'an object with the members "traceID" is no trace; a trace has')
    for name in ("result", "trace"):
        yield refused(f"a {name} without spans", "80 NotATrace", json.dumps({name: {}}), f'an object with the members "{name}" is no trace')
    yield refused("a span of Zipkin's without an id", "80 NotATrace", '[{"traceId":"7a","id":"1","timestamp":1},{"traceId":"7a"}]', 'the members "traceId" "id" "timestamp" is no trace')
    yield refused("what is no trace, in its line", "80 NotATrace", f'{plain(REQUEST)}\n\n{{"spans":[]}}\n', 'in line 3, an object with the members "spans"')
    yield refused("one line that is cut", "70 JSON", plain(REQUEST)[:-1])
    yield refused("base64 of seven bytes", "71 Shape spanId", plain(REQUEST).replace("c000000000000001", "q83vASNFZw=="), 'the member "spanId"')
    for name, (text, said) in STRANGE.items():
        yield refused(name, "80 NotATrace", text, f"; it looks like {said}")
    for member, value in MISSHAPEN.items():
        yield refused(f"Zipkin's {member} in another form", f"71 Shape {member}", zipkin_text(**{member: value}), f'the member "{member}"')
    for part in ("serviceName", "ipv4"):
        yield refused(f"Zipkin's {part} in another form", f"71 Shape {part}", zipkin_text(localEndpoint={part: 7}), f'the member "{part}"')
    for name, start in (("none", None), ("0", 0)):
        yield refused(f"Zipkin's timestamp {name}", "83 NoTime 1", zipkin_text(timestamp=start), r'the span 1 \("get"\) has neither a start nor an end')
