"""What `import --each` writes: each line is the recording that `import --trace` writes of that trace, and is reported as that
one; and a trace that is refused has no line, but is told of."""
import concurrent.futures
import json
import random
import re

from .calls import calls
from .edited_traces import as_otlp
from .run import LANES, Case, run, shown
from .trace_forms import CUT, KINDS_AGAIN, REQUEST, SHARED, by_lines, zipkin_text
from .traces import TRACE, as_jaeger, made_in_zipkin, otlp, span

TRACE_IDS = re.compile(r'"trace(?:Id|ID)": ?"(\w+)"')


def in_trace(text, trace):
    return json.loads(text.replace(TRACE, trace))


def mixed(parts):
    """The items of several lists by turns at random; each list stays in its order."""
    rng, parts = random.Random("each trace"), [list(it) for it in parts]
    while parts:
        part = rng.choice(parts)
        yield part.pop(0)
        parts = [it for it in parts if it]


def otlp_file():
    """Six traces of calls, spans of which come by turns; of one no time is known."""
    traces = [in_trace(as_otlp(calls(seed)), f"{seed + 10:x}")["resourceSpans"] for seed in range(6)]
    timeless = in_trace(otlp(span("first", 0, 0), span("second", 0, 0, "2", parentSpanId="1")), "7")["resourceSpans"]
    return by_lines(*({"resourceSpans": [it]} for it in mixed([*traces, timeless])))


def cut_file():
    return otlp_file() + '{"resourceSpans":[{"resource":'


def jaeger_file():
    """Three traces in one answer, and one that lasts for too long."""
    traces = [in_trace(as_jaeger(spans), trace)["data"][0] for trace, spans in (("a1", REQUEST), ("a2", KINDS_AGAIN), ("a4", SHARED))]
    long = {"traceID": "a3", "spans": [{"traceID": "a3", "spanID": "1", "operationName": "long", "startTime": 1, "duration": 2**41}]}
    return json.dumps({"data": [*traces[:2], long, traces[2]]})


def zipkin_file():
    """Eight traces in one list, spans of which come by turns; of one no start is known."""
    traces = [in_trace(made_in_zipkin(seed)[0], f"b{seed}") for seed in range(8)]
    return json.dumps(list(mixed([*traces, json.loads(zipkin_text(timestamp=None))])))


FILES = {
    "OTLP/JSON": (otlp_file, []),
    "OTLP/JSON in nanoseconds": (otlp_file, ["--unit", "ns"]),
    "OTLP/JSON whose last line is cut": (cut_file, []),
    "Jaeger JSON": (jaeger_file, []),
    "Zipkin": (zipkin_file, ["--calls", "as-told"]),
}


def told_of(trace, alone):
    """The lines of standard error about a trace and not its file, by what is told when it is imported alone."""
    lines = alone.err.decode().splitlines()
    if alone.status == 0:
        return [f"whatif: trace {trace}: {it.removeprefix('whatif: ')}" for it in lines if it != CUT]
    (why,) = lines
    return [f"whatif: trace {trace}: {alone.out.decode().strip()}: {why.removeprefix('whatif: standard input: ')}"]


def difference(program, line, alone):
    """How a line is another recording than what was imported alone, or nothing."""
    if json.loads(line) != json.loads(alone.out):
        return f"{shown(line)} is another recording than {shown(alone.out)}"
    by_line, by_file = (run(program, Case("report", ["report"], None, stdin=it)) for it in (line, alone.out))
    if by_line.status != 0 or by_line != by_file:
        return f"the line is reported as {by_line.status} {shown(by_line.out)} {shown(by_line.err)}, the file as {shown(by_file.out)}"
    return ""


def complaint(program, text, words):
    """How the traces of a file are written otherwise than alone, or nothing."""
    traces = list(dict.fromkeys(TRACE_IDS.findall(text)))
    each = run(program, Case("each", ["import", "--each", *words], None, stdin=text))
    alone = {it: run(program, Case("alone", ["import", "--trace", it, *words], None, stdin=text)) for it in traces}
    taken = [it for it in traces if alone[it].status == 0]
    lines = each.out.splitlines()
    if len(taken) != len(traces) - 1 or len(lines) != len(taken) or not each.out.endswith(b"\n"):
        return f"of {len(traces)} traces {len(taken)} are imported alone, and {len(lines)} are written: {shown(each.out)}"
    of_file = [CUT] if any(CUT in it.err.decode().splitlines() for it in alone.values()) else []
    wanted = [*of_file, *(told for it in traces for told in told_of(it, alone[it]))]
    if each.status != 1 or each.err.decode().splitlines() != wanted:
        return f"wanted status 1 and {shown(chr(10).join(wanted))} on standard error, came {each.status} and {shown(each.err)}"
    said = [f"trace {it}: {said}" for it, line in zip(taken, lines) if (said := difference(program, line, alone[it]))]
    return "; ".join(said[:3])


def each_traces(program, only):
    """The name of each case whose name has the word in it, its complaint or nothing, and no refusal."""
    named = {f"import --each, {it}: each line is what is written of its trace alone": file for it, file in FILES.items()}
    chosen = {name: file for name, file in named.items() if only in name}
    with concurrent.futures.ThreadPoolExecutor(LANES) as lanes:
        for name, said in zip(chosen, lanes.map(lambda it: complaint(program, it[0](), it[1]), chosen.values())):
            yield name, said, set()
