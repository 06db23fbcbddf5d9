"""Imported traces whose stages take other times: what the program answers is what time_edits.py reads of the spans."""
import concurrent.futures
import json
import random
import re

from .calls import calls
from .run import Case, LANES, run, shown
from .time_edits import WhatIf, read
from .traces import STATE, TRACE, attribute

TRACES = 300
ENDING = re.compile(r"\.(start|limit|answer|work)(?:-(\d+))?")
# operations whose stages take no times
TIMELESS = ("allOf", "anyOf", "exceptionallyCompose", "manual")


def otlp_span(it, spans):
    told = {"traceId": TRACE, "spanId": it["id"], "name": it["name"], "kind": it["kind"], "startTimeUnixNano": str(it["start"] * 1_000)}
    told |= {"endTimeUnixNano": str(it["end"] * 1_000)} if it["end"] is not None else {}
    told |= {"parentSpanId": spans[it["parent"]]["id"]} if it["parent"] is not None else {}
    told |= {"links": [{"traceId": TRACE, "spanId": spans[link]["id"]} for link in it["links"]]}
    attributes = [attribute("error.type", it["exception"])] if it["exception"] else []
    attributes += [attribute("url.full", it["target"])] if it["target"] else []
    return told | {"attributes": attributes, "status": {"code": 2} if it["failed"] else {}}


def as_otlp(spans):
    return json.dumps(
        {
            "resourceSpans": [
                {"resource": {"attributes": [attribute("service.name", it["service"])]}, "scopeSpans": [{"spans": [otlp_span(it, spans)]}]} for it in spans
            ]
        }
    )


def parts_of(stages, spans):
    """Each stage that takes times, as a span's place and a part of it."""
    places = {it["id"]: place for place, it in enumerate(spans)}
    wholes = {it["name"]: places[it["span"]] for it in stages if "span" in it}
    parts = {}
    for stage in stages:
        name = stage["name"]
        if stage["op"] in TIMELESS:
            continue
        if name in wholes:
            parts[name] = (wholes[name], "whole")
            continue
        whole, ending = name.rsplit(".", 1)
        kind, number = ENDING.fullmatch(f".{ending}").groups()
        parts[name] = (wholes[whole], ("work", int(number or 1) - 1) if kind == "work" else kind)
    return parts


def other_times(rng, part, times):
    """Other times of a part, like those that it has."""
    queued, ran = times

    def other(ticks):
        return rng.choice((0, ticks // 2, ticks * 2, ticks + rng.randrange(40)))

    return (other(queued) if part == "whole" or part == "start" else queued, ran if part == "start" else other(ran))


def complaint(program, seed):
    """Where the program answers otherwise than the spans say, or nothing."""
    rng = random.Random(f"edits of times {seed}")
    spans = calls(seed)
    came = run(program, Case("import", ["import", "--clocks", "as-told", "--quiet"], None, stdin=as_otlp(spans)))
    if came.status != 0:
        return f"refused: {shown(came.out)} {shown(came.err)}"
    stages = json.loads(came.out)["stages"]
    parts = parts_of(stages, spans)
    times = {parts[it["name"]]: (it.get("queued", 0), it.get("runs", 0)) for it in stages if it["name"] in parts}
    chosen = rng.sample(sorted(parts), min(len(parts), rng.choice((1, 2, 5, 20))))
    edits = []
    for name in chosen:
        queued, ran = times[parts[name]] = other_times(rng, parts[name][1], times[parts[name]])
        edits.append({"do": "setTimes", "stage": name, "queued": queued, "runs": ran})
    steps = [
        {"do": "open", "session": 1, "version": 0},
        {"do": "edits", "session": 1, "edits": edits},
        {"do": "report", "version": 1, "what": "all"},
    ]
    script = "".join(f"{json.dumps(it)}\n" for it in steps)
    told = run(program, Case("serve", ["serve", "r.json"], None, stdin=script, files={"r.json": came.out}))
    states = {found[1]: found for found in map(STATE.fullmatch, told.out.decode().splitlines()) if found}
    if len(states) != len(stages):
        return f"not answered: {shown(told.out)} {shown(told.err)}"
    try:
        return differences(stages, states, read(spans), WhatIf(times))
    except KeyError as part:
        return f"no stage is {part}"


def differences(stages, states, spans, what_if):
    places = {it.told["id"]: it for it in spans}
    for stage in stages:
        if "span" not in stage:
            continue
        state = states[stage["name"]]
        span = places[stage["span"]]
        came = (None, False) if state[2] else (int(state[5]), state[3] in ("bare", "wrapped"))
        wanted = what_if.of(span.whole)
        if came != wanted:
            return f"{stage['name']} completes at {came}, and is to at {wanted}"
        first = states.get(f"{stage['name']}.start")
        if first and int(first[5]) != what_if.of(span.begun)[0]:
            return f"{stage['name']} starts at {first[5]}, and is to at {what_if.of(span.begun)[0]}"
    return ""


def edited_traces(program):
    """The name of each case, its complaint or nothing, and no refusal."""
    with concurrent.futures.ThreadPoolExecutor(LANES) as lanes:
        told = list(lanes.map(lambda seed: complaint(program, seed), range(TRACES)))
    for seed, said in enumerate(told):
        yield f"calls {seed}: other times move what the spans say", said, set()
