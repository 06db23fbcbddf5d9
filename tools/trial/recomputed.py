"""`whatif ends` and `whatif failures` of recordings made at random, of all operations, held against what is computed once more from
the recording and from other reports of it: `all`, and of each stage `blame` and `path`."""
import concurrent.futures
import json
import random

from .answers import as_json, text_of
from .run import LANES, Case, run, shown

HOW_MANY = 200
ON_VALUE = ("thenApply", "thenAccept", "thenRun", "thenCompose")
ON_EACH = ("handle", "whenComplete")
ON_FAILURE = ("exceptionally", "exceptionallyCompose")
ON_BOTH = ("thenCombine", "thenAcceptBoth", "runAfterBoth")
ON_EITHER = ("applyToEither", "acceptEither", "runAfterEither")
WITH_ACTION = ("async", *ON_VALUE, *ON_EACH, *ON_FAILURE, *ON_BOTH, *ON_EITHER)
PICKING = ("thenCompose", "exceptionallyCompose")
TIMEOUTS = ("orTimeout", "completeOnTimeout")
EXCEPTIONS = ("com.shop.Refused", "com.shop.Down", "java.io.IOException")


# ---- a recording made at random


def an_end(pick, created):
    at, delay = created + pick.randrange(25), pick.randrange(90)
    return pick.choice([
        {"at": at, "do": "orTimeout", "delay": delay}, {"at": at, "do": "orTimeout", "delay": delay}, {"at": at, "do": "completeOnTimeout", "delay": delay, "value": 1},
        {"at": at + delay, "do": "complete", "value": 0}, {"at": at + delay, "do": "completeExceptionally", "throws": pick.choice(EXCEPTIONS)}, {"at": at + delay, "do": "cancel"},
    ])


def a_stage(pick, name, names):
    """A stage of some operation, that waits for some of these."""
    near = names[-8:]
    op = pick.choice(WITH_ACTION + ("manual", "completed", "failed", "copy", "allOf", "anyOf", "allOf", "anyOf")) if near else "async"
    made = {"name": name, "op": op, "created": pick.choice([0, 0, 0, 15])}
    if op in WITH_ACTION:
        made |= {"queued": pick.choice([0, 0, 4, 20]), "runs": pick.choice([0, 1, 9, 40]), "action": pick.choice([0, 0, 1, 1, 2, None, ["throw", pick.choice(EXCEPTIONS)]])}
    count = 2 if op in ON_BOTH + ON_EITHER else pick.randrange(5) if op in ("allOf", "anyOf") else 0 if op in ("async", "manual", "completed", "failed") else 1
    if count:
        made["sources"] = [pick.choice(near) for _ in range(count)]
    if op in PICKING:
        made["inner"] = [pick.choice(near) for _ in range(pick.choice([1, 2, 3]))]
    made |= {"completed": {"value": 1}, "failed": {"throws": pick.choice(EXCEPTIONS)}}.get(op, {})
    if pick.random() < (0.7 if op == "manual" else 0.3):
        made["ends"] = [an_end(pick, made["created"]) for _ in range(pick.choice([1, 1, 2, 4]))]
    if pick.random() < 0.1:
        made["pinResult"] = pick.choice([{"value": 1}, {"bare": "com.shop.Pinned"}, {"wrapped": "com.shop.Pinned"}])
    if pick.random() < 0.1:
        made["pinMoment"] = pick.randrange(100)
    return made


def some(seed):
    """A recording, whose stages stand in any order."""
    pick, stages = random.Random(f"ends and failures {seed}"), []
    for at in range(pick.choice([1, 5, 20, 60])):
        stages.append(a_stage(pick, f"s{at}", [it["name"] for it in stages]))
    if pick.random() < 0.5:
        pick.shuffle(stages)
    return {"form": 2, "wrap": pick.choice(["computed", "literal"]), "stages": stages}


# ---- what its reports tell


class Reports:
    """What each stage came to and when, which chain of blame it has, and by which kind of end it completed, if by one."""

    def __init__(self, program, text, names):
        asked = [{"what": "all"}] + [{"what": what, "stage": name} for name in names for what in ("blame", "path")]
        script = "".join(json.dumps({"do": "report", "version": 0, **it}) + "\n" for it in asked)
        out = run(program, Case("reports", ["serve", "--format", "json", "r.json"], None, stdin=script, files={"r.json": text}, seconds=60)).out
        told = [json.loads(line) for line in out.splitlines()]
        self.outcomes = {it["name"]: it["outcome"] for it in told[0]["stages"]}
        self.moments = {it["name"]: it["moment"] for it in told[0]["stages"]}
        self.chains = {it["stage"]: it["chain"] for it in told if it["report"] == "blame"}
        causes = {it["stage"]: it["steps"][0]["cause"] for it in told if it["report"] == "path"}
        self.ended_by = {name: cause["by"] for name, cause in causes.items() if cause["kind"] == "ended"}

    def is_complete(self, name):
        return self.outcomes[name] is not None

    def has_value(self, name):
        return self.is_complete(name) and "value" in self.outcomes[name]

    def has_failed(self, name):
        return self.is_complete(name) and "value" not in self.outcomes[name]

    def triggered(self, stage):
        """When the stage's action was triggered, by its operation; none where no action runs."""
        op, sources = stage["op"], stage.get("sources", [])
        if op in ON_EITHER:
            complete = [it for it in sources if self.moments[it] is not None]
            sources = [min(complete, key=lambda it: self.moments[it])] if complete else sources
        wanted = self.is_complete if op in ON_EACH else self.has_failed if op in ON_FAILURE else self.has_value
        if op not in WITH_ACTION or not all(map(wanted, sources)):
            return None
        return max([stage["created"], *(self.moments[it] for it in sources)])

    def read(self, stage):
        """The stages that it has read."""
        if "pinResult" in stage and "pinMoment" in stage:
            return set()
        index = stage["action"] if stage["op"] in PICKING and self.triggered(stage) is not None else None
        picked = [stage["inner"][index]] if isinstance(index, int) and index < len(stage["inner"]) else []
        return {*stage.get("sources", []), *picked}


# ---- what is to be told


def acts_at(end):
    return end["at"] + end.get("delay", 0)


def fate(reports, stage, index):
    """What came of an end of a stage."""
    end, completed = stage["ends"][index], reports.moments[stage["name"]]
    first = min(range(len(stage["ends"])), key=lambda it: acts_at(stage["ends"][it]))
    if index != first or stage["name"] not in reports.ended_by:
        return {"by": acts_at(end) - completed, "kind": "notReached" if end["do"] in TIMEOUTS else "tooLate"}
    assert (acts_at(end), end["do"]) == (completed, reports.ended_by[stage["name"]])
    triggered = reports.triggered(stage)
    if triggered is None or not triggered <= completed < triggered + stage["queued"] + stage["runs"]:
        return {"kind": "struck"}
    return {"kind": "cutOff", "of": stage["runs"], "ran": max(0, completed - triggered - stage["queued"])}


def ends_of(reports, stages):
    told = [
        {"delay": end.get("delay"), "do": end["do"], "fate": fate(reports, stage, index), "moment": acts_at(end), "name": stage["name"]}
        for stage in stages
        for index, end in enumerate(stage.get("ends", []))
    ]
    return {"report": "ends", "stages": told, "version": 0}


def failure(reports, stages, origin):
    """What is told of the exception that arose in a stage."""
    (exception,) = reports.outcomes[origin].values()
    hold = {it["name"] for it in stages if origin in reports.chains[it["name"]]}
    reaches = [it["name"] for it in stages if it["name"] in hold - {origin}]
    handled = [it["name"] for it in stages if it["name"] not in hold and reports.read(it) & hold]
    return {"exception": exception, "handled": handled, "moment": reports.moments[origin], "name": origin, "reaches": reaches}


def failures_of(reports, stages, origins):
    """Of each stage in which an exception arose, of these."""
    arose = [it for it in origins if reports.has_failed(it) and reports.chains[it] == [it]]
    return {"report": "failures", "stages": [failure(reports, stages, it) for it in arose], "version": 0}


# ---- the cases


def asked(reports, stages):
    """The words of each command, and the object that they are answered by."""
    names = [it["name"] for it in stages]
    yield ["ends"], ends_of(reports, stages)
    yield ["failures"], failures_of(reports, stages, names)
    failed = [it for it in names if reports.has_failed(it)]
    for origin in {*names[:1], *failed[:1], *failed[-2:]}:
        yield ["failures", "--origin", origin], failures_of(reports, stages, [origin])


def wrong(program, seed):
    """What is wrong with what is told of the recording of a seed, or nothing; and what was to be told of it."""
    made = some(seed)
    stages, text, objects = made["stages"], json.dumps(made), []
    for words, wanted in asked(Reports(program, text, [it["name"] for it in stages]), stages):
        objects.append(wanted)
        line = f"{as_json(wanted)}\n".encode()
        for form, out in (("text", text_of(line)[0].encode()), ("json", line)):
            came = run(program, Case("recomputed", [*words, "--format", form], None, stdin=text, seconds=60))
            if (came.status, came.out) != (0, out):
                return f"{' '.join(words)} as {form}: wanted {shown(out)}, came {shown(came.out)} with status {came.status}", objects
    return "", objects


def kinds(objects):
    """What of all that can be told was to be told."""
    ends = [end for it in objects if it["report"] == "ends" for end in it["stages"]]
    failures = [one for it in objects if it["report"] == "failures" for one in it["stages"]]
    return {(it["do"], it["fate"]["kind"]) for it in ends} | {it for one in failures for it in ("reaches", "handled") if one[it]}


def recomputed(program):
    """The name of each case, its complaint or nothing, and no refusal."""
    met = set()
    with concurrent.futures.ThreadPoolExecutor(LANES) as lanes:
        for seed, (said, objects) in enumerate(lanes.map(lambda it: wrong(program, it), range(HOW_MANY))):
            met |= kinds(objects)
            yield f"ends and failures of a recording made at random, {seed}, are those that its other reports call for", said, set()
    calls = ("complete", "completeExceptionally", "cancel")
    wanted = {(do, kind) for do in TIMEOUTS + calls for kind in ("struck", "cutOff", "tooLate" if do in calls else "notReached")} | {"reaches", "handled"}
    yield "these recordings have every kind of end and of failure", f"they lack {sorted(map(str, wanted - met))}" if wanted - met else "", set()
