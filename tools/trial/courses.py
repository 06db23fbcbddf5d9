"""What the action of each stage came to by the stage's completion, from a recording and from what its reports tell."""
import json
import random
from typing import NamedTuple

ON_ONE = ("thenApply", "thenAccept", "thenRun", "exceptionally", "handle", "whenComplete", "thenCompose")
ON_BOTH = ("thenCombine", "thenAcceptBoth", "runAfterBoth")


class Course(NamedTuple):
    """The ticks of a completed stage's action, of which those after the completion never came."""

    triggered: int
    queued: int
    ran: int
    cut_off: int

    def told(self):
        return f"queued {self.queued}, ran {self.ran}" + (f", cut off {self.cut_off} before its end" if self.cut_off else "")


def moment_of(state):
    """The tick of a state of the reports; none while it is pending."""
    return None if state == "pending" else int(state.rsplit(" ", 1)[1])


def runs_after(op, states):
    """Whether the action of an operation runs once its sources came to these states."""
    if "pending" in states:
        return False
    normal = all(it.startswith("value:") for it in states)
    return op in ("handle", "whenComplete") or (not normal if op == "exceptionally" else normal)


def course(stage, meant):
    """What the action of a completed stage came to, where the stage's operation is one of those above or `async`."""
    completed = moment_of(meant[stage["name"]][1])
    states = [meant[it][1] for it in stage.get("sources", [])]
    if not runs_after(stage["op"], states):
        return Course(completed, 0, 0, 0)
    triggered = max([stage.get("created", 0), *map(moment_of, states)])
    if completed < triggered:
        return Course(completed, 0, 0, 0)
    queued, runs = stage.get("queued", 0), stage.get("runs", 0)
    waited, ran = min(queued, completed - triggered), max(0, min(runs, completed - triggered - queued))
    return Course(triggered, waited, ran, max(0, triggered + queued + runs - completed))


def end_of(stage, completed):
    """How the end that completed a stage is told: the first of those that act at that tick."""
    for index, end in enumerate(stage.get("ends", [])):
        if end["at"] + end.get("delay", 0) == completed:
            return f"completed by its end of index {index}, {end['do']}" + (f" with delay {end['delay']}" if "delay" in end else "")
    return "no end acts then"


def known(text):
    """The stages of a recording whose actions this page follows, by name, with their operations as reports print them."""
    stages = [{**it, "op": "async" if it["op"] == "supplyAsync" else it["op"].removesuffix("Async")} for it in json.loads(text)["stages"]]
    return {it["name"]: it for it in stages if it["op"] in ("async", *ON_ONE, *ON_BOTH)}


def timeout(delay, at=0):
    return {"at": at, "do": "orTimeout", "delay": delay}


# A source that completes at 10, and what is after it for 5 + 100 ticks: each is ended or pinned elsewhere.
CUT = json.dumps({"form": 2, "stages": [
    {"name": "source", "op": "async", "runs": 10, "action": 1},
    {"name": "never", "op": "manual"},
    *({"name": name, "op": "thenApply", "sources": ["source"], "queued": 5, "runs": 100, "action": 2, **more} for name, more in (
        ("whole", {}),
        ("before-its-trigger", {"ends": [timeout(9)]}),
        ("at-its-trigger", {"ends": [{"at": 10, "do": "cancel"}]}),
        ("while-queued", {"ends": [timeout(8, at=5)]}),
        ("at-its-start", {"ends": [{"at": 15, "do": "complete", "value": 7}]}),
        ("while-it-runs", {"ends": [timeout(500), {"at": 2, "do": "completeOnTimeout", "delay": 38, "value": 0}]}),
        ("a-tick-before-its-end", {"ends": [{"at": 114, "do": "completeExceptionally", "throws": "com.shop.Late"}]}),
        ("at-its-end", {"ends": [timeout(115)]}),
        ("pinned-while-it-runs", {"pinMoment": 40}),
        ("pinned-after-its-end", {"pinMoment": 400}),
        ("pinned-before-its-trigger", {"pinMoment": 4}),
        ("with-a-pinned-result", {"pinResult": {"bare": "com.shop.Late"}}),
        ("with-both-pins", {"pinResult": {"value": 3}, "pinMoment": 60}),
    )),
    {"name": "picked", "op": "thenCompose", "sources": ["source"], "inner": ["never"], "queued": 5, "runs": 20, "action": 0, "ends": [timeout(200)]},
    {"name": "picked-too-late", "op": "thenCompose", "sources": ["source"], "inner": ["never"], "queued": 5, "runs": 20, "action": 0, "ends": [timeout(20)]},
]})


def an_end(pick, created):
    """An end that strikes some time after the creation of its stage."""
    at, delay = created + pick.randrange(20), pick.randrange(120)
    return pick.choice([timeout(delay, at), {"at": at, "do": "completeOnTimeout", "delay": delay, "value": 3}, {"at": at + delay, "do": "complete", "value": 5}, {"at": at + delay, "do": "complete", "value": 7}])


def a_stage(pick, at, names):
    """A stage of some kind that may be ended or pinned, and waits for some of these."""
    op = pick.choice(["async", *ON_ONE[:-1], *ON_BOTH]) if names else "async"
    made = {"name": f"s{at}", "op": op, "queued": pick.choice([0, 3, 9, 30]), "runs": pick.choice([0, 1, 8, 30, 60])}
    made["action"] = pick.choice([1, 1, 1, 1, ["throw", "com.shop.Refused"]])
    made["created"] = pick.choice([0, 0, 0, 20])
    if op != "async":
        made["sources"] = [pick.choice(names[-12:]) for _ in range(2 if op in ON_BOTH else 1)]
    if pick.random() < 0.6:
        made["ends"] = [an_end(pick, made["created"]) for _ in range(pick.choice([1, 1, 2]))]
    if pick.random() < 0.2:
        made["pinMoment"] = pick.randrange(120)
    return made


def some(seed, count):
    """A recording of so many stages, made at random."""
    pick, stages = random.Random(seed), []
    for at in range(count):
        stages.append(a_stage(pick, at, [it["name"] for it in stages]))
    return json.dumps({"form": 2, "stages": stages})
