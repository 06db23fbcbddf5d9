"""docs/summary.schema.json, tried on summaries: what a reader of summaries takes, it takes, and what that refuses it refuses, where it can see it."""
import json
import os

from .schema import Schemas

GROUP = {"name": "db", "traces": 1, "spans": 2, "paths": 1, "sooner": 150, "ran": [[164, 40]], "queued": [[164, 10]], "times": [[164, 1]], "timesThen": [[50, 1]]}
FAILURE = {"exception": "java.io.IOException", "group": "db", "replies": 1}
SUMMARY = {
    "whatif-fleet": 2,
    "by": "span",
    "reply": "GET /cart",
    "unit": None,
    "try": None,
    "replies": {"count": 1, "failed": 1, "times": [[164, 1]]},
    "groups": [GROUP],
    "failures": [FAILURE],
}
NOTHING = {**SUMMARY, "by": "service", "reply": None, "unit": "ms", "replies": {"count": 0, "failed": 0, "times": []}, "groups": [], "failures": []}


def without(name, of):
    return {it: value for it, value in of.items() if it != name}


def counted(**numbers):
    return {**SUMMARY, "groups": [{**GROUP, **numbers}]}


# Each name, and a summary that is read.
TAKEN = [
    ("one trace", SUMMARY),
    ("no trace", NOTHING),
    ("two groups", {**SUMMARY, "groups": [GROUP, {**GROUP, "name": "db2"}]}),
    ("the greatest numbers", {**SUMMARY, "replies": {"count": 2**64 - 1, "failed": 2**64 - 1, "times": [[3775, 2**64 - 1]]}}),
    ("what was tried", {**SUMMARY, "try": "db runs=0", "groups": []}),
    ("a member that is not listed", {**SUMMARY, "x-host": "a"}),
]
# Each name, a summary that is refused, and whether a schema sees it.
REFUSED = [
    ("no object", [], True),
    ("an answer", {"reply": "head", "version": 0}, True),
    *((f"no {name}", without(name, SUMMARY), True) for name in SUMMARY),
    *((f"a group without {name}", {**SUMMARY, "groups": [without(name, GROUP)]}, True) for name in GROUP),
    *((f"a failure without {name}", {**SUMMARY, "failures": [without(name, FAILURE)]}, True) for name in FAILURE),
    *((f"replies without {name}", {**SUMMARY, "replies": without(name, SUMMARY["replies"])}, True) for name in SUMMARY["replies"]),
    ("another form", {**SUMMARY, "whatif-fleet": 1}, True),
    ("another grouping", {**SUMMARY, "by": "trace"}, True),
    ("a unit that is no text", {**SUMMARY, "unit": 1000}, True),
    ("a group of no trace", counted(traces=0), True),
    ("a part of a tick", counted(sooner=1.5), True),
    ("less than none", counted(spans=-1), True),
    ("a number too large", counted(spans=2**64), True),
    ("a step too large", counted(ran=[[3776, 1]]), True),
    ("a step with no number", counted(ran=[[164]]), True),
    ("a step with two numbers", counted(ran=[[164, 1, 1]]), True),
    ("a step that counts nothing", counted(ran=[[164, 0]]), True),
    ("a failure of no reply", {**SUMMARY, "failures": [{**FAILURE, "replies": 0}]}, True),
    ("a step twice", counted(ran=[[164, 1], [164, 1]]), False),
    ("steps out of order", counted(ran=[[165, 1], [164, 1]]), False),
    ("a group twice", {**SUMMARY, "groups": [GROUP, GROUP]}, False),
    ("groups out of order", {**SUMMARY, "groups": [{**GROUP, "name": "db2"}, GROUP]}, False),
    ("a failure twice", {**SUMMARY, "failures": [FAILURE, FAILURE]}, False),
]


def text_of(summary):
    return json.dumps(summary)


def shapes(top):
    """The name of each case, and its complaint or nothing."""
    schemas = Schemas(os.path.join(top, "docs"), ["summary.schema.json"])
    schema = schemas.files["summary.schema.json"]
    for name, summary in TAKEN:
        fault = schemas.fault(schema, json.loads(text_of(summary)))
        yield f"schema of a summary: {name}", fault and f"it is read, and the schema says: {fault}"
    for name, summary, is_seen in REFUSED:
        fault = schemas.fault(schema, json.loads(text_of(summary)))
        said = "" if bool(fault) == is_seen else "the schema doesn't see it" if is_seen else "the schema sees it"
        yield f"schema of a summary: {name}", said
