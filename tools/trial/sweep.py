"""`whatif sweep` with trials of other times: `--want`, `--queued` and `--by`, alone, together and with `--top`; and the same of
recordings made at random, whose trials are made once more by scripts that set the times of each stage and ask what comes of it."""
import concurrent.futures
import json
import random

from .answers import as_json, text_of
from .asking import Asking
from .cases import MOST_TICKS, R, lines, recording, stage, with_r
from .recomputed import some
from .run import LANES, Case, run, shown
from .why import EITHER, FAILS, NO_STAGE, SWEPT, WAITS, example

# `a` completes at 30 and `b` at 41, by 4 and by 5.
QUEUES = recording(stage("async", "a", queued=20, runs=10, action=4), stage("thenApply", "b", sources=["a"], queued=6, runs=5, action=["add", ["arg", 0], 1]), form=2)


def with_words(name, given, words, of, *told):
    return Case(f"sweep {' '.join(words)} of {of}: {name}", ["sweep", *words, "-", of], lines(*told), stdin=given)


def refused_words():
    wrong = ("50", "100%", "101%", "256%", "99999999999999999999%", "-1%", "+5%", "%", "", "1.5%", "x%", "50 %", " 50%", "50%%", "%50", "5O%", "٥%")
    for name, words, err in (
        *[(f"--by {it!r}", ["--by", it, "r.json", "b"], r"--by <P%>|-1") for it in wrong],
        ("--by without a percentage", ["r.json", "b", "--by"], "--by <P%>"),
        ("--by twice", ["--by", "1%", "--by", "1%", "r.json", "b"], "--by <P%>"),
        ("--by x before a file that isn't there", ["--by", "x", "absent", "b"], r"\Aerror: invalid value 'x' for '--by <P%>': a whole number from 0 to 99 is wanted, with a % behind it\n"),
        ("--by x before a stage that isn't there", ["--by", "x", "r.json", "zz"], "--by <P%>"),
        *[(f"--want {it!r}", ["--want", it, "r.json", "b"], "--want <ENDING>") for it in ("", "values", "Value", "any", "failure", "null", "value ")],
        ("--want without a word", ["r.json", "b", "--want"], "--want <ENDING>"),
        ("--want twice", ["--want", "value", "--want", "value", "r.json", "b"], "--want <ENDING>"),
        ("--queued twice", ["--queued", "--queued", "r.json", "b"], "--queued"),
        ("--queued with a value", ["--queued=1", "r.json", "b"], "--queued"),
    ):
        yield Case(f"sweep {name}", ["sweep", *words], "", 2, err=err)
    for name in ("explain", "slack"):
        yield from (Case(f"{name} takes no {it}", [name, it, "r.json", "b"], "", 2, err=it) for it in ("--queued", "--want", "--by"))


def of_times():
    yield with_words("neither queued nor running", QUEUES, [], "b", "sweep of b at 41 stages 2", "a sooner 30 -> value:5 at 11", "b sooner 11 -> value:5 at 30")
    yield with_words("the queues alone", QUEUES, ["--queued"], "b", "sweep of b at 41 with queued=0% stages 2", "a sooner 20 -> value:5 at 21", "b sooner 6 -> value:5 at 35")
    yield with_words("half", QUEUES, ["--by", "50%"], "b", "sweep of b at 41 with queued=50% runs=50% stages 2", "a sooner 15 -> value:5 at 26", "b sooner 6 -> value:5 at 35")
    yield with_words("half of the queues", QUEUES, ["--queued", "--by", "50%"], "b", "sweep of b at 41 with queued=50% stages 2", "a sooner 10 -> value:5 at 31", "b sooner 3 -> value:5 at 38")
    yield with_words("all but a hundredth, rounded down", QUEUES, ["--by", "99%"], "b", "sweep of b at 41 with queued=99% runs=99% stages 2", "a sooner 2 -> value:5 at 39", "b sooner 2 -> value:5 at 39")
    yield with_words("a hundredth", QUEUES, ["--by=1%"], "b", "sweep of b at 41 with queued=1% runs=1% stages 2", "a sooner 30 -> value:5 at 11", "b sooner 11 -> value:5 at 30")
    yield with_words("no hundredth, as where it is left out", QUEUES, ["--by", "0%"], "b", "sweep of b at 41 stages 2", "a sooner 30 -> value:5 at 11", "b sooner 11 -> value:5 at 30")
    yield with_words("no hundredth of the queues", QUEUES, ["--by", "0%", "--queued"], "a", "sweep of a at 30 with queued=0% stages 1", "a sooner 20 -> value:4 at 10")
    yield with_words("zeros before a number", QUEUES, ["--by", "0050%"], "a", "sweep of a at 30 with queued=50% runs=50% stages 1", "a sooner 15 -> value:4 at 15")
    yield with_words("the first alone", QUEUES, ["--by", "50%", "--top", "1"], "b", "sweep of b at 41 with queued=50% runs=50% stages 2", "a sooner 15 -> value:5 at 26")
    yield with_words("a stage that waits", WAITS, ["--by", "50%"], "n", "sweep of n pending with queued=50% runs=50% stages 0")
    yield with_words("no queue", R, ["--queued"], "b", "sweep of b at 15 with queued=0% stages 0")
    yield with_words("one tick", recording(stage("async", runs=1, action=4), form=2), ["--by", "99%"], "a", "sweep of a at 1 with queued=99% runs=99% stages 1", "a sooner 1 -> value:4 at 0")
    yield with_words("no tick", recording(stage("async", created=7, action=4), form=2), ["--by", "50%"], "a", "sweep of a at 7 with queued=50% runs=50% stages 0")
    yield with_words(
        "the longest durations",
        recording(stage("async", created=MOST_TICKS, queued=MOST_TICKS, runs=MOST_TICKS, action=0), form=2),
        ["--by", "99%"],
        "a",
        f"sweep of a at {3 * MOST_TICKS} with queued=99% runs=99% stages 1",
        f"a sooner {2 * MOST_TICKS - 2 * (MOST_TICKS * 99 // 100)} -> value:0 at {MOST_TICKS + 2 * (MOST_TICKS * 99 // 100)}",
    )
    yield Case("sweep --by 50% of a file's name after --", ["sweep", "--by", "50%", "--", "r.json", "b"], lines("sweep of b at 15 with queued=50% runs=50% stages 2", "a sooner 5 -> value:5 at 10", "b sooner 3 -> value:5 at 12"))
    yield Case("sweep: --by at the end", ["sweep", "r.json", "b", "--by", "0%"], SWEPT)
    yield Case("sweep --by 50% of no stage", ["sweep", "--by", "50%", "r.json", "zz"], NO_STAGE, 1)


def of_endings():
    yield with_words("values before failures", EITHER, [], "e", "sweep of e at 4 stages 3", "x sooner 3 -> value:1 at 1", "e sooner 1 -> value:1 at 3", "y sooner 4 -> wrapped:X at 0")
    yield with_words("values alone", EITHER, ["--want", "value"], "e", "sweep of e at 4 stages 2", "x sooner 3 -> value:1 at 1", "e sooner 1 -> value:1 at 3")
    yield with_words("the first value alone", EITHER, ["--want=value", "--top=1"], "e", "sweep of e at 4 stages 2", "x sooner 3 -> value:1 at 1")
    yield with_words("no value", FAILS, ["--want", "value"], "b", "sweep of b at 3 stages 0")
    yield with_words("values alone, of half the times", EITHER, ["--want", "value", "--by", "50%"], "e", "sweep of e at 4 with queued=50% runs=50% stages 2", "x sooner 2 -> value:1 at 2", "e sooner 1 -> value:1 at 3")
    late = {"late": example("late-reply.json")}
    yield Case("sweep --want value of stock of the late reply", ["sweep", "--want", "value", "late", "stock"], lines("sweep of stock at 59 stages 1", "stock-north sooner 37 -> value:12 at 22"), files=late)
    yield Case("sweep --queued of customer of the late reply", ["sweep", "--queued", "late", "customer"], lines("sweep of customer at 114 with queued=0% stages 1", "customer-database sooner 14 -> value:17 at 100"), files=late)


def as_objects():
    first = '{"count":2,%s"moment":41,"report":"sweep","target":"b","trials":[{"moment":%d,"outcome":{"value":5},"sooner":%d,"stage":"a"}],"version":0}\n'
    for words, left, moment in (
        ([], "", 11),
        (["--by", "0%"], "", 11),
        (["--queued"], '"hundredths":{"queued":0},', 21),
        (["--by", "50%"], '"hundredths":{"queued":50,"runs":50},', 26),
        (["--queued", "--by", "50%", "--want", "value"], '"hundredths":{"queued":50},', 31),
    ):
        yield Case(f"sweep as JSON {' '.join(words)}", ["sweep", "--format", "json", "--top", "1", *words, "-", "b"], first % (left, moment, 41 - moment), stdin=QUEUES)


def sweep_cases():
    return map(with_r, [*refused_words(), *of_times(), *of_endings(), *as_objects()])


# ---- once more, by scripts


def swept(asking, part, percent):
    """The trials, in the order in which they are to be told."""
    timed = []
    for name, it in asking.stages.items():
        if "action" in it:
            here = asking.times[name]
            timed.append((name, here["queued"] * percent // 100, here["runs"] if part == "queue" else here["runs"] * percent // 100))
    before = asking.before[1]
    trials = []
    for (name, *_), (outcome, moment) in zip(timed, asking.completions(timed) if timed else []):
        if before is not None and moment is not None and moment < before:
            trials.append({"moment": moment, "outcome": outcome, "sooner": before - moment, "stage": name})
    return sorted(trials, key=lambda it: ("value" not in it["outcome"], it["moment"]))


def object_of(asking, part, percent, trials, ending, most):
    """The object that is to be told, of these trials."""
    told = [it for it in trials if ending is None or ending in it["outcome"]]
    left = {"hundredths": {"queued": percent} if part == "queue" else {"queued": percent, "runs": percent}} if (part, percent) != ("both", 0) else {}
    return {"count": len(told), **left, "moment": asking.before[1], "report": "sweep", "target": asking.target, "trials": told[:most], "version": 0}


def words_of(part, percent, ending, most):
    words = (["--queued"] if part == "queue" else []) + ([] if percent == 0 else ["--by", f"{percent}%"])
    return words + ([] if ending is None else ["--want", ending]) + ([] if most is None else ["--top", str(most)])


HOW_MANY = 100


def wrong(program, seed):
    """What is wrong with the sweeps of two stages of the recording of a seed, or nothing; and which kinds of trials there were."""
    made, met = some(seed), set()
    text, pick = json.dumps(made), random.Random(f"sweep {seed}")
    for target in {made["stages"][-1]["name"], pick.choice(made["stages"])["name"]}:
        asking = Asking(program, text, target)
        for part, percent in (("both", 0), ("queue", 0), ("both", pick.randrange(1, 100)), ("queue", pick.choice([1, 50, 99]))):
            trials = swept(asking, part, percent)
            endings = {"value" if "value" in it["outcome"] else "failure" for it in trials}
            met |= {(part, it) for it in endings} | ({"both endings"} if len(endings) == 2 else set())
            ending, most = pick.choice([None, None, "value"]), pick.choice([None, None, 0, 1, 3])
            line = f"{as_json(object_of(asking, part, percent, trials, ending, most))}\n".encode()
            words = ["sweep", "-", target, *words_of(part, percent, ending, most)]
            for form, out in (("text", text_of(line)[0].encode()), ("json", line)):
                came = run(program, Case("sweep", [*words, "--format", form], None, stdin=text, seconds=60))
                if (came.status, came.out) != (0, out):
                    return f"{' '.join(words)} as {form}: wanted {shown(out)}, came {shown(came.out)} with status {came.status}", met
    return "", met


def sweeps(program):
    """The name of each case, its complaint or nothing, and no refusal."""
    met = set()
    with concurrent.futures.ThreadPoolExecutor(LANES) as lanes:
        for seed, (said, of_seed) in enumerate(lanes.map(lambda it: wrong(program, it), range(HOW_MANY))):
            met |= of_seed
            yield f"a sweep in a recording made at random, {seed}, tells what scripts tell", said, set()
    lacking = sorted({"both endings", *[f"{part} {it}" for part in ("both", "queue") for it in ("value", "failure")]} - {it if isinstance(it, str) else " ".join(it) for it in met})
    yield "these recordings have every kind of trial", f"they lack {lacking}" if lacking else "", set()
