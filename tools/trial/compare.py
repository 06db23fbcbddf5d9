"""`whatif compare`: what made a stage late in one run that was not late in another; and the same of pairs of recordings made at random,
computed once more from other reports of both: `report`, and of each stage `explain`."""
import concurrent.futures
import copy
import json
import random

from .answers import as_json, text_of
from .cases import MOST_TICKS, NO_READ, R, lines, recording, stage, with_r
from .courses import timeout
from .limits import MOST_RECORDING, chain_of, filled
from .recomputed import WITH_ACTION, a_stage, some
from .run import CLOSED, LANES, Case, File, Pieces, Shut, run, shown
from .why import MISSING, NO_STAGE, example, help_of

UNREAD = R.replace('"op"', '"queue":1,"op"', 1)
TWICE = "standard input is read once, so one of the recordings at least has to be a file"

HELP_OF_COMPARE = help_of("""\
Prints what made a stage late in one run that was not late in another: its path in both, and the stages in which they differ

Usage: PROGRAM compare [OPTIONS] <GOOD> <BAD> [STAGE]

Arguments:
  <GOOD>   the recording of a run that went well; - is standard input
  <BAD>    the recording of one that was late, or failed; - is standard input, where GOOD is not
  [STAGE]  the stage, of this name in both; where it is left out, the one of BAD that completes last of those on which no other waits

Options:
      --quiet            leave explanations and warnings out
      --strict           end with status 1 where there is a warning
      --format <FORMAT>  text for people, or json for programs: a line for each answer, which is one object [default: text] [possible values: text, json]
  -h, --help             Print help

Examples:
  whatif compare examples/good-reply.json examples/late-reply.json reply
  whatif compare --format json examples/good-reply.json - reply < examples/late-reply.json

Stages are matched by their names. The lines: docs/FORMATS.md, Two runs compared.
""")


def timed(name, runs, action=0, **members):
    return stage("async", name, runs=runs, action=action, **members)


def then(name, source, runs=0, action=0, **members):
    return stage("thenApply", name, sources=[source], runs=runs, action=action, **members)


PATHS_OF_B = ["path of b at 15 stages 2", "b at 15 queued 0 ran 5 after a", "a at 10 queued 0 ran 10 created 0"]
SAME_B = ["b queued +0 ran +0 at +0 value:5 -> value:5", "a queued +0 ran +0 at +0 value:4 -> value:4"]
# (by place, so the first one first)
OF_ITSELF = lines(*PATHS_OF_B, *PATHS_OF_B, "differences of b at +0 stages 2", SAME_B[1], SAME_B[0])

# `b` is late and fails by `a`, beside a stage that `R` lacks.
LATER = recording(timed("more", 1), timed("a", 30, ["throw", "X"]), then("b", "a", 9), form=2)

# What is told of a stage of two recordings.
TOLD = [
    (
        "a stage that ran longer",
        recording(timed("a", 3), then("b", "a", 2), form=2),
        recording(timed("a", 10), then("b", "a", 2), form=2),
        "b",
        ["path of b at 5 stages 2", "b at 5 queued 0 ran 2 after a", "a at 3 queued 0 ran 3 created 0"],
        ["path of b at 12 stages 2", "b at 12 queued 0 ran 2 after a", "a at 10 queued 0 ran 10 created 0"],
        ["differences of b at +7 stages 2", "a queued +0 ran +7 at +7 value:0 -> value:0", "b queued +0 ran +0 at +7 value:0 -> value:0"],
    ),
    (
        "a stage that was queued, and one that was faster",
        recording(timed("a", 9), then("b", "a", 20, queued=1), form=2),
        recording(timed("a", 4), then("b", "a", 17, queued=41), form=2),
        "b",
        ["path of b at 30 stages 2", "b at 30 queued 1 ran 20 after a", "a at 9 queued 0 ran 9 created 0"],
        ["path of b at 62 stages 2", "b at 62 queued 41 ran 17 after a", "a at 4 queued 0 ran 4 created 0"],
        ["differences of b at +32 stages 2", "b queued +40 ran -3 at +32 value:0 -> value:0", "a queued +0 ran -5 at -5 value:0 -> value:0"],
    ),
    # (what was queued longer and ran shorter by as much has the same share in all)
    (
        "shares that are the same in all",
        recording(timed("c", 1), timed("a", 5, queued=2), form=2),
        recording(timed("c", 2), timed("a", 2, queued=5), form=2),
        "a",
        ["path of a at 7 stages 1", "a at 7 queued 2 ran 5 created 0"],
        ["path of a at 7 stages 1", "a at 7 queued 5 ran 2 created 0"],
        ["differences of a at +0 stages 2", "c queued +0 ran +1 at +1 value:0 -> value:0", "a queued +3 ran -3 at +0 value:0 -> value:0"],
    ),
    (
        "a path by other stages",
        recording(timed("fast", 3), timed("slow", 9), stage("allOf", "all", sources=["fast", "slow"]), form=2),
        recording(timed("slow", 9), timed("fast", 30), stage("allOf", "all", sources=["fast", "slow"]), form=2),
        "all",
        ["path of all at 9 stages 2", "all at 9 queued 0 ran 0 after slow", "slow at 9 queued 0 ran 9 created 0"],
        ["path of all at 30 stages 2", "all at 30 queued 0 ran 0 after fast", "fast at 30 queued 0 ran 30 created 0"],
        ["differences of all at +21 stages 3", "fast queued +0 ran +27 at +27 value:0 -> value:0", "slow queued +0 ran +0 at +0 value:0 -> value:0", "all queued +0 ran +0 at +21 value:null -> value:null"],
    ),
    (
        "a stage that timed out",
        recording(timed("call", 3, 1), then("reply", "call", 1, ["arg", 0]), form=2),
        recording(timed("call", 70, 1, ends=[timeout(50)]), then("reply", "call", 1, ["arg", 0]), form=2),
        "reply",
        ["path of reply at 4 stages 2", "reply at 4 queued 0 ran 1 after call", "call at 3 queued 0 ran 3 created 0"],
        ["path of reply at 50 stages 2", "reply at 50 queued 0 ran 0 after call", "call at 50 ended by orTimeout"],
        [
            "differences of reply at +46 stages 2",
            "call queued +0 ran -3 at +47 value:1 -> bare:java.util.concurrent.TimeoutException",
            "reply queued +0 ran -1 at +46 value:1 -> wrapped:java.util.concurrent.TimeoutException",
        ],
    ),
    (
        "an outcome alone",
        recording(timed("a", 3, 1), timed("b", 3, 1), form=2),
        recording(timed("a", 3, 1), timed("b", 3, ["throw", "X"]), form=2),
        "a",
        ["path of a at 3 stages 1", "a at 3 queued 0 ran 3 created 0"],
        ["path of a at 3 stages 1", "a at 3 queued 0 ran 3 created 0"],
        ["differences of a at +0 stages 2", "a queued +0 ran +0 at +0 value:1 -> value:1", "b queued +0 ran +0 at +0 value:1 -> wrapped:X"],
    ),
    (
        "a stage that waits",
        recording(timed("a", 3), then("b", "a", 2), form=2),
        recording(stage("manual", "a"), then("b", "a", 2), form=2),
        "b",
        ["path of b at 5 stages 2", "b at 5 queued 0 ran 2 after a", "a at 3 queued 0 ran 3 created 0"],
        ["path of b pending stages 2", "b waits for a", "a open"],
        ["differences of b at - stages 2", "a queued +0 ran -3 at - value:0 -> pending", "b queued +0 ran -2 at - value:0 -> pending"],
    ),
    (
        "a stage that waits in both",
        recording(stage("manual", "a"), form=2),
        recording(stage("manual", "a", created=9), form=2),
        "a",
        ["path of a pending stages 1", "a open"],
        ["path of a pending stages 1", "a open"],
        ["differences of a at - stages 1", "a queued +0 ran +0 at - pending -> pending"],
    ),
    (
        "stages of one alone",
        recording(timed("g1", 900), timed("a", 3), timed("g0", 1), form=2),
        recording(timed("b1", 1), stage("manual", "b0"), timed("a", 4), form=2),
        "a",
        ["path of a at 3 stages 1", "a at 3 queued 0 ran 3 created 0"],
        ["path of a at 4 stages 1", "a at 4 queued 0 ran 4 created 0"],
        ["differences of a at +1 stages 5", "a queued +0 ran +1 at +1 value:0 -> value:0", "b1 only in BAD", "b0 only in BAD", "g1 only in GOOD", "g0 only in GOOD"],
    ),
    (
        "a path by a stage of one alone",
        recording(timed("cache", 3), then("b", "cache", 2), form=2),
        recording(timed("database", 30), then("b", "database", 2), form=2),
        "b",
        ["path of b at 5 stages 2", "b at 5 queued 0 ran 2 after cache", "cache at 3 queued 0 ran 3 created 0"],
        ["path of b at 32 stages 2", "b at 32 queued 0 ran 2 after database", "database at 30 queued 0 ran 30 created 0"],
        ["differences of b at +27 stages 3", "b queued +0 ran +0 at +27 value:0 -> value:0", "database only in BAD", "cache only in GOOD"],
    ),
    # (`later` starts later and takes as long, so it is no cause)
    (
        "a stage that is late alone",
        recording(timed("a", 1), then("later", "a", 1), timed("c", 5), form=2),
        recording(timed("a", 3), then("later", "a", 1), timed("c", 5), form=2),
        "c",
        ["path of c at 5 stages 1", "c at 5 queued 0 ran 5 created 0"],
        ["path of c at 5 stages 1", "c at 5 queued 0 ran 5 created 0"],
        ["differences of c at +0 stages 2", "a queued +0 ran +2 at +2 value:0 -> value:0", "c queued +0 ran +0 at +0 value:0 -> value:0"],
    ),
    (
        "the longest durations",
        recording(timed("a", 0), form=2),
        recording(timed("a", MOST_TICKS, created=MOST_TICKS, queued=MOST_TICKS), form=2),
        "a",
        ["path of a at 0 stages 1", "a at 0 queued 0 ran 0 created 0"],
        [f"path of a at {3 * MOST_TICKS} stages 1", f"a at {3 * MOST_TICKS} queued {MOST_TICKS} ran {MOST_TICKS} created {MOST_TICKS}"],
        [f"differences of a at +{3 * MOST_TICKS} stages 1", f"a queued +{MOST_TICKS} ran +{MOST_TICKS} at +{3 * MOST_TICKS} value:0 -> value:0"],
    ),
]

# What is told of the late reply, beside one that was not late: its database was quick, and the south had the stock.
OF_THE_REPLY = [
    *["path of reply at 67 stages 8", "reply at 67 queued 0 ran 1 after page", "page at 66 queued 1 ran 7 after delivery", "delivery at 58 queued 0 ran 4 after stock"],
    *["stock at 54 queued 0 ran 1 after stock-south", "stock-south at 53 queued 3 ran 29 after basket", "basket at 21 queued 2 ran 11 after session"],
    *["session at 8 queued 0 ran 6 after request", "request at 2 queued 0 ran 2 created 0"],
    *["path of reply at 117 stages 5", "reply at 117 queued 0 ran 0 after page", "page at 117 queued 0 ran 0 after discount", "discount at 117 queued 0 ran 3 after customer"],
    *["customer at 114 took over customer-database", "customer-database at 114 queued 14 ran 88 created 12"],
    "differences of reply at +50 stages 13",
    "customer-database queued +12 ran +67 at +79 value:17 -> value:17",
    "stock-north queued -3 ran -61 at +36 value:12 -> bare:java.util.concurrent.TimeoutException",
    "page queued -1 ran -7 at +51 value:5499 -> wrapped:com.shop.StockServiceDown",
    "stock-south queued +0 ran +6 at +6 value:7 -> wrapped:com.shop.StockServiceDown",
    "delivery queued +0 ran -4 at +1 value:2 -> wrapped:com.shop.StockServiceDown",
    "stock queued +0 ran -1 at +5 value:7 -> wrapped:com.shop.StockServiceDown",
    "reply queued +0 ran -1 at +50 value:5499 -> wrapped:com.shop.StockServiceDown",
    "request queued +0 ran +0 at +0 value:4211 -> value:4211",
    "session queued +0 ran +0 at +0 value:4211 -> value:4211",
    "customer queued +0 ran +0 at +79 value:17 -> value:17",
    "basket queued +0 ran +0 at +0 value:3 -> value:3",
    "discount queued +0 ran +0 at +68 value:5497 -> value:5497",
    "audit only in BAD",
]

EACH_AS_JSON = (
    '{"moment":3,"report":"path","stage":"a","steps":[{"cause":{"at":0,"kind":"created"},"moment":3,"name":"a","queued":0,"ran":3}],"version":0}\n'
    '{"moment":4,"report":"path","stage":"a","steps":[{"cause":{"at":0,"kind":"created"},"moment":4,"name":"a","queued":0,"ran":4}],"version":0}\n'
    '{"bad":{"moment":4,"outcome":{"value":0}},"good":{"moment":3,"outcome":{"value":0}},"report":"differences","stage":"a","stages":['
    '{"bad":{"moment":4,"outcome":{"value":0},"queued":0,"ran":4},"good":{"moment":3,"outcome":{"value":0},"queued":0,"ran":3},"name":"a"},'
    '{"bad":{"moment":1,"outcome":{"value":0},"queued":0,"ran":1},"good":null,"name":"b1"},'
    '{"bad":{"moment":null,"outcome":null,"queued":0,"ran":0},"good":null,"name":"b0"},'
    '{"bad":null,"good":{"moment":900,"outcome":{"value":0},"queued":0,"ran":900},"name":"g1"},'
    '{"bad":null,"good":{"moment":1,"outcome":{"value":0},"queued":0,"ran":1},"name":"g0"}]}\n'
)


def refused_words():
    for name, words, err in (
        ("without a file", [], f"(?s){MISSING}.*<GOOD>.*<BAD>"),
        ("with one file", ["r.json"], f"(?s){MISSING}.*<BAD>"),
        ("of two stages", ["r.json", "r.json", "a", "b"], "'b'"),
        ("with an unknown option", ["--nonsense", "r.json", "r.json", "a"], "nonsense"),
        ("of a stage that is no text", ["r.json", "r.json", b"\xff"], r"\S"),
        ("takes no --top", ["--top", "1", "r.json", "r.json", "b"], "--top"),
        ("with standard input twice", ["-", "-", "b"], rf"\Awhatif: {TWICE}\n\Z"),
        ("with standard input twice, before a stage that isn't there", ["-", "-", "zz"], TWICE),
        ("--quiet with standard input twice", ["--quiet", "-", "-", "b"], TWICE),
    ):
        yield Case(f"compare {name}", ["compare", *words], "", 2, err=err)


def of_files():
    yield Case("compare a recording with itself", ["compare", "r.json", "r.json", "b"], OF_ITSELF, err=r"\A\Z")
    yield Case("compare files after --", ["compare", "--", "r.json", "r.json", "b"], OF_ITSELF)
    yield Case("compare two files needs no standard input", ["compare", "r.json", "r.json", "b"], OF_ITSELF, stdin=CLOSED)
    yield Case("compare standard input with a file", ["compare", "-", "r.json", "b"], OF_ITSELF, stdin=R)
    yield Case("compare a file with standard input", ["compare", "r.json", "-", "b"], OF_ITSELF, stdin=R)
    yield Case("compare with standard input a byte at a time", ["compare", "r.json", "-", "b"], OF_ITSELF, stdin=Pieces(lambda: (bytes([it]) for it in R.encode())))
    for at, words in (("GOOD", ["-", "r.json"]), ("BAD", ["r.json", "-"])):
        yield Case(f"compare: a closed standard input as {at}", ["compare", *words, "b"], NO_READ, 3, stdin=CLOSED)
        yield Case(f"compare: a folder on standard input as {at}", ["compare", *words, "b"], NO_READ, 3, stdin=File("."))
        yield Case(f"compare: standard input that is too long as {at}", ["compare", *words, "b"], "refused 72 TooLong\n", 1, err=r"\Awhatif: standard input: it has more", stdin=lambda: filled(R, MOST_RECORDING + 1))
        yield Case(f"compare: a warning of standard input as {at}", ["compare", *words, "b"], OF_ITSELF, stdin=UNREAD, err=r"\Awhatif: standard input: .*nothing reads")
        yield Case(f"compare --quiet: a warning of standard input as {at}", ["compare", "--quiet", *words, "b"], OF_ITSELF, stdin=UNREAD, err=r"\A\Z")
        yield Case(f"compare --strict: a warning of standard input as {at}", ["compare", "--strict", *words, "b"], "", 1, stdin=UNREAD, err="nothing reads")
    for at, words in (("GOOD", ["other", "r.json"]), ("BAD", ["r.json", "other"])):
        yield Case(f"compare: no file as {at}", ["compare", *words, "b"], NO_READ, 3, err=r"\Awhatif: other: No such file or directory\n\Z")
        yield Case(f"compare: a file that may not be read as {at}", ["compare", *words, "b"], NO_READ, 3, files={"other": Shut(R)})
        yield Case(f"compare: a refused recording as {at}", ["compare", *words, "b"], "refused 70 JSON\n", 1, err=r"\Awhatif: other: ", files={"other": "["})
        yield Case(f"compare: a circle as {at}", ["compare", *words, "b"], "refused 19 Cycle\n", 1, err=r"\Awhatif: other: ", files={"other": recording(stage("copy", sources=["a"]))})
        yield Case(f"compare: no stage of the name in {at}", ["compare", *words, "b"], NO_STAGE, 1, err=r'\Awhatif: other: .*"b"', files={"other": recording(stage("manual", "m"))})
        yield Case(f"compare: a stage that is nearly there in {at}", ["compare", *words, "b"], NO_STAGE, 1, err='other: .*did you mean "bb"', files={"other": recording(stage("manual", "bb"))})
    yield Case("compare: of two refused recordings the good one is told", ["compare", "one", "other", "b"], "refused 70 JSON\n", 1, err=r"(?m)^whatif: one: line 1", files={"one": "[", "other": R.replace("a", "")})
    yield Case("compare: the stage of the good run before the bad recording", ["compare", "r.json", "other", "zz"], NO_STAGE, 1, err=r"\Awhatif: r.json: ", files={"other": "["})
    yield from (Case(f"compare: no stage {it[:4]!r}", ["compare", "r.json", "r.json", it], NO_STAGE, 1) for it in ("zz", "", "B", " b", "-", "n" * 70))
    for where, err in (("full", r"\Awhatif: standard output: No space left on device\n\Z"), ("closed", r"\Awhatif: standard output: Bad file descriptor\n\Z"), ("gone", r"\A\Z")):
        yield Case(f"compare on a {where} standard output", ["compare", "r.json", "r.json", "b"], "", 3, err=err, stdout=where)


def chain_path(stages, named="s{}".format):
    """The path of the end of a chain, whose stages have these names."""
    last = stages - 1
    steps = [f"{named(it)} at {10 + it} queued 0 ran 1 after {named(it - 1)}" for it in range(last, 0, -1)]
    return [f"path of {named(last)} at {10 + last} stages {stages}", *steps, f"{named(0)} at 10 queued 0 ran 10 created 0"]


def chain_compared(stages):
    """A chain beside itself."""
    same = [f"s{it} queued +0 ran +0 at +0 value:{4 + it} -> value:{4 + it}" for it in range(stages)]
    return lines(*chain_path(stages), *chain_path(stages), f"differences of s{stages - 1} at +0 stages {stages}", *same)


def other_of(stages):
    """A chain all of whose stages have other names, but for the last one."""
    return chain_of(stages).replace('"s', '"t').replace(f'"t{stages - 1}"', f'"s{stages - 1}"').replace('"tources"', '"sources"').replace('"ttages"', '"stages"')


def others_compared(stages):
    """A chain beside that one."""
    last = stages - 1
    path = chain_path(stages, lambda it: f"s{it}" if it == last else f"t{it}")
    alone = [*[f"t{it} only in BAD" for it in range(last)], *[f"s{it} only in GOOD" for it in range(last)]]
    return lines(*chain_path(stages), *path, f"differences of s{last} at +0 stages {2 * stages - 1}", f"s{last} queued +0 ran +0 at +0 value:{4 + last} -> value:{4 + last}", *alone)


def of_large():
    large = {"large": lambda: chain_of(65_536), "other": lambda: other_of(65_536)}
    yield Case("compare of a chain of 65,536 stages with itself", ["compare", "large", "large", "s65535"], lambda: chain_compared(65_536), files=large, seconds=60)
    yield Case("compare of stages that all have other names", ["compare", "large", "other", "s65535"], lambda: others_compared(65_536), files=large, seconds=60)


def compare_made():
    yield from (Case(f"help of compare, by {' '.join(words)}", words, HELP_OF_COMPARE) for words in (["compare", "--help"], ["compare", "-h"], ["help", "compare"]))
    yield from refused_words()
    yield from of_files()
    for name, good, bad, of, path, other, told in TOLD:
        yield Case(f"compare of {of}: {name}", ["compare", "good", "bad", of], lines(*path, *other, *told), files={"good": good, "bad": bad})
    (alone,) = [it for it in TOLD if it[0] == "stages of one alone"]
    for form in (["--format", "json"], ["--format=json"]):
        yield Case(f"compare as JSON, by {form[0]}", ["compare", *form, "good", "bad", "a"], EACH_AS_JSON, files={"good": alone[1], "bad": alone[2]})
    yield from of_large()
    good, bad = example("good-reply.json"), example("late-reply.json")
    yield Case("compare of the late reply", ["compare", "good", "bad", "reply"], lines(*OF_THE_REPLY), files={"good": good, "bad": bad})


def compare_cases():
    return map(with_r, compare_made())


# ---- once more, from other reports of both recordings


class Run:
    """What each stage of a recording came to, its own share of the time as its path's line tells it, and the path of one of them."""

    def __init__(self, program, text, target):
        def told(*words):
            out = run(program, Case("asked", [words[0], "--format", "json", "r.json", *words[1:]], None, files={"r.json": text}, seconds=60)).out
            return out.splitlines()

        self.ends = {it["name"]: {"moment": it["moment"], "outcome": it["outcome"]} for it in json.loads(told("report")[0])["stages"]}
        paths = {name: [it for it in told("explain", name) if b'"report":"path"' in it][0] for name in self.ends}
        steps = {name: json.loads(line)["steps"] for name, line in paths.items()}
        self.shares = {name: (it[0]["queued"], it[0]["ran"]) for name, it in steps.items()}
        self.path_line = paths[target]
        self.path = {it["name"] for it in steps[target]}

    def part(self, name):
        """What is told of a stage, if the run has it."""
        if name not in self.ends:
            return None
        queued, ran = self.shares[name]
        return {**self.ends[name], "queued": queued, "ran": ran}


def listed(good, bad):
    """The stages that are told of, in order."""
    both = [it for it in bad.ends if it in good.ends]
    told = [it for it in both if it in good.path | bad.path or good.shares[it] != bad.shares[it] or good.ends[it]["outcome"] != bad.ends[it]["outcome"]]
    told.sort(key=lambda it: -abs(sum(bad.shares[it]) - sum(good.shares[it])))
    return [*told, *(it for it in bad.ends if it not in good.ends), *(it for it in good.ends if it not in bad.ends)]


def differences(good, bad, target):
    stages = [{"bad": bad.part(it), "good": good.part(it), "name": it} for it in listed(good, bad)]
    return {"bad": bad.ends[target], "good": good.ends[target], "report": "differences", "stage": target, "stages": stages}


HOW_MANY = 60


def renamed(made, old, new):
    """The stages, one of which has another name."""
    for it in made:
        it["name"] = new if it["name"] == old else it["name"]
        for feeds in ("sources", "inner"):
            if feeds in it:
                it[feeds] = [new if feed == old else feed for feed in it[feeds]]


def twin(pick, made):
    """Another run of the same: some stages take other times or come to something else, have another name, or are one more."""
    other = copy.deepcopy(made)
    for it in other["stages"]:
        if it["op"] in WITH_ACTION and pick.random() < 0.3:
            it[pick.choice(["queued", "runs"])] = pick.choice([0, 1, 9, 70])
        if it["op"] in WITH_ACTION and pick.random() < 0.1:
            it["action"] = pick.choice([0, 1, ["throw", "com.shop.Late"]])
        if pick.random() < 0.1:
            it.pop("ends", None)
    names = [it["name"] for it in other["stages"]]
    for name in names[:-1]:
        if pick.random() < 0.1:
            renamed(other["stages"], name, f"{name}-other")
    if pick.random() < 0.5:
        other["stages"].append(a_stage(pick, "one-more", [it["name"] for it in other["stages"]]))
    if pick.random() < 0.5:
        pick.shuffle(other["stages"])
    return other


def wrong(program, seed):
    """What is wrong with what is told of a stage of two recordings of a seed, or nothing; and what kinds of rows there were."""
    pick = random.Random(f"compare {seed}")
    made = some(seed)
    other = twin(pick, made)
    if pick.random() < 0.5:
        made, other = other, made
    shared = [it["name"] for it in made["stages"] if it["name"] in {it["name"] for it in other["stages"]}]
    target = pick.choice(shared)
    texts = json.dumps(made), json.dumps(other)
    good, bad = (Run(program, it, target) for it in texts)
    wanted = b"".join(it + b"\n" for it in (good.path_line, bad.path_line, as_json(differences(good, bad, target)).encode()))
    text = text_of(wanted)[0]
    for form, out in (("text", text.encode()), ("json", wanted)):
        words = ["compare", "--format", form, "good", "bad", target]
        came = run(program, Case("compare", words, None, files={"good": texts[0], "bad": texts[1]}, seconds=60))
        if (came.status, came.out) != (0, out):
            return f"{' '.join(words)}: wanted {shown(out)}, came {shown(came.out)} with status {came.status}", text
    return "", text


KINDS = ("only in GOOD", "only in BAD", "queued +0 ran +0", "queued -", "ran -", " at - ", " at -1", "-> pending", "pending ->", "-> wrapped", "ran +7")


def comparisons(program):
    """The name of each case, its complaint or nothing, and no refusal."""
    met = ""
    with concurrent.futures.ThreadPoolExecutor(LANES) as lanes:
        for seed, (said, text) in enumerate(lanes.map(lambda it: wrong(program, it), range(HOW_MANY))):
            met += text
            yield f"compare of two recordings made at random, {seed}, is as their other reports say", said, set()
    lacking = [it for it in KINDS if it not in met]
    yield "these recordings have every kind of difference", f"they lack {lacking}" if lacking else "", set()
