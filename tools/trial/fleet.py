"""What `fleet` answers of many traces: the five of docs/FLEET.md; the words of the command line; parts that are joined in other
orders and groups; files of traces made at random, of each of which the other commands are asked the same: `import --each` for
its recordings, `explain` for the path and the failure of each reply, and `try` for how it comes where all work of a group takes no
time; and texts so long that they are read by lines, against short ones of the same traces."""
import collections
import concurrent.futures
import json
import math
import os
import random
import re
import subprocess

from .calls import calls
from .cases import R
from .each_trace import in_trace, mixed
from .edited_traces import as_otlp
from .readme import read
from .run import CLOSED, LANES, Case, Sparse, run, shown
from .trace_forms import by_lines
from .traces import MOST_OF_FILE, otlp, span

FIVE = "examples/fleet/five.jsonl"
PLAIN = re.compile(rb'[^\x00-\x20"\x7f]+')
NO_REPLY = "refused 86 NoReply\n"
NO_TRACE = '{"resourceSpans":[]}'
# Two summaries, each on a line.
SUMMARIES = ''.join(
    f'{{"by":"span","failures":[{{"exception":"E","group":"a.b","replies":1}}],"groups":[{{"name":"a.b","paths":1,"queued":[],"ran":[[{it},5]],"sooner":5,"spans":1,"times":[[{it},1]],"timesThen":[[1,1]],"traces":1}}],"replies":{{"count":1,"failed":1,"times":[[{it},1]]}},"reply":null,"try":null,"unit":"us","whatif-fleet":2}}\n'
    for it in (100, 300)
)
# The first of them, and the same of other numbers, with what is told of these.
ONE = SUMMARIES.splitlines(keepends=True)[0]
OTHERS = {
    "groups": (ONE.replace('"span"', '"service"'), "its groups are by service and those of the first summary by span, or the other way round"),
    "ticks": (ONE.replace('"us"', '"ms"'), "its ticks are of another unit than those of the first summary"),
    "replies": (ONE.replace('"reply":null', '"reply":"a"'), "its replies are of other spans than those of the first summary"),
}
# What a change comes to in the trace of the first of them, where it counts its reply, and where it counts none.
TRIED = ONE.replace('"try":null', '"try":"a.b runs=0"').replace('"groups":[{', '"groups":[],"x":[{')
UNTRIED = '{"by":"service","failures":[],"groups":[],"replies":{"count":0,"failed":0,"times":[]},"reply":"c","try":"a.b runs=0","unit":"ms","whatif-fleet":2}\n'
# A summary of no trace.
EMPTY = '{"by":"span","failures":[],"groups":[],"replies":{"count":0,"failed":0,"times":[]},"reply":null,"try":null,"unit":null,"whatif-fleet":2}\n'


# What is assigned to groups.
CHANGES = [["runs=50%"], ["runs=0", "queued=0"], ["runs=20"], ["runs=7", "queued=3"], ["queued=200%"], ["gives=7"], ["fails=java.io.IOException"], ["gives=1", "runs=1"], ["at=5"]]
# A source of its second stage is no stage.
REFUSED = R.replace('["a"]', '["aa"]')
WHY_REFUSED = r'standard input: the recording of line 2: line 1: stage "b" \(place 1\): source "aa" is no stage; did you mean "a"\?\n'
# A recording whose one stage has a timeout, which is not reached.
LIMITED = '{"form":2,"stages":[{"name":"a.b","op":"async","runs":50,"action":1,"ends":[{"do":"orTimeout","at":0,"delay":100}]}]}'
# From so many bytes on a text is read by its lines.
LEAST_BY_LINES = 1_048_576
# more than twice the bytes of lines that are read at once
TWICE_AT_ONCE = 17_000_000


# ---- the answer, computed once more


def step(time):
    below = max(time.bit_length() - 7, 0)
    return 64 * below + (time >> below)


def upper_end(at):
    below = max(at // 64 - 1, 0)
    return ((at - 64 * below + 1) << below) - 1


def quantile(times, hundredths):
    """Told as the last time of its step; none where there is no time."""
    if not times:
        return None
    rank = max(math.ceil(hundredths * len(times) / 100), 1)
    return upper_end(step(sorted(times)[rank - 1]))


def share(groups, name, which):
    """For each of some replies, in whole ticks."""
    some = [it["groups"].get(name, {"ran": 0, "queued": 0}) for it in which]
    return {word: sum(it[word] for it in some) // max(len(which), 1) for word in ("ran", "queued")}


def slowest_of(facts, percent):
    """The slowest: those that are no faster, by their step, than the first of them."""
    rank = (100 - percent) * len(facts) // 100
    first = step(sorted(it["time"] for it in facts)[rank])
    return [it for it in facts if step(it["time"]) >= first]


def replies_of(facts):
    """How many replies there are, how many failed, and how long they took."""
    times = [it["time"] for it in facts]
    failed = sum(1 for it in facts if it["failure"])
    return {"count": len(facts), "failed": failed, "p50": quantile(times, 50), "p90": quantile(times, 90), "p99": quantile(times, 99), "max": quantile(times, 100)}


def answer_of(facts, percent=None, tries=()):
    """What the facts of traces come to, and those by some changes, as `fleet --format json` prints it."""
    slow = None if percent is None else slowest_of(facts, percent)
    groups = []
    for name in sorted({name for it in facts for name in it["groups"]}, key=str.encode):
        own = [it for it in facts if name in it["groups"]]
        of_group = [it["groups"][name] for it in own]
        groups.append(
            {
                "name": name,
                "traces": len(own),
                "spans": sum(it["spans"] for it in of_group),
                "onPath": sum(it["on_path"] for it in of_group),
                "ran": sum(it["ran"] for it in of_group),
                "queued": sum(it["queued"] for it in of_group),
                "sooner": sum(max(one["time"] - it["then"], 0) for one, it in zip(own, of_group)),
                "p99": quantile([it["groups"][name]["then"] if name in it["groups"] else it["time"] for it in facts], 99),
                "perReply": None if slow is None else {"slowest": share(groups, name, slow), "all": share(groups, name, facts)},
            }
        )
    groups.sort(key=lambda it: -it["sooner"])
    failed = collections.Counter(it["failure"] for it in facts if it["failure"])
    return {
        "report": "fleet",
        "replies": replies_of(facts),
        "groups": groups,
        "tries": [{"change": change, "replies": replies_of(tried)} for change, tried in tries],
        "slowest": None if slow is None else {"percent": percent, "replies": len(slow)},
        "failures": [{"exception": name, "group": group, "replies": failed[name, group]} for name, group in sorted(failed, key=lambda it: (it[0].encode(), it[1].encode()))],
    }


def name_text(name):
    return name if PLAIN.fullmatch(name.encode()) else json.dumps(name, ensure_ascii=False)


def reply_line(told):
    return f"replies {told['count']} failed {told['failed']} p50 {told['p50']} p90 {told['p90']} p99 {told['p99']} max {told['max']}"


def text_of(answer):
    """The same as text."""
    lines = [reply_line(answer["replies"])]
    for it in answer["groups"]:
        p99 = "-" if it["p99"] is None else it["p99"]
        lines.append(
            f"{name_text(it['name'])} traces {it['traces']} spans {it['spans']} on-path {it['onPath']} ran {it['ran']} queued {it['queued']} sooner {it['sooner']} p99 {p99}"
        )
    lines += [f"try {name_text(it['change'])} {reply_line(it['replies'])}" for it in answer["tries"]]
    if answer["slowest"]:
        lines.append(f"slowest {answer['slowest']['percent']} replies {answer['slowest']['replies']}")
        for it in answer["groups"]:
            slow, every = it["perReply"]["slowest"], it["perReply"]["all"]
            lines.append(f"{name_text(it['name'])} slowest ran {slow['ran']} queued {slow['queued']} all ran {every['ran']} queued {every['queued']}")
    lines += [f"{name_text(it['exception'])} from {name_text(it['group'])} replies {it['replies']}" for it in answer["failures"]]
    return "".join(f"{it}\n" for it in lines)


# ---- the facts of a trace, by the other commands


def json_lines(program, words, text):
    answer = run(program, Case("fleet", words, None, stdin=text, seconds=60))
    return [json.loads(it) for it in answer.out.splitlines()]


def span_of(name, wholes):
    """The id of the span whose stage this is."""
    return wholes.get(name) or wholes[name.rsplit(".", 1)[0]]


def then_of(program, text, stages, reply, time):
    """When the reply comes where these stages' actions take no time."""
    hurried = [it["name"] for it in stages if "action" in it and (it.get("queued", 0) or it.get("runs", 0)) and not it["name"].endswith(".limit")]
    if not hurried:
        return time
    changes = [f"{it} queued=0 runs=0" for it in hurried]
    told = json_lines(program, ["try", "--quiet", "--format", "json", "-", *changes, "--stage", reply], text)
    (change,) = (it for it in told if it.get("report") == "change")
    then = change["new"]["moment"]
    return time if then is None else then


def facts_of(program, text, spans, by):
    """The facts of a recording, whose spans have these groups; none where the reply is pending."""
    stages = json.loads(text)["stages"]
    wholes = {it["name"]: it["span"] for it in stages if "span" in it}
    group_of = {it["name"]: spans[span_of(it["name"], wholes)] for it in stages}
    reply = stages[0]["name"].removesuffix(".start")
    one, blame, path, *_ = json_lines(program, ["explain", "--quiet", "--format", "json", "-", reply], text)
    if one["moment"] is None:
        return None
    outcome = one["outcome"]
    exception = outcome.get("bare") or outcome.get("wrapped")
    chain = blame["chain"] or [reply]
    counts = collections.Counter(spans.values())
    groups = {}
    for group in counts:
        steps = [it for it in path["steps"] if group_of[it["name"]] == group]
        own = [it for it in stages if group_of[it["name"]] == group]
        groups[group] = {
            "spans": counts[group],
            "on_path": bool(steps),
            "ran": sum(it["ran"] for it in steps),
            "queued": sum(it["queued"] for it in steps),
            "then": then_of(program, text, own, reply, one["moment"]),
        }
    return {"time": one["moment"], "failure": (exception, group_of[chain[-1]]) if exception else None, "groups": groups}


def share_words(stages, time, amount):
    """What an amount that is assigned to one time of a span's work, as `20` or `50%`, is of its pieces."""
    works = [it for it in stages if "action" in it and not it["name"].endswith(".limit")]
    pieces = [it for it in works if it.get(time, 0)]
    whole = sum(it[time] for it in pieces)
    if amount.endswith("%"):
        return {it["name"]: f"{time}={amount}" for it in pieces}
    if not pieces:
        return {works[-1]["name"]: f"{time}={amount}"} if works else {}
    words, before = {}, 0
    for it in pieces:
        upto = before + it[time]
        words[it["name"]] = f"{time}={int(amount) * upto // whole - int(amount) * before // whole}"
        before = upto
    return words


def change_words(text, spans, group, assignments):
    """The changes of a recording's stages that assignments to a group are."""
    stages = json.loads(text)["stages"]
    wholes = {it["name"]: it["span"] for it in stages if "span" in it}
    words = collections.defaultdict(list)
    for span, own_group in spans.items():
        if own_group == group:
            own = [it for it in stages if span_of(it["name"], wholes) == span]
            for assignment in assignments:
                time, amount = assignment.split("=")
                if time in ("queued", "runs"):
                    for name, word in share_words(own, time, amount).items():
                        words[name].append(word)
                else:
                    (end,) = (it["name"] for it in own if it["name"] in wholes)
                    words[end].append(assignment)
    return [f"{name} {' '.join(own)}" for name, own in words.items()]


def tried_of(program, text, words, facts):
    """When the reply comes by changes, and whether it fails then; as it did where it never comes."""
    if not words:
        return facts
    reply = json.loads(text)["stages"][0]["name"].removesuffix(".start")
    told = json_lines(program, ["try", "--quiet", "--format", "json", "-", *words, "--stage", reply], text)
    (change,) = (it for it in told if it.get("report") == "change")
    new = change["new"]
    if new["moment"] is None:
        return facts
    return {"time": new["moment"], "failure": not isinstance(new["outcome"], dict) or "value" not in new["outcome"]}


def small_calls(seed):
    """The first of the traces made at random, from this one on, that is short enough for `try`."""
    return next(made for at in range(seed, seed + 1000) if 3 <= len(made := calls(at)) <= 14)


def some_night(seed, count):
    """A file of traces whose spans come by turns, and of each trace its spans' services and names."""
    made = [small_calls(seed * 10_000 + 1000 * at) for at in range(count)]
    texts = [in_trace(as_otlp(spans), f"{at + 10:x}")["resourceSpans"] for at, spans in enumerate(made)]
    return by_lines(*({"resourceSpans": [it]} for it in mixed(texts))), made


def difference(program, seed):
    """How the answer about a file of traces is another one than the other commands give, or nothing."""
    rng = random.Random(f"fleet {seed}")
    by, percent = rng.choice(("span", "service")), rng.choice((None, 1, 10, 50, 100))
    text, made = some_night(seed, 6)
    recordings = run(program, Case("each", ["import", "--each", "--quiet"], None, stdin=text)).out.decode().splitlines()
    named = {it["service"] if by == "service" else f"{it['service']}.{it['name']}" for spans in made for it in spans}
    changes = [(rng.choice(sorted(named)), own) for own in rng.sample(CHANGES, 2)]
    facts, tried = [], [[] for _ in changes]
    for recording in recordings:
        spans = made[int(json.loads(recording)["trace"], 16) - 10]
        groups = {it["id"]: it["service"] if by == "service" else f"{it['service']}.{it['name']}" for it in spans}
        if found := facts_of(program, recording, groups, by):
            facts.append(found)
            for (group, own), after in zip(changes, tried):
                after.append(tried_of(program, recording, change_words(recording, groups, group, own), found))
    tries = [(f"{group} {' '.join(own)}", after) for (group, own), after in zip(changes, tried)]
    words = ["fleet", "--quiet", "--by", by, "--workers", rng.choice(("1", "3")), *([] if percent is None else ["--slowest", str(percent)])]
    words += [it for change, _ in tries for it in ("--try", change)]
    wanted = answer_of(facts, percent, tries)
    came = run(program, Case("fleet", [*words, "--format", "json", "-"], None, stdin=text))
    if json.loads(came.out) != wanted:
        return f"wanted {json.dumps(wanted)}, came {came.out.decode()}"
    told = run(program, Case("fleet", [*words, "-"], None, stdin=text))
    if told.out.decode() != text_of(wanted):
        return f"wanted {text_of(wanted)}, came {told.out.decode()}"
    return ""


def joined_difference(program, seed):
    """How parts that are joined, in another order and in groups, are another answer than that about all, or nothing."""
    rng = random.Random(f"parts {seed}")
    texts = [some_night(100 + seed * 10 + at, 3)[0] for at in range(4)]
    files = {f"{at}.jsonl": text for at, text in enumerate(texts)}
    tries = ["--try", "a.one runs=50%", "--try", "b.two gives=7"]
    whole = run(program, Case("all", ["fleet", "--quiet", *tries, "--slowest", "10", *files], None, files=files, seconds=60))
    parts = [run(program, Case("part", ["fleet", "--quiet", *tries, "--part", "-"], None, stdin=text)).out.decode() for text in texts]
    rng.shuffle(parts)
    half = run(program, Case("half", ["fleet", "--join", "--part", "-"], None, stdin="".join(parts[:2]))).out.decode()
    answers = [
        run(program, Case("lines", ["fleet", "--join", "--slowest", "10", "-"], None, stdin="".join(parts))),
        run(program, Case("tree", ["fleet", "--join", "--slowest", "10", "half", "c", "d"], None, files={"half": half, "c": parts[2], "d": parts[3]})),
    ]
    return "; ".join(f"wanted {shown(whole.out)}, came {shown(it.out)} {shown(it.err)}" for it in answers if it.out != whole.out)


# ---- long texts, against short ones


def padded(text, least=LEAST_BY_LINES):
    """The same text with blanks behind each of its lines, so many that it has that many bytes at least, and is read by lines."""
    count = len(re.findall(r"[^\r\n]*\S[^\r\n]*", text))
    blanks = " " * (least // count + 1)
    return re.sub(r"[^\r\n]*\S[^\r\n]*", lambda it: it[0] + blanks, text)


def short_texts():
    """Each name, what the answer begins with, the words, and a text: several lines, each of which is a text of its own."""
    made = [in_trace(as_otlp(small_calls(310_000 + 1000 * at)), f"{at + 10:x}") for at in range(5)]
    made.insert(2, in_trace(otlp(span("first", 0, 0)), "7"))
    each = by_lines(*made)
    night = by_lines(*({"resourceSpans": [it]} for it in mixed(it["resourceSpans"] for it in made)))
    words = ["--by", "service", "--slowest", "50", "--try", "shop runs=50%", "--try", "db gives=7"]
    yield "traces, each on one line", "replies 5 ", words, each
    yield "traces whose spans are mixed over lines", "replies 5 ", words, night
    yield "lines that end with CR and LF", "replies 5 ", words, night.replace("\n", "\r\n")
    yield "traces with blank lines between", "replies 5 ", words, f"\n{night}".replace("\n", "\n\n \t\n")
    yield "traces without a newline at the end", "replies 5 ", words, night.rstrip("\n")
    yield "traces of which the last line is cut", "replies 5 ", words, f"{night}{NO_TRACE[:-1]}"
    yield "traces, strictly", "refused 83 NoTime ", ["--strict", *words], night
    yield "no span", NO_REPLY, words, f"{NO_TRACE}\n" * 3
    yield "no span, strictly", "refused 81 NoTrace\n", ["--strict", *words], f"{NO_TRACE}\n" * 3
    yield "recordings, of which one is refused", "replies 2 ", words, f"{R}\n{REFUSED}\n{R}\n"
    yield "recordings, strictly", "refused 14 NoSource ", ["--strict", *words], f"{R}\n{REFUSED}\n{R}\n"


def far_text():
    """The same of a text of 120 traces, of which one has spans on the first line and on the last ones, and one in the middle is refused."""
    made = [in_trace(as_otlp(small_calls(340_000 + at)), f"{at + 10:x}") for at in range(120)]
    far = made.pop(next(at for at, it in enumerate(made) if len(it["resourceSpans"]) > 1))
    first, *last = ({"resourceSpans": [it]} for it in far["resourceSpans"])
    text = by_lines(first, *made[:60], in_trace(otlp(span("first", 0, 0)), "7"), *made[60:], *last)
    yield "many traces, of which one is far apart", "replies 120 ", ["--try", "shop.first runs=5"], text


def long_difference(program, least, begin, words, text):
    """How a text of that many bytes is answered otherwise than a short one of the same lines, as a file or as standard input, or nothing."""
    grown = padded(text, least)
    for name, given in (("night", lambda it: {"files": {"night": it}}), ("-", lambda it: {"stdin": it})):
        wanted = run(program, Case("short", ["fleet", *words, name], None, seconds=60, **given(text)))
        if not wanted.out.startswith(begin.encode()):
            return f"wanted {begin!r} of the short text, came {shown(wanted.out)} {shown(wanted.err)}"
        for workers in ("1", "3", "16"):
            came = run(program, Case("long", ["fleet", *words, "--workers", workers, name], None, seconds=60, **given(grown)))
            if came != wanted:
                return f"of {name} by {workers} workers wanted {wanted.status} {shown(wanted.out)} {shown(wanted.err)}, came {came.status} {shown(came.out)} {shown(came.err)}"
    return ""


def fleets(program):
    """The name of each comparison, its complaint or nothing, and no refusal."""
    with concurrent.futures.ThreadPoolExecutor(LANES) as lanes:
        texts = [*((LEAST_BY_LINES, *it) for it in short_texts()), *((TWICE_AT_ONCE, *it) for it in far_text())]
        for (_, name, *_), said in zip(texts, lanes.map(lambda it: long_difference(program, it[0], *it[2:]), texts)):
            yield f"fleet of a long text of {name}: as of a short one", said, set()
        for seed, said in zip(range(20), lanes.map(lambda it: difference(program, it), range(20))):
            yield f"fleet of traces made at random, {seed}: as the other commands say of each", said, set()
        for seed, said in zip(range(5), lanes.map(lambda it: joined_difference(program, it), range(5))):
            yield f"fleet --join of parts of traces made at random, {seed}: as of all at once", said, set()


# ---- the words of the command line


def shown_in_page(top):
    """What docs/FLEET.md shows of the five traces."""
    page = read(top, "docs/FLEET.md")
    return re.search(r"(?s)five\.jsonl` prints\n\n```\n(.*?)```\n", page)[1]


def unit_cases(five):
    """Recordings whose ticks are of a unit that is told, or of none."""
    told = {it: R.replace("{", f'{{"unit":"{it}",', 1) for it in ("us", "ms")}
    of_other = {
        "us": r'its ticks have the unit "us", and those that were counted before them have not\n\Z',
        "ms": r'its ticks have the unit "ms", and those that were counted before them have not\n\Z',
        "none": r"its ticks have no unit, and those that were counted before them have one\n\Z",
    }
    for name, unit in (("ms", '"ms"'), ("no unit", "null")):
        text = told.get(name, R)
        yield Case(f"fleet --part of recordings in {name}", ["fleet", "--part", "-"], re.compile(rf'(?s).*"reply":null,"try":null,"unit":{unit},"whatif-fleet":2}}\n'.encode()), stdin=f"{text}\n{text}\n", err=r"\A\Z")
    for first, second in (("us", "ms"), ("us", "none"), ("none", "us")):
        text = "".join(f"{told.get(it, R)}\n" for it in (first, first, second))
        yield Case(f"fleet of recordings in {first} and in {second}", ["fleet", "r"], "refused 87 BadSummary r\n", 1, files={"r": text}, err=rf"\Awhatif: r: line 3: {of_other[second]}")
    files = {"five": five, "r": told["ms"]}
    yield Case("fleet of traces and a recording in one unit", ["fleet", "--unit", "ms", "five", "r"], re.compile(rb"(?s)replies 6 failed 1 .*"), files=files, err=r"\A\Z")
    yield Case("fleet of traces and a recording in another unit", ["fleet", "five", "r"], "refused 87 BadSummary r\n", 1, files=files, err=rf"\Awhatif: r: line 1: {of_other['ms']}")
    yield Case("fleet of a recording and traces in another unit", ["fleet", "r", "five"], "refused 87 BadSummary five\n", 1, files=files, err=rf"\Awhatif: five: trace 1, 1: {of_other['us']}")


def try_cases(top, files):
    """Changes of groups, in the words of the command line."""
    words = ["fleet", "--unit", "ms"]
    half, shop = "stock.GET /items runs=50%", "shop.GET /order runs=15"
    told = "".join(tried_in_page(top))
    for quoted in (half, '"stock.GET /items" runs=50%', '"stock.GET \\u002fitems"  runs=50% '):
        yield Case(f"fleet --try of {quoted}", [*words, "--try", quoted, "five"], re.compile(rb'(?s)replies 5 .*\ntry "\W?[^\n]+ replies 5 failed 1 p50 75 p90 503 p99 503 max 503\n.*'), files=files, err=r"\A\Z")
    yield Case("fleet --try twice, as the page shows it", [*words, "--try", half, "--try", shop, "five"], re.compile(b"(?s)replies 5 .*\n" + re.escape(told.encode()) + b"java.*"), files=files, err=r"\A\Z")
    for workers in ("1", "2", "16"):
        yield Case(f"fleet --try with {workers} workers", [*words, "--workers", workers, "--try", half, "--try", shop, "five"], re.compile(b"(?s)replies 5 .*\n" + re.escape(told.encode()) + b"java.*"), files=files, err=r"\A\Z")
    yield Case("fleet --try of a failure", [*words, "--try", "billing.POST /charge gives=1", "five"], re.compile(rb'(?s).*\ntry "billing.POST /charge gives=1" replies 5 failed 0 .*'), files=files)
    yield Case("fleet --try of a group that is missing", [*words, "--try", "stock.GET /item runs=1", "five"], re.compile(rb'(?s)(replies 5 failed 1 [^\n]*).*\ntry "stock.GET /item runs=1" \1\n.*'), files=files, err=r'\Awhatif: no trace has the group "stock.GET /item"; did you mean "stock.GET /items"\?\n\Z')
    yield Case("fleet --try that can't be made", [*words, "--try", "stock.GET /items limit=5", "five"], "refused 22 NotOneTimeout in 0\n", 1, files=files, err=r'\Awhatif: five: trace 1, 1: the change "stock.GET /items limit=5": the end of a span has 0 timeouts, and limit sets the delay of one\n\Z')
    yield Case("fleet --try of unlimited: a trace has no timeouts", [*words, "--try", "stock.GET /items unlimited", "five"], re.compile(rb'(?s)(replies 5 failed 1 [^\n]*).*\ntry "stock.GET /items unlimited" \1\n.*'), files=files, err=r"\A\Z")
    for change, came in (("limit=20", "failed 1 p50 20 p90 20"), ("unlimited", "failed 0 p50 50 p90 50"), ("runs=101", "failed 1 p50 100 p90 100"), ("unlimited runs=120", "failed 0 p50 120 p90 120")):
        yield Case(f"fleet --try of {change} in a recording with a timeout", ["fleet", "--try", f"a.b {change}", "r"], re.compile(rf'(?s).*\ntry "a.b {change}" replies 1 {came} .*'.encode()), files={"r": LIMITED}, err=r"\A\Z")
    look = 'a.look "here" at'
    for quoted in (look, json.dumps(look)):
        told_of_look = f"replies 1 failed 0 p50 100 p90 100 p99 100 max 100\n{name_text(look)} traces 1 spans 1 on-path 1 ran 100 queued 0 sooner 100 p99 0\n"
        told_of_look += f"try {name_text(f'{quoted} runs=0')} replies 1 failed 0 p50 0 p90 0 p99 0 max 0\n"
        yield Case(f"fleet --try of a group whose name ends like an assignment: {quoted}", ["fleet", "--try", f"{quoted} runs=0", "look"], told_of_look, files={"look": otlp(span(look[2:], 1_000, 101_000)).replace('"shop"', '"a"')}, err=r"\A\Z")
    yield Case("fleet --try of a missing group whose name ends like an assignment", [*words, "--try", "a.look at runs=0", "five"], re.compile(rb"(?s)replies 5 .*"), files=files, err=r'\Awhatif: no trace has the group "a\.look at"')
    yield Case("fleet --try of the same change twice", [*words, "--try", half, "--try", shop, "--try", half, "five"], "", 2, files=files, err=r'\Awhatif: the change "stock\.GET /items runs=50%" is given twice\n\Z')
    for bad, why in (("stock.GET /items", "it assigns nothing"), ("stock.GET /items runs", "it assigns nothing"), ('"stock.GET /items" gives="1"', "has no whole number"), ("stock.GET /items rnus=5", 'did you mean "runs"'), ("stock.GET /items runs=x", "has no whole number"), ('"stock runs=5', "no JSON string"), ("runs=5", "an assignment")):
        yield Case(f"fleet --try of {bad}", [*words, "--try", bad, "five"], "", 2, files=files, err=why)
    yield Case("fleet --workers 0", [*words, "--workers", "0", "five"], "", 2, files=files, err="--workers")
    yield Case("fleet --workers 17", [*words, "--workers", "17", "five"], "", 2, files=files, err="--workers")
    yield Case("fleet --slowest before a file", [*words, "--slowest", "five"], "", 2, files=files, err="invalid value 'five' for '--slowest")
    yield Case("fleet --slowest before another option", [*words, "--slowest", "--quiet", "five"], re.compile(rb"(?s).*\nslowest 1 replies 1\n.*"), files=files)
    yield Case("fleet --slowest without a number", [*words, "five", "--slowest"], re.compile(rb"(?s).*\nslowest 1 replies 1\n.*"), files=files)
    for option in (["--try", half], ["--workers", "2"]):
        yield Case(f"fleet --join {option[0]}", ["fleet", "--join", *option, "five"], "", 2, files=files, err="cannot be used with")
    yield Case("fleet --join of what was tried", ["fleet", "--join", "-"], re.compile(rb'(?s)replies 1 failed 1 .*\ntry "a.b runs=0" replies 1 failed 1 .*'), stdin=f"{ONE}{TRIED}", err=r"\A\Z")
    yield Case("fleet --join of what was tried, before the traces", ["fleet", "--join", "-"], re.compile(rb'(?s)replies 1 failed 1 .*\ntry "a.b runs=0" replies 1 failed 1 .*'), stdin=f"{TRIED}{ONE}", err=r"\A\Z")
    yield Case("fleet --join of what was tried alone", ["fleet", "--join", "s"], "refused 87 BadSummary s\n", 1, files={"s": TRIED}, err=r"\Awhatif: s: line 1: a change was tried, and no summary is of the traces as they are\n\Z")
    other = TRIED.replace("a.b runs=0", "a.b gives=1")
    yield Case("fleet --join of changes: in the order of their first summaries", ["fleet", "--join", "-"], re.compile(rb'(?s)replies 2 .*\ntry "a.b gives=1" replies 2 [^\n]*\ntry "a.b runs=0" replies 2 .*'), stdin=f"{ONE}{other}{TRIED}{ONE}{TRIED}{other}", err=r"\A\Z")
    for text in (f"{ONE}{UNTRIED}", f"{UNTRIED}{ONE}", f"{EMPTY}{UNTRIED}{ONE}"):
        yield Case(f"fleet --join of a change by which no reply is counted: {text}", ["fleet", "--join", "--part", "-"], ONE, stdin=text, err=r"\A\Z")
    yield Case("fleet --join of what was tried, beside one of no reply", ["fleet", "--join", "-"], re.compile(rb'(?s)replies 1 failed 1 .*\ntry "a.b runs=0" replies 1 failed 1 .*'), stdin=f"{UNTRIED}{ONE}{TRIED}", err=r"\A\Z")
    timeless = TRIED.replace('"failed":1,"times":[[100,1]]', '"failed":1,"times":[]')
    yield Case("fleet --join of a change without a time", ["fleet", "--join", "-"], re.compile(rb'(?s)replies 1 failed 1 .*\ntry "a.b runs=0" replies 0\nE from a.b replies 1\n'), stdin=f"{ONE}{timeless}", err=r"\A\Z")
    yield Case("fleet --join of what was tried in some", ["fleet", "--join", "s"], "refused 87 BadSummary s\n", 1, files={"s": f"{ONE}{TRIED}{ONE}"}, err=r"\Awhatif: s: line 2: a change was tried in other traces than the summaries count\n\Z")


def tried_in_page(top):
    """What docs/FLEET.md shows of what is tried in the five traces."""
    return re.findall(r"(?m)^try .* replies .*\n", read(top, "docs/FLEET.md"))


def long_cases(five, plain):
    """Texts so long that they are read by lines: their answers are those of the five traces, which they tell several times."""
    words = ["fleet", "--unit", "ms"]
    cut = f"{five}{NO_TRACE[:-1]}"
    for workers in ("1", "3", "16"):
        yield Case(f"fleet of a long file by {workers} workers", [*words, "--workers", workers, "long"], plain, files={"long": lambda: padded(five)}, err=r"\A\Z")
        yield Case(f"fleet of long standard input by {workers} workers", [*words, "--workers", workers, "-"], plain, stdin=lambda: padded(five), err=r"\A\Z")
    yield Case("fleet of a long file whose last line is cut", [*words, "long"], plain, files={"long": lambda: padded(cut)}, err=r"\Awhatif: the last line is cut, and was left out\n\Z")
    none = f"{NO_TRACE}\n" * 2
    for name, given in (("long", {"files": {"long": lambda: padded(none)}}), ("-", {"stdin": lambda: padded(none)})):
        yield Case(f"fleet of a long text without a span, {name}", [*words, name], NO_REPLY, 1, err=r"\Awhatif: the file holds no trace\nwhatif: no trace has a reply\n\Z", **given)
        yield Case(f"fleet --strict of a long text without a span, {name}", [*words, "--strict", name], "refused 81 NoTrace\n", 1, err="it has no span", **given)
    yield Case("fleet of a file that is one line and too long", [*words, "long"], "refused 72 TooLong\n", 1, err=r"\Awhatif: long: it has a line of more than 268435456 bytes\n\Z", files={"long": Sparse(MOST_OF_FILE + 1)}, seconds=60)
    # (a repeat of a span is left out, and counts among those that are read at once, of which there are 8,192 or a sixth of all at most)
    mixed_line = json.dumps({"resourceSpans": [*mixed(json.loads(it)["resourceSpans"] for it in five.splitlines())]}, separators=(",", ":"))
    for times, batches in ((600, "two"), (1_200, "three"), (2_800, "five")):
        yield Case(f"fleet of lines that mix traces, in {batches} batches", [*words, "--workers", "3", "long"], plain, files={"long": lambda times=times: f"{mixed_line}\n" * times}, err=r"\A\Z", seconds=60)
    yield Case("fleet of standard input whose lines mix traces, in two batches", [*words, "--workers", "3", "-"], plain, stdin=lambda: f"{mixed_line}\n" * 600, err=r"\A\Z", seconds=60)


def fleet_cases(top):
    five = read(top, FIVE)
    told = shown_in_page(top)
    first, *groups = told.splitlines(keepends=True)
    files = {"five": five, "late": otlp(span("late", 0, 2**50, "1", status={"code": 1}))}
    timeless = otlp(span("first", 0, 0))
    plain = first + "".join(it for it in groups if "slowest" not in it)
    words = ["fleet", "--unit", "ms"]
    yield Case("fleet of the five traces, as the page shows it", [*words, "--slowest", "20", "five"], told, files=files, err=r"\A\Z")
    yield Case("fleet of the five traces", [*words, "five"], plain, files=files, err=r"\A\Z", stdin=CLOSED)
    yield Case("fleet of standard input", [*words, "-"], plain, stdin=five, err=r"\A\Z")
    yield Case("fleet --reply by its name", [*words, "--reply", "GET /order", "five"], plain, files=files)
    yield Case("fleet --reply by its service and name", [*words, "--reply", "shop.GET /order", "five"], plain, files=files)
    yield Case("fleet --reply of another span", [*words, "--reply", "GET /items", "five"], re.compile(rb"(?s)replies 5 failed 0 p50 .*"), files=files)
    yield Case("fleet --by service", [*words, "--by", "service", "five"], re.compile(rb"(?s)replies 5 failed 1 .*\nstock traces 5 spans 5 on-path 5 ran 1080 .*java\.io\.IOException from billing replies 1\n"), files=files)
    yield Case("fleet of the same file twice", [*words, "five", "five"], re.compile(rb"(?s)replies 10 failed 2 .*"), files=files, err=r"\A\Z")
    yield Case("fleet of a recording", ["fleet", "r"], re.compile(rb"(?s)replies 1 failed 0 p50 15 p90 15 p99 15 max 15\n.*"), files={"r": R})
    yield Case("fleet of recordings, each on one line", ["fleet", "-"], re.compile(rb"(?s)replies 2 failed 0 p50 15 p90 15 p99 15 max 15\n.*"), stdin=f"{R}\n\n{R}\n")
    yield Case("fleet of a recording that is refused among others", ["fleet", "-"], re.compile(rb"(?s)replies 1 .*"), stdin=f"{R}\n[]\n", err=r"(?s)\Awhatif: line 2: refused .*whatif: 1 of 2 traces not counted\n\Z")
    yield Case("fleet explains a refused recording", ["fleet", "-"], re.compile(rb"(?s)replies 1 .*"), stdin=f"{R}\n{REFUSED}\n", err=rf"\Awhatif: line 2: refused 14 NoSource at 1\nwhatif: {WHY_REFUSED}whatif: 1 of 2 traces not counted\n\Z")
    yield Case("fleet --quiet doesn't explain it", ["fleet", "--quiet", "-"], re.compile(rb"(?s)replies 1 .*"), stdin=f"{R}\n{REFUSED}\n", err=r"\Awhatif: line 2: refused 14 NoSource at 1\n\Z")
    yield Case("fleet --strict explains it", ["fleet", "--strict", "-"], "refused 14 NoSource at 1\n", 1, stdin=f"{R}\n{REFUSED}\n", err=rf"\Awhatif: {WHY_REFUSED}\Z")
    yield Case("fleet --reply of no span", [*words, "--reply", "absent", "five"], NO_REPLY, 1, files=files, err=r'(?s)trace 1, 1: refused 86 NoReply: no span named "absent" ends\n.*5 of 5 traces not counted\nwhatif: no trace has a reply\n\Z')
    yield Case("fleet --quiet --reply of no span", [*words, "--quiet", "--reply", "absent", "five"], NO_REPLY, 1, files=files, err=r"\Awhatif: trace 1, 1: refused 86 NoReply\n")
    yield Case("fleet --strict --reply of no span", [*words, "--strict", "--reply", "absent", "five"], NO_REPLY, 1, files=files, err=r'\Awhatif: five: trace 1, 1: no span named "absent" ends\n\Z')
    yield Case("fleet of a trace that makes no recording", ["fleet", "five", "timeless"], re.compile(rb"(?s)replies 5 .*"), files={**files, "timeless": timeless}, err=r"(?s)\Awhatif: timeless: trace 1, \w+: refused 83 NoTime \w+: .*whatif: 1 of 6 traces not counted\n\Z")
    yield Case("fleet --strict of a trace that makes no recording", ["fleet", "--strict", "timeless"], re.compile(rb"refused 83 NoTime \w+\n"), 1, files={"timeless": timeless}, err="trace 1, ")
    yield Case("fleet of no trace", ["fleet", "-"], NO_REPLY, 1, stdin=NO_TRACE, err=r"\Awhatif: the file holds no trace\nwhatif: no trace has a reply\n\Z")
    yield Case("fleet --quiet of no trace", ["fleet", "--quiet", "-"], NO_REPLY, 1, stdin=NO_TRACE, err=r"\Awhatif: the file holds no trace\n\Z")
    yield Case("fleet --strict of no trace", ["fleet", "--strict", "-"], "refused 81 NoTrace\n", 1, stdin=NO_TRACE, err="it has no span")
    yield Case("fleet --part of no trace", ["fleet", "--part", "-"], EMPTY, stdin=NO_TRACE, err=r"\Awhatif: the file holds no trace\n\Z")
    yield Case("fleet of a file of no trace beside another", [*words, "none", "five"], plain, files={**files, "none": NO_TRACE}, err=r"\Awhatif: none: the file holds no trace\n\Z")
    yield Case("fleet of a file without a text beside another", [*words, "five", "none"], plain, files={**files, "none": " \n"}, err=r"\Awhatif: none: the file holds no trace\n\Z")
    yield Case("fleet --strict of a file without a text beside another", [*words, "--strict", "five", "none"], "refused 81 NoTrace\n", 1, files={**files, "none": ""}, err=r"\Awhatif: none: it has no span")
    yield Case("fleet of a cut last line", [*words, "-"], plain, stdin=f"{five}{NO_TRACE[:-1]}", err=r"\Awhatif: the last line is cut, and was left out\n\Z")
    yield Case("fleet of a cut last line of one of several files", [*words, "five", "cut"], re.compile(rb"(?s)replies 10 failed 2 .*"), files={**files, "cut": f"{five}{NO_TRACE[:-1]}"}, err=r"\Awhatif: cut: the last line is cut, and was left out\n\Z")
    yield Case("fleet --quiet of a cut last line", [*words, "--quiet", "-"], plain, stdin=f"{five}{NO_TRACE[:-1]}", err=r"\A\Z")
    yield from unit_cases(five)
    yield Case("fleet of no JSON", ["fleet", "-"], "refused 70 JSON\n", 1, stdin="[", err="standard input: ")
    yield Case("fleet of no file", ["fleet", "absent"], "refused 41 ReadFault\n", 3)
    yield Case("fleet of standard input twice", ["fleet", "-", "-"], "", 2, err="standard input is read once")
    yield Case("fleet without a file", ["fleet"], "", 2, err="<FILE>")
    yield Case("fleet --slowest 0", [*words, "--slowest", "0", "five"], "", 2, files=files, err="--slowest")
    yield Case("fleet --slowest 101", [*words, "--slowest", "101", "five"], "", 2, files=files, err="--slowest")
    yield Case("fleet --slowest 100: each of all", [*words, "--slowest", "100", "five"], re.compile(rb"(?s).*\nslowest 100 replies 5\n.*"), files=files)
    yield Case("fleet --part --slowest", ["fleet", "--part", "--slowest", "1", "five"], "", 2, files=files, err="cannot be used with")
    for option in (["--reply", "a"], ["--by", "service"], ["--unit", "ms"], ["--clocks", "as-told"], ["--calls", "as-told"]):
        yield Case(f"fleet --join {option[0]}", ["fleet", "--join", *option, "five"], "", 2, files=files, err="cannot be used with")
    yield Case("fleet --part of no reply", ["fleet", "--part", "--quiet", "--reply", "absent", "five"], '{"by":"span","failures":[],"groups":[],"replies":{"count":0,"failed":0,"times":[]},"reply":"absent","try":null,"unit":null,"whatif-fleet":2}\n', files=files)
    yield Case("fleet --join of no line", ["fleet", "--join", "-"], NO_REPLY, 1, stdin="\n")
    for bad in ("{}", "[]", "x", "\xff", EMPTY.replace('fleet":2', 'fleet":1')):
        yield Case(f"fleet --join of {bad}", ["fleet", "--join", "s"], "refused 87 BadSummary s\n", 1, files={"s": f"\n{bad}\n"}, err=r"\Awhatif: s: line 2: ")
    yield Case("fleet --join of one of no reply", ["fleet", "--join", "-"], NO_REPLY, 1, stdin=EMPTY)
    yield Case("fleet --join --part of one of no reply", ["fleet", "--join", "--part", "-"], EMPTY, stdin=f"{EMPTY}\n{EMPTY}")
    for name, (other, told) in OTHERS.items():
        yield Case(f"fleet --join of other {name}", ["fleet", "--join", "a", "b"], "refused 87 BadSummary b\n", 1, files={"a": ONE, "b": other}, err=rf"\Awhatif: b: line 1: {told}\n\Z")
        yield Case(f"fleet --join of other {name}, behind one of no reply", ["fleet", "--join", "a", "b", "c"], "refused 87 BadSummary c\n", 1, files={"a": ONE, "b": EMPTY, "c": f"{ONE}\n{other}"}, err=rf"\Awhatif: c: line 3: {told}\n\Z")
    for other in (EMPTY, EMPTY.replace('"unit":null', '"unit":"us"'), EMPTY.replace('"unit":null', '"unit":"ms"')):
        for text in (f"{other}{ONE}", f"{ONE}{other}"):
            yield Case(f"fleet --join of one of no reply beside another: {text}", ["fleet", "--join", "--part", "-"], ONE, stdin=text, err=r"\A\Z")
    yield Case("fleet of a named pipe", [*words, "pipe"], plain, files=files, shell="mkfifo pipe; cat five > pipe &", err=r"\A\Z")
    yield from try_cases(top, files)
    yield from long_cases(five, plain)
    for stdout in ("full", "closed", "gone"):
        yield Case(f"fleet on a {stdout} standard output", ["fleet", "five"], "", 3, stdout=stdout, files=files)


# ---- more than one machine


def answered(program, folder, words, text=None, environment=None):
    done = subprocess.run([program, *words], cwd=folder, input=text, capture_output=True, check=False, timeout=120, env=environment)
    return done.stdout, (done.stderr or b"").decode()


def night_files(top, folder, count, traces):
    """Files of traces in a folder, by the script of examples/fleet."""
    script = os.path.join(top, "examples/fleet/night.py")
    for at in range(count):
        with open(os.path.join(folder, f"{at}.jsonl"), "wb") as file:
            file.write(subprocess.run([script, str(traces), str(at)], capture_output=True, check=True).stdout)
    return [f"{at}.jsonl" for at in range(count)]
