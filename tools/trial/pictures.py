"""Pictures of recordings: SVG files and trace events, held against what the reports of the same recording tell."""
import dataclasses
import itertools
import json
import re
import xml.etree.ElementTree as tree
from typing import Any, NamedTuple

from . import courses
from .cases import NO_READ, R, recording, stage, with_r
from .readme import read
from .run import CLOSED, Case, run, shown

SVG = "{http://www.w3.org/2000/svg}"
MOST_ROWS = 200
MOST_BY_SERVICE = 100
MOST_EVENTS = 2_000
MOST_HIGH = 4_000
SOME = 12
NO_STAGE = "refused 10 NoStage\n"
NO_VERSION = "refused 52 NoVersion\n"
PENDING = recording(stage("manual"), stage("thenRun", "b", sources=["a"], action=None))
# (what is below follows the operations of these stages alone)
CUT_BY_ENDS = json.dumps({"form": 2, "stages": [it for it in json.loads(courses.CUT)["stages"] if it["op"] in ("async", "thenApply")]})
ADDED = {"do": "add", "session": 1, "new": stage("copy", "c", sources=["b"])}
S = "".join(json.dumps(it) + "\n" for it in ({"do": "open", "session": 1, "version": 0}, {"do": "setTimes", "session": 1, "stage": "a", "queued": 0, "runs": 3}, ADDED))
STATE = re.compile(r"(\S+) \S+ rank (\d+) (.*)")


def fan(count):
    """Stages that wait for one, each for another time, queued and failing by turns."""
    stages = [{"name": "root", "op": "async", "queued": 3, "runs": 10, "action": 1}]
    for at in range(1, count):
        action = ["throw", "com.shop.Refused"] if at % 7 == 0 else 1
        stages.append({"name": f"stage-{at}-{'x' * (at % 50)}", "op": "thenRun", "sources": ["root"], "queued": at % 5, "runs": at % 11, "action": action})
    return json.dumps({"form": 2, "stages": stages})


def of_services(text, unit):
    """The same recording as if it were imported, with stages of three services."""
    stages = json.loads(text)["stages"]
    named = {it["name"]: f"{('shop', 'pay', 'web')[at * at % 4 % 3 if at % 5 else 2]}.{it['name']}" for at, it in enumerate(stages)}
    named["s59"] = "web.s59"
    scale = 700 if unit == "ns" else 1
    scaled = lambda it, members: {member: it[member] * scale for member in members if member in it}
    ends = lambda it: {"ends": [{**end, **scaled(end, ("at", "delay"))} for end in it["ends"]]} if "ends" in it else {}
    times = lambda it: {**scaled(it, ("created", "queued", "runs", "pinMoment")), **ends(it)}
    renamed = [{**it, **times(it), "name": named[it["name"]], **({"sources": [named[source] for source in it["sources"]]} if "sources" in it else {})} for it in stages]
    return json.dumps({"form": 2, "trace": "7d1c", "unit": unit, "stages": renamed})


def told(program, text, *words):
    """What the program prints of a recording on standard input."""
    return run(program, Case("picture", [*words, "-"] if words[0] == "draw" else list(words), None, stdin=text, seconds=60)).out.decode()


def asked(program, text, what):
    """The lines of a report of version 0, but the first."""
    step = json.dumps({"do": "report", "version": 0, **what}) + "\n"
    return run(program, Case("picture", ["serve", "r.json"], None, stdin=step, files={"r.json": text}, seconds=60)).out.decode().splitlines()[1:]


def states(program, text):
    """Each stage's rank and state, by its name."""
    return {found[1]: (found[2], found[3]) for found in map(STATE.fullmatch, asked(program, text, {"what": "all"})) if found}


def cut(name, most=40):
    return name if len(name) <= most else name[:most - 1] + "\u2026"


def wrong_row(row, meant):
    """What a row tells otherwise than the reports."""
    title, label = row.find(f"{SVG}title").text.split("\n"), row.find(f"{SVG}text")
    name, state, rank = title[:3]
    if name not in meant or (rank, state) != (f"rank {meant[name][0]}", meant[name][1]):
        return f"{title} is not as reported"
    if label.text != cut(name):
        return f"{name} is written as {label.text!r}"
    kind = row.get("class").split()[1]
    wanted = "pending" if state == "pending" else "complete" if state.startswith("value") else "failed"
    marks = [it.get("class") for it in row if it.get("class") in ("done", "cross", "open")]
    mark = {"pending": "open", "complete": "done", "failed": "cross"}[wanted]
    return "" if kind == wanted and marks == [mark] else f"{name} is {wanted}, and drawn as {kind} with {marks}"


def mark_x(row):
    """Where the mark of a completed row stands."""
    circle, cross = row.find(f"{SVG}circle"), [it for it in row if it.get("class") == "cross"]
    return int(circle.get("cx")) if circle is not None else int(re.match(r"M(\d+)", cross[0].get("d"))[1])


def wrong_words(cause, own, stage, meant):
    """What is told of what completed a stage, and of its action, otherwise than the stage's course."""
    name = stage["name"]
    wanted = courses.course(stage, meant).told()
    if own != wanted:
        return f"{name} tells {own!r}, and not {wanted!r}"
    wanted = courses.end_of(stage, courses.moment_of(meant[name][1]))
    return f"{name} tells {cause!r}, and not {wanted!r}" if cause.startswith("completed by") and cause != wanted else ""


def wrong_bars(row, stage, meant):
    """What the bars of a row, and what it tells of its action, are otherwise than the stage's course."""
    title = row.find(f"{SVG}title").text.split("\n")
    name, state = title[0], meant[title[0]][1]
    if state == "pending":
        return ""
    if said := wrong_words(title[3], title[4], stage, meant):
        return said
    came = courses.course(stage, meant)
    bars = {it.get("class"): (float(it.get("x")), float(it.get("width"))) for it in row if it.get("class") in ("queued", "ran", "cut")}
    wanted = {"ran", *(["queued"] if came.queued else []), *(["cut"] if came.cut_off else [])}
    if {*bars} != wanted:
        return f"{name} has the bars {sorted(bars)}, and not {sorted(wanted)}"
    at = mark_x(row)
    if came.cut_off and (bars["cut"][0] != at or bars["cut"][1] < 14):
        return f"{name} is hatched from {bars['cut']}, and completes at {at}"
    if came.cut_off and came.ran and abs(sum(bars["ran"]) - at) > 1:
        return f"{name} is cut off at {at}, and runs to {sum(bars['ran'])}"
    return ""


def wrong_axes(root, unit):
    """What the axes say otherwise than whole ticks, with the unit behind each."""
    wanted = re.compile(rf"\d+{re.escape(' ' + cut(unit, 8) if unit else '')}")
    named = [it.text for it in root.iter(f"{SVG}text") if it.get("class") == "tick"]
    wrong = [it for it in named if not wanted.fullmatch(it)]
    return f"the axes name {wrong}, and not ticks of {unit!r}" if wrong or not named else ""


def shown_of(root, count):
    """What is told below the title otherwise than how many stages there are, and have a row."""
    note = next(it.text for it in root.iter(f"{SVG}text") if it.get("class") == "note")
    wanted = f"{count} stages" if count <= MOST_ROWS else f"{MOST_ROWS} of {count} stages: those on the path, and those whose own actions took longest"
    return "" if note == wanted else f"below the title stands {note!r}, and not {wanted!r}"


def wrong_svg(text, meant, path, known=(), unit=""):
    """What is wrong with a picture of a recording, or nothing."""
    root = tree.fromstring(text)
    if said := wrong_axes(root, unit):
        return said
    names = {it.tag for it in root.iter()}
    if root.tag != f"{SVG}svg" or f"{SVG}script" in names:
        return f"no picture, or a script: {sorted(names)}"
    rows = [it for it in root if it.get("class", "").startswith("row ")]
    if len(rows) != min(len(meant), MOST_ROWS):
        return f"{len(rows)} rows of {len(meant)} stages"
    for row in rows:
        name = row.find(f"{SVG}title").text.split("\n")[0]
        if said := wrong_row(row, meant) or (wrong_bars(row, known[name], meant) if name in known else ""):
            return said
    if int(root.get("height")) > MOST_HIGH:
        return f"the picture is {root.get('height')} units high"
    said = shown_of(root, len(meant))
    if said:
        return said
    heights = [int(row.find(f"{SVG}text").get("y")) for row in rows]
    if any(after - before < 18 for before, after in zip(heights, heights[1:])):
        return "two names stand closer than a row is high"
    ends = sorted((int(meant[row.find(f"{SVG}title").text.split(chr(10))[0]][1].rsplit(" ", 1)[1]), mark_x(row)) for row in rows if "pending" not in row.get("class"))
    if any(after[1] < before[1] for before, after in zip(ends, ends[1:])):
        return "a later completion stands further left"
    on = {row.find(f"{SVG}title").text.split("\n")[0] for row in rows if "on" in row.get("class").split()}
    return "" if on == set(path) else f"on the path are {sorted(on)}, and not {sorted(path)}"


MICROS = {"ns": lambda tick: tick // 1000, "ms": lambda tick: tick * 1000, "s": lambda tick: tick * 1_000_000}


def in_micros(tick, unit):
    return MICROS.get(unit, int)(tick)


def wrong_spans(stage, spans, meant, unit):
    """What the spans of a completed stage's row are otherwise than the stage's course."""
    came, completed = courses.course(stage, meant), courses.moment_of(meant[stage["name"]][1])
    started = min(came.triggered + came.queued, completed)
    triggered, began, ended = (in_micros(it, unit) for it in (came.triggered, started, started + came.ran))
    wanted = [("queued", triggered, began - triggered)] * (began > triggered) + [(stage["name"], began, ended - began)]
    return "" if spans == wanted else f"{stage['name']} has the spans {spans}, and not {wanted}"


def wrong_processes(events, names, title, has_services):
    """What the processes are otherwise than one, or one for each service."""
    titles = [(it["pid"], it["args"]["name"]) for it in events if it["name"] == "process_name"]
    numbers = {it["tid"]: it["pid"] for it in events if it["name"] == "thread_name"}
    if any(numbers[it["tid"]] != it["pid"] for it in events if it["tid"]):
        return "events of one row are of several processes"
    if not has_services or not names:
        return "" if titles == [(1, title)] and {*numbers.values()} <= {1} else f"the processes are {titles}"
    first = {}
    for row, name in sorted(names.items()):
        first.setdefault(name.split(".")[0], row)
    wanted = {row: first[name.split(".")[0]] for row, name in names.items()}
    if numbers != wanted:
        return f"the rows are of the processes {numbers}, and not {wanted}"
    wanted = [(row, f"{service}: {title}") for service, row in first.items()]
    return "" if titles == wanted else f"the processes are {titles}, and not {wanted}"


def wrong_events(text, meant, times, path, known=(), unit="", title=None):
    """What is wrong with the trace events of a recording, or nothing."""
    events = json.loads(text)
    names = {it["tid"]: it["args"]["name"] for it in events if it["name"] == "thread_name"}
    if sorted(names) != list(range(1, min(len(meant), MOST_EVENTS) + 1)) or len({*names.values()}) != len(names):
        return "the rows are not numbered from 1 on, each with a name"
    if title and (said := wrong_processes(events, names, *title)):
        return said
    ran = {names[it["tid"]]: it for it in events if it["ph"] == "X" and it["cat"] != "queued"}
    pending = {names[it["tid"]] for it in events if it["ph"] == "i"}
    spans = {name: [] for name in names.values()}
    for it in events:
        if it["ph"] == "X":
            spans[names[it["tid"]]].append((it["name"], it["ts"], it["dur"]))
    for name in names.values():
        rank, state = meant[name]
        if (state == "pending") != (name in pending) or (name in ran) == (name in pending):
            return f"{name} is {state}, and not drawn so"
        if name in ran and not ran[name]["args"]["about"].startswith(f"{state}\nrank {rank}\n"):
            return f"{name} tells {ran[name]['args']['about']!r}"
        if name in known and name in ran:
            about = ran[name]["args"]["about"].split("\n")
            if said := wrong_spans(known[name], spans[name], meant, unit) or wrong_words(about[2], about[3], known[name], meant):
                return said
        start = times[name][0]
        if start != "-" and name in ran and ran[name]["ts"] != in_micros(int(start), unit):
            return f"{name} started at {start}, and not at {ran[name]['ts']}"
    flows = [it for it in events if it["ph"] in ("s", "f")]
    steps = sum(meant[one][1] != "pending" and meant[other][1] != "pending" for one, other in zip(path, path[1:]))
    return "" if len(flows) == 2 * steps else f"{len(flows)} ends of arrows for {steps} steps"


TIMES = re.compile(r"(\S+) start (\S+) queued (\d+) runs (\d+)")


def compared(program, text, name):
    """What the pictures of a recording, with the path of a stage, tell otherwise than its reports; or nothing."""
    meant, known = states(program, text), courses.known(text)
    path = [it.split(" ")[0] for it in asked(program, text, {"what": "path", "stage": name})]
    times = {found[1]: found.groups()[1:] for found in map(TIMES.fullmatch, asked(program, text, {"what": "times"})) if found}
    unit = json.loads(text).get("unit", "")
    said = wrong_svg(told(program, text, "draw"), meant, [], known, unit) or wrong_svg(told(program, text, "draw", "--stage", name), meant, path, known, unit)
    few = {it: meant[it] for it in path}
    said = said or wrong_svg(told(program, text, "draw", "--what", "path", "--stage", name), few, path, (), unit)
    labels = json.loads(text)
    title = (f"Version 0, the path of {name}", "trace" in labels)
    return said or wrong_events(told(program, text, "draw", "--format", "trace", "--stage", name), meant, times, path, known, labels.get("unit", ""), title)


class Window(NamedTuple):
    """The ticks that are drawn, and how many a stage takes at least; none where nothing is asked."""

    first: Any
    last: Any
    least: Any

    def words(self):
        named = (("--from", self.first), ("--to", self.last), ("--min", self.least))
        return [it for option, value in named if value is not None for it in (option, str(value))]

    def has(self, first, last):
        """Whether it has one of these ticks."""
        return (self.first is None or self.first <= last) and (self.last is None or first <= self.last)

    def asks_for(self, stage, meant, path):
        """Whether a stage has a row."""
        created, completed = stage.get("created", 0), courses.moment_of(meant[stage["name"]][1])
        if completed is None:
            return self.last is None or created <= self.last
        took = completed - courses.course(stage, meant).triggered
        return self.has(created, completed) and (stage["name"] in path or self.least is None or took >= self.least)


def wrong_in_window(row, stage, meant, window):
    """What is drawn of a row otherwise than what happened in a window."""
    came, completed = courses.course(stage, meant), courses.moment_of(meant[stage["name"]][1])
    started = min(came.triggered + came.queued, completed)
    spans = {"queued": (came.queued, came.triggered, started), "ran": (True, started, started + came.ran), "cut": (came.cut_off, completed, completed + came.cut_off)}
    wanted = {kind for kind, (is_there, first, last) in spans.items() if is_there and window.has(first, last)}
    drawn = {it.get("class") for it in row}
    if drawn & {*spans} != wanted:
        return f"{stage['name']} has the bars {sorted(drawn & {*spans})} in {window}, and not {sorted(wanted)}"
    return "" if bool(drawn & {"done", "cross"}) == window.has(completed, completed) else f"{stage['name']} completes at {completed}, and has the marks {sorted(drawn)} in {window}"


def wrong_window(program, text, window, name):
    """What a picture of some ticks shows, and what is told of it, otherwise than is asked; or nothing."""
    meant, known = states(program, text), courses.known(text)
    path = [it.split(" ")[0] for it in asked(program, text, {"what": "path", "stage": name})] if name else []
    words = ["draw", *window.words(), *(["--stage", name] if name else []), "-"]
    came = run(program, Case("window", words, None, stdin=text, seconds=60))
    root, err = tree.fromstring(came.out.decode()), came.err.decode()
    rows = {it.find(f"{SVG}title").text.split("\n")[0]: it for it in root if it.get("class", "").startswith("row ")}
    wanted = {it for it in known if window.asks_for(known[it], meant, path)}
    if {*rows} != wanted:
        return f"{sorted(wanted ^ {*rows})} have a row in {window}, or none, and should not"
    for it in rows:
        if meant[it][1] != "pending" and (said := wrong_in_window(rows[it], known[it], meant, window)):
            return said
    left_out = len(known) - len(rows)
    note = next(it.text for it in root.iter(f"{SVG}text") if it.get("class") == "note")
    said = f"{len(rows)} of {len(known)} stages, {left_out} left out by --from, --to or --min" if left_out else f"{len(known)} stages"
    if note != said:
        return f"below the title stands {note!r}, and not {said!r}"
    if err.startswith(f"whatif: {left_out} of the stages are left out: ") != bool(left_out) or err.count("\n") != bool(left_out):
        return f"{left_out} are left out, and {err!r} is told"
    ticks = [int(it.text) for it in root.iter(f"{SVG}text") if it.get("class") == "tick"]
    return "" if all(window.has(it, it) for it in ticks) else f"the axes of {window} name {ticks}"


def windows(program):
    """The name of each case of a picture of some ticks, its complaint or nothing, and no refusal."""
    asked_for = [Window(*it) for it in ((None, None, None), (30, None, None), (None, 40, None), (25, 70, None), (50, 50, None), (None, None, 9), (None, None, 200), (10, 90, 30), (0, 0, 0), (5_000, None, None))]
    for seed, window in itertools.product(range(4), asked_for):
        for name in (None, "s50"):
            said = wrong_window(program, courses.some(seed, 60), window, name)
            yield f"pictures of some ticks of stages made at random, {seed}, {' '.join(window.words())}, {name}", said, set()
    for window in asked_for:
        yield f"pictures of some ticks of what was cut off, {' '.join(window.words())}", wrong_window(program, CUT_BY_ENDS, window, None), set()


def rows_of(text):
    """The name and the classes of each row, from top to bottom."""
    found = [it for it in tree.fromstring(text) if it.get("class", "").startswith("row ")]
    return [(it.find(f"{SVG}title").text.split("\n")[0], it.get("class").split()) for it in found]


def by_service(names):
    """The names below those of their services, which stand by their first ones."""
    services = {}
    for name in names:
        services.setdefault(name.split(".")[0], []).append(name)
    return [it for service, found in services.items() for it in ((service, True), *((name, False) for name in found))]


def wrong_groups(program, text, name):
    """What stands otherwise than by service with `--group service`, or nothing."""
    meant, words = states(program, text), ["--stage", name] if name else []
    came = told(program, text, "draw", "--group", "service", *words)
    rows = [(it, "service" in classes) for it, classes in rows_of(came)]
    stages = [it for it, is_service in rows if not is_service]
    if int(tree.fromstring(came).get("height")) > MOST_HIGH or len(stages) != min(len(meant), MOST_BY_SERVICE):
        return f"{len(stages)} rows of {len(meant)} stages, {tree.fromstring(came).get('height')} units high"
    plain = [it for it, _ in rows_of(told(program, text, "draw", *words)) if it in stages]
    if len(meant) <= MOST_BY_SERVICE and rows != by_service(plain):
        return f"the rows are {rows}, and not {by_service(plain)}"
    if [it for it, is_service in rows if is_service] != list(dict.fromkeys(it.split(".")[0] for it in stages)):
        return f"the rows {rows} are not each below its service"
    events = json.loads(told(program, text, "draw", "--group", "service", "--format", "trace"))
    names = {it["tid"]: it["args"]["name"] for it in events if it["name"] == "thread_name"}
    return wrong_processes(events, names, "Version 0", True)


def wrong_deadline(program, text, deadline, words=()):
    """What is drawn and told of a deadline otherwise than its tick, or nothing."""
    text = json.dumps({"deadline": deadline, **json.loads(text)})
    root = tree.fromstring(told(program, text, "draw", *words))
    note = next(it.text for it in root.iter(f"{SVG}text") if it.get("class") == "note")
    lines = [it.get("d") for it in root if it.get("class") == "deadline"]
    is_count = type(deadline) is int and deadline >= 0
    if note.endswith(f", deadline {deadline}") != is_count:
        return f"of the deadline {deadline!r} {note!r} is told"
    ticks = [(int(it.text), int(it.get("x"))) for it in root.iter(f"{SVG}text") if it.get("class") == "tick"]
    if len(lines) > is_count or len(lines) != sum(it.get("class") == "late" for it in root):
        return f"of the deadline {deadline!r} are drawn {lines}"
    at = [int(re.match(r"M(\d+)\.5 ", it)[1]) for it in lines]
    if at and any((tick <= deadline and x > at[0]) or (tick >= deadline and x < at[0]) for tick, x in ticks):
        return f"the deadline {deadline} stands at {at}, and the axis has {ticks}"
    if not at and is_count and ticks[0][0] <= deadline <= ticks[-1][0]:
        return f"the deadline {deadline} is not drawn"
    marks = [it["ts"] for it in json.loads(told(program, text, "draw", "--format", "trace")) if it["name"] == "deadline"]
    return "" if marks == [deadline] * is_count else f"of the deadline {deadline!r} the events have {marks}"


def wrong_played(program, text, script, words=()):
    """What a picture of the version that a script makes shows otherwise than one of the recording that `export` writes of it, or nothing."""
    files = {"r.json": text, "s": script}
    drawn = run(program, Case("picture", ["draw", "r.json", "--script", "s", *words], None, files=files, seconds=60))
    fixed = run(program, Case("export", ["export", "r.json", "s"], None, files=files, seconds=60)).out.decode()
    other = run(program, Case("picture", ["draw", "r.json", *words], None, files={"r.json": fixed}, seconds=60))
    number = re.search(rb"Version (\d+) of r.json", drawn.out)
    same = other.out.replace(b"Version 0 of r.json", number[0] if number else b"")
    return "" if drawn.out == same else f"it is not {shown(same.decode())}, but {shown(drawn.out.decode())}"


def more_pictures(top, program):
    """The name of each case of rows by service, of deadlines and of the versions of scripts, its complaint or nothing, and no refusal."""
    late, script = read(top, "examples/late-reply.json"), read(top, "examples/late-reply.script")
    for name, text, stage_name in (
        *((f"stages of services, {seed}", of_services(courses.some(seed, 60), "us"), "web.s59") for seed in range(SOME)),
        ("stages of no service", courses.some(3, 60), "s59"),
        ("no stages", recording(), None),
        ("100 stages, each of a service of its own", fan(100), "stage-7-xxxxxxx"),
        ("101 stages", fan(101), "stage-40-" + "x" * 40),
        ("5,000 stages", fan(5_000), "stage-4-xxxx"),
    ):
        yield f"pictures by service of {name}", wrong_groups(program, text, stage_name), set()
    for deadline in (0, 1, 50, 121, 150, 10_000, 2**63, 2**64 - 1, -1, 1.5, "50", None, True):
        for words in ((), ("--to", "200"), ("--from", "60"), ("--group", "service")):
            yield f"the deadline {deadline!r} of a picture, {' '.join(words)}", wrong_deadline(program, late, deadline, words), set()
    for words in ((), ("--stage", "reply"), ("--format", "trace"), ("--group", "service", "--min", "10")):
        yield f"the picture of a script's version is that of its recording, {' '.join(words)}", wrong_played(program, late, script, words), set()


def pictures(top, program):
    """The name of each case, its complaint or nothing, and no refusal."""
    late = read(top, "examples/late-reply.json")
    for name, text, stage_name in (
        ("the late reply", late, "reply"),
        ("pending stages", PENDING, "b"),
        ("no stages", recording(), None),
        ("what was cut off", courses.CUT, "while-it-runs"),
        *((f"stages that are cut off at random, {seed}", courses.some(seed, 60), "s59") for seed in range(SOME)),
        *((f"stages of services, in {unit}", of_services(courses.some(seed, 60), unit), "web.s59") for seed, unit in enumerate(("ns", "us", "ms", "s", "hours"))),
        ("10 stages", fan(10), "stage-9-xxxxxxxxx"),
        ("100 stages", fan(100), "stage-7-xxxxxxx"),
        ("200 stages", fan(200), "stage-40-" + "x" * 40),
        ("201 stages", fan(201), "stage-40-" + "x" * 40),
        ("2,000 stages", fan(2_000), "stage-40-" + "x" * 40),
        ("2,001 stages", fan(2_001), "stage-40-" + "x" * 40),
        ("5,000 stages", fan(5_000), "stage-4-xxxx"),
    ):
        said = compared(program, text, stage_name) if stage_name else wrong_svg(told(program, text, "draw"), {}, [])
        yield f"pictures of {name} are as the reports", said, set()
    for unit in ("ms", "<&'\">", "fortnights", "tick-ish", "\u00b5s", ""):
        text = json.dumps({"unit": unit, **json.loads(PENDING)})
        yield f"the axes of a picture are of the unit {unit!r}", wrong_svg(told(program, text, "draw"), states(program, text), [], (), unit), set()
    yield from windows(program)
    yield from more_pictures(top, program)
    came = told(program, late, "draw", "--stage", "reply")
    yield "docs/late-reply.svg is the picture of the late reply", "" if came == read(top, "docs/late-reply.svg") else f"it is not {shown(came)}", set()


def with_script(case):
    """The case, with the script S beside its own files."""
    return dataclasses.replace(case, files={"s": S, **case.files})


def played_cases():
    for what, words, title in (
        ("the last version", [], b"Version 2 of r.json"),
        ("version 1", ["--version", "1"], b"Version 1 of r.json"),
        ("version 0", ["--version", "0"], b"Version 0 of r.json"),
        ("a path in it", ["--stage", "c", "--version=2"], b"Version 2 of r.json, the path of c"),
    ):
        yield Case(f"draw of {what} of a script", ["draw", "r.json", "--script", "s", *words], re.compile(rb"(?s)<svg [^\n]*\n<title>" + title + rb"</title>.*"), stdin=CLOSED, err=r"\A\Z")
    yield Case("draw of a script, from standard input", ["draw", "--script", "s"], re.compile(rb"(?s)<svg [^\n]*\n<title>Version 2</title>.*"), stdin=R)
    yield Case("draw of no version", ["draw", "r.json", "--script", "s", "--version", "3"], NO_VERSION, 1, err=r"\Awhatif: s: no version 3, as the last one that it makes is 2\n\Z")
    yield Case("draw of no version, quietly", ["draw", "--quiet", "r.json", "--script", "s", "--version", "3"], NO_VERSION, 1, err=r"\A\Z")
    yield Case("draw of a version without a script", ["draw", "r.json", "--version", "0"], "", 2, err="--script <SCRIPT>")
    yield Case("draw of a version of a word", ["draw", "r.json", "--script", "s", "--version", "last"], "", 2, err="--version")
    yield Case("draw of a version past all", ["draw", "r.json", "--script", "s", "--version", "65536"], "", 2, err="--version")
    yield Case("draw of no stage of a version", ["draw", "r.json", "--script", "s", "--stage", "d"], NO_STAGE, 1, err='version 2 has no stage "d"')
    yield Case("draw of a stage that a version has not yet", ["draw", "r.json", "--script", "s", "--stage", "c", "--version", "1"], NO_STAGE, 1, err='version 1 has no stage "c"')
    yield Case("draw of no script", ["draw", "r.json", "--script", "absent"], NO_READ, 3, err=r"\Awhatif: absent: No such file or directory\n\Z")
    yield Case("draw of a refused step", ["draw", "r.json", "--script", "s"], re.compile(rb"(?s)<svg [^\n]*\n<title>Version 0 of r.json</title>.*"), files={"s": "{}\n"}, err="line 1: do is missing")
    yield Case("draw of a refused step, strictly", ["draw", "--strict", "r.json", "--script", "s"], "", 5, files={"s": "{}\n"}, err="line 1: do is missing")
    yield Case("draw of a script of a refused recording", ["draw", "--script", "s"], "refused 70 JSON\n", 1, stdin="[", err="so no step was read")
    yield Case("draw of a script of no recording", ["draw", "absent", "--script", "s"], NO_READ, 3)


def picture_cases():
    return map(with_r, drawn_cases())


def drawn_cases():
    svg, events = re.compile(rb"(?s)<svg .*</svg>\n"), re.compile(rb"(?s)\[\{.*\}\n\]\n")
    yield Case("draw of standard input", ["draw"], svg, stdin=R)
    yield Case("draw of -", ["draw", "-"], svg, stdin=R)
    yield Case("draw of a file", ["draw", "r.json"], svg, stdin=CLOSED)
    for what, words, title in (
        ("a file", ["draw", "r.json"], b"Version 0 of r.json"),
        ("a file and a path", ["draw", "r.json", "--stage", "b"], b"Version 0 of r.json, the path of b"),
        ("standard input", ["draw", "-"], b"Version 0"),
        ("standard input and a path", ["draw", "--stage", "b"], b"Version 0, the path of b"),
    ):
        stdin = CLOSED if "r.json" in words else R
        yield Case(f"draw of {what} is titled by it", words, re.compile(rb"(?s)<svg [^\n]*\n<title>" + title + rb"</title>.*>" + title + rb"</text>.*"), stdin=stdin)
        titled = re.compile(rb'(?s)\[\{"args":\{"name":"' + title + rb'"\},"name":"process_name",.*')
        yield Case(f"draw of {what} as trace events is titled by it", [*words, "--format", "trace"], titled, stdin=stdin)
    for what, label, told_as in (("a number", 7, b"0"), ("a text", "ms", b"0 ms"), ("null", None, b"0"), ("a long text", "milliseconds", b"0 millise\xe2\x80\xa6")):
        yield Case(f"draw of a recording whose unit is {what}", ["draw"], re.compile(rb"(?s)<svg .*>" + told_as + rb"</text>.*"), stdin=recording(stage("manual"), unit=label), err=r"\A\Z")
    yield Case("draw: the words in another order", ["draw", "--stage", "b", "r.json", "--what", "path"], svg)
    yield Case("draw --format svg", ["draw", "--format", "svg", "r.json"], svg)
    yield Case("draw --format trace", ["draw", "--format=trace", "r.json", "--stage=b"], events)
    for form, most, out in (("svg", MOST_ROWS, rb"(?s)<svg .*200 of 201 stages: those on the path.*"), ("trace", MOST_EVENTS, rb"(?s)\[\{.*\}\n\]\n")):
        few, many = (lambda most=most: fan(most)), (lambda most=most: fan(most + 1))
        yield Case(f"draw --format {form} of as many rows as there is room for", ["draw", "--format", form], None, stdin=few, err=r"\A\Z", seconds=60)
        yield Case(f"draw --format {form} of a row more says so", ["draw", "--format", form], re.compile(out), stdin=many, err=r"\Awhatif: no room for 1 of the stages: [^\n]*\n\Z", seconds=60)
        yield Case(f"draw --format {form} --quiet of a row more", ["draw", "--format", form, "--quiet"], re.compile(out), stdin=many, err=r"\A\Z", seconds=60)
    yield Case("draw of 5,000 stages", ["draw"], re.compile(rb"(?s)<svg [^\n]* height='3828'>.*200 of 5000 stages: .*"), stdin=lambda: fan(5_000), err="no room for 4800 of the stages", seconds=60)
    yield Case("draw --what path without a stage", ["draw", "--what", "path", "r.json"], "", 2, err="--stage <STAGE>")
    yield Case("draw of no ticks", ["draw", "--from", "5", "--to", "4", "r.json"], "", 2, err=r"--to <T>.* before .*--from <T>")
    yield Case("draw of one tick", ["draw", "--from", "5", "--to", "5", "r.json"], svg, err=r"\A\Z")
    yield Case("draw from a tick that no recording has", ["draw", "--from", str(2**40 + 1), "r.json"], "", 2, err="--from")
    yield Case("draw from no tick", ["draw", "--from", "-1", "r.json"], "", 2)
    yield Case("draw --min of a word", ["draw", "--min", "long", "r.json"], "", 2, err="--min")
    yield Case("draw after all stages", ["draw", "--from", "1000", "r.json"], svg, err=r"\Awhatif: 2 of the stages are left out: [^\n]*\n\Z")
    yield Case("draw after all stages, quietly", ["draw", "--from", "1000", "--quiet", "r.json"], svg, err=r"\A\Z")
    yield Case("draw of a short stage", ["draw", "--min", "6", "r.json"], re.compile(rb"(?s)<svg .*1 of 2 stages, 1 left out by.*"), err="1 of the stages are left out")
    yield Case("draw of a short stage of the path", ["draw", "--min", "6", "--stage", "b", "r.json"], svg, err=r"\A\Z")
    yield Case("draw of some ticks, as trace events", ["draw", "--from", "12", "--format", "trace", "r.json"], events, err="1 of the stages are left out")
    yield Case("draw --group service", ["draw", "--group", "service", "r.json"], re.compile(rb"(?s)<svg .*<g class='row service'>.*"), err=r"\A\Z")
    yield Case("draw --group of another word", ["draw", "--group", "stage", "r.json"], "", 2, err="possible values: service")
    yield from map(with_script, played_cases())
    yield Case("draw --what none", ["draw", "--what", "none", "r.json"], "", 2, err="possible values: all, path")
    yield Case("draw --format png", ["draw", "--format", "png", "r.json"], "", 2, err="possible values: svg, trace")
    yield Case("draw of two files", ["draw", "r.json", "s.json"], "", 2, err="s.json")
    yield Case("draw of no stage", ["draw", "r.json", "--stage", "bb"], NO_STAGE, 1, err='did you mean "b"')
    yield Case("draw of no stage, quietly", ["draw", "--quiet", "r.json", "--stage", "bb"], NO_STAGE, 1, err=r"\A\Z")
    yield Case("draw of the stage of no name", ["draw", "r.json", "--stage", ""], NO_STAGE, 1)
    yield Case("draw of a refused recording", ["draw"], "refused 70 JSON\n", 1, stdin="[", err="standard input: ")
    yield Case("draw of a refused recording, and no stage", ["draw", "--stage", "zz"], "refused 19 Cycle\n", 1, stdin=recording(stage("copy", sources=["a"])))
    yield Case("draw --strict of a recording with a warning", ["draw", "--strict"], "", 1, stdin=R.replace('"op"', '"queue":1,"op"', 1), err="nothing reads")
    yield Case("draw of no file", ["draw", "absent"], NO_READ, 3)
    yield Case("draw of a closed standard input", ["draw"], NO_READ, 3, stdin=CLOSED)
    for stdout in ("full", "closed", "gone"):
        for form in ("svg", "trace"):
            yield Case(f"draw --format {form} on a {stdout} standard output", ["draw", "--format", form, "r.json"], "", 3, stdout=stdout)
