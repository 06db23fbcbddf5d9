"""Pages of incidents, opened in a browser and held against what the program tells of the same recordings by its other commands."""
import base64
import glob
import hashlib
import json
import os
import random
import re
import shutil
import subprocess
import sys
import urllib.parse

from . import recomputed
from .browser import Browser, Gone
from .pictures import in_micros

PARTS = "crates/incident_page/page"
MOST_BYTES = 64 * 1024
MOST_FRAME = 30  # milliseconds
READY = "window.whatif && whatif.first"
FAILED = "\u2715 "
# What may not stand in the page's own texts: ways by which data becomes markup or code, and addresses of elsewhere.
BANNED = r"innerHTML|outerHTML|insertAdjacentHTML|document\.write|\beval\(|new Function|createContextualFragment|DOMParser|srcdoc|setTimeout\(\s*[\"'`]|https?:|//[a-z]+\.|@import|url\(|fetch\(|XMLHttp|WebSocket|sendBeacon"


class Trial:
    def __init__(self, top, program, browser, folder, pictures):
        self.top, self.program, self.browser, self.folder, self.pictures, self.made = top, program, browser, folder, pictures, 0

    def run(self, *words, stdin=b""):
        return subprocess.run([self.program, *words], input=stdin, capture_output=True, cwd=self.folder)

    def told(self, command, *words, stdin=b""):
        """The answers of a command as JSON."""
        return [json.loads(line) for line in self.run(command, "--format", "json", "--quiet", *words, stdin=stdin).stdout.decode().split("\n") if line]

    def file(self, name, content):
        with open(os.path.join(self.folder, name), "w", encoding="utf-8") as file:
            file.write(content)
        return name

    def takes_script(self):
        """Whether the program's pages show the versions that a script makes."""
        return b"SCRIPT" in self.run("page", "--help").stdout

    def open(self, file, script=None, stage=None):
        """Opens the page of a recording; what is wrong with that, or nothing."""
        self.made += 1
        script = script if self.takes_script() else None
        made = self.run("page", file, *([script] if script else []), *(["--stage", stage] if stage else []))
        if made.returncode:
            return f"status {made.returncode}: {(made.stdout + made.stderr)[-300:]!r}"
        path = os.path.join(self.folder, f"page-{self.made}.html")
        with open(path, "wb") as out:
            out.write(made.stdout)
        self.bytes, self.url = made.stdout, "file://" + urllib.parse.quote(path)
        return "" if self.browser.open(self.url, READY) else f"not ready: {self.ask('document.title')}, {self.browser.complaints(self.url)[:3]}"

    def ask(self, expression):
        return self.browser.ask(expression)

    def calm(self):
        """What the console and the network had to say since the page was opened."""
        return "; ".join(self.browser.complaints(self.url)[:3])

    def picture(self, name):
        if self.pictures:
            self.browser.picture(os.path.join(self.pictures, name + ".png"))


def difference(wanted, came, what):
    """The first difference between two lists, told."""
    if wanted == came:
        return ""
    if not isinstance(came, list):
        return f"{what}: came {str(came)[:300]}"
    at = next((at for at, (one, two) in enumerate(zip(wanted, came)) if one != two), min(len(wanted), len(came)))
    return f"{what}, {at} of {len(wanted)}: wanted {wanted[at:at + 1]!r}, came {came[at:at + 1]!r}"[:600]


# ---- the two parts that are written by hand


def text_of(top, name):
    with open(os.path.join(top, PARTS, name), encoding="utf-8") as file:
        return file.read()


def own_texts(head, tail):
    """The style and the script, as the browser hashes them."""
    return re.search(r"<style>(.*?)</style>", head, re.S).group(1), re.search(r"<script>(.*?)</script>", tail, re.S).group(1)


def digest(text):
    return "sha256-" + base64.b64encode(hashlib.sha256(text.encode()).digest()).decode()


def with_digests(top):
    """The head with the digests of the style and the script as they are."""
    head, tail = text_of(top, "head.html"), text_of(top, "tail.html")
    style, script = own_texts(head, tail)
    head = re.sub(r"script-src '[^']*'", f"script-src '{digest(script)}'", head)
    return re.sub(r"style-src '[^']*'", f"style-src '{digest(style)}'", head)


def parts(top):
    head, tail = text_of(top, "head.html"), text_of(top, "tail.html")
    yield "parts: digests", "" if head == with_digests(top) else "the policy has other digests: tools/try-page --digests writes them"
    yield "parts: size", "" if len(head.encode()) + len(tail.encode()) < MOST_BYTES else f"{len(head.encode()) + len(tail.encode())} bytes, {MOST_BYTES} are the most"
    yield "parts: ends", "" if head.rstrip().endswith('<script type="application/json" id="data">') and tail.startswith("</script>\n") and tail.endswith("</html>\n") else "head or tail ends otherwise"
    yield "parts: nothing that makes markup or code of data", "".join(f"{it!r} " for it in re.findall(BANNED, head + tail))
    yield "parts: only ASCII", "" if (head + tail).isascii() else "other characters"
    policy = re.search(r'Content-Security-Policy" content="([^"]*)"', head).group(1)
    yield "parts: policy", "" if policy.startswith("default-src 'none'") and "unsafe" not in policy and "http" not in policy else policy


# ---- what is derived in the page, held against what the program tells

MODEL = """(version => { const model = whatif.modelOf(version), names = list => list.map(one => one.name), sampled = new Set(%s);
return model.all.map(one => ({ name: one.name, op: one.op, outcome: one.outcome, moment: one.moment, start: one.start, queued: one.queued, runs: one.runs, sources: names(one.sources), inner: names(one.inner),
 created: one.created, action: one.action, pinResult: one.pinResult, pinMoment: one.pinMoment, ends: one.ends, bars: one.bars, fates: one.ends.map((_, index) => whatif.fateOf(one, index)),
 steps: sampled.has(one.name) ? whatif.stepsOf(one) : null, chain: names(whatif.blameOf(one)), reach: one.failed && !one.blames ? names(whatif.reachOf(one)) : null })); })(%d)"""


def plain(value):
    """Numbers of 16 digits and more as texts, as the page keeps them."""
    if isinstance(value, bool) or value is None or isinstance(value, str):
        return value
    if isinstance(value, int):
        return str(value) if abs(value) >= 10 ** 15 else value
    return [plain(it) for it in value] if isinstance(value, list) else {name: plain(it) for name, it in value.items()}


def spans_of(trace):
    """Of the trace events of `draw`: of each stage when its action was queued and ran."""
    names, spans = {}, {}
    for event in trace:
        if event["ph"] == "M" and event["name"] == "thread_name":
            names[event["tid"]] = event["args"]["name"]
        if event["ph"] == "X":
            spans.setdefault(names[event["tid"]], {})["queued" if event["cat"] == "queued" else "ran"] = (event["ts"], event["dur"])
    return spans


def derived(trial, file, script=None, sample=None):
    """The first difference between what the open page makes of each version, and what the program says of it."""
    lines = []
    if script and trial.takes_script():
        with open(os.path.join(trial.folder, script), encoding="utf-8") as given:
            lines = given.read().rstrip("\n").split("\n")
    count = max([0, *(it["version"] for it in trial.told("serve", file, stdin="\n".join(lines).encode()) if it.get("reply") == "committed")])
    pick = random.Random(5)
    for version in range(count + 1):
        asked = [{"do": "report", "version": version, "what": what} for what in ("all", "times", "recording")]
        answers = trial.told("serve", file, stdin="\n".join([*lines, *map(json.dumps, asked)]).encode())[-3:]
        report, times, recording = plain(answers[0]["stages"]), plain(answers[1]["stages"]), plain(answers[2]["recording"]["stages"])
        names = [it["name"] for it in report]
        chosen = names if sample is None or len(names) <= sample else pick.sample(names, sample)
        asked = [{"do": "report", "version": version, "what": what, "stage": name} for name in chosen for what in ("path", "blame")]
        answers = trial.told("serve", file, stdin="\n".join([*lines, *map(json.dumps, asked)]).encode())[-len(asked):] if asked else []
        steps = {it["stage"]: it["steps"] for it in answers if it["report"] == "path"}
        chains = {it["stage"]: it["chain"] for it in answers if it["report"] == "blame"}
        came = trial.ask(MODEL % (json.dumps(chosen), version))
        if not isinstance(came, list):
            return f"version {version}: {str(came)[:400]}"
        kept = ("name", "op", "outcome", "moment")
        told = difference([{key: it[key] for key in kept} for it in report], [{key: it[key] for key in kept} for it in came], f"version {version}: states")
        kept = ("name", "start", "queued", "runs")
        told = told or difference([{key: it[key] for key in kept} for it in times], [{key: it[key] for key in kept} for it in came], f"version {version}: times")
        wanted = {"sources": [], "inner": [], "created": 0, "action": None, "pinResult": None, "pinMoment": None, "ends": []}
        told = told or difference([{key: it.get(key, absent) for key, absent in wanted.items()} for it in recording],
                                  [{key: plain(it[key]) for key in wanted} for it in came], f"version {version}: stages")
        told = told or difference([(name, steps[name]) for name in chosen], [(it["name"], it["steps"]) for it in sorted((it for it in came if it["steps"] is not None), key=lambda it: chosen.index(it["name"]))], f"version {version}: paths")
        told = told or difference([(name, chains[name]) for name in chosen], [(it["name"], it["chain"]) for it in sorted((it for it in came if it["steps"] is not None), key=lambda it: chosen.index(it["name"]))], f"version {version}: blame")
        # The reports of commands are of version 0, so of another one what `export` would write.
        of = file
        if version:
            of = trial.file("version.json", json.dumps(answers_recording(trial, file, lines, version)))
        (failures,), (ends,) = trial.told("failures", of), trial.told("ends", of)
        told = told or difference([(it["name"], it["reaches"]) for it in failures["stages"]], [(it["name"], it["reach"]) for it in came if it["reach"] is not None], f"version {version}: failures")
        told = told or difference([(it["name"], it["fate"]) for it in ends["stages"]], [(it["name"], fate) for it in came for fate in it["fates"]], f"version {version}: ends")
        if len(came) <= 2000:
            with open(os.path.join(trial.folder, of), encoding="utf-8") as given:
                unit = json.load(given).get("unit")
            drawn = spans_of(json.loads(trial.run("draw", "--format", "trace", "--quiet", of).stdout))
            told = told or difference([(it["name"], drawn.get(it["name"], {})) for it in came], [(it["name"], shown_spans(it, unit)) for it in came], f"version {version}: bars")
        if told:
            return told
    return ""


def answers_recording(trial, file, lines, version):
    return trial.told("serve", file, stdin="\n".join([*lines, json.dumps({"do": "report", "version": version, "what": "recording"})]).encode())[-1]["recording"]


def shown_spans(it, unit):
    """The bars of a stage as the trace events of `draw` have them, in microseconds."""
    def span(start, end):
        return in_micros(start, unit), in_micros(end, unit) - in_micros(start, unit)

    bars = it["bars"]
    if bars is None:
        return {"ran": span(it["moment"], it["moment"])} if it["moment"] is not None else {}
    queued = {"queued": span(bars["from"], bars["start"])} if it["queued"] and bars["start"] > bars["from"] else {}
    return queued | {"ran": span(bars["start"], bars["to"])}


# ---- what stands in the page


def short(outcome):
    if outcome is None:
        return "pending"
    name = outcome.get("bare", outcome.get("wrapped"))
    return f"value {'null' if outcome.get('value') is None else outcome['value']}" if name is None else FAILED + re.sub(r"^.*[.$](?=[^.$])", "", name)


def table(trial, of):
    """The texts of the cells of a table, once all its rows are asked for."""
    return trial.ask(f"[...document.querySelectorAll('{of} > button.more')].forEach(one => one.click()), [...document.querySelectorAll('{of} tbody tr')].map(row => [...row.cells].map(cell => cell.innerText.trim()))")


CAUSES = {"after": "", "inner": "took it over", "waits": "waits", "created": "created at {at}", "pinned": "pinned", "ended": "ended by {by}", "open": "open"}


def path_rows(steps):
    return [[it["name"], str("-" if it["moment"] is None else it["moment"]), str(it["queued"]), str(it["ran"]), CAUSES[it["cause"]["kind"]].format(**it["cause"])] for it in steps]


def panel(trial, file, stage):
    """The tables beside the picture, held against the commands that they are of."""
    explain, (sweep,), (slack,), (rescue,) = (trial.told(command, file, stage) for command in ("explain", "sweep", "slack", "rescue"))
    yield "path", difference(path_rows(explain[2]["steps"]), table(trial, "#path"), "rows")
    if sweep["trials"]:
        yield "sweep", difference([[it["stage"], str(it["sooner"]), f"{short(it['outcome'])} at {it['moment']}"] for it in sweep["trials"]], table(trial, "#sweep"), "rows")
    wanted = [[it["name"], str("any" if it["slack"] is None else it["slack"]), str(it["start"]), str("-" if it["latest"] is None else it["latest"])] for it in slack["stages"]]
    yield "slack", difference(wanted, table(trial, "#slack"), "rows")
    if rescue["rescues"]:
        text = trial.run("rescue", "--quiet", file, stage).stdout.decode().split("\n")[1:-1]
        wanted = [[line.rsplit(" -> value:", 1)[0], "value " + line.rsplit(" -> value:", 1)[1]] for line in text]
        yield "rescue", difference(wanted, table(trial, "#rescue"), "rows")
    (failures,), (ends,) = trial.told("failures", file), trial.told("ends", file)
    if failures["stages"]:
        wanted = [[it["name"], str(it["moment"]), short({"bare": it["exception"]})] for it in failures["stages"]]
        yield "failures", difference(wanted, [row[:3] for row in table(trial, "#failures")], "rows")
    if ends["stages"]:
        wanted = [[it["name"], f"{it['do']} {'' if it['delay'] is None else it['delay']}".strip(), str(it["moment"])] for it in ends["stages"]]
        yield "ends", difference(wanted, [row[:3] for row in table(trial, "#ends")], "rows")
    one = explain[0]
    facts = trial.ask("Object.fromEntries([...document.querySelectorAll('#chosen dt')].map(name => [name.innerText, name.nextSibling.innerText]))")
    state = short(one["outcome"]).lstrip(FAILED)
    yield "chosen", "" if state in facts.get("State", "") and str(one["moment"]) in facts["State"] and facts.get("Sources", "") == (", ".join(one["sources"]) or "none") else f"facts {facts}"


TABLE = """(async most => { const rows = []; const next = () => [...document.querySelectorAll('#table button')].find(one => one.innerText === 'Next');
for (let page = 0; page < most; page++) { rows.push(...[...document.querySelectorAll('#table tbody tr')].map(row => [...row.cells].map(cell => cell.innerText.trim()))); const before = document.querySelector('#table caption').innerText; next().click();
if (document.querySelector('#table caption').innerText === before) break; } return rows; })(%d)"""


def all_stages(trial, file, pages=999):
    """The table of all stages, page by page, held against `report` and `times`."""
    (report,) = trial.told("report", file)
    (times,) = trial.told("serve", file, stdin=b'{"do":"report","version":0,"what":"times"}\n')
    starts = {it["name"]: it["start"] for it in times["stages"]}
    trial.browser.key("t")
    came = trial.ask(TABLE % pages)
    trial.browser.key("t")
    shown = lambda value: "-" if value is None else str(value)
    wanted = {it["name"]: [short(it["outcome"]), shown(it["moment"]), shown(starts[it["name"]])] for it in report["stages"]}
    if not isinstance(came, list):
        return f"table: {str(came)[:300]}"
    if len(came) != min(len(wanted), pages * 200):
        return f"{len(came)} rows of {len(wanted)}"
    return next((f"{row}, wanted {wanted[row[0]]}" for row in came if [row[2], row[3], row[5]] != wanted[row[0]]), "")


# From where to where the run bar of a stage is coloured in the picture, and from where to where it ought to be.
BAR = """((name, at) => { const { pitch, target } = whatif.shown, scroll = document.getElementById('scroll'), plot = whatif.plotsFor(scroll.clientWidth).at(at), { model } = plot, one = model.by.get(name);
const row = whatif.shownFor(whatif.shown.model.by.get(name)), canvas = document.getElementById('rows'), y = (row.row + .5) * pitch + plot.up - scroll.scrollTop - 4;
const strong = new Set(whatif.stepsOf(model.by.get(target.name)).map(step => step.name)).has(name), wanted = whatif.look[one.failed ? strong ? 'fail' : 'fail-soft' : strong ? 'ran-path' : 'ran'];
const probe = document.createElement('canvas').getContext('2d'); probe.fillStyle = wanted; probe.fillRect(0, 0, 1, 1); const colour = probe.getImageData(0, 0, 1, 1).data;
const copy = document.createElement('canvas'); copy.width = canvas.width; copy.height = 1; const pen = copy.getContext('2d', { willReadFrequently: true });
pen.drawImage(canvas, 0, -Math.round(y)); const dots = pen.getImageData(0, 0, copy.width, 1).data, is = x => [0, 1, 2].every(part => dots[x * 4 + part] === colour[part]);
let from = -1, to = -1; for (let x = Math.ceil(plot.x) - 4, begun = x; x < plot.x + plot.wide + 4; x++) if (!is(x)) begun = x + 1; else if (x + 1 - begun > to - from) [from, to] = [begun, x + 1];
return [from, to, plot.of(one.bars.start), plot.of(one.bars.to)]; })(%s, %d)"""


def drawn(trial, names, at=-1):
    """The bars of these stages in one of the plots, by the dots of the canvas."""
    for name in names:
        trial.ask(f"whatif.choose(whatif.shown.model.by.get({json.dumps(name)}), true), whatif.draw()")
        trial.browser.settle()
        came = trial.ask(BAR % (json.dumps(name), at))
        if not isinstance(came, list):
            return f"{name}: {came}"
        from_, to, start, end = came
        # A mark of the stage's end may lie over the end of its bar.
        if abs(from_ - start) > 1.5 or not -7 <= to - max(end, start + 1.5) <= 1.5:
            return f"{name}: drawn from {from_} to {to}, wanted {start:.1f} to {end:.1f}"
    return ""


# ---- keys and the pointer


def near(one, other, most=1.01):
    return abs(one - other) <= most


def handled(trial):
    """What keys and the pointer do; the page is of 500 stages."""
    browser, ask = trial.browser, trial.ask
    window = lambda: ask("[whatif.now.from, whatif.now.to]")
    chosen = lambda: ask("whatif.now.chosen && whatif.now.chosen.name")
    whole = window()
    browser.key("/")
    yield "/ goes to the find box", "" if ask("document.activeElement.id") == "find" else ask("document.activeElement.id")
    browser.type("s12")
    found = ask("whatif.now.found.map(one => one.name)")
    wanted = ask("whatif.shown.model.all.map(one => one.name).filter(name => name.includes('s12'))")
    yield "finds by name", difference(wanted, found, "found")
    first = chosen()
    browser.key("Enter")
    yield "Enter goes to the next", "" if chosen() == wanted[(wanted.index(first) + 1) % len(wanted)] else f"{first} then {chosen()}"
    yield "what is found is seen", "" if ask("(({ model, pitch }) => { const row = whatif.shownFor(whatif.now.chosen), box = document.getElementById('scroll'), y = row.row * pitch; return row.one === whatif.now.chosen && y >= box.scrollTop && y + pitch <= box.scrollTop + box.clientHeight; })(whatif.shown)") is True else f"{chosen()} is out of sight"
    yield "it is told", "" if ask("document.getElementById('say').innerText").startswith(chosen()) and "of" in ask("document.getElementById('found').innerText") else "nothing is said"
    browser.key("Escape")
    yield "Escape leaves the box", "" if ask("document.activeElement.id") == "scroll" else ask("document.activeElement.id")
    browser.key("n")
    yield "n goes on", "" if chosen() == wanted[(wanted.index(first) + 2) % len(wanted)] else chosen()
    browser.key("N")
    browser.key("+")
    smaller = window()
    yield "+ zooms in", "" if smaller[1] - smaller[0] < 0.7 * (whole[1] - whole[0]) else f"{whole} then {smaller}"
    browser.key("0")
    yield "0 shows the whole run", "" if window() == whole else f"{window()}"
    x, y, wide = ask("(plot => { const box = document.getElementById('scroll').getBoundingClientRect(); return [box.left + plot.x, box.top + 60, plot.wide]; })(whatif.plotsFor(document.getElementById('scroll').clientWidth)[0])")
    tick = lambda at: whole[0] + (at - x) / wide * (whole[1] - whole[0])
    browser.drag(x + wide * 0.25, y, x + wide * 0.5, y + 30)
    came = window()
    yield "a selection is zoomed to", "" if near(came[0], tick(x + wide * 0.25)) and near(came[1], tick(x + wide * 0.5)) else f"{came}"
    browser.key("0")
    browser.mouse("mouseMoved", x + wide * 0.75, y)
    browser.settle()
    for _ in range(4):
        browser.mouse("mouseWheel", x + wide * 0.75, y, deltaX=0, deltaY=-200, modifiers=2)
    browser.settle()
    came = window()
    under = came[0] + 0.75 * (came[1] - came[0])
    yield "the wheel zooms around the pointer", "" if near(under, tick(x + wide * 0.75), 2) and came[1] - came[0] < 0.3 * (whole[1] - whole[0]) else f"{came}, {under} under the pointer"
    browser.key(".")
    yield ". moves on", "" if window()[0] > came[0] else f"{window()}"
    browser.key("0")
    browser.key("l")
    target = ask("whatif.shown.target.name")
    yield "l goes to the stage of the page", "" if chosen() == target else chosen()
    path = [it["name"] for it in ask("whatif.stepsOf(whatif.shown.target)")]
    browser.key("p")
    yield "p goes to what it waited for", "" if chosen() == path[1] else chosen()
    rows = lambda: ask("whatif.shown.rows.length")
    row = ask("whatif.shown.rows.findIndex(one => one.one && one.children.length && !one.open)")
    ask(f"whatif.choose(whatif.shown.rows[{row}].one)")
    before = rows()
    browser.key("ArrowRight")
    opened = rows()
    browser.key("ArrowRight")
    inside = chosen()
    browser.key("ArrowLeft")
    browser.key("ArrowLeft")
    browser.key("ArrowLeft")
    yield "right opens a group and goes in, left goes out and closes", "" if opened > before and inside != chosen() and rows() <= before else f"{before}, {opened}, {rows()} rows"
    at = chosen()
    browser.key("ArrowDown")
    browser.key("ArrowUp")
    yield "down and up", "" if chosen() == at else f"{at} then {chosen()}"
    browser.key("f")
    yield "f goes to a failure", "" if ask("whatif.now.chosen.failed && !whatif.now.chosen.blames") is True else chosen()
    browser.key("l")
    where = ask("(row => { const box = document.getElementById('scroll'), at = box.getBoundingClientRect(); return [at.left + 60, at.top + (row.row + .5) * whatif.shown.pitch - box.scrollTop]; })(whatif.shown.rows[whatif.shownFor(whatif.shown.target).row - 1])")
    browser.click(*where)
    yield "a click chooses", "" if chosen() not in (None, target) else chosen()
    browser.mouse("mouseMoved", x + wide * 0.4, where[1])
    browser.settle()
    tip = ask("document.getElementById('tip').hidden ? '' : document.getElementById('tip').innerText")
    yield "pointing tells of a stage", "" if tip.startswith(chosen()) and ("after" in tip or "created" in tip) else repr(tip)
    ask("document.getElementById('find').value = '', document.getElementById('find').dispatchEvent(new Event('input')), 0")
    browser.key("t")
    yield "t shows a table", "" if ask("getComputedStyle(document.getElementById('table')).display !== 'none' && document.querySelectorAll('#table tbody tr').length === 200 && !!document.querySelector('#table caption') && [...document.querySelectorAll('#table tbody tr')].every(row => row.cells[0].scope === 'row')") is True else "no table"
    browser.key("t")
    browser.key("?")
    yield "? shows the keys", "" if ask("document.getElementById('keys').open") is True else "no keys"
    browser.key("Escape")
    ids = []
    ask("document.getElementById('find').focus(), 0")
    ids.append("find")
    for _ in range(18):
        browser.key("Tab")
        ids.append(ask("document.activeElement.id || document.activeElement.dataset.key || document.activeElement.className"))
    wanted = ["find", "kind", "o", "c", "+", "-", "0", "t", "?", "scroll", "name"]
    yield "Tab reaches all", "".join(f"{it} " for it in wanted if it not in ids)
    browser.key("Escape")


# ---- names, units and labels that an enemy chose

MARKUP = "</script><script>window.owned=1</script><img src=x onerror=window.owned=1>\u2028\u2029\u202e\u0000<!--"


def hostile(trial):
    stages = [
        {"name": "__proto__", "op": "async", "runs": 5, "action": 9223372036854775807, "x-a": MARKUP, "span": MARKUP, "$" + MARKUP: [MARKUP, {MARKUP: 1}], "__proto__": MARKUP},
        {"name": "constructor", "op": "thenApply", "sources": ["__proto__"], "runs": 5, "action": ["sub", -2, ["arg", 0]], "_b": {"a": ["<b>", "&lt;b&gt;"]}},
        {"name": "toString", "op": "async", "action": ["throw", "__proto__"], "x-" + MARKUP: 1},
        {"name": "hasOwnProperty", "op": "thenCompose", "sources": ["constructor"], "inner": ["toString"], "runs": 1, "action": 0, "span": "a"},
    ]
    text = json.dumps({"form": 2, "unit": MARKUP, "service": MARKUP, "trace": MARKUP, "start": "9" * 19, "constructor": MARKUP, "__proto__": MARKUP, "stages": stages}, ensure_ascii=False).replace('"runs": 1,', '"runs": 7, "runs": 1,')
    file = trial.file("a<img src=x onerror=window.owned=1>\u2028&lt;\u202e.json", text)
    lines = [{"do": "open", "session": 1, "version": 0, "x-c": MARKUP}, {"do": "setTimes", "session": 1, "stage": "__proto__", "queued": 1, "runs": 3, MARKUP: MARKUP},
             {"do": MARKUP}, {"do": "add", "session": 1, "new": {"name": "valueOf", "op": "copy", "sources": ["__proto__"], "x-d": MARKUP}}]
    script = trial.file("<b>.script", "\n".join(json.dumps(it, ensure_ascii=False) for it in lines) + "\n{<script>\n")
    for stage in (None, "constructor"):
        told = trial.open(file, script, stage)
        if told:
            yield f"hostile: opens, {stage}", told
            return
        for name in ("__proto__", "toString", "hasOwnProperty"):
            trial.ask(f"whatif.choose(whatif.shown.model.by.get({json.dumps(name)}))")
            trial.browser.settle()
        trial.browser.key("t")
        trial.browser.key("t")
        trial.ask("dispatchEvent(new Event('beforeprint')), dispatchEvent(new Event('afterprint'))")
        state = trial.ask("[window.owned === undefined, document.scripts.length, document.querySelectorAll('img,iframe,object,embed,link[rel=stylesheet],b b').length, /[\\u2028\\u2029\\u202e]/.test(document.body.innerText + document.title)]")
        yield f"hostile: nothing of it is markup, {stage}", "" if state == [True, 2, 0, False] else f"{state}"
        middle = trial.bytes[len(text_of(trial.top, "head.html").encode()):-len(text_of(trial.top, "tail.html").encode())]
        yield f"hostile: no < in the data, {stage}", "" if b"<" not in middle else repr(middle[max(0, middle.index(b"<") - 40):][:80])
        yield f"hostile: stands as text, {stage}", "" if trial.ask("document.getElementById('facts').innerText.includes('<img src=x onerror=window.owned=1>')") is True else trial.ask("document.getElementById('facts').innerText")
        yield f"hostile: derived, {stage}", derived(trial, file, script)
        yield f"hostile: calm, {stage}", trial.calm()
    trial.ask("whatif.showVersion(0, null)")
    yield "hostile: long numbers", "" if "9223372036854775807" in trial.ask("whatif.choose(whatif.shown.model.by.get('__proto__')), document.getElementById('chosen').innerText") else "rounded"
    trial.picture("hostile")


# ---- colours


def light(colour):
    parts = [int(colour[at:at + 2], 16) / 255 for at in (1, 3, 5)]
    parts = [it / 12.92 if it <= 0.04045 else ((it + 0.055) / 1.055) ** 2.4 for it in parts]
    return parts


def luminance(colour):
    return sum(part * share for part, share in zip(light(colour), (0.2126, 0.7152, 0.0722)))


def contrast(one, other):
    more, less = sorted((luminance(one), luminance(other)), reverse=True)
    return (more + 0.05) / (less + 0.05)


# How who sees no red, or no green, sees (Vienot and others, 1999, in linear light).
NO_RED = ((0.11238, 0.88762, 0), (0.11238, 0.88762, 0), (0.00401, -0.00401, 1))
NO_GREEN = ((0.29275, 0.70725, 0), (0.29275, 0.70725, 0), (-0.02234, 0.02234, 1))


def apart(one, other, sight):
    """How far two colours are apart to such eyes, in linear light."""
    seen = [[sum(row[at] * part for at, part in enumerate(light(it))) for row in sight] for it in (one, other)]
    return sum((a - b) ** 2 for a, b in zip(*seen)) ** 0.5


def colours(trial):
    for theme in ("light", "dark"):
        trial.browser.media(prefers_color_scheme=theme)
        trial.browser.settle()
        if trial.ask("document.documentElement.dataset.theme") != theme:
            yield f"colours: {theme} where the reader has it so", "another theme"
        look = trial.ask("whatif.look")
        look = {name: "#" + "".join(it * 2 for it in value[1:]) if len(value) == 4 else value for name, value in look.items()}
        for name in ("ink", "soft", "fail", "pending", "link"):
            for ground in ("panel", "chosen"):
                ratio = contrast(look[name], look[ground])
                yield f"colours: {theme}, {name} is read on {ground}", "" if ratio >= 4.5 else f"{ratio:.2f}"
        for sight, eyes in (("red", NO_RED), ("green", NO_GREEN)):
            for one, other in (("ran-path", "fail"), ("ran", "fail-soft")):
                far = apart(look[one], look[other], eyes)
                yield f"colours: {theme}, {one} and {other} without {sight}", "" if far > 0.1 else f"{far:.3f}"
    trial.browser.media(prefers_color_scheme="light")


# ---- how fast

FRAMES = """(async () => { const box = document.getElementById('scroll'), { model } = whatif.shown, took = [], canvas = document.getElementById('rows'), copy = document.createElement('canvas'), pen = copy.getContext('2d', { willReadFrequently: true });
const room = model.last - model.first; let seed = 7; const any = () => (seed = seed * 16807 %% 2147483647) / 2147483647;
for (let at = 0; at < 20; at++) { await new Promise(requestAnimationFrame); box.scrollTop = any() * box.scrollHeight; const low = model.first + any() * room * .8; whatif.zoomTo(low, low + room * .2 * any() + 5, true);
const begun = performance.now(); whatif.draw(); pen.drawImage(canvas, 0, 0); pen.getImageData(0, 0, 1, 1); took.push(performance.now() - begun); }
took.sort((one, two) => one - two); return [took[10], took[19]]; })()"""


def frames(trial):
    """Of three rounds of 20 frames, each of other rows at another zoom, the best: the middle frame, and the slowest; and how long the
    processor was at work for one (each is drawn twice, once of its own), which tells it on a busy machine."""
    rounds = []
    for _ in range(3):
        begun = trial.browser.worked()
        took = trial.ask(FRAMES.replace("%%", "%"))
        if not isinstance(took, list):
            return took
        rounds.append((took[0], took[1], (trial.browser.worked() - begun) / 40))
        if took[0] < MOST_FRAME / 2:
            break
    trial.ask("whatif.zoomTo(whatif.shown.model.first, whatif.shown.model.last)")
    return [min(it) for it in zip(*rounds)]


def measured(trial, name, told):
    """The time to the first picture and that of a frame, as the page opens and with all groups open."""
    first = trial.ask("whatif.first")
    closed = frames(trial)
    opening = trial.ask("(begun => { document.querySelector('[data-key=o]').click(); whatif.draw(); return performance.now() - begun; })(performance.now())")
    opened = frames(trial)
    trial.ask("document.querySelector('[data-key=c]').click()")
    if not isinstance(closed, list) or not isinstance(opened, list):
        return f"{closed}, {opened}"
    words = lambda it: f"{it[0]:.1f} ms (at most {it[1]:.0f}; at work {it[2]:.1f})"
    told.append(f"{name}: first picture {first:.0f} ms, frame {words(closed)}, all open {words(opened)}, opening all {opening:.0f} ms")
    return "" if all(min(it[0], it[2]) < MOST_FRAME for it in (closed, opened)) else told[-1]


# ---- all of it


def examples(trial):
    """Each example with its script, first without a stage."""
    for path in sorted(glob.glob(os.path.join(trial.top, "examples", "*.json"))):
        file = os.path.basename(path)
        script = file.replace(".json", ".script") if os.path.exists(path.replace(".json", ".script")) else None
        told = trial.open(file, script)
        yield f"{file}: opens", told
        if not told:
            yield f"{file}: derived", derived(trial, file, script)
            yield f"{file}: calm", trial.calm()


def late_reply(trial):
    told = trial.open("late-reply.json", None, "reply")
    yield "late reply: opens", told
    if told:
        return
    for name, complaint in panel(trial, "late-reply.json", "reply"):
        yield f"late reply: {name}", complaint
    yield "late reply: all stages", all_stages(trial, "late-reply.json")
    yield "late reply: drawn", drawn(trial, ["customer-database", "discount", "prices", "stock-south", "basket", "request"])
    heading = trial.ask("document.querySelector('header').innerText")
    for word in ("reply", "117", "StockServiceDown", "stock-south", "customer-database", "late-reply.json", "15 stages", "ticks", trial.run("--version").stdout.decode().split()[-1]):
        yield f"late reply: the heading has {word}", "" if word in heading else heading
    trial.picture("late-reply")
    trial.ask("dispatchEvent(new Event('beforeprint'))")
    paper = trial.ask("[...document.querySelectorAll('#paper canvas')].map(one => new Set(one.getContext('2d').getImageData(0, 0, one.width, one.height).data).size)")
    trial.ask("dispatchEvent(new Event('afterprint'))")
    yield "late reply: strips for paper", "" if isinstance(paper, list) and paper and all(it > 20 for it in paper) else f"{paper}"
    yield "late reply: prints", "" if len(trial.browser.paper()) > 20_000 else "an empty paper"
    yield from colours(trial)
    yield "late reply: calm", trial.calm()


def text_answers(trial, lines):
    """What `serve` answers each line that is refused, as text, by the line's number."""
    script = [line for line in lines.split("\n") if line]
    return {at + 1: answer for at in range(len(script)) for answer in [trial.run("serve", "--quiet", "late-reply.json", stdin="\n".join(script[:at + 1]).encode()).stdout.decode().split("\n")[-2]] if answer.startswith("refused ")}


def shown_state(state):
    return "absent" if state is None else "pending" if state["outcome"] is None else f"{short(state['outcome'])} at {state['moment']}"


def later(old, new):
    by = new["moment"] - old["moment"] if old and new and None not in (old["moment"], new["moment"]) else None
    return "-" if by is None else f"+{by}" if by > 0 else str(by)


# The two plots: where they begin, how wide they are, where a tick lies, and how far their lines are from the middle of a row.
PLOTS = "whatif.plotsFor(document.getElementById('scroll').clientWidth).map(plot => [plot.x, plot.wide, plot.of(40), plot.up, plot.model.version])"


def laid_out(trial, version, against):
    """Before and after stand one above the other on one axis, or beside each other."""
    trial.ask("document.getElementById('how').value === 'above' || document.getElementById('how').onchange(document.getElementById('how').value = 'above')")
    above = trial.ask(PLOTS)
    trial.browser.key("w")
    beside = trial.ask(PLOTS)
    trial.browser.key("w")
    if [it[4] for it in above] != [against, version] or [it[4] for it in beside] != [against, version]:
        return f"plots of {above}, {beside}"
    if above[0][:3] != above[1][:3] or not above[0][3] < 0 < above[1][3]:
        return f"not on one axis, or not one above the other: {above}"
    return "" if beside[0][0] + beside[0][1] < beside[1][0] and beside[0][3] == beside[1][3] == 0 and near(beside[0][2] - beside[0][0], beside[1][2] - beside[1][0]) else f"not beside each other: {beside}"


def versions(trial):
    """Each version of a script beside the recording and beside the version that it was made of, where pages show these."""
    if not trial.takes_script():
        return
    told = trial.open("late-reply.json", "late-reply.script", "reply")
    yield "versions: opens", told
    if told:
        return
    with open(os.path.join(trial.folder, "late-reply.script"), encoding="utf-8") as given:
        lines = given.read()
    serve = lambda *asked: trial.told("serve", "late-reply.json", stdin="\n".join([lines.rstrip("\n"), *map(json.dumps, asked)]).encode())
    replies = serve()
    committed = [it["version"] for it in replies if it.get("reply") == "committed"]
    yield "versions: there are some", "" if len(committed) > 2 else f"{committed}"
    yield "versions: the last one is shown beside the recording", "" if trial.ask("[whatif.shown.model.version, whatif.shown.other.version]") == [committed[-1], 0] else "another one"
    rows = table(trial, "#steps")
    yield "versions: steps", difference([[str(it["line"]), lines.split("\n")[it["line"] - 1]] for it in replies], [row[:2] for row in rows], "lines")
    yield "versions: their answers", difference([f"version {it['version']}" for it in replies if it.get("reply") == "committed"], [row[2] for row in rows if re.fullmatch(r"version \d+", row[2])], "answers")
    refused = text_answers(trial, lines)
    yield "versions: what was refused", difference([[str(line), FAILED + text] for line, text in refused.items()], [[row[0], row[2]] for row in rows if row[2].startswith(FAILED)], "refusals") if refused else "nothing was refused"
    trial.picture("late-reply-versions")
    parents = {it["version"]: it["parent"] for it in (serve({"do": "report", "version": version, "what": "changes"})[-1] for version in committed)}
    for version in committed:
        for beside, against in (("0", 0), ("parent", parents[version])):
            name = f"{version} beside {'its parent' if beside == 'parent' else against}"
            trial.ask(f"document.getElementById('before').onchange(document.getElementById('before').value = '{beside}'), document.getElementById('after').onchange(document.getElementById('after').value = '{version}')")
            trial.browser.settle()
            yield f"versions: {name} is shown", "" if trial.ask("[whatif.shown.model.version, whatif.shown.other.version, document.getElementById('before').value]") == [version, against, beside] else trial.ask("[whatif.shown.model.version, whatif.shown.other.version, document.getElementById('before').value]")
            report = serve({"do": "report", "version": version, "what": "changes", **({} if beside == "parent" else {"against": against})})[-1]
            same = lambda one, two: one and two and (one["outcome"], one["moment"]) == (two["outcome"], two["moment"])
            wanted = [[it["name"], shown_state(it["old"]), shown_state(it["new"]), later(it["old"], it["new"])] for it in report["stages"] if not same(it["old"], it["new"])]
            # The report is of the stages that are there; one that was taken away has a row too.
            came = [row for row in table(trial, "#changed") if row[2] != "absent"]
            yield f"versions: what changed in {name}", difference(sorted(wanted), sorted(came), "rows")
            marked = trial.ask("[...whatif.shown.changed.keys()].filter(name => whatif.shown.model.by.has(name))")
            yield f"versions: what is marked in {name}", difference(sorted(row[0] for row in wanted), sorted(marked), "stages")
            counts = trial.ask("[whatif.shown.nodes.filter(node => !node.parent).reduce((sum, node) => sum + node.differ, 0), whatif.shown.changed.size]")
            yield f"versions: groups of {name}", "" if counts[0] == counts[1] > 0 else f"{counts}"
            yield f"versions: drawn in {name}", drawn(trial, ["prices"]) or drawn(trial, ["prices"], 0)
            if beside == "parent":
                continue
            yield f"versions: how {name} is laid out", laid_out(trial, version, against)
            before, after = serve({"do": "report", "version": against, "what": "all"}, {"do": "report", "version": version, "what": "all"})[-2:]
            old = {it["name"]: shown_state(it) for it in before["stages"]}
            trial.browser.key("t")
            came = trial.ask(TABLE % 9)
            trial.browser.key("t")
            yield f"versions: table of {name}", difference(sorted([it["name"], old.get(it["name"], "absent")] for it in after["stages"]), sorted([row[0], row[-1]] for row in came), "rows")
        path = serve({"do": "report", "version": version, "what": "path", "stage": "reply"})[-1]
        yield f"versions: path in {version}", difference(path_rows(path["steps"]), table(trial, "#path"), "rows")
        trial.ask("whatif.choose(whatif.shown.target)")
        changed = trial.ask("whatif.shown.changed.has('reply')")
        yield f"versions: what is told of {version}", "" if ("before: " in trial.ask("document.getElementById('say').innerText")) == changed else trial.ask("document.getElementById('say').innerText")
    trial.ask("document.getElementById('before').onchange(document.getElementById('before').value = '0')")
    trial.ask("dispatchEvent(new Event('beforeprint'))")
    paper = trial.ask("[...document.querySelectorAll('#paper canvas')].map(one => new Set(one.getContext('2d').getImageData(0, 0, one.width, one.height).data).size)")
    trial.ask("dispatchEvent(new Event('afterprint'))")
    yield "versions: strips for paper", "" if isinstance(paper, list) and paper and all(it > 20 for it in paper) else f"{paper}"
    trial.browser.key("v")
    yield "versions: v turns to the next", "" if trial.ask("[whatif.shown.model.version, whatif.shown.other]") == [0, None] else "another one"
    trial.browser.key("V")
    yield "versions: V turns back", "" if trial.ask("whatif.shown.model.version") == committed[-1] else "another one"
    trial.ask("[...document.querySelectorAll('#steps button.name')].find(one => one.innerText === 'version 2').click()")
    yield "versions: a step turns to its version", "" if trial.ask("[whatif.shown.model.version, whatif.shown.other.version]") == [2, 0] else "another one"
    yield "versions: calm", trial.calm()


def odd_scripts(trial):
    """Scripts of no steps, of lines that are no JSON, and of markup."""
    if not trial.takes_script():
        return
    mark = '<img src=x onerror=alert(1)></script><!--'
    scripts = {
        "of no steps": "", "of blank lines": "\n\r\n\n", "of no versions": '{"do":"report","version":0,"what":"all"}\n',
        "of lines that are no JSON": f'nothing\n\n{mark}\n[1\n{{"do":"open","session":1,"version":0}}\r\n"<!--"\n',
        "of markup": json.dumps({"do": "open", "session": 1, "version": 0}) + "\n" + json.dumps({"do": "add", "session": 1, "new": {"name": "</script><script>", "op": "copy", "sources": ["reply"], "x-note": mark}}) + "\n" + json.dumps({"do": "setTimes", "session": 1, "stage": "stock-south", "queued": 3, "runs": 4, "x-note": mark}),
    }
    for at, (name, text) in enumerate(scripts.items()):
        script = trial.file(f"odd-{at}<!--.script", text)
        told = trial.open("late-reply.json", script, "reply")
        yield f"a script {name}: opens", told
        if told:
            continue
        replies = trial.told("serve", "late-reply.json", stdin=text.encode())
        lines = text.split("\n")
        wanted = [[str(it["line"]), lines[it["line"] - 1].strip()] for it in replies]
        yield f"a script {name}: steps", difference(wanted, [row[:2] for row in table(trial, "#steps")], "lines") if wanted else "" if trial.ask("document.querySelectorAll('#steps tbody tr').length") == 0 else "rows"
        count = max([0, *(it["version"] for it in replies if it.get("reply") == "committed")])
        yield f"a script {name}: versions", "" if trial.ask("document.getElementById('after').options.length") == count + 1 else "another number"
        yield f"a script {name}: derived", derived(trial, "late-reply.json", script)
        yield f"a script {name}: calm", trial.calm()


def tree_of(trial):
    """The spans of the open page with those in which they began."""
    return trial.ask("Object.fromEntries(whatif.shown.nodes.filter(node => node.one && typeof node.one.told.span === 'string').map(node => [node.one.told.span, node.parent ? node.parent.one.told.span : null]))")


def traced(trial):
    """An imported trace, by its spans."""
    with open(os.path.join(trial.top, "examples", "late-order.otlp.trace"), encoding="utf-8") as given:
        trace = json.load(given)
    made = trial.run("import", "--quiet", "--unit", "ms", os.path.join(trial.top, "examples", "late-order.otlp.trace")).stdout.decode()
    file = trial.file("late-order.json", made)
    told = trial.open(file, None, "shop.POST-order")
    yield "trace: opens", told
    if told:
        return
    spans = [span for resource in trace["resourceSpans"] for scope in resource["scopeSpans"] for span in scope["spans"]]
    wanted = {it["spanId"]: it.get("parentSpanId") or None for it in spans}
    came = tree_of(trial)
    yield "trace: its spans as a tree", "" if came == wanted else f"wanted {wanted}, came {came}"
    yield "trace: unit and trace", "" if all(it in trial.ask("document.getElementById('facts').innerText") for it in ("times in ms", json.loads(made)["trace"], "2025-11-24")) else trial.ask("document.getElementById('facts').innerText")
    yield "trace: derived", derived(trial, file)
    for name, complaint in panel(trial, file, "shop.POST-order"):
        yield f"trace: {name}", complaint
    trial.picture("late-order")
    yield "trace: calm", trial.calm()


def at_random(trial, count):
    """Recordings of all operations, with ends, pins and scripts made at random."""
    for seed in range(count):
        made, pick = recomputed.some(seed), random.Random(f"page {seed}")
        names, lines = [it["name"] for it in made["stages"]], [{"do": "open", "session": 1, "version": 0}]
        for at in range(pick.randrange(6)):
            stage = pick.choice(names)
            lines.append(pick.choice([
                {"do": "setTimes", "stage": stage, "queued": pick.randrange(9), "runs": pick.randrange(50)}, {"do": "setTakes", "stage": stage, "takes": pick.randrange(50)},
                {"do": "pinResult", "stage": stage, "result": pick.choice([None, {"value": 2}, {"bare": "com.shop.Pinned"}])}, {"do": "pinMoment", "stage": stage, "at": pick.choice([None, 33])},
                {"do": "setEnds", "stage": stage, "ends": [recomputed.an_end(pick, 20)]}, {"do": "setAction", "stage": stage, "action": pick.choice([1, None, ["throw", "com.shop.Down"]])},
                {"do": "remove", "stage": stage}, {"do": "rewire", "stage": stage, "sources": [pick.choice(names)], "inner": []}, {"do": "add", "new": recomputed.a_stage(pick, f"new{at}", names)},
                {"do": "edits", "edits": [{"do": "setTimes", "stage": stage, "queued": 1, "runs": 2}, {"do": "add", "new": {"name": f"late{at}", "op": "copy", "sources": [stage]}}]},
            ]) | {"session": 1})
            if pick.random() < 0.2:
                lines.append({"do": "undo", "session": 1})
        file, script = trial.file(f"random-{seed}.json", json.dumps(made)), trial.file(f"random-{seed}.script", "\n".join(map(json.dumps, lines)))
        told = trial.open(file, script, pick.choice([None, *names]))
        told = told or derived(trial, file, script) or trial.calm()
        if not told and trial.ask("[...document.getElementById('kind').options].forEach(one => { document.getElementById('kind').value = one.value; document.getElementById('kind').onchange(); document.querySelector('[data-key=o]').click(); whatif.draw(); }), whatif.shown.nodes.filter(node => node.one).length") != trial.ask("new Set([...whatif.shown.model.by.keys(), ...(whatif.shown.other ? whatif.shown.other.by.keys() : [])]).size"):
            told = "not each stage has a row"
        yield f"at random: {seed}", told


def mixed(trial, count, told):
    made = subprocess.run([sys.executable, os.path.join(trial.top, "tools", "generate"), "mixed", str(count)], capture_output=True, text=True).stdout
    file = trial.file(f"mixed-{count}.json", made)
    stage = trial.told("explain", file)[0]["stage"]
    complaint = trial.open(file, None, stage)
    yield f"{count} stages: opens", complaint
    if complaint:
        return
    trial.picture(f"mixed-{count}")
    yield f"{count} stages: at first the path and what failed", "" if 10 < trial.ask("whatif.shown.rows.length") < 600 else f"{trial.ask('whatif.shown.rows.length')} rows"
    yield f"{count} stages: its stage is seen", "" if trial.ask("(({ target, pitch }) => { const box = document.getElementById('scroll'), y = whatif.shownFor(target).row * pitch; return y >= box.scrollTop && y < box.scrollTop + box.clientHeight; })(whatif.shown)") is True else "out of sight"
    yield f"{count} stages: a frame in {MOST_FRAME} ms", measured(trial, f"{count} stages", told)
    yield f"{count} stages: derived", derived(trial, file, None, 500 if count <= 5000 else 100)
    yield f"{count} stages: all stages", all_stages(trial, file, 999 if count <= 5000 else 4)
    if count == 500:
        for name, complaint in handled(trial):
            yield f"{count} stages: {name}", complaint
    if count <= 5000:
        trial.ask("whatif.choose(whatif.shown.target)")
        for name, complaint in panel(trial, file, stage):
            yield f"{count} stages: {name}", complaint
    if count == 5000:
        trial.ask("document.querySelector('[data-key=o]').click(), whatif.choose(whatif.shown.model.arose[40])")
        trial.browser.settle()
        trial.picture(f"mixed-{count}-open")
    yield f"{count} stages: calm", trial.calm()


def shapes(trial, told):
    """A line of 16,384 stages, as many beside each other, and a trace of 5,000 spans; without a stage, as trials of a line take minutes."""
    generate = lambda *words: subprocess.run([sys.executable, os.path.join(trial.top, "tools", "generate"), *words], capture_output=True, text=True).stdout
    files = {kind: trial.file(f"{kind}.json", generate(kind, "16384")) for kind in ("chain", "fan")}
    files["trace"] = trial.file("spans.json", trial.run("import", "--quiet", trial.file("spans.trace", generate("trace", "5000"))).stdout.decode())
    for kind, file in files.items():
        complaint = trial.open(file)
        yield f"{kind}: opens", complaint
        if not complaint:
            trial.picture(kind)
            yield f"{kind}: a frame in {MOST_FRAME} ms", measured(trial, kind, told)
            yield f"{kind}: derived", derived(trial, file, None, 3)
            yield f"{kind}: calm", trial.calm()


def results(top, program, path, folder, pictures, words, told):
    """The name of each case and its complaint, or nothing."""
    yield from parts(top)
    browser = Browser(path)
    for example in glob.glob(os.path.join(top, "examples", "*.[js]*")):
        shutil.copy(example, folder)
    try:
        trial = Trial(top, program, browser, folder, pictures)
        groups = {
            "examples": lambda: examples(trial), "late reply": lambda: late_reply(trial), "versions": lambda: versions(trial), "odd scripts": lambda: odd_scripts(trial), "trace": lambda: traced(trial), "hostile": lambda: hostile(trial),
            "at random": lambda: at_random(trial, 12), "shapes": lambda: shapes(trial, told), **{f"{count} stages": (lambda count=count: mixed(trial, count, told)) for count in (500, 5000, 16384)},
        }
        for name, group in groups.items():
            if words.only in name:
                try:
                    yield from group()
                except Gone as gone:
                    yield name, f"{gone}"
    finally:
        browser.close()
