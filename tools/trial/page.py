"""Pages: the data that `page` writes is what the other commands print as JSON, byte for byte, each `<` by its escape, between the
texts of crates/incident_page/page; of a script what `serve` answers its steps, and what it tells of the changes of each version."""
import concurrent.futures
import json
import os
import re

from . import exports
from .cases import NO_READ, OPEN, R, lines, recording, stage, step, with_r
from .exports import OPERATIONS, REFUSED_AND_NOT, TOLD, edit
from .mistakes import UNREAD, begins, told
from .pictures import fan
from .readme import read
from .recomputed import some
from .run import CLOSED, LANES, Case, Shut, run, shown
from .tried import NO_ACTION, TIED
from .why import NO_STAGE

SOME = 40
BY = "of the stages on which no other waits it completes last"
# A name that would begin a comment and an element, if it stood as it is.
HOSTILE = '<!--<script>"\\\u2028\t.json'


def printed(program, words, text, file="r.json", script=None):
    files = {file: text} if script is None else {file: text, script[0]: script[1]}
    return run(program, Case("page", words, None, files=files, seconds=120)).out.decode()


def as_json(program, text, command, *words):
    return printed(program, [command, "--format", "json", "--quiet", "r.json", *words], text)


def served(program, text, script):
    """The lines that `serve` answers a script."""
    made = run(program, Case("page", ["serve", "--format", "json", "--quiet", "r.json"], None, stdin=script, files={"r.json": text}, seconds=120))
    return made.out.decode().split("\n")[:-1]


def as_text(script):
    """A text as JSON, of bytes that may be no UTF-8."""
    return json.dumps(script.decode("utf-8", "replace"), ensure_ascii=False)


def changes(program, text, script, answers):
    """What `serve` tells of the changes of each version that a script makes, without the number of a line."""
    count = max([0, *(it["version"] for it in map(json.loads, answers) if it.get("reply") == "committed")])
    asked = "\n".join(json.dumps({"do": "report", "version": version + 1, "what": "changes"}) for version in range(count))
    told = served(program, text, script + b"\n" + asked.encode())[len(answers):] if count else []
    return [re.sub(r'\A\{"line":\d+,', "{", line) for line in told]


def data(program, text, name, file="r.json", script=None):
    """The data of the page of a recording and a stage, or of a recording alone; and of a script, the name of its file and its bytes."""
    version = run(program, Case("page", ["--version"], None)).out.decode().split()[-1]
    made = f'{{"form":1,"program":{{"name":"whatif","version":"{version}"}},"file":{json.dumps(file, ensure_ascii=False)}'
    answers, changed = [], []
    if script is None:
        made += ',"script":null,"text":null'
    else:
        made += f',"script":{json.dumps(script[0], ensure_ascii=False)},"text":{as_text(script[1])}'
        answers = served(program, text, script[1])
        changed = changes(program, text, script[1], answers)
    made += f',"recording":{text},"ends":{as_json(program, text, "ends")},"failures":{as_json(program, text, "failures")}'
    if name is None:
        made += ',"stage":null,"explain":null,"sweep":null,"slack":null,"rescue":null'
    else:
        explained = as_json(program, text, "explain", name)[:-1].replace("\n", "\n,") + "\n"
        made += f',"stage":{json.dumps(name, ensure_ascii=False)},"explain":[{explained}]'
        made += "".join(f',"{it}":{as_json(program, text, it, name)}' for it in ("sweep", "slack", "rescue"))
    made += f',"versions":[{as_json(program, text, "report")}' + "".join(f",{line}\n" for line in changed)
    return made + '],"steps":[' + ",".join(f"{line}\n" for line in answers) + "]}\n"


def between(top, text):
    head, tail = (read(top, f"crates/incident_page/page/{it}.html") for it in ("head", "tail"))
    return head + text.replace("<", "\\u003c") + tail


def wrong_page(top, program, text, name, file="r.json", script=None):
    """What is wrong in the page of a recording in a file, about a stage, and of a script."""
    made = data(program, text, name, file, script)
    try:
        json.loads(made)
    except ValueError as error:
        return f"the data is no JSON: {error}"
    wanted = between(top, made)
    words = [file, *([] if script is None else [script[0]]), *([] if name is None else ["--stage", name])]
    came = printed(program, ["page", "--quiet", *words], text, file, script)
    if came != wanted:
        at = len(os.path.commonprefix([came, wanted]))
        return f"wanted {shown(wanted, at)}, came {shown(came, at)}"
    return ""


def wrong_states(program, text, script, told):
    """What is wrong where the states of a version are those of its parent, with what it changed: they are what `report` tells."""
    answers = served(program, text, script)
    versions = [json.loads(as_json(program, text, "report")), *map(json.loads, changes(program, text, script, answers))]
    for version, it in enumerate(versions[1:], 1):
        if it["version"] != version:
            return f"version {version} stands as {it['version']}"
    states = [{it["name"]: (it["outcome"], it["moment"]) for it in versions[0]["stages"]}]
    for it in versions[1:]:
        changed = {one["name"]: one["new"] and (one["new"]["outcome"], one["new"]["moment"]) for one in it["stages"]}
        states.append({name: state for name, state in {**states[it["parent"]], **changed}.items() if state is not None})
    asked = "\n".join(json.dumps({"do": "report", "version": version, "what": "all"}) for version in range(len(versions)))
    for version, line in enumerate(served(program, text, script + b"\n" + asked.encode())[len(answers):]):
        wanted = {it["name"]: (it["outcome"], it["moment"]) for it in json.loads(line)["stages"]}
        if {name: states[version].get(name) for name in wanted} != wanted:
            return f"version {version}: wanted {wanted}, came {states[version]}"
    told.append(len(versions))
    return ""


LATE = "examples/late-reply"
# A line that is longer than a step may be.
LONG = json.dumps({"do": "open", "session": 1, "version": 0, "x-note": "x" * 65_536})
ODD = {
    "no bytes": b"", "blank lines": b"\n\r\n\n", "a line without its end": OPEN.encode(), "ends of two bytes": OPEN.encode() + b"\r\n" + step("undo", session=1).encode() + b"\r\n",
    "markup": b'</script><script>\n<!--\n', "no UTF-8": OPEN.encode() + b'\n{"do":"\xff\xc3"}\n\xe2\x82', "a line too long": LONG.encode() + b"\n" + OPEN.encode(), "unseen characters": b'\xef\xbb\xbf{}\n"\x00\t\x1f\x7f\xe2\x80\xa8\\"',
    "all refused": b"x\n\n{}\n", "reports alone": b"\n".join(json.dumps({"do": "report", "version": 0, "what": what}).encode() for what in ("all", "changes", "drift", "times", "recording")),
}


def scripted(top):
    """The name, the recording, the stage, and the script of pages that have one."""
    late = read(top, f"{LATE}.json")
    for name in ("late-reply.script", "late-reply-why.script"):
        yield name, late, "reply", (name, read(top, f"examples/{name}").encode())
    yield "a script of a strange name", late, "reply", (HOSTILE, read(top, f"{LATE}.script").encode())
    yield "a script, of pending stages", NO_ACTION, None, ("s", lines(OPEN, edit("pinResult", stage=json.loads(NO_ACTION)["stages"][0]["name"], result={"value": 1})).encode())
    for name, text in ODD.items():
        yield f"a script of {name}", R, "b", ("s", text)
    yield "a script of 300 versions", R, "b", ("s", lines(OPEN, *[edit("setTimes", stage="a", queued=0, runs=at % 7) for at in range(300)]).encode())
    every = recording(*[it for it, _ in OPERATIONS])
    for seed in range(SOME):
        yield f"a script made at random, {seed}", every, None, ("s", lines(OPEN, *exports.some_script(seed)).encode())


def pages(top, program):
    """The name of each page, its complaint or nothing, and no refusal."""
    late = read(top, "examples/late-reply.json")
    asked = [
        ("the late reply", late, "reply"),
        ("the late reply, about another stage", late, "customer"),
        ("pending stages", NO_ACTION, None),
        ("stages several of which complete last", TIED, None),
        ("no stages", recording(form=2), None),
        ("2,000 stages", fan(2_000), "stage-40-" + "x" * 40),
    ]
    for seed in range(SOME):
        made = some(seed)
        asked.append((f"a recording made at random, {seed}", json.dumps(made), made["stages"][-1]["name"]))
    yield "the page of a file of a strange name has it escaped", wrong_page(top, program, late, "reply", HOSTILE), set()
    with concurrent.futures.ThreadPoolExecutor(LANES) as lanes:
        for (name, _, _), said in zip(asked, lanes.map(lambda it: wrong_page(top, program, it[1], it[2]), asked)):
            yield f"the page of {name} has what the other commands print", said, set()
        asked = list(scripted(top))
        for (name, *_), said in zip(asked, lanes.map(lambda it: wrong_page(top, program, it[1], it[2], "r.json", it[3]), asked)):
            yield f"the page of {name} has what the other commands print", said, set()
        counts = []
        for (name, *_), said in zip(asked, lanes.map(lambda it: wrong_states(program, it[1], it[3][1], counts), asked)):
            yield f"the page of {name} has the states of each version", said, set()
        yield "the scripts of pages make versions", "" if sum(counts) > 600 else f"{sum(counts)} versions", set()


def page_cases():
    return map(with_r, told_cases())


def told_cases():
    html = re.compile(rb"(?s)<!DOCTYPE html>\n.*</html>\n")
    last = rf'\Awhatif: no --stage is given, so this is about stage "b": {BY}\n\Z'
    yield Case("page of -", ["page", "-", "--stage", "b"], html, stdin=R, err=r"\A\Z")
    yield Case("page of a file", ["page", "r.json", "--stage=b"], html, stdin=CLOSED, err=r"\A\Z")
    yield Case("page: the words in another order", ["page", "--stage", "b", "r.json"], html, err=r"\A\Z")
    yield Case("page without a stage", ["page", "r.json"], html, err=last)
    yield Case("page --quiet without a stage", ["page", "--quiet", "r.json"], html, err=r"\A\Z")
    yield Case("page of pending stages", ["page", "p.json"], html, err=r"\A\Z", files={"p.json": NO_ACTION})
    yield Case("page without a file", ["page"], "", 2, err="<FILE>")
    yield Case("page of three files", ["page", "r.json", "s", "t"], "", 2, err="t")
    yield Case("page of a script", ["page", "r.json", "s", "--stage", "b"], html, stdin=CLOSED, err=TOLD, files={"s": REFUSED_AND_NOT})
    yield Case("page of a script, quietly", ["page", "--quiet", "--stage", "b", "r.json", "s"], html, err=r"\A\Z", files={"s": REFUSED_AND_NOT})
    yield Case("page of - and a script", ["page", "-", "s", "--stage", "b"], html, stdin=R, err=TOLD, files={"s": REFUSED_AND_NOT})
    yield Case("page of a script without a stage", ["page", "r.json", "s"], html, err=last[:-2] + r"whatif: line 2", files={"s": REFUSED_AND_NOT})
    yield Case("page of a script, strictly", ["page", "--strict", "r.json", "s", "--stage", "b"], "", 5, err='did you mean "a"', files={"s": REFUSED_AND_NOT})
    yield Case("page of a script, strictly and quietly", ["page", "--quiet", "--strict", "r.json", "s"], "", 5, err=r"\A\Z", files={"s": REFUSED_AND_NOT})
    yield Case("page of a script without a refused step, strictly", ["page", "--strict", "r.json", "s", "--stage", "b"], html, err=r"\A\Z", files={"s": lines(OPEN)})
    yield Case("page of a script, of a recording with a warning, strictly", ["page", "--strict", "r.json", "s"], "", 1, err=begins("whatif: warning: "), files={"r.json": UNREAD, "s": ""})
    yield Case("page of a script, of a refused recording", ["page", "-", "s"], "refused 70 JSON\n", 1, stdin="[", err="no step was read", files={"s": ""})
    yield Case("page of a script, of no stage", ["page", "r.json", "s", "--stage", "bb"], NO_STAGE, 1, err='did you mean "b"', files={"s": REFUSED_AND_NOT})
    yield Case("page of no script", ["page", "r.json", "absent", "--stage", "b"], NO_READ, 3, err=told("whatif: absent: No such file or directory"))
    yield Case("page of a folder as the script", ["page", "r.json", "folder"], NO_READ, 3, files={"folder": None})
    yield Case("page of a script that may not be read", ["page", "r.json", "shut"], NO_READ, 3, files={"shut": Shut(OPEN)})
    yield Case("page of - as the script", ["page", "r.json", "-"], NO_READ, 3, err="SCRIPT has to be a file", stdin=OPEN)
    for stdout in ("full", "closed", "gone"):
        yield Case(f"page of a script on a {stdout} standard output", ["page", "--quiet", "r.json", "s"], "", 3, stdout=stdout, files={"s": REFUSED_AND_NOT})
    yield Case("page --format json", ["page", "--format", "json", "r.json"], "", 2, err="--format")
    yield Case("page of no stage", ["page", "r.json", "--stage", "bb"], NO_STAGE, 1, err='did you mean "b"')
    yield Case("page of no stage, quietly", ["page", "--quiet", "r.json", "--stage", "bb"], NO_STAGE, 1, err=r"\A\Z")
    yield Case("page of the stage of no name", ["page", "r.json", "--stage", ""], NO_STAGE, 1)
    yield Case("page of a refused recording", ["page", "-"], "refused 70 JSON\n", 1, stdin="[", err="standard input: ")
    yield Case("page --strict of a recording with a warning", ["page", "--strict", "-"], "", 1, stdin=R.replace('"op"', '"queue":1,"op"', 1), err="nothing reads")
    yield Case("page of no file", ["page", "absent"], NO_READ, 3)
    yield Case("page of a closed standard input", ["page", "-"], NO_READ, 3, stdin=CLOSED)
    for stdout in ("full", "closed", "gone"):
        yield Case(f"page on a {stdout} standard output", ["page", "r.json"], "", 3, stdout=stdout)
