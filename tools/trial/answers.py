"""Answers as JSON: each case of an answer in text is run once more with `--format json`, and what its objects tell, put into
the words of the text, has to be that text. Each object is held against docs/answers.schema.json too."""
import dataclasses
import json
import os
import re

from .run import Case, complaint, run, shown
from .schema import Schemas

ASKED = ("report", "explain", "sweep", "slack", "rescue", "ends", "failures", "try", "compare", "serve", "many")


def value(content):
    return "null" if content is None else str(content)


def as_json(content):
    """The JSON without a space, whose members keep their order."""
    return json.dumps(content, separators=(",", ":"), ensure_ascii=False)


def outcome(content):
    (kind, told), = content.items()
    return f"{kind}:{value(told)}"


def state(content):
    """A state, or that the stage is not there."""
    if content is None:
        return "absent"
    return "pending" if content["outcome"] is None else f"{outcome(content['outcome'])} at {content['moment']}"


def names(content):
    return "".join(f" {name}" for name in content) or " -"


def title(told, header, count):
    """The first line of a report that compares a version with its parent, or with another one."""
    from_which = f"against {told['against']}" if "against" in told else f"from {value(told['parent']) if told['parent'] is not None else '-'}"
    return f"{told['report']} of version {told['version']} {from_which} {header} {count}"


def of_all(told):
    parent = "-" if told["parent"] is None else told["parent"]
    yield f"version {told['version']} parent {parent} mode {told['mode']} stages {len(told['stages'])}"
    for stage in told["stages"]:
        yield f"{stage['name']} {stage['op']} rank {stage['rank']} {state(stage)}"


def joined(join):
    if join["kind"] == "returns":
        return f"join returns {value(join['value'])}"
    if join["kind"] == "throws":
        return f"join throws {join['exception']}" + (f" cause {join['cause']}" if join["cause"] is not None else "")
    return "join waits"


def of_one(told):
    yield f"{told['stage']} {told['op']} rank {told['rank']} {state(told)}"
    for feeds in ("sources", "inner", "dependents"):
        yield feeds + names(told[feeds])
    yield joined(told["join"])


def of_blame(told):
    yield "blame" + names(told["chain"])


def because(step):
    cause, since = step["cause"], f"{step['name']} at {step['moment']}"
    share = f"queued {step['queued']} ran {step['ran']}"
    match cause["kind"]:
        case "after":
            return f"{since} {share} after {cause['stage']}"
        case "created":
            return f"{since} {share} created {cause['at']}"
        case "inner":
            return f"{since} took over {cause['stage']}"
        case "pinned":
            return f"{since} pinned"
        case "ended":
            return f"{since} ended by {cause['by']}"
        case "waits":
            return f"{step['name']} waits for {cause['stage']}"
    return f"{step['name']} open"


def at(moment):
    return "pending" if moment is None else f"at {moment}"


def of_path(told):
    yield f"path of {told['stage']} {at(told['moment'])} stages {len(told['steps'])}"
    yield from map(because, told["steps"])


def of_sweep(told):
    left = told.get("hundredths", {})
    haste = "".join([" with", *[f" {it}={left[it]}%" for it in left]]) if left else ""
    yield f"sweep of {told['target']} {at(told['moment'])}{haste} stages {told['count']}"
    for trial in told["trials"]:
        yield f"{trial['stage']} sooner {trial['sooner']} -> {outcome(trial['outcome'])} at {trial['moment']}"


def or_dash(number):
    return "-" if number is None else number


def of_slack(told):
    yield f"slack of {told['stage']} {at(told['moment'])} stages {told['count']}"
    for stage in told["stages"]:
        yield f"{stage['name']} slack {or_dash(stage['slack'])} start {stage['start']} latest {or_dash(stage['latest'])}"


def tried_change(change):
    """A change of a stage, as an assignment of `try` where there is one that makes it."""
    match change["kind"]:
        case "noTime":
            return "runs=0"
        case "notQueued":
            return "queued=0"
        case "noFailure":
            return f"gives={value(change['value'])}"
    end = f"{change['do']}{'' if change['delay'] is None else ' ' + str(change['delay'])} set at {change['at']}"
    if change["kind"] == "withoutEnd":
        return "unlimited" if change["only"] else f"without {end}"
    return f"limit={change['longer']}" if change["only"] else f"{end} -> {change['longer']}"


def of_rescue(told):
    has_replied = told["outcome"] is not None and "value" in told["outcome"] and (told["by"] is None or told["moment"] <= told["by"])
    yield f"rescue of {told['stage']} {state(told)}: {'none needed' if has_replied else str(told['count']) + ' of ' + str(told['tried']) + ' changes'}"
    for rescue in told["rescues"]:
        yield f"{rescue['name']} {tried_change(rescue['change'])} -> value:{value(rescue['value'])} at {rescue['moment']}"


def signed(good, bad):
    return "-" if None in (good, bad) else f"{bad - good:+}"


def result(content):
    return "pending" if content["outcome"] is None else outcome(content["outcome"])


def difference(stage):
    good, bad = stage["good"], stage["bad"]
    if good is None or bad is None:
        return f"{stage['name']} only in {'BAD' if good is None else 'GOOD'}"
    share = " ".join(f"{it} {signed(good[it], bad[it])}" for it in ("queued", "ran"))
    return f"{stage['name']} {share} at {signed(good['moment'], bad['moment'])} {result(good)} -> {result(bad)}"


def of_differences(told):
    yield f"differences of {told['stage']} at {signed(told['good']['moment'], told['bad']['moment'])} stages {len(told['stages'])}"
    yield from map(difference, told["stages"])


def of_changes(told):
    yield title(told, "changed" if "against" in told else "touched", len(told["stages"]))
    for stage in told["stages"]:
        yield f"{stage['name']} {state(stage['old'])} -> {state(stage['new'])}"


def of_drift(told):
    yield title(told, "moved", len(told["stages"]))
    for stage in told["stages"]:
        yield f"{stage['name']} " + (f"later {stage['later']}" if "later" in stage else f"earlier {stage['earlier']}")


def of_times(told):
    yield f"times of version {told['version']} stages {len(told['stages'])}"
    for stage in told["stages"]:
        yield f"{stage['name']} start {or_dash(stage['start'])} queued {stage['queued']} runs {stage['runs']}"


def fate(told):
    match told["kind"]:
        case "cutOff":
            return f"struck, cut off after {told['ran']} of its {told['of']}"
        case "notReached":
            return f"not reached by {told['by']}"
        case "tooLate":
            return f"too late by {told['by']}"
    return "struck"


def of_ends(told):
    yield f"ends of version {told['version']} ends {len(told['stages'])}"
    for end in told["stages"]:
        delay = "" if end["delay"] is None else f" {end['delay']}"
        yield f"{end['name']} {end['do']}{delay} at {end['moment']} {fate(end['fate'])}"


def of_failures(told):
    yield f"failures of version {told['version']} failures {len(told['stages'])}"
    for stage in told["stages"]:
        yield f"{stage['name']} {stage['exception']} at {stage['moment']} reaches{names(stage['reaches'])}; handled by{names(stage['handled'])}"


def of_change(told):
    yield f"{told['stage']} {state(told['old'])} -> {state(told['new'])}"


def of_recording(told):
    made = told["recording"]
    last = len(made["stages"]) - 1
    yield f"recording of version {told['version']} lines {len(made['stages']) + 2}"
    yield as_json({**made, "stages": []}).removesuffix("]}")
    yield from (as_json(stage) + ("," if at < last else "") for at, stage in enumerate(made["stages"]))
    yield "]}"


REPORTS = {"all": of_all, "one": of_one, "blame": of_blame, "path": of_path, "sweep": of_sweep, "slack": of_slack, "rescue": of_rescue, "changes": of_changes, "drift": of_drift, "times": of_times, "recording": of_recording, "ends": of_ends, "failures": of_failures, "change": of_change, "differences": of_differences}
DETAILS = ("dependent", "member", "head", "version")


def refused(told):
    detail = "".join(f" {told[name]}" for name in DETAILS if name in told)
    place = "".join(f" {word} {told[name]}" for name, word in (("at", "at"), ("edit", "in")) if name in told)
    return f"refused {told['number']} {told['name']}{detail}{place}"


def of_reply(told):
    match told["reply"]:
        case "opened":
            yield f"opened {told['session']} at {told['version']}"
        case "closed":
            yield f"closed {told['session']}"
        case "refused":
            yield refused(told)
        case other:
            yield f"{other} {told['version']}"


def lines_of(told):
    """The lines of text that an object stands for."""
    if "report" in told:
        return REPORTS[told["report"]](told)
    if "reply" in told:
        return of_reply(told)
    return [f"script {told['script']}"] if "script" in told else [f"log {told['log']}"]


def text_of(out):
    """The text that an output in JSON stands for, and its objects."""
    objects = [json.loads(line) for line in out.splitlines()]
    return "".join(f"{line}\n" for told in objects for line in lines_of(told)), objects


def wrong_lines(objects, script):
    """What is wrong with the numbers of the lines that the answers to a script name: each line that is not blank has one answer."""
    wanted = [at for at, line in enumerate(script.split(b"\n"), 1) if line.strip(b"\r") or len(line) > 1]
    found = [told.get("line") for told in objects]
    return "" if found == wanted else f"answers name the lines {found[:20]}, wanted {wanted[:20]}"


def is_asked(case):
    """Whether the case is of an answer that can be had as JSON too, is quick and has one output."""
    in_text = not any(str(word).startswith("--format") for word in case.words)
    return case.words and case.words[0] in ASKED and in_text and case.stdout == "pipe" and isinstance(case.out, (str, bytes)) and case.out != "" and not case.nobody and case.seconds <= 10


def wrong(program, case, schemas):
    """What is wrong with the same case as JSON, or nothing."""
    answer = run(program, dataclasses.replace(case, words=[case.words[0], "--format", "json", *case.words[1:]]))
    try:
        text, objects = text_of(answer.out)
    except (ValueError, KeyError, TypeError) as error:
        return f"{error!r} of {shown(answer.out)}"
    for told in objects:
        if said := schemas.fault(schemas.files["answers.schema.json"], told):
            return f"{said} of {json.dumps(told)[:200]}"
    # (with --strict a script may end at its first refused step)
    if case.words[0] == "serve" and "--strict" not in case.words and isinstance(case.stdin, (str, bytes)) and objects and "line" in objects[0]:
        script = case.stdin.encode() if isinstance(case.stdin, str) else case.stdin
        if said := wrong_lines(objects, script):
            return said
    return complaint(case, answer._replace(out=text.encode()))


def answers(top, program, cases):
    """The name of each case, its complaint or nothing, and the refusals that came, which are counted elsewhere."""
    schemas = Schemas(os.path.join(top, "docs"), ["recording.schema.json", "answers.schema.json"])
    for case in filter(is_asked, cases):
        yield f"as JSON: {case.name}", wrong(program, case, schemas), set()
