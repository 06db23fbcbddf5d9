"""What people are told on standard error: why a recording or a step is refused, what nothing reads, and `check`."""
import gzip
import json
import re

from .cases import FIRST_RUN, R, lines, recording, stage, step
from .run import Case

# A checkout, small: accept, price, tax, total, and a call with an end.
CHECKOUT = """{
  "form": 2,
  "stages": [
    {"name": "accept", "op": "supplyAsync", "queued": 1, "runs": 2, "action": 88123},
    {"name": "auth", "op": "thenApplyAsync", "sources": ["accept"], "queued": 1, "runs": 14, "action": ["arg", 0]},
    {"name": "price", "op": "thenApply", "sources": ["auth"], "queued": 412, "runs": 38, "action": ["mul", ["arg", 0], 3]},
    {"name": "tax", "op": "thenApplyAsync", "sources": ["price"], "queued": 371, "runs": 6, "action": ["div", ["arg", 0], 5]},
    {"name": "total", "op": "thenCombine", "sources": ["price", "tax"], "runs": 1, "action": ["add", ["arg", 0], ["arg", 1]]},
    {"name": "money", "op": "thenApply", "sources": ["total"], "runs": 1, "action": ["arg", 0]},
    {"name": "inventory", "op": "thenApplyAsync", "sources": ["auth"], "runs": 300, "action": 1,
     "ends": [{"at": 93, "do": "completeOnTimeout", "delay": 200, "value": 50}]},
    {"name": "inventory-part", "op": "exceptionally", "sources": ["inventory"], "action": -1}
  ]
}
"""
OPEN = step("open", session=1, version=0)


def told(*texts):
    """A pattern of lines of standard error, and of nothing else there."""
    return r"\A" + "".join(re.escape(it) + r"\n" for it in texts) + r"\Z"


def begins(text):
    """A pattern of a line of standard error that begins so."""
    return r"(?m)^" + re.escape(text)


def told_by(text):
    """A pattern of the one line of standard error, which begins so."""
    return r"\A" + re.escape(text) + r"[^\n]*\n\Z"


def wrong(name, old, new, out, err, status=1):
    """A report of the checkout with one mistake."""
    assert CHECKOUT.count(old) == 1, old
    return Case(f"mistake: {name}", ["report", "r.json"], out, status, err=err, files={"r.json": CHECKOUT.replace(old, new)})


def refused(name, old, new, out, err):
    return wrong(name, old, new, f"refused {out}\n", err)


def answered(name, old, new, err):
    return wrong(name, old, new, re.compile(rb"version 0 parent - (.*\n)*"), err, 0)


# The mistakes that a person makes in a recording.
RECORDINGS = [
    refused("source for sources", '"op": "thenApplyAsync", "sources": ["accept"]', '"op": "thenApplyAsync", "source": ["accept"]', "13 Arity at 1",
            told('whatif: warning: stage "auth": nothing reads "source"; did you mean "sources"?',
                 'whatif: r.json: line 5: stage "auth" (place 1): "thenApplyAsync" takes 1 source, and none is given')),
    answered("queue for queued", '"queued": 371', '"queue": 371', told('whatif: warning: stage "tax": nothing reads "queue"; did you mean "queued"?')),
    answered("end for ends", '"ends"', '"end"', told('whatif: warning: stage "inventory": nothing reads "end"; did you mean "ends"?')),
    answered("labels of an imported recording", '"form": 2,', '"form": 2, "trace": "7a", "unit": "us", "start": "0",', r"\A\Z"),
    answered("the span of a stage", '"queued": 371', '"queued": 371, "span": "7a"', r"\A\Z"),
    answered("spam for span", '"queued": 371', '"queued": 371, "spam": "7a"', told('whatif: warning: stage "tax": nothing reads "spam"; did you mean "span"?')),
    answered("Form for form", '"form"', '"Form"', begins('whatif: warning: the recording: nothing reads "Form"; did you mean "form"?')),
    answered("queued and runs in form 1", '"form": 2', '"form": 1',
             told('whatif: warning: stage "accept" and 6 more: nothing reads "queued" in form 1, which has takes; write "form": 2 for queued and runs')),
    refused("dely in an end", '"delay"', '"dely"', "71 Shape ends", begins('whatif: r.json: line 11: stages[6].ends[0].delay ("inventory") is missing')),
    answered("a member of no end", '"delay": 200', '"delay": 200, "dely": 3',
             told('whatif: warning: stage "inventory", ends[0]: nothing reads "dely"; did you mean "delay"?')),
    answered("a member of another end", '"do": "completeOnTimeout", "delay": 200, "value": 50', '"do": "cancel", "delay": 200',
             told('whatif: warning: stage "inventory", ends[0]: nothing reads "delay" beside "cancel"')),
    answered("value beside another operation", '"name": "money"', '"value": 4, "name": "money"',
             told('whatif: warning: stage "money": nothing reads "value" beside "thenApply"')),
    refused("nam for name", '"name": "tax"', '"nam": "tax"', "71 Shape name", begins('whatif: r.json: line 7: stages[3].name (after "price") is missing')),
    refused("an operation of no CompletionStage", '"exceptionally"', '"onErrorReturn"', "71 Shape op",
            begins('whatif: r.json: line 12: stages[7].op ("inventory-part") is "onErrorReturn" (the operations are async, ')),
    refused("thenapply for thenApply", '"thenApply", "sources": ["total"]', '"thenapply", "sources": ["total"]', "71 Shape op",
            begins('whatif: r.json: line 9: stages[5].op ("money") is "thenapply"; did you mean "thenApply"?')),
    refused("a comma left out", '["price"], "queued"', '["price"] "queued"', "70 JSON", told('whatif: r.json: line 7, column 66: expected "," or "}"')),
    refused("an unknown source", '["price", "tax"]', '["price", "taxes"]', "14 NoSource at 4",
            told('whatif: r.json: line 8: stage "total" (place 4): source "taxes" is no stage; did you mean "tax"?')),
    refused("a stage that waits for itself", '["price", "tax"]', '["price", "total"]', "19 Cycle",
            told("whatif: r.json: line 8: these stages wait for each other: total, total")),
    refused("a circle", '["price", "tax"]', '["price", "money"]', "19 Cycle",
            r"\Awhatif: r.json: (line 8: these stages wait for each other: total, money, total|line 9: these stages wait for each other: money, total, money)\n\Z"),
    refused("ticks with a fraction", '"queued": 412', '"queued": 0.412', "71 Shape queued",
            told('whatif: r.json: line 6: stages[2].queued ("price") is 0.412 (it is whole ticks, from 0)')),
    refused("takes in form 2", '"queued": 412, "runs": 38', '"takes": 450', "71 Shape takes",
            begins('whatif: r.json: line 6: stages[2].takes ("price") is not read in form 2, which has queued and runs in place of takes')),
    refused("a name that is taken", '"name": "money"', '"name": "tax"', "11 NameTaken at 5",
            begins('whatif: r.json: line 9: stage "tax" (place 5): the stage at place 3 has this name already')),
    refused("a bad name", '"name": "inventory-part"', '"name": "-part"', "12 BadName at 7", begins('whatif: r.json: line 12: stage "-part" (place 7): a name is 1 to 64')),
    refused("a limit", '"runs": 300', '"runs": 1099511627777', "15 Limit at 6",
            begins('whatif: r.json: line 10: stage "inventory" (place 6): runs is 1099511627777, and at most 1099511627776 is allowed')),
    refused("an end before the stage is created", '"name": "inventory",', '"name": "inventory", "created": 94,', "16 EndBeforeCreated at 6",
            begins('whatif: r.json: line 10: stage "inventory" (place 6): ends[0] is at 93, before the stage is created at 94')),
    refused("an action missing", ', "action": -1', "", "13 Arity at 7", begins('whatif: r.json: line 12: stage "inventory-part" (place 7): "exceptionally" needs an action')),
    refused("a word that begins no expression", '["div", ', '["divide", ', "71 Shape action", begins('whatif: r.json: line 7: stages[3].action ("tax") is "divide"')),
    refused("a form that is none", '"form": 2', '"form": 3', "71 Shape form", begins("whatif: r.json: line 2: form is 3 (the form is 1 or 2)")),
]

BYTES = [
    Case("mistake: gzip", ["report", "r.json.gz"], "refused 70 JSON\n", 1, err=begins("whatif: r.json.gz: the bytes begin like gzip"), files={"r.json.gz": gzip.compress(R.encode())}),
    Case("mistake: a byte order mark", ["report", "r.json"], "refused 70 JSON\n", 1, err=begins("whatif: r.json: the bytes begin with a byte order mark"),
         files={"r.json": b"\xef\xbb\xbf" + R.encode()}),
    Case("mistake: UTF-16", ["report", "r.json"], "refused 70 JSON\n", 1, err=begins("whatif: r.json: the bytes begin like UTF-16"), files={"r.json": R.encode("utf-16")}),
    Case("mistake: no bytes", ["report"], "refused 70 JSON\n", 1, err=begins("whatif: standard input: there are no bytes")),
    Case("mistake: Latin-1", ["report"], "refused 70 JSON\n", 1, err=told("whatif: standard input: line 1, column 3: expected UTF-8"), stdin=b'{"\xe4":1}'),
    Case("mistake: a file that ends too soon", ["report"], "refused 70 JSON\n", 1,
         err=told('whatif: standard input: line 2, column 1: expected "," or "]", and the text ends'), stdin='{"stages":[{}\n'),
    Case("mistake: too deep", ["report"], "refused 70 JSON\n", 1,
         err=told("whatif: standard input: line 1, column 128: expected no more than 127 arrays and objects in one another"), stdin="[" * 200 + "]" * 200),
    Case("mistake: a number that doesn't fit", ["report"], "refused 70 JSON\n", 1, err=r"expected a number that fits", stdin='{"stages":[1e999]}'),
    Case("mistake: no object", ["report"], "refused 71 Shape recording\n", 1, err=begins("whatif: standard input: the recording is an array"), stdin="[]"),
    Case("mistake: no stages", ["report"], "refused 71 Shape stages\n", 1, err=begins("whatif: standard input: stages is missing"), stdin="{}"),
    Case("mistake: a file that isn't there", ["report", "absent.json"], "refused 41 ReadFault\n", 3, err=told("whatif: absent.json: No such file or directory")),
    Case("mistake: a folder", ["report", "folder"], "refused 41 ReadFault\n", 3, err=told("whatif: folder: Is a directory"), files={"folder": None}),
    Case("mistake: a full disk", ["report", "r.json"], "", 3, err=told("whatif: standard output: No space left on device"), files={"r.json": R}, stdout="full"),
    Case("mistake: a name with a line in it", ["report"], "refused 12 BadName at 0\n", 1, err=r"\A[^\n]*\\u000a[^\n]*\n\Z",
         stdin=recording(stage("manual", name="a\nb\u202e"))),
    Case("mistake: a stage of explain", ["explain", "r.json", "c"], "refused 10 NoStage\n", 1, err=told('whatif: r.json: no stage has the name "c"; did you mean "a"?'),
         files={"r.json": R}),
]



def deep(levels):
    """An action so deep, of one operand at each level."""
    return 1 if levels == 1 else ["isnull", deep(levels - 1)]


# A recording of one stage, the refusal, and what is said of it.
ALONE = [
    (stage("thenApply", sources=[], action=1), "13 Arity at 0", 'stage "a" (place 0): "thenApply" takes 1 source, and none is given'),
    (stage("thenCombine", sources=["a"], action=1), "13 Arity at 0", 'stage "a" (place 0): "thenCombine" takes 2 sources, and 1 is given'),
    (stage("async", sources=["a", "a"], action=1), "13 Arity at 0", 'stage "a" (place 0): "async" takes no source, and 2 are given'),
    (stage("async", inner=["a"], action=1), "13 Arity at 0", 'stage "a" (place 0): "async" picks no inner stage, and 1 of them are given'),
    (stage("manual", action=1), "13 Arity at 0", 'stage "a" (place 0): "manual" has no action, and one is given'),
    (stage("thenCompose", sources=["a"], inner=["b"], action=1), "14 NoSource at 0", 'stage "a" (place 0): inner stage "b" is no stage'),
    (stage("manual", takes=3), "17 NoAction at 0", 'stage "a" (place 0): "manual" has no action that could take time or be set'),
    (stage("async", action=deep(40)), "20 Expr at 0", 'stage "a" (place 0): the action has 40 nodes and a depth of 40, and at most 256 and 32 are allowed'),
    (stage("anyOf", sources=["a"] * 1025), "15 Limit at 0", 'stage "a" (place 0): the number of sources is 1025, and at most 1024 is allowed'),
    (stage("manual", ends=[{"at": 1, "do": "cancel"}] * 17), "15 Limit at 0", 'stage "a" (place 0): the number of ends is 17, and at most 16 is allowed'),
    (stage("manual", pinMoment=2**41), "15 Limit at 0", 'stage "a" (place 0): pinMoment is 2199023255552, and at most 1099511627776 is allowed'),
    (stage("manual", name=3), "71 Shape name", "stages[0].name is 3 (it is a text)"),
    (stage("manual", sources="a"), "71 Shape sources", 'stages[0].sources ("a") is "a" (it is an array of names of stages)'),
    (stage("manual", sources=[1]), "71 Shape sources", 'stages[0].sources[0] ("a") is 1 (it is a text)'),
    (stage("completed", value="x"), "71 Shape value", 'stages[0].value ("a") is "x" (it is a whole number of 64 bits or null)'),
    (stage("failed", throws="a b"), "71 Shape throws", 'stages[0].throws ("a") is "a b" (it is the name of an exception'),
    (stage("failed"), "71 Shape throws", 'stages[0].throws ("a") is missing: it is the name of an exception'),
    (stage("manual", pinResult={"value": 1, "bare": "X"}), "71 Shape pinResult", 'stages[0].pinResult ("a") is an object (it is null, or an object with exactly one of'),
    (stage("manual", pinResult={"bare": 1}), "71 Shape pinResult", 'stages[0].pinResult.bare ("a") is 1 (it is the name of an exception'),
    (stage("manual", pinMoment=-1), "71 Shape pinMoment", 'stages[0].pinMoment ("a") is -1 (it is null, or whole ticks, from 0)'),
    (stage("manual", ends={}), "71 Shape ends", 'stages[0].ends ("a") is an object (it is an array of ends)'),
    (stage("manual", ends=[1]), "71 Shape ends", 'stages[0].ends[0] ("a") is 1 (an end is an object with "at" and "do")'),
    (stage("manual", ends=[{"at": 1, "do": "orTimeOut", "delay": 1}]), "71 Shape ends", 'stages[0].ends[0].do ("a") is "orTimeOut"; did you mean "orTimeout"? (an end does one of'),
    (stage("async", action=["arg", 2]), "71 Shape action", 'stages[0].action ("a") is 2 (the operand of arg is 0 or 1)'),
    (stage("async", action=["add", 1]), "71 Shape action", 'stages[0].action ("a") is an array (if has 3 operands'),
    (stage("async", action=True), "71 Shape action", 'stages[0].action ("a") is true (an expression is a number, null, or an array'),
    (stage("async", action=["throw", 1]), "71 Shape action", 'stages[0].action ("a") is 1 (it is the name of an exception'),
    (3, "71 Shape stages", "stages[0] is 3 (a stage is an object)"),
]
ALONE_CASES = [Case(f"mistake: {err[:60]}", ["report"], f"refused {out}\n", 1, err=begins(f"whatif: standard input: line 1: {err}"), stdin=recording(it)) for it, out, err in ALONE]

# Bytes that are no JSON, and where.
NO_JSON = [
    ("{", 'line 1, column 2: expected a name in quotes or "}", and the text ends'),
    ('{"a"', 'line 1, column 5: expected ":", and the text ends'),
    ('{"a":1 "b"', 'line 1, column 8: expected "," or "}"'),
    ('{"a":1,}', 'line 1, column 7: a comma before "}": JSON has none'),
    ("[1,]", 'line 1, column 3: a comma before "]": JSON has none'),
    ('{"a":\n[1,\n 2 ,\n\n]}', 'line 3, column 4: a comma before "]"'),
    ("[,]", 'line 1, column 2: expected a value or "]"'),
    ('{"a":]', "line 1, column 6: expected a value"),
    ("// a\n{}", "line 1, column 1: a comment: JSON has none"),
    ('{"a":1, /* b */ "b":2}', "line 1, column 9: a comment: JSON has none"),
    ('{"a":1 # b\n}', "line 1, column 8: a comment: JSON has none"),
    ("{'a':1}", "line 1, column 2: a single quote: JSON has names and texts in double quotes"),
    ('{"a":`b`}', "line 1, column 6: a single quote"),
    ("{\u201ca\u201d:1}", "line 1, column 2: a curly quote: JSON has names and texts in straight double quotes"),
    ("[\u2018a\u2019]", "line 1, column 2: a curly quote"),
    ('["\u201ca\u201d", NaN]', "line 1, column 9: NaN or Infinity: JSON has no such number"),
    ('{"a":Infinity}', "line 1, column 6: NaN or Infinity"),
    ('{"a":-Infinity}', "line 1, column 6: NaN or Infinity"),
    ('{"a":None}', "line 1, column 6: a word of another language: JSON has true, false and null"),
    ('["#", "//", True]', "line 1, column 13: a word of another language"),
    ("[1 2]", 'line 1, column 4: expected "," or "]"'),
    ("[;]", 'line 1, column 2: expected a value or "]"'),
    ("[] []", "line 1, column 4: expected the end of the text"),
    ("[01]", 'line 1, column 3: expected "," or "]"'),
    ("[1.]", "line 1, column 4: expected a digit"),
    ("[-]", "line 1, column 3: expected a digit"),
    ("[1e]", "line 1, column 4: expected a digit"),
    ("[tru]", 'line 1, column 2: expected a value or "]"'),
    ('["a', "line 1, column 4: expected a quote that ends the text, and the text ends"),
    ('["a\nb"]'.replace("\\n", "\n"), "line 1, column 4: expected no control character in a text"),
    ('["\\x"]', "line 1, column 4: expected one of"),
    ('["\\u00g0"]', "line 1, column 7: expected a hexadecimal digit"),
    ('["\u00e4\u00f6", x]', "line 1, column 8: expected a value"),
]
NO_JSON_CASES = [Case(f"mistake: no JSON {it!r}", ["report"], "refused 70 JSON\n", 1, err=begins(f"whatif: standard input: {err}"), stdin=it) for it, err in NO_JSON]
ARCHIVES = [
    Case("mistake: a zip archive", ["report"], "refused 70 JSON\n", 1, err=r"begin like a zip archive", stdin=b"PK\x03\x04rest"),
    Case("mistake: Zstandard", ["report"], "refused 70 JSON\n", 1, err=r"begin like Zstandard", stdin=b"\x28\xb5\x2f\xfdrest"),
    Case("mistake: wrap", ["report"], "refused 71 Shape wrap\n", 1, err=r'wrap is "litteral"; did you mean "literal"\? \(the wrap mode is one of computed, literal\)', stdin=recording(wrap="litteral")),
    Case("mistake: too many bytes", ["report"], "refused 72 TooLong\n", 1, err=begins("whatif: standard input: it has more than 67108864 bytes"), stdin=lambda: b" " * (2**26 + 1), seconds=60),
]

# Texts that name no exception, and what is said of them in an action, as in an outcome and an end.
EXCEPTIONS = [
    ("java.io.IOException: reset", '; the class alone is meant, "java.io.IOException" (it is the name of an exception, 1 to 128'),
    ("java.util.concurrent.CompletionException", "; its cause is meant, which a stage holds wrapped (it is the name of an exception, 1 to 128"),
    ("java.util.concurrent.CompletionException: java.io.IOException: reset", '; the class alone is meant, "java.io.IOException" (it is'),
    ("java.util.concurrent.CompletionException: java.io.IOException", '; the class alone is meant, "java.io.IOException" (it is'),
    ("a b", " (it is the name of an exception, 1 to 128"),
    ("a b: c", " (it is the name of an exception, 1 to 128"),
]
WHERE = [
    ("action", lambda it: stage("supplyAsync", action=["throw", it]), "action"),
    ("action", lambda it: stage("exceptionally", sources=["a"], action=["if", ["causeis", it], 1, 2]), "action"),
    ("throws", lambda it: stage("failed", throws=it), "throws"),
    ("pinResult", lambda it: stage("manual", pinResult={"bare": it}), "pinResult.bare"),
    ("ends", lambda it: stage("manual", ends=[{"at": 1, "do": "completeExceptionally", "throws": it}]), "ends[0].throws"),
]
EXCEPTION_CASES = [
    Case(f"mistake: {text!r} in {place}", ["report"], f"refused 71 Shape {member}\n", 1, err=told_by(f'whatif: standard input: line 1: stages[0].{place} ("a") is "{text}"{said}'), stdin=recording(made(text), form=2))
    for member, made, place in WHERE for text, said in EXCEPTIONS
] + [
    Case(f"mistake: no exception's name, of {words[0]}", [words[0], "r.json", *words[1:]], "refused 71 Shape action\n", 1, err=begins('whatif: r.json: line 1: stages[0].action ("a") is "java.io.IOException: reset"; the class alone is meant'),
         files={"r.json": recording(stage("supplyAsync", action=["throw", "java.io.IOException: reset"]), form=2), "s": ""})
    for words in (["explain", "a"], ["sweep", "a"], ["slack", "a"], ["rescue", "a"], ["ends"], ["failures"], ["try", "a runs=5"], ["compare", "r.json", "a"], ["draw"], ["page"], ["serve"], ["export", "s"], ["many", "s"])
] + [
    Case("mistake: no exception's name beside another mistake", ["check", "-"],
         re.compile(rb'standard input: line 1: stages\[0\]\.action \("a"\) is "a b" .*\nstandard input: line 1: stage "b" \(place 1\): source "c" .*\n'), 1,
         stdin=recording(stage("async", action=["throw", "a b"]), stage("copy", "b", sources=["c"]))),
]

# A member that stands twice, and what is said of it.
def twice(what, old, new, told_of, **members):
    text = recording(stage("manual", name="m", created=1, pinResult={"value": 1}, pinMoment=5, ends=[{"at": 2, "do": "cancel"}]), stage("async", runs=1, action=4), form=2, **members)
    assert text.count(old) == 1, old
    return what, text.replace(old, new), told_of


TWICE = [
    twice("runs of a stage", '"runs": 1', '"runs": 10, "runs": 99', 'stage "a": "runs" stands'),
    twice("runs of a stage, three times", '"runs": 1', '"runs": 10, "runs": 99, "runs": 1', 'stage "a": "runs" stands'),
    twice("runs of a stage, with an escape", '"runs": 1', '"runs": 10, "r\\u0075ns": 99', 'stage "a": "runs" stands'),
    *(twice(f"{it} of a stage", f'"{it}": ', f'"{it}": {value}, "{it}": ', f'stage "m": "{it}" stands')
      for it, value in (("created", 0), ("pinResult", "null"), ("pinMoment", "null"), ("ends", "[]"))),
    twice("the operation of a stage", '"op": "async"', '"op": "manual", "op": "async"', 'stage "a": "op" stands'),
    twice("the name of a stage", '"name": "a"', '"name": "b", "name": "a"', 'stage "a": "name" stands'),
    twice("the value of an outcome", '"value": 1', '"value": 3, "value": 1', 'stage "m", pinResult: "value" stands'),
    twice("the value of an outcome whose name has an escape", '"pinResult": {"value": 1}', '"pin\\u0052esult": {"value": 3, "value": 1}', 'stage "m", pinResult: "value" stands'),
    twice("what an end does, of ends whose name has an escape", '"ends": [{"at": 2, "do": "cancel"}]', '"e\\u006eds": [{"at": 2, "do": "complete", "do": "cancel"}]', 'stage "m", ends[0]: "do" stands'),
    twice("the operation of a stage of stages whose name has an escape", '"stages": [{', '"st\\u0061ges": [{"op": "manual", ', 'stage "m": "op" stands'),
    twice("what an end does", '"do": "cancel"', '"do": "complete", "do": "cancel"', 'stage "m", ends[0]: "do" stands'),
    twice("the form", '"form": 2', '"form": 1, "form": 2', 'the recording: "form" stands'),
    twice("the stages", '"stages": ', '"stages": [{"name":"a","op":"manual","op":"manual"}], "stages": ', 'the recording: "stages" stands'),
]
SAID_TWICE = " more than once, and the last one counts"
TWICE_CASES = [
    case for what, text, said in TWICE for case in (
        Case(f"mistake: twice {what}", ["report"], re.compile(rb"version 0 parent - (.*\n)*"), err=told(f"whatif: warning: {said}{SAID_TWICE}"), stdin=text),
        Case(f"mistake: twice {what}, of check", ["check", "-"], f"standard input: warning: {said}{SAID_TWICE}\n", err=r"\A\Z", stdin=text),
        Case(f"mistake: twice {what}, strictly", ["check", "--strict", "-"], None, 1, stdin=text))
] + [Case("mistake: labels twice", ["check", "--strict", "-"], "", stdin='{"x-a":1,"x-a":2,"unit":"ms","unit":"us","stages":[{"name":"a","op":"manual","_b":1,"_b":2,"span":"1","span":"2"}]}')]

# Traces in place of recordings.
OTLP = '{"resourceSpans":[]}'
ZIPKIN = '[{"traceId":"7a","id":"7b","name":"get","timestamp":1,"duration":2}]'
IS_TRACE = "it looks like a trace: whatif import makes a recording of it"
TRACES = [
    ("OTLP", OTLP, "71 Shape stages", IS_TRACE), ("OTLP by lines", f"{OTLP}\n{OTLP}\n", "70 JSON", IS_TRACE), ("Jaeger's", '{"data":[]}', "71 Shape stages", IS_TRACE),
    ("Zipkin's", ZIPKIN, "71 Shape recording", IS_TRACE), ("Zipkin's, in lists", f"[{ZIPKIN}]", "71 Shape recording", IS_TRACE),
    ("Tempo's", '{"batches":[]}', "71 Shape stages", IS_TRACE), ("Tempo's second", f'{{"trace":{OTLP}}}', "71 Shape stages", IS_TRACE),
    ("a span of Jaeger's", '{"traceID":"7a","spanID":"7b"}', "71 Shape stages", IS_TRACE), ("OTLP in a list", f"[{OTLP}]", "71 Shape recording", IS_TRACE),
]
TRACE_CASES = [
    case for what, text, out, said in TRACES for case in (
        *(Case(f"mistake: a trace, {what}, of {words[0]}", [words[0], "t.json", *words[1:]], f"refused {out}\n", 1, err=begins(f"whatif: t.json: {said}"), files={"t.json": text, "s": ""})
          for words in (["report"], ["explain", "a"], ["sweep", "a"], ["slack", "a"], ["rescue", "a"], ["ends"], ["failures"], ["try", "a runs=5"], ["compare", "t.json", "a"], ["draw"], ["page"], ["serve"], ["export", "s"])),
        Case(f"mistake: a trace, {what}, of check", ["check", "t.json"], f"t.json: {said}\n", 1, err=r"\A\Z", files={"t.json": text}))
]

UNREAD = CHECKOUT.replace('"queued": 371', '"queue": 371')
MANY_UNREAD = recording(*(stage("manual", name=f"m{it}", note=1) for it in range(50)))
OPTIONS = [
    Case("--quiet leaves warnings out", ["report", "--quiet", "r.json"], None, err=r"\A\Z", files={"r.json": UNREAD}),
    Case("--quiet leaves explanations out", ["report", "--quiet", "absent"], "refused 41 ReadFault\n", 3, err=r"\A\Z"),
    Case("--strict ends at a warning", ["report", "--strict", "r.json"], "", 1, err=begins("whatif: warning: "), files={"r.json": UNREAD}),
    Case("--strict of explain", ["explain", "--strict", "r.json", "tax"], "", 1, files={"r.json": UNREAD}),
    Case("--strict with --quiet", ["sweep", "--strict", "--quiet", "r.json", "tax"], "", 1, err=r"\A\Z", files={"r.json": UNREAD}),
    Case("--strict where there is no warning", ["report", "--strict", "r.json"], FIRST_RUN, err=r"\A\Z", files={"r.json": R}),
    Case("$schema is for editors", ["report", "--strict"], FIRST_RUN, err=r"\A\Z", stdin=R.replace("{", '{"$schema":"recording.schema.json",', 1)),
    Case("labels of the recording", ["report", "--strict"], FIRST_RUN, err=r"\A\Z", stdin=R.replace("{", '{"service":"shop","unit":"ms","trace":"4bf9","deadline":800,"x-form":1,', 1)),
    Case("labels of a stage, an outcome and an end", ["check", "--strict", "-"], "", err=r"\A\Z", stdin=recording(
        stage("manual", pinResult={"value": 1, "x-by": "me"}, pinMoment=4, ends=[{"at": 1, "do": "cancel", "_why": "x"}], **{"x-service": "shop", "$id": 3}))),
    Case("a label of the recording that is like a member", ["report"], None, err=told('whatif: warning: the recording: nothing reads "stage"; did you mean "stages"?'),
         stdin=R.replace("{", '{"stage":"production",', 1)),
    Case("a member of a stage that is like none", ["report"], None, err=told('whatif: warning: stage "a": nothing reads "service"; a label of your own begins with x-'),
         stdin=recording(stage("manual", service="shop"))),
    Case("twenty warnings are told", ["report"], None, err=r'(?s)\A(whatif: warning: stage "m[^\n]*\n){20}whatif: warning: and 30 more, which whatif check tells\n\Z', stdin=MANY_UNREAD),
    Case("--version", ["--version"], re.compile(rb"whatif \d+\.\d+\.\d+\n")),
    Case("help of help", ["help", "--help"], re.compile(rb"(?s).*report.*serve.*")),
    Case("help of help by -h", ["help", "-h"], re.compile(rb"(?s).*report.*serve.*")),
    Case("help names examples and the formats", ["report", "--help"], re.compile(rb"(?s).*Examples:\n  whatif report .*\n  whatif report .*docs/FORMATS.md.*")),
    Case("a report of standard input that is no terminal", ["report"], FIRST_RUN, err=r"\A\Z", stdin=R),
]

CHECKS = [
    Case("check of a sound recording", ["check", "r.json"], "", files={"r.json": R}),
    Case("check of a warning", ["check", "r.json"], 'r.json: warning: stage "tax": nothing reads "queue"; did you mean "queued"?\n', files={"r.json": UNREAD}),
    Case("check --strict of a warning", ["check", "--strict", "r.json"], 'r.json: warning: stage "tax": nothing reads "queue"; did you mean "queued"?\n', 1, files={"r.json": UNREAD}),
    Case("check tells all", ["check", "r.json"],
         re.compile(rb'r.json: line 7: stages\[3\].queued \("tax"\) is 0.5 .*\nr.json: line 8: stage "total" \(place 4\): source "taxes" .*\nr.json: line 12: stages\[7\].op .*\nr.json: warning: .*"source".*\n'), 1,
         files={"r.json": CHECKOUT.replace("371", "0.5").replace('"tax"]', '"taxes"]').replace('"exceptionally"', '"sometimes"').replace('"sources": ["total"]', '"source": ["total"], "sources": ["total"]')}),
    Case("check of a circle", ["check", "r.json"], "r.json: line 8: these stages wait for each other: total, total\n", 1, files={"r.json": CHECKOUT.replace('["price", "tax"]', '["price", "total"]')}),
    Case("check of no JSON", ["check", "-"], 'standard input: line 1, column 2: expected a name in quotes or "}"\n', 1, stdin="{1}"),
    Case("check of no file", ["check", "absent"], "refused 41 ReadFault\n", 3, err="No such file"),
    Case("check without a file", ["check"], "", 2, err="FILE"),
]


def served(name, steps, out, err, status=0, words=(), **how):
    return Case(f"step: {name}", ["serve", *words, "r.json"], out, status, err=err, files={"r.json": R}, stdin=lines(*steps), **how)


STEPS = [
    served("an unknown stage", ["", OPEN, step("setTakes", session=1, stage="aa", takes=3)], lines("opened 1 at 0", "refused 10 NoStage"),
           told('whatif: line 3: stage "aa": no stage has the name "aa"; did you mean "a"?')),
    served("an unknown source", [OPEN, step("rewire", session=1, stage="b", sources=["aa"], inner=[])], lines("opened 1 at 0", "refused 14 NoSource"),
           told('whatif: line 2: stage "b": source "aa" is no stage; did you mean "a"?')),
    served("an edit of a list", [OPEN, step("edits", session=1, edits=[{"do": "remove", "stage": "b"}, {"do": "remove", "stage": "aa"}])],
           lines("opened 1 at 0", "refused 10 NoStage in 1"), told('whatif: line 2: edits[1], stage "aa": no stage has the name "aa"; did you mean "a"?')),
    served("an unknown step", [step("opne", session=1, version=0)], "refused 71 Shape do\n", begins('whatif: line 1: do is "opne"; did you mean "open"?')),
    served("a member missing", [step("open", session=1)], "refused 71 Shape version\n", begins("whatif: line 1: version is missing")),
    served("no JSON", ["{}}"], "refused 70 JSON\n", told("whatif: line 1: column 3: expected the end of the text")),
    served("a long line", [" " * 70_000], "refused 72 TooLong\n", told("whatif: line 1: the step has more than 65536 bytes")),
    served("a list of no edits", [OPEN, step("edits", session=1, edits=[])], lines("opened 1 at 0", "refused 21 ListSize"), told("whatif: line 2: edits has 0 edits, and 1 to 64 are allowed")),
    served("a session that is open", [OPEN, OPEN], lines("opened 1 at 0", "refused 50 SessionOpen"), told("whatif: line 2: session 1 is open already: close it first, or take another number")),
    served("a session that isn't open", [step("head", session=7)], "refused 51 NoSession\n", told("whatif: line 1: session 7 is not open: open it first")),
    served("a version that isn't there", [step("open", session=1, version=9)], "refused 52 NoVersion\n", told("whatif: line 1: there is no version 9")),
    served("a session that moved", [OPEN, step("setTakes", session=1, stage="a", takes=3), step("setTakes", session=1, base=0, stage="a", takes=4)],
           lines("opened 1 at 0", "committed 1", "refused 53 Moved 1"), told("whatif: line 3: session 1 stands at version 1 by now, and the base is version 0")),
    served("a stage that feeds another", [OPEN, step("remove", session=1, stage="a")], lines("opened 1 at 0", "refused 18 InUse b"),
           begins('whatif: line 2: stage "a": it feeds stage "b"')),
    served("a circle", [OPEN, step("rewire", session=1, stage="b", sources=["b"], inner=[])], lines("opened 1 at 0", "refused 19 Cycle"), begins('whatif: line 2: stage "b": with these edits')),
    served("a limit", [OPEN, step("setTakes", session=1, stage="a", takes=2**41)], lines("opened 1 at 0", "refused 15 Limit"),
           told('whatif: line 2: stage "a": takes is 2199023255552, and at most 1099511627776 is allowed')),
    served("undone too far", [OPEN, step("undo", session=1)], lines("opened 1 at 0", "refused 54 AtBottom"), begins("whatif: line 2: the session stands where it was opened")),
    served("a member that nothing reads", [OPEN, step("setTakes", session=1, stage="a", takes=3, tick=1)], lines("opened 1 at 0", "committed 1"),
           begins('whatif: line 2: warning: stage "a": nothing reads "tick"')),
    Case("step: the last line without its end", ["serve", "r.json"], "refused 51 NoSession\n", err=told("whatif: line 1: session 7 is not open: open it first"),
         files={"r.json": R}, stdin=step("head", session=7)),
    served("a name that is taken", [OPEN, step("add", session=1, new=stage("manual", name="a"))], lines("opened 1 at 0", "refused 11 NameTaken"),
           begins('whatif: line 2: stage "a": a stage of the version has the name already')),
    served("a bad name", [OPEN, step("add", session=1, new=stage("manual", name="-"))], lines("opened 1 at 0", "refused 12 BadName"), begins('whatif: line 2: new stage "-": a name is 1 to 64')),
    served("another number of sources", [OPEN, step("rewire", session=1, stage="b", sources=[], inner=[])], lines("opened 1 at 0", "refused 13 Arity"),
           begins('whatif: line 2: stage "b": the operation takes another number of sources')),
    served("sources of a new stage", [OPEN, step("add", session=1, new=stage("thenRun", name="n", action=1))], lines("opened 1 at 0", "refused 13 Arity"),
           begins('whatif: line 2: new stage "n": "thenRun" takes 1 source, and none is given')),
    served("an end before the creation", [OPEN, step("add", session=1, new=stage("manual", name="n", created=9, ends=[{"at": 3, "do": "cancel"}]))],
           lines("opened 1 at 0", "refused 16 EndBeforeCreated"), begins('whatif: line 2: new stage "n": ends[0] is at 3, before the stage is created at 9')),
    served("no action", [OPEN, step("add", session=1, new=stage("manual", name="n")), step("setTakes", session=1, stage="n", takes=1)],
           lines("opened 1 at 0", "committed 1", "refused 17 NoAction"), begins('whatif: line 3: stage "n": the operation has no action that could take time')),
    served("a large action", [OPEN, step("setAction", session=1, stage="a", action=deep(40))], re.compile(rb"opened 1 at 0\nrefused 20 Expr.*\n"),
           begins('whatif: line 2: stage "a": the action has 40 nodes and a depth of 40')),
    served("a removed source", [OPEN, step("remove", session=1, stage="b"), step("add", session=1, new=stage("copy", name="c", sources=["b"]))],
           lines("opened 1 at 0", "committed 1", "refused 14 NoSource"), begins('whatif: line 3: stage "c": a source or an inner stage is no stage of the version')),
    served("a bad session", [step("open", session=0, version=0)], "refused 57 BadSession\n", begins("whatif: line 1: a session's number is from 1 to 65535")),
    served("too many sessions", [step("open", session=it, version=0) for it in range(1, 1026)], re.compile(rb"(opened \d+ at 0\n){1024}refused 58 TooManySessions\n"),
           begins("whatif: line 1025: 1024 sessions are open: close one first")),
    served("an edit of no name", [OPEN, step("edits", session=1, edits=[{"do": "sett"}])], lines("opened 1 at 0", "refused 71 Shape do"),
           begins('whatif: line 2: edits[0].do is "sett"')),
    served("edits of no array", [OPEN, step("edits", session=1, edits=3)], lines("opened 1 at 0", "refused 71 Shape edits"), begins("whatif: line 2: edits is 3 (it is an array of edits)")),
    served("an edit of no object", [OPEN, step("edits", session=1, edits=[3])], lines("opened 1 at 0", "refused 71 Shape edits"), begins("whatif: line 2: edits[0] is 3 (an edit is an object)")),
    served("a step of no object", ["[]"], "refused 71 Shape step\n", begins("whatif: line 1: the step is an array (a step is one JSON object on a line)")),
    served("a count too large", [step("open", session=2**32, version=0)], "refused 71 Shape session\n", begins("whatif: line 1: session is 4294967296 (it is a whole number from 0 to 4294967295)")),
    served("a report of no name", [step("report", version=0, what="al")], "refused 71 Shape what\n", begins('whatif: line 1: what is "al"; did you mean "all"? (the reports are all, one')),
    served("a report of two", [step("report", version=0, session=1, what="all")], "refused 71 Shape session\n", begins("whatif: line 1: session is 1 (a report is of a session or of a version")),
    served("a new stage of no object", [OPEN, step("add", session=1, new=3)], lines("opened 1 at 0", "refused 71 Shape new"), begins("whatif: line 2: new is 3 (a stage is an object)")),
    served("a new stage of a list", [OPEN, step("edits", session=1, edits=[{"do": "add", "new": stage("manul", name="n")}])], lines("opened 1 at 0", "refused 71 Shape op"),
           begins('whatif: line 2: edits[0].new.op ("n") is "manul"; did you mean "manual"?')),
    served("an unread member of a new stage", [OPEN, step("add", session=1, new=stage("manual", name="n", creatd=1))], lines("opened 1 at 0", "committed 1"),
           told('whatif: line 2: warning: stage "n": nothing reads "creatd"; did you mean "created"?')),
    served("a member of a new stage that its operation has not", [OPEN, step("add", session=1, new=stage("manual", name="n", value=1))], lines("opened 1 at 0", "committed 1"),
           told('whatif: line 2: warning: stage "n": nothing reads "value" beside "manual"')),
    served("an unread member of a new stage of a list", [OPEN, step("edits", session=1, edits=[{"do": "add", "new": stage("copy", name="n", sources=["a"], spam=1)},
                                                                                              {"do": "pinResult", "stage": "a", "result": {"value": 1}}])],
           lines("opened 1 at 0", "committed 1"), told('whatif: line 2: warning: stage "n": nothing reads "spam"; did you mean "span"?')),
    served("an unread member of an outcome after a new stage", [OPEN, step("edits", session=1, edits=[{"do": "add", "new": stage("copy", name="n", sources=["a"])},
                                                                                                     {"do": "pinResult", "stage": "a", "result": {"value": 1, "name": "x"}}])],
           lines("opened 1 at 0", "committed 1"), told('whatif: line 2: warning: stage "a", result: nothing reads "name"; did you mean "bare"?')),
    served("an unread member of a new stage's outcome", [OPEN, step("add", session=1, new=stage("manual", name="n", pinResult={"value": 1, "valeu": 2}))], lines("opened 1 at 0", "committed 1"),
           told('whatif: line 2: warning: stage "n", pinResult: nothing reads "valeu"; did you mean "value"?')),
    served("an unread member of a new stage's end", [OPEN, step("add", session=1, new=stage("manual", name="n", ends=[{"at": 1, "do": "cancel", "delay": 2}]))], lines("opened 1 at 0", "committed 1"),
           told('whatif: line 2: warning: stage "n", ends[0]: nothing reads "delay" beside "cancel"')),
    served("a thousand are explained", [step("head", session=7)] * 1002, "refused 51 NoSession\n" * 1002,
           r"(?s)\A(whatif: line \d+: session 7 is not open: open it first\n){1000}whatif: line 1000: from here on no step is explained[^\n]*\n\Z"),
    served("--quiet", [step("head", session=7)], "refused 51 NoSession\n", r"\A\Z", words=["--quiet"]),
    served("--strict", [OPEN, step("head", session=7), step("close", session=1)], lines("opened 1 at 0", "refused 51 NoSession"),
           told("whatif: line 2: session 7 is not open: open it first"), 5, words=["--strict"]),
    served("--strict with --quiet", [OPEN, step("head", session=7), step("close", session=1)], lines("opened 1 at 0", "refused 51 NoSession"), r"\A\Z", 5, words=["--strict", "--quiet"]),
    served("--strict where none is refused", [OPEN], "opened 1 at 0\n", r"\A\Z", words=["--strict"]),
    served("the name of a stage that a step added", [OPEN, step("add", session=1, new=stage("manual", name="total")), step("setTakes", session=1, stage="totl", takes=1)],
           lines("opened 1 at 0", "committed 1", "refused 10 NoStage"), told('whatif: line 3: stage "totl": no stage has the name "totl"; did you mean "total"?')),
    served("the name of a stage that a list added", [OPEN, step("edits", session=1, edits=[{"do": "add", "new": stage("manual", name="total")}]), step("remove", session=1, stage="totl")],
           lines("opened 1 at 0", "committed 1", "refused 10 NoStage"), told('whatif: line 3: stage "totl": no stage has the name "totl"; did you mean "total"?')),
    served("a stage that has the name of a refusal", [OPEN, step("add", session=1, new=stage("manual", name="refused")), step("report", session=1, what="one", stage="refused")],
           re.compile(rb"opened 1 at 0\ncommitted 1\nrefused manual rank 0 pending\n(.*\n){4}"), r"\A\Z", words=["--strict"]),
    Case("step: none is read of a refused recording", ["serve", "r.json"], "refused 71 Shape stages\n", 1, err=r"\Awhatif: r.json: stages is missing[^\n]*\nwhatif: the recording is refused, so no step was read\n\Z",
         files={"r.json": "{}"}, stdin=lines(OPEN)),
    *(served(f"a member twice, {text}", [OPEN, text], lines("opened 1 at 0", "committed 1"), told(f"whatif: line 2: warning: {said} more than once, and the last one counts")) for text, said in (
        ('{"do":"setTakes","session":1,"stage":"a","takes":1,"takes":2}', 'stage "a": "takes" stands'),
        ('{"do":"remove","do":"setTakes","session":1,"stage":"a","takes":2}', 'stage "a": "do" stands'),
        ('{"do":"pinResult","session":1,"stage":"a","result":{"value":1,"value":2}}', 'stage "a", result: "value" stands'),
        ('{"do":"setEnds","session":1,"stage":"a","ends":[{"at":1,"at":2,"do":"cancel"}]}', 'stage "a", ends[0]: "at" stands'),
        ('{"do":"add","session":1,"new":{"name":"n","name":"m","op":"manual"}}', 'stage "m": "name" stands'),
        ('{"do":"edits","session":1,"edits":[{"do":"remove","stage":"b"},{"do":"setTakes","stage":"a","takes":1,"takes":2}]}', 'stage "a": "takes" stands'),
        ('{"do":"edits","session":1,"edits":[{"do":"add","new":{"name":"m","op":"manual","op":"manual"}}]}', 'stage "m": "op" stands'))),
    served("a comment", [OPEN, '{"do":"head", // a\t"session":1}'], lines("opened 1 at 0", "refused 70 JSON"), begins("whatif: line 2: column 15: a comment: JSON has none")),
    Case("step: warnings of the recording, strictly", ["serve", "--strict", "r.json"], "", 1, err=begins("whatif: warning: "), files={"r.json": UNREAD}, stdin=lines(OPEN)),
]


def many(name, scripts, out, err, status=0, words=(), **how):
    """Scripts by `many`; each is the text of a file."""
    return Case(f"many: {name}", ["many", *words, "r.json", *scripts], out, status, err=err, files={"r.json": R, **scripts}, **how)


def reported(what, **members):
    return step("report", version=0, what=what, **members)


NO_SESSION = step("head", session=7)
TWO = {"one": lines(OPEN, "", NO_SESSION), "two\nlines": lines("{}}")}
# Reports of several lines, of stages that have the words of answers for names, and a refused step after each.
WORDS = [stage("manual", name=it) for it in ("refused", "script", "log", "blame", "async", "rank")]
REPORTS = [reported("all"), reported("times"), reported("path", stage="refused"), reported("sweep", stage="script"), reported("recording"), reported("changes"), reported("changes", against=0),
           reported("drift"), *(reported(what, stage=it) for what in ("one", "blame") for it in ("refused", "script", "blame", "log")), r'{"do":"\u0072eport","version":0,"what":"one","stage":"refused"}']
AFTER_EACH = lines(*(it for report in REPORTS for it in (report, NO_SESSION)))
SEVERAL = [
    many("a refused step of each script is explained", TWO, lines("script 1", "opened 1 at 0", "refused 51 NoSession", "script 2", "refused 70 JSON", "log 2"),
         told("whatif: one: line 3: session 7 is not open: open it first", r"whatif: two\u000alines: line 1: column 3: expected the end of the text")),
    many("as JSON", TWO, re.compile(rb'\{"script":1\}\n.*\n.*"refused"\}\n\{"script":2\}\n.*"refused"\}\n\{"log":2\}\n'),
         told("whatif: one: line 3: session 7 is not open: open it first", r"whatif: two\u000alines: line 1: column 3: expected the end of the text"), words=["--format", "json"]),
    many("--quiet", TWO, None, r"\A\Z", words=["--quiet"]),
    many("--strict", TWO, lines("script 1", "opened 1 at 0", "refused 51 NoSession", "script 2", "refused 70 JSON", "log 2"), begins("whatif: one: line 3: session 7"), 5, words=["--strict"]),
    many("--strict with --quiet", TWO, None, r"\A\Z", 5, words=["--strict", "--quiet"]),
    many("--strict as JSON", TWO, None, r"\A\Z", 5, words=["--strict", "--quiet", "--format", "json"]),
    many("--strict where none is refused", {"one": lines(OPEN), "two": ""}, lines("script 1", "opened 1 at 0", "script 2", "log 1"), r"\A\Z", words=["--strict"]),
    many("a member that nothing reads", {"one": lines(OPEN, step("setTakes", session=1, stage="a", takes=3, tick=1))}, None, begins('whatif: one: line 2: warning: stage "a": nothing reads "tick"')),
    many("a name that another script has added", {"one": lines(OPEN, step("add", session=1, new=stage("manual", name="total"))), "two": lines(step("open", session=2, version=0), step("remove", session=2, stage="totl"))},
         None, begins('whatif: two: line 2: stage "totl": no stage has the name "totl"; did you mean "total"?')),
    many("a long line", {"one": lines(" " * 70_000, NO_SESSION)}, None, told("whatif: one: line 1: the step has more than 65536 bytes", "whatif: one: line 2: session 7 is not open: open it first")),
    many("lines that end in CR LF, and the last one in nothing", {"one": f"{OPEN}\r\n\r\n{NO_SESSION}"}, None, told("whatif: one: line 3: session 7 is not open: open it first")),
    Case("many: a script that comes by a pipe", ["many", "r.json", "/dev/stdin"], lines("script 1", "refused 51 NoSession", "log 1"), err=told("whatif: /dev/stdin: line 1: session 7 is not open: open it first"), stdin=lines(NO_SESSION), files={"r.json": R}),
    many("a thousand are explained", {"one": lines(*[NO_SESSION] * 600), "two": lines(*[NO_SESSION] * 600)}, None,
         r"(?s)\A(whatif: one: line \d+: session 7 [^\n]*\n){600}(whatif: two: line \d+: session 7 [^\n]*\n){400}whatif: two: line 400: from here on no step is explained[^\n]*\n\Z"),
    many("more than is kept of a script", {"one": lambda: "\n" * 2**24 + lines(NO_SESSION, NO_SESSION)}, lines("script 1", "refused 51 NoSession", "refused 51 NoSession", "log 2"),
         told("whatif: one: line 16777217: from here on no step is explained, as no more of the script was kept"), seconds=60),
    many("more than is kept of a script, strictly", {"one": lambda: "\n" * 2**24 + lines(NO_SESSION)}, None, r"line 16777217", 5, words=["--strict"], seconds=60),
    *(
        Case(f"many: a refused step after each report, {form}", ["many", "--format", form, "words", "s"], None,
             err=told(*(f"whatif: s: line {2 * it + 2}: session 7 is not open: open it first" for it in range(len(REPORTS)))), files={"words": recording(*WORDS), "s": AFTER_EACH})
        for form in ("text", "json")
    ),
]

# The name of a file that has what would not be seen, or would move what stands beside it.
NAME = "a\nb\x1b[31m\\"
SHOWN_NAME = r"a\u000ab\u001b[31m\\"
NAMES = [
    Case("name: a file that isn't there", ["report", NAME], "refused 41 ReadFault\n", 3, err=told(f"whatif: {SHOWN_NAME}: No such file or directory")),
    Case("name: a mistaken recording", ["report", NAME], "refused 71 Shape stages\n", 1, err=begins(f"whatif: {SHOWN_NAME}: stages is missing"), files={NAME: "{}"}),
    Case("name: check", ["check", NAME], re.compile(rb"a\\u000ab\\u001b\[31m\\\\: stages is missing.*\n"), 1, files={NAME: "{}"}),
    Case("name: a script of export", ["export", "r.json", NAME], "refused 41 ReadFault\n", 3, err=told(f"whatif: {SHOWN_NAME}: Is a directory"), files={"r.json": R, NAME: None}),
    Case("name: a script of many", ["many", "r.json", NAME], "refused 41 ReadFault\n", 3, err=told(f"whatif: {SHOWN_NAME}: Is a directory"), files={"r.json": R, NAME: None}),
]


# Steps that are answered: each with all that it reads, and what it answers begins so.
READ = [
    (step("head", session=1), b"head 0"),
    (step("close", session=1), b"closed 1"),
    (step("open", session=2, version=0), b"opened 2"),
    (step("pinResult", session=1, base=0, stage="a", result={"value": 3}), b"committed 1"),
    (step("pinResult", session=1, base=0, stage="a", result=None), b"committed 1"),
    (step("pinMoment", session=1, base=0, stage="a", at=3), b"committed 1"),
    (step("setTakes", session=1, base=0, stage="a", takes=3), b"committed 1"),
    (step("setTimes", session=1, base=0, stage="a", queued=1, runs=2), b"committed 1"),
    (step("setAction", session=1, base=0, stage="a", action=["add", 1, 2]), b"committed 1"),
    (step("setEnds", session=1, base=0, stage="a", ends=[{"at": 1, "do": "cancel"}]), b"committed 1"),
    (step("add", session=1, base=0, new=stage("manual", name="n")), b"committed 1"),
    (step("add", session=1, base=0, new=stage("thenApply", name="n", sources=["a"], inner=[], created=0, takes=1, action=["add", ["arg", 0], 1])), b"committed 1"),
    (step("add", session=1, base=0, new=stage("completed", name="n", value=1, pinResult={"value": 2}, pinMoment=3, span="7a")), b"committed 1"),
    (step("remove", session=1, base=0, stage="b"), b"committed 1"),
    (step("rewire", session=1, base=0, stage="b", sources=["a"], inner=[]), b"committed 1"),
    (step("edits", session=1, base=0, edits=[{"do": "remove", "stage": "b"}]), b"committed 1"),
    *((step("report", version=0, what=what), what.encode() if what != "all" else b"version 0") for what in ("all", "times", "changes", "drift", "recording")),
    *((step("report", version=0, what=what, against=0), what.encode()) for what in ("changes", "drift")),
    *((step("report", session=1, what=what, stage="a"), b"") for what in ("one", "blame", "path", "sweep")),
]


def answered_steps():
    """No member of these is told to be unread, in whichever order they stand; one more is, wherever it stands."""
    for number, (text, begin) in enumerate(READ):
        out = re.compile(rb"opened 1 at 0\n(?!refused)" + begin + rb"[^\n]*\n(.*\n)*")
        members = list(json.loads(text).items())
        turned = json.dumps(dict(members[1:] + members[:1]))
        ways = [("", text), (", turned round", turned)]
        ways += [(f", and one more at {at}", json.dumps(dict(members[:at] + [("tock", 1)] + members[at:]))) for at in (0, 1, len(members))]
        for way, line in ways:
            err = r"\A\Z" if "tock" not in line else r'(?m)^whatif: line 2: warning: .*nothing reads "tock"'
            yield served(f"{json.loads(text)['do']} {number}{way}", [OPEN, line], out, err)
    for result in ({"value": 3, "tock": 1}, {"tock": {}, "value": 3}):
        yield served(f"a result with {list(result)}", [OPEN, step("pinResult", session=1, stage="a", result=result)], lines("opened 1 at 0", "committed 1"),
                     begins("whatif: line 2: warning: "))


def mistakes():
    """The cases of what people are told."""
    return [*RECORDINGS, *ALONE_CASES, *EXCEPTION_CASES, *TWICE_CASES, *TRACE_CASES, *NO_JSON_CASES, *ARCHIVES, *BYTES, *OPTIONS, *CHECKS, *STEPS, *SEVERAL, *NAMES, *answered_steps()]
