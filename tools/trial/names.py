"""Names that come and go over many versions, and moved stages by place where they don't stand in the order of ranks."""
import json

from .run import Case

# every stage stands before the one that it waits for
BACKWARDS = json.dumps(
    {
        "form": 1,
        "mode": "computed",
        "stages": [
            {"name": "reply", "op": "thenApply", "sources": ["page"], "action": 0},
            {"name": "page", "op": "thenApply", "sources": ["basket"], "action": 0},
            {"name": "clock", "op": "async", "action": 1, "takes": 3},
            {"name": "basket", "op": "async", "action": 0, "takes": 5},
        ],
    }
)
BACKWARDS_STEPS = [
    {"do": "open", "session": 1, "version": 0},
    {"do": "setTakes", "session": 1, "stage": "basket", "takes": 9},
    {"do": "report", "version": 1, "what": "drift"},
    {"do": "report", "version": 1, "what": "changes"},
    {"do": "setTakes", "session": 1, "stage": "clock", "takes": 1},
    {"do": "report", "version": 2, "what": "drift"},
    {"do": "pinMoment", "session": 1, "stage": "page", "at": 9},
    {"do": "report", "version": 3, "what": "drift"},
]
BACKWARDS_ANSWERS = [
    "opened 1 at 0",
    "committed 1",
    "drift of version 1 from 0 moved 3",
    "reply later 4",
    "page later 4",
    "basket later 4",
    "changes of version 1 from 0 touched 3",
    "basket value:0 at 5 -> value:0 at 9",
    "page value:0 at 5 -> value:0 at 9",
    "reply value:0 at 5 -> value:0 at 9",
    "committed 2",
    "drift of version 2 from 1 moved 1",
    "clock earlier 2",
    "committed 3",
    "drift of version 3 from 2 moved 0",
]

# names that differ in the last byte alone, in the high half of the first one, by their length
ALIKE = ["ab", "qb", "1b", "ac", "b", "a" * 64, "b" + "a" * 63, "a" * 63 + "b", "a.b", "a-b", "a_b"]


def text(steps):
    return "".join(json.dumps(it) + "\n" for it in steps)


def stages(names):
    return json.dumps({"form": 1, "mode": "computed", "stages": [{"name": it, "op": "manual"} for it in names]})


def by_turns(rounds):
    """Each name is added, refused a second time, removed, refused a second time, and added again; some rounds of it."""
    steps, answers, version, place = [{"do": "open", "session": 1, "version": 0}], ["opened 1 at 0"], 0, 1
    for turn in range(rounds):
        for name in ALIKE:
            for do in ("add", "add", "remove", "remove") if turn + 1 < rounds else ("add", "add"):
                there = do == "add"
                new = {"new": {"name": name, "op": "manual"}} if there else {"stage": name}
                steps.append({"do": do, "session": 1, **new})
                if len(steps) > 2 and steps[-2] == steps[-1]:
                    answers.append("refused 11 NameTaken" if there else "refused 10 NoStage")
                else:
                    version += 1
                    answers.append(f"committed {version}")
                    place += there
    steps.append({"do": "report", "version": version, "what": "all"})
    answers.append(f"version {version} parent {version - 1} mode computed stages {len(ALIKE) + 1}")
    answers += [f"{name} manual rank 0 pending" for name in ["first", *ALIKE]]
    return text(steps), "".join(f"{it}\n" for it in answers)


def loaded_and_gone():
    """Loaded names go and come back at another place, and an old version still has them."""
    names = [f"s{it}" for it in range(300)]
    steps, answers = [{"do": "open", "session": 1, "version": 0}], ["opened 1 at 0"]
    for at, name in enumerate(reversed(names)):
        steps.append({"do": "remove", "session": 1, "stage": name})
        answers.append(f"committed {at + 1}")
    for at, name in enumerate(names):
        steps.append({"do": "add", "session": 1, "new": {"name": name, "op": "manual"}})
        answers.append(f"committed {at + 301}")
    for version in (0, 300, 600):
        steps.append({"do": "report", "version": version, "what": "one", "stage": "s150"})
        answers += ["refused 10 NoStage"] if version == 300 else ["s150 manual rank 0 pending", "sources -", "inner -", "dependents -", "join waits"]
    return stages(names), text(steps), "".join(f"{it}\n" for it in answers)


def name_cases():
    turns, wanted = by_turns(4)
    recording, gone, left = loaded_and_gone()
    return [
        Case("moved stages by place", ["serve", "r.json"], "".join(f"{it}\n" for it in BACKWARDS_ANSWERS), stdin=text(BACKWARDS_STEPS), files={"r.json": BACKWARDS}),
        Case("names that come and go", ["serve", "r.json"], wanted, stdin=turns, files={"r.json": stages(["first"])}),
        Case("loaded names that go and come back", ["serve", "r.json"], left, stdin=gone, files={"r.json": recording}),
    ]
