"""What a stage of a recording comes to where another one takes other times, asked by scripts."""
import json

from .run import Case, run


class Asking:
    """What a stage of a recording comes to where another one takes other times, by `setTimes` and `one` of scripts."""

    def __init__(self, program, text, target):
        self.program, self.text, self.target = program, text, target
        self.stages = {it["name"]: it for it in json.loads(text)["stages"]}
        (times,) = self.told([{"do": "report", "version": 0, "what": "times"}])
        self.times = {it["name"]: it for it in times["stages"]}
        (self.before,) = self.completions([])

    def told(self, steps):
        script = "".join(json.dumps(it) + "\n" for it in steps)
        out = run(self.program, Case("asked", ["serve", "--format", "json", "r.json"], None, stdin=script, files={"r.json": self.text}, seconds=120)).out
        return [told for told in map(json.loads, out.splitlines()) if "report" in told]

    def completions(self, timed):
        """How the target completes as it is, or where each of these stages by itself is queued and runs for so long."""
        asked = {"do": "report", "session": 1, "what": "one", "stage": self.target}
        steps = [{"do": "open", "session": 1, "version": 0}]
        for name, queued, runs in timed:
            steps += [{"do": "setTimes", "session": 1, "stage": name, "queued": queued, "runs": runs}, asked, {"do": "undo", "session": 1}]
        return [(it["outcome"], it["moment"]) for it in self.told(steps if timed else [*steps, asked])]

    def waited_for(self):
        """The stages that the target can wait for and whose action has started, by place."""
        met, left = set(), [self.target]
        while left:
            name = left.pop()
            if name not in met:
                met.add(name)
                left += self.stages[name].get("sources", []) + self.stages[name].get("inner", [])
        return [it for it in self.stages if it in met and "action" in self.stages[it] and self.times[it]["start"] is not None]
