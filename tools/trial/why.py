"""Why a stage is late, and what is worth making faster: `explain`, `sweep`, and the steps that ask the same; reports of a
session's version, and of one version against another."""
import os
import re

from .cases import FIRST_RUN, MOST_TICKS, NO_READ, OPEN, R, lines, recording, stage, step, with_r
from .limits import MOST_RECORDING, chain_of, filled
from .run import CLOSED, Case, File, Pieces, Shut

EXPLAINED_A = lines("a async rank 0 value:4 at 10", "sources -", "inner -", "dependents b", "join returns 4", "blame -", "path of a at 10 stages 1", "a at 10 queued 0 ran 10 created 0")
EXPLAINED_B = lines("b thenApply rank 1 value:5 at 15", "sources a", "inner -", "dependents -", "join returns 5", "blame -") + lines(
    "path of b at 15 stages 2", "b at 15 queued 0 ran 5 after a", "a at 10 queued 0 ran 10 created 0"
)
SWEPT_A = lines("sweep of a at 10 stages 1", "a sooner 10 -> value:4 at 0")
SWEPT_B = ["sweep of b at 15 stages 2", "a sooner 10 -> value:5 at 5", "b sooner 5 -> value:5 at 10"]
SWEPT = lines(*SWEPT_B)
NO_STAGE = "refused 10 NoStage\n"
BAD = {"bad": "["}
MISSING = "required arguments were not provided"


def help_of(text):
    """A help text, whatever the program's file is called."""
    return re.compile(re.escape(text).replace("PROGRAM", r"\S+").encode())


HELP = help_of("""\
A what-if debugger for recorded runs of asynchronous Java services

Usage: PROGRAM <COMMAND>

Commands:
  report    Prints each stage of a recording: its rank, its state and its moment
  explain   Prints how a stage ended, which failure it hands on, or which failures it was spared, and why it completed when it did or is pending
  sweep     Prints which stages would make a stage complete sooner if they took no time
  slack     Prints how many ticks longer each stage may run before a stage completes otherwise
  rescue    Prints which single changes would have made a stage complete with a value, in time if a tick is given
  ends      Prints what came of each timeout, and of each call that completes or cancels a stage
  failures  Prints where each failure arose, which stages it reached, and which read it and didn't hand it on
  try       Prints what would come of changes, made together
  compare   Prints what made a stage late in one run that was not late in another: its path in both, and the stages in which they differ
  draw      Writes a picture of a recording: when each stage waited, was queued, ran and completed
  page      Writes a page that tells of a recording, and of what a script changes: one HTML file that stands alone, for the ticket of an incident
  check     Prints every fault of a recording, and every member that nothing reads
  serve     Answers the steps that come on standard input, one to a line, about a recording
  console   Answers the lines that a person says, word by word, about a recording
  export    Writes the version that a script made last, as a recording
  many      Answers several scripts at once, whose clients share the sessions and versions
  import    Writes the recording that a trace makes, from OTLP/JSON, Jaeger JSON or Zipkin's
  fleet     Prints what many traces came to: how long their replies took, which spans, if they took no time, would bring them sooner, and which failures came from where
  new       Prints a recording to begin with: one that says what each of its stages is, or the form of a retry, a timeout, a race
  help      Print this message or the help of the given subcommand(s)

Options:
  -h, --help     Print help
  -V, --version  Print version

Examples:
  whatif report examples/first-run.json
  whatif explain examples/late-reply.json reply

Recordings, steps, reports and refusals: docs/FORMATS.md. How to write a run down: docs/MODELLING.md. Recordings from traces: docs/TRACES.md.
""")
HELP_OF_REPORT = help_of("""\
Prints each stage of a recording: its rank, its state and its moment

Usage: PROGRAM report [OPTIONS] [FILE]

Arguments:
  [FILE]  the recording; standard input where it is left out, or -

Options:
      --quiet            leave explanations and warnings out
      --strict           end with status 1 where there is a warning
      --format <FORMAT>  text for people, or json for programs: a line for each answer, which is one object [default: text] [possible values: text, json]
  -h, --help             Print help

Examples:
  whatif report examples/first-run.json
  whatif report --strict - < examples/first-run.json
  whatif report --format json examples/first-run.json

The lines: docs/FORMATS.md, Reports.
""")
HELP_OF_EXPLAIN = help_of("""\
Prints how a stage ended, which failure it hands on, or which failures it was spared, and why it completed when it did or is pending

Usage: PROGRAM explain [OPTIONS] <FILE> [STAGE]

Arguments:
  <FILE>   the recording; - is standard input
  [STAGE]  the stage; where it is left out, the one that completes last of those on which no other waits

Options:
      --quiet            leave explanations and warnings out
      --strict           end with status 1 where there is a warning
      --format <FORMAT>  text for people, or json for programs: a line for each answer, which is one object [default: text] [possible values: text, json]
  -h, --help             Print help

Examples:
  whatif explain examples/late-reply.json reply
  whatif explain --quiet - reply < examples/late-reply.json

The lines: docs/FORMATS.md, Reports.
""")
HELP_OF_SWEEP = help_of("""\
Prints which stages would make a stage complete sooner if they took no time

Usage: PROGRAM sweep [OPTIONS] <FILE> [STAGE]

Arguments:
  <FILE>   the recording; - is standard input
  [STAGE]  the stage; where it is left out, the one that completes last of those on which no other waits

Options:
      --top <N>          print the first N stages alone
      --want <ENDING>    print the stages alone by which the stage then completes with a value [possible values: value]
      --queued           make the queues alone shorter: each action runs as long as it does
      --by <P%>          leave P percent of the times, rounded down, from 0% to 99%; where it is left out, none
      --quiet            leave explanations and warnings out
      --strict           end with status 1 where there is a warning
      --format <FORMAT>  text for people, or json for programs: a line for each answer, which is one object [default: text] [possible values: text, json]
  -h, --help             Print help

Examples:
  whatif sweep examples/late-reply.json reply
  whatif sweep --top 3 examples/late-reply.json reply
  whatif sweep --want value --queued --by 50% examples/late-reply.json reply

The lines: docs/FORMATS.md, Reports.
""")
HELP_OF_ENDS = help_of("""\
Prints what came of each timeout, and of each call that completes or cancels a stage

Usage: PROGRAM ends [OPTIONS] [FILE]

Arguments:
  [FILE]  the recording; standard input where it is left out, or -

Options:
      --quiet            leave explanations and warnings out
      --strict           end with status 1 where there is a warning
      --format <FORMAT>  text for people, or json for programs: a line for each answer, which is one object [default: text] [possible values: text, json]
  -h, --help             Print help

Examples:
  whatif ends examples/late-reply.json
  whatif ends --format json - < examples/late-reply.json

The lines: docs/FORMATS.md, Reports.
""")
HELP_OF_FAILURES = help_of("""\
Prints where each failure arose, which stages it reached, and which read it and didn't hand it on

Usage: PROGRAM failures [OPTIONS] [FILE]

Arguments:
  [FILE]  the recording; standard input where it is left out, or -

Options:
      --origin <STAGE>   print the failure that arose in this stage alone
      --quiet            leave explanations and warnings out
      --strict           end with status 1 where there is a warning
      --format <FORMAT>  text for people, or json for programs: a line for each answer, which is one object [default: text] [possible values: text, json]
  -h, --help             Print help

Examples:
  whatif failures examples/late-reply.json
  whatif failures --origin stock-south examples/late-reply.json

The lines: docs/FORMATS.md, Reports.
""")
HELP_OF_TRY = help_of("""\
Prints what would come of changes, made together

Usage: PROGRAM try [OPTIONS] <FILE> <CHANGE>...

Arguments:
  <FILE>       the recording; - is standard input
  <CHANGE>...  the changes, at most 64: each is one word, in quotes, a stage's name and assignments, as 'stock runs=50% gives=1'

Options:
      --stage <STAGE>    the stage to report on; where it is left out, the one that completes last of those on which no other waits
      --save             write the recording that the changes make, in place of the reports
      --draw             write a picture of what the changes make, in place of the reports: the changed stages are marked, and with --stage the path of that stage is drawn over the rows
      --quiet            leave explanations and warnings out
      --strict           end with status 1 where there is a warning
      --format <FORMAT>  text for people, or json for programs: a line for each answer, which is one object [default: text] [possible values: text, json]
  -h, --help             Print help

Examples:
  whatif try examples/late-reply.json 'customer-database runs=50%' --stage reply
  whatif try examples/late-reply.json 'customer-database queued=0 runs=20' 'stock-south gives=7' --stage reply
  whatif try --save examples/late-reply.json 'stock-south gives=7' > fixed.json

A CHANGE is one word, in quotes: a stage's name, a space, and assignments with spaces between them. runs=N and queued=N set times in ticks, runs=P% and queued=P% to P percent of what they are, rounded down; gives=V sets the value that the stage computes, fails=NAME the exception, and at=T the tick at which it has computed it; limit=N sets the delay of its one timeout (orTimeout or completeOnTimeout), and unlimited takes its timeouts away. An end that acts before the stage has computed its value still wins, and a stage that would be pending needs gives or fails, and at.

The changes and the lines: docs/FORMATS.md, Trying changes.
""")
HELP_OF_DRAW = help_of("""\
Writes a picture of a recording: when each stage waited, was queued, ran and completed

Usage: PROGRAM draw [OPTIONS] [FILE]

Arguments:
  [FILE]  the recording; standard input where it is left out, or -

Options:
      --stage <STAGE>    draw the path of this stage over the rows
      --what <WHAT>      which stages have a row: all, or those on the path of --stage alone [default: all] [possible values: all, path]
      --from <T>         draw the ticks from T on alone, from 0 to 2^40, and the stages that completed then or later
      --to <T>           draw the ticks up to T alone, from 0 to 2^40, and the stages that were created by then
      --min <T>          leave out the stages that took less than T ticks from their trigger to their completion, from 0 to 2^40, but none of the path of --stage
      --group <WHAT>     the rows of a service stand together below its name, which is what stands before the first dot of theirs; of an SVG file 100 at most then [possible values: service]
      --script <SCRIPT>  draw the version that this script makes last of the recording
      --version <N>      draw version N of those that the script makes, from 0 to 65535; 0 is the recording
      --format <FORMAT>  an SVG file, or trace events as JSON, which Perfetto and chrome://tracing open [default: svg] [possible values: svg, trace]
      --quiet            leave explanations and warnings out
      --strict           end with status 1 where the recording has a warning, and with 5 at the first refused step
  -h, --help             Print help

Examples:
  whatif draw examples/late-reply.json --stage reply > reply.svg
  whatif draw examples/late-reply.json --from 100 --to 150 --min 10 > end.svg
  whatif draw examples/late-reply.json --script examples/late-reply.script --stage reply > fixed.svg
  whatif import examples/order.otlp.trace | whatif draw --group service > services.svg
  whatif draw --format trace examples/late-reply.json > late-reply.trace.json

What is drawn: docs/FORMATS.md, Pictures.
""")
HELP_OF_PAGE = help_of("""\
Writes a page that tells of a recording, and of what a script changes: one HTML file that stands alone, for the ticket of an incident

Usage: PROGRAM page [OPTIONS] <FILE> [SCRIPT]

Arguments:
  <FILE>    the recording; - is standard input
  [SCRIPT]  steps, one to a line: the page shows each version that they make beside the one that it was made of

Options:
      --stage <STAGE>  the stage that the page is about; where it is left out, the one that completes last of those on which no other waits, if one does
      --quiet          leave explanations and warnings out
      --strict         end with status 1 where the recording has a warning, and with 5 at the first refused step
  -h, --help           Print help

Examples:
  whatif page examples/late-reply.json --stage reply > late-reply.html
  whatif page examples/late-reply.json examples/late-reply.script --stage reply > fixes.html
  whatif page - < examples/late-reply.json > late-reply.html

What the page has: docs/PAGE.md.
""")
HELP_OF_CONSOLE = help_of("""\
Answers the lines that a person says, word by word, about a recording

Usage: PROGRAM console [OPTIONS] <FILE>

Arguments:
  <FILE>  the recording

Options:
      --steps   print the steps that the lines say, as a script, and tell their answers on standard error
      --quiet   leave explanations and warnings out
      --strict  end with status 1 where there is a warning
  -h, --help    Print help

Examples:
  whatif console examples/late-reply.json
  rlwrap whatif console examples/late-reply.json
  whatif console --steps examples/late-reply.json > kept.script

help, said to it, tells which commands there are. The commands and their answers: docs/FORMATS.md, The console.
""")
HELP_OF_FLEET = help_of("""\
Prints what many traces came to: how long their replies took, which spans, if they took no time, would bring them sooner, and which failures came from where

Usage: PROGRAM fleet [OPTIONS] <FILE>...

Arguments:
  <FILE>...  traces, in OTLP/JSON, Jaeger JSON or Zipkin's, or recordings, each on one line, at most 4096 files; - is standard input

Options:
      --reply <NAME>     the span whose end is the reply of its trace, by its name, with its service and a dot before it where that is to be told; where it is left out, the root of the trace
      --by <WHAT>        by what spans are counted together: their service and their name, or the service alone [default: span] [possible values: span, service]
      --try <CHANGE>     print also what the replies come to where a change is made to each span of a group: a word in quotes, the group's name and assignments as of try, as 'shop.GET /order runs=50%'; it may be told several times
      --slowest [<P>]    print also what each group did on the paths of the slowest P percent of the replies, from 1 to 100, or 1 where none is told, for each of them, and for each of all
      --workers <N>      how many threads count traces at once, from 1 to 16 [default: 1]
      --part             write the summary of what was counted, which --join reads, in place of the answer
      --join             the files hold summaries, which --part wrote, each on one line: join them
      --unit <UNIT>      the unit of ticks [default: us] [possible values: us, ns, ms]
      --clocks <HOW>     whether clocks that a trace contradicts are moved [default: inferred] [possible values: inferred, as-told]
      --calls <HOW>      whether calls may have been tried again or given up [default: inferred] [possible values: inferred, as-told]
      --quiet            leave explanations and warnings out
      --strict           end with status 1 at the first trace that is not counted
      --format <FORMAT>  text for people, or json for programs: a line for each answer, which is one object [default: text] [possible values: text, json]
  -h, --help             Print help

Examples:
  whatif fleet night.jsonl
  whatif fleet --slowest 1 --by service night/*.jsonl
  whatif fleet --try 'stock.GET /items runs=50%' --workers 4 night/*.jsonl
  whatif fleet --part night/1.jsonl > 1.summary
  whatif fleet --join 1.summary 2.summary
  ls night/*.jsonl | parallel whatif fleet --part {} | whatif fleet --join -

What is counted, what a gain means, and what is tried: docs/FLEET.md.
""")
HELP_OF_IMPORT = help_of("""\
Writes the recording that a trace makes, from OTLP/JSON, Jaeger JSON or Zipkin's

Usage: PROGRAM import [OPTIONS] [FILE]

Arguments:
  [FILE]  the trace, in OTLP/JSON, Jaeger JSON or Zipkin's; standard input where it is left out, or -

Options:
      --list             print which traces the file has: id, root, start, length, spans and failures, by start
      --each             write the recording of every trace of the file, each on one line
      --trace <ID>       which trace, where the file has several: its id, or a beginning of it that no other has
      --unit <UNIT>      the unit of ticks [default: us] [possible values: us, ns, ms]
      --clocks <HOW>     whether clocks that a trace contradicts are moved [default: inferred] [possible values: inferred, as-told]
      --calls <HOW>      whether calls may have been tried again or given up [default: inferred] [possible values: inferred, as-told]
      --format <FORMAT>  of --list: text for people, or json for programs: a line for each trace, which is one object [default: text] [possible values: text, json]
      --quiet            leave explanations out
  -h, --help             Print help

Examples:
  whatif import examples/order.otlp.trace
  whatif import examples/order.otlp.trace | whatif explain - shop.GET-order
  whatif import --list night.jsonl
  whatif import --each night.jsonl > night.recordings

What is inferred of a trace, and what can't be known: docs/TRACES.md.
""")
HELP_OF_CHECK = help_of("""\
Prints every fault of a recording, and every member that nothing reads

Usage: PROGRAM check [OPTIONS] <FILE>

Arguments:
  <FILE>  the recording; - is standard input

Options:
      --strict  end with status 1 where there is a warning
  -h, --help    Print help

Examples:
  whatif check examples/first-run.json
  whatif check --strict examples/late-reply.json

What a recording is: docs/FORMATS.md, Recordings.
""")

HELP_OF_EXPORT = help_of("""\
Writes the version that a script made last, as a recording

Usage: PROGRAM export [OPTIONS] <FILE> <SCRIPT>

Arguments:
  <FILE>    the recording
  <SCRIPT>  the steps, one to a line

Options:
      --quiet   leave explanations and warnings out
      --strict  end with status 1 where the recording has a warning, and with 5 at the first refused step
  -h, --help    Print help

Examples:
  whatif export examples/late-reply.json examples/late-reply.script > fixed.json
  whatif export --strict examples/late-reply.json examples/late-reply-why.script > fixed.json

The steps: docs/FORMATS.md, Scripts. What is written: Recordings.
""")

# The command line.
COMMAND_LINES = [
    Case("help names each subcommand", ["--help"], HELP),
    Case("the subcommand of help names each", ["help"], HELP),
    *[
        Case(f"help of {name}, by {' '.join(words)}", words, text)
        for name, text in (("report", HELP_OF_REPORT), ("explain", HELP_OF_EXPLAIN), ("sweep", HELP_OF_SWEEP), ("ends", HELP_OF_ENDS), ("failures", HELP_OF_FAILURES), ("try", HELP_OF_TRY), ("draw", HELP_OF_DRAW), ("page", HELP_OF_PAGE), ("check", HELP_OF_CHECK), ("console", HELP_OF_CONSOLE), ("export", HELP_OF_EXPORT), ("import", HELP_OF_IMPORT), ("fleet", HELP_OF_FLEET))
        for words in ([name, "--help"], [name, "-h"], ["help", name])
    ],
    Case("no word names the subcommands", [], "", 2, err="report, explain, sweep, slack, rescue, ends, failures, try, compare, draw, page, check, serve, console, export, many, import, fleet, new, help"),
    *[
        case
        for name in ("explain", "sweep")
        for case in (
            Case(f"{name} without a file", [name], "", 2, err=f"(?s){MISSING}.*<FILE>"),
            Case(f"{name} of two stages", [name, "r.json", "a", "b"], "", 2, err="'b'"),
            Case(f"{name} with an unknown option", [name, "--nonsense", "r.json", "a"], "", 2, err="nonsense"),
            Case(f"{name} of a stage that is no text", [name, "r.json", b"\xff"], "", 2, err=r"\S"),
            Case(f"{name}: the command line before the file", [name, "absent", "a", "b"], "", 2, err="'b'"),
            Case(f"help of {name} on a full standard output", [name, "--help"], "", 3, stdout="full"),
        )
    ],
    *[Case(f"sweep --top {it!r}", ["sweep", "--top", it, "r.json", "b"], "", 2, err=r"--top <N>|-1") for it in ("x", "", "-1", "1.5", " 1", "1 ", str(2**64))],
    Case("sweep: --top without a number", ["sweep", "r.json", "b", "--top"], "", 2, err="--top <N>"),
    Case("sweep: --top twice", ["sweep", "--top", "1", "--top", "1", "r.json", "b"], "", 2, err="--top <N>"),
    Case("sweep: --top x before a file that isn't there", ["sweep", "--top", "x", "absent", "b"], "", 2, err="--top <N>"),
    Case("explain takes no --top", ["explain", "--top", "1", "r.json", "b"], "", 2, err="--top"),
]

# Files, standard input and standard output.
FILES = [
    Case("report of -", ["report", "-"], FIRST_RUN, stdin=R),
    Case("report of - after --", ["report", "--", "-"], FIRST_RUN, stdin=R),
    Case("report of a file that is called -", ["report", "./-"], FIRST_RUN, stdin=CLOSED, files={"-": R}),
    Case("report of -, beside a file of that name", ["report", "-"], "refused 70 JSON\n", 1, stdin="[", files={"-": R}),
    Case("report of -, which is closed", ["report", "-"], NO_READ, 3, stdin=CLOSED),
    Case("serve of -, which is a file for it", ["serve", "-"], NO_READ, 3, err=r"\Awhatif: -: the script is read from standard input, so FILE has to be a file\n\Z", stdin=R),
    Case("export of -, which is a file for it", ["export", "-", "s"], NO_READ, 3, err=r"\Awhatif: -: standard input is not read here, so FILE has to be a file\n\Z", stdin=R, files={"s": ""}),
    Case("export of a script -, which is a file for it", ["export", "r.json", "-"], NO_READ, 3, err=r"\Awhatif: -: standard input is not read here, so SCRIPT has to be a file\n\Z", stdin=OPEN),
    Case("serve of a mistaken file that is called -", ["serve", "-"], "refused 71 Shape stages\n", 1, err=r"\Awhatif: -: stages is missing", stdin=OPEN, files={"-": "{}"}),
    Case("serve of a file that is called -", ["serve", "-"], "opened 1 at 0\n", stdin=OPEN, files={"-": R}),
    Case("many of -, which is a file for it", ["many", "-", "s"], NO_READ, 3, err=r"\Awhatif: -: standard input is not read here, so FILE has to be a file\n\Z", stdin=R, files={"s": ""}),
    Case("many of a script -, which is a file for it", ["many", "r.json", "-"], NO_READ, 3, err=r"\Awhatif: -: standard input is not read here, so SCRIPT has to be a file\n\Z", stdin=OPEN),
    Case("explain of a file's name after --", ["explain", "--", "r.json", "a"], EXPLAINED_A),
    Case("sweep of a file's name after --", ["sweep", "--", "r.json", "a"], SWEPT_A),
]
for name, told in (("explain", EXPLAINED_B), ("sweep", SWEPT)):
    FILES += [
        Case(f"{name} of a stage", [name, "r.json", "b"], told),
        Case(f"{name} of a file needs no standard input", [name, "r.json", "b"], told, stdin=CLOSED),
        Case(f"{name} of standard input", [name, "-", "b"], told, stdin=R),
        Case(f"{name} of standard input a byte at a time", [name, "-", "b"], told, stdin=Pieces(lambda: (bytes([it]) for it in R.encode()))),
        Case(f"{name} of a closed standard input", [name, "-", "b"], NO_READ, 3, stdin=CLOSED),
        Case(f"{name} of a folder on standard input", [name, "-", "b"], NO_READ, 3, stdin=File(".")),
        Case(f"{name} of no file", [name, "absent", "b"], NO_READ, 3),
        Case(f"{name} of the empty name", [name, "", "b"], NO_READ, 3),
        Case(f"{name} of a folder", [name, "folder", "b"], NO_READ, 3, files={"folder": None}),
        Case(f"{name} of a file that may not be read", [name, "shut", "b"], NO_READ, 3, files={"shut": Shut(R)}),
        Case(f"{name} of a refused recording", [name, "bad", "b"], "refused 70 JSON\n", 1, files=BAD),
        Case(f"{name}: the recording before the stage", [name, "bad", "zz"], "refused 19 Cycle\n", 1, files={"bad": recording(stage("copy", sources=["a"]))}),
        Case(f"{name} of a recording that is too long", [name, "-", "b"], "refused 72 TooLong\n", 1, stdin=lambda: filled(R, MOST_RECORDING + 1)),
        *[Case(f"{name}: no stage {it[:4]!r}", [name, "r.json", it], NO_STAGE, 1) for it in ("zz", "", "B", " b", "b ", "-", "b\n", "n" * 70, "é")],
        Case(f"{name}: no stage in a recording of none", [name, "-", "a"], NO_STAGE, 1, stdin=recording()),
        Case(f"{name} on a full standard output", [name, "r.json", "b"], "", 3, stdout="full"),
        Case(f"{name} on a closed standard output", [name, "r.json", "b"], "", 3, stdout="closed"),
        Case(f"{name} on a pipe that nobody reads", [name, "r.json", "b"], "", 3, stdout="gone"),
        Case(f"{name} of no stage on a full standard output", [name, "r.json", "zz"], "", 3, stdout="full"),
    ]
FILES += [
    Case(f"sweep --top {most}", ["sweep", "--top", str(most), "r.json", "b"], lines(*SWEPT_B[: 1 + most])) for most in (0, 1, 2, 3, 2**64 - 1)
]
FILES += [
    Case("sweep --top=1", ["sweep", "--top=1", "r.json", "b"], lines(*SWEPT_B[:2])),
    Case("sweep: --top at the end", ["sweep", "r.json", "b", "--top", "1"], lines(*SWEPT_B[:2])),
    Case("sweep --top 1 of no stage", ["sweep", "--top", "1", "r.json", "zz"], NO_STAGE, 1),
]

WAITS = recording(stage("manual", "m"), stage("thenApply", "n", sources=["m"], action=1))
FAILS = recording(stage("async", takes=3, action=["throw", "X"]), stage("copy", "b", sources=["a"]))
TIMED_OUT = recording(stage("async", takes=10, action=1, ends=[{"do": "orTimeout", "at": 0, "delay": 9}]))
# The first to complete decides.
EITHER = recording(stage("async", "x", takes=3, action=1), stage("async", "y", takes=9, action=["throw", "X"]), stage("applyToEither", "e", sources=["x", "y"], takes=1, action=["arg", 0]))

# What is told of a stage of a recording.
TOLD = [
    (
        "a stage that waits",
        "explain",
        WAITS,
        "n",
        ["n thenApply rank 1 pending", "sources m", "inner -", "dependents -", "join waits", "blame -", "path of n pending stages 2", "n waits for m", "m open"],
    ),
    ("a stage that waits", "sweep", WAITS, "n", ["sweep of n pending stages 0"]),
    (
        "a failure that was handed on",
        "explain",
        FAILS,
        "b",
        ["b copy rank 1 wrapped:X at 3", "sources a", "inner -", "dependents -", "join throws java.util.concurrent.CompletionException cause X", "blame b a"]
        + ["path of b at 3 stages 2", "b at 3 queued 0 ran 0 after a", "a at 3 queued 0 ran 3 created 0"],
    ),
    ("a failure that was handed on", "sweep", FAILS, "b", ["sweep of b at 3 stages 1", "a sooner 3 -> wrapped:X at 0"]),
    (
        "an end",
        "explain",
        TIMED_OUT,
        "a",
        ["a async rank 0 bare:java.util.concurrent.TimeoutException at 9", "sources -", "inner -", "dependents -"]
        + ["join throws java.util.concurrent.CompletionException cause java.util.concurrent.TimeoutException", "blame a", "path of a at 9 stages 1", "a at 9 ended by orTimeout"],
    ),
    ("an end", "sweep", TIMED_OUT, "a", ["sweep of a at 9 stages 1", "a sooner 9 -> value:1 at 0"]),
    ("another outcome", "sweep", EITHER, "e", ["sweep of e at 4 stages 3", "x sooner 3 -> value:1 at 1", "e sooner 1 -> value:1 at 3", "y sooner 4 -> wrapped:X at 0"]),
    (
        "two stages at one tick by place",
        "sweep",
        recording(stage("thenApply", "b", sources=["a"], takes=5, action=1), stage("async", takes=5, action=1)),
        "b",
        ["sweep of b at 10 stages 2", "b sooner 5 -> value:1 at 5", "a sooner 5 -> value:1 at 5"],
    ),
    ("what is queued", "sweep", recording(stage("async", queued=2, runs=3, created=1, action=4), form=2), "a", ["sweep of a at 6 stages 1", "a sooner 5 -> value:4 at 1"]),
    ("what takes no time", "sweep", recording(stage("async", created=7, action=4), stage("completed", "c", value=1)), "a", ["sweep of a at 7 stages 0"]),
    ("a pinned moment", "sweep", recording(stage("async", takes=5, pinMoment=9, action=4)), "a", ["sweep of a at 9 stages 0"]),
    (
        "the longest durations",
        "sweep",
        recording(stage("async", created=MOST_TICKS, queued=MOST_TICKS, runs=MOST_TICKS, action=0), form=2),
        "a",
        [f"sweep of a at {3 * MOST_TICKS} stages 1", f"a sooner {2 * MOST_TICKS} -> value:0 at {MOST_TICKS}"],
    ),
]

EXAMPLES = os.path.join(os.path.dirname(os.path.dirname(os.path.dirname(os.path.realpath(__file__)))), "examples")
# What is told of the stages of the late reply. (README.md and docs/TOUR.md show that of `reply`.)
LATE_REPLY = [
    (
        ["explain", "stock-north"],
        ["stock-north thenApply rank 3 bare:java.util.concurrent.TimeoutException at 121", "sources basket", "inner -", "dependents stock"]
        + ["join throws java.util.concurrent.CompletionException cause java.util.concurrent.TimeoutException", "blame stock-north"]
        + ["path of stock-north at 121 stages 1", "stock-north at 121 ended by orTimeout"],
    ),
    (
        ["explain", "customer"],
        ["customer exceptionallyCompose rank 3 value:17 at 114", "sources customer-cache", "inner customer-database", "dependents discount", "join returns 17", "blame -"]
        + ["path of customer at 114 stages 2", "customer at 114 took over customer-database", "customer-database at 114 queued 14 ran 88 created 12"]
        + ["failures of version 0 failures 1", "customer-cache com.shop.CacheMiss at 11 reaches -; handled by customer"],
    ),
    (["sweep", "stock-north"], ["sweep of stock-north at 121 stages 1", "stock-north sooner 100 -> value:12 at 21"]),
    (
        ["sweep", "stock"],
        ["sweep of stock at 59 stages 5", "stock-north sooner 37 -> value:12 at 22", "stock-south sooner 38 -> wrapped:com.shop.StockServiceDown at 21"]
        + [f"{who} sooner {ticks} -> wrapped:com.shop.StockServiceDown at {59 - ticks}" for who, ticks in (("basket", 13), ("session", 6), ("request", 2))],
    ),
    (["sweep", "customer"], ["sweep of customer at 114 stages 1", "customer-database sooner 102 -> value:17 at 12"]),
    (
        ["sweep", "audit"],
        ["sweep of audit at 124 stages 3"]
        + [f"{who} sooner {ticks} -> wrapped:com.shop.StockServiceDown at {124 - ticks}" for who, ticks in (("customer-database", 58), ("audit", 7), ("discount", 3))],
    ),
    (["sweep", "request"], ["sweep of request at 2 stages 1", "request sooner 2 -> value:4211 at 0"]),
    (["sweep", "zz"], ["refused 10 NoStage"]),
]
WHY = [
    "opened 1 at 0",
    *["path of reply at 117 stages 5", "reply at 117 queued 0 ran 0 after page", "page at 117 queued 0 ran 0 after discount", "discount at 117 queued 0 ran 3 after customer"],
    *["customer at 114 took over customer-database", "customer-database at 114 queued 14 ran 88 created 12"],
    *["sweep of reply at 117 stages 2", "customer-database sooner 58 -> wrapped:com.shop.StockServiceDown at 59", "discount sooner 3 -> wrapped:com.shop.StockServiceDown at 114"],
    *["committed 1", "committed 2", "changes of version 2 against 0 changed 9"],
    *["customer-database value:17 at 114 -> value:17 at 32", "customer value:17 at 114 -> value:17 at 32", "discount value:5497 at 117 -> value:5497 at 49"],
    *["stock-south wrapped:com.shop.StockServiceDown at 59 -> value:7 at 59", "stock wrapped:com.shop.StockServiceDown at 59 -> value:7 at 60"],
    *["delivery wrapped:com.shop.StockServiceDown at 59 -> value:2 at 64", "page wrapped:com.shop.StockServiceDown at 117 -> value:5499 at 72"],
    *["audit wrapped:com.shop.StockServiceDown at 124 -> value:5499 at 79", "reply wrapped:com.shop.StockServiceDown at 117 -> value:5499 at 73"],
    *["drift of version 2 against 0 moved 8", "customer-database earlier 82", "customer earlier 82", "discount earlier 68", "stock later 1", "delivery later 5"],
    *["page earlier 45", "audit earlier 45", "reply earlier 44", "sweep of reply at 73 stages 9"],
    *[
        f"{who} sooner {ticks} -> value:5499 at {73 - ticks}"
        for who, ticks in (("stock-north", 15), ("stock-south", 15), ("basket", 13), ("page", 8), ("session", 6), ("delivery", 4), ("request", 2), ("stock", 1), ("reply", 1))
    ],
]


def example(name):
    """What stands in an example."""
    with open(os.path.join(EXAMPLES, name), encoding="utf-8") as file:
        return file.read()


def report(what, **members):
    return step("report", what=what, **members)


def of_a(do, **members):
    return step(do, session=1, stage="a", **members)


LATER_A = of_a("setTakes", takes=20)
RECORDED = '{"form":2,"wrap":"computed","stages":['
RECORDED_B = '{"name":"b","op":"thenApply","sources":["a"],"runs":5,"action":["add",["arg",0],1]}'
ABOUT_B = [report("one", session=1, stage="b"), report("blame", session=1, stage="b"), report("path", session=1, stage="b")]

# Scripts about R: steps, and the answers; and the entries of the log where `many` answers them.
SCRIPTS = [
    (
        "reports of the version at which a session stands",
        [
            *[OPEN, report("all", session=1), LATER_A, report("all", session=1), report("changes", session=1), report("drift", session=1)],
            *[report("sweep", session=1, stage="b"), step("undo", session=1), report("times", session=1), *ABOUT_B, report("sweep", session=1, stage="b")],
            *[step("close", session=1), report("all", session=1), report("sweep", session=1, stage="zz")],
        ],
        lines("opened 1 at 0")
        + FIRST_RUN
        + lines("committed 1", "version 1 parent 0 mode computed stages 2", "a async rank 0 value:4 at 20", "b thenApply rank 1 value:5 at 25")
        + lines("changes of version 1 from 0 touched 2", "a value:4 at 10 -> value:4 at 20", "b value:5 at 15 -> value:5 at 25")
        + lines("drift of version 1 from 0 moved 2", "a later 10", "b later 10")
        + lines("sweep of b at 25 stages 2", "a sooner 20 -> value:5 at 5", "b sooner 5 -> value:5 at 20")
        + lines("undone 0", "times of version 0 stages 2", "a start 0 queued 0 runs 10", "b start 10 queued 0 runs 5")
        + EXPLAINED_B
        + SWEPT
        + lines("closed 1", "refused 51 NoSession", "refused 51 NoSession"),
        17,
    ),
    (
        "sweeps",
        [
            *[OPEN, *[report("sweep", version=0, stage=it) for it in ("a", "b", "zz")], report("sweep", version=1, stage="b"), report("sweep", version=9, stage="zz")],
            *[step("pinMoment", session=1, stage="b", at=3), report("sweep", version=1, stage="b"), report("sweep", version=1, stage="a")],
            *[step("add", session=1, new=stage("manual", "m")), report("sweep", version=2, stage="m"), report("sweep", version=1, stage="m")],
            *[step("remove", session=1, stage="b"), report("sweep", version=3, stage="b"), report("sweep", version=3, stage="a"), step("head", session=1)],
        ],
        lines("opened 1 at 0")
        + SWEPT_A
        + SWEPT
        + lines("refused 10 NoStage", "refused 52 NoVersion", "refused 52 NoVersion", "committed 1", "sweep of b at 3 stages 0")
        + SWEPT_A
        + lines("committed 2", "sweep of m pending stages 0", "refused 10 NoStage", "committed 3", "refused 10 NoStage")
        + SWEPT_A
        + lines("head 3"),
        8,
    ),
    (
        "a version against another one",
        [
            *[OPEN, LATER_A, step("add", session=1, new=stage("copy", "c", sources=["b"])), step("open", session=2, version=0)],
            *[report(what, version=2, against=it) for it in (0, 1) for what in ("changes", "drift")],
            *[report(what, version=0, against=it) for it in (2, 0) for what in ("changes", "drift")],
            *[report(what, session=it, against=1) for it in (1, 2) for what in ("changes", "drift")],
            *[report("changes", version=2), report("drift", version=2), report("changes", version=0)],
        ],
        lines("opened 1 at 0", "committed 1", "committed 2", "opened 2 at 0")
        + lines("changes of version 2 against 0 changed 3", "a value:4 at 10 -> value:4 at 20", "b value:5 at 15 -> value:5 at 25", "c absent -> value:5 at 25")
        + lines("drift of version 2 against 0 moved 2", "a later 10", "b later 10")
        + lines("changes of version 2 against 1 changed 1", "c absent -> value:5 at 25", "drift of version 2 against 1 moved 0")
        + lines("changes of version 0 against 2 changed 2", "a value:4 at 20 -> value:4 at 10", "b value:5 at 25 -> value:5 at 15")
        + lines("drift of version 0 against 2 moved 2", "a earlier 10", "b earlier 10")
        + lines("changes of version 0 against 0 changed 0", "drift of version 0 against 0 moved 0")
        + lines("changes of version 2 against 1 changed 1", "c absent -> value:5 at 25", "drift of version 2 against 1 moved 0")
        + lines("changes of version 0 against 1 changed 2", "a value:4 at 20 -> value:4 at 10", "b value:5 at 25 -> value:5 at 15")
        + lines("drift of version 0 against 1 moved 2", "a earlier 10", "b earlier 10")
        + lines("changes of version 2 from 1 touched 1", "c absent -> value:5 at 25", "drift of version 2 from 1 moved 0", "changes of version 0 from - touched 0"),
        10,
    ),
    (
        "a version as a recording",
        [
            *[report("recording", version=0), OPEN, of_a("setTimes", queued=3, runs=0), report("recording", session=1)],
            step("edits", session=1, edits=[{"do": "add", "new": stage("copy", "c", sources=["a"])}, {"do": "remove", "stage": "b"}, {"do": "pinMoment", "stage": "a", "at": 0}]),
            *[report("recording", version=2, stage=5, against=-1), report("recording", version=1), report("recording", session=2), report("recording", version=3)],
            *[step("edits", session=1, edits=[{"do": "remove", "stage": it} for it in "ca"]), report("recording", version=3)],
        ],
        lines("recording of version 0 lines 4", RECORDED, '{"name":"a","op":"async","runs":10,"action":4},', RECORDED_B, "]}")
        + lines("opened 1 at 0", "committed 1", "recording of version 1 lines 4", RECORDED, '{"name":"a","op":"async","queued":3,"action":4},', RECORDED_B, "]}")
        + lines("committed 2", "recording of version 2 lines 4", RECORDED, '{"name":"a","op":"async","queued":3,"action":4,"pinMoment":0},', '{"name":"c","op":"copy","sources":["a"]}', "]}")
        + lines("recording of version 1 lines 4", RECORDED, '{"name":"a","op":"async","queued":3,"action":4},', RECORDED_B, "]}")
        + lines("refused 51 NoSession", "refused 52 NoVersion", "committed 3", "recording of version 3 lines 2", RECORDED, "]}"),
        9,
    ),
    (
        "stages are compared by their names",
        [
            OPEN,
            step("edits", session=1, edits=[{"do": "add", "new": stage(*it)} for it in (("manual", "m"), ("manual", "n"))]),
            step("edits", session=1, edits=[{"do": "remove", "stage": "m"}, {"do": "pinMoment", "stage": "n", "at": 9}, {"do": "pinResult", "stage": "n", "result": {"value": 1}}]),
            step("edits", session=1, edits=[{"do": "remove", "stage": "b"}, {"do": "add", "new": stage("thenApply", "b", sources=["a"], takes=5, action=5)}]),
            *[report(what, version=3, against=it) for it in (1, 0) for what in ("changes", "drift")],
            step("add", session=1, new=stage("manual", "m", ends=[{"do": "complete", "at": 8, "value": None}])),
            report("changes", version=4, against=1),
            report("drift", version=4, against=1),
        ],
        lines("opened 1 at 0", "committed 1", "committed 2", "committed 3")
        + lines("changes of version 3 against 1 changed 1", "n pending -> value:1 at 9", "drift of version 3 against 1 moved 0")
        + lines("changes of version 3 against 0 changed 1", "n absent -> value:1 at 9", "drift of version 3 against 0 moved 0")
        + lines("committed 4", "changes of version 4 against 1 changed 2", "n pending -> value:1 at 9", "m pending -> value:null at 8", "drift of version 4 against 1 moved 0"),
        9,
    ),
    (
        "another blamed stage alone",
        [
            OPEN,
            step("edits", session=1, edits=[{"do": "add", "new": stage("failed", it, throws="X")} for it in "fg"] + [{"do": "add", "new": stage("copy", "k", sources=["f"])}]),
            step("rewire", session=1, stage="k", sources=["g"], inner=[]),
            report("changes", version=2, against=1),
            step("edits", session=1, edits=[{"do": "remove", "stage": "f"}, {"do": "add", "new": stage("failed", "f", throws="X")}, {"do": "rewire", "stage": "k", "sources": ["f"], "inner": []}]),
            report("changes", version=3, against=1),
            report("changes", session=1, against=2),
            report("drift", session=1, against=2),
        ],
        lines("opened 1 at 0", "committed 1", "committed 2", "changes of version 2 against 1 changed 1", "k wrapped:X at 0 -> wrapped:X at 0")
        + lines("committed 3", "changes of version 3 against 1 changed 0")
        + lines("changes of version 3 against 2 changed 1", "k wrapped:X at 0 -> wrapped:X at 0", "drift of version 3 against 2 moved 0"),
        9,
    ),
    (
        "refusals of reports",
        [
            *[OPEN, *[report("all", session=it) for it in (0, 2, 65535, 65536, 2**32 - 1)], report("sweep", session=2, stage="zz"), report("drift", session=2, against=9)],
            *[report("changes", version=0, against=1), report("drift", version=0, against=2**32 - 1), report("drift", version=1, against=0), report("drift", version=1, against=2)],
            *[report("changes", session=1, against=1), report("one", session=1, stage="zz"), report("sweep", session=1, stage="zz")],
        ],
        lines("opened 1 at 0", *["refused 51 NoSession"] * 7, *["refused 52 NoVersion"] * 5, "refused 10 NoStage", "refused 10 NoStage"),
        11,
    ),
    (
        "reports with a member missing or wrong",
        [
            *[report("all"), report("all", session=1, version=0), report("nonsense", session=1, version=0), step("report", session=1, version=0)],
            *[report("all", session=it) for it in (None, -1, "1", 1.0, 2**32)],
            *[report("all", session=None, version=0), report("all", session=1, version=None), report("all", session=-1, version=-1), report("all", version=None)],
            *[step("report", session=1), report("Sweep", session=1), report("sweep", session=1), report("sweep", version=0, stage=5), report("sweep", version=0, stage=None)],
            *[report(what, version=0, against=it) for what in ("changes", "drift") for it in (None, -1, "0", 0.0, 2**32, [0])],
            *[report("nonsense", version=0, against=-1), report("changes", version=9, against=-1), report("drift", session=1, against=-1), report("sweep", stage=5, against=-1)],
            '{"do":"report","version":0,"what":"all","session":1,"session":1}',
        ],
        lines(
            *[f"refused 71 Shape {it}" for it in ["version", *["session"] * 3, *["session"] * 5, *["session"] * 3, "version", "what", "what", "stage", "stage", "stage", *["against"] * 12]],
            *[f"refused 71 Shape {it}" for it in ("what", "against", "against", "version", "session")],
        ),
        0,
    ),
    (
        "members that a report doesn't read",
        [
            report("sweep", version=0, stage="a", against=-1, top=0),
            report("all", version=0, against="x", stage=5),
            '{"do":"report","version":9,"version":0,"what":"changes","against":9,"against":0}',
            report("drift", version=0, against=0, stage=5, base=-1),
        ],
        SWEPT_A + FIRST_RUN + lines("changes of version 0 against 0 changed 0", "drift of version 0 against 0 moved 0"),
        0,
    ),
]


def chain_swept(stages):
    """The sweep of the end of a chain: each stage's action takes one tick, and the first one's ten."""
    state = f"value:{3 + stages} at"
    return lines(f"sweep of s{stages - 1} at {9 + stages} stages {stages}", f"s0 sooner 10 -> {state} {stages - 1}", *[f"s{it} sooner 1 -> {state} {8 + stages}" for it in range(1, stages)])


def chain_explained(stages):
    last = stages - 1
    one = [f"s{last} thenApply rank {last} value:{4 + last} at {10 + last}", f"sources s{last - 1}", "inner -", "dependents -", f"join returns {4 + last}", "blame -"]
    path = [f"s{it} at {10 + it} queued 0 ran 1 after s{it - 1}" for it in range(last, 0, -1)]
    return lines(*one, f"path of s{last} at {10 + last} stages {stages}", *path, "s0 at 10 queued 0 ran 10 created 0")


LARGE = [
    ("explain of the end of a chain of 65,536 stages", ["explain", "large", "s65535"], lambda: chain_of(65_536), lambda: chain_explained(65_536)),
    ("sweep of the end of a chain of 512 stages", ["sweep", "large", "s511"], lambda: chain_of(512), lambda: chain_swept(512)),
    (
        "sweep of a stage of a fan of 4,096",
        ["sweep", "large", "s9"],
        lambda: chain_of(4096, 0),
        lines("sweep of s9 at 11 stages 2", "s0 sooner 10 -> value:5 at 1", "s9 sooner 1 -> value:5 at 10"),
    ),
]


def why_cases():
    made = [*COMMAND_LINES, *FILES]
    made += [Case(f"{what} of {name}", [what, "-", of], lines(*told), stdin=given) for name, what, given, of, told in TOLD]
    late, script = {"late": example("late-reply.json")}, example("late-reply-why.script")
    made += [
        Case(f"{what} of {of} of the late reply", [what, "late", of], lines(*told), int(told[0].startswith("refused")), files=late) for (what, of), told in LATE_REPLY
    ]
    made.append(Case("script of the late reply", ["serve", "late"], lines(*WHY), stdin=script, files=late))
    made.append(Case("many: script of the late reply", ["many", "late", "s"], lines("script 1", *WHY, "log 10"), files={"s": script, **late}))
    made += [Case(f"script: {name}", ["serve", "r.json"], wanted, stdin=lines(*steps)) for name, steps, wanted, _ in SCRIPTS]
    made += [
        Case(f"many: {name}", ["many", "r.json", "s"], lines("script 1") + wanted + lines(f"log {entries}"), files={"s": lines(*steps)}) for name, steps, wanted, entries in SCRIPTS
    ]
    made += [Case(name, words, wanted, files={"large": given}, seconds=60) for name, words, given, wanted in LARGE]
    return [with_r(Case(**{**vars(it), "name": f"why: {it.name}"})) for it in made]
