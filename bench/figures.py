"""Which figures the lines have that benchmarks print.

For each benchmark a list of forms. A form is a pattern of a whole line and the figures of such a line, each as (what, input or size, figure, unit). What a group of a
pattern has found stands in braces, also in the figures of later lines, so that a heading counts for the lines below it.
"""

import re

SHAPES = {"single": "finished runs of one job", "diamond": "diamonds of eight jobs", "groups": "in 50 groups, half with cancel-in-progress", "stuck": "runs that no runner fits",
          "reruns": "re-runs"}
N = r"[\d,.]+"  # a number

PLAY = [
    (r"(?P<shape>[a-z ,\d-]+):", []),
    (rf"N = (?P<runs>\d+): \d+ commands in {N} s, (?P<rate>\d+) a second, peak (?P<peak>\d+) KiB(?:, cost per command (?P<cost>{N}) times that before)?(?:, (?P<plain>{N}) times the plain program)?",
     [("commands a second of processor time: {shape}", "{runs} runs", "{rate}", ""), ("time of a plain fold in Rust: {shape}", "{runs} runs", "{plain}", "times"),
      ("a command beside one at a quarter of the runs: {shape}", "{runs} runs", "{cost}", "times"), ("peak of memory: {shape}", "{runs} runs", "{peak}", "KiB")]),
]

FORMS = {
    "bench/play": PLAY,
    "bench/fold/run.sh": PLAY,
    "bench/chain": [
        (r"each job needs the one (?P<order>before|after) it", []),
        (rf"(?P<jobs>\d+) jobs: (?P<cost>{N}) microseconds a job, .*", [("a job of 15,360 that are all skipped, each needs the one {order} it", "in chains of {jobs}", "{cost}", "microseconds")]),
    ],
    "bench/needs/run.sh": [
        (r"(?P<jobs>\d+) jobs, needs (?P<order>[\w ]+): (?P<building>\d+) us; (?P<bytes>\d+) bytes read by (?P<reader>[\w ]+) in (?P<reading>\d+) us: .*",
         [("the graph of {jobs} jobs, text of {bytes} bytes", "{order}", "{building}", "microseconds"), ("reading the text by {reader}", "{order}", "{reading}", "microseconds")]),
    ],
    "bench/matrix/run.sh": [
        (rf"(?P<name>[\w -]+) (?P<size>\d+): (?P<time>\d+) us.* peak (?P<peak>\d+), (?P<ratio>{N}) of both",
         [("expanding {name}", "{size}", "{time}", "microseconds"), ("peak of memory beside input and result, {name}", "{size}", "{ratio}", "times")]),
    ],
    "bench/templates/run.sh": [
        (rf"(?P<kind>\w+): (?P<short>\d+) bytes (?P<few>\d+) ns, (?P<long>\d+) bytes (?P<many>\d+) ns, ratio (?P<ratio>{N})",
         [("parsing {kind}", "{long} bytes", "{many}", "ns"), ("parsing {kind}, beside {short} bytes", "{long} bytes", "{ratio}", "times")]),
    ],
    "bench/check/run.sh": [
        (rf"(?P<name>[^:]+): (?P<whole>\d+) us against (?P<part>\d+) us \({N}\), input \d+ bytes, result \d+, peak \d+, (?P<peak>{N}) of both",
         [("{name}", "a check", "{whole}", "microseconds"), ("{name}", "the parts that any program needs", "{part}", "microseconds"), ("{name}", "peak beside input and result", "{peak}", "times")]),
        (r"(?P<legs>32 legs) of (?P<count>\d+) references, (?P<paths>\d+) paths: (?P<claim>\d+) us, (?P<each>\d+) ns a reference",
         [("a claim that looks at {legs} of {count} references, {paths} paths", "", "{claim}", "microseconds")]),
        (rf"(?P<runs>\d+) runs of (?P<jobs>\d+) jobs: a claim that gets none (?P<none>\d+) us, .*; claiming all (?P<all>\d+) us, .*",
         [("{runs} runs of {jobs} jobs: a claim that gets none", "", "{none}", "microseconds"), ("{runs} runs of {jobs} jobs: claiming all", "", "{all}", "microseconds")]),
    ],
    "bench/scale/run.sh": [
        (r"(?P<shape>single|diamond|groups|stuck|reruns)", []),
        (rf"(?P<size>\d+) \w+: (?P<bytes>\d+) bytes a run, its event's body (?P<body>\d+)", [("a run, in bytes", "{shape}", "{bytes}", ""), ("its event's body, in bytes", "{shape}", "{body}", "")]),
        (rf"(?P<command>[\w ]+): (?P<first>{N}) us \(1\.00\) {N} us \((?P<second>{N})\) {N} us \((?P<third>{N})\)", [("{command}", "{shape}", "{first}, {second}, {third}", "")]),
    ],
    "bench/scale/counted": [(r"(?P<kind>[\w-]+) (?P<size>[\d,]+): (?P<commands>.*)", [("{kind}: {command}", "{size}", "{count}", "instructions")])],
    "bench/scale/served": [(r"(?P<kind>[\w-]+) (?P<size>[\d,]+): (?P<commands>.*)", [("{kind}: {command}", "{size}", "{count}", "instructions")])],
    "bench/scale/forgets": [
        (rf"(?P<shape>[\w ]+), (?P<gone>{N}) forgotten, (?P<left>{N}) left: (?P<least>{N}) ms on the clock at least, (?P<half>{N}) in the median; {N} ms of a processor at least, {N} in the median",
         [("a forget of {gone} runs, {shape}: the least; the median", "{left}", "{least}; {half}", "ms")]),
    ],
    "bench/disk/run.sh": [
        (rf" *(?P<size>\d+) bytes, (?P<file>\w+): FileDisk (?P<ours>{N}) us, plain C (?P<c>{N}) us an append, ratio (?P<ratio>{N})",
         [("an append of {size} bytes with a sync, the file {file}", "acts", "{ours}", "microseconds"), ("an append of {size} bytes with a sync, the file {file}", "C", "{c}", "microseconds")]),
    ],
    "bench/journal/run.sh": [
        (rf"(?P<name>.*): (?P<ours>{N}) us, plain C (?P<c>{N}) us, ratio {N}", [("{name}", "acts", "{ours}", "microseconds"), ("{name}", "C", "{c}", "microseconds")]),
    ],
    "bench/commit/run.sh": [
        (rf" *(?P<count>\d+) a commit, file (?P<file>\w+): (?P<ours>{N}) us, plain C (?P<c>{N}) us, ratio (?P<ratio>{N}), the same bytes",
         [("a commit of {count} look-ups, file {file}", "acts", "{ours}", "microseconds"), ("a commit of {count} look-ups, file {file}", "C", "{c}", "microseconds")]),
    ],
    "bench/open/run.sh": [
        (r"(?P<form>records|text), (?P<shape>.*):", []),
        (rf"N = (?P<runs>\d+): opened in (?P<opened>{N}) ms, bodies in (?P<bodies>{N}) ms, ratio (?P<ratio>{N}).*",
         [("opening {runs} runs, {shape}, from {form}", "opening", "{opened}", "processor ms"), ("opening {runs} runs, {shape}, from {form}", "its bodies alone", "{bodies}", "processor ms")]),
        (rf"areas of (?P<size>\d+) MiB: opened in (?P<opened>{N}) ms, (?P<peak>{N}) MiB held at most",
         [("opening {shape}, from {form}", "{size} MiB", "{opened}", "ms"), ("memory held for {shape}, from {form}", "{size} MiB", "{peak}", "MiB")]),
    ],
    "bench/serve/run.sh": [
        (rf" *(?P<extra>\d+) us more a sync, +(?P<pairs>\d+) pairs: (?P<rate>\d+) lifecycles a second, {N} of one pair, (?P<plain>{N}) of the plain loop; .*; (?P<entries>{N}) entries a commit; "
         rf"99 of 100 answers within (?P<most>{N}) ms",
         [("lifecycles a second, {delay}", "{pairs}", "{rate}", ""), ("the same beside the loop in C, {delay}", "{pairs}", "{plain}", "times"), ("entries a commit, {delay}", "{pairs}", "{entries}", ""),
          ("99 of 100 answers within, {delay}", "{pairs}", "{most}", "ms")]),
    ],
    "bench/serve/seats.sh": [
        (rf" *(?P<extra>\d+) us more a sync, +(?P<sessions>\d+) sessions: (?P<rate>\d+) answers a second, {N} of one, (?P<entries>{N}) entries a commit, fewest of most (?P<part>{N})",
         [("answers a second, {delay}", "{sessions}", "{rate}", ""), ("entries a commit, {delay}", "{sessions}", "{entries}", ""),
          ("the slowest session beside the fastest, {delay}", "{sessions}", "{part}", "times")]),
    ],
    "bench/serve/beside": [
        (rf" *(?P<extra>\d+) us more a sync, +(?P<pairs>\d+) pairs: (?P<rate>\d+) lifecycles a second, the earlier program \d+, the loop in C \d+; (?P<earlier>{N}) \(.*?\) times the earlier program, "
         rf"(?P<bound>{N}) \(.*?\) of the loop; entries a commit (?P<entries>{N}), (?P<before>{N}), {N}; 99 of 100 answers within (?P<most>{N}), (?P<most_before>{N}), {N} ms",
         [("lifecycles a second, {delay}", "{pairs}", "{rate}", ""), ("the same beside the earlier program, {delay}", "{pairs}", "{earlier}", "times"),
          ("the same beside the loop in C, {delay}", "{pairs}", "{bound}", "times"), ("entries a commit, {delay}", "{pairs}", "{entries}", ""),
          ("entries a commit, {delay}, the earlier program", "{pairs}", "{before}", ""), ("99 of 100 answers within, {delay}", "{pairs}", "{most}", "ms"),
          ("99 of 100 answers within, {delay}, the earlier program", "{pairs}", "{most_before}", "ms")]),
    ],
    "bench/serve/forever": [
        (r" *(?P<pairs>\d+) pairs: (?P<once>\d+) lifecycles a second in a round .*?, (?P<on>\d+) in a service that goes on .*",
         [("lifecycles a second, in a round", "{pairs} pairs", "{once}", ""), ("lifecycles a second, in a service that goes on", "{pairs} pairs", "{on}", "")]),
        (r"(?P<pairs>100) pairs: (?P<on>\d+) lifecycles a second \(.*", [("lifecycles a second, in a service that goes on", "{pairs} pairs", "{on}", "")]),
        (r"32 pairs: the slowest answer takes (?P<before>\d+) ms in 16,384 commands, and (?P<after>\d+) ms in 53,248 .*",
         [("the slowest answer, 32 pairs, in 16,384 commands", "", "{before}", "ms"), ("the slowest answer while a history turns over, 32 pairs", "", "{after}", "ms")]),
        (rf"idle, (?P<clients>\d+) clients connected: (?P<used>{N}) s of a processor in (?P<seconds>{N}) s, .*", [("idle, {clients} clients connected, in 10 s", "", "{used}", "s of a processor")]),
        (rf"one of (?P<clients>\d+) that speaks is answered within (?P<half>{N}) ms in half of \d+ times, (?P<nearly>{N}) in 99 of 100, .*",
         [("one of {clients} that speaks is answered within, half; 99 of 100", "", "{half}; {nearly}", "ms")]),
    ],
    "bench/serve/counted": [
        (rf"(?P<runs>\d+) finished runs: a round without a request (?P<empty>{N}) instructions; its first look-up (?P<look>{N}), a second one {N}, an admission (?P<admission>{N})",
         [("a round in which nothing is asked", "{runs} finished runs", "{empty}", "instructions"), ("its first look-up", "{runs} finished runs", "{look}", "instructions"),
          ("an admission", "{runs} finished runs", "{admission}", "instructions")]),
        (rf"a lifecycle: (?P<count>{N}) instructions", [("a lifecycle", "", "{count}", "instructions")]),
        (rf"a lifecycle: (?P<count>{N}) allocations, .*", [("a lifecycle", "", "{count}", "allocations")]),
        (rf" *(?P<extra>\d+) us more a sync, +(?P<pairs>\d+) pairs: (?P<futex>{N}) calls of futex and (?P<switches>{N}) switches a lifecycle, .*",
         [("a lifecycle, {pairs} pairs, {delay}", "", "{futex}", "calls of `futex`"), ("a lifecycle, {pairs} pairs, {delay}", "", "{switches}", "switches")]),
    ],
    "bench/lifecycle": [
        (rf"(?P<what>.*): (?P<count>{N}) {unit}(?:; the earlier program (?P<before>{N}); (?P<ratio>{N}) times)?",
         [("{what}", "acts", "{count}", unit), ("{what}", "the earlier program", "{before}", unit), ("{what}", "times", "{ratio}", unit)])
        for unit in ("instructions", "blocks", "KiB")
    ],
    "bench/pieces/run.sh": [
        (rf"(?P<what>\w+), pieces of (?P<size>\d+): (?P<count>\d+)(?: \((?P<each>\d+)\))?",
         [("{what} in pieces of {size} bytes", "acts", "{count}", "instructions"), ("{what} in pieces of {size} bytes, each further piece", "acts", "{each}", "instructions")]),
    ],
    "bench/sessions/run.sh": [
        (rf"a request: (?P<ours>\d+) ns, plain C (?P<c>\d+) ns, ratio {N}, the same bytes",
         [("a request `GET /runs/1` of a session of 64, over a fake", "acts", "{ours}", "ns"), ("a request `GET /runs/1` of a session of 64, over a fake", "C", "{c}", "ns")]),
    ],
    "bench/views/served": [
        (rf" *(?P<runs>\d+) runs, (?P<view>\S+): half within (?P<half>\d+) microseconds, 99 of 100 within (?P<nearly>\d+), (?P<cost>\d+) of a processor",
         [("half within: `{view}`", "{runs} finished runs", "{half}", "microseconds"), ("99 of 100 within: `{view}`", "{runs} finished runs", "{nearly}", "microseconds")]),
        (r"(?P<pairs>\d+) pairs, (?P<given>[^:]+): (?P<rate>\d+) lifecycles a second .*", [("without views, {given}", "{pairs} pairs", "{rate}", "lifecycles a second")]),
        (rf"  beside \d+ of (?P<view>\S+) a second: \d+ .*, (?P<part>{N}) of it", [("beside 1,000 of `{view}` a second, {given}", "{pairs} pairs", "{part}", "of the lifecycles")]),
        (rf"(?P<readers>\d+) readers wait for changes: (?P<used>{N}) s of a processor in 30 s, (?P<wakes>\d+) wake-ups",
         [("idle, in 30 s", "{readers} readers", "{used}", "s of a processor"), ("idle, in 30 s", "{readers} readers", "{wakes}", "wake-ups")]),
        (r"one event: all (?P<readers>\d+) readers have it within (?P<time>\d+) ms", [("one event reaches all within", "{readers} readers", "{time}", "ms")]),
    ],
    "bench/checkpoint/served": [
        (r"area \d+: half within (?P<half>\d+) us, 99 of 100 within (?P<nearly>\d+) us, all within \d+ us; (?P<count>\d+) checkpoints",
         [("half of the look-ups within, beside {count} checkpoints", "", "{half}", "microseconds"), ("99 of 100 within, beside {count} checkpoints", "", "{nearly}", "microseconds")]),
        (r"a checkpoint took (?P<more>\d+) bytes, its text has (?P<text>\d+)", [("a checkpoint, beyond its text of {text} bytes", "", "{more}", "bytes")]),
    ],
    "bench/engine": [
        (rf"(?P<place>[\w ]+): a sync of 200 bytes (?P<sync>{N}) ms; lifecycles a second (?P<one>\d+) at 1, (?P<eight>\d+) at 8, (?P<more>\d+) at 32, (?P<most>\d+) at 200 pairs; "
         rf"the first answer (?P<answer>{N}) s .*",
         [("lifecycles a second at 1 pair", "{place}", "{one}", ""), ("lifecycles a second at 8 pairs", "{place}", "{eight}", ""), ("lifecycles a second at 32 pairs", "{place}", "{more}", ""),
          ("lifecycles a second at 200 pairs", "{place}", "{most}", ""), ("a sync of 200 bytes", "{place}", "{sync}", "ms"),
          ("the first answer after a crash, with 4,096 commands since the last checkpoint", "{place}", "{answer}", "s")]),
    ],
    "bench/gate": [
        (r"\| (?P<crate>`\w+`|the whole) \|.*\| (?P<minutes>[\d.]+) \|", [("{crate}", "{machine}", "{minutes}", "processor minutes")]),
    ],
}


def grouped(digits):
    """A whole number with commas."""
    return f"{int(digits):,}" if re.fullmatch(r"\d{4,}", digits) else digits


def seen_in(match, before):
    """What a line says, with what the lines before it said."""
    seen = {**before, **{name: text for name, text in match.groupdict().items()}}
    seen["delay"] = "no delay" if seen.get("extra") == "0" else "1 ms more a sync"
    if seen.get("shape") in SHAPES:
        seen["shape"] = SHAPES[seen["shape"]]
    return seen


def one_by_one(seen):
    """Of a line that names several commands, what each of them took."""
    listed = re.findall(r"([\w-][\w -]*?) ([\d,]+) \([\d.]+\)", seen.get("commands") or "")
    return [{**seen, "command": command, "count": count} for command, count in listed] or [seen]


def figures_in(benchmark, lines, machine=""):
    """The figures of what a benchmark printed on a machine."""
    seen, found = {"machine": machine}, []
    for line in lines:
        for pattern, figures in FORMS[benchmark]:
            match = re.fullmatch(pattern, line)
            if not match:
                continue
            seen = seen_in(match, seen)
            for each in one_by_one(seen) if "commands" in match.groupdict() else [seen]:
                for what, at, figure, unit in figures:
                    if any(each.get(name) is None for name in re.findall(r"\{(\w+)\}", figure)):
                        continue
                    filled = [re.sub(r"\{(\w+)\}", lambda it: grouped(each[it[1]]), text) for text in (what, at, figure)]
                    found.append({"benchmark": benchmark, "what": filled[0].strip(), "at": filled[1], "figure": filled[2], "unit": unit})
            break
    return found
