"""What a changed line costs: the crates that are proved anew, their minutes, and the clock. `tools/crates` prints it.

Seconds are those of docs/GATE_COSTS.md. A crate is proved once all crates below it are. Of several the one with the
longest way above it is the first. Its mutants are tried behind it.
"""
import heapq
import pathlib
import re
import textwrap

PAGE = pathlib.Path(__file__).resolve().parent.parent / 'docs' / 'GATE_COSTS.md'
ROW = re.compile(r'\| `(\w+)` \| (\d+) \| (?:(\d+) \(\d+\))? \|')
# What is shown where no crate is named: the low crates, and those in which most is proved.
SHOWN = """mysql_const mysql_bytes mysql_queries mysql_literals mysql_wire mysql_cells mysql_values mysql_receive
    mysql_executions mysql_connection_rules mysql_connection_state mysql_connection_machine""".split()
PROCESSORS = 2, 4


def seconds():
    """The seconds of each crate: of its proof, and of its mutants."""
    rows = (ROW.match(line) for line in PAGE.read_text().split('\n'))
    return {row[1]: (int(row[2]), int(row[3] or 0)) for row in rows if row}


def all_below(uses):
    """All crates below each crate."""
    found = {}

    def below(name):
        if name not in found:
            found[name] = {it for use in uses[name] for it in (use, *below(use))}
        return found[name]

    return {name: below(name) for name in uses}


def ways(tasks):
    """Of each task the seconds of the longest way that begins with it. A task is what it waits for, and its seconds."""
    above, found = {key: [] for key in tasks}, {}
    for key, (waits, _) in tasks.items():
        for it in waits:
            above[it].append(key)

    def way(key):
        if key not in found:
            found[key] = tasks[key][1] + max(map(way, above[key]), default=0)
        return found[key]

    return {key: way(key) for key in tasks}


def clock(tasks, processors):
    """The seconds by the clock of some tasks."""
    behind = ways(tasks)
    waiting = sorted(tasks, key=lambda key: (-behind[key], key))
    now, running, done = 0, [], set()
    while waiting or running:
        for key in [it for it in waiting if done.issuperset(tasks[it][0])][:processors - len(running)]:
            waiting.remove(key)
            heapq.heappush(running, (now + tasks[key][1], key))
        now, key = heapq.heappop(running)
        done.add(key)
    return now


def row(crate, below, costs):
    """A row of the table: what a line in a crate costs."""
    anew = {name for name in below if name == crate or crate in below[name]}
    tasks = {}
    for name in anew:
        proof, edits = costs.get(name, (0, 0))
        tasks[name, 'proof'] = ([(it, 'proof') for it in below[name] & anew], proof)
        tasks[name, 'edits'] = ([(name, 'proof')], edits)
    taken = [sum(cost for _, cost in tasks.values()), *(clock(tasks, it) for it in PROCESSORS)]
    return f'| `{crate}` | {len(anew)} | ' + ' | '.join(f'{it / 60:.0f}' for it in taken) + ' |\n'


def table(uses, crates=()):
    """The table, of the crates that are proved, each with those of them that it lists."""
    below, costs = all_below(uses), seconds()
    lines = ['| a line in | crates proved anew | minutes of processor time | by the clock of two processors | of four |\n',
             '|---|---|---|---|---|\n', *(row(it, below, costs) for it in crates or SHOWN)]
    unknown = sorted(set(uses) - set(costs))
    if unknown:
        names = ', '.join(f'`{it}`' for it in unknown)
        lines.append('\n' + textwrap.fill(f'No row yet: {names}.', 100) + '\n')
    return ''.join(lines)
