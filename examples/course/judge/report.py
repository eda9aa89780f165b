"""What the tests came to, as text."""
import textwrap
from typing import List

from verdict import Result, Verdict
from where import debugger, shown

INDENT, WIDTH = " " * 8, 110


def lines_of(result: Result) -> List[str]:
    """A line of the points, and below it what is wrong and what to ask."""
    lines = [f"{'ok  ' if result.fault is None else 'FAIL'} {result.points} of {result.test.points}  "
             f"{result.test.name}"]
    if result.fault is None:
        return lines
    for line in result.fault.sentence.splitlines():
        lines += textwrap.wrap(line, WIDTH, initial_indent=INDENT, subsequent_indent=INDENT) or [""]
    if result.printed:
        lines += [f"{INDENT}the driver printed:", *(f"{INDENT}  | {line}" for line in result.printed)]
    if result.kept and result.fault.questions:
        lines.append(f"{INDENT}ask: {debugger()} {shown(result.kept)}")
        lines += [f"{INDENT}     (em) {question}" for question in result.fault.questions]
    return lines


def report(verdict: Verdict, files: List[str]) -> str:
    """All of a lab. What was told once is not told again."""
    lines = [f"lab {verdict.lab}, {verdict.language}: {', '.join(files)}"]
    told: set = set()
    for result in verdict.results:
        sentence = result.fault.sentence if result.fault else ""
        if sentence and sentence in told:
            lines += [f"FAIL 0 of {result.test.points}  {result.test.name}", f"{INDENT}as above"]
            continue
        told.add(sentence)
        lines += lines_of(result)
    lines.append(f"{verdict.points} of {verdict.most} points")
    return "\n".join(lines)
