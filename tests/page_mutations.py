#!/usr/bin/env python3
"""Records that are mutated, ten thousand or as many as are asked for, read by the page's own reader in a browser.

    tests/page_mutations.py PROGRAM [MUTATIONS]        tries them alone; PROGRAM is em_record
"""
import json
import re
import sys
import tempfile
from pathlib import Path

import webdriver
from page_tools import EXAMPLES, record_of
from tally import TOP, Tally

MUTATIONS, AT_ONCE = 10_000, 500
NAMES = ("ring.em", "transmit.em", "broken-ring.em", "reset.em")
# what is put into a record: marks of JSON, digits, and what numbers and texts may not be
PUT = [*'0-"}{[],:<', "null,", "1e9", "\\u0000", "9007199254740993", "\n", "\r", "\x00", "\xff"]
# Makes so many mutations by numbers that follow a seed, and reads each: how many were read whole, and what is wrong.
READS = """
const [text, seed, count, put] = arguments;
const octets = Uint8Array.from(text, (letter) => letter.charCodeAt(0));
const begin = text.indexOf('{"line":');
let state = seed;
const below = (most) => {
  state = (Math.imul(state, 1664525) + 1013904223) >>> 0;
  return Math.floor(state / 2 ** 32 * most);
};
const mutated = () => {
  let made = octets;
  for (let left = 1 + below(3); left > 0; left--) {
    const at = below(10) < 8 ? begin + below(made.length - begin) : below(made.length), how = below(10);
    const more = how < 5 ? [below(256)] : how < 8 ? Array.from(put[below(put.length)], (one) => one.charCodeAt(0)) : [];
    const gone = how < 5 ? 1 : how < 8 ? 0 : 1 + below(8);
    made = Uint8Array.from([...made.subarray(0, at), ...more, ...made.subarray(at + gone)]);
  }
  return made;
};
const wrong = [], same = [];
let whole = 0;
for (let number = 0; number < count; number++) {
  const made = mutated();
  try {
    const { run, fault } = window.readRecord([made]);
    if (fault === null) {
      whole += 1;
      if (!run || !run.ended) wrong.push(`mutation ${number} of ${seed} is neither read nor broken`);
      if (whole % 97 === 0) same.push(String.fromCharCode(...made));
    } else if (!/^\\S.*\\S$/s.test(fault)) {
      wrong.push(`mutation ${number} of ${seed} is broken by ${JSON.stringify(fault)}`);
    }
  } catch (fault) {
    wrong.push(`mutation ${number} of ${seed}: ${fault.stack}`);
  }
}
return { whole, wrong: wrong.slice(0, 5), same };
"""


def page_of_readers(room: Path) -> Path:
    """A page that has the scripts of em_page but the last, which shows a run."""
    named = re.search(r"^parts=\(([^)]*)\)", (TOP / "em_page").read_text(), re.M)[1].split()
    parts = "".join((TOP / "page" / f"{name}.js").read_text() for name in named if name != "main")
    page = room / "readers.html"
    page.write_text(f'<!doctype html><meta charset="utf-8"><script>"use strict";{parts}window.readRecord = readRecord;</script>')
    return page


def ends_as_it_says(record: bytes) -> bool:
    """Whether a record that the page reads whole is one to a plain reading, too: JSON in each line, and an end that counts."""
    lines = [json.loads(line) for line in record.decode("utf-8", "replace").split("\n") if line.strip()]
    end = lines[-1]["end"]
    return end["lines"] == sum("line" in line for line in lines)


def check_mutations(tally: Tally, browser, room: Path, mutations: int = MUTATIONS) -> None:
    """Each mutation is read whole, or called broken in words; none ends the reader in another way."""
    browser.open(page_of_readers(room))
    records = [record_of(path.read_bytes()).decode("latin-1") for path in EXAMPLES if path.name in NAMES]
    whole = 0
    for number in range(mutations // AT_ONCE):
        read = browser.run(READS, records[number % len(records)], 82540 + number, AT_ONCE, PUT)
        faults = read["wrong"] + [f"{text[:300]!r} is read whole" for text in read["same"]
                                  if not ends_as_it_says(text.encode("latin-1"))]
        whole += read["whole"]
        tally.check(f"mutations from {82540 + number} on", faults)
    print(f"of {mutations:,} mutations of records {whole:,} are read whole, the others are called broken")
    tally.check("mutations that are read whole", [] if 0 < whole < mutations // 2 else [f"{whole} are"])


def main() -> int:
    if not webdriver.install():
        sys.exit("there is no chromium with chromedriver here")
    tally, browser = Tally(), webdriver.Browser()
    with tempfile.TemporaryDirectory() as folder:
        check_mutations(tally, browser, Path(folder), int(sys.argv[2]) if sys.argv[2:] else MUTATIONS)
    browser.close()
    return tally.close()


if __name__ == "__main__":
    sys.exit(main())
