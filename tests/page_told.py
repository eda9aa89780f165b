"""Reasons and warnings: beside their step, in the legend, in the picture of the whole run, and by search."""
from pathlib import Path

import recorded
from page_find import SEEK
from page_tools import page_of
from tally import Tally

REASON = "RCTL.EN is clear"
WARNING = "enabled-before-ring: RCTL.EN is set while RDLEN is 0, set up the ring first"
TURNED = "the ring is empty \u202e(RDH = RDT = 3)"
# what stands beside each step: its answer, and its warnings
BESIDE = """
return arguments[0].map((step) => {
  const slider = document.getElementById('slider');
  slider.value = String(step);
  slider.dispatchEvent(new Event('input'));
  return [document.querySelector('#present .answer')?.textContent ?? '',
    [...document.querySelectorAll('#present .warned')].map((one) => one.textContent.replace('\\uFE0E', ''))];
});
"""
LEGEND = "return [...document.querySelectorAll('#kinds button')].map((one) => [one.dataset.find, one.textContent])"


def record() -> bytes:
    """An idle step, a write with two warnings, a read that differs and has one too, an idle step with a mark in its reason."""
    made = recorded.record("rx\nw 100 2\nr 8\nrx\ntx\n")
    first, second, third, fourth, _ = made["lines"]
    first["why"], fourth["why"] = REASON, TURNED
    second["warnings"] = [WARNING, WARNING.replace("RCTL", "TCTL")]
    third |= {"warnings": [WARNING], "expected": "1", "differs": "differs: 1 wanted"}
    return recorded.written(made)


def check_told(tally: Tally, browser, room: Path) -> None:
    page = room / "told.html"
    page.write_bytes(page_of(record()))
    browser.open(page)
    shown = browser.run(BESIDE, [1, 2, 3, 4, 5])
    wanted = [[f"→ idle: {REASON}", []], ["→ ⚠\ufe0e ok", [f"⚠ {WARNING}", f"⚠ {WARNING.replace('RCTL', 'TCTL')}"]],
              ["→ ≠ 00000081", [f"⚠ {WARNING}"]], ["→ idle: the ring is empty ⟨U+202E⟩(RDH = RDT = 3)", []], ["→ idle", []]]
    tally.check("reasons and warnings beside a step", [f"{one}, and not {other}" for one, other in zip(shown, wanted) if one != other])
    legend = browser.run(LEGEND)
    tally.check("warnings in the legend", [] if ["is:warning", "warning (2)"] in legend and len(legend) == 2 else [f"{legend}"])
    for text, steps in (("is:warning", [2, 3]), ("is:differs", [3]), ("reason:clear", [1]), ("reason:RING", [4]),
                        ('reason:"is empty"', [4]), ("reason:ok", []), ("enabled-before", [2, 3]), ("kind:rx reason:e", [1, 4])):
        found = [step for step, _, count in browser.run(SEEK, text, 10) if "of" in count]
        tally.check(f"{text} finds", [] if found == steps else [f"{found}, and not {steps}"])
    tally.check("reasons and warnings, the console", browser.told())
