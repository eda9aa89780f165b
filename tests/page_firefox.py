"""A short part of what tests/page tries, in Firefox: states, questions, links, two runs and their keys, times.

What has the focus is not tried: without a window Firefox does not show it, nor takes Enter on a button."""
from pathlib import Path

import firefox
from page_links import bad_links, history, questions
from page_states import check_states
from page_times import without
from page_tools import TOP, scripts_at_random
from page_two import edits, machines
from tally import Tally

EXAMPLE = TOP / "examples" / "broken-ring.em"


def check_firefox(tally: Tally, room: Path) -> None:
    if not firefox.find():
        print("there is no Firefox here, and it can't be installed: the page was not tried in it")
        return
    try:
        browser = firefox.Firefox()
    except (OSError, RuntimeError) as fault:
        print(f"Firefox does not begin here ({fault}): the page was not tried in it")
        return
    try:
        check_states(tally, browser, room, [(EXAMPLE.name, EXAMPLE.read_text("latin-1")), scripts_at_random(3)[0]])
        for part in (questions, bad_links, history, edits, machines, without):
            part(tally, browser, room)
        tally.check("Firefox, the console", browser.told())
    except RuntimeError as fault:
        tally.check("Firefox", [f"a script in the page failed: {fault}"])
    except OSError as fault:
        # (a host that has no memory or no time for it ends it; a page that it can't show fails a check)
        print(f"Firefox does not answer any more ({fault}): what follows was not tried in it")
    finally:
        browser.close()
