"""The debug adapter: a client of ours, which holds each message to the protocol, and Emacs' dap-mode where it is there."""
import json
import os
import shutil
import signal
import subprocess
import sys
import tempfile
import unittest
from pathlib import Path

from bunjelav import Machine, dap

HERE = Path(__file__).resolve().parent
TOP = HERE.parent.parent
ELPA = Path("/usr/share/emacs/site-lisp/elpa")
RING = TOP / "examples" / "broken" / "ring.em"
SECONDS = 200
# what the protocol wants of each message, and of which type it is; a list's elements are of the type behind it
TYPES = {
    "Source": {"name": (str, False), "path": (str, False), "sourceReference": (int, False)},
    "StackFrame": {"id": (int, True), "name": (str, True), "line": (int, True), "column": (int, True), "source": ("Source", False)},
    "Scope": {"name": (str, True), "variablesReference": (int, True), "expensive": (bool, True)},
    "Variable": {"name": (str, True), "value": (str, True), "variablesReference": (int, True)},
    "Breakpoint": {"verified": (bool, True), "line": (int, False)},
    "Thread": {"id": (int, True), "name": (str, True)},
    "GotoTarget": {"id": (int, True), "label": (str, True), "line": (int, True)},
    "Filter": {"filter": (str, True), "label": (str, True), "default": (bool, False)},
    "Error": {"id": (int, True), "format": (str, True)},
    "initialize": {**{name: (bool, False) for name in dap.ABLE if name.startswith("supports")},
                   "exceptionBreakpointFilters": (["Filter"], False)},
    "setBreakpoints": {"breakpoints": (["Breakpoint"], True)},
    "threads": {"threads": (["Thread"], True)},
    "stackTrace": {"stackFrames": (["StackFrame"], True), "totalFrames": (int, False)},
    "scopes": {"scopes": (["Scope"], True)},
    "variables": {"variables": (["Variable"], True)},
    "evaluate": {"result": (str, True), "variablesReference": (int, True)},
    "gotoTargets": {"targets": (["GotoTarget"], True)},
    "continue": {"allThreadsContinued": (bool, False)},
    "source": {"content": (str, True)},
    "exceptionInfo": {"exceptionId": (str, True), "breakMode": (str, True)},
    "failed": {"error": ("Error", False)},
    "stopped": {"reason": (str, True), "threadId": (int, False), "allThreadsStopped": (bool, False), "text": (str, False)},
    "output": {"output": (str, True), "category": (str, False)},
    "initialized": {}, "terminated": {},
}
EMPTY = {"launch", "configurationDone", "disconnect", "terminate", "setExceptionBreakpoints", "next", "stepIn", "stepOut", "stepBack",
         "reverseContinue", "goto"}


def hold(body: dict, name: str) -> None:
    """A body has the fields of its type, each of its type, and no others."""
    fields = TYPES[name]
    assert {*body} <= {*fields}, f"{name} has {sorted({*body} - {*fields})}"
    for field, (kind, is_needed) in fields.items():
        assert field in body or not is_needed, f"{name} lacks {field}"
        for one in (body.get(field, []) if isinstance(kind, list) else [body[field]] if field in body else []):
            of = kind[0] if isinstance(kind, list) else kind
            if isinstance(of, str):
                hold(one, of)
            else:
                assert type(one) is of, f"{name}.{field} is {one!r}"


class Client:
    """A client that sends requests one after another, and takes what comes."""

    def __init__(self, *words) -> None:
        self.process = subprocess.Popen([*(words or (sys.executable, "-m", "bunjelav.dap"))], stdin=subprocess.PIPE,
                                        stdout=subprocess.PIPE)
        self.sent, self.came, self.events = 0, 0, []

    def ask(self, command: str, **given) -> dict:
        """The body of the response; an assertion where it is refused."""
        answer = self.response(command, given)
        assert answer["success"], answer["message"]
        hold(answer["body"], command) if command not in EMPTY else self.none(answer["body"])
        return answer["body"]

    def refused(self, command: str, **given) -> str:
        answer = self.response(command, given)
        assert not answer["success"], answer
        hold(answer["body"], "failed")
        return answer["message"]

    def none(self, body: dict) -> None:
        assert body == {}, body

    def response(self, command: str, given: dict) -> dict:
        self.sent += 1
        octets = json.dumps({"seq": self.sent, "type": "request", "command": command, "arguments": given}).encode()
        self.process.stdin.write(b"Content-Length: %d\r\n\r\n%b" % (len(octets), octets))
        self.process.stdin.flush()
        while (message := self.take())["type"] == "event":
            self.events.append(message)
        assert (message["type"], message["request_seq"], message["command"]) == ("response", self.sent, command), message
        return message

    def take(self) -> dict:
        head = self.process.stdout.readline()
        assert head.startswith(b"Content-Length: ") and self.process.stdout.readline() == b"\r\n", head
        message = json.loads(self.process.stdout.read(int(head.split()[1])))
        self.came += 1
        assert message["seq"] == self.came, message
        if message["type"] == "event":
            hold(message["body"], message["event"])
        return message

    def stopped(self) -> dict:
        """Where it stops next: why, and the top frame."""
        while not (found := [it for it in self.events if it["event"] == "stopped"]):
            message = self.take()
            assert message["type"] == "event", message
            self.events.append(message)
        self.events.clear()
        return found[-1]["body"]

    def at(self) -> tuple:
        frames = self.ask("stackTrace", threadId=1)["stackFrames"]
        return frames[-1]["line"], frames[0]["name"]

    def launch(self, script: Path, **more) -> "Client":
        self.ask("initialize", adapterID="bunjelav", linesStartAt1=True)
        self.ask("launch", program=str(script), **more)
        assert self.take()["event"] == "initialized"
        return self

    def close(self) -> int:
        self.process.stdin.close()
        self.process.stdout.close()
        return self.process.wait(10)


class Adapter(unittest.TestCase):
    def setUp(self):
        self.folder = tempfile.TemporaryDirectory()
        self.room, self.client = Path(self.folder.name), Client()

    def tearDown(self):
        self.client.close()
        self.folder.cleanup()

    def test_there_and_back_by_lines(self):
        c = self.client.launch(RING)
        found = c.ask("setBreakpoints", source={"path": str(RING)}, breakpoints=[{"line": 11}, {"line": 18}, {"line": 99}])
        self.assertEqual(found["breakpoints"], [{"verified": True, "line": 12}, {"verified": True, "line": 18},
                                                {"verified": False, "line": 99}])
        c.ask("configurationDone")
        self.assertEqual(c.stopped()["reason"], "entry")
        self.assertEqual(c.at(), (3, "before line 3, event 0"))
        for command, line, name in (
            ("next", 4, "before line 4, event 1"), ("stepIn", 5, "before line 5, event 2"), ("continue", 12, "before line 12, event 8"),
            ("continue", 18, "before line 18, event 13"), ("stepBack", 17, "before line 17, event 12"),
            ("next", 18, "before line 18, event 13"), ("stepOut", 19, "before line 19, event 14"), ("next", 19, "behind line 19, event 14"),
            ("next", 19, "behind line 19, event 14"), ("reverseContinue", 18, "before line 18, event 13"),
            ("reverseContinue", 12, "before line 12, event 8"), ("reverseContinue", 3, "before line 3, event 0"),
            ("reverseContinue", 3, "before line 3, event 0"), ("stepBack", 3, "before line 3, event 0"),
            ("continue", 12, "before line 12, event 8"),
        ):
            c.ask(command, threadId=1)
            c.stopped()
            self.assertEqual(c.at(), (line, name), command)
        target, = c.ask("gotoTargets", source={"path": str(RING)}, line=17)["targets"]
        c.ask("goto", threadId=1, targetId=target["id"])
        self.assertEqual((c.stopped()["reason"], c.at()[0]), ("goto", 17))
        c.ask("disconnect")

    def test_what_is_shown(self):
        c = self.client.launch(RING, stopOnEntry=False)
        c.ask("setExceptionBreakpoints", filters=[])
        c.ask("configurationDone")
        self.assertEqual(c.stopped()["text"], "the end of the run")
        self.assertEqual(c.ask("threads")["threads"], [{"id": 1, "name": "ring.em"}])
        scopes = {it["name"]: it["variablesReference"] for it in c.ask("scopes", frameId=2)["scopes"]}
        shown = {it["name"]: it for it in c.ask("variables", variablesReference=scopes["Registers"])["variables"]}
        self.assertEqual(shown["RCTL"]["value"], "00008002 EN BAM BSIZE=2048")
        bits = {it["name"]: it["value"] for it in c.ask("variables", variablesReference=shown["RCTL"]["variablesReference"])["variables"]}
        self.assertEqual((bits["EN"], bits["BAM"], bits["UPE"]), ("1", "1", "0"))
        ring = c.ask("variables", variablesReference=scopes["Receive ring"])["variables"]
        self.assertEqual(len(ring), 9)
        self.assertIn("its buffer lies outside memory", ring[3]["value"])
        self.assertEqual(len(c.ask("variables", variablesReference=scopes["Transmit ring"])["variables"]), 1)
        self.assertTrue(c.ask("variables", variablesReference=scopes["Frames that wait"])["variables"])
        line, = (it["value"] for it in c.ask("variables", variablesReference=scopes["Interrupt"])["variables"] if it["name"] == "line")
        self.assertEqual(line, "0")
        self.assertEqual(c.ask("evaluate", expression="who 1020 8")["result"].splitlines()[0], "line 18, event 14: rx: wrote 1")
        self.assertEqual(c.ask("evaluate", expression="rctl", context="hover")["result"], "RCTL 00008002 EN BAM BSIZE=2048")
        # nothing of that was a line of the session
        self.assertEqual(c.at(), (19, "behind line 19, event 14"))

    def test_what_is_typed(self):
        c = self.client.launch(RING, stopOnEntry=False)
        c.ask("configurationDone")
        c.stopped()
        c.ask("evaluate", expression="goto 10")
        self.assertEqual((c.stopped()["reason"], c.at()), ("goto", (15, "before line 15, event 10")))
        self.assertIn("ok", c.ask("evaluate", expression="poke 1010 0038000000000000")["result"])
        c.stopped()
        frame = c.ask("stackTrace", threadId=1)["stackFrames"][0]
        self.assertEqual((frame["line"], frame["source"]["name"]), (14, "session.em"))
        text = c.ask("source", sourceReference=frame["source"]["sourceReference"])["content"]
        self.assertEqual((text.splitlines()[13], len(text.splitlines())), ("poke 1010 0038000000000000", 14))
        self.assertIn("no command foo", c.refused("evaluate", expression="foo"))
        self.assertEqual(c.at()[0], 14)

    def test_exceptions(self):
        for filters, line, text in ((["refused"], 19, "An event is refused"), (["dropped"], 19, "the end of the run"),
                                    (["dropped", "refused", "differs"], 19, "An event is refused")):
            c = Client().launch(RING)
            c.ask("setExceptionBreakpoints", filters=filters)
            c.ask("configurationDone")
            c.stopped()
            c.ask("continue", threadId=1)
            self.assertEqual(c.stopped()["text"], text)
            self.assertEqual(c.at()[0], line)
            self.assertEqual(c.close(), 0)
        script = TOP / "examples" / "broken" / "tail-too-early.em"
        c = Client().launch(script)
        c.ask("setBreakpoints", source={"path": str(script)}, breakpoints=[{"line": 234}])
        c.ask("setExceptionBreakpoints", filters=["warning", "refused"])
        c.ask("configurationDone")
        c.stopped()
        c.ask("continue", threadId=1)
        self.assertEqual((c.stopped()["reason"], c.at()[1]), ("exception", "before line 233, event 154"))
        self.assertEqual(c.ask("exceptionInfo", threadId=1)["exceptionId"], "A line has a warning")
        c.ask("continue", threadId=1)
        self.assertEqual((c.stopped()["reason"], c.at()[1]), ("breakpoint", "before line 234, event 155"))
        c.close()

    def test_a_run_with_its_sources(self):
        """A kept run stops at the driver's own lines."""
        driver, kept = self.room / "driver.py", self.room / "core.em"
        driver.write_text("def start(m):\n    m.link = True\n    m.IMS = 4\n    m.read('ICR')\n    m.IMC = 4\n")
        names: dict = {}
        exec(compile(driver.read_text(), str(driver), "exec"), names)  # pylint: disable=exec-used
        m = Machine(memory=65536)
        m.record_to(kept)
        names["start"](m)
        c = self.client.launch(kept)
        found = c.ask("setBreakpoints", source={"path": str(driver)}, breakpoints=[{"line": 4}, {"line": 1}])
        self.assertEqual([it["verified"] for it in found["breakpoints"]], [True, False])
        c.ask("configurationDone")
        c.stopped()
        frames = c.ask("stackTrace", threadId=1)["stackFrames"]
        self.assertEqual([(it["line"], it["source"]["name"]) for it in frames][0], (2, "driver.py"))
        self.assertEqual(frames[0]["source"]["path"], str(driver))
        c.ask("continue", threadId=1)
        self.assertEqual(c.stopped()["reason"], "breakpoint")
        self.assertEqual(c.ask("stackTrace", threadId=1)["stackFrames"][0]["line"], 4)
        scopes = c.ask("scopes", frameId=1)["scopes"]
        self.assertEqual(c.ask("variables", variablesReference=scopes[1]["variablesReference"])["variables"][0]["value"], "1")
        c.ask("stepBack", threadId=1)
        c.stopped()
        self.assertEqual(c.ask("stackTrace", threadId=1)["stackFrames"][0]["line"], 3)

    def test_what_is_refused(self):
        c = self.client
        self.assertIn("no script is launched", c.refused("stackTrace", threadId=1))
        self.assertIn("lacks 'program'", c.refused("launch"))
        self.assertIn("there is no such file", c.refused("launch", program=str(self.room / "nothing.em")))
        self.assertIn("no request that is answered here", c.refused("attach"))
        c.ask("initialize", adapterID="bunjelav")
        c.ask("terminate")
        self.assertEqual(c.take()["event"], "terminated")
        c.ask("disconnect")
        self.assertEqual(c.process.wait(10), 0)

    def test_an_empty_script(self):
        (self.room / "empty.em").write_text("")
        c = self.client.launch(self.room / "empty.em")
        c.ask("configurationDone")
        c.stopped()
        for command in ("next", "stepBack", "continue", "reverseContinue"):
            c.ask(command, threadId=1)
            c.stopped()
            self.assertEqual(c.at()[1], "behind line 1, event 0")


class Emacs(unittest.TestCase):
    """Emacs' dap-mode as the client, of Debian's elpa-dap-mode."""

    @unittest.skipUnless(shutil.which("emacs") and [*ELPA.glob("dap-mode-*")], "there is no dap-mode here")
    def test_there_and_back(self):
        with tempfile.TemporaryDirectory() as home:
            ran = subprocess.run(["emacs", "--batch", "-l", HERE / "client.el", sys.executable, RING], cwd=home, check=False, timeout=150,
                                 env=dict(os.environ, HOME=home), stdout=subprocess.PIPE, stderr=subprocess.PIPE)
        self.assertEqual((ran.returncode, ran.stdout.decode().splitlines()), (0, [
            "launch: before line 3, event 0", "continue: before line 18, event 13", "next: before line 19, event 14",
            "stepIn: behind line 19, event 14", "stepBack: before line 19, event 14", "reverseContinue: before line 18, event 13",
            "evaluate: RCTL 00008002 EN BAM BSIZE=2048",
            "scopes: Registers, Interrupt, Receive ring, Transmit ring, Frames that wait", "disconnected"]), ran.stderr.decode()[-2000:])


if __name__ == "__main__":
    # (a client waits for what does not come)
    signal.alarm(SECONDS)
    unittest.main()
