"""The Python binding's Debugger: each call, and what it raises."""
import gzip
import os
import tempfile
import unittest
from pathlib import Path

import bunjelav
from bunjelav import Answer, Debugger, DebuggerError, Machine, NotUnderstood, SessionEnded

TOP = Path(__file__).resolve().parent.parent.parent
RING = TOP / "examples" / "broken" / "ring.em"


class Sessions(unittest.TestCase):
    def setUp(self):
        self.folder = tempfile.TemporaryDirectory()
        self.room = Path(self.folder.name)

    def tearDown(self):
        self.folder.cleanup()

    def test_the_first_example_of_readme(self):
        with Debugger(RING) as d:
            self.assertEqual(str(d.opening), "played 19 lines: line 19 refused DmaRange")
            self.assertEqual((d.line, d.opening.of, d.event, d.ahead, d.source), (19, 19, 14, False, ""))
            self.assertEqual(d.who("1020 8").lines,
                             ["line 18, event 14: rx: wrote 1", "  001020  0030000000000000 -> 5254001234560A00"])
            self.assertEqual(d.who("1010 8").lines[0], "line 18, event 14: rx: wrote 1")
            self.assertEqual(d.who("1010 8", which="again").lines[0], "line 15, event 11: poke 001010 length 8")
            self.assertEqual(d.back_to(15), Answer("back to 15", ["at line 14, event 10"], "done", 14, 19, 10, True, ""))
            self.assertTrue(d.ahead)
            given = d.ask("poke 1010 0038000000000000")
            self.assertEqual((given.lines, given.status, d.line), (["dropped 5 lines that lay ahead", "ok"], "done", 15))
        self.assertEqual((d.status, d.score), (0, {"agreed": 0, "differed": 0}))

    def test_there_and_back(self):
        with Debugger(str(RING), step=True) as d:
            self.assertEqual((d.opening.lines, d.line, d.ahead), (["loaded 19 lines"], 0, True))
            self.assertEqual(d.step(3).status, "done")
            self.assertEqual((d.line, d.event), (3, 1))
            self.assertEqual(d.run("10").line, 9)
            self.assertEqual(d.run().status, "refused")
            self.assertEqual((d.line, d.event, d.ahead), (19, 14, False))
            self.assertEqual((d.back(2).event, d.ahead), (12, True))
            self.assertEqual(d.goto(10).event, 10)
            self.assertEqual(d.forward(2).event, 12)
            self.assertEqual(d.forward_to(18).line, 17)
            self.assertEqual(d.goto(0).line, 0)
            self.assertEqual(d.goto(0).status, "told")

    def test_what_is_shown(self):
        with Debugger(RING) as d:
            self.assertEqual(d.look("RCTL").lines, ["RCTL 00008002 EN BAM BSIZE=2048"])
            self.assertEqual(d.lines(10, 11).lines[0], "     10  link up")
            self.assertEqual(len(d.lines().lines), 10)
            self.assertEqual(d.lines(3).lines[5], "      6  poke 1010 00280000000000000000000000000000")
            self.assertTrue(d.history(2).lines[1].startswith("> line 18, event 14: rx: wrote 1"))
            self.assertTrue(d.history().lines)
            self.assertEqual(d.why().lines[0], "line 19: rx")
            self.assertEqual(d.who("RDT", which="all").status, "told")

    def test_files(self):
        written = self.room / "saved.em"
        with Debugger(RING) as d:
            d.save(str(written))
            self.assertIn("link up", written.read_text())
            self.assertIn("saved.em", str(d.save(str(written))))
            d.save(str(written), over=True)
        with Debugger() as d:
            self.assertEqual(d.opening.lines, [])
            self.assertIn("19", str(d.load(str(written))))
            self.assertEqual(d.opening.of, 0)
        with gzip.open(self.room / "ring.em.gz", "wb") as file:
            file.write(RING.read_bytes())
        with self.assertRaises(DebuggerError):
            # (the program itself unpacks nothing; ./em_debug does)
            Debugger(self.room / "ring.em.gz", options=["--foo"])

    def test_a_run_that_is_kept(self):
        kept = self.room / "core.em"
        m = Machine(memory=65536)
        m.record_to(kept)
        m.link = True
        m.IMS = 4
        with Debugger(kept, options=["--strict"]) as d:
            self.assertEqual((d.event, d.ahead), (2, False))
            self.assertRegex(d.source, r"debugger\.py:\d+$")
            self.assertEqual(d.look("IMS").lines, ["IMS 00000004 LSC"])

    def test_what_is_raised(self):
        with Debugger(RING) as d:
            before = (d.line, d.event)
            with self.assertRaisesRegex(NotUnderstood, "no command foo"):
                d.ask("foo")
            with self.assertRaises(ValueError):
                d.look("NOTHING")
            with self.assertRaisesRegex(ValueError, "newline"):
                d.ask("look RCTL\nlook RDT")
            self.assertEqual((d.line, d.event), before)
            self.assertEqual(d.ask("quit").status, "ended")
            with self.assertRaises(DebuggerError):
                d.ask("look RCTL")
        with self.assertRaises(SessionEnded):
            d.ask("look RCTL")
        d.close()
        with self.assertRaisesRegex(DebuggerError, "there is no such file"):
            Debugger(self.room / "nothing.em")
        with self.assertRaisesRegex(DebuggerError, "--memory"):
            Debugger(RING, options=["--memory", "5"])

    def test_what_is_said_besides(self):
        bad = self.room / "bad.em"
        bad.write_text("link up\nfoo\n")
        with Debugger(bad) as d:
            self.assertRegex(d.complaints, r"bad\.em: line 2: no command foo")
        self.assertEqual((d.status, d.complaints), (1, ""))
        with Debugger() as d:
            self.assertEqual(d.ask("look ICR # \udcff").command, "look ICR # \ufffd")

    def test_where_the_program_lies(self):
        named = os.environ.pop("BUNJELAV_DEBUGGER", None)
        try:
            os.environ["BUNJELAV_DEBUGGER"] = str(self.room / "nothing")
            with self.assertRaisesRegex(DebuggerError, "No such file"):
                Debugger()
            (self.room / "other").write_text("#!/bin/sh\necho '{\"format\":\"other\"}'\n")
            (self.room / "other").chmod(0o755)
            os.environ["BUNJELAV_DEBUGGER"] = str(self.room / "other")
            with self.assertRaisesRegex(DebuggerError, "another form"):
                Debugger()
        finally:
            del os.environ["BUNJELAV_DEBUGGER"]
            os.environ |= {"BUNJELAV_DEBUGGER": named} if named else {}


class Names(unittest.TestCase):
    def test_what_the_package_has(self):
        self.assertTrue({"Debugger", "Answer", "DebuggerError", "NotUnderstood", "SessionEnded"} <= {*bunjelav.__all__})


if __name__ == "__main__":
    unittest.main()
