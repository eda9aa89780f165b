"""`./em_trace` and `./em_debug` over files that gzip compressed: each gives what it gives over the files themselves,
and says their own names."""
import gzip
import pathlib
import shutil
import subprocess
import tempfile

from tally import TOP, Tally

SECONDS = 60
# what they take; what chooses the program is another matter, which tests/wrapper tries
TOOLS = ("bash", "env", "readlink", "mktemp", "rm", "gzip")
PACKED = "it is compressed by gzip"


class Launcher:
    """A folder with a script that runs a program of this name, the tools that it takes, and files of ours."""

    def __init__(self, folder: str, name: str, program: str) -> None:
        self.top, self.name = pathlib.Path(folder), name
        self.tools, self.temporary = self.top / "commands", self.top / "temporary"
        for made in (self.tools, self.temporary, self.top / "tools"):
            made.mkdir()
        for file in (name, "tools/unpack.bash", "tools/say_name.bash"):
            shutil.copy(TOP / file, self.top / file)
        choice = f'run_program() {{\n  exec "${{through[@]}}" "{program}" "$@"\n}}\n'
        (self.top / "tools/program.bash").write_text(choice)
        for tool in TOOLS:
            (self.tools / tool).symlink_to(shutil.which(tool))

    def write(self, name: str, octets: bytes) -> str:
        """Writes a file, and beside it one that is compressed, with `.gz` behind its name."""
        (self.top / name).write_bytes(octets)
        (self.top / f"{name}.gz").write_bytes(gzip.compress(octets, mtime=0))
        return name

    def run(self, *words: str, typed: bytes = b"", **env: str) -> subprocess.CompletedProcess:
        env = {"PATH": str(self.tools), "TMPDIR": str(self.temporary)} | env
        return subprocess.run(["bash", self.name, *words], input=typed, capture_output=True, cwd=self.top, env=env,
                              timeout=SECONDS, check=False)

    def ended(self, tally: Tally, name: str, ran, status: int, out: bytes | None, err: bytes | None) -> None:
        """Checks a run, and that it left no temporary file."""
        tally.ended(f"./{self.name}, {name}", ran, status, out, err)
        tally.check(f"./{self.name}, {name}", [f"{file.name} is left" for file in self.temporary.iterdir()])

    def refuses(self, tally: Tally, log: str) -> None:
        """A broken file, one without gzip, and one with no room, are refused by name, and so is one packed twice."""
        octets = (self.top / f"{log}.gz").read_bytes()
        for file, given in (("cut.gz", octets[:-9]), ("other.gz", octets[:30] + b"\0" * 30 + octets[60:]),
                            ("head.gz", octets[:2]), ("behind.gz", octets + b"more")):
            (self.top / file).write_bytes(given)
            told = f"{self.name}: {file}: gzip cannot unpack it\n".encode()
            self.ended(tally, file, self.run(file), 3, b"", told)
        told = f"{self.name}: {log}.gz: {PACKED}, and a temporary file cannot be written\n".encode()
        self.ended(tally, "no room", self.run(f"{log}.gz", TMPDIR=str(self.top / "nowhere")), 3, b"", told)
        (self.top / "twice.gz").write_bytes(gzip.compress(octets, mtime=0))
        told = f"{self.name}: twice.gz: {PACKED}: ".encode()
        ran = self.run("twice.gz")
        tally.check(f"./{self.name}, twice", [] if ran.stderr.startswith(told) and ran.returncode == 3 else [f"{ran}"])
        (self.tools / "gzip").unlink()
        told = f"{self.name}: {log}.gz: {PACKED}: ".encode()
        ran = self.run(f"{log}.gz")
        is_so = ran.stderr.startswith(told) and ran.returncode == 3
        tally.check(f"./{self.name}, no gzip", [] if is_so else [f"{ran}"])


def try_logs(tally: Tally, program: str, log: bytes, capture: bytes) -> None:
    """Of em_trace."""
    with tempfile.TemporaryDirectory() as folder:
        here = Launcher(folder, "em_trace", program)
        here.write("q & \\1 #.log", log)
        here.write("a.pcap", capture)
        plain, packed = "q & \\1 #.log", "q & \\1 #.log.gz"
        for name, given, words in (
            ("a log", [plain], [packed]),
            ("a log behind --", ["--", plain], ["--", packed]),
            ("a capture", ["--frames", "a.pcap", plain], ["--frames", "a.pcap.gz", plain]),
            ("both", ["--frames", "a.pcap", plain], ["--frames=a.pcap.gz", packed]),
        ):
            wanted = here.run(*given)
            assert wanted.returncode == 0 and wanted.stdout, wanted
            here.ended(tally, name, here.run(*words), 0, wanted.stdout, wanted.stderr)
        told = f"em_trace: {packed}: octet 0: the magic number is not known\n".encode()
        here.ended(tally, "a log for a capture", here.run("--frames", packed, packed), 3, b"", told)
        here.ended(tally, "an empty word", here.run(""), 3, b"", b"em_trace: : there is no such file\n")
        here.refuses(tally, plain)


def try_scripts(tally: Tally, program: str) -> None:
    """Of em_debug."""
    with tempfile.TemporaryDirectory() as folder:
        here = Launcher(folder, "em_debug", program)
        here.write("s.em", b"link up\nbogus\nr 8 = 80080783\n")
        here.write("typed", b"bogus\nr 8\n")
        wanted = here.run("--batch", "s.em")
        told = b"em_debug: s.em.gz: line 2: no command bogus: help says which there are\n"
        here.ended(tally, "a script", here.run("--batch", "s.em.gz"), 1, wanted.stdout, told)
        wanted = here.run("s.em", typed=b"r 8\n")
        here.ended(tally, "a session", here.run("s.em.gz", typed=b"r 8\n"), 1, wanted.stdout, told)
        wanted = here.run("-x", "typed")
        told = wanted.stderr.replace(b"em_debug: typed: ", b"em_debug: typed.gz: ")
        here.ended(tally, "commands", here.run("-x", "typed.gz"), wanted.returncode, wanted.stdout, told)
        tally.check("./em_debug, commands", [] if b"typed.gz: line 1" in told else [f"{told!r}"])
        # what is written is no file to be read, and is replaced
        (here.top / "old.gz").write_bytes((here.top / "s.em.gz").read_bytes())
        here.ended(tally, "a capture that is written", here.run("--pcap", "old.gz", "--batch", "typed"), 1, None, None)
        is_new = (here.top / "old.gz").read_bytes()[:4] == b"\x4d\x3c\xb2\xa1"
        tally.check("./em_debug, a capture that is written", [] if is_new else ["it is not there"])
        was = (here.top / "s.em.gz").read_bytes()
        ran = here.run("--batch", "--pcap=s.em.gz", "s.em.gz")
        is_so = ran.returncode in (2, 3) and (here.top / "s.em.gz").read_bytes() == was
        tally.check("./em_debug, a script that would be written over", [] if is_so else [f"{ran}"])
        here.refuses(tally, "s.em")
