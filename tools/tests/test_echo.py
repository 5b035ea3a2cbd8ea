"""The wrapper at the top of the repository, over a program and an rt that only tell how they were called."""

import os
import shutil
import subprocess
from typing import Dict, List, Optional, Tuple

from balthiri_tools.program import ECHO
from support import InFolder, run

BUILT = """#!/bin/sh
echo "built: $# $*" && cat && echo "echo: read fault" >&2 && exit 3
"""
RT = """#!/bin/sh
echo "rt in $(basename "$PWD"): $# $*" && cat && exit 5
"""


class Echo(InFolder):
    def put(self, name: str, text: str) -> None:
        path = self.folder / name
        path.parent.mkdir(parents=True, exist_ok=True)
        path.write_text(text)
        path.chmod(0o755)

    def ran(self, *words: str, more: Optional[Dict[str, str]] = None) -> "Tuple[int, str, List[str]]":  # type: ignore[override]
        """The status, what stands on standard output, and the lines on standard error, of a wrapper in a folder of its own that is called from another one."""
        (self.folder / "top/crates/echo_cli").mkdir(parents=True, exist_ok=True)
        shutil.copy2(ECHO, self.folder / "top/echo")
        (self.folder / "bin").mkdir(exist_ok=True)
        for it in ("sh", "dirname", "readlink", "cat", "basename"):
            if not (self.folder / "bin" / it).exists():
                (self.folder / "bin" / it).symlink_to(shutil.which(it) or "")
        environment = {"PATH": str(self.folder / "bin"), **(more or {})}
        words = (str(self.folder / "top/echo"), *words)
        done = subprocess.run(words, input=b"given\n", cwd=self.folder, stdout=subprocess.PIPE, stderr=subprocess.PIPE, env=environment, check=False)
        return done.returncode, done.stdout.decode(), done.stderr.decode().splitlines()

    def test_the_built_program(self) -> None:
        self.put("top/crates/echo_cli/out/echo_cli", BUILT)
        self.put("bin/rt", RT)
        status, text, said = self.ran("replay", "--replicas=3", "a b")
        self.assertEqual((status, text), (3, "built: 3 replay --replicas=3 a b\ngiven\n"))
        self.assertEqual(said, ["./echo: runs crates/echo_cli/out/echo_cli, as it was built", "echo: read fault"])
        # by a link to it, too
        (self.folder / "link").symlink_to(self.folder / "top/echo")
        done = subprocess.run([self.folder / "link", "show"], input=b"", stdout=subprocess.PIPE, stderr=subprocess.DEVNULL, check=False)
        self.assertEqual((done.returncode, done.stdout), (3, b"built: 1 show\n"))

    def test_what_rt_try_makes(self) -> None:
        self.put("bin/rt", RT)
        status, text, said = self.ran("plain", "a b")
        self.assertEqual((status, text), (5, "rt in echo_cli: 4 try -- plain a b\ngiven\n"))
        self.assertEqual(len(said), 1)
        for words in ("no program at crates/echo_cli/out/echo_cli", "`rt try`", "unproved", "builds it"):
            self.assertIn(words, said[0])

    def test_where_there_is_neither(self) -> None:
        for rt, more in ((None, {}), (RT, {"ECHO_ONLY_BUILT": "1"})):
            if rt:
                self.put("bin/rt", rt)
            status, text, said = self.ran("plain", more=more)
            self.assertEqual((status, text, len(said)), (127, "", 1))
            self.assertIn("builds it", said[0])

    def test_a_tool_tells_once_that_it_takes_minutes(self) -> None:
        said = ("./echo: no program, so it runs what rt try makes, unproved", "run=ended status=2", "echo: case refused 26 BadLine line 1")
        self.put("slow", "#!/bin/sh\n" + "".join(f"echo '{it}' >&2\n" for it in said) + "exit 2\n")
        case = self.file("case", b"")
        done = run("ladder", case, case, "--program", self.folder / "slow")
        self.assertEqual((done.returncode, done.stdout), (2, b""))
        self.assertEqual(done.stderr.decode().splitlines(), [said[0], f"ladder: {said[2]}"])


class Names(InFolder):
    def test_no_other_file_of_the_tools_names_where_the_program_is(self) -> None:
        words = os.sep.join(["echo_cli", "out", "echo_cli"]).encode()
        tools = ECHO.parent / "tools"
        found = [it.name for it in tools.rglob("*") if it.is_file() and "__pycache__" not in it.parts and words in it.read_bytes()]
        self.assertEqual(found, ["test_echo.py"])
