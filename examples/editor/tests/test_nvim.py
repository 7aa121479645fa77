"""Neovim without a screen, with the configuration of this folder."""

import os
import shutil
import subprocess
import tempfile
import time
import unittest
from pathlib import Path

from .editor import FOLDER, SECONDS, check_time
from .test_bridge import generated

PROGRAM = """// \u00e9
procedure P() {
  var x: int;
  assume x > 0;
  x := x + 1;
  assert x > 2;
}
"""


# Whether Neovim has underlined something that is wrong, and its mode.
SHOWN = """luaeval('(function()
  local marks = 0
  for _, space in pairs(vim.diagnostic.get_namespaces()) do
    local underlines = space.user_data.underline_ns
    if underlines then
      marks = marks + #vim.api.nvim_buf_get_extmarks(0, underlines, 0, -1, {})
    end
  end
  return (marks > 0 and "marked " or "clean ") .. vim.fn.mode()
end)()')"""


def started(folder: str, text: str, *words: str, **variables: str) -> subprocess.Popen:
    """Neovim without a screen, which has a file with the text open."""
    file = Path(folder, "program.bpl")
    file.write_text(text)
    homes = {f"XDG_{kind}_HOME": folder for kind in ("CONFIG", "DATA", "STATE", "CACHE")}
    command = ["nvim", "--headless", "-n", "-i", "NONE", "-u", FOLDER / "nvim.lua", *words, file]
    streams = {"stdin": subprocess.DEVNULL, "stdout": subprocess.PIPE, "stderr": subprocess.PIPE}
    return subprocess.Popen(command, env={**os.environ, **homes, **variables}, text=True, **streams)


class Remote:
    """A Neovim that listens, and into which keys are typed."""

    def __init__(self, folder: str):
        self.address = str(Path(folder, "socket"))

    def run(self, *words: str) -> str:
        command = ["nvim", "--server", self.address, *words]
        ran = subprocess.run(command, stdin=subprocess.DEVNULL, capture_output=True, text=True, check=False)
        return (ran.stdout + ran.stderr).strip()

    def type_keys(self, keys: str) -> None:
        self.run("--remote-send", keys)

    def wait_for(self, wanted: str) -> None:
        """Waits until Neovim shows what is wanted."""
        end = time.monotonic() + SECONDS
        while (found := self.run("--remote-expr", SHOWN)) != wanted:
            if time.monotonic() > end:
                raise AssertionError(f"wanted: {wanted}; found: {found}")
            time.sleep(0.05)


@unittest.skipUnless(shutil.which("nvim"), "nvim isn't there")
class Neovim(unittest.TestCase):
    def run_scene(self, scene: str, text: str) -> str:
        """Opens a file with the text and plays a scene of nvim_session.lua; what it wrote."""
        script = f"luafile {FOLDER}/tests/nvim_session.lua"
        with tempfile.TemporaryDirectory() as folder, started(
            folder, text, "-c", script, BPL_TEST=scene
        ) as nvim:
            told, wrong = nvim.communicate(timeout=120)
            self.assertEqual(nvim.returncode, 0, wrong)
            return told

    def test_marks_are_shown_in_the_midst_of_typing(self):
        with tempfile.TemporaryDirectory() as folder:
            remote = Remote(folder)
            with started(folder, PROGRAM, "--listen", remote.address) as nvim:
                try:
                    remote.wait_for("marked n")
                    remote.type_keys("6G$i - 1")
                    remote.wait_for("clean i")
                    remote.type_keys("<BS>0")
                    remote.wait_for("marked i")
                finally:
                    nvim.kill()

    def test_what_is_typed_is_answered(self):
        self.run_scene("typing", PROGRAM)

    def test_an_edit_among_a_thousand_procedures_within_a_second(self):
        check_time(self, float(self.run_scene("large", generated(1000))) / 1000)


if __name__ == "__main__":
    unittest.main()
