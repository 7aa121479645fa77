"""The error lists of Vim and Emacs, with the configurations of this folder."""

import shutil
import subprocess
import tempfile
import unittest
from pathlib import Path

from .editor import FOLDER

PROGRAM = "procedure Need(n: int);\n  requires n > 0;\nprocedure P() { call Need(0); }\n"
CALL = "A precondition for this call might not hold."
CLAUSE = "This is the precondition that might not hold."

VIM = """source {folder}/bplserve.vim
edit {file}
silent make!
let told = map(getqflist(), {{_, each -> printf('%d:%d %s %s', each.lnum, each.col, each.type, each.text)}})
call writefile(told, '{file}.told')
qall!
"""

EMACS = """(load "{folder}/bplserve.el")
(find-file "{file}")
(flycheck-mode 1)
(flycheck-buffer)
(while (flycheck-running-p) (accept-process-output nil 0.1))
(with-temp-file "{file}.told"
  (dolist (each (reverse (with-current-buffer (get-file-buffer "{file}") flycheck-current-errors)))
    (insert (format "%s:%s %s %s\\n" (flycheck-error-line each) (flycheck-error-column each)
                    (flycheck-error-level each) (flycheck-error-message each)))))
"""


def flycheck() -> list[str]:
    """The words with which Emacs finds Debian's flycheck; none where it isn't there."""
    folders = sorted(Path("/usr/share/emacs/site-lisp/elpa").glob("*"))
    if not shutil.which("emacs") or not any(each.name.startswith("flycheck-") for each in folders):
        return []
    return [word for each in folders for word in ("-L", str(each))]


class ErrorLists(unittest.TestCase):
    def told(self, words: list[str], script: str, suffix: str) -> list[str]:
        """What an editor's error list has of the program, line by line."""
        with tempfile.TemporaryDirectory() as folder:
            file = Path(folder, "program.bpl")
            file.write_text(PROGRAM)
            script_file = Path(folder, f"script{suffix}")
            script_file.write_text(script.format(folder=FOLDER, file=file))
            ran = subprocess.run(
                [*words, script_file], stdin=subprocess.DEVNULL, capture_output=True, text=True, timeout=60
            )
            told = Path(folder, "program.bpl.told")
            self.assertTrue(told.exists(), ran.stderr)
            return told.read_text().splitlines()

    @unittest.skipUnless(shutil.which("vim"), "vim isn't there")
    def test_vim(self):
        told = self.told(["vim", "-u", "NONE", "-i", "NONE", "-N", "-es", "-S"], VIM, ".vim")
        self.assertEqual(told, [f"3:17 E {CALL}", f"2:3 I {CLAUSE}"])

    @unittest.skipUnless(flycheck(), "emacs with flycheck isn't there")
    def test_emacs(self):
        told = self.told(["emacs", "-q", "--batch", *flycheck(), "-l"], EMACS, ".el")
        self.assertEqual(sorted(told), [f"2:3 info {CLAUSE}", f"3:17 error {CALL}"])


if __name__ == "__main__":
    unittest.main()
