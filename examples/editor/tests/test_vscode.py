"""The extension for VS Code, over a stand-in for the editor's interface."""

import shutil
import subprocess
import unittest

from .editor import FOLDER


@unittest.skipUnless(shutil.which("node"), "node isn't there")
class VSCode(unittest.TestCase):
    def test_the_extension(self):
        session = FOLDER / "tests" / "vscode_session.js"
        ran = subprocess.run(
            ["node", session], stdin=subprocess.DEVNULL, capture_output=True, text=True, timeout=120
        )
        self.assertEqual(ran.returncode, 0, ran.stderr)


if __name__ == "__main__":
    unittest.main()
