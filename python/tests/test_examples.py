"""The example that completes words as somebody types."""

import subprocess
import sys
import tempfile
import unittest
from pathlib import Path

COMPLETE = Path(__file__).resolve().parents[2] / "examples" / "complete.py"

# Words as Debian's jieba lists them: with how often they occur, and a part of speech.
LIST = """北 17860 ns
北京 34488 ns
北京人 231 n
北京大学 2053 nt
北京市 3000000000 ns
东京 1000 ns
network 90 n
nets 90
net 400
"""

OFFERED = """北: 北京市 2147483645, 北京 34488, 北 17860, 北京大学 2053, 北京人 231
北京: 北京市 2147483645, 北京 34488, 北京大学 2053, 北京人 231
北京大: 北京大学 2053
n: net 400, nets 90, network 90
na: -
nat: net 400, nets 90, network 90
natw: network 90
x: -
"""


class Examples(unittest.TestCase):
    def test_complete(self):
        with tempfile.TemporaryDirectory() as folder:
            path = Path(folder) / "list"
            path.write_text(LIST, encoding="utf-8")
            command = [sys.executable, "-X", "utf8", str(COMPLETE), str(path), "北京大", "natw", "x"]
            told = subprocess.run(command, capture_output=True, encoding="utf-8", check=False)
            self.assertEqual((told.returncode, told.stderr, told.stdout), (0, "", OFFERED))
            told = subprocess.run(command[:-3], capture_output=True, encoding="utf-8", check=False)
            self.assertEqual((told.returncode, told.stderr), (1, "usage: examples/complete.py LIST TEXT..\n"))


if __name__ == "__main__":
    unittest.main()
