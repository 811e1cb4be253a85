"""The wheel has the package and the library, and works without the folder that it was built in."""
import base64
import hashlib
import os
import subprocess
import sys
import tempfile
import unittest
import zipfile

from starlark_ast import library

HERE = os.path.dirname(os.path.abspath(__file__))
sys.path.insert(0, os.path.dirname(HERE))
import wheel_backend  # noqa: E402

USE = "import starlark_ast as s; print(s.__file__, s.parse('x = 1\\n').statement.lhs.name, s.__version__)"


class Wheel(unittest.TestCase):
    def test_wheel(self):
        os.environ.setdefault("STARLARK_LIB", library.library()._name)
        with tempfile.TemporaryDirectory() as room:
            name = wheel_backend.build_wheel(room)
            with zipfile.ZipFile(f"{room}/{name}") as wheel:
                wheel.extractall(f"{room}/site")
                files = {it: wheel.read(it) for it in wheel.namelist()}
            self.assertIn("starlark_ast/py.typed", files)
            self.assert_recorded(files)
            how = {"cwd": room, "env": {"PYTHONPATH": f"{room}/site"}, "capture_output": True, "text": True}
            ran = subprocess.run([sys.executable, "-c", USE], **how)
            self.assertEqual(ran.stdout.split(), [f"{room}/site/starlark_ast/__init__.py", "x", "0.1.0"], ran.stderr)
            self.assertEqual(wheel_backend.build_wheel(room), name)

    def assert_recorded(self, files):
        record = next(it for it in files if it.endswith(".dist-info/RECORD"))
        lines = [it.rsplit(",", 2) for it in files[record].decode().splitlines()]
        self.assertEqual({it[0] for it in lines}, set(files))
        for path, digest, length in lines:
            if path != record:
                wanted = base64.urlsafe_b64encode(hashlib.sha256(files[path]).digest()).rstrip(b"=").decode()
                self.assertEqual((digest, int(length)), (f"sha256={wanted}", len(files[path])))


if __name__ == "__main__":
    unittest.main()
