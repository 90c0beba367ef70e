"""The package: its types, its version, and that it is installed without a network."""

import os
import pathlib
import shutil
import subprocess
import sys
import tempfile
import unittest
import venv
import zipfile

import packing
import richd
from tests.program import richd_or_skip

FOLDER = pathlib.Path(__file__).resolve().parent.parent


class Package(unittest.TestCase):
    def test_its_version_is_the_programs(self):
        printed = subprocess.run([richd_or_skip(self), "--version"], capture_output=True, text=True, check=True).stdout
        self.assertEqual(printed.split(), ["richd", richd.__version__])

    def test_the_parts_that_its_readme_names_are_there(self):
        code = "import richd; richd.aio.connect, richd.delta.compose, richd.connect, richd.__version__"
        subprocess.run([sys.executable, "-c", code], cwd=FOLDER, check=True)

    def test_its_types(self):
        if shutil.which("mypy") is None:
            self.skipTest("there is no mypy")
        with tempfile.TemporaryDirectory() as cache:
            command = ["mypy", "--strict", "--python-version", "3.9", "--cache-dir", cache, "richd"]
            run = subprocess.run(command, cwd=FOLDER, capture_output=True, text=True)
        self.assertEqual(run.returncode, 0, run.stdout)

    def test_the_same_files_make_the_same_wheel(self):
        with tempfile.TemporaryDirectory() as folder:
            path = pathlib.Path(folder, packing.build_wheel(folder))
            first = path.read_bytes()
            packing.build_wheel(folder)
            self.assertEqual(path.read_bytes(), first)
            with zipfile.ZipFile(path) as wheel:
                names = set(wheel.namelist())
        modules = {f"richd/{module.name}" for module in (FOLDER / "richd").glob("*.py")}
        info = {f"richd-{richd.__version__}.dist-info/{name}" for name in ("METADATA", "RECORD", "WHEEL")}
        self.assertEqual(names, modules | {"richd/py.typed"} | info)

    def test_pip_installs_it_without_a_network(self):
        with tempfile.TemporaryDirectory() as folder:
            try:
                venv.create(folder, with_pip=True)
            except subprocess.CalledProcessError:
                self.skipTest("no pip for a new environment")
            python = os.path.join(folder, "bin", "python")
            alone = {name: value for name, value in os.environ.items() if name != "PYTHONPATH"}
            install = [python, "-m", "pip", "install", "--quiet", "--no-index", "--disable-pip-version-check", str(FOLDER)]
            subprocess.run(install, env=alone, check=True)
            code = "import richd; print(richd.__version__, richd.__file__)"
            told = subprocess.run([python, "-c", code], cwd=folder, env=alone, check=True, capture_output=True, text=True).stdout
            self.assertTrue(told.startswith(f"{richd.__version__} {os.path.realpath(folder)}"), told)
            subprocess.run([python, "-m", "richd", "--version"], cwd=folder, env=alone, check=True, capture_output=True)


if __name__ == "__main__":
    unittest.main()
