"""The package as others install it, and where it finds the library."""

import doctest
import importlib
import os
import shutil
import sys
import tempfile
import unittest
import zipfile
from pathlib import Path

from repository import BUILD, CASE_A, PACKAGE, ROOT, make, run

import postman

MODULES = ("", ".answer", ".calls", ".cars", ".districts", ".graph", ".open_plan", ".plan", ".refusal", ".windows")
WHERE = "import postman; print(postman._library.path)"


def environment(**more: str) -> dict[str, str]:
    """This process's, without what says where the package or the library is."""
    return {**{k: v for k, v in os.environ.items() if k not in ("PYTHONPATH", "POSTMAN_LIBRARY")}, **more}


class Package(unittest.TestCase):
    @classmethod
    def setUpClass(cls) -> None:
        make()
        folder = tempfile.TemporaryDirectory()
        cls.addClassCleanup(folder.cleanup)
        cls.folder = Path(folder.name)

    def test_pip_installs_it_without_a_network(self) -> None:
        target = self.folder / "installed"
        pip = ("-m", "pip", "install", "--quiet", "--no-index", "--disable-pip-version-check", "--no-cache-dir")
        run(sys.executable, *pip, "--target", target, PACKAGE, env=environment(PIP_CONFIG_FILE=os.devnull))
        found = run(sys.executable, "-c", WHERE, cwd="/", env=environment(PYTHONPATH=str(target))).stdout.strip()
        self.assertEqual(Path(found), (target / "postman" / "libpostman.so").resolve())
        self.assertTrue((target / "postman" / "py.typed").is_file())
        # The command is there, and all that its pages are made of.
        installed = environment(PYTHONPATH=str(target))
        town = ROOT / "examples" / "town.plan"
        report = run(target / "bin" / "postman", "report", town, cwd="/", env=installed).stdout
        self.assertIn("</html>", report)
        pages = [path.relative_to(PACKAGE) for path in (PACKAGE / "postman" / "desk").glob("desk.*")]
        self.assertEqual(len(pages), 3)
        self.assertTrue(all((target / page).is_file() for page in pages))
        self.assertEqual([path for path in PACKAGE.iterdir() if path.suffix in (".egg-info", ".whl")], [])

    def test_the_wheel_has_every_file_and_the_library(self) -> None:
        build = f"import backend; print(backend.build_wheel({str(self.folder)!r}))"
        first = self.folder / run(sys.executable, "-c", build, cwd=PACKAGE).stdout.strip()
        before = first.read_bytes()
        run(sys.executable, "-c", build, cwd=PACKAGE)
        self.assertEqual(first.read_bytes(), before)
        with zipfile.ZipFile(first) as wheel:
            names = set(wheel.namelist())
            listed = wheel.read("postman-0.1.0.dist-info/RECORD").decode().splitlines()
            self.assertEqual(wheel.read("postman/libpostman.so"), (BUILD / "libpostman.so").read_bytes())
        self.assertEqual({line.split(",")[0] for line in listed}, names)
        ours = {path.relative_to(PACKAGE).as_posix() for path in (PACKAGE / "postman").rglob("*.py")}
        self.assertLessEqual(ours | {"postman/py.typed"}, names)
        self.assertFalse([name for name in names if "__pycache__" in name])

    def test_the_library_is_found_in_three_places(self) -> None:
        copy = self.folder / "copy"
        shutil.copytree(PACKAGE / "postman", copy / "repo" / "bindings" / "python" / "postman")
        python = copy / "repo" / "bindings" / "python"
        places = {
            "beside": python / "postman" / "libpostman.so",
            "in the repository": copy / "repo" / "build" / "libpostman.so",
            "by the variable": copy / "elsewhere.so",
        }
        missing = f"{sys.executable} -c 'import postman' 2>&1 | tail -n 1"
        # Python looks in the folder in which it is started before all others.
        said = run("sh", "-c", missing, cwd=self.folder, env=environment(PYTHONPATH=str(python))).stdout
        self.assertRegex(said, "^ImportError: there is no libpostman.so .*: run `make` .* or set POSTMAN_LIBRARY")
        for name in reversed(places):
            places[name].parent.mkdir(parents=True, exist_ok=True)
            shutil.copy(BUILD / "libpostman.so", places[name])
            more = {"POSTMAN_LIBRARY": str(places[name])} if name == "by the variable" else {}
            set_to = environment(PYTHONPATH=str(python), **more)
            found = run(sys.executable, "-c", WHERE, cwd=self.folder, env=set_to).stdout.strip()
            self.assertEqual(Path(found), places[name].resolve(), name)
        broken, older = self.folder / "no library", self.folder / "older.so"
        broken.write_bytes(CASE_A)
        run("cc", "-shared", "-x", "c", os.devnull, "-o", older)
        for wrong in (self.folder / "no such file", broken, older):
            set_to = environment(PYTHONPATH=str(python), POSTMAN_LIBRARY=str(wrong))
            said = run("sh", "-c", missing, cwd=self.folder, env=set_to).stdout
            self.assertRegex(said, f"^ImportError: .*{wrong}")

    def test_the_examples_of_the_documentation(self) -> None:
        ran = 0
        for name in MODULES:
            module = importlib.import_module(f"postman{name}")
            result = doctest.testmod(module, extraglobs=vars(postman))
            self.assertEqual(result.failed, 0, module.__name__)
            ran += result.attempted
        self.assertGreater(ran, 15)

    def test_every_public_thing_is_documented(self) -> None:
        for name in postman.__all__:
            thing = getattr(postman, name)
            self.assertTrue(name == "__version__" or thing.__doc__, name)
            for member, value in vars(thing).items() if isinstance(thing, type) else ():
                if not member.startswith("_") and (callable(value) or isinstance(value, (property, classmethod))):
                    self.assertTrue(getattr(thing, member).__doc__ or value.__doc__, f"{name}.{member}")

    def test_the_standard_library_is_enough(self) -> None:
        """Every module is imported, and the command run, by a Python that sees no other package."""
        modules = [
            ".".join(path.relative_to(PACKAGE).with_suffix("").parts)
            for path in sorted((PACKAGE / "postman").rglob("*.py"))
            if path.stem not in ("__init__", "__main__")
        ]
        self.assertGreater(len(modules), 60)
        code = f"import sys; sys.path.insert(0, {str(PACKAGE)!r})\nimport {', '.join(modules)}\n"
        code += f"sys.exit(postman.command.main(['drive', {str(ROOT / 'examples' / 'town.plan')!r}, '-q']))"
        printed = run(sys.executable, "-I", "-S", "-c", code, cwd=self.folder, env=environment()).stdout
        self.assertIn("no drive is cheaper", printed)

    def test_networkx_is_not_imported_until_it_is_called_for(self) -> None:
        code = "import sys, postman.graph; print('networkx' in sys.modules)"
        self.assertEqual(run(sys.executable, "-c", code, cwd=PACKAGE).stdout, "False\n")


if __name__ == "__main__":
    unittest.main()
