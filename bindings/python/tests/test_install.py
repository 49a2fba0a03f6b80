"""The library as others install it: what `make install` puts in place, and programs built over it."""

import os
import re
import tempfile
import unittest
from pathlib import Path

from repository import BUILD, HEADER, ROOT, kept_plans, make, run

from postman._library import DECLARATIONS

STRICT = ("-Wall", "-Wextra", "-Wpedantic", "-Werror")


def exported(*nm: str | Path) -> set[str]:
    """The names that a library defines for others."""
    lines = run("nm", "--defined-only", "--extern-only", *nm).stdout.splitlines()
    return {line.split()[-1] for line in lines if " " in line}


class Install(unittest.TestCase):
    @classmethod
    def setUpClass(cls) -> None:
        folder = tempfile.TemporaryDirectory()
        cls.addClassCleanup(folder.cleanup)
        cls.folder = Path(folder.name)
        cls.prefix = cls.folder / "prefix"
        make("install", f"PREFIX={cls.prefix}")
        cls.lib = cls.prefix / "lib"

    def pkg_config(self, *words: str) -> list[str]:
        environment = {**os.environ, "PKG_CONFIG_PATH": str(self.lib / "pkgconfig")}
        return run("pkg-config", *words, "postman", env=environment).stdout.split()

    def built(self, name: str, *command: str) -> Path:
        program = self.folder / name
        run(*command, "-o", program, cwd=ROOT)
        return program

    def test_the_example_in_c_and_cpp_static_and_shared(self) -> None:
        flags = self.pkg_config("--cflags", "--libs")
        static = [*self.pkg_config("--cflags"), str(self.lib / "libpostman.a")]
        shared_path = {**os.environ, "LD_LIBRARY_PATH": str(self.lib)}
        for language, compiler in (
            ("c99", ["cc", "-std=c99", "examples/plan.c"]),
            ("c17", ["cc", "-std=c17", "examples/plan.c"]),
            ("cpp", ["c++", "-std=c++17", "-x", "c++", "examples/plan.c", "-x", "none"]),
        ):
            for kind, linked, environment in (
                ("static", static, os.environ),
                ("static by pkg-config", ["-Wl,-Bstatic", *flags, "-Wl,-Bdynamic"], os.environ),
                ("shared", flags, shared_path),
            ):
                with self.subTest(language=language, kind=kind):
                    program = self.built(f"{language} {kind}", *compiler, *STRICT, *linked)
                    needed = "libpostman.so.0" in run("readelf", "-d", program).stdout
                    self.assertEqual(needed, kind == "shared")
                    for path in sorted((ROOT / "examples").glob("*.plan")):
                        printed = run(program, path, env=environment).stdout
                        self.assertEqual(printed, path.with_suffix(".txt").read_text(), path)

    def test_the_example_says_a_refusals_word(self) -> None:
        program = self.built("words", "cc", "-std=c99", "examples/plan.c", "-Iinclude", str(self.lib / "libpostman.a"))
        self.assertEqual(run(program, ROOT / "examples" / "cut_off.plan").stderr, "plan: cut off\n")

    def test_only_the_headers_functions_are_exported(self) -> None:
        self.assertEqual(exported("-D", self.lib / "libpostman.so"), set(DECLARATIONS))
        self.assertEqual(exported(self.lib / "libpostman.a"), set(DECLARATIONS))

    def test_the_archive_is_position_independent(self) -> None:
        shared = self.folder / "own.so"
        archive = ("-Wl,--whole-archive", self.lib / "libpostman.a", "-Wl,--no-whole-archive")
        run("cc", "-shared", "-Wl,-z,defs,-z,text", *archive, "-o", shared)
        self.assertLessEqual(set(DECLARATIONS), exported("-D", shared))

    def test_the_shared_library_says_its_version(self) -> None:
        (version,) = self.pkg_config("--modversion")
        self.assertIn(f'#define POSTMAN_VERSION "{version}"', HEADER.read_text())
        library = (self.lib / "libpostman.so").resolve()
        self.assertEqual(library.name, f"libpostman.so.{version}")
        dynamic = run("readelf", "-d", library).stdout
        self.assertIn(f"[libpostman.so.{version.split('.')[0]}]", dynamic)
        self.assertNotIn("TEXTREL", dynamic)

    def test_the_gates(self) -> None:
        for target, script in (("check", ".ci/run"), ("quick", ".ci/quick")):
            self.assertEqual(run("make", "-C", ROOT, "--no-print-directory", "-n", target).stdout, f"bash {script}\n")
            self.assertTrue((ROOT / script).is_file())

    def test_another_root_and_uninstalling(self) -> None:
        stage = self.folder / "stage"
        words = f"DESTDIR={stage}", "PREFIX=/opt/postman"
        make("install", *words)
        files = {path.relative_to(stage / "opt/postman").as_posix() for path in stage.rglob("*") if not path.is_dir()}
        libraries = {"lib/libpostman.a", "lib/libpostman.so", "lib/libpostman.so.0", "lib/libpostman.so.0.1.0"}
        others = {"include/postman.h", "lib/pkgconfig/postman.pc", "share/man/man1/postman.1"}
        self.assertEqual(files, libraries | others)
        self.assertIn("prefix=/opt/postman\n", (stage / "opt/postman/lib/pkgconfig/postman.pc").read_text())
        make("uninstall", *words)
        self.assertEqual([path for path in stage.rglob("*") if not path.is_dir()], [])

    def test_every_call_on_a_thread_of_the_stack_that_the_header_names(self) -> None:
        source = ("-Iinclude", "bindings/c/stacks.c", str(BUILD / "libpostman.a"), "-pthread")
        program = self.built("stacks", "cc", "-std=c99", *STRICT, "-O2", *source)
        plans = [path for path in kept_plans() if path.name != "cut_off.plan"]
        self.assertEqual(run(program, *plans).stdout.split(), list(DECLARATIONS))
        # What the header says of each call, in KiB, is enough for it and close to the least that is.
        said = HEADER.read_text()[: HEADER.read_text().index("#define POSTMAN_STACK_BYTES")].rpartition("in KiB:")[2]
        named: dict[str, int] = {}
        for names, size in re.findall(r"((?:postman_\w+(?: and )?)+) (\d+)", re.sub(r"\n \*", "", said)):
            named |= dict.fromkeys(names.split(" and "), int(size))
        (others,) = map(int, re.findall(r"all others at most (\d+)", said))
        deep = [path for path in plans if path.stem in ("large_town", "climbed_long_searches")]
        least = dict(line.split() for line in run(program, "--least", *deep).stdout.splitlines())
        self.assertLess(set(named), set(DECLARATIONS))
        self.assertEqual(list(least), list(DECLARATIONS))
        for name, size in least.items():
            wanted = named.get(name, others)
            self.assertLessEqual(int(size), wanted, f"{name}: run stacks --least, and say so in the header")
            self.assertTrue(name not in named or wanted - int(size) <= 8, f"{name} needs {size}, not {wanted}")
        self.assertGreater(int(least["postman_plan_call"]), 128)


if __name__ == "__main__":
    unittest.main()
