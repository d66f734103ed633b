"""Tests that the list of packages has what the tests ask for."""

import ast
import runpy
from pathlib import Path
from typing import Iterator

from .emulator import EMULATED
from .support import TOOLS, TOP, ToolTest, needs, run

LIST = TOOLS / "packages"
TESTS = TOP / "tests" / "tool_tests"


def asked_in(text: str) -> Iterator[str]:
    """The commands that a module's tests need, by `needs(..)`."""
    for node in ast.walk(ast.parse(text)):
        if isinstance(node, ast.Call) and isinstance(node.func, ast.Name) and node.func.id in ("needs", "missing"):
            yield from (it.value for it in node.args if isinstance(it, ast.Constant) and isinstance(it.value, str))


class Packages(ToolTest):
    """tools/packages."""

    def test_each_command_that_a_test_needs_is_in_the_list(self) -> None:
        known = runpy.run_path(str(LIST))
        asked = {command for path in TESTS.glob("*.py") for command in asked_in(path.read_text(encoding="utf-8"))}
        self.assertGreater(len(asked), 20)
        self.assertEqual(asked - {*known["PACKAGES"], *known["OF_TOOLCHAIN"]}, set())

    def test_what_the_tests_of_other_processors_need_is_in_the_list(self) -> None:
        known = runpy.run_path(str(LIST))["PACKAGES"]
        for machine in EMULATED:
            self.assertIn(f"qemu-{machine.name}", known)
            self.assertIn(machine.compiler.split()[0], known)

    @needs("dpkg")
    def test_an_installed_command_is_of_its_package(self) -> None:
        """As far as the system's own list says whose file it is."""
        known = runpy.run_path(str(LIST))
        for command in ("xz", "make", "git", "tar", "sqlite3", "prlimit", "readelf"):
            owner = run("sh", "-c", f'dpkg -S "$(readlink -f "$(command -v {command})")" 2>/dev/null')
            if owner.status == 0:
                name = owner.out.split(":")[0].removesuffix("-x86-64-linux-gnu")
                self.assertIn(known["package_of"](command), name)

    def test_the_names_are_in_the_order_of_the_alphabet_and_each_comes_once(self) -> None:
        ran = run(LIST)
        self.assert_ran(ran, out=None)
        names = ran.out.splitlines()
        self.assertEqual(names, sorted(set(names)))
        self.assertTrue({"xz-utils", "qemu-user", "gcc-riscv64-linux-gnu", "chromium", "binaryen"} <= set(names))

    def test_without_apt_nothing_is_installed(self) -> None:
        (self.folder / "python3").symlink_to("/usr/bin/python3")
        ran = run(Path("/usr/bin/env"), "python3", LIST, "--install", environment={"PATH": str(self.folder)})
        self.assert_refused(ran, "packages: there is no apt-get here; tools/packages names the packages of Debian")

    def test_the_guide_for_contributors_cites_the_list(self) -> None:
        self.assertIn("`tools/packages --install`", (TOP / "CONTRIBUTING.md").read_text(encoding="utf-8"))

    def test_the_tool_has_help(self) -> None:
        self.assert_help(LIST)
