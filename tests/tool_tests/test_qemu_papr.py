"""Tests of the script that puts papr into QEMU's sources.

It runs on files that stand in for QEMU's: each has the places that the script looks for, and nothing else.
"""

import re
import shutil
from collections import Counter
from pathlib import Path

from .support import DATA, DOCS, TOOLS, ToolTest, for_each, needs, run

OWN = TOOLS / "qemu-papr"
PUT_IN = OWN / "put-in"
STAND_INS = DATA / "qemu-papr"
PUT = (
    *("hw/ppc/spapr.c", "hw/ppc/spapr_hcall.c", "hw/ppc/spapr_softmmu.c"),
    *("target/ppc/machine.c", "target/ppc/mmu-hash64.c"),
)
HOOKS = "papr-hooks.h"


class TreeTest(ToolTest):
    """A test on a tree of QEMU's that has the places which the script looks for."""

    def setUp(self) -> None:
        """Makes the tree."""
        super().setUp()
        self.tree = self.folder / "tree"
        for name in (*PUT, "hw/ppc/meson.build"):
            path = self.tree / name
            path.parent.mkdir(parents=True, exist_ok=True)
            shutil.copyfile(STAND_INS / path.name, path)
        (self.tree / "include" / "hw" / "ppc").mkdir(parents=True)

    def text(self, name: str) -> str:
        """A file of the tree."""
        return (self.tree / name).read_text(encoding="utf-8")

    def files(self) -> dict[Path, bytes]:
        """The tree's files."""
        return {path: path.read_bytes() for path in self.tree.rglob("*") if path.is_file()}


class Applied(TreeTest):
    """The tree behind the script."""

    def setUp(self) -> None:
        """Runs the script."""
        super().setUp()
        self.assert_ran(run(PUT_IN, self.tree), out=None)

    def calls(self) -> Counter[str]:
        """How often each of our functions is called."""
        return Counter(re.findall(r"\bpapr_[a-z_]+(?=\()", "".join(self.text(name) for name in PUT)))

    def test_each_call_stands_so_often(self) -> None:
        often = {"papr_answers": 2, "papr_searched": 3}
        once = (
            "papr_add_options",
            "papr_answer_call",
            "papr_answer_walk",
            "papr_make_call",
            "papr_search_begins",
            "papr_search_ends",
            "papr_table_freed",
            "papr_table_loaded",
            "papr_table_loading",
            "papr_table_made",
            "papr_table_resized",
            "papr_table_saved",
            "papr_table_saving",
        )
        self.assertEqual(self.calls(), {**often, **dict.fromkeys(once, 1)})

    def test_each_call_that_is_put_is_declared(self) -> None:
        hooks = (OWN / HOOKS).read_text(encoding="utf-8")
        declared = re.findall(r"^(?!typedef)[a-z].*?\b(papr_[a-z_]+)\(", hooks, re.MULTILINE)
        self.assertEqual(set(self.calls()), set(declared))

    def test_a_walk_is_answered_or_searched_and_then_told_of(self) -> None:
        walk = self.text("target/ppc/mmu-hash64.c").partition("bool ppc_hash64_xlate")[2]
        steps = r"answer_walk|search_begins|htab_lookup|search_ends|outcome = [012]|deposit64"
        told = [f"outcome = {number}" for number in (2, 1, 0)]
        search = ["search_begins", "htab_lookup", "search_ends"]
        order = ["answer_walk", *search, told[0], told[1], "deposit64", told[2]]
        self.assertEqual(re.findall(steps, walk), order)

    def test_the_first_call_of_a_function_is_made_by_us_and_the_second_is_qemus(self) -> None:
        text = self.text("hw/ppc/spapr_hcall.c")
        calls = re.findall(r"return (\w+)\(cpu, spapr, opcode, args(?:, fn)?\);", text)
        self.assertEqual(calls, ["papr_make_call", "fn"])

    def test_a_table_ends_before_it_is_freed(self) -> None:
        lines = self.text("hw/ppc/spapr.c").splitlines()
        (freed,) = (number for number, line in enumerate(lines) if "qemu_vfree" in line)
        self.assertEqual(lines[freed - 1].strip(), "papr_table_freed();")

    def test_a_commit_is_told_of_before_its_answer_is_looked_at(self) -> None:
        lines = [line.strip() for line in self.text("hw/ppc/spapr_softmmu.c").splitlines()]
        told = lines.index("papr_table_resized(cpu, pending->hpt, pending->shift, rc);")
        self.assertEqual(lines[told + 1], "if (rc == 0) {")

    def test_the_decrementer_is_saved_and_is_set_when_it_is_loaded(self) -> None:
        lines = [line.strip() for line in self.text("target/ppc/machine.c").splitlines()]
        saved = lines.index("env->spr[SPR_DECR] = cpu_ppc_load_decr(env);")
        self.assertEqual(lines[saved - 2 : saved], ["env->hflags_compat_nmsr = 0;", "if (tcg_enabled()) {"])
        set_again = lines.index("cpu_ppc_store_decr(env, env->spr[SPR_DECR]);")
        self.assertEqual(lines[set_again + 1], "pmu_mmcr01_updated(env);")

    def test_the_build_has_the_libraries_and_the_tree_our_files(self) -> None:
        build = self.text("hw/ppc/meson.build")
        self.assertEqual(build.count("dependency('papr', static: true)"), 1)
        self.assertEqual(build.count("dependency('papr_shared', static: true, required: false)"), 1)
        sources = sorted(path.name for path in OWN.glob("papr-*.c"))
        self.assertIn(", ".join(f"'{name}'" for name in sources), build)
        for path in OWN.glob("papr-*.[ch]"):
            place = self.tree / ("include/hw/ppc" if path.name == HOOKS else "hw/ppc") / path.name
            self.assert_same_file(place, path)

    @needs("cc")
    @for_each(*PUT)
    def test_with_the_calls_in_it_compiles(self, name: str) -> None:
        stubs = self.folder / "stubs" / "qemu"
        stubs.mkdir(parents=True)
        shutil.copyfile(STAND_INS / "osdep.h", stubs / "osdep.h")
        flags = ("-std=gnu11", "-Wall", "-Werror", "-fsyntax-only")
        ran = run("cc", *flags, f"-I{stubs.parent}", f"-I{self.tree}/include", self.tree / name)
        self.assert_ran(ran)

    def test_a_second_time_is_refused(self) -> None:
        before = self.files()
        message = f"put-in: {self.tree}/hw/ppc/spapr_hcall.c has papr already"
        self.assert_refused(run(PUT_IN, self.tree), message)
        self.assertEqual(self.files(), before)


class Options(ToolTest):
    """The options of the machine."""

    def test_the_document_has_each_of_them_and_no_other(self) -> None:
        text = (OWN / "papr-modes.c").read_text(encoding="utf-8")
        added = set(re.findall(r'(?:add_(?:switch|word)|object_property_add_\w+)\(machine, "([a-z-]+)"', text))
        page = (DOCS / "QEMU.md").read_text(encoding="utf-8")
        table = page.partition("## Options of the machine")[2].partition("\n## ")[0]
        self.assertEqual(set(re.findall(r"(?<=[` ])(papr(?:-[a-z]+)*)(?:=[A-Za-z]+)?`", table)), added)

    def test_a_call_waits_for_all_processors_unless_late_writes_are_asked_for(self) -> None:
        text = (OWN / "papr-answer.c").read_text(encoding="utf-8")
        late = r"if \(papr_options.late_writes\)\s+tlb_flush_all_cpus\(cs\);\s+else\s+tlb_flush_all_cpus_synced\(cs\);"
        self.assertRegex(text, late)
        begins = re.findall(r"struct papr_options papr_options = \{(.*)\};", (OWN / "papr-modes.c").read_text())
        self.assertEqual(len(begins), 1)
        self.assertNotIn("late_writes", begins[0])


class Refusals(TreeTest):
    """Trees that the script doesn't change."""

    def test_a_place_that_is_missing(self) -> None:
        path = self.tree / "hw" / "ppc" / "spapr.c"
        path.write_text(self.text("hw/ppc/spapr.c").replace("htab_fd = -1", "htab_fd = 0"), encoding="utf-8")
        before = self.files()
        place = "static void spapr_instance_init("
        message = f"put-in: spapr.c: nothing of the form spapr->htab_fd = -1; after {place}"
        self.assert_refused(run(PUT_IN, self.tree), message)
        self.assertEqual(self.files(), before)

    def test_a_folder_that_is_not_qemus(self) -> None:
        folder = self.folder / "nothing"
        missing = f"{folder}/hw/ppc/spapr_hcall.c"
        message = f"put-in: [Errno 2] No such file or directory: '{missing}'"
        self.assert_refused(run(PUT_IN, folder), message)

    def test_the_script_has_help(self) -> None:
        ran = run(PUT_IN, "--help")
        self.assert_ran(ran, out=None)
        begin = "Put papr into a source tree of QEMU 7.2.\n\n    tools/qemu-papr/put-in SOURCES\n"
        self.assert_text(ran.out[: len(begin)], begin)
