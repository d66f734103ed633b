"""The processors for which papr is built beside the one here, and what differs among them."""

from dataclasses import dataclass, field

from common import Bad


@dataclass(frozen=True)
class Machine:
    """A kind of processor, as the compilers and Debian name it.

    Either the toolchain compiles the libraries for it itself, or the toolchain's modules for x86-64 are made modules
    for it (`porting.py`), which a clang compiles. The program is made of that for x86-64 for each.
    """

    name: str
    tools: str  # the prefix of the cross compiler, and Debian's name of the folder of libraries
    debian: str  # Debian's name of the processor
    futex: int  # Linux's number there of the call by which threads wait
    own: str = ""  # the toolchain's name of it, where that compiles the libraries for it
    clang: str = ""  # Debian's clang, where the toolchain's own doesn't know the processor
    layout: str = ""
    triple: str = ""
    flags: tuple[str, ...] = ()
    # How numbers that are narrower than a register are passed and answered, by their types.
    widened: dict[str, str] = field(default_factory=dict)

    @property
    def of_int(self) -> str:
        """How an int of C is passed and answered: by its sign, where numbers are widened at all."""
        return "signext" if self.widened else ""

    @property
    def compiler(self) -> str:
        """The cross compiler."""
        return f"{self.tools}-gcc"

    @property
    def packages(self) -> dict[str, str]:
        """Debian's packages, by the commands that are needed of them."""
        needed = {self.compiler: f"gcc-{self.tools}"}
        return {self.clang: self.clang, **needed} if self.clang else needed


OTHERS = {
    it.name: it
    for it in (
        # The atomic steps are made in line, as the toolchain makes them, and not by functions of libgcc.
        Machine(
            "aarch64",
            "aarch64-linux-gnu",
            "arm64",
            futex=98,
            own="aarch64-unknown-linux-gnu",
            layout="e-m:e-p270:32:32-p271:32:32-p272:64:64-i8:8:32-i16:16:32-i64:64-i128:128-n32:64-S128-Fn32",
            triple="aarch64-unknown-linux-gnu",
            flags=("-march=armv8-a", "-mno-outline-atomics"),
        ),
        # POWER8 is the first processor on which Linux is little-endian.
        Machine(
            "ppc64le",
            "powerpc64le-linux-gnu",
            "ppc64el",
            futex=221,
            clang="clang-19",
            layout="e-m:e-Fn32-i64:64-i128:128-n32:64-S128-v256:256:256-v512:512:512",
            triple="powerpc64le-unknown-linux-gnu",
            flags=("-mcpu=power8",),
            widened=dict.fromkeys(("i1", "i8", "i16", "i32"), "zeroext"),
        ),
        # Its C ABI widens 32 bits by their sign, signed or not.
        Machine(
            "riscv64",
            "riscv64-linux-gnu",
            "riscv64",
            futex=98,
            layout="e-m:e-p:64:64-i64:64-i128:128-n32:64-S128",
            triple="riscv64-unknown-linux-gnu",
            flags=("-march=rv64gc", "-mabi=lp64d"),
            widened={**dict.fromkeys(("i1", "i8", "i16"), "zeroext"), "i32": "signext"},
        ),
    )
}

# Processors that read a number's most significant byte first.
BIG_ENDIAN = ("aarch64_be", "m68k", "mips", "mips64", "powerpc", "ppc", "ppc64", "s390x", "sparc64")
LITTLE = (
    "{} is big-endian, and nothing is built for such a processor: the toolchain lowers the sources for memory in which"
    " a number's least significant byte comes first"
)


def machine_named(name: str) -> Machine:
    """The processor of this name."""
    if name in BIG_ENDIAN:
        raise Bad(LITTLE.format(name))
    if name not in OTHERS:
        raise Bad(f"{name} is none of {', '.join(OTHERS)}")
    return OTHERS[name]
