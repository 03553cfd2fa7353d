"""The processors, and the tools for each, as Debian names them."""
from __future__ import annotations

from dataclasses import dataclass


@dataclass(frozen=True)
class Processor:
    """A processor with Linux: Debian's compiler for it, and the emulator of its programs."""

    name: str
    prefix: str  # of the compiler and the binary tools, without the dash
    emulator: str
    is_big_endian: bool = False
    bits: int = 64
    options: tuple[str, ...] = ()  # of the compiler

    @property
    def compiler(self) -> str:
        return f"{self.prefix}-gcc" if self.prefix else "gcc"

    @property
    def root(self) -> str:
        """Where its C library lies."""
        return f"/usr/{self.prefix}"


@dataclass(frozen=True)
class Machine:
    """A processor for which there is an archive of machine code: what LLVM and Debian call it."""

    processor: Processor
    triple: str
    layout: str  # of data, in the words of LLVM
    architecture: str  # of a Debian package
    narrow_results: str = ""  # what LLVM must be told of a result of 32 bits, where the ABI asks for more
    options: tuple[str, ...] = ()  # of the toolchain's clang


X86_64 = Processor("x86_64", "", "")
AARCH64 = Processor("aarch64", "aarch64-linux-gnu", "qemu-aarch64")
RISCV64 = Processor("riscv64", "riscv64-linux-gnu", "qemu-riscv64")
PROCESSORS = {
    each.name: each
    for each in (
        X86_64,
        AARCH64,
        RISCV64,
        Processor("ppc64", "powerpc64-linux-gnu", "qemu-ppc64", is_big_endian=True),
        Processor("ppc64le", "powerpc64le-linux-gnu", "qemu-ppc64le"),
        Processor("ppc", "powerpc-linux-gnu", "qemu-ppc", is_big_endian=True, bits=32),
        Processor("s390x", "s390x-linux-gnu", "qemu-s390x", is_big_endian=True),
        Processor("armhf", "arm-linux-gnueabihf", "qemu-arm", bits=32),
        # int64_t is aligned to 4 there, and sdm.h asks for 8.
        Processor("i386", "i686-linux-gnu", "qemu-i386", bits=32, options=("-malign-double",)),
    )
}

# The one that the prover builds for.
PROVED = Machine(
    AARCH64,
    "aarch64-unknown-linux-gnu",
    "e-m:e-p270:32:32-p271:32:32-p272:64:64-i8:8:32-i16:16:32-i64:64-i128:128-n32:64-S128-Fn32",
    "arm64",
)
# Those that its LLVM module is retargeted for: sizes and alignments must be the same.
MACHINES = {
    "riscv64": Machine(
        RISCV64,
        "riscv64-unknown-linux-gnu",
        "e-m:e-p:64:64-i64:64-i128:128-n32:64-S128",
        "riscv64",
        narrow_results="signext",
        options=("-march=rv64gc", "-mabi=lp64d", "-mcmodel=medany"),
    ),
}
WASM64 = ("wasm64-unknown-unknown", "e-m:e-p:64:64-p10:8:8-p20:8:8-i64:64-i128:128-n32:64-S128-ni:1:10:20")
