"""What stands beside the proved archive for x86-64: the library for other processors, as WebAssembly and as C.

The prover knows one target more than x86-64: 64-bit ARM. Its archive comes from the toolchain as it is. All else comes
from the LLVM module of that archive, by the steps of this folder, which are tested and never proved. Each step asserts
what it relies on, so that another toolchain ends it with a fault.

targets    the processors, and the tools for each
tools      how a tool is run, and where it is
proved     the archive for 64-bit ARM, with its LLVM module, by the prover
retarget   the module's text for another target
machine    an archive of the module for another processor
installed  an archive as a user of Linux wants it: libraries, pkg-config, CMake, Debian package
binary     what a WebAssembly module imports and exports
wasm       the WebAssembly modules, and the package for JavaScript
portable   the C source of the library
journeys   the journeys that are played everywhere
packed     journeys as bytes, for a runner with memory and putchar alone
played     the runner over an archive or the C source, under an emulator
node       the package for JavaScript in node
build      scripts/house library build --for NAME
check      scripts/house check processors
times      what a reading takes on each way
page       a page of HTML that plays a journey
planted    mistakes that the check must find
"""
