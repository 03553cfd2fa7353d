"""What `scripts/house release` packs: an archive and two Debian packages, of a program and a library that were built.
Nothing here builds either of them, or knows whether it was proved, but `release`, which sees to that.

facts       what is told of a release: version, commit, time, toolchain
library     libsdm and libsdm-calls, static and shared, of what the crates sdm_c and sdm_calls are built to
places      what stands where below a prefix
web         the pages as HTML
bill        the bill of materials, in SPDX
tree        all files below a prefix
archive     the tar file
python      the Python package, as a wheel and as Debian has it
sums        checksums
work        all of it, twice
debian      the Debian packages
"""
