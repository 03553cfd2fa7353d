"""An exact model of `sdm`, written from PROFILE.md and FORMATS.md alone."""
