#!/usr/bin/env python3
"""A train that nobody brakes but `sdm live`: it reads its odometer each 0.5 s and obeys the emergency brake.

    examples/live/client.py crates/sdm/out/sdm
"""
import subprocess
import sys
from pathlib import Path

DATA = (Path(__file__).parent / "data").read_text()

with subprocess.Popen([sys.argv[1], "live"], stdin=subprocess.PIPE, stdout=subprocess.PIPE, text=True) as supervisor:
    assert supervisor.stdin and supervisor.stdout
    supervisor.stdin.write(DATA)
    time_ds, front_mm, speed_mm_s = 0, 500_000, 30_000
    while speed_mm_s > 0:
        print(f"read,{time_ds},{front_mm},{front_mm},{front_mm},{speed_mm_s},0,0", file=supervisor.stdin, flush=True)
        row = supervisor.stdout.readline()
        print(row, end="")
        time_ds += 5
        front_mm += speed_mm_s // 2
        if row.split(",")[5] == "1":
            speed_mm_s = max(0, speed_mm_s - 500)
print(f"stopped at {front_mm} mm")
