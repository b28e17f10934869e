#!/usr/bin/env python3
"""How many iterations the serial port takes at several widths; one line a run. Begin it in uart."""
import subprocess

for width in range(3, 9):
    words = f"pathfinder route uart.net k4n1.arch uart.place new.route --width {width}"
    ran = subprocess.run(words.split(), capture_output=True, text=True, check=False)
    if ran.returncode not in (0, 3):
        raise SystemExit(ran.stdout + ran.stderr)
    print(width, "routed" if ran.returncode == 0 else "not", ran.stdout.split()[-1], sep="\t")
