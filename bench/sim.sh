#!/usr/bin/env bash
# Plays with the proved program a script of PAIRINGS pairings (1,000) and PRESSES presses (100,000), each heard once, and prints
# lines a second, the greatest memory that was resident and, where valgrind is installed, instructions a line. It judges no figure.
set -eu
cd "$(dirname "$0")/.."
program=crates/gp_cli/out/gp_cli
if [ ! -x "$program" ]; then
  echo "bench: no proved program; './gp --build' makes it" >&2
  exit 0
fi
folder=$(mktemp -d)
trap 'rm -rf "$folder"' EXIT

# script PAIRINGS PRESSES: one sink, 64 devices that are paired with it, and more pairings of devices that never send.
script() {
  python3 - "$1" "$2" <<'PYTHON'
import sys

pairings, presses = int(sys.argv[1]), int(sys.argv[2])
devices = min(64, pairings)
key = "C0C1C2C3C4C5C6C7C8C9CACBCCCDCECF"
print(f"0 sink s 0001 0000000000000001 derived 11 - {key}")
for number in range(devices):
    print(f"0 device d{number} {number + 1:08X} {key} 4 2 02 0")
for number in range(pairings):
    print(f"0 pair s {pairings - number:08X} {key} 4 2 02 0")
for number in range(presses):
    print(f"{number} press d{number % devices} 22")
    print(f"{number} hear {number} s 40")
PYTHON
}

measure() {
  script "$1" "$2" > "$folder/script"
  python3 - "$program" "$folder" "$1" "$2" <<'PYTHON'
import re, shutil, subprocess, sys, time

program, folder, pairings, presses = sys.argv[1], sys.argv[2], int(sys.argv[3]), int(sys.argv[4])
lines = open(f"{folder}/script", "rb").read().splitlines(keepends=True)


def once():
    with open(f"{folder}/script", "rb") as source, open(f"{folder}/report", "wb") as report:
        begun = time.perf_counter()
        subprocess.run([program, "sim"], stdin=source, stdout=report, check=True)
        return time.perf_counter() - begun


def instructions(some):
    valgrind = ["valgrind", "--tool=callgrind", "--callgrind-out-file=/dev/null", program, "sim"]
    told = subprocess.run(valgrind, input=b"".join(some), stdout=subprocess.DEVNULL, stderr=subprocess.PIPE, check=True).stderr
    return int(re.search(rb"Collected : (\d+)", told).group(1))


best = min(once() for _ in range(3))
acted = sum(" acted " in line for line in open(f"{folder}/report"))
assert acted == presses, f"{acted} of {presses} presses acted"
figures = [f"{len(lines) / best / 1e3:.0f} thousand lines a second"]
if shutil.which("valgrind"):
    first = len(lines) - 2 * presses
    figures.append(f"{(instructions(lines[:first + 600]) - instructions(lines[:first + 200])) / 400:.0f} instructions a line")

# The peak is read while the program waits for more input.
run = subprocess.Popen([program, "sim"], stdin=subprocess.PIPE, stdout=subprocess.DEVNULL)
run.stdin.write(b"".join(lines))
run.stdin.flush()
time.sleep(0.5)
with open(f"/proc/{run.pid}/status") as status:
    figures.append(next(line.split()[1] for line in status if line.startswith("VmHWM")) + " KiB resident")
run.stdin.close()
run.wait()
print(f"sim of {pairings} pairings, {presses} presses heard: {', '.join(figures)}")
PYTHON
}

if [ $# -gt 0 ]; then
  measure "$1" "${2:-100000}"
else
  measure 1 100000
  measure 1000 100000
fi
