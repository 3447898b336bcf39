#!/usr/bin/env bash
# Lists three captures of 200,000 short lines, all alike, and one of random frames and messages, with the proved
# program and the words that are given (decode where none are). Of each it prints lines a second, the greatest memory that
# was resident and, where valgrind is installed, instructions a line. For the word decode alone it lists them in the same
# run with bench/listing.c too, a listing written apart from it in C, and prints how much faster that is. It judges no figure.
set -eu
cd "$(dirname "$0")/.."
program=crates/gp_cli/out/gp_cli
if [ ! -x "$program" ]; then
  echo "bench: no proved program; run 'rt run -- decode </dev/null' in crates/gp_cli first" >&2
  exit 0
fi
folder=$(mktemp -d)
trap 'rm -rf "$folder"' EXIT
peer=""
if [ "${*:-decode}" = decode ]; then
  if cc -O2 -o "$folder/listing" bench/listing.c; then
    peer=$folder/listing
  else
    echo "bench: bench/listing.c can't be built, so there is no peer" >&2
  fi
fi
lines=200000

measure() {
  python3 - "$program" "$peer" "$folder/capture" "$lines" "$1" "${@:2}" <<'PYTHON'
import re, shutil, subprocess, sys, time

program, peer, capture, lines, name = sys.argv[1], sys.argv[2], sys.argv[3], int(sys.argv[4]), sys.argv[5]
words = sys.argv[6:] or ["decode"]


def once(command):
    with open(capture, "rb") as source:
        begun = time.perf_counter()
        subprocess.run(command, stdin=source, stdout=subprocess.DEVNULL, check=True)
        return time.perf_counter() - begun


def instructions(count):
    valgrind = ["valgrind", "--tool=callgrind", "--callgrind-out-file=/dev/null", program, *words]
    with open(capture, "rb") as source:
        some = b"".join(source.readline() for _ in range(count))
    told = subprocess.run(valgrind, input=some, stdout=subprocess.DEVNULL, stderr=subprocess.PIPE, check=True).stderr
    return int(re.search(rb"Collected : (\d+)", told).group(1))


# One run of each in turn, five times; the best of each counts.
own, other = [], []
for _ in range(5):
    own.append(once([program, *words]))
    if peer:
        other.append(once([peer]))
figures = [f"{lines / min(own) / 1e6:.2f} million lines a second"]
if peer:
    figures.append(f"peer {lines / min(other) / 1e6:.2f}, ratio {min(own) / min(other):.2f}")
if shutil.which("valgrind"):
    figures.append(f"{(instructions(3000) - instructions(1000)) / 2000:.0f} instructions a line")

# The peak is read while the program waits for more input.
run = subprocess.Popen([program, *words], stdin=subprocess.PIPE, stdout=subprocess.DEVNULL)
with open(capture, "rb") as source:
    run.stdin.write(source.read())
run.stdin.flush()
time.sleep(0.2)
with open(f"/proc/{run.pid}/status") as status:
    figures.append(next(line.split()[1] for line in status if line.startswith("VmHWM")) + " KiB resident")
run.stdin.close()
run.wait()
print(f"{' '.join(words)} of {name}: {', '.join(figures)}")
PYTHON
}

for frame in 01080AFFFFFFFF8C002143658720 010801FFFFFFFF8C302143658702000000200A0B0C0D 01080AFFFFFFFF8C0821436587; do
  yes "$frame" | head -n "$lines" > "$folder/capture"
  measure "$frame" "$@"
done
python3 bench/capture.py 1 "$lines" > "$folder/capture"
measure "random frames and messages" "$@"
