#!/usr/bin/env bash
# Lists a capture file of 1,000,000 packets (PACKETS says another number) with the proved program, without and with a key, and prints
# packets a second and the greatest memory that was resident; where tshark is installed, the same of `tshark -T fields` with the
# fields that stand for it, in the same run, and how much longer it takes. It judges no figure.
set -eu
cd "$(dirname "$0")/.."
program=crates/gp_cli/out/gp_cli
if [ ! -x "$program" ]; then
  echo "bench: no proved program; run 'rt run -- decode </dev/null' in crates/gp_cli first" >&2
  exit 0
fi
folder=$(mktemp -d)
trap 'rm -rf "$folder"' EXIT
python3 - "$program" "$folder/file" "${PACKETS:-1000000}" <<'PYTHON'
import os, shutil, struct, sys, time

program, file, packets = sys.argv[1], sys.argv[2], int(sys.argv[3])
KEY = "C0C1C2C3C4C5C6C7C8C9CACBCCCDCECF"
HEADER = bytes.fromhex("FFFFFFFF8C302143658702000000")
FIELDS = ["frame.number", "frame.time_epoch", "zbee_nwk_gp.source_id", "zbee_nwk_gp.security_frame_counter", "zbee_nwk_gp.fc_ext_security_level", "zbee_nwk_gp.command_id"]

with open(file, "wb") as out:
    out.write(struct.pack("<IHHIIII", 0xA1B2C3D4, 2, 4, 0, 0, 65535, 230))
    for number in range(packets):
        frame = b"\x01\x08" + bytes([number & 255]) + HEADER + b"\x22\x0A\x0B\x0C\x0D"
        out.write(struct.pack("<IIII", 1700000000 + number // 100, number % 100 * 10000, len(frame), len(frame)) + frame)


def once(words, given):
    """Seconds, and KiB that were resident at most."""
    begun = time.perf_counter()
    child = os.posix_spawnp(words[0], words, os.environ, file_actions=[
        (os.POSIX_SPAWN_OPEN, 0, given, os.O_RDONLY, 0),
        (os.POSIX_SPAWN_OPEN, 1, os.devnull, os.O_WRONLY, 0),
        (os.POSIX_SPAWN_OPEN, 2, os.devnull, os.O_WRONLY, 0),
    ])
    _, status, used = os.wait4(child, 0)
    if status:
        sys.exit(f"bench: {words[0]} ends with {status}")
    return time.perf_counter() - begun, used.ru_maxrss


def line(name, words, given, runs, own=None):
    results = [once(words, given) for _ in range(runs)]
    seconds = min(result[0] for result in results)
    ratio = f", {seconds / own:.0f} times as long" if own else ""
    print(f"{name}: {packets / seconds / 1e6:.3f} million packets a second, {os.path.getsize(file) / seconds / 1e6:.0f} MB a second, {max(result[1] for result in results)} KiB resident{ratio}", flush=True)
    return seconds


own = line("pcap", [program, "pcap"], file, 3)
line("pcap KEY", [program, "pcap", KEY], file, 3)
if shutil.which("tshark"):
    asked = [word for field in FIELDS for word in ("-e", field)]
    line("tshark -T fields", ["tshark", "-n", "-r", file, "-T", "fields", *asked], os.devnull, 1, own)
else:
    print("bench: no tshark to compare with", file=sys.stderr)
PYTHON
