"""Metadata of tables by size, and runs of `pol_replay` that are measured."""

import json
import os
import subprocess
import sys
import tempfile
import time
from functools import cache

TRIES = 7
SIZES = (1, 100)


def snapshot(number):
    return {
        "manifest-list": f"lake://b/sales/orders/metadata/snap-{number:012}-" + "0123456789abcdef" * 6 + ".avro",
        "parent-snapshot-id": number,
        "sequence-number": number + 1,
        "snapshot-id": number + 1,
        "summary": {"operation": "append"} | {f"total-{key}-{'x' * 20}": str(number) * 6 for key in "abcdefghijkl"},
        "timestamp-ms": 1_700_000_000_000 + number,
    }


def column(number):
    return {"doc": "said", "id": number, "name": f"column_{number}", "required": False, "type": "long"}


def metadata(size):
    """A metadata whose JSON has about 100 KB times the size."""
    columns, snapshots = 10 * size, 100 * size
    return {
        "current-schema-id": 0,
        "current-snapshot-id": snapshots,
        "default-sort-order-id": 0,
        "default-spec-id": 0,
        "format-version": 2,
        "last-column-id": columns,
        "last-partition-id": 999,
        "last-sequence-number": snapshots,
        "last-updated-ms": 1_700_000_100_000,
        "location": "lake://b/sales/orders",
        "metadata-log": [],
        "partition-specs": [{"fields": [], "spec-id": 0}],
        "properties": {},
        "refs": {"main": {"snapshot-id": snapshots, "type": "branch"}},
        "schemas": [{"fields": [column(number + 1) for number in range(columns)], "schema-id": 0, "type": "struct"}],
        "snapshot-log": [{"snapshot-id": number + 1, "timestamp-ms": number} for number in range(snapshots)],
        "snapshots": [snapshot(number) for number in range(snapshots)],
        "sort-orders": [{"fields": [], "order-id": 0}],
        "table-uuid": "00010203-0405-0607-0809-0a0b0c0d0e0f",
    }


def shown(value):
    """JSON as it is printed, with keys in byte order."""
    return json.dumps(value, separators=(",", ":"), sort_keys=True)


@cache
def program():
    return os.environ.get("REPLAY") or subprocess.check_output(["./built", "pol_replay"], text=True).strip()


def played(lines, times):
    """The processor seconds in user mode and the peak of memory, in bytes, of a run over so many examples of these lines.
    The least of several runs counts."""
    runs = [played_once(lines, times) for _ in range(TRIES)]
    return min(seconds for seconds, _ in runs), min(peak for _, peak in runs)


def played_once(lines, times):
    with tempfile.NamedTemporaryFile("w", suffix=".txt", newline="\n") as file:
        for number in range(times):
            file.write(f"== {number}\n" + "".join(f"{line}\n" for line in lines))
        file.flush()
        run = subprocess.Popen([program(), file.name], stdout=subprocess.DEVNULL)
        peak = 0
        while (waited := os.wait4(run.pid, os.WNOHANG))[0] == 0:
            peak = peak_of(run.pid) or peak
            time.sleep(0.001)
    _, ended, usage = waited
    if os.waitstatus_to_exitcode(ended) != 0:
        sys.exit(f"{lines[0][:40]}: status {os.waitstatus_to_exitcode(ended)}")
    return usage.ru_utime, peak


def peak_of(process):
    """The peak of a process's memory so far, in bytes. What `wait4` tells has the memory of this script in it."""
    with open(f"/proc/{process}/status", encoding="ascii") as status:
        return next((int(line.split()[1]) * 1024 for line in status if line.startswith("VmHWM")), 0)
