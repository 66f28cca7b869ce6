#!/usr/bin/env python3
"""Prints the first N waits of each schedule of standard input, as 250*3 for three of 250 ms, and `end` if it gives
up."""
import itertools
import json
import os
import subprocess
import sys

sys.dont_write_bytecode = True

from reports import jobs_of

MOST = int(sys.argv[1]) if len(sys.argv) > 1 else 12
for text in sys.stdin:
    script = [{"ms": 1, "err": 1}] * (MOST + 1) + [{"ms": 1, "ok": 0}]
    job = {"name": "it", "mode": "retry", "schedule": text.rstrip("\n"), "script": script[:1000]}
    plan = json.dumps({"horizon": 999_999_999_999_999, "jobs": [job]})
    report = subprocess.run(os.environ["ZSCHED"], input=plan, capture_output=True, text=True, check=True).stdout
    [ran] = jobs_of(report)
    runs = [(wait, len(list(group))) for wait, group in itertools.groupby(ran.waits[:MOST])]
    print(*[str(wait) if count == 1 else f"{wait}*{count}" for wait, count in runs], *["end"] * (ran.how == "failed"))
