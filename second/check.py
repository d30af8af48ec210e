"""The second program's own checks. Run: python3 second/check.py [GROUP ...]

The seed of the random groups comes from the environment variable NGT_SEED.
"""

import importlib
import os
import sys
import time
import traceback

from checks.tally import Tally

GROUPS = ("vectors", "figures", "refusals", "edges", "discards", "queues", "twins", "summaries", "handing", "moves",
          "flips", "places", "garbage", "histories", "programs")
SHOWN = 20


def main(arguments):
    tally = Tally(os.environ.get("NGT_SEED", "20"))
    for name in arguments or GROUPS:
        start, before = time.monotonic(), tally.passed
        failed = len(tally.failures)
        try:
            importlib.import_module("checks." + name).run(tally)
        except Exception:  # the program is total, so a stopped group is a failure
            tally.failures.append(f"{name} stopped: {traceback.format_exc()}")
        failed = len(tally.failures) - failed
        print(f"{name}: {tally.passed - before} passed, {failed} failed, "
              f"{time.monotonic() - start:.1f} s", flush=True)
    for words in tally.failures[:SHOWN]:
        print("failed: " + words)
    if tally.failures:
        print(f"seed: NGT_SEED={tally.seed}")
    print(f"{tally.passed} passed, {len(tally.failures)} failed")
    return 1 if tally.failures else 0


if __name__ == "__main__":
    sys.exit(main(sys.argv[1:]))
