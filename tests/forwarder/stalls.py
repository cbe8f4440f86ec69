# SPDX-License-Identifier: MIT
"""Whether the machine did not run what was due."""
import re
import time
from pathlib import Path

from tools.processes import Aside

# Linux tells here for how long some process waited for a processor, where it is built to do so.
PRESSURE = Path("/proc/pressure/cpu")
# The seconds for which the thread below sleeps at a time, and how late it may wake all the same.
MOMENT, LATE = 0.01, 0.01
# So many seconds it may be late in all, and for such a part of the time others may wait, where a
# machine does not stall.
MOST_LATE, MOST_WAITED = 0.1, 0.25


def waited():
    """The seconds since the start of the machine in which some process waited for a processor."""
    try:
        return int(re.search(r"some .*total=(\d+)", PRESSURE.read_text())[1]) / 1e6
    except (OSError, TypeError):
        return 0


class Stalls(Aside):
    """Tells whether the machine stalled while it was entered: a thread of this process, which
    sleeps for moments, woke later than it wished, or processes waited much."""

    def __init__(self):
        super().__init__()
        self.late, self.waited, self.lasted = 0, -waited(), -time.monotonic()

    def run(self):
        while not self.is_over.is_set():
            began = time.monotonic()
            time.sleep(MOMENT)
            late = time.monotonic() - began - MOMENT
            self.late += late if late > LATE else 0

    def __exit__(self, *_):
        super().__exit__()
        self.waited += waited()
        self.lasted += time.monotonic()

    def __bool__(self):
        return self.late > MOST_LATE or self.waited > MOST_WAITED * self.lasted

    def __str__(self):
        return f"{self.late:.2f} s late, and others waited {self.waited:.2f} s of {self.lasted:.2f}"
