"""What the programs in Python share: the nodes, what watches report, and what a phase took."""

import resource
import time

NODE = "/real"
DATA = b"0123456789" * 10
AT_ONCE = 1000


def watcher(count, all_reported):
    """What a watch calls: it sets an event with the last of so many changes."""
    reports = 0

    def reported(event):
        nonlocal reports
        reports += event.type == "CHANGED"
        if reports == count:
            all_reported.set()

    return reported


def mark():
    """The moment, and the processor time of this process until then, in microseconds."""
    usage = resource.getrusage(resource.RUSAGE_SELF)
    return time.monotonic_ns() // 1000, round((usage.ru_utime + usage.ru_stime) * 1_000_000)


def tell(since):
    wall, processor = (now - then for now, then in zip(mark(), since))
    with open("/proc/self/status") as status:
        peak = next(line.split()[1] for line in status if line.startswith("VmHWM:"))
    print("took", wall, processor, peak, flush=True)
