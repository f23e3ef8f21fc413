"""The figures of all programs that measure, as one table.

Each calls `note` with how many times as fast the own program is as what it is compared with, by the processor's time or by the
clock. The figures go to the file that BENCH_FIGURES names, where it names one. Run by itself, this prints the table of that file.
"""
import datetime
import json
import os
import platform


def note(crate, what, beside, processor=None, clock=None, wanted=None):
    """Keeps a figure for the table."""
    path = os.environ.get("BENCH_FIGURES")
    if path:
        with open(path, "a", encoding="utf-8") as file:
            file.write(json.dumps([crate, what, beside, processor, clock, wanted]) + "\n")


def shown(ratio):
    return "" if ratio is None else f"{ratio:.2f}" if ratio < 1 else f"{ratio:.1f}" if ratio < 100 else f"{ratio:.0f}"


def machine():
    """The processor, how many there are, and the date."""
    model = platform.machine()
    with open("/proc/cpuinfo", encoding="utf-8") as file:
        model = next((line.split(":")[1].strip() for line in file if line.startswith("model name")), model)
    return f"{model}, {os.cpu_count()} processors, load {os.getloadavg()[0]:.1f}, {datetime.date.today()}"


def main():
    with open(os.environ["BENCH_FIGURES"], encoding="utf-8") as file:
        rows = [json.loads(line) for line in file]
    print(f"Times as fast as what it is compared with. {machine()}.\n")
    print("| crate | what | beside | by the processor | by the clock | wanted |")
    print("|---|---|---|---|---|---|")
    for crate, what, beside, processor, clock, wanted in rows:
        print(f"| {crate} | {what} | {beside} | {shown(processor)} | {shown(clock)} | {shown(wanted)} |")


if __name__ == "__main__":
    main()
