"""What the works of the bench take in several runs: the least nanoseconds of the original and of the package, their ratio, and that of the medians."""
import re
import statistics
import sys
from collections import defaultdict

LINE = re.compile(r"^(.+?) +([\d.]+) +([\d.]+) +[\d.]+$")


def main():
    runs = defaultdict(list)
    for name in sys.argv[1:]:
        with open(name, encoding="utf-8") as lines:
            for line in lines:
                found = LINE.match(line)
                if found:
                    runs[found[1]].append((float(found[2]), float(found[3])))
    print(f"{'nanoseconds, least of ' + str(len(sys.argv) - 1) + ' builds':30} {'original':>12} {'package':>12} {'ratio':>6}  of medians")
    for work, times in runs.items():
        first, second = (min(side) for side in zip(*times))
        medians = [statistics.median(side) for side in zip(*times)]
        print(f"{work:30} {first:12.1f} {second:12.1f} {second / first:6.2f}  {medians[1] / medians[0]:10.2f}")


if __name__ == "__main__":
    main()
