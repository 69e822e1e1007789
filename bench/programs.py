"""Programs over lines of packets: the bench packets in turn, and the least time of each program."""
import subprocess
import time

from kit import root

ROUNDS = 5
sample = (root / "samples/bench.txt").read_text().splitlines(keepends=True)
sheet, packets = "".join(sample[:-5]), sample[-5:]


def write_lines(path, count):
    """Writes the sheet and about so many lines, and gives how many."""
    times = max(count // len(packets), 1)
    path.write_text(sheet + "".join(packets) * times)
    return times * len(packets)


def least_times(commands, out):
    """For each command the least time of all rounds, in seconds, one command after another in each round."""
    times = {name: [] for name in commands}
    for _ in range(ROUNDS):
        for name, (words, source) in commands.items():
            with open(source) as given, open(out, "w") as written:
                begun = time.perf_counter()
                subprocess.run(words, stdin=given, stdout=written, stderr=subprocess.DEVNULL, check=True)
                times[name].append(time.perf_counter() - begun)
    return {name: min(each) for name, each in times.items()}
