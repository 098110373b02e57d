"""What the seeds of a study measured, added up and plotted."""
import collections
import subprocess
import sys

# Which parts of all internets are told of, in per cent.
SHARES = 50, 90, 99, 100
MINUTE = 60
IN_SECONDS = "gone", "right", "known"
WIDTH, HEIGHT = 900, 420


def read(texts):
    """For each study the values of each measure, with their seeds; and the seeds that broke a law, with why."""
    results, broken = {}, []
    for text in texts:
        name, seed, *words = text.split()
        if words[0] == "broken":
            broken.append((name, int(seed), " ".join(words[1:])))
            continue
        of = results.setdefault(name, collections.defaultdict(list))
        for measure, value in zip(words[::2], words[1::2]):
            of[measure].append((int(value), int(seed)))
    for of in results.values():
        for values in of.values():
            values.sort(key=lambda it: (it[0], -it[1]))
    return results, broken


def within(values, share):
    """The value that so many per cent don't pass."""
    return values[max(0, -(-share * len(values) // 100) - 1)][0]


def minutes(values):
    """How many come to 0, and how many are within each further minute."""
    counts = collections.Counter(-(-value // MINUTE) for value, _ in values)
    for minute in range(max(counts) + 1):
        name = f"{MINUTE * (minute - 1) + 1} to {MINUTE * minute}" if minute else "0"
        yield f"{name}: {counts[minute]:,}"


def described(of):
    """The lines that tell what was measured in a study."""
    for measure, values in of.items():
        shares = ", ".join(f"{share} % within {within(values, share)}" for share in SHARES)
        ends = f"least {values[0][0]}, most {values[-1][0]} (seed {values[-1][1]})"
        yield f"  {measure}, {len(values):,} internets: {shares}; {ends}"
        if measure in IN_SECONDS:
            yield f"    {'; '.join(minutes(values))}"


def curve(values):
    """For each value how many per cent don't pass it, as lines for gnuplot."""
    last = {value: at for at, (value, _) in enumerate(values, 1)}
    return "".join(f"{value} {100 * at / len(values):.3f}\n" for value, at in last.items())


def plot(results, file):
    """Plots how many per cent of the internets were right after how many seconds: the last measure of each study."""
    last = {name: [*of.items()][-1] for name, of in results.items()}
    curves = [(name, values) for name, (measure, values) in last.items() if measure in IN_SECONDS]
    if not curves:
        sys.exit("dev/study: nothing that could be plotted")
    most = max(values[-1][0] for _, values in curves)
    text = [f"set terminal svg size {WIDTH},{HEIGHT} font 'sans-serif,13' background 'white'", f"set output '{file}'",
            "set xlabel 'seconds'", "set ylabel 'per cent of all internets'", f"set xrange [0:{max(MINUTE, -(-most // MINUTE) * MINUTE)}]",
            "set yrange [0:102]", f"set xtics {MINUTE}", "set grid", "set key bottom right", "set border 3", "set tics nomirror"]
    text.append("plot " + ", ".join(f"'-' with steps linewidth 2 title '{title}'" for title, _ in curves))
    points = [f"0 0\n{curve(values)}{10 * most + MINUTE} 100\ne\n" for _, values in curves]
    subprocess.run(["gnuplot"], input="\n".join(text) + "\n" + "".join(points), text=True, check=True)
