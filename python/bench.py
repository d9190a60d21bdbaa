"""Times of the Python functions, beside PARI's by cypari2 where that is installed, and of a million pairs in one call where numpy is: python3
python/bench.py, from the root of the sources after make. Each figure is the best of five passes, by time of the processor. Part of no check."""
import random
import sys
import time
from pathlib import Path

sys.path.insert(0, str(Path(__file__).resolve().parent))
import jingcobu

try:
    from cypari2 import Pari
    pari = Pari()
except ImportError:
    pari = None

PAIRS, PASSES = 100, 5
MODULI = ((4294967291, "a prime"), (2 ** 31, "2^31"), (2 ** 63 - 25, "a prime of 63 bits"))


def best(work, count):
    """The best time of a pass, in microseconds for each of its `count` calls."""
    times = []
    for _ in range(PASSES):
        began = time.process_time()
        work()
        times.append(time.process_time() - began)
    return min(times) * 1e6 / count


def drawn(generator, n, d):
    return [generator.randrange(n) for _ in range(d)] + [1]


def single_calls():
    print("microseconds a call       n  degree  resultant  divisor  reduced_resultant" + ("  polresultant  gcdext (cypari2)" if pari else ""))
    generator = random.Random(38)
    for n, name in MODULI:
        for d in (1, 4, 12, 24, 48):
            pairs = [(drawn(generator, n, d), drawn(generator, n, d)) for _ in range(PAIRS)]
            figures = [best(lambda: [function(n, f, g) for f, g in pairs], PAIRS)
                       for function in (jingcobu.resultant, jingcobu.divisor, jingcobu.reduced_resultant)]
            if pari and n % 2:  # PARI's two functions are for fields
                made = [[pari("Mod(1,%d)*Polrev(%s)" % (n, words)) for words in pair] for pair in pairs]
                figures.append(best(lambda: [f.polresultant(g) for f, g in made], PAIRS))
                figures.append(best(lambda: [f.gcdext(g) for f, g in made], PAIRS))
            print("%26s  %6d  " % (name, d) + "  ".join("%9.1f" % x for x in figures))


def many_pairs(count=1000000, d=8, n=4294967291):
    """Pairs from a numpy array in one call, beside the C function on the same words and loops of single calls."""
    try:
        import numpy
    except ImportError:
        print("SKIPPED: numpy is not installed")
        return
    generator = numpy.random.default_rng(38)
    F, G = (generator.integers(0, n, (count, d + 1), dtype="u4") for _ in range(2))
    out, work = numpy.zeros(count, "u4"), numpy.zeros(8192, "u4")
    service = jingcobu._library.service("resultants")
    in_c = best(lambda: service(n, F.ctypes.data, F.size, d, G.ctypes.data, G.size, d, count, out.ctypes.data, count, work.ctypes.data, 8192), 1)
    figures = [("the C function", in_c, count)]
    figures.append(("resultants, from numpy", best(lambda: jingcobu.resultants(n, F, G), 1), count))
    few = count // 100
    rows = [(f, g) for f, g in zip(F[:few].tolist(), G[:few].tolist())]
    lists = [f for f, _ in rows], [g for _, g in rows]
    figures.append(("resultants, from lists", best(lambda: jingcobu.resultants(n, *lists), 1), few))
    figures.append(("a loop of resultant", best(lambda: [jingcobu.resultant(n, f, g) for f, g in rows], 1), few))
    if pari:
        made = [[pari("Mod(1,%d)*Polrev(%s)" % (n, words)) for words in pair] for pair in rows]
        figures.append(("a loop of cypari2's polresultant", best(lambda: [f.polresultant(g) for f, g in made], 1), few))
    print("\n%d pairs of degree %d, n = %d: nanoseconds a pair, and times the C function's" % (count, d, n))
    for name, microseconds, pairs in figures:
        print("%-34s %8.0f  %6.2f" % (name, microseconds * 1000 / pairs, microseconds / pairs / (in_c / count)))


if __name__ == "__main__":
    single_calls()
    many_pairs()
    if not pari:
        print("SKIPPED: cypari2 is not installed")
