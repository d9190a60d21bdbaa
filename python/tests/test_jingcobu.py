"""Tests of the package: examples in docstrings, the stored vectors, every refusal, the law of products, drawn pairs against PARI, the
command line. If JINGCOBU_ALL is 0, tests of services that the library lacks are skipped; otherwise they fail."""
import ast
import ctypes
import doctest
import importlib.util
import io
import json
import math
import os
import random
import re
import shlex
import shutil
import subprocess
import sys
import tempfile
import threading
import time
import unittest
import zipfile
from array import array
from contextlib import redirect_stderr, redirect_stdout
from pathlib import Path

import jingcobu
from jingcobu import Claim, Factors, Ground, Refused, __main__, _batch, _frames, _library, _notation, _polynomials, _refusals

HERE = Path(__file__).resolve().parent
ROOT = HERE.parent.parent
MODULI = [2, 4, 6, 8, 9, 12, 30, 36, 210, 2147483648, 3486784401, 223092870, 2176782336, 4294967291, 4294967295]


def needs(*names):
    """Skips a test if the library lacks these services, unless every one is required."""
    missing = [name for name in names if not _library.has(name)]
    skip = missing and os.environ.get("JINGCOBU_ALL", "1") == "0"
    return unittest.skipIf(skip, "the library lacks " + ", ".join(missing))


def times(n, f, g):
    """The product of f and g, worked here."""
    words = [0] * max(len(f) + len(g) - 1, 0)
    for i, x in enumerate(f):
        for j, y in enumerate(g):
            words[i + j] = (words[i + j] + x * y) % n
    return words


def combined(n, u, f, v, g):
    """u f + v g modulo n, without zeros on top."""
    x, y = times(n, u, f), times(n, v, g)
    words = [(a + b) % n for a, b in zip(x + [0] * (len(y) - len(x)), y + [0] * (len(x) - len(y)))]
    while words and not words[-1]:
        words.pop()
    return words


def constant(n, c):
    return [c % n] if c % n else []


def drawn(generator, n, d, sparse=4):
    """d + 1 words, some of them zero divisors or zero, the top too."""
    small = generator.randrange(1, 31)
    return [generator.randrange(n) * generator.choice([1, small]) % n * (generator.randrange(sparse) != 0) for _ in range(d + 1)]


def _wide(name, n, f, g):
    """n and the words of both, for the set of 64 bits, whatever they are."""
    return _polynomials.modulus(n, name, 2 ** 64 - 1), *(_polynomials.words(x, "fg"[i], name, n, 64) for i, x in enumerate((f, g)))


def product64(n, f, g):
    n, x, y = _wide("product64", n, f, g)
    out = _polynomials.room(max(len(x) + len(y) - 1, 0), 64)
    jingcobu._accept(jingcobu._call("product64", n, x, y, out))
    return out.tolist()


def resultant64(n, f, g):
    return jingcobu._value(jingcobu._call("resultant64", *_wide("resultant64", n, f, g), jingcobu._work(64)))


def reduced_resultant64(n, f, g):
    n, x, y = _wide("reduced_resultant64", n, f, g)
    D, u, v = jingcobu._reduced(n, 64, x, y)
    return jingcobu.Reduced(D, _polynomials.trimmed(u), _polynomials.trimmed(v))


class Examples(unittest.TestCase):
    def test_docstrings(self):
        for module in (jingcobu, _batch, _frames, _library, _notation, _polynomials, _refusals, __main__):
            for test in doctest.DocTestFinder().find(module):
                with self.subTest(test.name):
                    name = test.name.rpartition(".")[2]
                    if name in _library.SIGNATURES and not _library.has(name) and os.environ.get("JINGCOBU_ALL", "1") == "0":
                        self.skipTest("the library lacks " + name)
                    self.assertEqual(doctest.DocTestRunner(verbose=False).run(test).failed, 0)

    def test_readme(self):
        self.assertEqual(doctest.testfile(str(HERE.parent / "README.md"), module_relative=False, verbose=False).failed, 0)

    def test_one_function_a_service(self):
        header = (ROOT / "include" / "jingcobu.h").read_text()
        services = set(re.findall(r"^\w+ (jingcobu(?:64)?_\w+)\(", header, re.M))
        self.assertEqual(services, {_library.symbol(name) for name in _library.SIGNATURES})
        for name in _library.SIGNATURES:
            chosen = name[:-2] if name.endswith("64") else name  # by n and the words
            self.assertTrue(hasattr(jingcobu, chosen) or name.startswith("factors_"), name)

    def test_statuses(self):
        header = (ROOT / "include" / "jingcobu.h").read_text()
        statuses = {int(x) for x in re.findall(r"^    JINGCOBU_\w+ = (\d+)", header, re.M)}
        self.assertEqual(statuses, set(jingcobu.MEANING) | {0})

    def test_versions(self):
        version = os.environ.get("JINGCOBU_VERSION") or jingcobu.__version__
        self.assertEqual(jingcobu.__version__, version)
        self.assertIn('version = "%s"' % version, (HERE.parent / "pyproject.toml").read_text())

    def test_older_python(self):
        for file in (HERE.parent / "jingcobu").glob("*.py"):
            ast.parse(file.read_text(), feature_version=(3, 9))

    @unittest.skipUnless(shutil.which("mypy"), "mypy is not installed")
    def test_types(self):
        said = subprocess.run(["mypy", "--strict", "--python-version", "3.9", "--cache-dir", os.devnull, "jingcobu"], cwd=HERE.parent, capture_output=True, text=True)
        self.assertEqual(said.returncode, 0, said.stdout + said.stderr)

    def test_everything_is_there(self):
        missing = [name for name in _library.SIGNATURES if not _library.has(name)]
        if missing and os.environ.get("JINGCOBU_ALL", "1") == "0":
            self.skipTest("the library lacks " + ", ".join(missing))
        self.assertEqual(missing, [])


class Vectors(unittest.TestCase):
    def pairs(self):
        folder = ROOT / "crates" / "test_vectors"
        frames, numbers = (folder / "stdin").read_text().split("\n"), (folder / "stdout").read_text().split("\n")
        self.assertEqual(len(frames), len(numbers))
        for line, number in zip(frames, numbers):
            if not line:
                continue
            n, d = int(line[2:10], 16), int(line[10:12], 16)
            words = [int(line[i:i + 8], 16) for i in range(14, len(line), 8)]
            value, reduced = (int(x, 16) for x in number.split())
            yield n, words[:d + 1], words[d + 1:], value, reduced

    def test_stored(self):
        count = 0
        for n, f, g, value, reduced in self.pairs():
            with self.subTest(n=n, f=f, g=g):
                self.assertEqual(jingcobu.resultant(n, f, g), value)
                D, u, v = jingcobu.reduced_resultant(n, f, g)
                self.assertEqual(D, reduced)
                self.assertEqual(combined(n, u, f, v, g), constant(n, D))
            count += 1
        self.assertGreaterEqual(count, 739)

    @needs("divisor", "check_claim")
    def test_stored_divisors_and_claims(self):
        for n, f, g, _, reduced in self.pairs():
            self.assertEqual(jingcobu.divisor(n, f, g), reduced)
            D, u, v = jingcobu.reduced_resultant(n, f, g)
            self.assertEqual(jingcobu.check_claim(n, f, g, D, u, v), Claim.TRUE)

    def test_many(self):
        by_modulus = {}
        for n, f, g, value, _ in self.pairs():
            by_modulus.setdefault(n, []).append(((f, g), value))
        for n, rows in by_modulus.items():
            self.assertEqual(jingcobu.resultants(n, (pair for pair, _ in rows)), [value for _, value in rows])


@needs("product64", "resultant64", "reduced_resultant64")
class Wide(unittest.TestCase):
    """Words of 64 bits: the stored pairs, every refusal, the law of products, and the other set's numbers where both serve."""

    MODULI = [2, 6, 2 ** 32, 2 ** 62, 3 ** 39, 6 ** 24, 614889782588491410, 3037000493 ** 2, 2 ** 63 - 25, 2 ** 63 - 1]

    def test_stored(self):
        folder, count = ROOT / "crates" / "test_vectors64", 0
        lines, numbers = (folder / "stdin").read_text().splitlines(), (folder / "stdout").read_text().splitlines()
        self.assertEqual(len(lines), len(numbers))
        for line, number in zip(lines, numbers):
            n, d = int(line[:16], 16), int(line[16:18], 16)
            words = [int(line[i:i + 16], 16) for i in range(20, len(line), 16)]
            f, g = words[:d + 1], words[d + 1:]
            value, reduced = (int(x, 16) for x in number.split())
            with self.subTest(n=n, f=f, g=g):
                self.assertEqual(resultant64(n, f, g), value)
                D, u, v = reduced_resultant64(n, f, g)
                self.assertEqual(D, reduced)
                self.assertEqual(combined(n, u, f, v, g), constant(n, D))
            count += 1
        self.assertGreaterEqual(count, 312)

    def test_refusals(self):
        for function in (product64, resultant64, reduced_resultant64):
            for number, n, f, g in ((1, 0, [], []), (1, 1, [9] * 50, []), (1, 2 ** 63, [], [1]), (1, 2 ** 64 - 1, [1], [1]), (2, 5, [], [1]),
                                    (2, 5, [9], []), (2, 5, [1] * 50, [1]), (3, 5, [5], [1]), (3, 2 ** 63 - 1, [1], [1, 2 ** 63 - 1])):
                with self.assertRaises(Refused) as caught:
                    function(n, f, g)
                self.assertEqual((caught.exception.number, caught.exception.sentence), (number, jingcobu.MEANING[number]))
            for bad in (-1, 2 ** 64, 10 ** 30):
                for n, f in ((bad, [1]), (5, [bad])):
                    with self.assertRaises(ValueError) as caught:
                        function(n, f, [1])
                    self.assertNotIsInstance(caught.exception, Refused)
            for bad in (1.0, "1", None):
                with self.assertRaises(TypeError):
                    function(5, [bad], [1])
        with self.assertRaises(Refused) as caught:
            product64(5, [1] * 25, [1] * 26)
        self.assertEqual(caught.exception.number, 2)
        words, work = (ctypes.c_uint64 * 2)(1, 1), (ctypes.c_uint64 * 16384)()
        self.assertEqual(_library.service("product64")(5, words, 2, words, 2, (ctypes.c_uint64 * 2)(), 2).status, 6)
        self.assertEqual(_library.service("resultant64")(5, words, 2, words, 2, work, 16383).status, 7)

    def test_products(self):
        generator = random.Random(11)
        for _ in range(300):
            n = generator.choice(self.MODULI)
            f, g, h = (drawn(generator, n, generator.randrange(9)) for _ in range(3))
            p = product64(n, f, g)
            self.assertEqual(p, times(n, f, g))
            rp, rf, rg = (resultant64(n, x, h) for x in (p, f, g))
            self.assertEqual(rp, rf * rg % n)
            Dp, Df, Dg = (reduced_resultant64(n, x, h).D for x in (p, f, g))
            self.assertEqual((Dp % Df, Dp % Dg, Df * Dg % Dp), (0, 0, 0))

    def test_both(self):
        generator = random.Random(12)
        for _ in range(300):
            n = generator.choice(MODULI)
            f, g = drawn(generator, n, generator.randrange(20)), drawn(generator, n, generator.randrange(20))
            self.assertEqual(product64(n, f, g), jingcobu.product(n, f, g))
            self.assertEqual(resultant64(n, f, g), jingcobu.resultant(n, f, g))
            self.assertEqual(reduced_resultant64(n, f, g).D, jingcobu.reduced_resultant(n, f, g).D)


@needs("resultants", "divisors", "resultants64", "divisors64")
class Many(unittest.TestCase):
    """Many pairs in one call, against the single calls: sequences, buffers of rows, mixed lengths, both widths, refusals, mistakes."""

    MODULI = MODULI + [2 ** 32, 6 ** 24, 2 ** 63 - 1]

    @staticmethod
    def rows(F, code):
        """A two-dimensional buffer of the words."""
        return memoryview(array(code, [x for f in F for x in f])).cast("B").cast(code, [len(F), len(F[0])])

    def right(self, n, F, G, said=jingcobu.resultants):
        single = jingcobu.resultant if said is jingcobu.resultants else jingcobu.divisor
        return [single(n, f, g) for f, g in zip(F, G)]

    def test_drawn(self):
        generator = random.Random(381)
        for _ in range(120):
            n, d, e, count = generator.choice(self.MODULI), generator.randrange(9), generator.randrange(9), generator.randrange(1, 30)
            F, G = [drawn(generator, n, d) for _ in range(count)], [drawn(generator, n, e) for _ in range(count)]
            for many in (jingcobu.resultants, jingcobu.divisors):
                right = self.right(n, F, G, many)
                self.assertEqual(many(n, F, G), right)
                self.assertEqual(many(n, tuple(map(tuple, F)), (array("Q", g) for g in G)), right)
                self.assertEqual(many(n, zip(F, G)), right)
                for first, second in (("I", "I"), ("Q", "Q"), ("I", "Q"), ("L", "I")):
                    if n < 2 ** 32 or (first, second) == ("Q", "Q"):
                        self.assertEqual(many(n, self.rows(F, first), self.rows(G, second)), right)
                self.assertEqual(many(n, self.rows(F, "Q"), G), right)
                self.assertEqual(many(n, self.rows(F, "Q").toreadonly(), self.rows(G, "Q").toreadonly()), right)

    def test_small_words_of_a_large_modulus(self):
        F, G = [[3, 2], [5, 7]], [[1, 4], [0, 1]]
        self.assertEqual(jingcobu.resultants(2 ** 40, self.rows(F, "I"), self.rows(G, "I")), self.right(2 ** 40, F, G))

    def test_mixed_lengths(self):
        generator = random.Random(382)
        for n in (12, 2 ** 31, 3 ** 39):
            F = [drawn(generator, n, generator.randrange(4)) for _ in range(200)]
            G = [drawn(generator, n, generator.randrange(4)) for _ in range(200)]
            for many in (jingcobu.resultants, jingcobu.divisors):
                self.assertEqual(many(n, F, G), self.right(n, F, G, many))

    def test_lent_without_a_copy(self):
        words = array("I", [3, 2, 1, 4])
        view = memoryview(words).cast("B").cast("I", [2, 2])
        self.assertEqual(_batch.rows_of(view, 32).words.place, words.buffer_info()[0])
        self.assertEqual(_batch.rows_of(view.toreadonly(), 32).words.place, words.buffer_info()[0])
        self.assertNotEqual(_batch.rows_of(view, 64).words.place, words.buffer_info()[0])
        self.assertEqual(_batch.rows_of(view.toreadonly(), 64).words.keeper.tolist(), words.tolist())
        odd = memoryview(bytearray(b"\0" + words.tobytes()))[1:].cast("I", [2, 2])  # words that do not stand where words can stand
        self.assertEqual(_batch.rows_of(odd, 32).words.keeper.tolist(), words.tolist())
        self.assertEqual(jingcobu.resultants(12, odd, view), [0, 0])
        words[0] = 7
        self.assertEqual(jingcobu.resultants(12, view, view), [0, 0])
        self.assertEqual(words.tolist(), [7, 2, 1, 4])

    def test_no_pairs(self):
        empty = self.rows([[1, 2]], "I")[:0]
        for many in (jingcobu.resultants, jingcobu.divisors):
            for F, G in (([], []), (empty, empty), ([], None), (iter([]), iter([]))):
                self.assertEqual(many(12, F, G), [])
                self.assertEqual(many(2 ** 40, F, G), [])
                for n in (0, 1, 2 ** 63):
                    with self.assertRaises(Refused) as caught:
                        many(n, F, G)
                    self.assertEqual((caught.exception.number, caught.exception.place), (1, None))

    def test_refusals(self):
        """The first pair that a single call refuses, and nothing of the others."""
        for n in (5, 2 ** 40):
            large = [n, 1]
            for many in (jingcobu.resultants, jingcobu.divisors):
                for F, G, number, place in (([[1, 1]] * 3, [[1, 1], [1, 1], large], 3, 2), ([[1, 1], large, [1]], [[1], [1], []], 3, 1),
                                            ([[1], [], large], [[1], [1], [1]], 2, 1), ([[1] * 50] * 2, [[1]] * 2, 2, 0), ([[1], [1]], [[1], [1] * 50], 2, 1)):
                    with self.assertRaises(Refused) as caught:
                        many(n, F, G)
                    self.assertEqual((caught.exception.number, caught.exception.place), (number, place))
                    if len({*map(len, F)}) == len({*map(len, G)}) == 1:
                        with self.assertRaises(Refused) as caught:
                            many(n, self.rows(F, "Q"), self.rows(G, "Q"))
                        self.assertEqual((caught.exception.number, caught.exception.place), (number, place))

    def test_mistakes(self):
        many = jingcobu.resultants
        for bad in (b"12", "12", {1: 2}, {1}, 7, None, memoryview(b"1234").cast("B", [2, 2])):
            for pair in ((bad, [[1]]), ([[1]], bad)):
                if pair[1] is None:
                    continue
                with self.assertRaisesRegex(TypeError, "^resultants: [FG] is .* not a sequence of polynomials$"):
                    many(12, *pair)
        for F, told in (([[1], 7], r"F\[1\] is 7 of type int, not a sequence of integers"), ([[1], b"12"], r"F\[1\] is b'12' of type bytes, not a sequence"),
                        ([[1], [2.5]], r"F\[1\]\[0\] is 2.5 of type float, not an integer"), ([[1], {2}], r"F\[1\] is \{2\} of type set, not a sequence")):
            with self.assertRaisesRegex(TypeError, "^resultants: " + told):
                many(12, F, [[1], [1]])
        for F, told in (([[1], [2, -3]], r"F\[1\]\[1\] = -3 is not from 0 to 11"), ([[1], [2 ** 64]], r"F\[1\]\[0\] = 18446744073709551616 is not from 0 to 11"),
                        ([[1]], "F has 1 polynomials, and G has 2")):
            with self.assertRaisesRegex(ValueError, "^resultants: " + told):
                many(12, F, [[1], [1]])
        with self.assertRaisesRegex(ValueError, "^resultants: F has 2 polynomials, and G has 1$"):
            many(12, self.rows([[1], [2]], "I"), self.rows([[1]], "I"))
        with self.assertRaisesRegex(ValueError, r"^resultants: G\[0\]\[1\] = -1 is not from 0 to 11$"):
            many(12, [[1]], memoryview(array("q", [1, -1])).cast("B").cast("q", [1, 2]))
        self.assertEqual(many(12, [[3, 2]], memoryview(array("q", [1, 4])).cast("B").cast("q", [1, 2])), [2])
        with self.assertRaisesRegex(TypeError, r"^divisors: pair 1 is \[1\] of type list, not two polynomials$"):
            jingcobu.divisors(12, [([1], [1]), [1]])
        with self.assertRaisesRegex(TypeError, "^divisors: n is '12' of type str, not an integer$"):
            jingcobu.divisors("12", [[1]], [[1]])

    def test_threads(self):
        generator, n = random.Random(383), 2 ** 31 - 1
        F, G = ([drawn(generator, n, 8) for _ in range(500)] for _ in range(2))
        right, found, first, second = self.right(n, F, G), [], self.rows(F, "I"), self.rows(G, "I")
        threads = [threading.Thread(target=lambda: found.append(jingcobu.resultants(n, first, second))) for _ in range(8)]
        for thread in threads:
            thread.start()
        for thread in threads:
            thread.join()
        self.assertEqual(found, [right] * 8)

    def test_nothing_but_the_standard_library(self):
        program = "import sys, jingcobu; view = memoryview(bytearray(16)).cast('I', [2, 2]); jingcobu.resultants(5, view, view); print('numpy' in sys.modules)"
        said = subprocess.run([sys.executable, "-c", program], capture_output=True, text=True)
        self.assertEqual((said.stdout, said.stderr), ("False\n", ""))

    @unittest.skipUnless(importlib.util.find_spec("numpy"), "numpy is not installed")
    def test_numpy(self):
        import numpy
        generator = numpy.random.default_rng(38)
        for n, kind in ((12, "u4"), (2 ** 31, "u4"), (4294967291, "u8"), (2 ** 40, "u8"), (2 ** 63 - 1, "u8"), (97, "i8"), (97, ">u4"), (97, "u2")):
            F, G = (generator.integers(0, min(n, 2 ** 63 - 1), (50, d), dtype="i8").astype(kind) for d in (9, 7))
            for many in (jingcobu.resultants, jingcobu.divisors):
                right = self.right(n, F.tolist(), G.tolist(), many)
                self.assertEqual(many(n, F, G), right)
                self.assertEqual(many(n, F[::2], G[::2]), right[::2])
                self.assertEqual(many(n, numpy.asfortranarray(F), G), right)
                F.flags.writeable = False
                self.assertEqual(many(n, F, G), right)
                self.assertEqual(many(n, list(F), list(G)), right)
        with self.assertRaises(Refused) as caught:
            jingcobu.resultants(5, numpy.array([[1, 2], [1, 7]], "u4"), numpy.array([[1], [1]], "u4"))
        self.assertEqual((caught.exception.number, caught.exception.place), (3, 1))
        with self.assertRaises(TypeError):
            jingcobu.resultants(5, numpy.ones((2, 2)), numpy.ones((2, 2)))
        for kind, width in (("u4", 32), ("u8", 64)):
            for writeable in (True, False):
                F = numpy.ones((3, 2), kind)
                F.flags.writeable = writeable
                self.assertEqual(_batch.rows_of(memoryview(F), width).words.place, F.ctypes.data)


class Refusals(unittest.TestCase):
    def refused(self, number, function, *arguments):
        with self.assertRaises(Refused) as caught:
            function(*arguments)
        self.assertEqual(caught.exception.number, number)
        self.assertEqual(caught.exception.sentence, jingcobu.MEANING[number])
        self.assertIn("refused with %d: " % number, str(caught.exception))

    def test_pairs(self):
        names = ["resultant", "reduced_resultant", "divisor", "resultant_cofactors", "why", "product"]
        for name in names:
            if not _library.has(name) and os.environ.get("JINGCOBU_ALL", "1") == "0":
                continue
            with self.subTest(name):
                function = getattr(jingcobu, name)
                for n in (0, 1):
                    self.refused(1, function, n, [], [9] * 50)
                self.refused(2, function, 5, [], [1, 1])
                self.refused(2, function, 5, [1, 1], [])
                self.refused(2, function, 5, [9] * 50, [1])
                self.refused(2, function, 5, [1], [1] * 50)
                self.refused(3, function, 5, [5, 1], [1, 1])
                self.refused(3, function, 5, [1, 1], [1, 4294967295])

    def test_product(self):
        self.refused(2, jingcobu.product, 5, [1] * 25, [1] * 26)
        self.assertEqual(len(jingcobu.product(5, [1] * 25, [1] * 25)), 49)
        for n, f, g in ((1, [1], [1]), (5, [], [1]), (5, [1] * 49, [1, 1]), (5, [1], [6])):
            with self.assertRaises(Refused) as one:
                jingcobu.product_word(n, f, g, 0)
            self.refused(one.exception.number, jingcobu.product, n, f, g)

    def test_one(self):
        for function in (jingcobu.true_degree, jingcobu.write_text, Factors):
            self.refused(1, function, 1, [])
            self.refused(2, function, 5, [])
            self.refused(2, function, 5, [0] * 50)
            self.refused(3, function, 5, [1, 5])
        self.refused(1, jingcobu.gcd, 1, 7, 7)
        self.refused(3, jingcobu.gcd, 7, 7, 1)
        self.refused(3, jingcobu.gcd, 7, 1, 7)
        self.refused(1, jingcobu.read_text, 0, "x")
        for text in ("", "x", "1*x^1", "5+1*x", "1*x+0", "01", "7", "1*x^49", "1*x+2*x", "1*x^2+1*x^2", "1+1", "0+1", "1*x^0", "1 ", "1\0", "\u00e9", "2*x+"):
            self.refused(17, jingcobu.read_text, 7, text)
            if text != "7":
                with self.assertRaises(ValueError):
                    jingcobu.unspell(text, 49)
        for frames in (0, 1025, 4294967295):
            self.refused(15, jingcobu.shares, frames, [1, 1, 1, 1])

    def test_factors(self):
        held = Factors(12, [1, 4])
        self.refused(2, held.arrive, 1, [])
        self.refused(3, held.arrive, 0, [12])
        self.refused(14, held.arrive, 0, [1])
        self.refused(14, held.leave, 0)
        self.refused(14, held.leave, 5)
        held.arrive(5, [3] + [0] * 47 + [1])
        self.refused(14, held.arrive, 5, [1])
        self.refused(13, held.arrive, 6, [1, 1])
        for number in range(100, 115):
            held.arrive(number, [1])
        before = held.resultant()
        self.refused(13, held.arrive, 6, [1])
        self.assertEqual(held.resultant(), before)
        held.leave(100)
        held.arrive(6, [1])

    def test_short_buffers(self):
        """6 and 7 belong to buffers, which callers of the package never see: they are tried below it."""
        work = (ctypes.c_uint32 * 8192)()
        words = (ctypes.c_uint32 * 2)(1, 1)
        product = _library.service("product")
        self.assertEqual(product(5, words, 2, words, 2, (ctypes.c_uint32 * 2)(), 2).status, 6)
        self.assertEqual(_library.service("resultant")(5, words, 2, words, 2, work, 8191).status, 7)
        self.assertEqual(jingcobu.MEANING[6], "a result buffer is too short")

    @needs("resultant_cofactors")
    def test_no_cofactors(self):
        self.refused(9, jingcobu.resultant_cofactors, 5, [1], [2])
        self.refused(3, jingcobu.resultant_cofactors, 5, [1], [5])

    @needs("check_claim")
    def test_claims(self):
        check = jingcobu.check_claim
        self.refused(1, check, 1, [], [], 0, [], [])
        self.refused(2, check, 5, [], [1], 0, [], [])
        self.refused(16, check, 5, [9], [1], 0, [], [1])
        self.refused(16, check, 5, [9], [1], 0, [1], [])
        self.refused(16, check, 5, [1], [1], 0, [1] * 4097, [1])
        self.refused(3, check, 5, [1], [1], 0, [1] * 4096, [5])
        self.refused(3, check, 5, [9], [1], 0, [1], [1])

    @needs("resultant_two")
    def test_two(self):
        two = jingcobu.resultant_two
        self.refused(1, two, 1, [], [])
        self.refused(2, two, 61, [], [[1]])
        self.refused(2, two, 61, [[1]], [[], []])
        self.refused(2, two, 61, [[1]] * 50, [[1]])
        self.refused(2, two, 61, [[1]], [[1] * 50])
        self.refused(3, two, 61, [[61]], [[1]])
        self.refused(12, two, 61, [[1] * 9] * 9, [[1] * 9] * 9)
        self.refused(11, two, 6, [[1, 1], [1, 1]], [[1, 1], [1, 1]])

    def test_numbers_that_fit_no_word(self):
        for bad in (-1, 2 ** 64, 10 ** 30):
            for call in (lambda: jingcobu.resultant(bad, [1], [1]), lambda: jingcobu.resultant(5, [bad], [1]),
                         lambda: jingcobu.gcd(5, bad, 1), lambda: jingcobu.shares(bad, [1, 1, 1, 1]),
                         lambda: jingcobu.resultants(5, [([1], [bad])])):
                with self.assertRaises(ValueError) as caught:
                    call()
                self.assertNotIsInstance(caught.exception, Refused)
        held = Factors(5, [1])
        with self.assertRaises(ValueError):
            held.arrive(65536, [1])
        with self.assertRaises(ValueError):
            jingcobu.shares(4, [1, 1, 1])
        for bad in (1.0, "1", None):
            with self.assertRaises(TypeError):
                jingcobu.resultant(5, [bad], [1])
            with self.assertRaises(TypeError):
                jingcobu.resultant(bad, [1], [1])

    def test_mistakes_are_told(self):
        """What is not a polynomial is a TypeError, and what does not fit a word a ValueError; both say of which function, where and what."""
        for bad in (b"\3\2", bytearray(b"\3\2"), {3, 2}, frozenset([3]), {3: 2}, "32", memoryview(b"\3\2"), 7, None, 1.5):
            for name in ("resultant", "reduced_resultant", "divisor", "product", "why", "resultant_cofactors"):
                for pair in ((bad, [1]), ([1], bad)):
                    with self.assertRaisesRegex(TypeError, "^%s: [fg] is .* not a sequence of integers$" % name):
                        getattr(jingcobu, name)(12, *pair)
            with self.assertRaisesRegex(TypeError, "^true_degree: f is "):
                jingcobu.true_degree(12, bad)
            with self.assertRaisesRegex(TypeError, "^Factors: h is "):
                Factors(12, bad)
        for call, told in (
                (lambda: jingcobu.resultant(12, [1, 2], [3, -4]), r"resultant: g\[1\] = -4 is not from 0 to 11"),
                (lambda: jingcobu.why(12, [1, 2 ** 32], [3]), r"why: f\[1\] = 4294967296 is not from 0 to 11"),
                (lambda: jingcobu.divisor(12, [1, 2 ** 64], [3]), r"divisor: f\[1\] = 18446744073709551616 is not from 0 to 11"),
                (lambda: jingcobu.resultant_two(12, [[1], [-1]], [[1]]), r"resultant_two: f\[1\]\[0\] = -1 is not from 0 to 11"),
                (lambda: jingcobu.check_claim(12, [1], [1], 1, [-1], [1]), r"check_claim: u\[0\] = -1 is not from 0 to 11"),
                (lambda: jingcobu.resultant(-7, [1], [1]), "resultant: n = -7 is not from 2 to 9223372036854775807"),
                (lambda: jingcobu.why(2 ** 40, [1], [1]), "why: n = 1099511627776 is not from 2 to 4294967295; this service has words of 32 bits only"),
                (lambda: jingcobu.gcd(12, -1, 0), "gcd: a = -1 is not from 0 to 11")):
            with self.assertRaisesRegex(ValueError, "^" + told + "$"):
                call()
        for call, told in (
                (lambda: jingcobu.resultant(12, [1, 2.0], [3]), r"resultant: f\[1\] is 2.0 of type float, not an integer"),
                (lambda: jingcobu.resultant("12", [1], [3]), "resultant: n is '12' of type str, not an integer"),
                (lambda: jingcobu.gcd(12, None, 0), "gcd: a is None of type NoneType, not an integer"),
                (lambda: jingcobu.read_text(12, b"1"), "read_text: text is b'1' of type bytes, not a str"),
                (lambda: jingcobu.shares(10, b"\1\2\3\4"), r"shares: waiting is b'.*' of type bytes, not a sequence of integers"),
                (lambda: jingcobu.shares(10, [1, 2, 3, None]), r"shares: waiting\[3\] is None of type NoneType, not an integer"),
                (lambda: jingcobu.shares("10", [1, 2, 3, 4]), "shares: frames is '10' of type str, not an integer"),
                (lambda: jingcobu.resultant_two(61, {(1, 2)}, [[1]]), r"resultant_two: f is \{\(1, 2\)\} of type set, not a sequence of rows"),
                (lambda: jingcobu.resultant_two(61, [[1]], 7), "resultant_two: g is 7 of type int, not a sequence of rows"),
                (lambda: jingcobu.resultant_two(61, [[1]], [b"1"]), r"resultant_two: g\[0\] is b'1' of type bytes, not a sequence of integers"),
                (lambda: jingcobu.resultants(12, 7), "resultants: F is 7 of type int, not a sequence of pairs"),
                (lambda: jingcobu.divisors(12, {1: 2}), r"divisors: F is \{1: 2\} of type dict, not a sequence of pairs"),
                (lambda: jingcobu.divisors(12, ["ab"]), "divisors: pair 0 is 'ab' of type str, not two polynomials"),
                (lambda: jingcobu.resultant(12, {1: 2}.keys(), [1]), r"resultant: f is dict_keys\(\[1\]\) of type dict_keys, not a sequence of integers"),
                (lambda: jingcobu.product_word(12, [1], [1], 1.5), "product_word: k is 1.5 of type float, not an integer"),
                (lambda: jingcobu.check_claim(12, [1], [1], None, [1], [1]), "check_claim: d is None of type NoneType, not an integer"),
                (lambda: jingcobu.check_claim(12, [1], [1], 1, b"1", [1]), "check_claim: u is b'1' of type bytes, not a sequence of integers"),
                (lambda: jingcobu.write_text(12, "x"), "write_text: f is 'x' of type str, not a sequence of integers"),
                (lambda: jingcobu.spell(b"12"), "spell: words is b'12' of type bytes, not a sequence of integers"),
                (lambda: jingcobu.spell([1, "2"]), r"spell: words\[1\] is '2' of type str, not an integer"),
                (lambda: jingcobu.unspell(b"1", 49), "unspell: text is b'1' of type bytes, not a str"),
                (lambda: jingcobu.unspell("1", "49"), "unspell: most is '49' of type str, not an integer"),
                (lambda: jingcobu.parse(b"x", 12), "parse: text is b'x' of type bytes, not a str"),
                (lambda: jingcobu.parse("x", "12"), "parse: n is '12' of type str, not an integer"),
                (lambda: jingcobu.parse("x", 12, degree=2.0), "parse: degree is 2.0 of type float, not an integer"),
                (lambda: jingcobu.frame("resultant", 12, b"12", [1]), "frame: f is b'12' of type bytes, not a sequence of integers"),
                (lambda: jingcobu.frame("resultant", 12, [1], [2.5]), r"frame: g\[0\] is 2.5 of type float, not an integer"),
                (lambda: jingcobu.frame("resultant", None, [1], [2]), "frame: n is None of type NoneType, not an integer"),
                (lambda: jingcobu.frame(1, 12, [1], [2]), "frame: kind is 1 of type int, not a str"),
                (lambda: jingcobu.answers(b"010000000002"), "answers: lines is b'010000000002' of type bytes, not a sequence of lines"),
                (lambda: jingcobu.answers([b"010000000002"]), "answers: line 1 is b'010000000002' of type bytes, not a str"),
                (lambda: Factors(12, [1]).arrive("7", [1]), "Factors.arrive: number is '7' of type str, not an integer"),
                (lambda: Factors(12, [1]).arrive(7, b"1"), "Factors.arrive: f is b'1' of type bytes, not a sequence of integers"),
                (lambda: Factors(12, [1]).leave(None), "Factors.leave: number is None of type NoneType, not an integer")):
            with self.assertRaisesRegex(TypeError, "^" + told + "$"):
                call()
        for call, told in (
                (lambda: jingcobu.frame("resultant", 12, [1, -3], [1]), r"frame: f\[1\] = -3 is not from 0 to 11"),
                (lambda: jingcobu.frame("resultant", 12, [1], [2 ** 32]), r"frame: g\[0\] = 4294967296 is not from 0 to 11"),
                (lambda: jingcobu.frame("resultant", 12, [1], [1] * 50), "frame: g has 50 words, not from 1 to 49"),
                (lambda: jingcobu.frame("other", 12, [1], [1]), "frame: kind is 'other', not resultant or reduced"),
                (lambda: jingcobu.shares(4, [1, 1, 1]), "shares: four groups wait, not 3"),
                (lambda: jingcobu.shares(4, [1, 1, 1, -1]), r"shares: waiting\[3\] = -1 is not from 0 to 4294967295")):
            with self.assertRaisesRegex(ValueError, "^" + told + "$"):
                call()

    def test_services_of_one_width(self):
        """Those that have words of 32 bits only say so."""
        for name, *more in (("resultant_cofactors", [1], [1]), ("why", [1], [1]), ("check_claim", [1], [1], 1, [1], [1]), ("resultant_two", [[1]], [[1]]),
                            ("product_word", [1], [1], 0), ("write_text", [1]), ("read_text", "1"), ("Factors", [1])):
            with self.assertRaisesRegex(ValueError, "^%s: n = 4294967296 is not from 2 to 4294967295; this service has words of 32 bits only$" % name):
                getattr(jingcobu, name)(2 ** 32, *more)

    def test_older_names(self):
        self.assertIs(jingcobu.product64, jingcobu.product)
        self.assertIs(jingcobu.resultant64, jingcobu.resultant)
        self.assertIs(jingcobu.reduced_resultant64, jingcobu.reduced_resultant)

    def test_which_width(self):
        """The set that is called: that of 32 bits where n and all words fit it, whatever kind of sequence has them."""
        calls, told = {"resultant": 2, "reduced_resultant": 2, "divisor": 2, "product": 2, "true_degree": 1, "resultants": -2, "divisors": -2}, []
        found, jingcobu._call = jingcobu._call, lambda service, *given: told.append(service) or found(service, *given)
        try:
            for n, word, narrow in ((12, 11, True), (2 ** 32 - 1, 5, True), (2 ** 32, 5, False), (2 ** 63 - 1, 2 ** 62, False), (12, 2 ** 32, False)):
                for name, count in calls.items():
                    for make in (list, tuple, iter, lambda x: array("Q", x)):
                        given = [make([0, word]) if count > 0 else [make([0, word])] for _ in range(abs(count))]
                        told.clear()
                        try:
                            getattr(jingcobu, name)(n, *given)
                        except Refused as refused:
                            self.assertEqual((n, word, refused.number), (12, 2 ** 32, 3))
                        self.assertEqual(told, [name if narrow else name + "64"], (n, word))
                told.clear()
                try:
                    jingcobu.gcd(n, 0, word)
                except Refused as refused:
                    self.assertEqual((n, word, refused.number), (12, 2 ** 32, 3))
                self.assertEqual(told, ["gcd" if narrow else "gcd64"])
        finally:
            jingcobu._call = found

    def test_width_chosen(self):
        """n and words that do not fit 32 bits go to the set of 64 bits, with its refusals."""
        n = 2 ** 40 + 15
        self.assertEqual(jingcobu.resultant(n, [1, 1], [2, 1]), resultant64(n, [1, 1], [2, 1]))
        self.assertEqual(jingcobu.product(n, [n - 1], [n - 1]), [1])
        self.assertEqual(jingcobu.reduced_resultant(n, [3], [5]), reduced_resultant64(n, [3], [5]))
        self.assertEqual(jingcobu.resultant(2 ** 63 - 1, iter([1, 1]), range(2)), resultant64(2 ** 63 - 1, [1, 1], [0, 1]))
        for n, f, number in ((2 ** 63, [1], 1), (12, [2 ** 40], 3), (12, [1] * 50, 2), (2 ** 32, [1] * 50, 2)):
            for function in (jingcobu.resultant, jingcobu.reduced_resultant, jingcobu.divisor, jingcobu.product):
                self.refused(number, function, n, f, [1])
            self.refused(number, jingcobu.true_degree, n, f)
        self.refused(2, jingcobu.true_degree, n, [])
        for n, a, b, number in ((2 ** 63, 1, 1, 1), (2 ** 64 - 1, 1, 1, 1), (12, 2 ** 40, 1, 3), (2 ** 40, 1, 2 ** 40, 3), (1, 2 ** 40, 2 ** 40, 1)):
            self.refused(number, jingcobu.gcd, n, a, b)

    @needs("divisor64", "gcd64", "true_degree64")
    def test_64_bit_divisors_gcds_and_degrees(self):
        """D alone, the gcd and the true degree with words of 64 bits, against the reduced resultant and numbers worked here."""
        generator = random.Random(38)
        for _ in range(300):
            n = generator.choice([2 ** 32, 6 ** 24, 3 ** 39, 2 ** 61 - 1, 3037000493 ** 2, 2 ** 63 - 1])
            f, g = (drawn(generator, n, generator.randrange(9)) for _ in range(2))
            self.assertEqual(jingcobu.divisor(n, f, g), reduced_resultant64(n, f, g).D)
            degrees = [i for i, x in enumerate(f) if x]
            self.assertEqual(jingcobu.true_degree(n, f), degrees[-1] if degrees else None)
            a, b = f[0], g[0]
            found = jingcobu.gcd(n, a, b)
            common = math.gcd(b, n)
            self.assertEqual(found.g, math.gcd(a, common))
            self.assertEqual((found.s * a + found.t * b - found.g) % n, 0)
            self.assertTrue(found.s < common // found.g and found.t < n // common)  # the least: two that fit differ by these
        for n in MODULI:
            f, g = (drawn(generator, n, generator.randrange(9)) for _ in range(2))
            self.assertEqual(jingcobu.divisor(n, f, g), reduced_resultant64(n, f, g).D)
            a, b = generator.randrange(n), generator.randrange(n)
            self.assertEqual(jingcobu.gcd(n, a, b), tuple(x if isinstance(x, int) else x[0] for x in reduced_resultant64(n, [a], [b])))

    def test_place(self):
        with self.assertRaises(Refused) as caught:
            jingcobu.resultants(5, [([1], [1]), ([1], [7])])
        self.assertEqual((caught.exception.number, caught.exception.place), (3, 1))
        self.assertEqual(str(caught.exception), "pair 1 refused with 3: a word or a residue is n or more")

    def test_other_integers(self):
        class Whole:
            def __init__(self, x):
                self.x = x

            def __index__(self):
                return self.x

        self.assertEqual(jingcobu.resultant(Whole(12), [Whole(3), 2], (1, Whole(4))), 2)
        self.assertEqual(jingcobu.resultant(12, array("I", [3, 2]), range(1, 5, 3)), 2)


class Laws(unittest.TestCase):
    def test_products(self):
        generator = random.Random(3)
        for _ in range(1000):
            n = generator.choice(MODULI)
            f, g, h = (drawn(generator, n, generator.randrange(9)) for _ in range(3))
            p = jingcobu.product(n, f, g)
            self.assertEqual(p, times(n, f, g))
            rp, rf, rg = jingcobu.resultants(n, [(p, h), (f, h), (g, h)])
            self.assertEqual(rp, rf * rg % n)
            Dp, Df, Dg = (jingcobu.reduced_resultant(n, x, h).D for x in (p, f, g))
            self.assertEqual((Dp % Df, Dp % Dg, Df * Dg % Dp), (0, 0, 0))
            held = Factors(n, h)
            held.arrive(1, f)
            alone = held.copy()
            held.arrive(2, g)
            self.assertEqual((held.resultant(), alone.resultant()), (rp, rf))
            held.leave(1)
            self.assertEqual(held.resultant(), rg)
            self.assertEqual([jingcobu.product_word(n, f, g, k) for k in range(len(p) + 1)], p + [None])

    def test_texts(self):
        generator = random.Random(4)
        for _ in range(500):
            n = generator.choice(MODULI)
            f = drawn(generator, n, generator.randrange(49))
            text = jingcobu.write_text(n, f)
            self.assertEqual(text, jingcobu.spell(f))
            words = jingcobu.read_text(n, text)
            self.assertEqual(words, jingcobu.unspell(text, 49))
            degree = jingcobu.true_degree(n, f)
            self.assertEqual(words, [0] if degree is None else f[:degree + 1])

    def test_gcds(self):
        for n in (2, 6, 12, 36):
            for a in range(n):
                for b in range(n):
                    g, s, t = jingcobu.gcd(n, a, b)
                    self.assertEqual(g, math.gcd(a, b, n))
                    fits = [(x, y) for x in range(n) for y in range(n) if (x * a + y * b - g) % n == 0]
                    self.assertEqual((s, t), min(fits))

    @needs("resultant_cofactors")
    def test_cofactors(self):
        generator = random.Random(5)
        for _ in range(300):
            n, d, e = generator.choice(MODULI), generator.randrange(5), generator.randrange(5)
            if d + e == 0:
                continue
            f, g = drawn(generator, n, d), drawn(generator, n, e)
            r, u, v = jingcobu.resultant_cofactors(n, f, g)
            self.assertEqual(r, jingcobu.resultant(n, f, g))
            self.assertEqual((len(u), len(v)), (e, d))
            self.assertEqual(combined(n, u, f, v, g), constant(n, r))

    @needs("why")
    def test_grounds(self):
        generator, seen = random.Random(6), set()
        for _ in range(600):
            n = generator.choice([4, 6, 8, 9, 12, 30, 36, 210])
            f, g = drawn(generator, n, generator.randrange(5)), drawn(generator, n, generator.randrange(5))
            ground, m, w = jingcobu.why(n, f, g)
            D = jingcobu.reduced_resultant(n, f, g).D
            seen.add(ground)
            self.assertEqual(ground is Ground.COPRIME, D == 1)
            if ground is Ground.COPRIME:
                self.assertEqual((m, w), (0, []))
                continue
            self.assertTrue(m > 1 and D % m == 0)
            if ground is Ground.ZERO:
                self.assertTrue(all(x % m == 0 for x in f + g) and w == [])
                continue
            self.assertTrue(len(w) >= 2 and w[-1] == 1)
            for p in (f, g):
                rest = [x % m for x in p]
                while len(rest) >= len(w):
                    top = rest[-1]
                    for k, x in enumerate(w):
                        rest[len(rest) - len(w) + k] -= top * x
                    rest.pop()
                self.assertTrue(all(x % m == 0 for x in rest))
        self.assertEqual(seen, set(Ground))

    @needs("check_claim")
    def test_claims(self):
        n, f, g = 12, [3, 2], [1, 4]
        D, u, v = jingcobu.reduced_resultant(n, f, g)
        check = jingcobu.check_claim
        self.assertIs(check(n, f, g, D, u, v), Claim.TRUE)
        self.assertIs(check(n, f, g, 0, u, v), Claim.NO_DIVISOR)
        self.assertIs(check(n, f, g, 5, u, v), Claim.NO_DIVISOR)
        self.assertIs(check(n, f, g, 2, u, v), Claim.NOT_COMBINED)
        self.assertIs(check(n, f, g, 2, [2 * x % n for x in u], [2 * x % n for x in v]), Claim.NOT_REDUCED)
        self.assertIs(check(n, f, g, D, u + [0] * (4096 - len(u)), v), Claim.TRUE)

    @needs("resultant_two")
    def test_two_variables(self):
        generator = random.Random(7)
        for _ in range(60):
            n = generator.choice([61, 3721, 4087, 4294967291])
            d, e, a, b = (generator.randrange(4) for _ in range(4))
            f = [drawn(generator, n, a) for _ in range(d + 1)]
            g = [drawn(generator, n, b) for _ in range(e + 1)]
            answer = jingcobu.resultant_two(n, f, g)
            self.assertEqual(len(answer), e * a + d * b + 1)
            for z in range(20):
                def at(words):
                    return sum(x * z ** k for k, x in enumerate(words)) % n
                self.assertEqual(at(answer), jingcobu.resultant(n, [at(row) for row in f], [at(row) for row in g]))
        with self.assertRaises(ValueError):
            jingcobu.resultant_two(61, [[1, 2], [3]], [[1]])

    def test_threads(self):
        generator = random.Random(8)
        jobs = [(4294967291, drawn(generator, 4294967291, 24), drawn(generator, 4294967291, 24)) for _ in range(200)]
        right, wrong = [jingcobu.resultant(*job) for job in jobs], []

        def run():
            for job, value in zip(jobs, right):
                if jingcobu.resultant(*job) != value:
                    wrong.append(job)

        threads = [threading.Thread(target=run) for _ in range(4)]
        for thread in threads:
            thread.start()
        for thread in threads:
            thread.join()
        self.assertEqual(wrong, [])


class Sharing(unittest.TestCase):
    def test_factors_and_threads(self):
        """Sixteen threads whose factors arrive and leave at one object: none is lost. Each call lets the other threads run before its answer is
        kept, so that without the lock many are lost."""
        held, wrong, call = Factors(4294967291, [5, 1]), [], jingcobu._call

        def yielding(service, *given):
            answer = call(service, *given)
            time.sleep(0)
            return answer

        jingcobu._call = yielding
        self.addCleanup(setattr, jingcobu, "_call", call)

        def run(number):
            for _ in range(200):
                held.arrive(number, [number])
                try:
                    held.leave(number)
                except Refused as refused:
                    wrong.append(refused)
            held.arrive(number, [number])

        threads = [threading.Thread(target=run, args=(k,)) for k in range(1, 17)]
        for thread in threads:
            thread.start()
        for thread in threads:
            thread.join()
        self.assertEqual(wrong, [])
        self.assertEqual(held.resultant(), math.factorial(16) % 4294967291)
        self.assertEqual(repr(held), "Factors(n=4294967291, h=[5, 1], degrees=%r)" % {k: 0 for k in range(1, 17)})

    def test_equality(self):
        one, other = Factors(12, [1, 4]), Factors(12, [1, 4])
        for number, f in ((7, [3, 2]), (8, [5])):
            one.arrive(number, f)
        for number, f in ((8, [5]), (7, [3, 2])):
            self.assertNotEqual(one, other)
            other.arrive(number, f)
        self.assertEqual(one, other)
        self.assertEqual(one, one.copy())
        other.leave(8)
        self.assertNotEqual(one, other)
        self.assertNotEqual(Factors(12, [1, 4]), Factors(12, [1, 4, 0]))
        self.assertNotEqual(Factors(12, [1, 4]), Factors(13, [1, 4]))
        self.assertNotEqual(one, "Factors")


class Parsing(unittest.TestCase):
    def test_as_others_print(self):
        for text, words in (("3*x^2 - x + 1", [1, 11, 3]), ("x", [0, 1]), ("-x", [0, 11]), ("- 1", [11]), ("3*x**2+2", [2, 0, 3]), ("0", [0]),
                            ("12*x^2 + x", [0, 1]), ("1 + x + x^2", [1, 1, 1]), ("x + x + x", [0, 3]), ("x^0", [1]), ("25", [1]), ("+x", [0, 1]),
                            ("Mod(2, 12)*x + Mod(3, 12)", [3, 2]), ("x - -1", [1, 1]), ("100000000000000000000000*x", [0, 4]), (" x\t^ 2 ", [0, 0, 1]),
                            ("x^48", [0] * 48 + [1])):
            with self.subTest(text):
                self.assertEqual(jingcobu.parse(text, 12), words)
        self.assertEqual(jingcobu.parse("x", 12, degree=2), [0, 1, 0])
        self.assertEqual(jingcobu.parse("%s*x - %s" % ("9" * 10000, "1" * 5000), 10), [9, 9])

    def test_sympy(self):
        for text, words in (("Poly(3*x**2 - x + 1, x, modulus=13)", [1, 12, 3]), ("Poly(3*x**2 - 14*x, x, domain='ZZ')", [0, 12, 3]),
                            (" Poly( 1, x , modulus = 13 ) ", [1]), ("3 mod 13*x**2 + 12 mod 13*x + 1 mod 13", [1, 12, 3])):
            self.assertEqual(jingcobu.parse(text, 13), words)
        for text, place, said in (("Poly(3*x**2 -, x, modulus=13)", 14, "a term"), ("Poly(x, x, modulus=11)", 20, "another modulus"),
                                  ("Poly(x, y, modulus=13)", 1, "a term"), ("Poly(x", 1, "a term"), ("Poly(x y, x, modulus=13)", 8, "+ or -"),
                                  ("x + 3 mod 7", 5, "another modulus"), ("3 mod", 3, "+ or -")):
            with self.assertRaisesRegex(ValueError, "^character %d of .*: .*%s" % (place, re.escape(said))):
                jingcobu.parse(text, 13)

    @unittest.skipUnless(importlib.util.find_spec("sympy"), "sympy is not installed")
    def test_as_sympy_prints(self):
        import sympy
        x, generator = sympy.symbols("x"), random.Random(14)
        for _ in range(50):
            n, f = generator.choice([7, 13, 101, 2147483647]), [generator.randrange(-300, 300) for _ in range(generator.randrange(1, 9))]
            words = [w % n for w in f]
            while len(words) > 1 and not words[-1]:
                words.pop()
            expression = sum(c * x ** k for k, c in enumerate(f))
            y = sympy.ring("x", sympy.GF(n, symmetric=False))[1]
            element = sum((c * y ** k for k, c in enumerate(f)), 0 * y)
            for printed in (expression, sympy.Poly(expression, x), sympy.Poly(expression, x, modulus=n), element):
                self.assertEqual(jingcobu.parse(str(printed), n), words)

    @unittest.skipUnless(shutil.which("gp"), "PARI's gp is not installed")
    def test_as_pari_prints(self):
        generator, jobs, script = random.Random(15), [], []
        for _ in range(50):
            n, f = generator.choice(MODULI), [generator.randrange(-300, 300) for _ in range(generator.randrange(1, 9))]
            jobs.append((n, [w % n for w in f]))
            script.append("print(Polrev(%s));print(Mod(1,%d)*Polrev(%s))" % (f, n, f))
        said = subprocess.run(["gp", "-q", "-f"], input="\n".join(script) + "\n", capture_output=True, text=True, check=True).stdout.splitlines()
        self.assertEqual(len(said), 2 * len(jobs))
        for i, text in enumerate(said):
            n, words = jobs[i // 2]
            while len(words) > 1 and not words[-1]:
                words.pop()
            self.assertEqual(jingcobu.parse(text, n), words, text)

    def test_own_notation(self):
        generator = random.Random(13)
        for _ in range(300):
            n = generator.choice(MODULI)
            text = jingcobu.spell(drawn(generator, n, generator.randrange(49)))
            self.assertEqual(jingcobu.parse(text, n), jingcobu.read_text(n, text))

    def test_places(self):
        for text, place, said in (("", 1, "a term"), ("   ", 4, "a term"), ("3*x^", 5, "a power"), ("3x", 2, "+ or -"), ("x^49", 3, "above 48"), ("y", 1, "a term"),
                                  ("x^-1", 3, "a power"), ("2*", 3, "x is"), ("2*3", 3, "x is"), ("x +", 4, "a term"), ("x x", 3, "+ or -"), ("x,1", 2, "+ or -"),
                                  ("Mod(1, 7)*x", 1, "another modulus"), ("x^1.5", 4, "+ or -"), ("1/2", 2, "+ or -"), ("(x)", 1, "a term"), ("x^2\u0665", 4, "+ or -")):
            with self.subTest(text):
                with self.assertRaisesRegex(ValueError, "^character %d of .*: .*%s" % (place, re.escape(said))):
                    jingcobu.parse(text, 12)
        with self.assertRaisesRegex(ValueError, "has the degree 2, above 1"):
            jingcobu.parse("x^2", 12, degree=1)
        for bad in (b"x", 3, None, [1]):
            with self.assertRaises(TypeError):
                jingcobu.parse(bad, 12)


@unittest.skipUnless(shutil.which("gp"), "PARI's gp is not installed")
class Pari(unittest.TestCase):
    def test_integer_determinants(self):
        """A thousand drawn pairs against PARI's determinant of the integer Sylvester matrix in the sent degrees."""
        generator, jobs, script = random.Random(9), [], []
        script.append("syl(f,g)={my(d=#f-1,e=#g-1);matrix(d+e,d+e,i,j,my(p=if(i<=e,f,g),s=if(i<=e,i,i-e),k=#p-1-(j-s));"
                      "if(k>=0&&k<#p,p[k+1],0))};")
        for _ in range(1000):
            n = generator.choice(MODULI)
            f, g = drawn(generator, n, generator.randrange(9), 6), drawn(generator, n, generator.randrange(9), 6)
            jobs.append((n, f, g))
            script.append("print(matdet(syl(%s,%s))%%%d)" % (f, g, n))
        said = subprocess.run(["gp", "-q", "-f"], input="\n".join(script) + "\n", capture_output=True, text=True, check=True).stdout.split()
        self.assertEqual(len(said), len(jobs))
        for job, value in zip(jobs, said):
            self.assertEqual(jingcobu.resultant(*job), int(value), job)


class CommandLine(unittest.TestCase):
    def run_main(self, *arguments, status=0):
        out, error = io.StringIO(), io.StringIO()
        with redirect_stdout(out), redirect_stderr(error):
            self.assertEqual(__main__.main(list(arguments)), status, error.getvalue())
        return error.getvalue() if status else out.getvalue()

    def test_resultant(self):
        self.assertEqual(self.run_main("resultant", "12", "2*x+3", "4*x+1"), "2\n")
        self.assertEqual(self.run_main("resultant", "5", "2,1,0", "1*x+1"), "1\n")
        self.assertEqual(self.run_main("resultant", "1", "0", "0", status=1), "jingcobu resultant: refused with 1: %s\n" % jingcobu.MEANING[1])
        self.assertEqual(self.run_main("resultant", "12", "2*x + 3", "16*x - 11"), "2\n")
        self.assertEqual(self.run_main("resultant", "12", "y", "1", status=1),
                         "jingcobu resultant: F: character 1 of 'y': a term is expected: a number, x, or both with * between them\n")
        self.assertEqual(self.run_main("resultant", "12", "1,y", "1", status=1), "jingcobu resultant: F: word 1 is 'y', not an integer\n")
        self.assertEqual(self.run_main("resultant", str(2 ** 62), "1,%d" % 2 ** 40, "x + 3"), "3298534883327\n")
        self.assertEqual(self.run_main("resultant", "5", "-x^2-1", "-2"), self.run_main("resultant", "5", "4,0,4", "3"))
        self.assertEqual(self.run_main("resultant", "13", "Poly(3*x**2 - 1, x, modulus=13)", "Mod(2, 13)*x"), self.run_main("resultant", "13", "12,0,3", "0,2"))

    def test_bad_words(self):
        """What is wrong with a word is told, with its place; a bad N or too many words are for the engine to refuse."""
        for words, told in (
                (("resultant", "12", "1,12", "1"), "F: word 1 is 12, not from 0 to 11"),
                (("divisor", "12", "1", "1,2,-3"), "G: word 2 is -3, not from 0 to 11"),
                (("resultant", "12", "-1,2", "1"), "F: word 0 is -1, not from 0 to 11"),
                (("product", "12", "1,1_0", "1"), "F: word 1 is '1_0', not an integer"),
                (("product", "12", "1,", "1"), "F: word 1 is '', not an integer"),
                (("check", "6", "2", "4", "2", "0,6", "2"), "U: word 1 is 6, not from 0 to 5"),
                (("two", "61", "0,60;1,61", "1"), "F, row 1: word 1 is 61, not from 0 to 60"),
                (("gcd", "12", "8", "13"), "B is 13, not from 0 to 11"),
                (("gcd", "12", "-8", "1"), "A is -8, not from 0 to 11"),
                (("why", "4294967296", "1", "1"), "why: n = 4294967296 is not from 2 to 4294967295; this service has words of 32 bits only"),
                (("resultant", "1", "1,12", "1"), "refused with 1: " + jingcobu.MEANING[1]),
                (("resultant", "12", "12" + ",12" * 49, "1"), "refused with 2: " + jingcobu.MEANING[2])):
            self.assertEqual(self.run_main(*words, status=1), "jingcobu %s: %s\n" % (words[0], told))

    def test_factors(self):
        self.assertEqual(self.run_main("factors", "12", "4*x + 1", "7=2*x + 3", "8=5", "7="), "2\n10\n5\n")
        self.assertEqual(self.run_main("factors", "12", "4*x + 1"), "1\n")
        self.assertEqual(json.loads(self.run_main("factors", "--json", "12", "4*x + 1", "7=2*x + 3", "8=5", "7=")), {"resultant": 5, "steps": [2, 10, 5]})
        for steps, told in ((["7=x", "7=x"], "step 2: refused with 14: " + jingcobu.MEANING[14]), (["x"], "step 1: NUMBER=F or NUMBER= is expected, not 'x'"),
                            (["-7=x"], "step 1: NUMBER=F or NUMBER= is expected, not ' -7=x'"), (["7=y"], "step 1: F: character 1 of 'y': a term"),
                            (["9="], "step 1: refused with 14")):
            self.assertIn("jingcobu factors: " + told, self.run_main("factors", "12", "4*x + 1", *steps, status=1))

    def test_own_notation(self):
        self.assertEqual(self.run_main("read", "12", "3*x^3+1*x+5"), "5,1,0,3\n")
        self.assertEqual(json.loads(self.run_main("read", "--json", "12", "3*x^3+1*x+5")), {"words": [5, 1, 0, 3]})
        self.assertIn("refused with 17", self.run_main("read", "12", "x - 1", status=1))
        self.assertEqual(self.run_main("text", "12", "x - 1"), "1*x+11\n")

    def test_help(self):
        """Every command has a help, with an example that begins with its name, and --json."""
        for name in __main__.COMMANDS:
            said = subprocess.run([sys.executable, "-m", "jingcobu", name, "--help"], capture_output=True, text=True)
            self.assertEqual((said.returncode, said.stderr), (0, ""))
            self.assertIn("--json", said.stdout)
            self.assertIn("example: jingcobu %s " % name, said.stdout)

    @needs("resultant_cofactors", "why", "check_claim", "resultant_two")
    def test_every_command(self):
        """Every service has a command; its example runs, and --json is the same answer."""
        covered = {"resultant": "resultant", "reduced_resultant": "reduced", "divisor": "divisor", "resultant_cofactors": "cofactors", "why": "why",
                   "resultants": "resultants", "divisors": "divisors",
                   "check_claim": "check", "product": "product", "product_word": "word", "true_degree": "degree", "gcd": "gcd", "resultant_two": "two",
                   "shares": "shares", "write_text": "text", "read_text": "read", **{"factors_" + x: "factors" for x in ("start", "arrive", "leave", "read")}}
        left = {name for name in _library.SIGNATURES if not name.endswith("64")} - set(covered)
        self.assertEqual(left, set())
        self.assertEqual(set(covered.values()) | {"frame", "frames", "answers"}, set(__main__.COMMANDS))
        for name, command in __main__.COMMANDS.items():
            if name not in ("answers", "frames", "resultants", "divisors"):
                words = shlex.split(command.example)
                self.assertTrue(self.run_main(name, *words).strip(), name)
                self.assertIsInstance(json.loads(self.run_main(name, "--json", *words)), dict)
        for words, data in ((("reduced", "--json", "6", "2", "4"), {"D": 2, "u": [0], "v": [2]}), (("degree", "--json", "5", "0,0"), {"degree": None}),
                            (("product", "--json", "6", "2*x + 1", "3*x + 1"), {"product": [1, 5, 0]}), (("word", "--json", "6", "1,2", "1,3", "1"), {"word": 5}),
                            (("two", "--json", "61", "0,60;1,0", "0,59;1,0"), {"resultant": [0, 60, 0]}), (("gcd", "--json", "12", "8", "6"), {"gcd": 2, "s": 1, "t": 1}),
                            (("shares", "--json", "10", "1", "100", "2", "100"), {"shares": [1, 4, 2, 3]})):
            self.assertEqual(json.loads(self.run_main(*words)), data)
        self.assertEqual(self.run_main("two", "61", "0,x", "1", status=1), "jingcobu two: F, row 0: word 1 is 'x', not an integer\n")

    def test_pairs_of_a_file(self):
        with tempfile.TemporaryDirectory() as folder:
            file = Path(folder) / "pairs.txt"
            file.write_text("2*x + 3 ; 4*x + 1\n\n5;x\n1,2,0 ; x - 1\n")
            right = [2, 5, jingcobu.resultant(12, [1, 2, 0], [11, 1])]
            self.assertEqual(self.run_main("resultants", "12", str(file)).split(), [str(x) for x in right])
            self.assertEqual(json.loads(self.run_main("resultants", "--json", "12", str(file))), {"resultants": right})
            right = [jingcobu.divisor(12, f, g) for f, g in (([3, 2], [1, 4]), ([5], [0, 1]), ([1, 2, 0], [11, 1]))]
            self.assertEqual(json.loads(self.run_main("divisors", "--json", "12", str(file))), {"divisors": right})
            said = subprocess.run([sys.executable, "-m", "jingcobu", "resultants", str(2 ** 62)], input=file.read_text(), capture_output=True, text=True)
            self.assertEqual(said.stdout.split(), [str(x) for x in jingcobu.resultants(2 ** 62, [[3, 2], [5], [1, 2, 0]], [[1, 4], [0, 1], [2 ** 62 - 1, 1]])])
            for text, told in (("x ; 1\nx\n", "line 2: F ; G is expected, two polynomials, not 1"), ("x ; 1 ; 2\n", "line 1: F ; G is expected, two polynomials, not 3"),
                               ("1 ; y\n", "line 1: G: character 1 of 'y': a term is expected: a number, x, or both with * between them"),
                               ("1;1\n1 ; 1,12\n", "line 2: G: word 1 is 12, not from 0 to 11")):
                file.write_text(text)
                self.assertEqual(self.run_main("resultants", "12", str(file), status=1), "jingcobu resultants: %s\n" % told)
            file.write_text("")
            self.assertEqual(self.run_main("divisors", "12", str(file)), "")
            self.assertIn("No such file", self.run_main("divisors", "12", str(file) + "s", status=1))

    def test_reduced(self):
        self.assertEqual(self.run_main("reduced", "6", "2", "4"), "D = 2\nu = 0\nv = 2\nu f + v g = 2 modulo 6\n")

    @needs("resultant_cofactors", "why", "check_claim")
    def test_new(self):
        said = self.run_main("cofactors", "12", "2*x+3", "4*x+1")
        self.assertTrue(said.startswith("resultant 2\nu = ") and said.endswith("u f + v g = 2 modulo 12\n"))
        self.assertIn("refused with 9", self.run_main("cofactors", "12", "2", "3", status=1))
        self.assertEqual(self.run_main("why", "12", "2*x+3", "4*x+1"), "coprime\n")
        self.assertEqual(self.run_main("why", "7", "1*x^2+6", "1*x+1"), "1*x+1 divides both modulo 7\n")
        self.assertEqual(self.run_main("why", "9", "3*x+3", "6"), "both are zero modulo 3\n")
        self.assertEqual(self.run_main("check", "6", "2", "4", "2", "0", "2"), "true\n")
        for d, v, said in (("5", "2", "5 does not divide 6"), ("2", "1", "u f + v g is not 2 modulo 6"), ("6", "0", "6 is not the reduced resultant")):
            out = io.StringIO()
            with redirect_stdout(out):
                self.assertEqual(__main__.main(["check", "6", "2", "4", d, "0", v]), 1)
            self.assertEqual(out.getvalue(), "false: %s\n" % said)

    def test_frames(self):
        lines = [self.run_main("frame", kind, "12", "2*x+3", "4*x+1") for kind in ("resultant", "reduced")]
        self.assertEqual("".join(lines) + "zz\n010000000101000000000000000000", (ROOT / "examples" / "frames").read_text().rstrip("\n"))
        with tempfile.TemporaryDirectory() as folder:
            file = Path(folder) / "answers"
            file.write_text("010000000002\n020000000001\nff0800000000\n010a00000000\n")
            self.assertEqual(self.run_main("answers", str(file)), "resultant 2\nreduced resultant 1\nrefused with 8: the line is not a frame\n"
                             "refused with 10: the top word of f or g is zero\n")
            file.write_text("01000000000\n")
            self.assertIn("line 1 is not an answer line", self.run_main("answers", str(file), status=1))
            self.assertIn("No such file", self.run_main("answers", str(file) + "s", status=1))
        for bad in (("other", 5, [1], [1]), ("resultant", 5, [], [1]), ("resultant", 5, [1] * 50, [1]), ("resultant", 2 ** 32, [1], [1])):
            with self.assertRaises(ValueError):
                jingcobu.frame(*bad)

    @unittest.skipUnless((ROOT / "build" / "jingcobu-desk").exists(), "build/jingcobu-desk is not there")
    def test_through_the_frame_program(self):
        generator, lines, right = random.Random(10), [], []
        for _ in range(300):
            n, kind = generator.choice(MODULI), generator.choice(["resultant", "reduced"])
            f, g = drawn(generator, n, generator.randrange(49)), drawn(generator, n, generator.randrange(49))
            lines.append(jingcobu.frame(kind, n, f, g))
            empty = not f[-1] or not g[-1]
            value = 0 if empty else jingcobu.resultant(n, f, g) if kind == "resultant" else jingcobu.reduced_resultant(n, f, g).D
            right.append((1 if kind == "resultant" else 2, 10 if empty else 0, value))
        said = subprocess.run([str(ROOT / "build" / "jingcobu-desk")], input="\n".join(lines) + "\n", capture_output=True, text=True, check=True)
        self.assertEqual(jingcobu.answers(said.stdout.splitlines()), right)

    @unittest.skipUnless((ROOT / "build" / "jingcobu-desk").exists(), "build/jingcobu-desk is not there")
    def test_frames_of_a_file(self):
        """The answers of the frame program; the lines done are reported to a terminal and to nothing else."""
        file = str(ROOT / "examples" / "frames")
        right = ["010000000002", "020000000001", "ff0800000000", "ff0800000000"]
        self.assertEqual(self.run_main("frames", file).split(), right)
        data = json.loads(self.run_main("frames", "--json", file))
        self.assertEqual([(a["kind"], a["status"], a["value"]) for a in data], [(1, 0, 2), (2, 0, 1), (255, 8, 0), (255, 8, 0)])
        self.assertIn("No such file", self.run_main("frames", file + ".none", status=1))
        command = [sys.executable, "-m", "jingcobu", "frames", file]
        said = subprocess.run(command, capture_output=True, text=True)
        self.assertEqual((said.returncode, said.stdout.split(), said.stderr), (0, right, ""))
        host, terminal = os.openpty()
        with open(host, "rb", buffering=0) as shown:
            said = subprocess.run(command, stdout=subprocess.PIPE, stderr=terminal, text=True)
            os.close(terminal)
            told = shown.read(4096).decode().replace("\r\n", "\n")
        self.assertEqual((said.returncode, said.stdout.split()), (0, right))
        self.assertEqual(told, "".join("\r[%-40s] %d of 4 lines" % ("#" * (10 * k), k) for k in range(1, 5)) + "\n")
        with tempfile.TemporaryDirectory() as folder:
            empty, failing = Path(folder) / "empty", Path(folder) / "desk"
            empty.write_text("")
            self.assertEqual(self.run_main("frames", str(empty)), "")
            failing.write_text("#!/bin/sh\necho 010000000002\nexit 1\n")
            failing.chmod(0o755)
            said = subprocess.run(command, capture_output=True, text=True, env={**os.environ, "JINGCOBU_DESK": str(failing)})
            self.assertEqual((said.returncode, said.stdout), (1, "010000000002\n"))
            said = subprocess.run(command, capture_output=True, text=True, env={**os.environ, "JINGCOBU_DESK": str(failing) + ".none"})
            self.assertEqual(said.returncode, 1)
            self.assertIn("No such file", said.stderr)

    def test_as_a_program(self):
        said = subprocess.run([sys.executable, "-m", "jingcobu", "resultant", "12", "2*x+3", "4*x+1"], capture_output=True, text=True)
        self.assertEqual((said.returncode, said.stdout, said.stderr), (0, "2\n", ""))

    def test_without_a_library(self):
        said = subprocess.run([sys.executable, "-m", "jingcobu", "resultant", "12", "2*x+3", "4*x+1"], capture_output=True, text=True,
                              env={**os.environ, "JINGCOBU_LIBRARY": "/nowhere/libjingcobu.so"})
        self.assertEqual(said.returncode, 1)
        self.assertIn("the shared library of Jingcobu was not found. Run `make`", said.stderr)
        self.assertIn("/nowhere/libjingcobu.so", said.stderr)

    def test_beside_the_package(self):
        with tempfile.TemporaryDirectory() as folder:
            shutil.copytree(HERE.parent / "jingcobu", Path(folder) / "jingcobu")
            shutil.copy(_library.library()._name, Path(folder) / "jingcobu" / "libjingcobu.so")
            environment = {k: x for k, x in os.environ.items() if k != "JINGCOBU_LIBRARY"}
            said = subprocess.run([sys.executable, "-c", "import jingcobu._library as l; print(l.library()._name)"], capture_output=True,
                                  text=True, cwd=folder, env={**environment, "PYTHONPATH": folder})
            self.assertEqual(said.stdout.strip(), str(Path(folder).resolve() / "jingcobu" / "libjingcobu.so"))

    @unittest.skipUnless(importlib.util.find_spec("wheel") and importlib.util.find_spec("pip"), "pip or wheel is not installed")
    def test_wheels(self):
        """A wheel with the library in it is for its platform, one without it for all; each installs, with the command."""
        with tempfile.TemporaryDirectory() as folder:
            for number, (held, platform) in enumerate(((None, "any"), ("python/jingcobu", "linux_x86_64"), ("build", "linux_x86_64"))):
                tree, wheels, place = (Path(folder) / ("%s%d" % (name, number)) for name in ("tree", "wheels", "place"))
                source = tree / "python"
                shutil.copytree(HERE.parent, source, ignore=shutil.ignore_patterns("tests", "__pycache__", "build", "*.egg-info", "libjingcobu.so*"))
                if held:
                    (tree / held).mkdir(exist_ok=True)
                    shutil.copy(_library.library()._name, tree / held / "libjingcobu.so")
                if held == "build":  # sources after make
                    shutil.copytree(ROOT / "include", tree / "include")
                    shutil.copy(ROOT / "crates.txt", tree)
                pip = [sys.executable, "-m", "pip", "-q", "--disable-pip-version-check"]
                subprocess.run([*pip, "wheel", "--no-build-isolation", "--no-deps", "-w", str(wheels), str(source)], check=True, capture_output=True)
                (wheel,) = wheels.iterdir()
                self.assertEqual(wheel.name, "jingcobu-%s-py3-none-%s.whl" % (jingcobu.__version__, platform))
                with zipfile.ZipFile(wheel) as inside:
                    names = inside.namelist()
                    said = inside.read(next(name for name in names if name.endswith("METADATA"))).decode()
                self.assertEqual("jingcobu/libjingcobu.so" in names, held is not None)
                self.assertTrue(any(name.endswith("LICENSE") for name in names), names)
                self.assertIn("License: MIT", said)
                self.assertIn("Classifier: Programming Language :: Python :: 3", said)
                subprocess.run([*pip, "install", "--no-deps", "--target", str(place), str(wheel)], check=True, capture_output=True)
                environment = {**os.environ, "PYTHONPATH": str(place), "JINGCOBU_LIBRARY": _library.library()._name}
                if held:
                    del environment["JINGCOBU_LIBRARY"]
                said = subprocess.run([str(place / "bin" / "jingcobu"), "resultant", "12", "2*x + 3", "4*x + 1"], capture_output=True, text=True,
                                      cwd=folder, env=environment)
                self.assertEqual((said.stdout, said.stderr), ("2\n", ""))

    def test_a_copy_elsewhere(self):
        """A copy of the package under a shared folder does not take a library from a folder beside it."""
        with tempfile.TemporaryDirectory() as folder:
            shutil.copytree(HERE.parent / "jingcobu", Path(folder) / "python" / "jingcobu")
            (Path(folder) / "build").mkdir()
            shutil.copy(_library.library()._name, Path(folder) / "build" / "libjingcobu.so")
            environment = {k: x for k, x in os.environ.items() if k != "JINGCOBU_LIBRARY"}
            said = subprocess.run([sys.executable, "-c", "import jingcobu._library as l; print(*l.candidates())"], capture_output=True, text=True,
                                  cwd=folder, env={**environment, "PYTHONPATH": str(Path(folder) / "python")})
            self.assertEqual((said.returncode, said.stderr), (0, ""))
            self.assertNotIn(str(Path(folder).resolve() / "build"), said.stdout)

    def test_the_places(self):
        """What the environment names alone; otherwise the package's own folder, the build folder of its sources, the loader, and nothing else."""
        environment = {k: x for k, x in os.environ.items() if k != "JINGCOBU_LIBRARY"}

        def places(package, **more):
            program = "import jingcobu._library as l; print(*l.candidates(), sep='\\n')"
            said = subprocess.run([sys.executable, "-c", program], capture_output=True, text=True, cwd="/", check=True,
                                  env={**environment, "PYTHONPATH": str(package.parent), **more})
            return said.stdout.splitlines()

        with tempfile.TemporaryDirectory() as folder:
            tree = Path(folder).resolve() / "tree"
            package = tree / "python" / "jingcobu"
            shutil.copytree(HERE.parent / "jingcobu", package, ignore=shutil.ignore_patterns("__pycache__", "libjingcobu.so*"))
            own = [str(package / "libjingcobu.so"), str(package / "libjingcobu.so.1")]
            self.assertEqual(places(package, JINGCOBU_LIBRARY="/nowhere/x.so"), ["/nowhere/x.so"])
            self.assertEqual(places(package), own + ["libjingcobu.so.1"])
            for part in ("include", "build"):
                (tree / part).mkdir()
            for part in ("python/pyproject.toml", "include/jingcobu.h", "crates.txt"):
                self.assertEqual(places(package), own + ["libjingcobu.so.1"])
                (tree / part).write_text("")
            sources = own + [str(tree / "build" / "libjingcobu.so"), "libjingcobu.so.1"]
            self.assertEqual(places(package), sources)
            if os.getuid() == 0:  # what another user has put around the package is not taken
                os.chown(tree / "build", 65534, 65534)
                self.assertEqual(places(package), own + ["libjingcobu.so.1"])
                os.chown(package, 65534, 65534)
                self.assertEqual(places(package), sources)


if __name__ == "__main__":
    unittest.main()
