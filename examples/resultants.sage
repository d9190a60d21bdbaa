# Jingcobu under Sage (docs/SAGE.md): sage examples/resultants.sage, from the root of the sources after make.
import sys
sys.path.insert(0, "python")
import jingcobu
from sage.rings.finite_rings.integer_mod_ring import IntegerModRing_generic
from sage.rings.polynomial.polynomial_ring import PolynomialRing_general

def modulus(f, g):
    """n, for two polynomials in one variable of the same ring over Zmod(n), or over GF(p) with p a prime."""
    R = f.parent()
    if g.parent() is not R:
        raise TypeError("f is of %s, and g is of %s" % (R, g.parent()))
    if not isinstance(R, PolynomialRing_general) or not isinstance(R.base_ring(), IntegerModRing_generic):
        raise TypeError("%s is not a ring of polynomials in one variable over Zmod(n)" % R)
    return ZZ(R.base_ring().order())

def words(p):
    """The words of a polynomial over Z/nZ, constant first; the zero polynomial is the single word 0."""
    return [ZZ(c) for c in p.list()] or [0]

def resultant(f, g):
    n = modulus(f, g)
    return f.base_ring()(jingcobu.resultant(n, words(f), words(g)))

def reduced_resultant(f, g):
    """(D, u, v) with u f + v g = D."""
    D, u, v = jingcobu.reduced_resultant(modulus(f, g), words(f), words(g))
    return D, f.parent()(u), f.parent()(v)

R.<x> = Zmod(12)[]
f, g = 2*x + 3, 4*x + 1
D, u, v = reduced_resultant(f, g)
print(resultant(f, g), D, u*f + v*g == D)

# A zero top counts. Sage's polynomials have none, so it is sent as words; Sage itself answers for the true degrees.
S.<y> = Zmod(5)[]
print(jingcobu.resultant(5, [2, 1, 0], [1, 1]), S([2, 1, 0]).resultant(S([1, 1])))

# A zero polynomial is the word 0, in degree 0.
print(resultant(S(0), S(3)), resultant(S(0), y), reduced_resultant(S(0), S(0))[0])

# Two rings, and a ring that is not over Zmod(n): its order is 4, and n = 4 would be another ring.
F.<a> = GF(4)
Q.<q> = F[]
for pair in ((f, y), (q, q + 1), (x, ZZ(3))):
    try:
        print("answered: %s" % resultant(*pair))
    except TypeError:
        print("not answered")

# drawn pairs against Sage's resultants over the integers
set_random_seed(28)
for n in (4, 12, 36, 210, 2^31, 2^32 - 1, 2^32, 6^24, 2^62, 2^63 - 1):
    T.<t> = Zmod(n)[]
    for k in range(50):
        a, b = T.random_element(degree=6), T.random_element(degree=5)
        assert resultant(a, b) == a.change_ring(ZZ).resultant(b.change_ring(ZZ)) % n
        D, u, v = reduced_resultant(a, b)
        assert n % D == 0 and u*a + v*b == D
print("500 drawn pairs agree")
