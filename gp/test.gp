/* The rows of the table of pairs, beside what GP's polresultant answers for the same polynomials, then the kinds of arguments, both
   widths, zero polynomials, the older names, the errors and drawn pairs. gp/test compares the output with gp/expected. */
pari(n, f, g) = iferr(Str(lift(polresultant(Mod(1, n) * Polrev(f), Mod(1, n) * Polrev(g)))), E, "fails");
row(n, f, g) =
{
  my(r = lift(jingcobu_resultant(n, f, g)), b = jingcobu_reduced_resultant(n, f, g), p = pari(n, f, g));
  if (b[2] * Polrev(f) + b[3] * Polrev(g) != Mod(b[1], n), error("cofactors"));
  print(n, "  ", f, "  ", g, "  resultant ", r, "  D ", b[1], "  polresultant ", p, if (p != Str(r), "  <-", ""));
}
{
  row(7, [1,1], [2,1]);
  row(7, [2,1], [1,1]);
  row(12, [3,2], [1,4]);
  row(4, [1,2], [3,2]);
  row(6, [2], [4]);
  row(9, [3], [1,0,1]);
  row(5, [2,1,0], [1,1]);
  row(5, [2,1], [1,1]);
  row(5, [1,0], [2,0]);
  row(10, [0,0], [0]);
  row(6, [5,0,1], [3,1]);
  row(4294967295, [4294967294], [0,1]);
  row(4294967296, [4294967295], [0,1]);
  row(2^63 - 1, [2^63 - 2, 0], [0,1]);
}

/* what is taken */
{
  print(jingcobu_resultant(12, 2*x + 3, 4*x + 1));
  print(jingcobu_resultant(12, Mod(2,12)*y + 3, 4*y + 1));
  print(jingcobu_resultant(12, 2*x - 9, 16*x + 13));
  print(jingcobu_resultant(12, -7, x));
  print(jingcobu_resultant(5, 5*x^2 + x + 2, x + 1), "  ", jingcobu_resultant(5, Mod(1,5)*(5*x^2 + x + 2), x + 1));
  print(jingcobu_resultant(5, 0, 0), "  ", jingcobu_resultant(5, Mod(0,5)*x, [0]));
  print(jingcobu_reduced_resultant(6, 2, 4));
  print(jingcobu_product(6, [1,2], [1,3]));
  print(jingcobu_gcd(12, 8, Mod(6,12)));
  print(jingcobu_resultant(12, Vecsmall([3,2]), Vecsmall([1,4])), "  ", jingcobu_resultant(5, Vecsmall([2,1,0]), [1,1]~));
  print(jingcobu_reduced_resultant(6, Vecsmall([5,0,1]), Vecsmall([3,1]))[1], "  ", jingcobu_product(6, Vecsmall([1,2]), Vecsmall([1,3])));
  print(jingcobu_resultant_two(61, [Vecsmall([0,60]), [1,0]], [[0,59], Vecsmall([1,0])]));
  print(apply(f -> jingcobu_true_degree(5, f), [[2,1,0], Vecsmall([3]), 5*x^2 + x, Mod(2,5)*x^7]));
  my(s = Vecsmall);
  print([jingcobu_divisor(6, s([5,0,1]), s([3,1])), jingcobu_divisors(6, [s([5,0,1])], [s([3,1])]), jingcobu_why(9, s([3,3]), s([6]))]);
  print([jingcobu_check_claim(6, s([2]), s([4]), 2, s([0]), s([2])), jingcobu_resultant_cofactors(7, s([1,1]), s([2,1]))]);
}

/* words of 64 bits */
{
  print(jingcobu_resultant(2^62, 2^40*x + 1, x + 3), "  ", jingcobu_resultant(2^62, Vecsmall([1,2^40]), Mod(1,2^62)*(x + 3)));
  print(jingcobu_resultant(2^63 - 1, -1, x), "  ", jingcobu_product(2^63 - 1, [2^63 - 2, 1], [2^63 - 2, 1]));
  print(jingcobu_reduced_resultant(3^39, 3^25, 3^30 + x));
  print([jingcobu_true_degree(2^40, [0,2^33,0]), jingcobu_true_degree(2^63 - 1, x^48), jingcobu_true_degree(2^40, Vecsmall([0,0]))]);
  print(jingcobu_divisor(3^39, 3^25, 3^30 + x), "  ", jingcobu_divisor(2^63 - 1, 0, [0,0]), "  ", jingcobu_gcd(2^40, 2^33, 3));
}

/* zero polynomials in their sent degrees, as the help says it */
{
  print([jingcobu_resultant(7, 0, 3), jingcobu_resultant(7, 0, x), jingcobu_resultant(7, [0,0], 3), jingcobu_resultant(7, [0,0], x)]);
  print([jingcobu_true_degree(7, 0), jingcobu_true_degree(7, [0,0]), jingcobu_true_degree(7, 7*x)]);
  print([jingcobu_reduced_resultant(12, [0,0,0], 8)[1], jingcobu_reduced_resultant(12, 0, [0,0])[1], jingcobu_product(6, 0, [1,2])]);
  print([polresultant(Mod(0,7)*x, Mod(3,7)), polresultant(Mod(0,7)*x, Mod(1,7)*x)]);
}

/* many pairs */
{
  print(jingcobu_resultants(12, [2*x + 3, [5]], [4*x + 1, x]), "  ", jingcobu_divisors(6, [x^2 + 5, 2]~, [x + 3, [4]]~), "  ", jingcobu_resultants(12, [], []));
  print(jingcobu_resultants(2^62, [2^40*x + 1, Vecsmall([3,2])], [x + 3, [1,4]]), "  ", jingcobu_divisors(3^39, [3^25], [3^30 + x]));
}

/* the older names */
same(a, b) = if (a != b, error("an older name answers something else"));
{
  my(f = 2*x + 3, g = 4*x + 1, b = jingcobu_reduced_resultant(12, f, g));
  same(jingcobu_reduced(12, f, g), b);
  same(jingcobu_cofactors(12, f, g), jingcobu_resultant_cofactors(12, f, g));
  same([jingcobu_check(12, f, g, 1, b[2], b[3]), jingcobu_check(12, f, g, 2, b[2], b[3])], [0, 2]);
  same(jingcobu_two(61, x - y, x - 2*y), jingcobu_resultant_two(61, x - y, x - 2*y));
}

/* what is refused, and what is not an argument */
said(c) = print(iferr(c(); "ANSWERED", E, my(s = Str(E)); strsplit(s, "\n")[1]));
{
  said(() -> jingcobu_resultant(1, [1], [1]));
  said(() -> jingcobu_resultant(0, x, x));
  said(() -> jingcobu_resultant(5, [], [1]));
  said(() -> jingcobu_resultant(5, x^49, x));
  said(() -> jingcobu_resultant(5, [5], [1]));
  said(() -> jingcobu_resultant(5, [-1], [1]));
  said(() -> jingcobu_resultant(5, [1], Mod(1,7)*x));
  said(() -> jingcobu_resultant(5, x, y));
  said(() -> jingcobu_resultant(5, x/2, x));
  said(() -> jingcobu_product(5, x^25, x^24));
  said(() -> jingcobu_gcd(5, 5, 1));
  said(() -> jingcobu_gcd(5, 1, -1));
  said(() -> jingcobu_gcd(5, 1, 1/2));
  said(() -> jingcobu_resultant(12, [1,2], [1,4,-2]));
  said(() -> jingcobu_resultant(12, [1,2], Vecsmall([1,4,-2])));
  said(() -> jingcobu_resultant(12, [1,2], Vecsmall([1,4,12])));
  said(() -> jingcobu_resultant(12, [1,12,13], [1]));
  said(() -> jingcobu_resultant(12, [2^32], [1]));
  said(() -> jingcobu_resultant(12, [2^64], [1]));
  said(() -> jingcobu_resultant(2^63 - 1, [1], [1,2^63-1]));
  said(() -> jingcobu_resultant(2^63, [1], [1]));
  said(() -> jingcobu_resultant(2^64, [1], [1]));
  said(() -> jingcobu_resultant(-5, [1], [1]));
  said(() -> jingcobu_resultant(5/2, [1], [1]));
  said(() -> jingcobu_resultant(5, [1], [1,"a"]));
  said(() -> jingcobu_resultant(5, x^300000, x));
  said(() -> jingcobu_reduced_resultant(5, x, vector(50)));
  said(() -> jingcobu_reduced_resultant(2^63, x, x));
  said(() -> jingcobu_reduced_resultant(1, x, x));
  said(() -> jingcobu_reduced_resultant(7, x, [7]));
  said(() -> jingcobu_product(2^40, [], [1]));
  said(() -> jingcobu_product(2^40, [1], [2^40]));
  said(() -> jingcobu_divisor(2^63, x, x));
  said(() -> jingcobu_divisor(5, [1,5], x));
  said(() -> jingcobu_divisor(5, [1,2^32], x));
  said(() -> jingcobu_resultant_cofactors(2^32, x, x));
  said(() -> jingcobu_resultant_cofactors(5, 1, 2));
  said(() -> jingcobu_why(2^32, x, x));
  said(() -> jingcobu_why(5, x, [-7]));
  said(() -> jingcobu_check_claim(2^32, x, x, 1, 1, 1));
  said(() -> jingcobu_check_claim(5, x, x, -1, 1, 1));
  said(() -> jingcobu_check_claim(5, x, x, 1, [], 1));
  said(() -> jingcobu_check_claim(5, x, x, 1, [1], vector(4097)));
  said(() -> jingcobu_check_claim(5, x, x, 1, [1], [0,5]));
  said(() -> jingcobu_true_degree(1, [1]));
  said(() -> jingcobu_true_degree(2^63, [1]));
  said(() -> jingcobu_true_degree(5, []));
  said(() -> jingcobu_true_degree(5, x^49));
  said(() -> jingcobu_true_degree(5, [0,5]));
  said(() -> jingcobu_true_degree(5, [-1]));
  said(() -> jingcobu_true_degree(5, "x"));
  said(() -> jingcobu_gcd(2^63, 1, 1));
  said(() -> jingcobu_gcd(2^40, 1, 2^40));
  said(() -> jingcobu_resultants(12, [x, x], [x]));
  said(() -> jingcobu_resultants(12, x, [x]));
  said(() -> jingcobu_resultants(1, [], []));
  said(() -> jingcobu_resultants(12, [x, x, x], [x, [1,12], x]));
  said(() -> jingcobu_resultants(12, [x, x, [1,-1]], [x, x, x]));
  said(() -> jingcobu_resultants(12, [x, y], [x, x]));
  said(() -> jingcobu_divisors(12, [x, x^49], [x, x]));
  said(() -> jingcobu_divisors(2^40, [x, x], [x, [2^40]]));
  said(() -> jingcobu_divisors(2^63, [x], [x]));
  said(() -> jingcobu_resultant_two(2^32, x, x));
  said(() -> jingcobu_resultant_two(61, [[1,2],[3]], [[1]]));
  said(() -> jingcobu_resultant_two(61, [[1,2],[3,61]], [[1]]));
  said(() -> jingcobu_resultant_two(61, [[1,2],[3,-1]], [[1]]));
  said(() -> jingcobu_resultant_two(61, [1,2], [[1]]));
  said(() -> jingcobu_resultant_two(61, [[1]], [[]]));
  said(() -> jingcobu_resultant_two(61, x^49, y));
  said(() -> jingcobu_resultant_two(61, y, x*y^50));
  said(() -> jingcobu_resultant_two(1, x^49, y));
  said(() -> jingcobu_resultant_two(61, x*y*z, x));
  said(() -> jingcobu_resultant_two(60, x + y, x^2 + y^2));
  said(() -> jingcobu_resultant_two(67, x^8 + y^8, x^8 - y^8));
}

/* drawn pairs against GP's integer resultants */
{
  my(wrong = 0);
  setrand(28);
  for (i = 1, 1000,
    my(n = [4, 6, 12, 36, 210, 2^31, 3^20, 6^12, 4294967291, 2^32 - 1][random(10) + 1], f, g, b);
    f = x^(1 + random(8)) * (1 + random(n - 1)); f += random(x^poldegree(f) * n);
    g = x^(1 + random(8)) * (1 + random(n - 1)); g += random(x^poldegree(g) * n);
    if (lift(jingcobu_resultant(n, f, g)) != polresultant(f, g) % n, wrong++);
    b = jingcobu_reduced_resultant(n, f, g);
    if (jingcobu_divisor(n, f, g) != b[1], wrong++);
    if (n % b[1] || b[2] * f + b[3] * g != Mod(b[1], n), wrong++));
  print("drawn pairs: ", wrong, " wrong of 1000");
}

/* the same with words of 64 bits */
{
  my(wrong = 0);
  setrand(38);
  for (i = 1, 500,
    my(n = [2^32, 2^32 + 1, 6^24, 3^39, 2^61 - 1, 2^62, 2^63 - 25, 2^63 - 1][random(8) + 1], f, g, b);
    f = x^(1 + random(8)) * (1 + random(n - 1)); f += random(x^poldegree(f) * n);
    g = x^(1 + random(8)) * (1 + random(n - 1)); g += random(x^poldegree(g) * n);
    if (lift(jingcobu_resultant(n, f, g)) != polresultant(f, g) % n, wrong++);
    if (jingcobu_product(n, f, g) != Vecrev(f * g) % n, wrong++);
    if (jingcobu_true_degree(n, f) != poldegree(f), wrong++);
    b = jingcobu_reduced_resultant(n, f, g);
    if (jingcobu_divisor(n, f, g) != b[1], wrong++);
    if (n % b[1] || b[2] * f + b[3] * g != Mod(b[1], n), wrong++);
    my(a = polcoef(f, 0), c = polcoef(g, 0), r = jingcobu_gcd(n, a, c));
    if (r[1] != gcd(gcd(a, c), n) || (r[2] * a + r[3] * c - r[1]) % n || r[2] >= gcd(c, n) / r[1] || r[3] >= n / gcd(c, n), wrong++));
  print("drawn pairs with words of 64 bits: ", wrong, " wrong of 500");
}

/* many pairs, of one pair of degrees and of several, against the single calls */
{
  my(wrong = 0);
  setrand(381);
  foreach([4, 12, 2^31, 4294967291, 2^32, 6^24, 2^63 - 25], n,
    for (i = 1, 12,
      my(all = random(2500 * (i == 1) + 40), f, g);
      f = vector(all, k, random(x^if (i % 2, 5, random(5)) * n));
      g = vector(all, k, random(x^if (i % 2, 3, random(5)) * n));
      if (jingcobu_resultants(n, f, g) != vector(all, k, jingcobu_resultant(n, f[k], g[k])), wrong++);
      if (jingcobu_divisors(n, f, g) != vector(all, k, jingcobu_divisor(n, f[k], g[k])), wrong++)));
  print("many pairs: ", wrong, " wrong of 168 calls");
}
