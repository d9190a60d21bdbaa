{
  for (i = 1, 60,
    my(n = [61, 3721, 4087, 2^32 - 5][random(4) + 1], f, g, d = 1 + random(3), e = 1 + random(3));
    f = sum(k = 0, d, x^k * Pol(vector(4, j, random(n)), y)) + x^d * y^3;
    g = sum(k = 0, e, x^k * Pol(vector(3, j, random(n)), y)) + x^e * y^2;
    if (jingcobu_resultant_two(n, f, g) != Mod(1, n) * polresultant(f, g, x), error([n, f, g])));
  if (jingcobu_resultant_two(61, x - y, x - 2*y) != Mod(-y, 61), error("two"));
  if (jingcobu_resultant_two(61, [[0, 60], [1, 0]], [[0, 59], [1, 0]]) != [0, 60, 0], error("words"));
  if (jingcobu_resultant_two(61, y^2, x - y) != Mod(y^2, 61), error("a constant"));
}
