{
  for (i = 1, 300,
    my(n = [4, 6, 12, 36, 210, 2^31, 2^32 - 1][random(7) + 1], f = vector(2 + random(4), k, random(n)), g = vector(1 + random(5), k, random(n)), c);
    c = jingcobu_resultant_cofactors(n, f, g);
    if (c[1] != jingcobu_resultant(n, f, g), error([n, f, g]));
    if (poldegree(c[2]) >= max(#g - 1, 0) || poldegree(c[3]) >= #f - 1, error([n, f, g, c]));
    if (c[2] * Polrev(f) + c[3] * Polrev(g) != c[1], error([n, f, g, c])));
  if (jingcobu_resultant_cofactors(7, x + 1, x + 2) != [Mod(1, 7), Mod(6, 7), Mod(1, 7)], error("cofactors"));
  if (iferr(jingcobu_resultant_cofactors(7, 1, 2); 0, E, #strsplit(Str(E), "refuses with 9:")) != 2, error("9"));
}
