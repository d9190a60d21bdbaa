{
  for (i = 1, 300,
    my(n = [4, 6, 12, 36, 210][random(5) + 1], f = vector(1 + random(5), k, random(n)), g = vector(1 + random(5), k, random(n)), D, r);
    D = jingcobu_reduced_resultant(n, f, g)[1]; r = jingcobu_why(n, f, g);
    if ((r[1] == 0) != (D == 1), error([n, f, g, r]));
    if (r[1], if (r[2] < 2 || D % r[2], error([n, f, g, r])));
    if (r[1] == 1, if (f % r[2] != 0 * f || g % r[2] != 0 * g, error([n, f, g, r])));
    if (r[1] == 2, if (poldegree(r[3]) < 1 || pollead(r[3]) != 1 || (Mod(1, r[2]) * Polrev(f)) % r[3] != 0 || (Mod(1, r[2]) * Polrev(g)) % r[3] != 0, error([n, f, g, r]))));
  if (jingcobu_why(7, x^2 - 1, x + 1) != [2, 7, Mod(1, 7) * (x + 1)], error("why"));
  if (jingcobu_why(9, 3*x + 3, 6) != [1, 3, 0] || jingcobu_why(12, 2*x + 3, 4*x + 1) != [0, 0, 0], error("why"));
}
