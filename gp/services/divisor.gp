{
  for (i = 1, 300,
    my(n = [4, 6, 12, 36, 210, 2^31, 2^32 - 1][random(7) + 1], f = vector(1 + random(6), k, random(n)), g = vector(1 + random(6), k, random(n)));
    if (jingcobu_divisor(n, f, g) != jingcobu_reduced_resultant(n, f, g)[1], error([n, f, g])));
  if (jingcobu_divisor(6, x^2 + 5, x + 3) != 2, error("D"));
}
