/* Times of GP's own functions beside Jingcobu's, in microseconds a call: (cat gp/jingcobu.gp gp/bench.gp) | gp -q -f, from the root of the
   sources after make gp. Part of no check. polresultant and bezout are for fields: over a modulus that is not prime they have no answer,
   or fail if a leading coefficient is not a unit, which is shown by a minus. */
pairs(n, d) = vector(40, i, vector(2, k, Mod(1, n) * (x^d + random(x^(d - 1) * n))));
each(c, all) =
{
  my(rounds = 0, start = getabstime());
  iferr(while (getabstime() - start < 60, rounds++; for (i = 1, #all, c(all[i][1], all[i][2]))), E, return ("-"));
  round(1000. * (getabstime() - start) / (rounds * #all) * 10) / 10.;
}
{
  setrand(11);
  print("n  degree  jingcobu_resultant  polresultant  jingcobu_reduced_resultant  bezout");
  foreach([4294967291, 2^32 - 1, 2^63 - 25, 6^24], n,
    foreach([4, 12, 24, 48], d,
      my(all = pairs(n, d));
      printf("%-20s %2d  %8.5s  %8.5s  %8.5s  %8.5s\n", n, d, each((f, g) -> jingcobu_resultant(n, f, g), all),
        each((f, g) -> polresultant(f, g), all), each((f, g) -> jingcobu_reduced_resultant(n, f, g), all),
        each((f, g) -> bezout(f, g), all))));
}
