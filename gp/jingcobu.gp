/* The services of Jingcobu for GP: read this file by read("...") or \r. As make install puts it in place it can be read from any folder;
   that of the sources is read from their root, after make gp. The environment variable JINGCOBU_GP names another libjingcobu-gp.so.
   Polynomials over Z or over Z/nZ, or vectors of words as they are sent, constant first. A refusal is an error. The names are those of the
   C functions; jingcobu_reduced, jingcobu_cofactors, jingcobu_check and jingcobu_two are older names of four of them. */
{
  my(file = getenv("JINGCOBU_GP"));
  if (!file, file = "build/libjingcobu-gp.so");
  install("gp_resultant", "GGG", "jingcobu_resultant", file);
  install("gp_reduced", "GGG", "jingcobu_reduced_resultant", file);
  install("gp_reduced", "GGG", "jingcobu_reduced", file);
  install("gp_divisor", "GGG", "jingcobu_divisor", file);
  install("gp_resultants", "GGG", "jingcobu_resultants", file);
  install("gp_divisors", "GGG", "jingcobu_divisors", file);
  install("gp_cofactors", "GGG", "jingcobu_resultant_cofactors", file);
  install("gp_cofactors", "GGG", "jingcobu_cofactors", file);
  install("gp_why", "GGG", "jingcobu_why", file);
  install("gp_check", "GGGGGG", "jingcobu_check_claim", file);
  install("gp_check", "GGGGGG", "jingcobu_check", file);
  install("gp_two", "GGG", "jingcobu_resultant_two", file);
  install("gp_two", "GGG", "jingcobu_two", file);
  install("gp_product", "GGG", "jingcobu_product", file);
  install("gp_true_degree", "GG", "jingcobu_true_degree", file);
  install("gp_gcd", "GGG", "jingcobu_gcd", file);
}
{
  addhelp(jingcobu_resultant, Str(
    "jingcobu_resultant(n, f, g): the resultant of f and g modulo n, 2 <= n < 2^63, in their sent degrees, at most 48: the Sylvester ",
    "determinant. A polynomial is sent in its degree, with coefficients that are reduced modulo n; a vector or Vecsmall is the words ",
    "themselves, constant first, from 0 to n-1, and a zero top counts. A zero polynomial is the word 0 in degree 0: with a constant ",
    "it gives 1, with g of degree 1 or more 0. [0,0] is zero in degree 1: with the constant c it gives c, with g of degree 1 or more ",
    "0."));
}
{
  addhelp(jingcobu_reduced_resultant, Str(
    "jingcobu_reduced_resultant(n, f, g): [D, u, v], the reduced resultant, that is the divisor D of n whose multiples are the ",
    "constants that u*f + v*g can be, and u, v with u*f + v*g = D modulo n; 2 <= n < 2^63. D does not depend on zero tops: with f ",
    "zero, in whatever degree, D is gcd(g[1], n) for a constant g, and n if both are zero."));
}
addhelp(jingcobu_divisor, "jingcobu_divisor(n, f, g): the reduced D alone, in less time; 2 <= n < 2^63. Two zero polynomials give n.");
{
  addhelp(jingcobu_resultants, Str(
    "jingcobu_resultants(n, f, g): the resultants of f[1] and g[1], f[2] and g[2] and so on, for two vectors of polynomials, each as ",
    "jingcobu_resultant takes it, zero ones too; 2 <= n < 2^63. Pairs of the same sent degrees that follow each other go as one call."));
}
addhelp(jingcobu_divisors, "jingcobu_divisors(n, f, g): D alone of many pairs, zero ones too, which are sent as to jingcobu_resultants.");
{
  addhelp(jingcobu_resultant_cofactors, Str(
    "jingcobu_resultant_cofactors(n, f, g): [r, u, v], the resultant and u, v with u*f + v*g = r modulo n, u of degree below that of ",
    "g and v below that of f; n < 2^32. Two constants, and so two zero polynomials, are refused; [0,0] is zero in degree 1 and is ",
    "accepted."));
}
{
  addhelp(jingcobu_why, Str(
    "jingcobu_why(n, f, g): [0,0,0] if f and g are coprime, [1,m,0] if both are zero modulo m, [2,m,w] if w divides both ",
    "modulo m; n < 2^32. Two zero polynomials are zero modulo n: [1,n,0]."));
}
{
  addhelp(jingcobu_check_claim, Str(
    "jingcobu_check_claim(n, f, g, D, u, v): 0 if D is the reduced resultant and u*f + v*g = D; 1: D does not divide n; 2: u*f + ",
    "v*g is not D; 3: D is another number; n < 2^32. A zero u or v is the word 0."));
}
{
  addhelp(jingcobu_resultant_two, Str(
    "jingcobu_resultant_two(n, f, g): the resultant in their first variable of two polynomials in two variables modulo n; n < 2^32. ",
    "Vectors of rows of words are accepted too, a row for each power of the first variable; the answer is then a vector. A zero polynomial has ",
    "degree 0 in both variables: with g of degree 1 or more in the first it gives 0, otherwise 1."));
}
{
  addhelp(jingcobu_product, Str(
    "jingcobu_product(n, f, g): the words of the product of f and g modulo n, 2 <= n < 2^63, constant first, zero tops too: with a ",
    "zero polynomial, one zero for each word of g."));
}
{
  addhelp(jingcobu_true_degree, Str(
    "jingcobu_true_degree(n, f): the place of the highest word of f that is not 0 modulo n, counted from 0; 2 <= n < 2^63. A zero ",
    "polynomial, in whatever degree, has none: -oo, as poldegree gives it."));
}
{
  addhelp(jingcobu_gcd, Str(
    "jingcobu_gcd(n, a, b): [g, s, t], g = gcd(a, b, n) and the least s and t with s*a + t*b = g modulo n; 2 <= n < 2^63. g is n ",
    "where a and b are 0."));
}
addhelp(jingcobu_reduced, "jingcobu_reduced(n, f, g): an older name of jingcobu_reduced_resultant.");
addhelp(jingcobu_cofactors, "jingcobu_cofactors(n, f, g): an older name of jingcobu_resultant_cofactors.");
addhelp(jingcobu_check, "jingcobu_check(n, f, g, D, u, v): an older name of jingcobu_check_claim.");
addhelp(jingcobu_two, "jingcobu_two(n, f, g): an older name of jingcobu_resultant_two.");
