{
  my(b = jingcobu_reduced_resultant(12, 2*x + 3, 4*x + 1));
  if (jingcobu_check_claim(12, 2*x + 3, 4*x + 1, b[1], b[2], b[3]) != 0, error("true"));
  if (jingcobu_check_claim(12, 2*x + 3, 4*x + 1, 5, b[2], b[3]) != 1, error("1"));
  if (jingcobu_check_claim(12, 2*x + 3, 4*x + 1, 2, b[2], b[3]) != 2, error("2"));
  if (jingcobu_check_claim(12, 2*x + 3, 4*x + 1, 2, 2*b[2], 2*b[3]) != 3, error("3"));
}
