# The answers to many-cells.make: 14286 second loads, 100000 first ones and 10000 completions are
# taken, and the board lists its cells in rising order.
awk 'BEGIN {
  print "old 1"
  print "new 1"
  for (i = 0; i < 14286 + 100000 + 10000; i++) print "taken"
  for (n = 1; n <= 5; n++) for (s = 0; s < 20; s++) for (p = 0; p < 1000; p++) {
    k = (n - 1) * 20000 + s * 1000 + p
    printf "cell %d %d %d %s [%d:0,%d:5)%s\n", n, s, p, k % 10 == 0 ? "done" : "open", k, k,
      k % 7 == 0 ? " [" k ":7," k ":9)" : ""
  }
}'
