# The answers to frame-above-the-limit.make. The one frame has 1048569 bytes behind its head: two counts, the numbers of
# the cell, that it is not done, how many spans there are, and 16 bytes for each of them.
awk 'BEGIN {
  print "old 1"
  print "new 1"
  for (i = 0; i < 65534; i++) print "taken"
  printf "frame 53510101%08x%08x%08x%08x%08x%08x00%08x", 1048569, 0, 1, 1, 0, 3, 65534
  for (i = 0; i < 65534; i++) printf "%016x%016x", 2 * i, 2 * i + 1
  print ""
  print "taken"
  print "no TooLong"
}'
