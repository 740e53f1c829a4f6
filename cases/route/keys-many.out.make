# The old plan has roots 0 to 2 at 1, 3 and 4 at 2, 5 to 8 at 3 and the others at 4. The load of root 2 at 3 was reported.
seq -f '%.0f' 0 19999 | awk '{
  part = $1 < 3 ? 1 : $1 < 5 ? 2 : $1 < 9 ? 3 : 4
  if ($1 == 2) part = 3
  print "route " $1 ":0 " part
}'
