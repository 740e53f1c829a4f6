# An entry for each of the roots below 4095, and one for all others, all of partition 1.
awk 'BEGIN {
  printf "{\"plan\":["
  for (i = 0; i < 4095; i++) printf "{\"part\":1,\"from\":[%d,0],\"to\":[%d,0]},", i, i + 1
  print "{\"part\":1,\"from\":[4095,0],\"to\":\"end\"}]}"
}'
