# 65535 spans of one key each in one cell, and its frame after 65534 of them and after all. With one span more than
# 65534 the body is longer than 1048576 bytes.
awk 'BEGIN {
  print "old {\"plan\":[{\"part\":1,\"from\":[0,0],\"to\":\"end\"}]}"
  print "new {\"plan\":[{\"part\":2,\"from\":[0,0],\"to\":\"end\"}]}"
  for (i = 0; i < 65535; i++) {
    if (i == 65534) print "frame"
    print "loaded 1 0 3 0:" 2 * i " 0:" 2 * i + 1
  }
  print "frame"
}'
