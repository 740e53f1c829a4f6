# 100000 cells in a scattered order, each loaded once, every seventh twice, and every tenth done; then
# the board. Cell K, from 0, is partition K mod 1000 of sub-plan K / 1000 mod 20 of reconfiguration
# 1 + K / 20000; its loads are [K:0,K:5) and [K:7,K:9).
awk 'BEGIN {
  print "old {\"plan\":[{\"part\":1,\"from\":[0,0],\"to\":\"end\"}]}"
  print "new {\"plan\":[{\"part\":2,\"from\":[0,0],\"to\":\"end\"}]}"
  for (i = 0; i < 100003; i++) {
    k = (i * 48271 + 11) % 100003
    if (k >= 100000) continue
    cell = 1 + int(k / 20000) " " int(k / 1000) % 20 " " k % 1000
    if (k % 7 == 0) print "loaded " cell " " k ":7 " k ":9"
    print "loaded " cell " " k ":0 " k ":5"
    if (k % 10 == 0) print "done " cell
  }
  print "board"
}'
