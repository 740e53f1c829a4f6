# 1048577 times #, then LF
head -c 1048577 /dev/zero | tr "\0" "#"
echo
