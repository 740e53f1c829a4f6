# 1048576 times #, then LF
head -c 1048576 /dev/zero | tr "\0" "#"
echo
