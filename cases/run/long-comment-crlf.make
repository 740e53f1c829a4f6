# 1048576 times #, then CR LF
head -c 1048576 /dev/zero | tr "\0" "#"
printf "\r\n"
