# A line of 1048577 bytes, after a key.
printf '2:0\n'
head -c 1048577 /dev/zero | tr '\0' ' '
