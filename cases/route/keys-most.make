# A key in a line of 1048576 bytes.
head -c 1048573 /dev/zero | tr '\0' ' '
printf '2:0\r\n'
