# issued 2 and a text, 1048577 bytes in all, then LF
printf 'issued 2 '
head -c 1048568 /dev/zero | tr "\0" "x"
echo
