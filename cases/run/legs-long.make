# legs 2:0 3:0 and blanks, 1048577 bytes in all, then LF
printf 'legs 2:0 3:0'
head -c 1048565 /dev/zero | tr "\0" " "
echo
