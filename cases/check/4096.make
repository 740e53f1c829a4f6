# A plan of 4096 entries of part 1, entry I from [I,0] to [I+1,0], the last to the end.
printf '{"plan":['
for i in $(seq 0 4094); do printf '{"part":1,"from":[%d,0],"to":[%d,0]},' "$i" $((i + 1)); done
printf '{"part":1,"from":[4095,0],"to":"end"}]}'
