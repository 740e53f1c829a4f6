# A plan of 4096 entries, entry I of part 1000 + I from [I,0] to [I+1,0], the last to the end.
printf '{"plan":['
for i in $(seq 0 4094); do printf '{"part":%d,"from":[%d,0],"to":[%d,0]},' $((1000 + i)) "$i" $((i + 1)); done
printf '{"part":5095,"from":[4095,0],"to":"end"}]}'
