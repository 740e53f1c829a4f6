# A plan of 4096 ranges, of one root each, and of partitions 1 and 2 by turns.
printf '{"plan":['
for n in $(seq 0 4094); do printf '{"from":[%d,0],"part":%d,"to":[%d,0]},' "$n" $((n % 2 + 1)) $((n + 1)); done
printf '{"from":[4095,0],"part":2,"to":"end"}]}'
