# A plan of 4097 entries, each with all keys.
printf '{"plan":['
for _ in $(seq 1 4096); do printf '{"part":1,"from":[0,0],"to":"end"},'; done
printf '{"part":1,"from":[0,0],"to":"end"}]}'
