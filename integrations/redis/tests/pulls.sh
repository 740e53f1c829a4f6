# shellcheck shell=bash disable=SC2154,SC2034
# Keys that are pulled to their new partitions ahead of the mover, for tools/integrations.

# Pulls keys: the words of a mover without others, and the keys.
pull() {
  local key named=() number=$1 old=$2 new=$3
  shift 3
  for key in "$@"; do named+=(--pull "$key"); done
  move "$number" "$old" "$new" "${named[@]}"
}

# Whether the mover pulls these keys and says so of the last one, whose rows have left that partition.
pulls() {
  local at=$1 key
  shift
  pull 2 old new "$@" > "$run/pulled" 2>&1 || { cat "$run/pulled"; return 1; }
  cat "$run/pulled"
  for key in "$@"; do [ "$(redis-cli -p "$at" exists "$key")" = 0 ] || { echo "$key is still there"; return 1; }; done
}

# A pull that is to be refused with these words.
refused_pull() {
  local words=$1
  shift
  if pull "$@" > "$run/refused" 2>&1; then echo "not refused: $words"; return 1; fi
  grep -q -- "$words" "$run/refused" || { cat "$run/refused"; return 1; }
}

# What clients of both proxies find at a key.
both_say() {
  local at
  for at in "${proxies[@]}"; do
    [ "$(redis-cli -p "$at" get "$1")" = "$2" ] || { echo "$at says $(redis-cli -p "$at" get "$1") of $1"; return 1; }
  done
}

# Moves the first keys of both sources, and then waits for long. Its process id comes into `moving`.
start_far_below() {
  local id
  start_move 2 old new --chunk 2 --pause 600000
  moving=$id
  await has_loaded_of 1 2
}

end_far_below() {
  kill -KILL "$moving"
  wait "$moving" 2> /dev/null
  return 0
}

# A mover is far below. A key that is pulled is at its new partition at once, alone, and stays there as the mover passes it.
test_pull() {
  local moving to
  deploy && fill 340 '' || return
  to=${proxies[0]}
  refused_pull "course 2 has not begun everywhere; start its mover first" 2 old new 450:0 || return
  start_far_below || return
  refused_pull "the key 5:0 does not move in course 2" 2 old new 450:0 5:0 || return
  echo '{"plan":[{"part":1,"from":[0,0],"to":[330,0]},{"part":2,"from":[330,0],"to":"end"}]}' > "$run/other.json"
  refused_pull "course 2 has begun with other plans" 2 old other 450:0 && both_say 450:0 v450 || return
  redis-cli -p "$to" set 450:0:more x && redis-cli -p "$to" rpush 600:0:list a b || return
  pulls "${servers[0]}" 450:0 450:0:more && pulls "${servers[1]}" 600:0 600:0:list || return
  agrees 3 2 450:0 && agrees 1 2 451:0 && agrees 1 2 449:0 && agrees 3 2 600:0 && agrees 2 2 601:0 || return
  both_say 450:0 v450 && both_say 449:0 v449 && [ "$(redis-cli -p "${servers[2]}" llen 600:0:list)" -eq 2 ] || return
  # It is served as any other key: in transactions, by waits and walks.
  printf 'watch 450:0\nmulti\nset 450:0 newer\nexec\n' | redis-cli -p "$to" | grep -qx OK && both_say 450:0 newer || return
  redis-cli -p "$to" blpop 600:0:list 1 | grep -qx a || return
  redis-cli -p "$to" del 450:0:more && [ "$(redis-cli -p "$to" --scan | sort -u | wc -l)" -eq 341 ] || return
  [ "$(redis-cli -p "$to" keys '*' | wc -l)" -eq 341 ] || return
  # Once more, beside another one, and at once.
  pull 2 old new 450:0 600:0 > "$run/pulled" & pull 2 old new 450:0 600:0 452:0 && wait $! || return
  both_say 450:0 newer && both_say 452:0 v452 && end_far_below || return
  move 2 old new && both_say 450:0 newer && agrees 3 2 451:0 && [ "$(count_rows "${servers[0]}")" -eq 0 ] || return
  [ "$(redis-cli -p "${servers[0]}" exists squall:pulled)$(redis-cli -p "${servers[2]}" exists squall:pulled)" = 00 ] || return
  pulls "${servers[0]}" 450:0 && move 3 new old && both_say 450:0 newer && agrees 1 3 450:0 || return
  refused_pull "course 3 has begun; course 2 is over" 2 old new 450:0
}

# A source with two destinations has a sub-plan for each. A key of the second one is pulled once that is open.
test_pull_of_a_later_sub_plan() {
  local key
  deploy && fill 340 '' || return
  echo '{"plan":[{"part":1,"from":[0,0],"to":[330,0]},{"part":3,"from":[330,0],"to":[400,0]},
    {"part":2,"from":[400,0],"to":"end"}]}' > "$run/new.json"
  start_far_below_of_one || return
  refused_pull "the key $(key_of_sub 1) moves in sub-plan 1, which is not open yet" 2 old new "$(key_of_sub 1)" || return
  pulls "${servers[0]}" "$(key_of_sub 0)" && end_far_below && move 2 old new && both_say 450:0 v450 && both_say 390:0 v390
}

key_of_sub() {
  move 2 old new --dry-run | grep -q "^move \[330:0,400:0) 1 to 3 sub $1:" && echo 390:0 || echo 450:0
}

start_far_below_of_one() {
  local id
  start_move 2 old new --chunk 2 --pause 600000
  moving=$id
  await has_given "${servers[0]}"
}

# Whether a partition has given keys.
has_given() {
  redis-cli -p "$1" fcall squall_moves 0 2 | awk '$3 == "out" && $5 != $1 { found = 1 } END { exit !found }'
}

# A pull that has ended between two of its steps: the next one goes on, and so does the mover.
test_half_pulls() {
  local moving to rank=000001c200000000 lo=0000014a00000000 own
  deploy && fill 340 '' || return
  to=${proxies[0]}
  start_far_below && redis-cli -p "${servers[0]}" fcall squall_pull_give 0 2 "$lo" "$rank" - 0 1000000 | grep "^given" || return
  pulls "${servers[0]}" 450:0 && both_say 450:0 v450 || return
  # Half of the way back.
  redis-cli -p "${servers[0]}" fcall squall_pull_give 0 2 "$lo" 000001c300000000 - 0 1000000 | grep "^given" || return
  own=$(redis-cli -p "${servers[0]}" get squall:generation)
  redis-cli -p "${servers[2]}" fcall squall_back 0 2 "$lo" "$(edge_of 3 "$lo")" 1 "$own" 000001c300000000 | grep " [1-9]" || return
  pulls "${servers[0]}" 451:0 && both_say 451:0 v451 && redis-cli -p "$to" set 451:0 newer || return
  # It was given and not loaded, or loaded and not forgotten.
  redis-cli -p "${servers[0]}" fcall squall_pull_give 0 2 "$lo" 000001c400000000 - 0 1000000 | grep "^given" || return
  redis-cli -p "${servers[0]}" hset squall:pulled 000001c300000000 given && redis-cli -p "${servers[0]}" set 451:0 old || return
  end_far_below
  start_far_below && await has_no_row "${servers[0]}" 451:0 && await has_no_row "${servers[0]}" 452:0 || return
  both_say 451:0 newer && both_say 452:0 v452 && agrees 3 2 452:0 && agrees 1 2 453:0 && end_far_below || return
  redis-cli -p "${servers[0]}" fcall squall_pull_give 0 2 "$lo" 000001d600000000 - 0 1000000 | grep "^given" || return
  move 2 old new && [ "$(count_wrong 340 '')" -eq 1 ] && both_say 451:0 newer && both_say 470:0 v470
}

# How far a partition is with the move that begins there.
edge_of() {
  redis-cli -p "${servers[$1 - 1]}" fcall squall_moves 0 2 | awk -v lo="$2" '$1 == lo { print $5 }'
}

has_no_row() {
  [ "$(redis-cli -p "$1" exists "$2")" = 0 ]
}

# A key that its destination does not take stays where it is, and is served.
test_pull_that_is_refused() {
  local moving to
  deploy && fill 340 '' || return
  to=${proxies[0]}
  start_far_below && redis-cli -p "${servers[2]}" acl setuser default -restore || return
  refused_pull 'the key "450:0" is refused by partition 3: .*it stays there, and is served' 2 old new 450:0 || return
  both_say 450:0 v450 && redis-cli -p "$to" set 450:0 newer && redis-cli -p "${servers[2]}" acl setuser default +restore || return
  redis-cli -p "${servers[2]}" config set proto-max-bulk-len 1mb || return
  noise 1500000 | redis-cli -p "$to" -x set 460:0 || return
  refused_pull 'the key "460:0" has 15[0-9]* bytes, and partition 3 takes 1048576' 2 old new 450:0 460:0 || return
  redis-cli -p "$to" strlen 460:0 | grep -qx 1500000 && agrees 1 2 460:0 && agrees 3 2 450:0 && both_say 450:0 newer || return
  redis-cli -p "$to" del 460:0 && end_far_below && move 2 old new && both_say 450:0 newer
}

# A source comes back as it was before the course. A row of a key that was pulled from it is older than the destination's.
test_source_comes_back_after_a_pull() {
  local patience=300 moving
  deploy && fill 340 '' && redis-cli -p "${servers[0]}" save && start_far_below || return
  pulls "${servers[0]}" 450:0 451:0 && redis-cli -p "${proxies[0]}" set 450:0 newer && redis-cli -p "${proxies[0]}" del 451:0 || return
  end_far_below
  stop "${servers[0]}"
  run_redis "${servers[0]}" || return
  refused "partition 1 has come back with less: it is in course 1.*it had given \[450:0,450:1)" 2 old new || return
  refused_pull "partition 1 has come back with less" 2 old new 460:0 || return
  is_shut "${servers[0]}" || return
  start_move 2 old new --accept-loss 1 --chunk 2 --pause 600000
  moving=$id
  await is_said "accepted: partition 1" "$run/mover" && await both_say 450:0 newer > "$run/waits" || return
  [ "$(redis-cli -p "${servers[0]}" exists 450:0 451:0)$(redis-cli -p "${proxies[1]}" exists 451:0)" = 00 ] || return
  await both_say 455:0 v455 > "$run/waits" && agrees 3 2 450:0 && agrees 1 2 455:0 || return
  end_far_below
  move 2 old new && both_say 450:0 newer && [ "$(redis-cli -p "${proxies[1]}" exists 451:0)" = 0 ] || return
  [ "$(count_wrong 340 '')" -eq 2 ] && fill 340 c && move 3 new old && agrees 1 3 && [ "$(count_wrong 340 c)" -eq 0 ]
}

# A destination loses what it was told of a key that was pulled to it, and its row. The source has forgotten it.
test_destination_comes_back_after_a_pull() {
  local patience=300 moving mark log redis_words="--appendonly yes --appendfsync everysec"
  deploy && fill 340 '' && start_far_below || return
  # The chunks before are on the disk, and forgotten.
  sleep 3
  log=("$run/${servers[2]}/appendonlydir"/*.incr.aof)
  mark=$(stat -c %s "${log[0]}")
  pulls "${servers[0]}" 450:0 || return
  end_far_below
  stop "${servers[2]}"
  cut_log
  # shellcheck disable=SC2086
  run_redis "${servers[2]}" $redis_words || return
  refused "partition 3 has come back with less.*it had loaded \[450:0,450:1) from partition 1" 2 old new || return
  grep -q "about 1 rows that had moved to it are gone" "$run/refused" || { cat "$run/refused"; return 1; }
  refused_pull "partition 3 has come back with less" 2 old new 450:0 && is_shut "${servers[2]}" || return
  goes_on 3 && both_say 450:0 '' && [ "$(count_wrong 340 '')" -eq 1 ] || return
  fill 340 b && move 3 new old && agrees 1 3 && [ "$(count_wrong 340 b)" -eq 0 ]
}

# Both ends come back as they were before the course. None of them knows of the key that was pulled, and routers may do.
test_both_ends_come_back_after_a_pull() {
  local patience=300 moving
  deploy && fill 340 '' && redis-cli -p "${servers[0]}" save && redis-cli -p "${servers[2]}" save && start_far_below || return
  pulls "${servers[0]}" 450:0 && redis-cli -p "${proxies[0]}" set 450:0 newer && end_far_below || return
  stop "${servers[0]}"
  stop "${servers[2]}"
  run_redis "${servers[0]}" && run_redis "${servers[2]}" || return
  refused "nobody is let in at partition 1, 3" 2 old new && is_shut "${servers[0]}" && is_shut "${servers[2]}" || return
  move 2 old new --accept-loss 1 --accept-loss 3 && agrees 3 2 && both_say 450:0 v450 && [ "$(count_wrong 170 '')" -eq 0 ] || return
  fill 340 c && move 3 new old && agrees 1 3 && [ "$(count_wrong 340 c)" -eq 0 ]
}

# The same, before the source has forgotten it: its row comes again, before anyone is let in.
test_destination_comes_back_amid_a_pull() {
  local patience=300 moving redis_words="--appendonly yes --appendfsync always" lo=0000014a00000000
  deploy && fill 340 '' && start_far_below || return
  end_far_below
  redis-cli -p "${servers[0]}" fcall squall_pull_give 0 2 "$lo" 000001c200000000 - 0 1000000 | grep "^given" || return
  stop "${servers[2]}"
  # shellcheck disable=SC2086
  run_redis "${servers[2]}" $redis_words || return
  launch "$run" supervisor "$bin/squall-redis-node" --supervise --secret-file "$secret" "${parts[@]}"
  await is_said_of 3 "not let in: keys are on their way" && start_far_below && both_say 450:0 v450 && agrees 3 2 450:0 || return
  has_no_row "${servers[0]}" 450:0 && agrees 1 2 451:0 && end_far_below && move 2 old new && [ "$(count_wrong 340 '')" -eq 0 ]
}

# The load has few keys, so that each is asked for often. One of them that moves, by chance, comes into `key`. One of four has a
# name that is hashed, and may stay.
few_keys=64
draw_key() {
  local at own place root
  while :; do
    at=$((RANDOM % few_keys)) own=$((RANDOM % 8))
    place=$(((at - (at % 8 == 6)) * 1009 + own))
    root=$((place % 1000))
    key=$root:$((place / 1000))
    [ $((at % 4)) -ne 3 ] || { key=k$own:$at && return; }
    if [ "$root" -ge 330 ] && [ "$root" -lt 670 ]; then return; fi
  done
}

# Pulls keys by chance while $run/pulling is there. Some of the programs are killed. How often they came to an end comes into
# $run/pulls.
pull_at_random() {
  local id pulled=0 number key keys plans=(old new)
  while [ -e "$run/pulling" ]; do
    number=$(cat "$run/pulling")
    keys=()
    for _ in 1 2 3; do
      draw_key
      [[ $key == k* && ${#keys[@]} -gt 0 ]] || keys+=(--pull "$key")
      [[ $key != k* ]] || break
    done
    set_mover "$number" "${plans[number % 2]}" "${plans[1 - number % 2]}" "${keys[@]}" --patience 2
    launch "$run" "pull.$1" "${mover[@]}"
    [ $((RANDOM % 3)) -gt 0 ] || { sleep "0.0$((RANDOM % 10))"; kill -KILL "$id"; }
    if wait "$id"; then pulled=$((pulled + 1)); fi
    echo "$pulled" > "$run/pulls.$1"
  done 2> /dev/null
}

# Under a load that knows each right answer: keys are pulled by three programs at once, of which some are killed, while some
# courses move them. Each of these is the function's second word.
pulls_under_load() {
  local number pullers=() at all rows plans=(old new) last=$2
  deploy || return
  start_load "$1" --pause 1000 --tolerant --keys "$few_keys"
  echo 2 > "$run/pulling"
  for at in 1 2 3; do
    pull_at_random "$at" &
    pullers+=($!)
  done
  shift 2
  for number in $(seq 2 "$last"); do
    echo "$number" > "$run/pulling"
    "$@" "$number" "${plans[number % 2]}" "${plans[1 - number % 2]}" || { rm "$run/pulling" && return 1; }
  done
  rm "$run/pulling"
  wait "${pullers[@]}"
  all=$(cat "$run"/pulls.* | awk '{ all += $1 } END { print +all }')
  grep -h -o 'rows have moved\|course [0-9]* is over\|is refused\|has not begun\|gives keys back' "$run"/pull.? | sort | uniq -c
  rows=$(cat "$run"/pull.? | sed -n 's/.*: \([0-9]*\) rows have moved.*/\1/p' | awk '{ all += $1 } END { print +all }')
  end_load && counts="$all pulls of $rows rows, $counts" && [ "$rows" -gt 10 ]
}

# The mover is killed again and again.
move_slowly() {
  move_killed "$@" --chunk 1 --pause 50 2> /dev/null
}

test_pulls_under_load() {
  pulls_under_load 10000 2 move_slowly && has_keys "${servers[2]}" 150 && agrees 3 2
}

# The right of the destination to restore comes and goes, so keys and chunks go back while others are pulled.
move_refused_at_times() {
  touch "$run/refusing"
  refuse_at_times "${servers[2]}" &
  local refuser=$! status=0
  move_till_done "$@" --chunk 1 || status=1
  rm "$run/refusing"
  wait "$refuser"
  return "$status"
}

test_pulls_that_go_back() {
  pulls_under_load 10000 2 move_refused_at_times && has_keys "${servers[2]}" 150 && agrees 3 2
}

# Servers at both ends are killed and come back with all that they had, while keys are pulled.
test_pulls_amid_restarts() {
  local id moving at pullers=() patience=2000 redis_words="--appendonly yes --appendfsync always"
  deploy || return
  start_load 10000 --pause 3000 --tolerant --keys "$few_keys"
  echo 2 > "$run/pulling"
  for at in 1 2; do
    pull_at_random "$at" &
    pullers+=($!)
  done
  start_move 2 old new --chunk 1 --pause 100
  moving=$id
  await has_loaded_of 1 2 || { rm "$run/pulling" && return 1; }
  for at in 0 2 1 2; do
    sleep "0.$((RANDOM % 50 + 40))"
    stop "${servers[at]}"
    # shellcheck disable=SC2086
    run_redis "${servers[at]}" $redis_words || { rm "$run/pulling" && return 1; }
  done 2> /dev/null
  if wait "$moving"; then echo "the mover has borne all of it"; fi
  move 2 old new || { rm "$run/pulling" && return 1; }
  rm "$run/pulling"
  wait "${pullers[@]}"
  at=$(cat "$run"/pulls.* | awk '{ all += $1 } END { print +all }')
  end_load && counts="$at pulls, $counts" && has_keys "${servers[2]}" 150 && agrees 3 2
}

long_many_pulls() {
  pulls_under_load 200000 5 move_slowly
}
