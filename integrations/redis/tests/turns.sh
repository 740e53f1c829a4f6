# shellcheck shell=bash disable=SC2154,SC2034
# Courses that are turned back half way, for tools/integrations.

# Turns course N back, by the words of its mover; the other words are added.
turn() {
  move "$@" --turn-back
}

# Starts that, into `id`. Its output goes to $run/turn.
start_turn() {
  set_mover "$@" --turn-back
  launch "$run" turn "${mover[@]}"
}

# The same, that is to end at that point of it as if by force.
turn_to() {
  local point=$1
  shift
  ends_at "$point" turn "$@"
}

# Whether a command ends at that point of it.
ends_at() {
  local point=$1 status
  shift
  SQUALL_STOP=$point "$@" > "$run/turned" 2>&1
  status=$?
  [ "$status" -eq 137 ] || { cat "$run/turned"; echo "at $point: status $status"; return 1; }
}

# All rows are there once, and as many are at each partition as the words say.
has_rows_at() {
  local at=0 count
  [ "$(count_wrong 340 "${value-}")" -eq 0 ] || { echo "$(count_wrong 340 "${value-}") rows are wrong"; return 1; }
  for count in "$@"; do
    [ "$(count_rows "${servers[at]}")" -eq "$count" ] || { echo "partition $((at + 1)) has $(count_rows "${servers[at]}") rows"; return 1; }
    at=$((at + 1))
  done
}

# A plan that leads elsewhere.
write_other() {
  echo '{"plan":[{"part":1,"from":[0,0],"to":[400,0]},{"part":2,"from":[400,0],"to":[500,0]},{"part":3,"from":[500,0],"to":"end"}]}' \
    > "$run/other.json"
}

# A mover is half way: it has loaded four keys and not forgotten them, and a key was pulled far above. The course is turned back beside the mover, and then led elsewhere.
test_turn_back() {
  local moving id
  deploy && fill 340 '' && write_other || return
  refused "to needs --turn-back" 2 old new --to "$run/other.json" || return
  start_far_below && pulls "${servers[0]}" 450:0 && has_rows "${servers[2]}" 5 || return
  turn 2 old new --dry-run > "$run/out" && cat "$run/out" || return
  grep -q "course 2: begun at 3 of 3 partitions, closed at 0" "$run/out" && grep -q "^move \[450:0,450:1) 3 to 1 sub 0: 1 keys" "$run/out" \
    && grep -q "^course 3: .* 5 keys" "$run/out" || return
  turn 2 old new > "$run/out" && cat "$run/out" && grep -q "course 2 was turned back: course 3 is over" "$run/out" || return
  grep -q "^course 3: moved 9 keys" "$run/out" && agrees 1 3 && agrees 1 3 450:0 && has_rows_at 170 170 0 || return
  [ "$(for server in "${servers[@]}"; do redis-cli -p "$server" exists squall:closed; done | sort -u)" = 0 ] || return
  end_far_below
  # Once more, and by the words of the mover; from another plan it is another course.
  turn 2 old new | grep "course 3: moved 0 keys" && refused "course 3 has begun; course 2 is over" 2 old new || return
  refused "course 3 has begun with other plans" 2 old new --turn-back --to "$run/other.json" || return
  # From a course that is half way to another plan, which is turned back to the plan from which the first one came.
  start_move 3 new old --turn-back && refused "course 3 has begun with other plans" 2 old new --turn-back --to "$run/new.json"
  wait "$id"
  start_move 4 old new --chunk 2 --pause 600000
  moving=$id
  await moves_from 4 "${servers[1]}" && turn 4 old new --to "$run/other.json" && end_far_below && agrees 3 5 600:0 && agrees 2 5 450:0 || return
  has_rows_at 70 100 170 || return
  # The course that turns one back is turned back itself. It begins at no plan that a file has.
  end_far_below
  start_move 6 other new --chunk 2 --pause 600000
  moving=$id
  await moves_from 6 "${servers[0]}" && turn_to left-started 6 other new && end_far_below || return
  turn 6 other new --dry-run | sed -n 's/^course 7 begins at //p' > "$run/left.json" && grep -q '"part":3' "$run/left.json" || return
  turn 7 left other --to "$run/old.json" && agrees 1 8 && has_rows_at 170 170 0 && refused "course 8 has begun" 6 other new --turn-back
}

# Whether a partition has given keys in that course.
moves_from() {
  [ "$(edges "$1" out "$2" | awk '{ if ($1 != $2) found = 1 } END { print found + 0 }')" -eq 1 ]
}

# A mover and a pull of the course end once it is closed. What was given is loaded.
test_closed_course() {
  local id patience=2000 redis_words="--appendonly yes --appendfsync always"
  deploy && fill 340 '' || return
  start_move 2 old new --chunk 2 --pause 100
  await has_loaded_of 1 2 && turn_to closed 2 old new || return
  if wait "$id"; then return 1; fi
  cat "$run/mover"
  grep -q "course 2 is being turned back, and gives nothing more" "$run/mover" || return
  refused_pull "course 2 is being turned back" 2 old new 450:0 && both_say 450:0 v450 || return
  # It stays closed, also over a restart.
  launch "$run" supervisor "$bin/squall-redis-node" --supervise --secret-file "$secret" "${parts[@]}"
  restart 1 true && restart 2 true && await is_said_of 1 "let in again" && refused "course 2 is being turned back" 2 old new || return
  turn 2 old new --dry-run | grep "course 2: begun at 3 of 3 partitions, closed at 3" || return
  refused "course 2 is not over" 3 new old || return
  turn 2 old new && agrees 1 3 && has_rows_at 170 170 0
}

# Between each two of its steps.
turn_points=(usual-may-begin old-started closed-at-one closed settled left-may-begin left-begun-at-one left-begun left-admitted
  left-started)

# It ends by force between each two of its steps. Each time the next run goes on.
test_turn_ends_anywhere() {
  local point number=2 id plans=(old new)
  deploy && fill 340 '' || return
  for point in "${turn_points[@]}"; do
    start_move "$number" old new --chunk 2 --pause 30
    await moves_from "$number" "${servers[0]}" && turn_to "$point" "$number" old new || return
    turn "$number" old new || return
    if wait "$id"; then echo "the mover has come to its end"; return 1; fi
    number=$((number + 2))
  done
  agrees 1 21 && has_rows_at 170 170 0 && move 22 old new && agrees 3 22 && has_rows_at 0 0 340
}

# None of its keys has moved, or all of them; or it has begun nowhere, or at one partition alone.
test_turn_at_both_ends() {
  local number=2
  deploy && fill 340 '' || return
  turn 2 old new > "$run/out" 2>&1 || { cat "$run/out"; return 1; }
  grep -q "course 2 had begun nowhere" "$run/out" && grep -q "no key of it has moved" "$run/out" && agrees 1 3 || return
  refused "course 3 has begun; course 2 is over" 2 old new && has_rows_at 170 170 0 || return
  move 4 old new && turn 4 old new > "$run/out" 2>&1 && grep -q "all keys of it have moved" "$run/out" && agrees 1 5 || return
  has_rows_at 170 170 0 && refused "the next one has the number after it" 7 old new --turn-back || return
  # All keys have moved, and the next course was begun as usual at one of the partitions alone.
  move 6 old new && ends_at usual-begun-at-one move 7 new old || return
  turn 6 old new && agrees 1 7 && has_rows_at 170 170 0
}

# Turns course N back by programs that are killed again and again, until one of them has come to its end. Each ten have a second
# more. Their output goes to the file of the first word.
turn_killed() {
  local name=$1 id try points=("${turn_points[@]}" none none none none none)
  shift
  set_mover "$@" --turn-back
  for try in $(seq 100); do
    launch "$run" "$name" env SQUALL_STOP="${points[RANDOM % ${#points[@]}]}" "${mover[@]}"
    sleep "$((try / 10)).$((RANDOM % 60 + 10))"
    kill -KILL "$id"
    if wait "$id"; then return; fi
  done 2> /dev/null
  echo "it has come to no end" >> "$run/$name"
  return 1
}

# Courses are begun by two movers, some keys are pulled, and the courses are turned back by two programs at once, which are killed
# again and again. A third one is asleep for a while between two of its steps. The next course leads to any plan. So many courses
# are.
turn_courses() {
  local last=$((number + 2 * $1)) id movers others sleeper plans=(old new other) new to key
  while [ "$number" -lt "$last" ]; do
    new=${plans[RANDOM % 3]} to=${plans[RANDOM % 3]} movers=()
    for _ in 1 2; do
      start_move "$number" "$at" "$new" --chunk 10 --pause $((RANDOM % 30))
      movers+=("$id")
    done
    sleep "0.$((RANDOM % 40 + 10))"
    draw_key
    set_mover "$number" "$at" "$new" --pull "$key" --patience 2
    launch "$run" pull.1 "${mover[@]}"
    movers+=("$id")
    sleep "0.0$((RANDOM % 10))"
    set_mover "$number" "$at" "$new" --turn-back --to "$run/$to.json"
    launch "$run" turn.3 env SQUALL_WAIT="${turn_points[RANDOM % ${#turn_points[@]}]}" "${mover[@]}"
    sleeper=$id
    turn_killed turn.1 "$number" "$at" "$new" --to "$run/$to.json" --chunk 10 &
    others=$!
    turn_killed turn.2 "$number" "$at" "$new" --to "$run/$to.json" --chunk 10 || { tail -n 40 "$run/turn.2"; return 1; }
    wait "$others" || { tail -n 40 "$run/turn.1"; return 1; }
    wait "$sleeper" || { tail -n 40 "$run/turn.3"; return 1; }
    for id in "${movers[@]}"; do if wait "$id"; then ended=$((ended + 1)); fi; done
    at=$to number=$((number + 2))
  done
}

# All of that under a load that knows each right answer. The third word is `faults` if servers, proxies and the bus are ended by
# force meanwhile.
turns_under_load() {
  local number=2 at=old ended=0 status=0 chaos
  deploy && write_other || return
  start_load "$1" --pause 1000 --tolerant
  if [ "${3-}" = faults ]; then
    touch "$run/faults"
    faults_go_on > "$run/chaos" 2>&1 &
    chaos=$!
  fi
  turn_courses "$2" || status=1
  rm -f "$run/faults"
  [ -z "${chaos-}" ] || wait "$chaos"
  [ "$status" -eq 0 ] || return
  echo "$ended movers and pulls had come to their end before"
  grep -ho 'no key of it\|all keys of it\|some keys of it\|is being turned back\|rows have moved' "$run"/{turn.?,mover,pull.1} | sort | uniq -c
  move "$number" "$at" new && move $((number + 1)) new old && end_load && agrees 1 $((number + 1)) && [ "$(count_rows "${servers[2]}")" -eq 0 ]
}

test_turns_under_load() {
  turns_under_load 20000 6
}

# So many courses, or TURNS.
long_turns() {
  turns_under_load 1000000 "${TURNS-200}"
}

# A server whose disk is busy answers before it writes, unless it flushes always.
long_turns_amid_faults() {
  local redis_words="--appendonly yes --appendfsync always" patience=20000
  turns_under_load 1000000 "${TURNS-20}" faults
}

# Turns a course back that goes on giving after it was closed, by one that waits before it begins the next one.
turn_open() {
  local id
  deploy || return
  start_load 20000 --pause 1000 --tolerant
  await has_keys "${servers[0]}" 400 && await has_keys "${servers[1]}" 400 || return
  start_move 2 old new --chunk 5 --pause 50
  await has_loaded_of 1 2 || return
  SQUALL_FAULT=$1 SQUALL_WAIT=settled turn 2 old new > "$run/turned" 2>&1
}

# The partitions see that keys are no longer where they were.
test_mutant_without_close() {
  if turn_open give-when-closed; then return 1; fi
  cat "$run/turned"
  grep -q "the keys are not where the plan has them\|course 2 is not over" "$run/turned"
}

# They do not look.
test_mutant_that_begins_blindly() {
  turn_open begin-blindly
  cat "$run/turned"
  caught
}

# Partitions come back with less. One that has lost that it is closed is found out, before and after the next course has begun.
test_losses_amid_a_turn() {
  local patience=2000 id
  deploy && fill 340 '' && redis-cli -p "${servers[0]}" save && write_other || return
  start_move 2 old new --chunk 2 --pause 100
  await has_loaded_of 1 2 && turn_to closed 2 old new || return
  wait "$id"
  stop "${servers[0]}"
  run_redis "${servers[0]}" || return
  refused "partition 1 has come back with less: it is in course 1" 2 old new --turn-back && is_shut "${servers[0]}" || return
  # A mover that accepts it gives nothing there either, since the course is closed elsewhere.
  refused "course 2 is being turned back" 2 old new --accept-loss 1 && [ "$(count_rows "${servers[2]}")" -lt 20 ] || return
  turn_to left-begun-at-one 2 old new || return
  [ "$(redis-cli -p "${servers[0]}" get squall:number)" = 3 ] && redis-cli -p "${servers[2]}" flushall || return
  refused "partition 3 has come back with less: it is in no course, and course 2 had begun" 2 old new --turn-back || return
  is_off 3 || return
  turn 2 old new --accept-loss 3 && agrees 1 3 && [ "$(redis-cli -p "${servers[2]}" hget squall:losses times)" = 1 ] || return
  # What it had loaded is lost, and nothing else.
  [ "$(count_wrong 340 '')" -lt 20 ] || { echo "$(count_wrong 340 '') rows are lost"; return 1; }
  fill 340 b && move 4 old other && agrees 3 4 600:0 || return
  value=b has_rows_at 70 100 170 || return
  # A destination to which nothing had moved, and that the plan of where the keys are does not name.
  echo '{"plan":[{"part":1,"from":[0,0],"to":[500,0]},{"part":2,"from":[500,0],"to":"end"}]}' > "$run/two.json"
  move 5 other two && turn_to left-begun-at-one 6 two new && redis-cli -p "${servers[2]}" flushall || return
  refused "partition 3 has come back with less" 6 two new --turn-back && turn 6 two new --accept-loss 3 && agrees 1 7 || return
  value=b has_rows_at 170 170 0
}

# The plan of where the keys are may have too many ranges. This is found out before the course is closed.
long_turn_of_many_ranges() {
  deploy || return
  awk 'BEGIN { printf "{\"plan\":["; for (at = 0; at < 4096; at++)
    printf "%s{\"part\":%d,\"from\":[%d,0],\"to\":%s}", at ? "," : "", at % 2 ? 3 : 1, at, at < 4095 ? "[" at + 1 ",0]" : "\"end\""
    print "]}" }' > "$run/many.json"
  echo '{"plan":[{"part":1,"from":[0,0],"to":"end"}]}' > "$run/one.json"
  move 2 old one && redis-cli -p "${servers[2]}" config set proto-max-bulk-len 1mb || return
  noise 1500000 | redis-cli -p "${proxies[0]}" -x set 4095:0 && redis-cli -p "${proxies[0]}" mset 4099:0 x 4099:1 y || return
  refused "the key .4095:0. has" 3 one many --pause 0 || return
  move 3 one many --pull 4099:0 || return
  refused "course 3 can't be turned back now; .*: the plan of where the keys are has more than 4096 ranges" 3 one many --turn-back || return
  [ "$(redis-cli -p "${servers[0]}" exists squall:closed)" = 0 ] && redis-cli -p "${proxies[0]}" del 4095:0 || return
  move 3 one many --pause 0 && ends_at left-begun-at-one turn 3 one many
}

# A course leads on to a partition that is new, and that the course before does not name.
test_turn_to_a_new_partition() {
  local id at
  deploy && fill 340 '' && start_move 2 old new --chunk 2 --pause 600000 && await has_loaded_of 1 2 && kill -KILL "$id" || return
  wait "$id" 2> /dev/null
  echo '{"plan":[{"part":1,"from":[0,0],"to":[330,0]},{"part":4,"from":[330,0],"to":[600,0]},{"part":2,"from":[600,0],"to":"end"}]}' \
    > "$run/four.json"
  refused "a plan names partition 4, which has no address" 2 old new --turn-back --to "$run/four.json" || return
  start_redis && servers+=("$port") && parts+=(--part "4=127.0.0.1:$port") || return
  for at in "${proxies[@]}"; do
    stop "$at"
    run_proxy "$at" env || return
  done
  turn_to left-begun-at-one 2 old new --to "$run/four.json" && turn 2 old new --to "$run/four.json" && agrees 4 3 || return
  has_rows_at 0 70 0 270 && move 4 four old && agrees 1 4 && has_rows_at 170 170 0 0
}

# A key is too large for its destination, so the course can't come to its end.
test_turn_of_a_stuck_course() {
  deploy && fill 340 '' && redis-cli -p "${servers[2]}" config set proto-max-bulk-len 1mb || return
  noise 1500000 | redis-cli -p "${proxies[0]}" -x set 400:0 && redis-cli -p "${proxies[0]}" set 401:0 v401 || return
  refused 'the key "400:0" has 15[0-9]* bytes, and partition 3 takes 1048576' 2 old new || return
  turn 2 old new && agrees 1 3 && redis-cli -p "${proxies[1]}" strlen 400:0 | grep -qx 1500000 || return
  [ "$(count_wrong 340 '')" -eq 1 ] && [ "$(count_rows "${servers[2]}")" -eq 0 ] || return
  # Its destination refuses a row that was given. So the chunk goes back, amid the turn.
  redis-cli -p "${servers[0]}" set 400:0 v400 || return
  start_move 4 old new --chunk 2 --pause 600000
  await moves_from 4 "${servers[0]}" && kill -KILL "$id" || return
  wait "$id" 2> /dev/null
  redis-cli -p "${servers[0]}" fcall squall_give 0 4 0000014a00000000 0000016000000000 || return
  redis-cli -p "${servers[2]}" acl setuser default -restore || return
  turn 4 old new > "$run/out" 2>&1 || { cat "$run/out"; return 1; }
  grep "is refused by partition 3: .*it stays there, and is served" "$run/out" && agrees 1 5 && has_rows_at 170 170 0
}
