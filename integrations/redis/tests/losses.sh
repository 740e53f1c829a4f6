# shellcheck shell=bash disable=SC2154,SC2034
# Partitions that come back with less, for tools/integrations: it is found out before anyone is let in, and
# --accept-loss goes on with what there is.

# Writes so many keys from 330:0 on by the first proxy. All of them move in course 2, 170 from partition 1 and the
# others from 2. Their values end with the second word.
fill() {
  local key
  for ((key = 330; key < 330 + $1; key++)); do echo "set $key:0 v$key$2"; done \
    | redis-cli -p "${proxies[0]}" > "$run/filled"
  [ "$(grep -c '^OK' "$run/filled")" -eq "$1" ]
}

# How many of them have not that value, by what the second proxy answers.
count_wrong() {
  local key
  for ((key = 330; key < 330 + $1; key++)); do echo "get $key:0"; done | redis-cli -p "${proxies[1]}" > "$run/got"
  for ((key = 330; key < 330 + $1; key++)); do echo "v$key$2"; done | diff - "$run/got" | grep -c '^<'
}

# How many rows a server has.
count_rows() {
  redis-cli -p "$1" --scan | grep -vc '^squall:'
}

has_rows() {
  [ "$(count_rows "$1")" -ge "$2" ]
}

# Whether a partition has forgotten so many rows of what it gave.
has_forgotten() {
  [ "$(redis-cli -p "${servers[$1 - 1]}" hvals squall:gone | awk '{ all += $1 } END { print +all }')" -ge "$2" ]
}

# Nobody but its operator is let in at a server.
is_shut() {
  [ "$(redis-cli -p "$1" acl users)" = default ] || { echo "$1 lets routers in"; return 1; }
}

# Begins a move of chunks of two keys, and ends the server of partition 3 by force once the command succeeds. When that
# was comes into `lost_at`, in microseconds.
lose() {
  local id
  start_move 2 old new --chunk 2 --pause "${pace-20}" --patience 1
  await "$@" || return
  stop "${servers[2]}"
  lost_at=${EPOCHREALTIME/./}
  if wait "$id"; then echo "the mover had ended too soon"; return 1; fi
}

# The run that goes on without what is lost comes to its end, and so does the next course.
goes_on() {
  move 2 old new --accept-loss "$1" > "$run/accepted" 2>&1 || { cat "$run/accepted"; return 1; }
  cat "$run/accepted"
  grep -q "accepted: partition $1 " "$run/accepted" && agrees 3 2 \
    && [ "$(redis-cli -p "${servers[$1 - 1]}" hget squall:losses times)" = 1 ] || return
  move 2 old new --accept-loss "$1" 2>&1 | grep -q "partition $1 has lost nothing" || return
}

# A new destination without a log dies amid a course, and comes back empty.
test_destination_comes_back_empty() {
  local patience=300 lost
  deploy && fill 340 '' && lose has_rows "${servers[2]}" 60 && run_redis "${servers[2]}" || return
  refused "partition 3 has come back with less: it is in no course.*about [0-9]* rows" 2 old new || return
  is_shut "${servers[2]}" || return
  goes_on 3 || return
  lost=$(redis-cli -p "${servers[2]}" hget squall:losses rows)
  echo "$lost rows are lost"
  [ "$lost" -gt 0 ] && [ "$(count_wrong 340 '')" -eq "$lost" ] || return
  fill 340 b && move 3 new old && agrees 1 3 && [ "$(count_wrong 340 b)" -eq 0 ]
}

# The same as the other words say. It notes into `mark` how long the log of partition 3 is once it has a few rows.
notes_log_and() {
  local log=("$run/${servers[2]}/appendonlydir"/*.incr.aof)
  [ -n "$mark" ] || ! has_rows "${servers[2]}" 12 || mark=$(stat -c %s "${log[0]}")
  [ -n "$mark" ] && "$@"
}

# Cuts the log of partition 3, which has ended, to what it was then.
cut_log() {
  local log=("$run/${servers[2]}/appendonlydir"/*.incr.aof)
  echo "of $(stat -c %s "${log[0]}") bytes of the log $mark are left"
  truncate -s "$mark" "${log[0]}"
}

# A destination whose log is flushed each second loses its end.
test_destination_loses_its_log() {
  local patience=300 lost mark='' pace=60 redis_words="--appendonly yes --appendfsync everysec"
  deploy && fill 340 '' && lose notes_log_and has_forgotten 1 20 && cut_log || return
  # shellcheck disable=SC2086
  run_redis "${servers[2]}" $redis_words || return
  refused "partition 3 has come back with less.*it had loaded" 2 old new && is_shut "${servers[2]}" || return
  goes_on 3 || return
  lost=$(redis-cli -p "${servers[2]}" hget squall:losses rows)
  echo "$lost rows are lost"
  [ "$(count_wrong 340 '')" -le "$lost" ] || return
  fill 340 b && move 3 new old && agrees 1 3 && [ "$(count_wrong 340 b)" -eq 0 ]
}

# What is not forgotten yet is copied again before anyone is let in, so nobody sees that a key is not there.
test_loads_are_forgotten_late() {
  local patience=300 id wrong key mark='' began lost_at redis_words="--appendonly yes --appendfsync everysec"
  deploy && fill 340 '' || return
  began=${EPOCHREALTIME/./}
  pace=5 lose notes_log_and has_rows "${servers[2]}" 60 || return
  if has_forgotten 1 1 || has_forgotten 2 1; then
    # The first loads may be old enough by now if the machine is too busy. Nothing is shown then.
    counts='(the machine is too busy for this)'
    [ $((lost_at - began)) -ge 2000000 ] && return
    echo "it was forgotten too soon"
    return 1
  fi
  cut_log
  # shellcheck disable=SC2086
  run_redis "${servers[2]}" $redis_words || return
  start_move 2 old new --chunk 5 --pause 5
  # Loads of these were lost, of which the proxies have heard.
  while ! has_ended "$id"; do
    for key in 345 515; do
      redis-cli -p "${proxies[0]}" get "$key:0" | grep -qE "^v$key$|TRYAGAIN" || { echo "no key $key:0"; return 1; }
    done
  done
  wait "$id" || { cat "$run/mover"; return 1; }
  agrees 3 2 && is_asked_for_its_disk "${servers[2]}" && wrong=$(count_wrong 340 '')
  [ "$wrong" -eq 0 ] && [ "$(count_rows "${servers[2]}")" -eq 340 ]
}

# A server that can say what is on its disk was asked. Others have been given time.
is_asked_for_its_disk() {
  ! redis-cli -p "$1" command info waitaof | grep -q . || redis-cli -p "$1" info commandstats | grep -q cmdstat_waitaof
}

# A partition that has snapshots alone comes back with the last one, after the course.
test_restart_without_a_log() {
  local patience=300
  deploy && fill 340 '' && redis-cli -p "${servers[2]}" save && move 2 old new && redis-cli -p "${servers[2]}" save \
    && fill 340 b || return
  stop "${servers[2]}"
  run_redis "${servers[2]}" || return
  refused "partition 3 has come back with less: its server was restarted and writes no log" 2 old new || return
  is_shut "${servers[2]}" && goes_on 3 && [ "$(count_wrong 340 '')" -eq 0 ] || return
  fill 340 c && move 3 new old && agrees 1 3 && [ "$(count_wrong 340 c)" -eq 0 ]
}

# The same amid a course. What it has loaded is its own, whether or not the source has forgotten it.
test_restart_without_a_log_in_a_course() {
  local patience=300 id redis_words="--appendonly yes --appendfsync everysec"
  deploy && fill 340 '' || return
  start_move 2 old new --chunk 2 --pause 20 --patience 1
  await has_rows "${servers[2]}" 60 || return
  kill -KILL "$id"
  wait "$id" 2> /dev/null
  redis-cli -p "${servers[2]}" save && redis-cli -p "${servers[2]}" shutdown nosave
  wait "${ids[${servers[2]}]}"
  run_redis "${servers[2]}" || return
  refused "partition 3 has come back with less: its server was restarted and writes no log" 2 old new || return
  is_shut "${servers[2]}" && goes_on 3 && [ "$(count_wrong 340 '')" -eq 0 ] && [ "$(count_rows "${servers[2]}")" -eq 340 ]
}

# Both ends of moves come back as they were before. Routers have heard of loads that none of them knows of any more.
test_both_ends_come_back_older() {
  local patience=300 id key
  deploy && fill 340 '' && redis-cli -p "${servers[0]}" save && redis-cli -p "${servers[2]}" save || return
  lose has_rows "${servers[2]}" 60 || return
  stop "${servers[0]}"
  run_redis "${servers[0]}" && run_redis "${servers[2]}" || return
  refused "nobody is let in at partition 1, 3" 2 old new && is_shut "${servers[0]}" && is_shut "${servers[2]}" || return
  refused "nobody is let in at partition 1:" 2 old new --accept-loss 3 || return
  start_move 2 old new --chunk 2 --pause 50 --accept-loss 1 --accept-loss 3
  while ! has_ended "$id"; do
    for key in 345 350; do
      redis-cli -p "${proxies[0]}" get "$key:0" | grep -qE "^v$key$|TRYAGAIN" || { echo "no key $key:0"; return 1; }
    done
  done
  wait "$id" && agrees 3 2 && [ "$(count_wrong 170 '')" -eq 0 ] || return
  fill 340 c && move 3 new old && agrees 1 3 && [ "$(count_wrong 340 c)" -eq 0 ]
}

# A source comes back as it was before the course: what it had given it does not serve.
test_source_comes_back_older() {
  local patience=300 id
  deploy && fill 340 '' && redis-cli -p "${servers[0]}" save || return
  start_move 2 old new --chunk 2 --pause 20 --patience 1
  await has_rows "${servers[2]}" 80 && fill 20 b || return
  stop "${servers[0]}"
  if wait "$id"; then echo "the mover had ended too soon"; return 1; fi
  run_redis "${servers[0]}" || return
  refused "partition 1 has come back with less: it is in course 1.*it had given" 2 old new || return
  is_shut "${servers[0]}" && goes_on 1 || return
  [ "$(count_wrong 20 b)" -eq 0 ] && [ "$(count_rows "${servers[0]}")" -eq 0 ] || return
  fill 340 c && move 3 new old && agrees 1 3 && [ "$(count_wrong 340 c)" -eq 0 ]
}

# Several movers that go on without what is lost do no more harm than one.
test_movers_that_accept_at_once() {
  local patience=300 id lost all=() done=0
  deploy && fill 340 '' && lose has_rows "${servers[2]}" 60 && run_redis "${servers[2]}" || return
  for _ in 1 2 3; do
    start_move 2 old new --accept-loss 3
    all+=("$id")
  done
  for id in "${all[@]}"; do if wait "$id"; then done=$((done + 1)); fi; done
  cat "$run/mover"
  echo "$done of 3 movers have come to the end"
  [ "$done" -gt 0 ] && move 2 old new && agrees 3 2 || return
  lost=$(redis-cli -p "${servers[2]}" hget squall:losses rows)
  [ "$(redis-cli -p "${servers[2]}" hget squall:losses times)" = 1 ] || return
  [ "$(count_wrong 340 '')" -eq "$lost" ] || return
  fill 340 b && move 3 new old && agrees 1 3 && [ "$(count_wrong 340 b)" -eq 0 ]
}

# Partitions that an earlier version has brought amid a course know none of this, and go on.
test_partitions_of_an_earlier_version() {
  local id at
  deploy && fill 340 '' || return
  start_move 2 old new --chunk 2 --pause 20 --patience 1
  await has_rows "${servers[2]}" 60 || return
  kill -KILL "$id"
  wait "$id" 2> /dev/null
  for at in "${servers[@]}"; do
    redis-cli -p "$at" del squall:generation squall:seen squall:fence squall:run squall:gone | grep -qx '[45]' || return
  done
  move 2 old new && agrees 3 2 && [ "$(count_wrong 340 '')" -eq 0 ] && move 3 new old && agrees 1 3
}

# A destination loses its keys without a restart, and that it has refused a chunk which has gone back since. A mover that was
# asleep meanwhile neither puts nor loads a row of it, once the loss is accepted.
test_refusal_before_a_loss() {
  local to at lo=000001f400000000 edge=0000025900000000 own dump
  deploy || return
  to=${proxies[0]}
  for at in $(seq 500 670); do echo "set $at:0 x"; done | redis-cli -p "$to" > "$run/set"
  redis-cli -p "${servers[2]}" config set proto-max-bulk-len 1mb
  noise 1500000 | redis-cli -p "$to" -x set 500:0 && names 500:0 || return
  # What the late mover has given, and knows of it. Another one gives it back.
  redis-cli -p "${servers[1]}" fcall squall_give 0 2 "$lo" "$edge" | grep -qx "$edge" || return
  own=$(redis-cli -p "${servers[1]}" get squall:generation)
  redis-cli -p "${servers[2]}" fcall squall_back 0 2 "$lo" "$lo" 2 "$own" | grep -q "^$lo " || return
  names 500:0 && redis-cli -p "$to" set 600:0 y | grep -qx OK || return
  redis-cli -p "${servers[2]}" flushall && refused "partition 3 has come back with less" 2 old new || return
  move 2 old new --accept-loss 3 > "$run/accepted" 2>&1
  grep -q "accepted: partition 3 " "$run/accepted" || { cat "$run/accepted"; return 1; }
  redis-cli -p "${servers[2]}" fcall squall_load 0 2 "$lo" "$edge" 2 "$own" | grep "SQUALL BEFORE 2" || return
  dump=$(redis-cli --no-raw -p "${servers[1]}" dump 599:0)
  echo "fcall squall_put 1 599:0 2 0000025700000000 0 $dump 2 $own" | redis-cli -p "${servers[2]}" | grep "SQUALL BEFORE 2" || return
  agrees 2 2 600:0 && redis-cli -p "$to" get 600:0 | grep -qx y && redis-cli -p "$to" del 500:0 | grep -qx 1 || return
  move 2 old new && agrees 3 2 600:0 && redis-cli -p "$to" get 600:0 | grep -qx y
}

# A server that would remove the partition's own keys is refused.
test_eviction_of_own_keys() {
  deploy && redis-cli -p "${servers[1]}" config set maxmemory-policy allkeys-lru || return
  refused "partition 2: maxmemory-policy is allkeys-lru" 2 old new || return
  if "$bin/squall-redis-mover" --init --first "$run/old.json" --secret-file "$secret" "${parts[@]}"; then return 1; fi
  redis-cli -p "${servers[1]}" config set maxmemory-policy volatile-lru && fill 340 '' || return
  # It had done so: its rows are there, and nothing says which they are. Its routers are shut out.
  redis-cli -p "${servers[1]}" --scan --pattern 'squall:*' | xargs redis-cli -p "${servers[1]}" del || return
  refused "partition 2 has come back with less: it is in no course, and course 1 had begun" 2 old new || return
  redis-cli -p "${servers[1]}" acl getuser squall-1 | grep -qx on && return 1
  goes_on 2 && [ "$(count_wrong 340 '')" -eq 0 ]
}

# Whether the supervisor has said so of a partition.
is_said_of() {
  is_said "partition $1 is $2" "$run/supervisor"
}

# Ends the server of a partition in order, does something to its files, and starts it again.
restart() {
  local at=${servers[$1 - 1]}
  shift
  redis-cli -p "$at" shutdown
  wait "${ids[$at]}"
  "$@"
  # shellcheck disable=SC2086
  run_redis "$at" $redis_words
}

# A supervisor lets routers in again at a partition that was restarted, and not at one that has lost its data or to
# which keys are on their way.
test_supervise() {
  local patience=300 id moving began took redis_words="--appendonly yes"
  deploy && fill 340 '' || return
  launch "$run" supervisor "$bin/squall-redis-node" --supervise --secret-file "$secret" "${parts[@]}"
  await hears_signals "$id" && restart 2 true || return
  began=$EPOCHREALTIME
  await is_said_of 2 "let in again" || return
  took=$(((${EPOCHREALTIME/./} - ${began/./}) / 1000))
  echo "it was let in after $took ms"
  [ "$took" -lt 5000 ] && await is_answered 600 || return
  # Keys that were given and are not loaded: the mover of the course has to load them.
  start_move 2 old new --chunk 2 --pause 600000
  moving=$id
  await has_loaded_of 1 2 || return
  kill -KILL "$moving"
  wait "$moving" 2> /dev/null
  redis-cli -p "${servers[0]}" fcall squall_give 0 2 0000014a00000000 0000016000000000 || return
  restart 3 true && await is_said_of 3 "not let in: keys are on their way" && is_shut "${servers[2]}" || return
  move 2 old new && agrees 3 2 && [ "$(count_wrong 340 '')" -eq 0 ] || return
  restart 3 rm -rf "$run/${servers[2]}/appendonlydir" "$run/${servers[2]}/dump.rdb" || return
  await is_said_of 3 "not let in: it is in no course, and course 2 had begun" || return
  # It goes on to look.
  sleep 1.5
  is_shut "${servers[2]}" || return
  [ "$(grep -c 'course 2 had begun' "$run/supervisor")" -eq 1 ] || return
  # One that has lost its keys and still has its users: these are shut out.
  redis-cli -p "${servers[1]}" flushall && await is_said_of 2 "not let in: it is at step 0" && await is_off 2 || return
  cat "$run/supervisor"
  redis-cli -p "${proxies[0]}" get 680:0 | grep .
}

# Under a load that knows each right answer: partitions are restarted in order and by force, at rest and amid a move.
test_supervise_under_load() {
  local patience=2000 id moving redis_words="--appendonly yes --appendfsync always"
  deploy || return
  launch "$run" supervisor "$bin/squall-redis-node" --supervise --secret-file "$secret" "${parts[@]}"
  start_load 15000 --pause 3000 --tolerant
  await hears_signals "$id" && await has_keys "${servers[0]}" 400 || return
  restart 2 true && await is_said_of 2 "let in again" || return
  start_move 2 old new --chunk 5 --pause 30
  moving=$id
  await has_loaded_of 1 2 || return
  stop "${servers[2]}"
  # shellcheck disable=SC2086
  run_redis "${servers[2]}" $redis_words || return
  if wait "$moving"; then echo "the mover had ended too soon"; fi
  move 2 old new && restart 1 true && await is_said_of 1 "let in again" || return
  cat "$run/supervisor"
  end_load && has_moved && agrees 3 2
}

# Whether the users of routers are shut out at a partition.
is_off() {
  redis-cli -p "${servers[$1 - 1]}" acl list | grep '^user squall-' > "$run/users" && ! grep -q ' on ' "$run/users"
}

is_answered() {
  [ "$(redis-cli -p "${proxies[0]}" get "$1:0")" = "v$1" ]
}
