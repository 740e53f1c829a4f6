# shellcheck shell=bash disable=SC2154,SC2034
# The tests that tools/integrations runs over what servers.sh starts. Each of them says what it has done, and its status
# is that of its last command.

test_guard() {
  run=$work/guard
  start_redis --enable-debug-command yes && SQUALL_REDIS=127.0.0.1:$port cargo test "${cargo[@]}" --features faults \
    --test guard --test chunk --test pull --test turn --lib \
    -- --ignored --test-threads 1
}

# A mover relies on it: a server sends the name of each new key, by whatever command it comes.
test_news_of_keys() {
  run=$work/news
  start_redis --notify-keyspace-events En || return
  launch "$run" said redis-cli -p "$port" subscribe __keyevent@0__:new
  await is_said subscribe "$run/said" || return
  redis-cli -p "$port" > "$run/answers" << 'E2'
set s1 a
rename s1 s2
copy s2 s3
append s4 x
setrange s5 2 x
setbit s6 1 1
bitop not s7 s4
incr s8
getset s9 x
msetnx s10 1 s11 2
setex s12 100 a
incrbyfloat s13 1.5
renamenx s2 s14
psetex s15 100000 x
setnx s16 x
lpush l1 a b
lmove l1 l2 left right
rpoplpush l1 l3
sadd e1 a b
smove e1 e2 a
sunionstore e3 e1 e2
zadd z1 1 a
zrangestore z2 z1 0 -1
zunionstore z3 1 z1
zincrby z4 1 a
geoadd g1 1 1 a
geosearchstore g2 g1 fromlonlat 1 1 byradius 10 km
hset h1 a b
hincrby h2 a 1
hsetnx h3 a b
hincrbyfloat h4 a 1.5
xadd x1 * a b
xgroup create x2 g 0 mkstream
pfadd p1 a
pfmerge p2 p1
sort l1 alpha store l4
georadius g1 1 1 10 km store g3
georadiusbymember g1 a 10 km storedist g4
E2
  redis-cli --no-raw -p "$port" dump s1 | sed 's/^/restore s17 0 /' | redis-cli -p "$port" >> "$run/answers"
  redis-cli -p "$port" --scan | sort > "$run/keys"
  local missing
  await has_news && [ "$(wc -l < "$run/keys")" -gt 30 ] && return
  echo "no news of $missing"
  cat "$run/answers"
  return 1
}

has_news() {
  missing=$(sort "$run/said" | comm -13 - "$run/keys")
  [ -z "$missing" ]
}

test_plain_move() {
  deploy || return
  start_load 60000 --pause 200
  sleep 0.2
  move 2 old new || return
  agrees 3 2 && move 3 new old && move 4 old new || return
  end_load && has_moved && agrees 3 4
}

test_missed_frames() {
  local settle=10000
  deploy SQUALL_MISS=30 || return
  start_load 40000 --pause 300
  sleep 0.2
  move 2 old new && move 3 new old && move 4 old new || return
  end_load && has_moved && agrees 3 4
}

# Kills the mover of course N again and again until it has moved all.
move_killed() {
  local kills=0 id
  for _ in $(seq 60); do
    start_move "$@"
    sleep "0.$((RANDOM % 25 + 10))"
    if kill -KILL "$id"; then kills=$((kills + 1)); fi
    wait "$id"
    grep -q "^course $1: moved" "$run/mover" && break
  done
  echo "the mover was killed $kills times"
  move "$@"
}

kill_proxies() {
  local which
  while kill -0 "$load" 2> /dev/null; do
    sleep "0.$((RANDOM % 50 + 30))"
    which=$((RANDOM % 2))
    stop "${proxies[which]}"
    run_proxy "${proxies[which]}" env || return
  done
}

test_killed() {
  deploy || return
  start_load 40000 --pause 4000 --tolerant
  kill_proxies 2> /dev/null &
  local killer=$!
  move_killed 2 old new --pause 20 2> /dev/null && move_killed 3 new old --pause 20 2> /dev/null || return
  end_load
  local status=$?
  wait "$killer"
  [ "$status" -eq 0 ]
}

# Frames are missed, and proxies and both of two movers are killed.
test_all_at_once() {
  local number id status plans=(old new)
  deploy SQUALL_MISS=30 || return
  start_load 20000 --pause 4000 --tolerant
  SQUALL_MISS=30 kill_proxies 2> /dev/null &
  local killer=$!
  for number in 2 3; do
    move_killed "$number" "${plans[number % 2]}" "${plans[1 - number % 2]}" --pause 20 2> /dev/null &
    local other=$!
    move_killed "$number" "${plans[number % 2]}" "${plans[1 - number % 2]}" --pause 20 2> /dev/null || return
    wait "$other" || return
  done
  end_load
  status=$?
  wait "$killer"
  [ "$status" -eq 0 ]
}

test_restarted_partition() {
  local id patience=2000 redis_words="--appendonly yes --appendfsync always"
  deploy || return
  start_load 20000 --pause 6000 --tolerant
  sleep 0.2
  start_move 2 old new --pause 30
  sleep 0.4
  local which
  for which in 0 2; do
    stop "${servers[which]}"
    run_redis "${servers[which]}" --appendonly yes --appendfsync always || return
  done
  if wait "$id"; then echo "the mover had ended too soon"; fi
  move 2 old new || return
  end_load && has_moved && agrees 3 2
}

test_two_movers() {
  deploy || return
  start_load 30000 --pause 300
  local id all=()
  for _ in 1 2; do
    start_move 2 old new
    all+=("$id")
  done
  for id in "${all[@]}"; do wait "$id" || return; done
  cat "$run/mover"
  end_load && has_moved && agrees 3 2
}

# Starts a node whose board is in $run/board, into `node`.
run_node() {
  local id
  start_node --bus "127.0.0.1:$bus" --board board --every 3
  node=$id
}

# Whether its board has all of that course.
has_board_of() {
  "$program" status "$run/old.json" "$run/old.json" "$run/board" | grep -q "^course $1 .* 1000/1000"
}

# A node is killed again and again while keys move: what it had written is there each time. In the end it alone knows the
# course, and tells new proxies over a new bus.
test_node() {
  local program node id moving kills=0 key at
  set_program && deploy || return
  for key in $(seq 330 2 670); do echo "set $key:0 x"; done | redis-cli -p "${proxies[0]}" > "$run/set"
  run_node
  # On a machine with much other work a node takes more than a second until its board is there, so the move is slow.
  start_move 2 old new --chunk 2 --pause 150
  moving=$id
  while kill -0 "$moving" 2> /dev/null; do
    sleep "0.0$((RANDOM % 90 + 10))"
    kill -KILL "$node"
    wait "$node"
    [ -e "$run/board" ] || { run_node; continue; }
    cp "$run/board" "$run/before"
    run_node
    kills=$((kills + 1))
    "$program" beyond --quiet "$run/before" "$run/board" || { echo "kill $kills: something is lost"; return 1; }
  done 2> /dev/null
  wait "$moving" || return
  echo "the node was killed $kills times"
  [ "$kills" -gt 5 ] || { echo "too few to show anything"; return 1; }
  await has_board_of 2 || return
  kill -KILL "$node"
  wait "$node"
  for at in "${proxies[@]}" "$bus"; do stop "$at"; done
  run_redis "$bus" || return
  run_node
  for at in "${proxies[@]}"; do run_proxy "$at" env || return; done
  agrees 3 2 || return
  # A board that is damaged is refused.
  kill -KILL "$node"
  wait "$node"
  printf x >> "$run/board"
  run_node
  ! wait "$node" && grep -q "is damaged" "$run/node"
}

# Runs a mover that is to be refused with these words.
refused() {
  local words=$1
  shift
  if move "$@" > "$run/refused" 2>&1; then
    echo "not refused: $words"
    return 1
  fi
  grep -q -- "$words" "$run/refused" || { cat "$run/refused"; return 1; }
}

test_foreign_plans() {
  local id
  deploy || return
  echo '{"plan":[{"part":1,"from":[0,0],"to":[100,0]},{"part":2,"from":[100,0],"to":"end"}]}' > "$run/other.json"
  echo '{"plan":[{"part":9,"from":[0,0],"to":"end"}]}' > "$run/unknown.json"
  start_load 10000 --pause 8000
  refused "partition 9, which has no address" 2 old unknown && refused "the next one has the number" 3 old new \
    && refused "ended at another plan" 2 other new || return
  # It waits after the first chunk.
  start_move 2 old new --chunk 1 --pause 600000
  agrees 2 2 900:0 && refused "has begun with other plans" 2 old other && refused "is not over" 3 new old || return
  kill -KILL "$id"
  wait "$id"
  move 2 old new || return
  refused "course 2 is over\|has begun with other plans" 2 old other && move 3 new old \
    && refused "course 2 is over" 2 old new || return
  end_load && agrees 1 3
}

test_dry_run() {
  deploy || return
  redis-cli -p "${proxies[0]}" set 400:1 x && move 2 old new --dry-run > "$run/out" || return
  cat "$run/out"
  grep -q "move \[330:0,500:0) 1 to 3 sub 0: 1 keys" "$run/out" && grep -q "course 2: .* moves, 1 keys" "$run/out" \
    && agrees 1 1
}

# A proxy with another plan of course 1 is let in nowhere.
test_foreign_first() {
  local patience=100
  deploy || return
  echo '{"plan":[{"part":2,"from":[0,0],"to":"end"}]}' > "$run/old.json"
  run_proxy 0 env || return
  redis-cli -p "$port" set 1:1 x | grep TRYAGAIN && redis-cli -p "${proxies[0]}" get 1:1 | grep -q '^$'
}

# All servers need passwords, and proxies that of a course's users.
test_passwords() {
  local at which limits began
  deploy || return
  echo operator > "$run/operator"
  echo the secret of proxies | tr ' ' - > "$run/secret"
  for at in "$bus" "${servers[@]}"; do redis-cli -p "$at" config set requirepass operator || return; done
  # A bus that refuses a mover from the beginning is no fault that passes.
  began=$SECONDS
  refused "NOAUTH" 2 old new && refused "NOAUTH" 2 old new --password-file "$run/operator" || return
  [ $((SECONDS - began)) -lt 50 ] || { echo "it took $((SECONDS - began)) s"; return 1; }
  limits=(--bus-password-file "$run/operator" --secret-file "$run/secret")
  for which in 0 1; do
    stop "${proxies[which]}"
    run_proxy "${proxies[which]}" env || return
  done
  move 2 old new "${limits[@]}" --password-file "$run/operator" || return
  agrees 3 2 && redis-cli -p "${proxies[0]}" set 400:0 x && redis-cli -p "${proxies[1]}" get 400:0 | grep -q x
}

# The bench of moves beside Redis Cluster runs, in small: each key that moves is at the third server in the end.
test_beside_redis_cluster() {
  BIN=$bin KEYS=3000 BEFORE=200 PACE=2000 TMPDIR=$work "$package/bench-move" 1 > "$work/moves" || return
  grep during "$work/moves"
  [ "$(grep -c 'during.* moved 2[0-9][0-9]$' "$work/moves")" -eq 4 ]
}

# A mutant has to be caught: the checker finds what is lost or wrong.
caught() {
  end_load
  [[ ! $counts =~ "lost 0 wrong 0" ]]
}

# The same, in one of three tries: on a busy machine the moment may not come in which it does wrong.
caught_in_tries() {
  local try
  for try in 1 2 3; do
    echo "try $try"
    "$@" && caught && return
    end_all
  done
  return 1
}

test_mutant_of_new_keys() {
  caught_in_tries move_without_new_keys
}

move_without_new_keys() {
  deploy || return
  start_load 30000 --pause 1000 --tolerant --keys 3000
  SQUALL_FAULT=miss-new-keys move 2 old new --pause 10
}

test_mutant_without_guard() {
  caught_in_tries move_without_guard
}

move_without_guard() {
  deploy SQUALL_FAULT=never-guard || return
  start_load 40000 --pause 500 --tolerant --keys 2000
  sleep 0.2
  move 2 old new --chunk 200 --pause 10
}

test_mutant_without_fence() {
  caught_in_tries move_without_fence
}

move_without_fence() {
  local patience=50
  deploy SQUALL_MISS=100 || return
  start_load 20000 --pause 1000 --tolerant
  sleep 0.1
  SQUALL_FAULT=no-fence move 2 old new --pause 10
}

# With the fence, proxies that hear nothing do nothing wrong: they answer no more.
test_deaf_proxies() {
  local patience=50
  deploy SQUALL_MISS=100 || return
  start_load 40 --connections 4 --keys 12 --depth 2 --pause 10000 --tolerant --reads 1
  sleep 0.1
  move 2 old new || return
  sleep 0.3
  end_load
  [[ $counts =~ "lost 0 wrong 0" ]] && ! [[ $counts =~ "errors 0" ]]
}

# A load takes any seed.
test_largest_seed() {
  deploy || return
  start_load 300 --seed 18446744073709551615
  end_load
}

# A source sends the names of new keys while a mover reads the others. A server ends a connection that leaves too much of
# that unread: here 8 MB, and what the system keeps.
test_news_while_keys_are_read() {
  local id moving writers=() at redis_words="--enable-debug-command yes"
  deploy || return
  # None of these keys moves. Their names are long, so there is much news of few keys.
  redis-cli -p "${servers[0]}" debug populate 1000000 5 1 || return
  redis-cli -p "${servers[0]}" config set client-output-buffer-limit "pubsub 8388608 8388608 0" || return
  redis-cli -p "${proxies[0]}" set 400:0 x || return
  start_move 2 old new
  moving=$id
  await is_scanned "${servers[0]}" || return
  for at in 1 2 3 4; do
    launch "$run" "writer.$at" bash -c 'for n in $(seq 9999); do printf "set 5:%s:%05000d x\n" "$0" "$n"; done \
      | redis-cli -p "$1"' "$at" "${servers[0]}"
    writers+=("$id")
  done
  wait "$moving" || { cat "$run/mover"; return 1; }
  for id in "${writers[@]}"; do kill "$id"; done 2> /dev/null
  redis-cli -p "${servers[0]}" dbsize
  has_moved_one && agrees 3 2
}

# Whether a mover reads the keys of that server.
is_scanned() {
  redis-cli -p "$1" client list | grep -q 'cmd=scan'
}

has_moved_one() {
  [ "$(redis-cli -p "${servers[2]}" exists 400:0)" = 1 ]
}

# The edges of all moves of a role at some partitions: below each of them keys were given, or loaded.
edges() {
  local number=$1 role=$2 at
  shift 2
  for at in "$@"; do redis-cli -p "$at" fcall squall_moves 0 "$number"; done | awk -v role="$role" '$3 == role { print $1, $5 }' | sort
}

# A mover that is asked to end loads what it has given, so no key is left without a partition.
test_mover_ends_in_order() {
  local id ends=0
  deploy || return
  start_load 20000 --pause 300
  await has_keys "${servers[0]}" 400 && await has_keys "${servers[1]}" 400 || return
  while [ "$ends" -lt 5 ]; do
    start_move 2 old new --pause 50 --chunk 10
    await hears_signals "$id" || return
    sleep "0.$((RANDOM % 20 + 10))"
    kill -TERM "$id"
    if wait "$id"; then break; fi
    ends=$((ends + 1))
    grep "stopped; start it again with the same words" "$run/mover" || { cat "$run/mover"; return 1; }
    edges 2 out "${servers[@]:0:2}" > "$run/given"
    edges 2 in "${servers[2]}" | cmp - "$run/given" || return
  done
  echo "the mover was ended $ends times"
  [ "$ends" -gt 0 ] && move 2 old new || return
  end_load && has_moved && agrees 3 2
}

# A node that is asked to end writes what it knows. A full disk is said once, and what was written stays.
test_node_ends_in_order() {
  local program id node at
  set_program && deploy || return
  start_node --bus "127.0.0.1:$bus" --board board --every 3
  node=$id
  await [ -e "$run/board" ] && await ln -s /dev/full "$run/board.new" && cp "$run/board" "$run/before" || return
  redis-cli -p "${proxies[0]}" set 400:0 x && move 2 old new && await is_said 'No space left' "$run/node" && sleep 1.5 || return
  cmp "$run/board" "$run/before" || return
  cat "$run/node"
  [ "$(grep -c 'No space left' "$run/node")" -eq 1 ] || return
  rm "$run/board.new"
  await has_board_of 2 && await is_said "written again" "$run/node" || return
  kill -TERM "$node"
  wait "$node" || { echo "status $?"; return 1; }
  # One that writes seldom writes in the end.
  start_node --bus "127.0.0.1:$bus" --board board --every 3600000
  node=$id
  await hears_signals "$node" && move 3 new old && await has_heard_all 3 || return
  ! has_board_of 3 || return
  kill -TERM "$node"
  wait "$node" || { echo "status $?"; return 1; }
  "$program" status "$run/old.json" "$run/old.json" "$run/board" | grep "^course 3 .* 1000/1000"
}

# The demo ends, and writes nothing, if another server is at one of its ports.
test_demo_beside_a_stranger() {
  local stranger run=$work/demo
  start_redis || return
  stranger=$port
  if "$package/demo" $((stranger - 1)) > "$run/said" 2>&1; then
    echo 'the demo went on'
    return 1
  fi
  grep -q 'Address already in use' "$run/said" && [ "$(redis-cli -p "$stranger" dbsize)" -eq 0 ] \
    && [ "$(redis-cli -p "$stranger" acl users)" = default ]
}

# Servers that refuse for a while, and a bus that starts anew, end no move: neither as it begins nor while keys move.
test_refusals_that_pass() {
  local id moving
  deploy || return
  start_load 20000 --pause 3000 --tolerant
  await has_keys "${servers[0]}" 400 && await has_keys "${servers[1]}" 400 || return
  redis-cli -p "${servers[0]}" config set busy-reply-threshold 20 && redis-cli -p "${servers[2]}" config set maxmemory 1 || return
  start_move 2 old new --pause 100
  moving=$id
  bears OOM 1 && redis-cli -p "${servers[2]}" config set maxmemory 0 && agrees 2 2 900:0 || return
  redis-cli -p "${servers[2]}" config set maxmemory 1 && bears OOM 2 || return
  redis-cli -p "${servers[2]}" config set maxmemory 0 || return
  launch "$run" endless redis-cli -p "${servers[0]}" eval 'while true do end' 0
  bears BUSY 1 && redis-cli -p "${servers[0]}" script kill || return
  stop "$bus"
  bears bus: 1 && run_redis "$bus" || return
  wait "$moving" || { cat "$run/mover"; return 1; }
  cat "$run/mover"
  end_load && has_moved && agrees 3 2
}

# Waits until the mover has said so often that it bears this.
bears() {
  await has_borne "$@" && return
  cat "$run/mover"
  return 1
}

has_borne() {
  [ "$(grep -c "$1.* tried again" "$run/mover")" -ge "$2" ]
}

# While keys move from a server without memory or disk, it does what it would do at rest: it reads, and removes keys.
test_guard_without_memory() {
  local id key to
  deploy || return
  to=${proxies[0]}
  for key in 500:0 600:0 601:0 602:0; do redis-cli -p "$to" set "$key" x || return; done
  # After its first chunks it waits.
  start_move 2 old new --chunk 1 --pause 600000
  agrees 3 2 500:0 && await has_loaded_of 2 || return
  redis-cli -p "${servers[1]}" config set maxmemory 1 || return
  redis-cli -p "$to" get 600:0 | grep -qx x && redis-cli -p "$to" expire 600:0 100 | grep -qx 1 || return
  redis-cli -p "$to" del 601:0 | grep -qx 1 && redis-cli -p "$to" set 602:0 y | grep "^OOM" || return
  redis-cli -p "${servers[1]}" config set maxmemory 0 && redis-cli -p "$to" set 602:0 y | grep -qx OK || return
  # One that reads alone, as a server does whose disk is full.
  redis-cli -p "${servers[1]}" replicaof 127.0.0.1 1 || return
  redis-cli -p "$to" get 602:0 | grep -qx y && redis-cli -p "$to" set 602:0 z | grep "^READONLY"
}
