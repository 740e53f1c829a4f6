# shellcheck shell=bash disable=SC2154,SC2034
# Tests of what clients and operators see of proxies, for tools/integrations, which reads this file after servers.sh and
# moves.sh. Each of them says what it has done, and its status is that of its last command.

# What one client sees of the first proxy in that course.
serves() {
  SQUALL_COURSE=$1 SQUALL_PROXY=127.0.0.1:${proxies[0]} SQUALL_PARTITION=127.0.0.1:${servers[0]} \
    cargo test "${cargo[@]}" --features faults --test serving --test together --test commands -- --ignored --test-threads 1
}

test_serving() {
  local limits=(--client-memory 1 --clients 20)
  deploy && serves 1
}

# What the port of the status page shows of a path, into $run/page.
page() {
  local head fd
  exec {fd}<> "/dev/tcp/127.0.0.1/$http" || return
  printf 'GET /%s HTTP/1.1\r\nHost: squall\r\n\r\n' "$1" >&"$fd"
  while read -r head <&"$fd" && [ "$head" != $'\r' ]; do echo "$head"; done > "$run/head"
  cat <&"$fd" > "$run/page"
  exec {fd}>&-
  grep -q ' 200 OK' "$run/head"
}

# Whether a number that Prometheus reads is that one.
counts() {
  grep -qx "$1 $2" "$run/page" || { echo "not $1 $2"; grep "^${1%%\{*}" "$run/page"; return 1; }
}

# Sets `program` to the program squall. An unpacked archive has it beside the library.
set_program() {
  if program=$("$top/tools/releasing/released" program 2> /dev/null); then
    program=$program/squall
  elif "$top/tools/releasing/is-built"; then
    program=$top/squall
  elif [ -x "$SQUALL_DIR/squall" ]; then
    program=$SQUALL_DIR/squall
  else
    echo "there is no program squall"
    return 1
  fi
}

# The page and the metrics say what the program says of the same board. What files for Prometheus and Grafana name is exported.
test_status_page() {
  local program http id limits at=()
  set_program && deploy || return
  free_port
  http=$port
  limits=(--metrics "127.0.0.1:$http" --program "$program")
  run_proxy 0 env || return
  redis-cli -p "$port" set 400:0 x && redis-cli -p "$port" hset 600:0 f v && redis-cli -p "$port" set 400:1 x || return
  page metrics && counts squall_course 1 && counts squall_moving_keys 0 || return
  counts 'squall_commands_by_kind_total{kind="text"}' 2 && counts 'squall_commands_by_kind_total{kind="hash"}' 1 || return
  # After the first chunks it waits. Until then the board may be older than the metrics.
  for _ in 1 2; do free_port && at+=("$port"); done
  start_node --bus "$bus_at" --board "$run/own" --supervise "${parts[@]}" --log json --metrics "127.0.0.1:${at[0]}"
  start_move 2 old new --chunk 1 --pause 600000 --metrics "127.0.0.1:${at[1]}"
  agrees 3 2 && await has_loaded_of 1 2 && await has_pages_of_board || return
  cat "$run/status"
  page '' && grep -q '<svg' "$run/page" && grep -q 'http-equiv="refresh"' "$run/page" && ! page nothing || return
  are_exported "$http" "${at[@]}" && have_times
}

# While keys move, the picture and the lines of the page are of one moment.
test_page_of_one_moment() {
  local program http id limits looks=0 last='' loads=0 drawn said
  set_program && deploy && fill_roots || return
  free_port
  http=$port
  limits=(--metrics "127.0.0.1:$http" --program "$program")
  run_proxy 0 env || return
  # It goes on for long enough on a busy machine, too.
  start_move 2 old new --chunk 1 --pause 100
  until [ "$loads" -gt 5 ]; do
    ! has_ended "$id" || { echo "the mover has ended after $looks looks at $loads boards"; return 1; }
    page '' || return
    drawn=$(sed -n "s/^<text [^>]*y='20'[^>]*>course .* loaded \([0-9]* of [0-9]*\) keys.*/\1/p" "$run/page")
    said=$(sed -n 's/^<pre>course .* loaded \([0-9]* of [0-9]*\) keys.*/\1/p' "$run/page")
    [ -n "$said" ] && [ "$drawn" = "$said" ] || { echo "the picture says $drawn, and the lines $said"; return 1; }
    looks=$((looks + 1))
    [ "$said" = "$last" ] || loads=$((loads + 1))
    last=$said
  done
  counts="($looks looks at $loads boards)"
}

# Whether the programs at these ports export together all that the files of monitoring/ name.
are_exported() {
  for http in "$@"; do
    page metrics && sed -n 's/^\(squall_[a-z_]*\).*/\1/p' "$run/page" || return
  done | sort -u > "$run/exported"
  grep -oh 'squall_[a-z_]*' "$package"/monitoring/* | sort -u > "$run/named"
  [ "$(wc -l < "$run/named")" -gt 20 ] && [ -z "$(comm -23 "$run/named" "$run/exported" | tee /dev/stderr)" ] || return
  python3 -m json.tool "$package/monitoring/dashboard.json" > "$run/said" || return
  ! command -v promtool > /dev/null || promtool check rules "$package/monitoring/rules.yml"
}

# Whether lines of the logs have a time, a level and a program.
have_times() {
  grep -hE '^20[0-9]{2}-[0-9-]{5}T[0-9:.]{12}Z info squall-redis-proxy: serves at' "$run"/proxy.* \
    && grep -E '^\{"time":"20[0-9T:.-]{21}Z","level":"info","program":"squall-redis-node","text":"keeps .*"\}$' "$run/node"
}

# Whether the pages are those of the board.
has_pages_of_board() {
  local words loaded moving
  page board && cp "$run/page" "$run/board" && "$program" status "$run/old.json" "$run/old.json" "$run/board" > "$run/status"
  "$program" picture "$run/old.json" "$run/old.json" "$run/board" > "$run/picture"
  read -r -a words < "$run/status"
  loaded=$(sed -n '1s/.* loaded \([0-9]*\) of .*/\1/p' "$run/status")
  moving=$(sed -n '1s/.* loaded [0-9]* of \([0-9]*\) .*/\1/p' "$run/status")
  [ "${words[*]:0:2}" = "course 2" ] && [ "$loaded" -gt 0 ] || return
  page metrics && counts squall_course 2 && counts squall_moving_keys "$moving" && counts squall_loaded_keys "$loaded" || return
  page status && cmp "$run/page" "$run/status" && page picture.svg && cmp "$run/page" "$run/picture"
}

# The same while all keys move. After their first chunks the movers of both sources wait.
test_serving_by_guard() {
  local limits=(--client-memory 1 --clients 20) id key
  deploy || return
  echo '{"plan":[{"part":3,"from":[0,0],"to":"end"}]}' > "$run/all.json"
  for key in 0:0 0:1 500:0 500:1; do redis-cli -p "${proxies[0]}" set "$key" x || return; done
  start_move 2 old all --chunk 1 --pause 600000
  agrees 1 2 && await has_loaded_of 1 2 && serves 2 || return
  # Thousands of commands were guarded.
  redis-cli -p "${servers[0]}" info commandstats | grep -q 'cmdstat_fcall:calls=[0-9][0-9][0-9][0-9]'
}

# Waits for keys that move: each ends at the new place, with what was put there, or in time with nothing.
test_waits_while_keys_move() {
  deploy && waits_end_in_time 30
}

waits_end_in_time() {
  local key id waits=() seconds=$1
  for key in 400:0 600:0; do
    launch "$run" "wait.$key" redis-cli -p "${proxies[0]}" blpop "$key:q" "$seconds"
    waits+=("$id")
  done
  launch "$run" wait.stays redis-cli -p "${proxies[1]}" blpop 1:0:q "$seconds"
  waits+=("$id")
  await has_waiting "${servers[0]}" 2 && await has_waiting "${servers[1]}" 1 || return
  launch "$run" wait.none redis-cli -p "${proxies[1]}" blpop 400:1:q 410:1:q 3
  waits+=("$id")
  # Waits begin before the course, in it, and after it.
  await has_waiting "${servers[0]}" 3 || return
  for key in $(seq 330 499); do echo "set $key:0 x"; done | redis-cli -p "${proxies[0]}" > "$run/set"
  start_move 2 old new --chunk 5 --pause 20
  sleep 0.3
  launch "$run" wait.later redis-cli -p "${proxies[1]}" blpop 410:0:q "$seconds"
  waits+=("$id")
  agrees 3 2 490:0 || return
  sleep 0.2
  for key in 400:0 600:0 410:0 1:0; do redis-cli -p "${proxies[1]}" rpush "$key:q" "of $key" || return; done
  for id in "${waits[@]}"; do wait "$id"; done
  tail -n 3 "$run"/wait.*
  for key in 400:0 600:0; do grep -qx "of $key" "$run/wait.$key" || return; done
  grep -qx "of 410:0" "$run/wait.later" && grep -qx "of 1:0" "$run/wait.stays" && ! grep -q "of " "$run/wait.none" || return
  # None is left, and nothing was taken twice.
  redis-cli -p "${proxies[0]}" del 400:0:q 600:0:q 410:0:q 1:0:q | grep -qx 0
}

# Names all keys again and again while they move: none is ever missed.
test_scan_while_keys_move() {
  deploy && scans_find_all
}

scans_find_all() {
  local number plans=(old new) scans=0 id
  for number in $(seq 0 1999); do echo "set $((number % 1000)):$number:s x"; done > "$run/sets"
  redis-cli -p "${proxies[0]}" < "$run/sets" > "$run/set"
  cut -d' ' -f2 "$run/sets" | sort > "$run/wanted"
  number=2
  while [ "$number" -lt 5 ] || [ "$scans" -lt 6 ]; do
    start_move "$number" "${plans[number % 2]}" "${plans[1 - number % 2]}" --chunk 10 --pause 4
    until has_ended "$id"; do
      redis-cli -p "${proxies[scans % 2]}" --scan | sort -u > "$run/found" || return
      cmp "$run/found" "$run/wanted" || return
      scans=$((scans + 1))
    done
    wait "$id" || return
    number=$((number + 1))
  done
  echo "$scans scans"
}

# Reads pages of a walk over the members of a key, so many at most, from the cursor in $run/cursor on, which then has the next one.
# Members are added to $run/members.
read_pages() {
  local verb=$1 key=$2 left=$3 step=1 cursor
  [ "$verb" = sscan ] || step=2
  cursor=$(cat "$run/cursor")
  while [ "$left" -gt 0 ]; do
    redis-cli -p "${proxies[left % 2]}" "$verb" "$key" "$cursor" count 100 > "$run/page" || return
    cursor=$(head -n 1 "$run/page")
    [[ $cursor =~ ^[0-9]+$ ]] || { cat "$run/page"; return 1; }
    # A page without members is an empty line of redis-cli.
    tail -n +2 "$run/page" | awk -v step="$step" 'NF && (NR % step == 1 || step == 1)' >> "$run/members"
    left=$((left - 1))
    [ "$cursor" != 0 ] || left=0
  done
  echo "$cursor" > "$run/cursor"
}

# Whether a walk over a key of many members names all of them, if the key moves amid the walk. The first word is what is done
# after some pages.
walks_all() {
  local verb=$2 key=$3
  echo 0 > "$run/cursor"
  : > "$run/members"
  read_pages "$verb" "$key" 5 && "$1" && read_pages "$verb" "$key" 10000 || return
  [ "$(cat "$run/cursor")" = 0 ] && sort -u "$run/members" | diff - "$run/wanted" > "$run/differs" && return
  echo "$verb $key: $(grep -c '^>' "$run/differs") members are missed, and $(grep -c '^<' "$run/differs") are none"
  return 1
}

test_members_while_keys_move() {
  local id number=1 plans=(old new) add verb
  deploy || return
  seq -f 'm%04.0f' 1200 | sort > "$run/wanted"
  for add in "hset 400:0:h %s v" "sadd 400:0:s %s" "zadd 400:0:z 1 %s" "hset 600:0:h %s v"; do
    awk -v add="$add\n" '{ printf add, $0 }' "$run/wanted"
  done | redis-cli -p "${proxies[0]}" > "$run/set"
  for verb in "hscan 400:0:h" "sscan 400:0:s" "zscan 400:0:z" "hscan 600:0:h"; do
    # shellcheck disable=SC2086
    walks_all true $verb && walks_all to_and_fro $verb || return
  done
  # The rest of the walk is by the guard: the key is not given yet.
  for number in $(seq 330 399); do echo "set $number:0 x"; done | redis-cli -p "${proxies[0]}" > "$run/set"
  walks_all begins_to_move hscan 400:0:h
}

# The next course.
to_and_fro() {
  number=$((number + 1))
  move "$number" "${plans[number % 2]}" "${plans[1 - number % 2]}" > "$run/said"
}

# The next course, which waits after its first chunks.
begins_to_move() {
  start_move 6 old new --chunk 1 --pause 600000
  agrees 3 6 330:0
}

# A command on two keys is refused while it waits, if only one of them moves: at the new place it would be done without
# the other.
test_keys_that_part() {
  local id
  deploy || return
  redis-cli -p "${proxies[0]}" mset 500:0 x 600:0 x 700:0 y || return
  start_move 2 old new --chunk 1 --pause 600000
  agrees 3 2 500:0 && await has_loaded_of 2 || return
  kill -KILL "$id"
  wait "$id"
  # The keys below 601:0 are given, and nobody loads them yet.
  redis-cli -p "${servers[1]}" fcall squall_give 0 2 000001f400000000 0000025900000000 | grep -qx 0000025900000000 || return
  launch "$run" renamed redis-cli -p "${proxies[0]}" rename 600:0 700:0
  await has_counted "${proxies[0]}" pending 1 && move 2 old new || return
  wait "$id"
  cat "$run/renamed"
  grep -q TRYAGAIN "$run/renamed" && redis-cli -p "${proxies[0]}" mget 600:0 700:0 | tr '\n' ' ' | grep -qx 'x y ' || return
  [ "$(redis-cli -p "${servers[2]}" exists 700:0)" = 0 ]
}

# Queues that many clients share, over both proxies, while their lists move to and fro.
queues_keep_all() {
  local number id queue status plans=(old new)
  cargo test "${cargo[@]}" --features faults --test queue --no-run || return
  touch "$run/moving"
  launch "$run" queue env -C "$package" SQUALL_PROXIES="127.0.0.1:${proxies[0]} 127.0.0.1:${proxies[1]}" SQUALL_WHILE="$run/moving" \
    cargo test "${cargo[@]}" --features faults --test queue -- --ignored --nocapture
  queue=$id
  await has_counted "${proxies[0]}" commands 1000 || return
  for number in 2 3 4; do
    move "$number" "${plans[number % 2]}" "${plans[1 - number % 2]}" --chunk 1 --pause 60 || return
    sleep 0.2
  done
  rm "$run/moving"
  wait "$queue"
  status=$?
  grep -E "^pushed|^lost|^error|panicked|answered" "$run/queue"
  return "$status"
}

test_queues() {
  deploy && queues_keep_all
}

# A proxy that never guards waits, transactions and scripts loses what is pushed, or it is taken twice.
test_mutant_of_queues() {
  deploy SQUALL_FAULT=never-guard && ! queues_keep_all && grep -q "twice or never pushed" "$run/queue"
}

# A fence that ends no waits leaves them at a partition to which nothing comes.
test_mutant_of_waits() {
  deploy || return
  ! SQUALL_FAULT=leave-waits waits_end_in_time 6 && grep -q "of 1:0" "$run/wait.stays" && ! grep -q "of " "$run/wait.400:0"
}

# A walk that visits no partition twice misses keys. On a busy machine a walk outlasts a course and begins anew, and then it
# may find all of them. So there are three tries.
test_mutant_of_scans() {
  local try
  for try in 1 2 3; do
    echo "try $try"
    deploy SQUALL_FAULT=scan-once || return
    ! scans_find_all && [ -s "$run/found" ] && [ -z "$(comm -13 "$run/wanted" "$run/found")" ] && return
  done
  return 1
}

# Sends slow scripts at once over one connection, and puts their answers into a file. They are long, since a server does all
# that it has read at once before it hears others.
send_scripts() {
  local count=$1 key=$2 script at
  script="--$(head -c 4000 /dev/zero | tr '\0' -)
  local n = 0 for i = 1, 2000000 do n = n + i end return redis.call('INCR', KEYS[1])"
  exec 3<> "/dev/tcp/127.0.0.1/${proxies[0]}" || return
  for at in $(seq "$count"); do
    printf '*4\r\n$4\r\nEVAL\r\n$%d\r\n%s\r\n$1\r\n1\r\n$%d\r\n%s\r\n' "${#script}" "$script" "${#key}" "$key"
  done >&3
  for at in $(seq "$count"); do IFS= read -r -t 60 -u 3 line && echo "${line%$'\r'}"; done > "$run/scripts"
  exec 3>&-
}

# Scripts in flight when a course begins are done once, or answered with TRYAGAIN. Then they are done at once.
test_scripts_in_flight() {
  local id patience=1500 count=60 done_once refused
  deploy || return
  for at in 500 501 600; do redis-cli -p "${proxies[0]}" set "$at:0" 0 > "$run/set"; done
  send_scripts "$count" 600:0 &
  local scripts=$!
  sleep 0.2
  # After the first chunk it waits, so the key 600:0 does not come.
  start_move 2 old new --chunk 1 --pause 600000
  wait "$scripts"
  done_once=$(grep -c '^:' "$run/scripts")
  refused=$(grep -c '^-TRYAGAIN the key is on its way$' "$run/scripts")
  echo "$done_once were done, and $refused refused"
  # How many are refused depends on how soon the course begins: on a busy machine perhaps none.
  if [ $((done_once + refused)) -ne "$count" ]; then
    sort "$run/scripts" | uniq -c | sort -rn | head -n 15; cat "$run/mover"; return 1
  fi
  [ "$(redis-cli -p "${proxies[0]}" eval "return redis.call('INCR', KEYS[1])" 1 600:0)" -eq $((done_once + 1)) ] || return
  kill -KILL "$id"
  move 2 old new && [ "$(redis-cli -p "${proxies[1]}" get 600:0)" -eq $((done_once + 1)) ]
}

# The connections of a program by its process id, with the timers that the system has for them.
timers() {
  ss -tnpoH state established | grep "pid=$1,"
}

# Whether each connection of a program, of which there are so many at least, is probed within that many seconds of silence.
# One on which bytes are under way has another timer for a moment.
are_probed() {
  await are_probed_now "$@" && return
  cat "$run/timers"
  return 1
}

are_probed_now() {
  local id=$1 least=$2 seconds=$3
  timers "$id" > "$run/timers"
  [ "$(wc -l < "$run/timers")" -ge "$least" ] \
    && awk -v most="$seconds" '
      !match($0, /timer:\(keepalive,[0-9.]+(ms|sec),/) { exit 1 }
      { left = substr($0, RSTART + 17); if (left ~ /^[0-9]+sec/ && left + 0 > most) exit 1 }' "$run/timers"
}

# Whether one of them is probed after so long.
has_timer() {
  timers "$1" | grep -q "timer:(keepalive,$2"
}

# A client that has gone without a word does not keep its place: all connections of proxies, movers and nodes are probed.
test_keep_alive() {
  local id node proxy key limits=(--keep-alive 40) mover_words=(--keep-alive 30)
  command -v ss > /dev/null || { echo "no ss here"; return 1; }
  deploy || return
  proxy=${proxies[0]}
  exec 3<> "/dev/tcp/127.0.0.1/$proxy" || return
  for key in 1:0 600:0; do redis-cli -p "$proxy" set "$key" x || return; done
  # A client, two partitions, and two connections to the bus.
  are_probed "${ids[$proxy]}" 5 40 || return
  grep -q "127.0.0.1:$proxy " "$run/timers" || { echo "no connection of a client"; return 1; }
  exec 3>&-
  start_node --bus "127.0.0.1:$bus" --board board --keep-alive 20
  are_probed "$id" 2 20 || return
  for key in 400:0 401:0 600:0 601:0; do redis-cli -p "$proxy" set "$key" x || return; done
  # After its first chunks it waits. Of both sources it has two connections, and of the destination two.
  start_move 2 old new --chunk 1 --pause 600000
  agrees 3 2 && are_probed "$id" 8 30 || return
  # Without the option that of Redis counts, and 0 turns it off.
  limits=(--keep-alive 0)
  run_proxy 0 env && redis-cli -p "$port" get 1:0 | grep -q x || return
  timers "${ids[$port]}" > "$run/timers"
  [ -s "$run/timers" ] && ! grep keepalive "$run/timers" || return
  limits=()
  run_proxy 0 env && redis-cli -p "$port" get 1:0 | grep -q x || return
  await has_timer "${ids[$port]}" 4min
}

# A wrong word is refused before anything has begun.
test_wrong_words() {
  local at option
  deploy || return
  redis-cli -p "${proxies[0]}" set 400:0 x || return
  for option in settle chunk pause keep-alive; do
    refused "--$option x: not between .*--help" 2 old new "--$option" x || return
    move 2 old new "--$option" x 2> "$run/said"
    [ $? -eq 2 ] || { cat "$run/said"; return 1; }
  done
  for at in "${servers[@]}"; do redis-cli -p "$at" get squall:number | grep -qx 1 || return; done
  agrees 1 1 && ! "$bin/squall-redis-proxy" --listen 127.0.0.1:0 --first "$run/old.json" --bus "$bus_at" "${parts[@]}" \
    --secret-file "$secret" --keep-alive 1h 2> "$run/said" || return
  grep -- "--keep-alive 1h: not between 0 and 32767" "$run/said" || return
  ! "$bin/squall-redis-proxy" --listen 127.0.0.1:0 --first "$run/old.json" --bus nowhere "${parts[@]}" --secret-file "$secret" \
    2> "$run/said" && grep -- "--bus nowhere: not of the form HOST:PORT" "$run/said" || return
  # One server for two partitions.
  refused "partition 1 has the same address" 2 old new --part "4=127.0.0.1:${servers[0]}" && refused "is given twice" 2 old new \
    --part "3=127.0.0.1:1"
}

# The bytes of slow scripts that count at a key, one after another.
slow_scripts() {
  local script='local n = 0 for i = 1, 20000000 do n = n + i end return redis.call("INCR", KEYS[1])'
  for _ in $(seq "$1"); do
    printf '*4\r\n$4\r\nEVAL\r\n$%d\r\n%s\r\n$1\r\n1\r\n$3\r\n1:0\r\n' "${#script}" "$script"
  done
}

# Whether the proxy has begun so many scripts.
has_begun_scripts() {
  page metrics && counts 'squall_commands_by_kind_total{kind="script"}' "$1" > "$run/counted"
}

# Whether nothing more comes from the file number of a connection.
is_closed() {
  local more status
  IFS= read -r -t 60 -u "$1" more
  status=$?
  # A wait that took too long is above 128.
  [ "$status" -eq 1 ] && [ -z "$more" ]
}

# A proxy that is asked to end lets nobody in, and gives the answers to what it was asked before.
test_proxy_ends_in_order() {
  local proxy http id at limits
  deploy || return
  free_port
  http=$port
  limits=(--metrics "127.0.0.1:$http")
  run_proxy 0 env || return
  proxy=$port
  id=${ids[$proxy]}
  exec 3<> "/dev/tcp/127.0.0.1/$proxy" 4<> "/dev/tcp/127.0.0.1/$proxy" 5<> "/dev/tcp/127.0.0.1/$proxy" || return
  printf '*3\r\n$5\r\nBLPOP\r\n$3\r\n2:0\r\n$1\r\n0\r\n' >&5
  await has_waiting "${servers[0]}" 1 || return
  slow_scripts 3 >&3
  await has_begun_scripts 3 || return
  kill -TERM "$id"
  await_not is_used "$proxy" || { echo "it still lets clients in"; return 1; }
  for at in 1 2 3; do
    IFS= read -r -t 60 -u 3 line && [ "$line" = ":$at"$'\r' ] || { echo "answer $at: $line"; return 1; }
  done
  for at in 3 4 5; do is_closed "$at" || { echo "connection $at is open"; return 1; }; done
  exec 3>&- 4>&- 5>&-
  wait "$id" || { echo "status $?"; return 1; }
  grep -q "ends; 0 clients wait" "$run"/proxy.* || return
  # Nobody took it, and it waits for nobody.
  redis-cli -p "${proxies[1]}" rpush 2:0 x && redis-cli -p "${proxies[1]}" llen 2:0 | grep -qx 1
}

# A proxy that the system lets open too few files says so at the start, and once when it has none left. It goes on with those
# whom it has let in, and lets others in when files are free again.
test_too_few_files() {
  local proxy log held=() fd
  deploy || return
  run_proxy 0 prlimit --nofile=40:40 || return
  proxy=$port
  log=$(grep -l "serves at 127.0.0.1:$proxy" "$run"/proxy.*)
  grep "may need 10[0-9]* open files, and the system allows 40" "$log" || return
  for _ in $(seq 50); do
    exec {fd}<> "/dev/tcp/127.0.0.1/$proxy" || return
    held+=("$fd")
  done
  printf '*1\r\n$4\r\nPING\r\n' >&"${held[0]}"
  IFS= read -r -t 60 -u "${held[0]}" line && [ "$line" = $'+PONG\r' ] || return
  await is_said 'to accept: Too many open files' "$log" && sleep 0.5 || return
  [ "$(grep -c 'to accept: Too many open files' "$log")" -eq 1 ] || { cat "$log"; return 1; }
  for fd in "${held[@]}"; do exec {fd}>&-; done
  redis-cli -p "$proxy" set 1:0 x | grep -qx OK
}

# The processor time of a process in hundredths of a second.
used() {
  awk '{ print $14 + $15 }' "/proc/$1/stat"
}

# Clients of a partition that is down wait, and take no processor time from others.
test_many_wait() {
  local id proxy held=() fd before alone beside patience=600000
  deploy || return
  proxy=${proxies[0]}
  id=${ids[$proxy]}
  redis-cli -p "$proxy" set 1:0 x && redis-cli -p "$proxy" set 600:0 x || return
  before=$(used "$id")
  redis-benchmark -p "$proxy" -n 40000 -c 10 get 1:0 > "$run/bench" 2>&1 || return
  alone=$(($(used "$id") - before))
  stop "${servers[1]}"
  for _ in $(seq 800); do
    exec {fd}<> "/dev/tcp/127.0.0.1/$proxy" || return
    held+=("$fd")
    printf '*2\r\n$3\r\nGET\r\n$5\r\n600:0\r\n' >&"$fd"
  done
  before=$(used "$id")
  redis-benchmark -p "$proxy" -n 40000 -c 10 get 1:0 > "$run/bench" 2>&1 || return
  beside=$(($(used "$id") - before))
  echo "40,000 commands took 0.01 s x $alone alone, and x $beside beside ${#held[@]} that wait"
  counts="($alone and $beside)"
  for fd in "${held[@]}"; do exec {fd}>&-; done
  [ "$beside" -lt $((3 * alone + 30)) ]
}

# A partition that stops without a word holds its clients up no longer than --answer, and others not at all. Once it goes on,
# what was not answered was done once or not at all.
test_silent_partition() {
  local proxy limits=(--answer 500) patience=1000 began at
  deploy || return
  proxy=${proxies[0]}
  # Both workers of the proxy are logged in, and each then has one of the clients: they come in turn.
  for _ in 1 2; do redis-cli -p "$proxy" mset 1:0 x 600:0 0 601:0 0 | grep -qx OK || return; done
  exec 3<> "/dev/tcp/127.0.0.1/$proxy" 4<> "/dev/tcp/127.0.0.1/$proxy" || return
  kill -STOP "${ids[${servers[1]}]}"
  began=$SECONDS
  printf '*2\r\n$4\r\nINCR\r\n$5\r\n600:0\r\n' >&3
  printf '*2\r\n$4\r\nINCR\r\n$5\r\n601:0\r\n' >&4
  redis-cli -p "$proxy" get 1:0 | grep -qx x || return
  for at in 3 4; do
    IFS= read -r -t 60 -u "$at" line
    echo "$line"
    [ "$line" = $'-ERR partition 2 did not answer: whether this was done is not known\r' ] || return
  done
  exec 3>&- 4>&-
  [ $((SECONDS - began)) -lt 30 ] || return
  # It is not let in again, since its log-in is not answered.
  redis-cli -p "$proxy" get 600:0 | grep TRYAGAIN || return
  kill -CONT "${ids[${servers[1]}]}"
  await has_zero_or_one "$proxy" 600:0 && has_zero_or_one "$proxy" 601:0
}

has_zero_or_one() {
  redis-cli -p "$1" get "$2" | grep -qx '[01]'
}
