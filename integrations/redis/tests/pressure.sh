# shellcheck shell=bash disable=SC2154,SC2034
# Tests of too much at once and of too large a value, for tools/integrations, which reads this file after servers.sh,
# moves.sh and clients.sh. Each of them says what it has done, and its status is that of its last command.

# The bytes of so many GETs of a key.
gets() {
  local count=$1 key=$2
  awk -v count="$count" -v key="$key" \
    'BEGIN { for (; count > 0; count--) printf "*2\r\n$3\r\nGET\r\n$%d\r\n%s\r\n", length(key), key }'
}

# Asks for the key 1:0 over one connection until $run/probing is gone. The longest wait in milliseconds and how often it
# asked come into a file.
probe() {
  local at=$1 file=$2 fd line began took longest=0 count=0
  exec {fd}<> "/dev/tcp/127.0.0.1/$at" || return
  while [ -e "$run/probing" ]; do
    began=${EPOCHREALTIME/./}
    printf '*2\r\n$3\r\nGET\r\n$3\r\n1:0\r\n' >&"$fd"
    IFS= read -r -t 60 -u "$fd" line && IFS= read -r -t 60 -u "$fd" line
    [ "$line" = $'x\r' ] || { echo lost > "$file"; return 1; }
    took=$(((${EPOCHREALTIME/./} - began) / 1000))
    [ "$took" -le "$longest" ] || longest=$took
    count=$((count + 1))
  done
  echo "$longest $count" > "$file"
}

# The most memory that a process ever had, in MiB.
peak() {
  awk '/^VmHWM/ { print int($2 / 1024) }' "/proc/$1/status"
}

# Begins clients of partition 2 that ask for much and read nothing, into `hungry`, beside clients of partition 1, into
# `probes`.
start_pressure() {
  local proxy=$1 clients=$2 id fd at
  redis-cli -p "$proxy" set 1:0 x && head -c 100000 /dev/zero | tr '\0' v | redis-cli -p "$proxy" -x set 600:0 || return
  gets 4000 600:0 > "$run/gets"
  touch "$run/probing"
  probes=()
  for at in 1 2; do
    probe "$proxy" "$run/probe.$at" &
    probes+=($!)
  done
  hungry=()
  for _ in $(seq "$clients"); do
    exec {fd}<> "/dev/tcp/127.0.0.1/$proxy" || return
    hungry+=("$fd")
    cat "$run/gets" >&"$fd"
  done
}

# Ends both. The longest wait of the clients of partition 1 comes into `longest`.
end_pressure() {
  local id fd
  rm "$run/probing"
  for id in "${probes[@]}"; do wait "$id" || return; done
  for fd in "${hungry[@]}"; do exec {fd}>&-; done
  cat "$run"/probe.*
  longest=$(sort -n "$run"/probe.* | tail -n 1)
  longest=${longest% *}
}

# Clients that read nothing take no memory beyond what they have room for, neither of the proxy nor of their partition,
# and hold up no clients of other partitions.
test_clients_that_read_nothing() {
  local hungry probes longest proxy peaks
  deploy || return
  proxy=${proxies[0]}
  start_pressure "$proxy" 12 && sleep "${PRESSURE-6}" && end_pressure || return
  peaks=("$(peak "${ids[$proxy]}")" "$(peak "${ids[${servers[1]}]}")")
  counts="(proxy ${peaks[0]} MiB, partition ${peaks[1]} MiB, longest wait $longest ms)"
  echo "$counts"
  [ "${peaks[0]}" -lt 300 ] && [ "${peaks[1]}" -lt 300 ] && [ "$longest" -lt 5000 ]
}

# When clients hold all that they may together, nothing more is read from those that hold most, and some of them are
# closed. All others are served meanwhile.
test_memory() {
  local limits=(--memory 64) proxy at fd log
  deploy || return
  proxy=${proxies[0]}
  redis-cli -p "$proxy" set 1:0 x || return
  # Commands that never end.
  for at in $(seq 8); do
    launch "$run" "endless.$at" bash -c 'exec 3<> "/dev/tcp/127.0.0.1/$0"
      { printf "*3\r\n\$3\r\nSET\r\n\$5\r\n600:0\r\n\$60000000\r\n"; head -c 40000000 /dev/zero; } >&3
      read -r -t 60 -u 3' "$proxy"
  done
  await has_counted "$proxy" held_back 1 && await has_counted "$proxy" evicted 1 || return
  for at in 1 2 3 4; do redis-cli -p "$proxy" get 1:0 | grep -qx x || return; done
  at=$(peak "${ids[$proxy]}")
  counts="($at MiB)"
  log=$(grep -l "serves at 127.0.0.1:$proxy" "$run"/proxy.*)
  [ "$(grep -c -- '--memory 64 is reached' "$log")" -eq 1 ] && [ "$at" -lt 250 ] || { cat "$log"; return 1; }
  # Once they are gone it holds next to nothing.
  await has_memory "$proxy"
}

# Whether a command of 40 MB is taken.
has_memory() {
  head -c 40000000 /dev/zero | tr '\0' v | timeout 20 redis-cli -p "$1" -x set 600:0 | grep -qx OK
}

# The answer to a GET over a connection, without the bytes of a value.
asks() {
  local fd=$1 line
  shift
  printf '%s' "*$#"$'\r\n' >&"$fd"
  for line in "$@"; do printf '%s' "\$${#line}"$'\r\n'"$line"$'\r\n' >&"$fd"; done
  IFS= read -r -t 60 -u "$fd" answer
  answer=${answer%$'\r'}
}

# A value that is larger than a client may hold is an error, and no end of the connection.
test_large_values() {
  local answer fd limits key
  deploy || return
  redis-cli -p "${proxies[0]}" set 600:0 x && redis-cli -p "${proxies[0]}" setrange 600:1 139999999 x || return
  exec {fd}<> "/dev/tcp/127.0.0.1/${proxies[0]}" || return
  asks "$fd" get 600:1
  echo "$answer"
  [[ $answer == "-ERR the answer has at least 1400"*"--client-memory is 64 MiB: the command was done"* ]] || return
  asks "$fd" get 600:1 && asks "$fd" set 600:0 y && [ "$answer" = +OK ] || return
  has_counted "${proxies[0]}" too_large 2 || return
  # So is one of several values from several partitions.
  limits=(--client-memory 1)
  run_proxy 0 env || return
  for key in 1:0 600:2; do redis-cli -p "$port" setrange "$key" 599999 x || return; done
  exec {fd}>&- {fd}<> "/dev/tcp/127.0.0.1/$port" || return
  asks "$fd" mget 1:0 600:2
  echo "$answer"
  [[ $answer == "-ERR the answer has at least "* ]] && asks "$fd" exists 1:0 600:2 && [ "$answer" = :2 ]
}

# Bytes that hardly get shorter when they are packed.
noise() {
  head -c "$1" /dev/urandom | base64 -w 0 | head -c "$1"
}

# A hash with one long field, of which a few fields don't show how large it is. Its name comes into `key`.
put_skewed() {
  local at=$1 try size
  for try in $(seq 20); do
    key=620:$try
    awk -v key="$key" 'BEGIN { for (n = 0; n < 2500; n++) printf "hset %s %d xxxxxxxxxx\n", key, n }' \
      | redis-cli -p "$at" > "$run/set"
    noise 1500000 | redis-cli -p "$at" -x hset "$key" long | grep -qx 1 || return
    size=$(redis-cli -p "$at" memory usage "$key" samples 20)
    [ "$size" -lt 250000 ] && return
    redis-cli -p "$at" del "$key"
  done
  return 1
}

# Whether the mover ends with 1, and names these keys, each in one line.
names() {
  local key
  move 2 old new > "$run/named" 2>&1
  [ $? -eq 1 ] || { echo "it did not end with 1"; cat "$run/named"; return 1; }
  cat "$run/named"
  [ "$(grep -c 'the key "' "$run/named")" -eq $# ] || return
  for key in "$@"; do
    grep -q "partition 2: the key \"$key\" has 1[0-9]* bytes, and partition 3 takes 1048576" "$run/named" || return
  done
}

# Keys that are too large for their destination are named. They stay, are served and can be deleted, and all else moves.
test_keys_that_can_not_be_moved() {
  local to key
  deploy && redis-cli -p "${servers[2]}" config set proto-max-bulk-len 1mb || return
  to=${proxies[0]}
  for key in $(seq 330 670) 3000000000; do echo "set $key:0 x"; done | redis-cli -p "$to" > "$run/set"
  for key in 600:1 630:1; do
    noise 1500000 | redis-cli -p "$to" -x set "$key" || return
  done
  # What can be packed is no fault.
  redis-cli -p "$to" setrange 610:1 2999999 x || return
  names 600:1 630:1 || return
  # All keys of the other source, of the other move, and those before the first one.
  [ "$(redis-cli -p "${servers[2]}" dbsize)" -ge $((170 + 100 + 1)) ] || return
  agrees 3 2 599:0 && agrees 2 2 600:1 && agrees 3 2 499:0 && agrees 3 2 3000000000:0 || return
  redis-cli -p "$to" strlen 600:1 | grep -qx 1500000 && redis-cli -p "$to" del 600:1 | grep -qx 1 || return
  # Once the first is deleted, the keys up to the next one move. It is refused as long as one is there.
  names 630:1 && agrees 3 2 610:1 && redis-cli -p "$to" strlen 610:1 | grep -qx 3000000 || return
  refused "is not over" 3 new old || return
  redis-cli -p "$to" del 630:1 | grep -qx 1 && move 2 old new && move 3 new old && agrees 2 3 630:1
}

# A key that is seen to be too large only once it was given goes back to its source with the rest of its chunk, and is served
# there.
test_keys_that_grow() {
  local to key at rest
  deploy && redis-cli -p "${servers[2]}" config set proto-max-bulk-len 1mb || return
  to=${proxies[0]}
  for at in $(seq 500 670); do echo "set $at:0 x"; done | redis-cli -p "$to" > "$run/set"
  put_skewed "${servers[1]}" || return
  # One of the same chunk.
  rest=62${key#62}9
  redis-cli -p "$to" set "$rest" x
  names "$key" && grep -q "it stays there, and is served: delete it or raise" "$run/named" || return
  agrees 3 2 619:0 && agrees 2 2 "$key" && redis-cli -p "$to" get "$rest" | grep -qx x || return
  redis-cli -p "$to" hlen "$key" | grep -qx 2501 && redis-cli -p "$to" get 660:0 | grep -qx x || return
  # Each run tries it.
  names "$key" && redis-cli -p "$to" set "$rest" y && redis-cli -p "$to" del 619:0 "$key" | grep -qx 2 || return
  move 2 old new && agrees 3 2 660:0 && redis-cli -p "$to" get "$rest" | grep -qx y || return
  redis-cli -p "$to" exists "$key" 619:0 | grep -qx 0
}

# A mover that has ended between the two steps by which a chunk goes back is finished by the next one. What clients do
# meanwhile at the source is what they find in the end: no row that was put before comes again.
test_chunk_that_is_half_back() {
  local to at lo=000001f400000000 edge=0000025900000000 own
  deploy || return
  to=${proxies[0]}
  for at in $(seq 500 670); do echo "set $at:0 x"; done | redis-cli -p "$to" > "$run/set"
  redis-cli -p "${servers[2]}" config set proto-max-bulk-len 1mb
  noise 1500000 | redis-cli -p "$to" -x set 500:0 && names 500:0 || return
  redis-cli -p "${servers[1]}" fcall squall_give 0 2 "$lo" "$edge" | grep -qx "$edge" || return
  own=$(redis-cli -p "${servers[1]}" get squall:generation)
  redis-cli -p "${servers[2]}" fcall squall_back 0 2 "$lo" "$lo" 2 "$own" | grep -q "^$lo " || return
  redis-cli -p "${servers[2]}" fcall squall_load 0 2 "$lo" "$edge" 2 "$own" | grep -q "SQUALL BACK 2" || return
  names 500:0 && redis-cli -p "$to" get 600:0 | grep -qx x && redis-cli -p "$to" del 600:0 500:0 | grep -qx 2 || return
  redis-cli -p "${servers[2]}" fcall squall_load 0 2 "$lo" "$edge" 2 "$own" | grep -q "SQUALL BACK 2" || return
  move 2 old new && agrees 3 2 600:0 && redis-cli -p "$to" exists 600:0 | grep -qx 0 && redis-cli -p "$to" get 601:0 | grep -qx x
}

# Rows that their destination refuses for good go back, and are served. Two movers at once do no harm, nor one that is
# killed: the right of the partition to restore comes and goes.
test_chunks_that_go_back() {
  local id to at
  deploy || return
  to=${servers[2]}
  start_load 30000 --pause 2000 --tolerant
  await has_keys "${servers[0]}" 400 && await has_keys "${servers[1]}" 400 || return
  redis-cli -p "$to" acl setuser default -restore
  move 2 old new > "$run/named" 2>&1
  [ $? -eq 1 ] || { cat "$run/named"; return 1; }
  grep -c "is refused by partition 3: .*it stays there, and is served" "$run/named" || { cat "$run/named"; return 1; }
  agrees 1 2 499:0 && agrees 2 2 600:0 || return
  touch "$run/refusing"
  refuse_at_times "$to" &
  local refuser=$!
  move_till_done 2 old new > "$run/other" 2>&1 &
  local other=$!
  move_till_done 2 old new || { cat "$run/mover"; return 1; }
  wait "$other" || { cat "$run/other"; return 1; }
  rm "$run/refusing"
  wait "$refuser"
  at=$(redis-cli -p "$to" hlen squall:back)
  echo "$at moves had chunks that went back"
  [ "$at" -gt 0 ] && end_load && has_moved && agrees 3 2
}

# Takes a partition the right to restore, and gives it that again, while $run/refusing is there.
refuse_at_times() {
  while [ -e "$run/refusing" ]; do
    redis-cli -p "$1" acl setuser default -restore
    sleep "0.0$((RANDOM % 9))"
    redis-cli -p "$1" acl setuser default +restore
    sleep "0.$((RANDOM % 4))$((RANDOM % 10))"
  done > "$run/refused"
  redis-cli -p "$1" acl setuser default +restore
}

# Begins a mover again and again until all has moved. Some of them are killed.
move_till_done() {
  local id status=1
  for _ in $(seq 200); do
    start_move "$@" --pause 20
    sleep "0.$((RANDOM % 10))"
    [ $((RANDOM % 3)) -gt 0 ] || kill -KILL "$id"
    wait "$id" && status=0 && break
  done 2> /dev/null
  return "$status"
}

# Cuts connections of the operator at random, those of the mover, while $run/cutting is there. How often comes into
# $run/cuts.
cut_connections() {
  local cuts=0 at
  while [ -e "$run/cutting" ]; do
    sleep "0.1$((RANDOM % 9))"
    at=${all[RANDOM % ${#all[@]}]}
    [ "$(redis-cli -p "$at" client kill user default skipme yes)" -gt 0 ] && cuts=$((cuts + 1))
    echo "$cuts" > "$run/cuts"
  done 2> /dev/null
}

# A mover bears that its connections are cut again and again, those to partitions and to the bus, and nothing is lost.
# There may be few cuts in a move, and so there are several.
test_cut_connections() {
  local id cutter all number=1 plans=(old new)
  deploy || return
  all=("${servers[@]}" "$bus")
  start_load 20000 --pause 1000
  await has_keys "${servers[0]}" 400 && await has_keys "${servers[1]}" 400 || return
  touch "$run/cutting"
  echo 0 > "$run/cuts"
  cut_connections &
  cutter=$!
  while [ "$number" -lt 2 ] || [ "$(cat "$run/cuts")" -lt 20 ]; do
    number=$((number + 1))
    start_move "$number" "${plans[number % 2]}" "${plans[1 - number % 2]}" --chunk 20 --pause 20
    wait "$id" || { cat "$run/mover"; return 1; }
  done
  rm "$run/cutting"
  wait "$cutter"
  grep -c "tried again" "$run/mover"
  end_load && agrees $((number % 2 ? 1 : 3)) "$number" || return
  counts="($(cat "$run/cuts") cuts in $((number - 1)) moves) $counts"
}

# A partition that stands still, and is then killed and started again with its log, ends no move.
test_partition_that_stands_still() {
  local id which=2 patience=2000 redis_words='--appendonly yes --appendfsync always'
  deploy || return
  start_load 20000 --pause 6000 --tolerant
  await has_keys "${servers[0]}" 100 || return
  start_move 2 old new --chunk 10 --pause 100 --patience 600
  await has_keys "${servers[which]}" 20 || return
  kill -STOP "${ids[${servers[which]}]}"
  sleep 1
  stop "${servers[which]}"
  await is_said "tried again for 600 s" "$run/mover" && sleep 2 && ! has_ended "$id" || { cat "$run/mover"; return 1; }
  run_redis "${servers[which]}" --appendonly yes --appendfsync always || return
  # One that goes on after it stood still has lost nothing.
  kill -STOP "$id" && sleep 0.2 && kill -CONT "$id" || return
  wait "$id" || { cat "$run/mover"; return 1; }
  cat "$run/mover"
  end_load && has_moved && agrees 3 2
}

# Whether so many keys or more have moved.
has_moved_keys() {
  [ "$(redis-cli -p "${servers[2]}" dbsize)" -ge "$1" ]
}

# A mover keeps to its rate, and to another one once it is told so while it runs.
test_rate() {
  local id key began took moved
  deploy || return
  for key in $(seq 400 449) $(seq 500 549); do for at in $(seq 20); do echo "set $key:$at x"; done; done \
    | redis-cli -p "${proxies[0]}" > "$run/set"
  echo 100 > "$run/rate"
  began=${EPOCHREALTIME/./}
  start_move 2 old new --chunk 1000 --pause 0 --rate-file "$run/rate"
  await has_moved_keys 100 && sleep 1 || return
  moved=$(redis-cli -p "${servers[2]}" dbsize)
  took=$(((${EPOCHREALTIME/./} - began) / 1000))
  echo "$moved keys in $took ms"
  [ "$moved" -le $((took / 10 + 50)) ] || return
  echo none > "$run/rate"
  kill -HUP "$id"
  await is_said "not a number between 0 .*the rate stays" "$run/mover" && ! has_ended "$id" || return
  echo 0 > "$run/rate"
  kill -HUP "$id"
  await is_said "no limit of keys" "$run/mover" || return
  wait "$id" && agrees 3 2 || return
  took=$(((${EPOCHREALTIME/./} - began) / 1000))
  # At the old rate it would take 20 s.
  echo "all in $took ms"
  move 3 new old --rate 1000 && refused "--rate x: not between" 4 old new --rate x
}
