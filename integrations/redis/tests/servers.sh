# shellcheck shell=bash disable=SC2154,SC2034
# Servers, proxies, movers and loads on loopback, for tools/integrations, which reads this file. It has set $work, a
# temporary folder, $ports, one of the ports that were given, and $bin, the folder of the programs.

# More words for the proxies, and for movers. How servers listen, and how redis-cli connects.
limits=()
mover_words=()
# The secret that all programs of a test share.
secret=$work/secret
od -An -tx1 -N32 /dev/urandom | tr -d ' \n' > "$secret"
listen=(--port)
secure=()
# The process ids of what listens on a port.
declare -A ids=()

# Waits until a command succeeds, for a minute: the machine may be busy with much else. Tests wait so for what has to come.
# They sleep only if nothing is to happen meanwhile, or to do the next thing at no certain moment.
await() {
  local last=$((SECONDS + 60))
  until "$@"; do
    [ "$SECONDS" -lt "$last" ] || { echo "in vain: $*"; return 1; }
    sleep 0.02
  done
}

# The same of a command that is to fail.
await_not() {
  await fails "$@"
}

fails() {
  ! "$@"
}

has_ended() {
  ! kill -0 "$1" 2> /dev/null
}

# Whether a file is there in which a line matches; the other words are those of grep.
is_said() {
  grep -q "$@" 2> /dev/null
}

# Whether a program has asked to hear of SIGTERM, which ends any other.
hears_signals() {
  local caught
  caught=$(sed -n 's/^SigCgt:\t//p' "/proc/$1/status" 2> /dev/null)
  [ $((0x${caught:-0} >> 14 & 1)) -eq 1 ]
}

# Whether a server has at least so many keys; whether so many of its clients wait for a key.
has_keys() {
  [ "$(redis-cli -p "$1" dbsize)" -ge "$2" ]
}

has_waiting() {
  redis-cli -p "$1" info clients | grep -q "^blocked_clients:$2"$'\r'
}

# Whether a proxy has counted something so often.
has_counted() {
  local said
  said=$(redis-cli -p "$1" squall info)
  said=${said#*" $2 "}
  [ "${said%% *}" -ge "$3" ]
}

# Whether partition 3 has loaded keys in course 2 of each of these partitions. A mover that pauses for long then does no more.
has_loaded_of() {
  local part
  for part in "$@"; do
    redis-cli -p "${servers[2]}" fcall squall_moves 0 2 \
      | awk -v part="$part" '$3 == "in" && $4 == part && $5 != $1 { found = 1 } END { exit !found }' || return
  done
}

# Whether all nodes of the bus, of which there are so many at least, have heard all that is there: each waits for more.
has_heard_all() {
  redis-cli -p "$bus" client list \
    | awk -v least="$1" '/ cmd=xread / { if (!/ flags=b /) busy = 1; nodes++ } END { exit busy || nodes < least }'
}

is_used() {
  (exec 3<> "/dev/tcp/127.0.0.1/$1") 2> /dev/null
}

# A port of loopback on which nobody listens, and that no test was given before, into the variable `port`.
free_port() {
  while :; do
    port=$((20000 + RANDOM % 12000))
    mkdir "$ports/$port" 2> /dev/null && ! is_used "$port" && return
  done
}

# Starts a Redis server on that port, whose files are in a folder of its own: 0 if it is up.
run_redis() {
  local at=$1 id
  shift
  launch "$run/$at" log redis-server --bind 127.0.0.1 "${listen[@]}" "$at" --save '' "$@"
  await is_up_or_ended "$at" "$id" && ! has_ended "$id" || return
  ids[$at]=$id
}

# Whether the server of that process id serves at that port, with all its data.
is_up_or_ended() {
  [ "$(redis-cli "${secure[@]}" -p "$1" info 2> /dev/null | grep -cE "^(process_id:$2|loading:0)"$'\r')" -eq 2 ] \
    || has_ended "$2"
}

# Starts one on a free port. Another program may take the port first.
start_redis() {
  local _
  for _ in 1 2 3 4 5; do
    free_port
    run_redis "$port" "$@" && return
  done
  cat "$run/$port/log"
  return 1
}

# Starts a proxy on that port, or on a free one if it is 0, into `port`; the other words are put before the program.
run_proxy() {
  local at=$1 log=$run/proxy.$RANDOM$RANDOM id
  shift
  launch "$run" "$log" "$@" "$bin/squall-redis-proxy" --listen "127.0.0.1:$at" --first old.json --bus "$bus_at" \
    --secret-file "$secret" --threads 2 --wait "${patience:-10000}" "${parts[@]}" "${limits[@]}"
  await serves_or_ended "$log" "$id" && ! has_ended "$id" || return
  port=$(sed -n 's/.*serves at 127.0.0.1://p' "$log")
  ids[$port]=$id
}

serves_or_ended() {
  is_said "serves at 127.0.0.1:[0-9]*$" "$1" || has_ended "$2"
}

# Starts a node, into `id`. The words are added to its own.
start_node() {
  launch "$run" node "$bin/squall-redis-node" --first old.json --secret-file "$secret" "$@"
}

# A bus, unless `nats` is the address of one, three partitions in course 1, and two proxies. The other words are put before the programs of the proxies.
deploy() {
  run=$(mktemp -d "$work/run.XXXX")
  cat > "$run/old.json" << 'E2'
{"plan":[{"part":1,"from":[0,0],"to":[500,0]},{"part":2,"from":[500,0],"to":"end"}]}
E2
  cat > "$run/new.json" << 'E2'
{"plan":[{"part":1,"from":[0,0],"to":[330,0]},{"part":3,"from":[330,0],"to":[670,0]},
 {"part":2,"from":[670,0],"to":[2863311530,0]},{"part":3,"from":[2863311530,0],"to":"end"}]}
E2
  bus_at=${nats-}
  if [ -z "$bus_at" ]; then
    start_redis || return
    bus=$port
    bus_at=127.0.0.1:$bus
  fi
  parts=()
  servers=()
  for part in 1 2 3; do
    # shellcheck disable=SC2086
    start_redis ${redis_words-} || return
    servers+=("$port")
    parts+=(--part "$part=127.0.0.1:$port")
  done
  "$bin/squall-redis-mover" --init --first "$run/old.json" --secret-file "$secret" "${parts[@]}" "${mover_words[@]}" || return
  proxies=()
  for _ in 1 2; do
    run_proxy 0 env "$@" || return
    proxies+=("$port")
  done
}

# Ends one server by the port on which it listens.
stop() {
  kill -KILL "${ids[$1]}" 2> /dev/null
  wait "${ids[$1]}" 2> /dev/null
}

# Sets `mover` to the words of a mover of course N from a plan to another; the other words are added.
set_mover() {
  local number=$1 old=$2 new=$3
  shift 3
  mover=("$bin/squall-redis-mover" --number "$number" --old "$run/$old.json" --new "$run/$new.json" --first "$run/old.json"
    --bus "$bus_at" --secret-file "$secret" "${parts[@]}" --chunk 20 --pause 2 --settle "${settle-0}" "${mover_words[@]}"
    "$@")
}

move() {
  set_mover "$@"
  "${mover[@]}"
}

# Starts one, into `id`. Its output goes to $run/mover.
start_move() {
  set_mover "$@"
  launch "$run" mover "${mover[@]}"
}

# Starts a load over both proxies, into `load`. It makes at least so many commands, and more until `end_load`. The other
# words are the checker's.
start_load() {
  local commands=$1 id
  shift
  touch "$run/moving"
  launch "$run" check "$bin/squall-redis-check" --proxy "127.0.0.1:${proxies[0]}" --proxy "127.0.0.1:${proxies[1]}" \
    --commands "$commands" --while "$run/moving" --quiet "$@"
  load=$id
}

# Ends the load: its status.
end_load() {
  rm -f "$run/moving"
  wait "$load"
  local status=$?
  cat "$run/check"
  counts=$(grep '^commands' "$run/check" | tail -n 1)
  return "$status"
}

has_moved() {
  local keys
  keys=$(redis-cli "${secure[@]}" -p "${servers[2]}" dbsize)
  echo "partition 3 has $keys keys"
  [ "$keys" -gt 200 ]
}

# Both proxies ask that partition in that course for a key.
agrees() {
  local all key=${3-400:0}
  await all_say "key $key partition $1 course $2" && return
  echo "the proxies say: $all"
  return 1
}

all_say() {
  all=$(for at in "${proxies[@]}"; do redis-cli "${secure[@]}" -p "$at" squall route "$key"; done | sort -u)
  [ "$all" = "$1" ]
}
