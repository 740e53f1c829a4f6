# shellcheck shell=bash disable=SC2154,SC2034
# Tests of a bus that others write too, and of proxies that are cut off it, for tools/integrations, over what servers.sh
# starts.

# Writes what no program of the deployment would to a bus, whose address comes first.
forge() {
  PYTHONPATH=$top/bindings/python PYTHONDONTWRITEBYTECODE=1 python3 "$package/tests/forge.py" "$@"
}

# Starts a NATS server alone, whose address is in `nats`.
start_one_nats() {
  run=$(mktemp -d "$work/nats.XXXX")
  free_port
  launch "$run" nats.log nats-server -a 127.0.0.1 -p "$port"
  nats=nats://127.0.0.1:$port
  await is_used "$port"
}

# Whether all proxies have passed over so many entries.
all_passed_over() {
  local at
  for at in "${proxies[@]}"; do has_counted "$at" entries_foreign "$1" || return; done
}

# In course 2, which moves nothing more for now, others say that all keys of partition 1 have come to partition 3, and
# that course 9 has begun. All goes on as before.
is_unmoved() {
  local from=$1 at id
  start_move 2 old new --pause 600000
  agrees 1 2 499:0 && await has_loaded_of 1 2 || return
  agrees 1 2 450:7 || return
  for _ in 1 2 3; do
    forge "$from" load 2 0 3 330:0 500:0 && forge "$from" issue 9 "$run/old.json" "$run/new.json" || return
  done
  await all_passed_over 6 && agrees 1 2 450:7 || return
  for at in "${proxies[@]}"; do
    [ "$(redis-cli -p "$at" set 450:7 "$at")" = OK ] || return
    [ "$(redis-cli -p "$at" get 450:7)" = "$at" ] || return
  done
  [ "$(redis-cli -p "${servers[0]}" get 450:7)" = "${proxies[1]}" ] || { echo "it was set elsewhere"; return 1; }
  kill -TERM "$id"
  wait "$id"
  move 2 old new && agrees 3 2 450:7 && [ "$(redis-cli -p "${proxies[0]}" get 450:7)" = "${proxies[1]}" ] || return
  grep -q " bus: an entry is passed over" "$run"/proxy.*
}

fill_roots() {
  seq -f "set %g:0 x" 0 999 | redis-cli -p "${proxies[0]}" > /dev/null
}

test_forged_frames() {
  deploy && fill_roots && is_unmoved "redis://127.0.0.1:$bus"
}

test_forged_frames_over_nats() {
  local nats
  command -v nats-server > /dev/null || { echo "no nats-server here"; return 1; }
  start_one_nats && deploy && fill_roots && is_unmoved "$nats"
}

# A load is sealed as it should be, and is false all the same. Routes go by it, and no answer does: commands on its keys
# are refused, in transactions and waits too, and a walk names each key.
test_false_load() {
  local id at count patience=300
  deploy && fill_roots || return
  start_move 2 old new --pause 600000
  agrees 1 2 499:0 && await has_loaded_of 1 2 || return
  forge "redis://127.0.0.1:$bus" load 2 0 3 330:0 500:0 --secret-file "$secret" || return
  agrees 3 2 450:7 && [ "$(redis-cli -p "${servers[0]}" rpush 450:8 x)" = 1 ] || return
  for at in "${proxies[@]}"; do
    is_refused "$at" set 450:0 y && is_refused "$at" get 450:0 && is_refused "$at" blpop 450:8 20 || return
    is_refused "$at" eval "return redis.call('get', KEYS[1])" 1 450:0 || return
    printf 'multi\nset 450:0 y\nexec\n' | redis-cli -p "$at" | grep TRYAGAIN || return
    count=$(redis-cli -p "$at" --scan | sort -u | grep -c :)
    [ "$count" -eq 1001 ] || { echo "$count keys are named"; return 1; }
  done
  kill -TERM "$id"
  wait "$id"
  move 2 old new && agrees 3 2 450:0 || return
  for at in "${proxies[@]}"; do
    [ "$(redis-cli -p "$at" get 450:0)" = x ] && [ "$(redis-cli -p "$at" llen 450:8)" = 1 ] || return
  done
}

is_refused() {
  local said
  said=$(redis-cli -p "$@")
  [[ $said = TRYAGAIN* ]] || { echo "$*: $said"; return 1; }
}

# A thousand frames on the bus have a bit or two turned, while keys move.
test_turned_frames() {
  local id load
  deploy || return
  start_load 30000 --pause 300
  await has_keys "${servers[0]}" 400 && await has_keys "${servers[1]}" 400 || return
  start_move 2 old new --pause 60
  agrees 2 2 900:0 && forge "redis://127.0.0.1:$bus" turned 1000 || return
  wait "$id" || { cat "$run/mover"; return 1; }
  forge "redis://127.0.0.1:$bus" turned 1000 || return
  # A few may be as they were, since they were turned twice.
  await all_passed_over 1900 && move 3 new old && move 4 old new && end_load && has_moved && agrees 3 4
}

test_turned_frames_over_nats() {
  local id load nats
  command -v nats-server > /dev/null || { echo "no nats-server here"; return 1; }
  start_one_nats && deploy || return
  start_load 30000 --pause 300
  await has_keys "${servers[0]}" 400 && await has_keys "${servers[1]}" 400 || return
  start_move 2 old new --pause 60
  agrees 2 2 900:0 && forge "$nats" turned 1000 || return
  wait "$id" || { cat "$run/mover"; return 1; }
  # Of digests each is heard by one of the proxies alone.
  await all_passed_over 300 && move 3 new old && move 4 old new && end_load && has_moved && agrees 3 4
}

# Two deployments with the same names and other secrets share a bus, and each goes its own course.
share_a_bus() {
  local first second
  deploy && fill_roots || return
  first=$(declare -p run servers proxies parts secret | sed 's/^declare --*a* /local &/;s/local declare/declare/')
  nats=${nats:-127.0.0.1:$bus}
  secret=$work/secret.other
  od -An -tx1 -N32 /dev/urandom | tr -d ' \n' > "$secret"
  deploy && fill_roots || return
  cp "$run/old.json" "$run/third.json"
  move 2 old new && move 3 new old && agrees 1 3 400:0 || return
  second=("${proxies[@]}")
  eval "$first"
  agrees 1 1 400:0 && move 2 old new && agrees 3 2 400:0 || return
  await all_passed_over 1 || return
  proxies=("${second[@]}")
  agrees 1 3 400:0 && await all_passed_over 1
}

test_two_deployments_on_one_bus() {
  local nats='' secret=$secret
  share_a_bus
}

test_two_deployments_on_one_bus_of_nats() {
  local nats secret=$secret
  command -v nats-server > /dev/null || { echo "no nats-server here"; return 1; }
  start_one_nats && share_a_bus
}

# A program says how a secret is made if it has none, or one that could be guessed.
test_secrets_are_needed() {
  local program words
  run=$(mktemp -d "$work/run.XXXX")
  echo '{"plan":[{"part":1,"from":[0,0],"to":"end"}]}' > "$run/plan"
  echo squall > "$run/short"
  for program in proxy mover node; do
    words=("$bin/squall-redis-$program" --first "$run/plan" --bus 127.0.0.1:1 --part "1=127.0.0.1:2")
    case $program in
      proxy) words+=(--listen 127.0.0.1:0) ;;
      mover) words+=(--init) ;;
      node) words=("${words[@]:0:5}" --board "$run/board") ;;
    esac
    lacks_secret "--secret-file FILE is missing" "${words[@]}" || return
    lacks_secret "has less than 16 characters" "${words[@]}" --secret-file "$run/short" || return
  done
}

lacks_secret() {
  local why=$1 status=0 said
  shift
  said=$(timeout 60 "$@" 2>&1) || status=$?
  echo "$said"
  [ "$status" -eq 2 ] && [[ $said = *"$why"*"openssl rand -hex 32 > FILE"* ]]
}

# Starts what passes on to the bus, into `wire`, its process id, and a proxy that knows the bus by it alone: `cut`, with
# its page at the port `http`.
start_apart() {
  local id limits bus_at=$bus_at
  launch "$run" wire python3 "$package/tests/forward.py" "${bus_at#nats://}"
  wire=$id
  await test -s "$run/wire" || return
  bus_at=${bus_at%127.0.0.1:*}127.0.0.1:$(cat "$run/wire")
  free_port
  http=$port
  limits=(--metrics "127.0.0.1:$http")
  run_proxy 0 env && cut=$port
}

# Whether a page of a proxy has such a line; the other words are those of grep.
shows() {
  exec 3<> "/dev/tcp/127.0.0.1/$http" || return
  printf 'GET /%s HTTP/1.1\r\n\r\n' "$1" >&3
  tr -d '\r' <&3 > "$run/shown"
  exec 3>&-
  shift
  grep -q "$@" "$run/shown"
}

# Asks a proxy for a key, over and over, as long as a process runs. The longest time without an answer, in
# milliseconds, comes into `longest`.
ask_while() {
  local id=$1 at=$2 key=$3 began now
  longest=0
  while ! has_ended "$id"; do
    began=${EPOCHREALTIME/./}
    if [ "$(redis-cli -p "$at" set "$key" "$began")" != OK ] || [ "$(redis-cli -p "$at" get "$key")" != "$began" ]; then
      echo "no right answer after $(((${EPOCHREALTIME/./} - began) / 1000)) ms"
      return 1
    fi
    now=$(((${EPOCHREALTIME/./} - began) / 1000))
    [ "$now" -le "$longest" ] || longest=$now
  done
}

# A proxy that is cut off the bus goes on through whole courses: the partitions tell it of them. Its page says so, until
# it hears the bus again. The way to the bus is one that says nothing, or that does not lead anywhere.
goes_on_apart() {
  local signal=$1 id longest
  start_apart && await shows ready "^HTTP/1.1 200" || return
  await shows metrics '^squall_partition_up{partition="3"} 1$' || return
  kill "-$signal" "$wire"
  await shows ready "^the bus has said nothing for" && shows ready "^HTTP/1.1 503" || return
  start_move 2 old new --pause 40
  ask_while "$id" "$cut" 400:0 && wait "$id" || return
  echo "no answer for at most $longest ms"
  [ "$longest" -lt 5000 ] || return
  await routes_to "$cut" 400:0 "partition 3 course 2" || return
  # It sleeps while two courses pass, and learns of the later one at once.
  kill -STOP "${ids[$cut]}"
  move 3 new old && move 4 old new || return
  kill -CONT "${ids[$cut]}"
  await serves_at "$cut" 400:0 && await serves_at "$cut" 900:0 && await shows metrics '^squall_course 4$' || return
  grep "the bus did not tell of course 4; partition" "$run"/proxy.* && ! grep "did not tell of course 3" "$run"/proxy.*
}

routes_to() {
  redis-cli -p "$1" squall route "$2" | grep -qx "key $2 $3"
}

serves_at() {
  [ "$(redis-cli -p "$1" set "$2" x)" = OK ]
}

test_cut_off_by_silence() {
  local wire cut http
  deploy && fill_roots && goes_on_apart STOP || return
  # Once the way is open again, the proxy is ready.
  kill -CONT "$wire" && await shows ready "^ready$" && shows ready "^HTTP/1.1 200"
}

test_cut_off_by_refusal() {
  local wire cut http
  deploy && fill_roots && goes_on_apart KILL
}

test_cut_off_nats() {
  local wire cut http nats
  command -v nats-server > /dev/null || { echo "no nats-server here"; return 1; }
  start_one_nats && deploy && fill_roots && goes_on_apart STOP || return
  kill -CONT "$wire" && await shows ready "^ready$"
}

# A partition that is down, or lets a proxy in no more, is named; log-ins that it refuses become seldom.
test_ready() {
  local http limits before redis_words="--appendonly yes"
  deploy || return
  free_port
  http=$port
  limits=(--metrics "127.0.0.1:$http")
  run_proxy 0 env && await shows ready "^ready$" || return
  stop "${servers[1]}"
  await shows ready "^partition 2 does not answer: " && shows ready "^HTTP/1.1 503" || return
  ! grep -q "^partition [13]" "$run/shown" || return
  await shows metrics '^squall_partition_up{partition="2"} 0$' || return
  shows metrics '^squall_partition_up{partition="1"} 1$' || return
  # shellcheck disable=SC2086
  run_redis "${servers[1]}" $redis_words && await shows ready "^partition 2 refuses course 1: WRONGPASS" || return
  redis-cli -p "$port" set 900:0 x > "$run/asked" &
  sleep 1.5
  before=$(logins)
  sleep 2
  before=$(($(logins) - before))
  [ "$before" -le 8 ] || { echo "$before log-ins in 2 s"; return 1; }
  "$bin/squall-redis-mover" --init --first "$run/old.json" --secret-file "$secret" "${parts[@]}" || return
  await shows ready "^ready$" && await is_said OK "$run/asked" && shows "" "partition 2</th><td>up"
}

logins() {
  redis-cli -p "$port" squall info | sed 's/.* logins \([0-9]*\) .*/\1/'
}

# The mover names a proxy that has not followed.
test_who_has_not_followed() {
  local wire cut http name settle=3000
  deploy SQUALL_MISS=100 || return
  name=$(redis-cli -p "${proxies[0]}" squall info | sed 's/.* node //')
  move 2 old new 2> "$run/said" || return
  cat "$run/said"
  grep "have not heard all: .*$name" "$run/said"
}
