# shellcheck shell=bash disable=SC2154,SC2034
# Tests of a bus that is away for long, for tools/integrations, over what servers.sh and bus.sh start: a server of NATS alone, or
# one of Redis, which has lost its streams when it is back.

# What a deployment needs, with a bus of that kind: nats, or redis.
deploy_over() {
  kind=$1
  nats=
  if [ "$kind" = nats ]; then
    command -v nats-server > /dev/null || { echo "no nats-server here"; return 1; }
    start_one_nats
    server=$id
  fi
  deploy && fill_roots
}

# Ends the bus, and starts it again at its port.
end_bus() {
  if [ "$kind" = redis ]; then server=${ids[$bus]}; fi
  kill -KILL "$server"
  wait "$server" 2> /dev/null
  true
}

begin_bus() {
  local id
  [ "$kind" = nats ] || { run_redis "$bus"; return; }
  launch "$run" nats.again nats-server -a 127.0.0.1 -p "${nats##*:}"
  server=$id
}

# Whether a program has said once that the bus is away, and once that it is back.
has_said_both() {
  await is_said "info .*: the bus is up again$" "$1" \
    && [ "$(grep -c "warn .*: bus: .*; this is tried again$" "$1")" -eq 1 ] && [ "$(grep -c "the bus is up again$" "$1")" -eq 1 ] && return
  cat "$1"
  return 1
}

log_of() {
  grep -l "serves at 127.0.0.1:$1\$" "$run"/proxy.*
}

# The bus is away when a mover, a proxy and a node start. The proxy serves, and the mover moves all keys. It ends once the bus is
# there and has taken its reports.
starts_without() {
  local id server moving node nats kind settle=10000
  deploy_over "$1" && end_bus || return
  run_proxy 0 env && proxies+=("$port") || return
  start_node --bus "$bus_at" --board board
  node=$id
  start_move 2 old new
  moving=$id
  await is_said "the reports wait for the bus, for 60 s at most" "$run/mover" || { cat "$run/mover"; return 1; }
  has_moved && serves_at "${proxies[2]}" 450:0 && serves_at "${proxies[0]}" 450:0 || return
  ! has_ended "$moving" && ! has_ended "$node" && begin_bus || return
  wait "$moving" || { cat "$run/mover"; return 1; }
  agrees 3 2 450:0 && await is_said "$(printf 'SQ')" "$run/board" || return
  has_said_both "$run/mover" && has_said_both "$run/node" && has_said_both "$(log_of "${proxies[2]}")" \
    && has_said_both "$(log_of "${proxies[0]}")"
}

test_bus_away_at_the_start() {
  starts_without redis
}

test_nats_away_at_the_start() {
  starts_without nats
}

# The bus goes amid a course, for longer than the mover's patience. Keys go on to move meanwhile, and none is lost.
goes_amid() {
  local id server moving nats kind keys settle=10000
  deploy_over "$1" || return
  start_load 20000 --pause 2000
  await has_keys "${servers[0]}" 600 && await has_keys "${servers[1]}" 600 || return
  start_move 2 old new --chunk 10 --pause 150 --patience 1
  moving=$id
  agrees 2 2 900:0 && end_bus || return
  await is_said "this is tried again" "$run/mover" && keys=$(redis-cli -p "${servers[2]}" dbsize) || return
  sleep 3
  await has_moved_keys $((keys + 20)) && ! has_ended "$moving" && ! grep "the reports wait" "$run/mover" || { cat "$run/mover"; return 1; }
  begin_bus && wait "$moving" || { cat "$run/mover"; return 1; }
  has_said_both "$run/mover" && end_load && has_moved && agrees 3 2
}

test_bus_away_amid_a_course() {
  goes_amid redis
}

test_nats_away_amid_a_course() {
  goes_amid nats
}

# A mover gives up once all has moved and the bus is away for longer than its patience. One that is started later tells all.
test_bus_away_for_too_long() {
  local id server nats kind settle=10000
  deploy_over nats && end_bus || return
  refused "all keys have moved; start it again once the bus is up: the bus has not taken all reports: " 2 old new --patience 1 || return
  cat "$run/refused"
  has_moved && begin_bus && move 2 old new && agrees 3 2 450:0
}

# A bus that refuses a mover from the start ends it at once: that does not pass.
test_bus_that_refuses() {
  local id server nats kind
  deploy_over redis || return
  redis-cli -p "$bus" config set requirepass other || return
  redis-cli -p "$bus" client kill type normal
  refused "bus: .*NOAUTH" 2 old new --patience 600 && ! grep "tried again" "$run/refused" || return
  command -v nats-server > /dev/null || { echo "no nats-server here"; return 1; }
  free_port
  launch "$run" nats.log nats-server -a 127.0.0.1 -p "$port" --auth other
  await is_used "$port" && refused "bus: 127.0.0.1:$port: .*Authorization Violation" 2 old new --bus "nats://127.0.0.1:$port" --patience 600
}
