# shellcheck shell=bash disable=SC2154,SC2034
# Servers of NATS as the bus, also with JetStream, for the tests in buses.sh, and tests of JetStream alone.

# The words of the NATS server of that place, if addresses begin with `jetstream`. Its streams stay when it is killed.
set_streams() {
  streams=()
  [ "$scheme" != jetstream ] || streams=(-js -sd "$stores/$1" --server_name "nats$1")
}

# Starts a NATS server of the cluster, by its place.
run_nats() {
  local at=$1 id routes streams
  routes=$(printf 'nats://127.0.0.1:%s,' "${peers[@]}")
  set_streams "$at"
  launch "$run" "nats.$at" nats-server -a 127.0.0.1 -p "${hosts[at]}" --cluster_name squall \
    --cluster "nats://127.0.0.1:${peers[at]}" --routes "${routes%,}" "${streams[@]}"
  ids[${hosts[at]}]=$id
}

# A cluster of three NATS servers, whose address is in `nats`.
start_nats() {
  local at
  run=$(mktemp -d "$work/nats.XXXX")
  stores=$run
  peers=()
  hosts=()
  for _ in 1 2 3; do
    free_port
    peers+=("$port")
    free_port
    hosts+=("$port")
  done
  for at in 0 1 2; do run_nats "$at"; done
  nats=$scheme://127.0.0.1:${hosts[0]},127.0.0.1:${hosts[1]},127.0.0.1:${hosts[2]}
  for at in 0 1 2; do
    await has_routes "$at" || { cat "$run/nats.$at"; return 1; }
  done
}

# Whether a server of the cluster hears the two others.
has_routes() {
  [ "$(grep -c 'Route connection created' "$run/nats.$1" 2> /dev/null)" -ge 2 ]
}

# Starts one server with JetStream on that port, with the streams that it had.
run_jetstream() {
  local id scheme=jetstream streams
  set_streams 0
  launch "$run" nats.log nats-server -a 127.0.0.1 -p "$1" "${streams[@]}"
  ids[$1]=$id
  await is_used "$1"
}

# A server without JetStream, and one that lets this user use none of it.
test_jetstream_that_is_off() {
  local nats host id
  command -v nats-server > /dev/null || { echo "no nats-server here"; return 1; }
  run=$(mktemp -d "$work/nats.XXXX")
  free_port
  launch "$run" nats.log nats-server -a 127.0.0.1 -p "$port"
  await is_used "$port" || return
  says "bus: 127.0.0.1:$port: JetStream does not answer; this is tried again" --bus "jetstream://127.0.0.1:$port" || return
  free_port
  cat > "$run/settings" << E2
listen: 127.0.0.1:$port
jetstream { store_dir: "$run/streams" }
authorization { users: [{ user: me, password: pw, permissions: { publish: "squall.>" } }] }
E2
  echo pw > "$run/password"
  launch "$run" nats.log nats-server -c "$run/settings"
  await is_used "$port" || return
  says "bus: 127.0.0.1:$port: 'Permissions Violation for Publish to" --bus "jetstream://me@127.0.0.1:$port" \
    --bus-password-file "$run/password"
}
