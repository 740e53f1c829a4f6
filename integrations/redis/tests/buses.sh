# shellcheck shell=bash disable=SC2154,SC2034
# What each bus but that of Redis has to pass, for tools/integrations, over what nats.sh and kept.sh start: one table of tests for
# nats, jetstream, postgres and etcd.

# The servers of a bus, as many as it may have, into `hosts`, and its address, into `nats`.
start_bus() {
  case $1 in
    nats | jetstream) scheme=$1 && start_nats ;;
    postgres) start_postgres ;;
    etcd) start_etcd 3 ;;
  esac
}

# One server again, by its place.
run_bus() {
  case $1 in
    nats | jetstream) run_nats "$2" ;;
    *) "run_$1" "$2" ;;
  esac
}

# One server alone that asks for the password `pw"` of the user `me`.
start_guarded_bus() {
  local streams port
  case $1 in
    nats | jetstream)
      scheme=$1
      run=$(mktemp -d "$work/nats.XXXX")
      stores=$run
      free_port
      set_streams 0
      launch "$run" nats.log nats-server -a 127.0.0.1 -p "$port" --user me --pass 'pw"' "${streams[@]}"
      nats=$scheme://me@127.0.0.1:$port/shop
      await is_used "$port"
      ;;
    postgres)
      echo 'pw"' > "$work/password"
      chmod 644 "$work/password"
      start_postgres -A scram-sha-256 --pwfile "$work/password"
      ;;
    etcd) start_etcd && guard_etcd && nats=${nats/etcd:\/\//etcd://me@}/shop ;;
  esac
}

guard_etcd() {
  local step
  for step in 'user/add {"name":"root","password":"root"}' 'user/grant {"user":"root","role":"root"}' \
    'user/add {"name":"me","password":"pw\""}' 'role/add {"name":"shop"}' \
    'role/grant {"name":"shop","perm":{"permType":"READWRITE","key":"c2hvcC8=","range_end":"c2hvcDA="}}' \
    'user/grant {"user":"me","role":"shop"}' 'enable {}'; do
    await is_done "auth/${step%% *}" "${step#* }" || return
  done
}

# Whether a server of etcd has done it, now or before. A busy one may be too late with its answer.
is_done() {
  ask_etcd 0 "$@" | grep -q '"header"\|already exists'
}

has_bus() {
  case $1 in
    nats | jetstream) command -v nats-server > /dev/null || { echo "no nats-server here"; return 1; } ;;
  esac
}

# Keys move while proxies and the mover hear each other over the bus, of which a server is killed, and comes back. Then another
# one is, if there is one. A program in Python follows the same bus: that of JetStream over core NATS.
works_over() {
  local kind=$1 nats scheme stores peers members hosts id pg_words=() settle=10000 follower moving python
  find_python
  has_bus "$kind" && start_bus "$kind" && deploy || return
  launch "$run" follow env PYTHONPATH="$top/bindings/python" "$python" "$top/integrations/transports/squall-bus" \
    follow "${nats/#jetstream:/nats:}" --secret-file "$secret" --first old.json --key 400:0
  follower=$id
  start_load 30000 --pause 300
  await has_keys "${servers[0]}" 400 && await has_keys "${servers[1]}" 400 || return
  start_move 2 old new --pause 60
  moving=$id
  agrees 2 2 900:0 || return
  sleep 0.2
  stop "${hosts[0]}"
  ! has_ended "$moving" || { echo "the mover had ended too soon"; return 1; }
  [ ${#hosts[@]} -gt 1 ] || { sleep 1 && run_bus "$kind" 0; } || return
  wait "$moving" || { cat "$run/mover"; return 1; }
  agrees 3 2 || return
  [ ${#hosts[@]} -eq 1 ] || run_bus "$kind" 0 || return
  move 3 new old || return
  [ ${#hosts[@]} -eq 1 ] || stop "${hosts[1]}"
  move 4 old new || return
  end_load && has_moved && agrees 3 4 || return
  grep -oh "bus: .*" "$run"/proxy.* | sort | uniq -c
  grep -q " bus: 127.0.0.1" "$run"/proxy.* || { echo "no proxy has missed a server"; return 1; }
  await is_said "^key 400:0 partition 3 course 4" "$run/follow" && kill "$follower" && return
  cat "$run/follow"
  return 1
}

test_over_nats() {
  works_over nats
}

test_over_jetstream() {
  works_over jetstream
}

test_over_postgres() {
  works_over postgres
}

test_over_etcd() {
  works_over etcd
}

# A third of all messages is missed, and the server asks for a password.
works_with_losses_over() {
  local kind=$1 nats scheme stores peers members hosts id limits mover_words pg_words=() settle=10000
  has_bus "$kind" && start_guarded_bus "$kind" || return
  echo 'pw"' > "$run/password"
  mover_words=(--bus-password-file "$run/password")
  limits=("${mover_words[@]}")
  deploy SQUALL_MISS=30 || return
  start_load 30000 --pause 300
  sleep 0.2
  move 2 old new && move 3 new old && move 4 old new || return
  end_load && has_moved && agrees 3 4 || return
  says "bus-password-file is missing" --bus "$nats" || return
  echo other > "$run/password"
  says "authentication failed\|Authorization Violation" --bus "$nats" --bus-password-file "$run/password"
}

test_over_nats_with_losses() {
  works_with_losses_over nats
}

test_over_jetstream_with_losses() {
  works_with_losses_over jetstream
}

test_over_postgres_with_losses() {
  works_with_losses_over postgres
}

test_over_etcd_with_losses() {
  works_with_losses_over etcd
}

# One server of a bus that keeps frames. It is started again by `run_kept KIND 0`.
start_kept() {
  case $1 in
    jetstream)
      run=$(mktemp -d "$work/nats.XXXX")
      stores=$run
      free_port
      hosts=("$port")
      nats=jetstream://127.0.0.1:$port/shop.eu
      run_jetstream "$port"
      ;;
    postgres) start_postgres ;;
    etcd) start_etcd ;;
  esac
}

run_kept() {
  case $1 in
    jetstream) run_jetstream "${hosts[0]}" ;;
    *) "run_$1" 0 ;;
  esac
}

# Once all programs have ended, and the server was killed too, a proxy learns the course and its loads from the bus alone:
# nobody else is there who knows them, and the partitions tell it nothing.
keeps_frames() {
  local kind=$1 nats stores peers members hosts at pg_words=() settle=10000
  has_bus "$kind" && start_kept "$kind" && deploy && fill_roots || return
  move 2 old new && agrees 3 2 || return
  for at in "${proxies[@]}"; do stop "$at"; done
  for at in "${servers[@]}"; do redis-cli -p "$at" acl deluser squall_reader | grep -qx 1 || return; done
  stop "${hosts[0]}"
  run_kept "$kind" && run_proxy 0 env || return
  proxies=("$port")
  agrees 3 2 && agrees 1 2 10:0 && agrees 2 2 900:0 && has_counted "$port" frames_taken 3 && [ "$(redis-cli -p "$port" get 400:0)" = x ]
}

test_jetstream_keeps_frames() {
  keeps_frames jetstream
}

test_postgres_keeps_frames() {
  keeps_frames postgres
}

test_etcd_keeps_frames() {
  keeps_frames etcd
}
