# shellcheck shell=bash disable=SC2154,SC2034
# Servers of PostgreSQL and etcd as the bus, for the tests in buses.sh.

# Where PostgreSQL has its programs, into `pg`, and who runs a server: root does not.
find_postgres() {
  pg=$(compgen -G '/usr/lib/postgresql/*/bin' | sort -V | tail -n 1)
  [ -n "$pg" ] || { echo "no postgres here"; return 1; }
  as=()
  [ "$EUID" -ne 0 ] || as=(setpriv --reuid postgres --regid postgres --clear-groups)
}

# One server with the database `postgres` and the user `me`. The words are those of initdb.
start_postgres() {
  local pg as
  find_postgres || return
  run=$(mktemp -d "$work/postgres.XXXX")
  stores=$run
  free_port
  hosts=("$port")
  chmod 711 "$work" "$run"
  mkdir -m 700 "$run/data" && { [ "$EUID" -ne 0 ] || chown postgres "$run/data"; } || return
  [ $# -gt 0 ] || set -- -A trust
  (cd "$run/data" && "${as[@]}" "$pg/initdb" -D "$run/data" -U me -E UTF8 --locale C --no-sync "$@" > /dev/null) || return
  nats=postgresql://me@127.0.0.1:$port/postgres
  run_postgres 0
}

# Starts it again, also while processes of the one that was killed are still there.
run_postgres() {
  local at=${hosts[0]} id pg as
  find_postgres || return
  while :; do
    : > "$stores/log"
    launch "$stores" log "${as[@]}" "$pg/postgres" -D "$stores/data" -p "$at" -c listen_addresses=127.0.0.1 \
      -c unix_socket_directories= -c fsync=off -c shared_buffers=16MB "${pg_words[@]}"
    ids[$at]=$id
    await is_ready_postgres "$at" "$id" || return
    has_ended "$id" || return 0
    grep -q "pre-existing shared memory block" "$stores/log" || { cat "$stores/log"; return 1; }
    sleep 0.1
  done
}

is_ready_postgres() {
  "$pg/pg_isready" -q -h 127.0.0.1 -p "$1" -t 60 || has_ended "$2"
}

# A cluster of that many members of etcd.
start_etcd() {
  local count=${1-1} at
  command -v etcd > /dev/null || { echo "no etcd here"; return 1; }
  run=$(mktemp -d "$work/etcd.XXXX")
  stores=$run
  hosts=()
  peers=()
  members=
  for at in $(seq 0 $((count - 1))); do
    free_port
    hosts+=("$port")
    free_port
    peers+=("$port")
    members+=${members:+,}m$at=http://127.0.0.1:$port
  done
  nats=etcd://$(printf '127.0.0.1:%s,' "${hosts[@]}")
  nats=${nats%,}
  for at in "${!hosts[@]}"; do begin_etcd "$at"; done
  for at in "${!hosts[@]}"; do await is_healthy "$at" || return; done
}

begin_etcd() {
  local id here=http://127.0.0.1:${hosts[$1]} peer=http://127.0.0.1:${peers[$1]}
  launch "$stores" "etcd.$1" etcd --name "m$1" --data-dir "$stores/m$1" --log-level error --initial-cluster "$members" \
    --heartbeat-interval 50 --election-timeout 500 --listen-client-urls "$here" --advertise-client-urls "$here" \
    --listen-peer-urls "$peer" --initial-advertise-peer-urls "$peer"
  ids[${hosts[$1]}]=$id
}

run_etcd() {
  begin_etcd "$1" && await is_healthy "$1"
}

# Whether a member has a leader, or asks who this is.
is_healthy() {
  ask_etcd "$1" kv/range '{"key":"eA=="}' 2> /dev/null | grep -q '"revision"\|user name is empty'
}

# What a member answers to a request.
ask_etcd() {
  local body=$3
  exec 3<> "/dev/tcp/127.0.0.1/${hosts[$1]}" || return
  printf 'POST /v3/%s HTTP/1.0\r\nContent-Length: %s\r\n\r\n%s' "$2" "${#body}" "$body" >&3
  cat <&3
  exec 3>&-
}
