# shellcheck shell=bash disable=SC2154
# Runs the tests of integrations/transports, for tools/integrations, which reads this file. It has set $work, a temporary
# folder, $ports, one of the ports that were given, and $top, the top of the clone. The tests start servers on loopback, and
# end them by their process ids. If the tests are ended, the servers end with them.

transports=(parts nodes nats nats_tls jetstream postgres etcd routers)

is_transport() {
  [[ " ${transports[*]} " == *" $1 "* ]]
}

# A Python that has psycopg2, into `python`: Debian's has it, if another one comes first in the path.
find_python() {
  for python in python3 /usr/bin/python3; do
    "$python" -c 'import psycopg2' 2> /dev/null && return
  done
  python=python3
}

# Starts the tests of that name, in a folder of their own.
start_transport() {
  local path=$top/integrations/transports:$top/bindings/python
  launch "$work/transports.$1" said env TMPDIR="$work" SQUALL_PORTS="$ports" PYTHONPATH="$path" PYTHONDONTWRITEBYTECODE=1 \
    "$python" -m unittest "tests.test_$1"
}

# Says how they ended. What they have measured is in their line.
show_transport() {
  local name=$1 status=$2 seconds
  cp "$work/transports.$name/said" "$work/said"
  seconds=$(sed -n 's/^Ran .* in \([0-9]*\.[0-9]\)[0-9]*s$/\1/p' "$work/said")
  if grep -q '^OK (skipped' "$work/said"; then
    left_out "transports: $name: $("$python" -V) lacks a server or psycopg2 (tools/packages installs them)"
  elif [ "$status" -eq 0 ]; then
    pass "transports: $name ($seconds s)$(sed -n 's/^\.*measured: /, /p' "$work/said" | tr -d '\n')"
  else
    fail "transports: $name"
  fi
}

# All side by side, since most of them wait.
run_transports() {
  if ! command -v python3 > /dev/null; then
    left_out "integrations/transports: no python3 here"
    return
  fi
  # The server of PostgreSQL runs as another user, if this one is root.
  chmod 711 "$work"
  find_python
  local name status id
  local -A started=()
  for name in "$@"; do
    start_transport "$name"
    started[$name]=$id
  done
  for name in "$@"; do
    wait "${started[$name]}"
    status=$?
    show_transport "$name" "$status"
  done
}
