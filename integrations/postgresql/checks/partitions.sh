# shellcheck shell=bash disable=SC2154
# Runs the tests of integrations/postgresql, for tools/integrations, which reads this file after that of transports/. They
# start servers on loopback, and end them by their process ids. If the tests are ended, the servers end with them.

partitions=(pg_guard pg_steps pg_mover pg_client pg_go pg_check pg_faults)
long_partitions=(pg_long)

is_partition() {
  [[ " ${partitions[*]} ${long_partitions[*]} " == *" $1 "* ]]
}

# Starts the tests of that name, in a folder of their own.
start_partition() {
  local path=$top/integrations/postgresql:$top/integrations/transports:$top/bindings/python
  launch "$work/$1" said env TMPDIR="$work" SQUALL_PORTS="$ports" PYTHONPATH="$path" PYTHONDONTWRITEBYTECODE=1 \
    "$python" -m unittest "checks.test_${1#pg_}"
}

# Says how they ended. What they have measured is in their line.
show_partition() {
  local name=$1 status=$2 seconds
  cp "$work/$name/said" "$work/said"
  seconds=$(sed -n 's/^Ran .* in \([0-9]*\.[0-9]\)[0-9]*s$/\1/p' "$work/said")
  if [ "$status" -eq 0 ]; then
    pass "postgresql: ${name#pg_} ($seconds s)$(sed -n 's/^\.*measured: /, /p' "$work/said" | tr -d '\n')"
  else
    fail "postgresql: ${name#pg_}"
  fi
}

# Whether the client in Go can be compiled here, with Debian's package of its driver.
has_go() {
  local name
  for name in go gofmt gcc pkg-config; do
    command -v "$name" > /dev/null || return
  done
  [ -d /usr/share/gocode/src/github.com/lib/pq ]
}

# All side by side, since most of them wait.
run_partitions() {
  [ $# -gt 0 ] || return 0
  find_python
  if ! "$python" -c 'import psycopg2' 2> /dev/null || ! compgen -G '/usr/lib/postgresql/*/bin/postgres' > /dev/null; then
    left_out "postgresql: no postgres or no psycopg2 here (tools/packages installs them)"
    return
  fi
  # The servers run as another user, if this one is root.
  chmod 711 "$work"
  local name status id
  local -A started=()
  for name in "$@"; do
    if [ "$name" = pg_go ] && ! has_go; then
      left_out "postgresql: go: no compiler or no driver for Go here (tools/packages installs them)"
      continue
    fi
    start_partition "$name"
    started[$name]=$id
  done
  for name in "$@"; do
    [ -n "${started[$name]-}" ] || continue
    wait "${started[$name]}"
    status=$?
    show_partition "$name" "$status"
  done
}
