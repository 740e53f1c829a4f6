# shellcheck shell=bash disable=SC2154,SC2034
# Tests that take minutes, for `tools/integrations --long`. As those of the other files, each says what it has done.

# Does one fault by chance, and ends it again.
one_fault() {
  local which=$((RANDOM % 3))
  case $((RANDOM % 8)) in
    0)
      stop "${proxies[which % 2]}"
      run_proxy "${proxies[which % 2]}" env
      ;;
    1) kill -KILL "$(cat "$run/moving.id")" ;;
    2)
      kill -STOP "${ids[${servers[which]}]}"
      sleep "0.$((RANDOM % 8 + 1))"
      kill -CONT "${ids[${servers[which]}]}"
      ;;
    3) redis-cli -p "${servers[which]}" client kill type normal ;;
    4) redis-cli -p "$bus" xtrim squall:frames maxlen 0 ;;
    5) redis-cli -p "$bus" flushall ;;
    6)
      stop "${servers[which]}"
      # shellcheck disable=SC2086
      run_redis "${servers[which]}" $redis_words
      ;;
    7)
      stop "$bus"
      sleep "$((RANDOM % 3)).$((RANDOM % 8 + 1))"
      run_redis "$bus"
      ;;
  esac
}

# Two or three faults a second, as long as the file is there.
faults_go_on() {
  while [ -f "$run/faults" ]; do
    sleep "0.$((RANDOM % 50 + 10))"
    one_fault
  done
}

# Whether the load has made so many commands.
has_made() {
  local made
  made=$(tr '\r' '\n' < "$run/check" | sed -n 's/^commands \([0-9]*\) .*/\1/p' | tail -n 1)
  [ "${made:-0}" -ge "$1" ]
}

# Runs the mover of course N until it says that all has moved. Its process id is in $run/moving.id, for who kills it.
move_through() {
  local id
  while :; do
    start_move "$@"
    echo "$id" > "$run/moving.id"
    if wait "$id"; then return; fi
    sleep 0.2
  done
}

# Ten million commands, or COMMANDS, while all of that happens and courses go to and fro without a pause. A server writes
# before it answers. With everysec it answers first if a flush is under way, so one that is killed loses writes.
long_all_faults() {
  local redis_words="--appendonly yes --appendfsync always" patience=20000 plans=(old new) number=1 id chaos
  deploy || return
  touch "$run/moving" "$run/faults"
  launch "$run" check "$bin/squall-redis-check" --proxy "127.0.0.1:${proxies[0]}" --proxy "127.0.0.1:${proxies[1]}" \
    --commands 1 --while "$run/moving" --tolerant --connections 16 --depth 32 --reads 2000
  load=$id
  faults_go_on > "$run/chaos" 2>&1 &
  chaos=$!
  until has_made "${COMMANDS-10000000}"; do
    number=$((number + 1))
    move_through "$number" "${plans[number % 2]}" "${plans[1 - number % 2]}" 2> /dev/null
  done
  rm "$run/faults"
  wait "$chaos"
  # What was restarted last is let in again.
  move_through "$number" "${plans[number % 2]}" "${plans[1 - number % 2]}"
  echo "$number courses"
  end_load
}
