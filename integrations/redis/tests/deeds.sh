# shellcheck shell=bash disable=SC2154,SC2034,SC2016
# Audits of what movers, proxies and partitions wrote down. The plain judge has to accept it, whatever was killed amid a move, and to
# name the line of each fault that is planted.

# Lets all programs of the next deployment write down what they do.
keep_deeds() {
  deeds=$(mktemp -d "$work/deeds.XXXX")
  mover_words=(--deeds "$deeds")
  limits=(--deeds "$deeds")
}

# Makes the logs, and judges them: the status of that.
audit() {
  local at words=()
  for at in "${!servers[@]}"; do words+=(--part "$((at + 1))=127.0.0.1:${servers[at]}"); done
  rm -rf "$run/logs"
  "$package/deeds" --out "$run/logs" --deeds "$deeds" "${words[@]}" || return
  "$top/tools/model/audit" "$run/old.json" "$run/old.json" "$run"/logs/*.log > "$run/verdict"
  local status=$?
  head -n 20 "$run/verdict" | cut -c 1-300
  return "$status"
}

# Whether the logs are accepted, and have at least so many lines.
is_accepted() {
  local lines _
  audit && read -r _ lines _ < "$run/verdict" && [ "$lines" -ge "$1" ]
}

# Whether they are refused, with a line that matches.
is_refused_at() {
  audit
  [ $? -eq 1 ] && is_said "^refused .*/$1" "$run/verdict"
}

# The checker's load over three moves, after which all is audited beside it.
test_deeds() {
  local mover_words limits all own
  keep_deeds && deploy || return
  start_load 20000 --pause 200
  sleep 0.2
  move 2 old new && is_accepted 300 && move 3 new old && move 4 old new && is_accepted 900 || return
  end_load && has_moved && agrees 3 4 && is_accepted 900 || return
  # The list in a partition is no key of a client.
  all=$(redis-cli -p "${servers[0]}" llen squall:log)
  own=$(redis-cli -p "${proxies[0]}" keys 'squall:*')
  counts="$counts ($(cat "$run/verdict"))"
  [ "$all" -gt 30 ] && [ -z "$own" ]
}

# Movers and proxies are killed again and again.
test_deeds_amid_kills() {
  local mover_words limits
  keep_deeds && test_killed && is_accepted 600
}

# Courses that are turned back, keys that are pulled, and chunks that go back.
test_deeds_of_turns() {
  local mover_words limits
  keep_deeds && test_turn_back && is_accepted 300
}

test_deeds_of_pulls() {
  local mover_words limits
  keep_deeds && test_pull && is_accepted 100
}

test_deeds_that_go_back() {
  local mover_words limits
  keep_deeds && test_chunks_that_go_back && is_accepted 100
}

# Without the option nothing is written.
test_no_deeds() {
  deploy && move 2 old new && [ "$(redis-cli -p "${servers[0]}" exists squall:log)" = 0 ]
}

# The first move of course 2, and ranks in it.
first=0000014a00000000
later=0000016000000000

# ---- faults that are planted

# A destination loads what nobody has given.
test_deeds_of_a_load_without_its_give() {
  local mover_words limits moving
  keep_deeds && deploy && fill 340 '' && start_far_below && end_far_below && is_accepted 20 || return
  redis-cli -p "${servers[2]}" fcall squall_load 0 2 "$first" "$later" | grep -qx "$later" || return
  is_refused_at "part-3.log .*partition 1 has not given \[33[0-9]:0,352:0) to 3 in sub-plan 0 of course 2"
}

# A source gives keys before all partitions have begun the course. All goes well otherwise.
test_deeds_of_an_early_give() {
  local mover_words limits
  keep_deeds && deploy && fill 340 '' && ends_at usual-begun-at-one move 2 old new || return
  redis-cli -p "${servers[0]}" fcall squall_give 0 2 "$first" "$later" | grep -qx "$later" || return
  move 2 old new && agrees 3 2 && [ "$(count_wrong 340 '')" -eq 0 ] || return
  is_refused_at 'part-1.log .*`no NotOpen`'
}

# A mover opens the second sub-plan before the first one is done.
test_deeds_of_an_early_opening() {
  local mover_words limits
  keep_deeds && deploy && fill 340 '' || return
  echo '{"plan":[{"part":1,"from":[0,0],"to":[330,0]},{"part":3,"from":[330,0],"to":[400,0]},
    {"part":2,"from":[400,0],"to":"end"}]}' > "$run/new.json"
  SQUALL_FAULT=open-early move 2 old new && [ "$(count_wrong 340 '')" -eq 0 ] || return
  is_refused_at 'leader.log .*`no NotDone 0 [23]`'
}

# Proxies hear of a load that is sealed as it should be, and was never done.
test_deeds_of_a_forged_report() {
  local mover_words limits moving
  keep_deeds && deploy && fill 340 '' && start_far_below || return
  forge "redis://127.0.0.1:$bus" load 2 0 3 330:0 500:0 --secret-file "$secret" && agrees 3 2 450:7 && end_far_below || return
  is_refused_at 'router-[0-9]*.log .*partition 3 has not reported `loaded 2 0 3 330:0 500:0`'
}

# A partition is back with older data, of which routers know more.
test_deeds_of_older_data() {
  local mover_words limits patience=300 mark='' pace=60 redis_words="--appendonly yes --appendfsync always"
  keep_deeds && deploy && fill 340 '' && lose notes_log_and has_forgotten 1 20 || return
  # shellcheck disable=SC2086
  run_redis "${servers[2]}" $redis_words && is_accepted 30 || return
  redis-cli -p "${servers[2]}" shutdown nosave
  wait "${ids[${servers[2]}]}"
  # shellcheck disable=SC2086
  cut_log && run_redis "${servers[2]}" $redis_words || return
  is_refused_at 'router-[0-9]*.log .*partition 3 has not reported `loaded 2 0 3'
}

# ---- what is made of the lists of partitions

# Keys that were given and taken back were never given, but for one that was pulled. A load of keys that were loaded ahead is a second one.
test_deeds_as_logs() {
  run=$(mktemp -d "$work/run.XXXX")
  deeds=$run/deeds
  mkdir "$deeds"
  local plans='0000000300000000 1 ffffffff00000000 2 to 0000000100000000 1 ffffffff00000000 2' move='0000000100000000'
  printf '%s\n' 'part 1' "begin 1 $plans" "begin 2 $plans" 'opened 2 0' \
    "pulled 2 0000000200000007 2 given" "give 2 $move 0000000280000000 2" "pulled 2 0000000180000000 2 given" \
    "take 2 0000000100000009 0000000280000000 2" 'close 2' > "$run/1"
  printf '%s\n' 'part 2' "begin 2 $plans" 'opened 2 0' "pulled 2 0000000200000007 1 loaded" \
    "load 2 $move 0000000100000009 1" "load 2 0000000200000007 0000000200000008 1" 'done 2 0' > "$run/2"
  printf '%s\n' "1 begin 2 $plans" '3 open 2 0' '4 heard done 2 0 2' > "$deeds/leader-b.deeds"
  printf '5 op' >> "$deeds/leader-b.deeds"
  printf '%s\n' "2 begin 2 $plans" '7 open 2 0' > "$deeds/leader-a.deeds"
  "$package/deeds" --out "$run/logs" --deeds "$deeds" --part "1=$run/1" --part "2=$run/2" || return
  local issue='heard issued 2 {"plan":[{"part":1,"from":[0,0],"to":[3,0]},{"part":2,"from":[3,0],"to":"end"}]} {"plan":[{"part":1,"from":[0,0],"to":[1,0]},{"part":2,"from":[1,0],"to":"end"}]}'
  diff "$run/logs/part-1.log" - << E2 || return
node part 1
$issue
heard opened 2 0
give 2:7 2:8 to 2 course 2 sub 0
give 1:0 1:9 to 2 course 2 sub 0
give 1:2147483648 1:2147483649 to 2 course 2 sub 0
close 2
E2
  diff "$run/logs/part-2.log" - << E2 || return
node part 2
$issue
heard opened 2 0
load 2:7 2:8 from 1 course 2 sub 0 new
load 1:0 1:9 from 1 course 2 sub 0 new
load 2:7 2:8 from 1 course 2 sub 0 again
done 2 0
E2
  # Each line of the leader is there once, by its time, and one that was cut off is not.
  diff "$run/logs/leader.log" - << E2
node leader
begin-from 2 2 ${issue#heard issued 2 }
open 0
heard done 2 0 2
E2
}
