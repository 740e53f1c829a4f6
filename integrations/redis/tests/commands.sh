# shellcheck shell=bash disable=SC2154,SC2034,SC2016
# Tests of commands about all keys, of streams, of tools as they come, and of the users of clients, for tools/integrations,
# which reads this file after servers.sh, moves.sh and clients.sh. Each of them says what it has done, and its status is
# that of its last command.

# Entries are added to streams that move, and one who waits for them sees each once, and in order.
test_streams_while_keys_move() {
  local key id waits=()
  deploy || return
  for key in 400:0:x 600:0:x 1:0:x; do
    redis-cli -p "${proxies[0]}" xadd "$key" 5-5 f old && redis-cli -p "${proxies[0]}" xgroup create "$key" g '$' || return
    launch "$run" "wait.$key" redis-cli -p "${proxies[0]}" xread block 60000 streams "$key" '$'
    waits+=("$id")
  done
  launch "$run" wait.none redis-cli -p "${proxies[1]}" xread block 3000 streams 400:1:x 410:1:x '$' '$'
  waits+=("$id")
  read_stream 400:2:x > "$run/read" &
  waits+=("$!")
  await has_waiting "${servers[0]}" 4 && await has_waiting "${servers[1]}" 1 || return
  for key in $(seq 330 499); do echo "set $key:0 x"; done | redis-cli -p "${proxies[0]}" > "$run/set"
  for key in $(seq 300); do echo "xadd 400:2:x * f $key"; done > "$run/adds"
  start_move 2 old new --chunk 5 --pause 20
  redis-cli -p "${proxies[1]}" < "$run/adds" > "$run/added"
  agrees 3 2 490:0 || return
  for key in 400:0:x 600:0:x 1:0:x; do redis-cli -p "${proxies[1]}" xadd "$key" 6-6 f new || return; done
  redis-cli -p "${proxies[1]}" xadd 400:2:x '*' f last || return
  for id in "${waits[@]}"; do wait "$id"; done
  tail -n 4 "$run"/wait.*
  for key in 400:0:x 600:0:x 1:0:x; do
    [ "$(tr '\n' ' ' < "$run/wait.$key")" = "$key 6-6 f new " ] || return
    redis-cli -p "${proxies[0]}" xreadgroup group g c block 1000 streams "$key" '>' | tr '\n' ' ' | grep -qx "$key 6-6 f new " || return
  done
  ! grep -q new "$run/wait.none" && diff "$run/read" <(seq 300; echo last)
}

# Shows the values of a stream as they come, up to the last one.
read_stream() {
  local id=0-0 value
  while :; do
    redis-cli -p "${proxies[0]}" xread count 7 block 60000 streams "$1" "$id" > "$run/page"
    while read -r id && read -r _ && read -r value; do
      echo "$value"
      [ "$value" != last ] || return 0
    done < <(tail -n +2 "$run/page")
    id=$(tail -n 3 "$run/page" | head -n 1)
  done
}

# All names of keys at once, again and again while they move: none is missed, and none is there twice.
test_names_while_keys_move() {
  local number plans=(old new) looks=0 id
  deploy || return
  for number in $(seq 0 1999); do echo "set $((number % 1000)):$number:s x"; done > "$run/sets"
  redis-cli -p "${proxies[0]}" < "$run/sets" > "$run/set"
  cut -d' ' -f2 "$run/sets" | sort > "$run/wanted"
  for number in 2 3 4; do
    start_move "$number" "${plans[number % 2]}" "${plans[1 - number % 2]}" --chunk 10 --pause 4
    while :; do
      has_all_names "${proxies[looks % 2]}" || { show_names; return 1; }
      looks=$((looks + 1))
      ! has_ended "$id" || break
    done
    wait "$id" || { cat "$run/mover"; return 1; }
  done
  counts="($looks looks)"
  await has_size 2000 && await has_summed_up 2000 || { show_names; return 1; }
}

# Whether a proxy names each key once, and draws one of them.
has_all_names() {
  redis-cli -p "$1" keys '*:s' | sort > "$run/found"
  diff "$run/wanted" "$run/found" > "$run/other" || { head -n 20 "$run/other"; return 1; }
  redis-cli -p "$1" randomkey > "$run/drawn"
  grep -qxFf "$run/wanted" "$run/drawn" || { echo "drawn: $(< "$run/drawn")"; return 1; }
}

# Whether a proxy says that there are so many keys.
has_size() {
  redis-cli -p "${proxies[0]}" dbsize > "$run/size"
  grep -qx "$1" "$run/size"
}

# Shows how many keys each proxy and each server has, and which keys are nowhere, or there twice or as nobody's.
show_names() {
  local at
  for at in "${proxies[@]}"; do echo "proxy $at: dbsize $(redis-cli -p "$at" dbsize), $(redis-cli -p "$at" squall route 400:0)"; done
  for at in "${servers[@]}"; do
    redis-cli -p "$at" --scan | sort > "$run/names.$at"
    echo "server $at: dbsize $(redis-cli -p "$at" dbsize), of its own" $(grep '^squall:' "$run/names.$at")
    redis-cli -p "$at" hgetall squall:edge | paste - -
    redis-cli -p "$at" hgetall squall:forgot | paste - -
  done
  cat "$run"/names.* | grep -v '^squall:' | sort > "$run/names"
  echo "nowhere:" $(comm -13 "$run/names" "$run/wanted" | head -n 20)
  echo "too many:" $(comm -23 "$run/names" "$run/wanted" | head -n 20)
  tail -n 3 "$run"/proxy.* "$run/mover"
}

# A proxy that hears of a course just now answers about all keys, as before and after.
test_all_keys_as_a_course_begins() {
  local number id asked=0 words
  deploy && fill_roots && run_proxy 0 env SQUALL_WAIT=course-heard || return
  start_move 2 old new --chunk 1 --pause 600000
  until redis-cli -p "$port" squall route 400:0 | grep -q "course 2$"; do
    for words in dbsize randomkey "keys 400:0" "scan 0"; do
      # shellcheck disable=SC2086
      redis-cli -p "$port" $words > "$run/said"
      ! grep "a course has just begun" "$run/said" || { echo "to $words, after $asked others"; return 1; }
      asked=$((asked + 1))
    done
  done
  counts="($asked were asked)"
}

# Whether INFO names so many keys, and as much memory as the partitions have, or a little less.
has_summed_up() {
  local at own=0 all
  redis-cli -p "${proxies[1]}" info > "$run/info"
  grep "^db0:keys=$1,expires=0,avg_ttl=0" "$run/info" || return
  for at in "${servers[@]}"; do own=$((own + $(redis-cli -p "$at" info memory | sed -n 's/^used_memory:\([0-9]*\).*/\1/p'))); done
  all=$(sed -n 's/^used_memory:\([0-9]*\).*/\1/p' "$run/info")
  echo "$all of $own bytes"
  [ "$all" -gt $((own * 9 / 10)) ] && [ "$all" -lt $((own * 11 / 10)) ]
}

# Messages of a channel that moves to and fro: who hears them misses none, and hears none twice, unless it is closed.
test_messages() {
  local number plans=(old new) id at count=0 subscribers=() patience=500
  deploy || return
  for at in 0 1; do subscribe "$at" subscribe 400:0:c 1:0:c && subscribe "$at" psubscribe '*:0:c' && subscribe "$at" subscribe 900:0:c || return; done
  for number in $(seq 330 10 660); do echo "set $number:0 x"; done | redis-cli -p "${proxies[0]}" > "$run/set"
  for number in 2 3; do
    start_move "$number" "${plans[number % 2]}" "${plans[1 - number % 2]}" --chunk 2 --pause 20
    publish_while "$id" publish && wait "$id" || return
  done
  echo "$count messages"
  [ "$(grep -cx '[2-4]' "$run/published")" -eq "$count" ] || return
  # They were published at both ends.
  for at in 0 2; do redis-cli -p "${servers[at]}" info commandstats | grep cmdstat_publish || return; done
  for at in 0 1 3 4; do has_heard "$at" || return; done
  # Who may miss some is closed, and nobody else.
  stop "${servers[0]}"
  for at in 0 1 3 4; do await has_ended "${subscribers[at]}" || return; done
  redis-cli -p "${proxies[0]}" publish 900:0:c last | grep -x 2 && await is_said -x last "$run/heard.2" && await is_said -x last "$run/heard.5" || return
  redis-cli -p "${proxies[0]}" psubscribe '*' | grep "^TRYAGAIN partition 1 can't be reached" || return
  redis-cli -p "${proxies[0]}" mget 900:0 1:0 | grep "^TRYAGAIN partition 1 can't be reached" || return
  grep -h "warn squall-redis-proxy: partition 1 does not answer" "$run"/proxy.*
}

# Sends messages on by that command as long as a process runs, through both proxies.
publish_while() {
  local at
  until has_ended "$1"; do
    for at in 0 1 2 3 4; do echo "$2 400:0:c <$((count += 1))>"; done > "$run/publish"
    redis-cli -p "${proxies[count / 5 % 2]}" < "$run/publish" >> "$run/published" || return
  done
}

# The same of a sharded channel. A channel of its name has other messages.
test_sharded_messages() {
  local number plans=(old new) id at count=0 subscribers=() patience=500
  deploy || return
  for at in 0 1; do subscribe "$at" ssubscribe 400:0:c 1:0:c && subscribe "$at" subscribe 400:0:c || return; done
  for number in $(seq 330 10 660); do echo "set $number:0 x"; done | redis-cli -p "${proxies[0]}" > "$run/set"
  for number in 2 3; do
    start_move "$number" "${plans[number % 2]}" "${plans[1 - number % 2]}" --chunk 2 --pause 20
    publish_while "$id" spublish && wait "$id" || return
    redis-cli -p "${proxies[0]}" pubsub shardchannels | sort | tr '\n' ' ' | grep -x '1:0:c 400:0:c ' || return
    # One thread of each proxy.
    redis-cli -p "${proxies[1]}" pubsub shardnumsub 400:0:c | tail -n 1 | grep -x 2 || return
  done
  echo "$count messages"
  [ "$(grep -cx 2 "$run/published")" -eq "$count" ] || return
  for at in 0 2; do redis-cli -p "${servers[at]}" info commandstats | grep cmdstat_spublish || return; done
  for at in 0 2; do has_heard "$at" || return; done
  ! grep '<' "$run/heard.1" "$run/heard.3" || return
  stop "${servers[0]}"
  for at in 0 2; do await has_ended "${subscribers[at]}" || return; done
  redis-cli -p "${proxies[0]}" pubsub channels | grep "^TRYAGAIN partition 1 can't be reached"
}

# Starts a client of a proxy that subscribes, and waits until it has.
subscribe() {
  local said=$run/heard.${#subscribers[@]}
  launch "$run" "$said" redis-cli -p "${proxies[$1]}" "${@:2}"
  subscribers+=("$id")
  await is_said subscribe "$said"
}

# Whether a subscriber has heard all messages, and each once, or was closed.
has_heard() {
  await said_or_ended "<$count>" "$run/heard.$1" "${subscribers[$1]}"
  grep -xo '<[0-9]*>' "$run/heard.$1" | sort > "$run/sorted"
  if has_ended "${subscribers[$1]}"; then [ -z "$(uniq -d "$run/sorted")" ]; else sort <(seq -f '<%.0f>' "$count") | diff - "$run/sorted"; fi
}

said_or_ended() {
  is_said -x "$1" "$2" || has_ended "$3"
}

# Tools as Debian has them, at rest and while all keys move.
test_tools() {
  local id number
  command -v redis-benchmark > /dev/null || { echo "no redis-benchmark here"; return 1; }
  deploy || return
  for number in $(seq 0 999); do echo "set $number:0 x"; done > "$run/sets"
  redis-cli -p "${proxies[0]}" < "$run/sets" > "$run/set"
  redis-cli -p "${proxies[0]}" rpush 700:1:list a b c > "$run/set"
  serve_tools || return
  echo '{"plan":[{"part":3,"from":[0,0],"to":"end"}]}' > "$run/all.json"
  start_move 2 old all --chunk 1 --pause 600000
  agrees 1 2 && await has_loaded_of 1 2 && serve_tools || return
  has_answers_to_lines
}

serve_tools() {
  local at=${proxies[0]}
  redis-cli -p "$at" --scan | sort -u > "$run/found"
  [ "$(grep -c ':0$' "$run/found")" -eq 1000 ] || { wc -l "$run/found"; return 1; }
  redis-cli -p "$at" del mylist > "$run/set"
  redis-cli -p "$at" --bigkeys > "$run/big" && grep -q "Biggest *list found .*700:1:list.* has 3 items" "$run/big" || return
  redis-cli -p "$at" --memkeys > "$run/big" && grep -q "Biggest *list found .*700:1:list" "$run/big" || return
  timeout -s INT 60 stdbuf -oL redis-cli -p "$at" --stat -i 0.05 | head -n 4 > "$run/stat"
  tail -n 1 "$run/stat" | grep -E '^1[0-9]{3} ' || { cat "$run/stat"; return 1; }
  # All that it does without -t, with fewer commands of each.
  redis-benchmark -p "$at" -n 200 -c 5 -q > "$run/bench" 2>&1 || { tail -c 500 "$run/bench"; return 1; }
  tr '\r' '\n' < "$run/bench" > "$run/lines"
  echo "redis-benchmark has tried $(grep -c 'requests per second, p50=' "$run/lines") things"
  [ "$(grep -c 'requests per second, p50=' "$run/lines")" -ge 20 ] && ! grep -ia 'error' "$run/lines"
}

# A check as HAProxy makes it.
has_answers_to_lines() {
  local fd line said=
  exec {fd}<> "/dev/tcp/127.0.0.1/${proxies[1]}" || return
  printf 'PING\r\ninfo replication\r\nQUIT\r\n' >&"$fd"
  while IFS= read -r -t 60 -u "$fd" line; do said+=${line%$'\r'}/; done
  exec {fd}>&-
  echo "$said"
  [[ $said == '+PONG/$'*/role:master/*/+OK/ ]]
}

# The users of clients, and a server that has the same ones.
write_users() {
  cat > "$run/users.acl" << E2
user default off
user app on >app-word +@all -@dangerous ~app:* ~{app}*
user reader on #$(printf reader-word | sha256sum | cut -c -64) +@read +ping -get ~*
user admin on >admin-word nopass off +@all ~*
user whole on >whole-word >second-word +@all ~* &app:*
E2
}

# What redis-cli says of the lines at a port, without what differs from server to server.
said_of_lines() {
  redis-cli -p "$1" < "$run/lines" 2>&1
}

test_client_users() {
  local plain limits id
  deploy || return
  echo 'user default on nopass +@all ~*' > "$run/users.acl"
  start_redis --aclfile "$run/users.acl" || return
  plain=$port
  write_users
  redis-cli -p "$plain" acl load | grep -qx OK || return
  limits=(--client-users "$run/users.acl")
  run_proxy 0 env || return
  cat > "$run/lines" << 'E2'
PING
GET app:1
HELLO 3
AUTH whole
AUTH app whole-word
AUTH nobody app-word
AUTH admin admin-word
AUTH default any
AUTH a b c
HELLO 2 AUTH app wrong
AUTH app app-word
ACL WHOAMI
SET app:1 x
MGET app:1 {app}2
GET other
MGET app:1 other
RENAME app:1 other
KEYS *
CLIENT LIST
SORT app:1
RESTORE app:1 0 x
WATCH app:1 other
MULTI
SET app:1 y
GET other
EXEC
GET app:1
PUBLISH app:1 x
AUTH reader reader-word
ACL WHOAMI
GET app:1
STRLEN app:1
SET app:1 z
AUTH app wrong
ACL WHOAMI
RESET
GET app:1
AUTH whole second-word
GET app:1
PUBLISH app:1 x
PUBLISH other x
EVAL "return redis.call('GET',KEYS[1])" 1 app:1
CLIENT SETNAME me
CLIENT GETNAME
CLIENT SETNAME "a b"
DEL app:1
E2
  said_of_lines "$plain" > "$run/wanted" && said_of_lines "$port" > "$run/found"
  diff "$run/wanted" "$run/found" && [ "$(wc -l < "$run/found")" -gt 40 ] || return
  # A script is bound by no rule, so only those have scripts who may do all.
  redis-cli -p "$port" --user app --pass app-word eval 'return 1' 1 app:1 2>&1 | grep "NOPERM .* 'eval' command" || return
  redis-cli -p "$port" -3 --user whole --pass whole-word client list | grep 'user=whole' || return
  [ "$(redis-cli -p "$port" --user whole --pass whole-word eval 'return 7' 0)" = 7 ] || return
  is_limited_before_it_logs_in "$port" && says_no_password "${ids[$port]}"
}

# One that has not logged in is closed at a large word.
is_limited_before_it_logs_in() {
  local fd line
  exec {fd}<> "/dev/tcp/127.0.0.1/$1" || return
  printf '*2\r\n$4\r\nECHO\r\n$20000\r\n' >&"$fd"
  IFS= read -r -t 60 -u "$fd" line
  exec {fd}>&-
  [[ $line == '-ERR Protocol error: invalid bulk length'* ]]
}

# No word of the file is in what the program was started with, or in what it has said.
says_no_password() {
  ! tr '\0' ' ' < "/proc/$1/cmdline" | grep -- -word && ! grep -r -- -word "$run"/proxy.*
}

# One password for all clients.
test_client_password() {
  local http limits patience=3000 log=$work/open
  deploy || return
  free_port
  http=$port
  echo one-word > "$run/password"
  limits=(--client-password-file "$run/password" --metrics "127.0.0.1:$http")
  run_proxy 0 env || return
  redis-cli -p "$port" get 1:0 2>&1 | grep -x 'NOAUTH Authentication required.' || return
  redis-cli -p "$port" -a wrong get 1:0 2>&1 | grep WRONGPASS || return
  redis-cli -p "$port" -a one-word --no-auth-warning set 1:0 x | grep -x OK || return
  redis-cli -p "$port" -3 -a one-word --no-auth-warning mget 1:0 900:0 | grep -x x || return
  redis-benchmark -p "$port" -a one-word -n 200 -c 5 -q -t set,get > "$run/bench" 2>&1 || return
  [ "$(redis-cli -p "${proxies[0]}" auth x 2>&1)" = "$(redis-cli -p "$bus" auth x 2>&1)" ] || return
  for at in '' metrics status board ready; do
    page "$at"
    cat "$run/page" >> "$run/pages"
  done
  [ -s "$run/pages" ] && ! grep -a -- one-word "$run/pages" || return
  says_no_password "${ids[$port]}" || return
  refuses_users 'line 2: `+nothing` is not known' 'user a on' 'user b +nothing' || return
  refuses_users 'line 1: `%R~x` is not known' 'user a %R~x' || return
  refuses_users '--client-password-file may not be given' 'user default on nopass +@all ~*' || return
  says_if_open
}

# Whether a proxy with a file of these lines is refused with that text.
refuses_users() {
  local why=$1
  shift
  printf '%s\n' "$@" > "$run/users.acl"
  ! env -C "$run" "$bin/squall-redis-proxy" --listen 127.0.0.1:0 --first old.json --bus "$bus_at" --secret-file "$secret" "${parts[@]}" \
    --client-password-file "$run/password" --client-users "$run/users.acl" > "$run/refused" 2>&1 || return
  grep -F -- "$why" "$run/refused"
}

# A proxy that others reach says so once, if it asks nobody who they are.
says_if_open() {
  local words more id
  for more in "" "--client-password-file $run/password"; do
    read -r -a words <<< "$more"
    launch "$run" "open.${#words[@]}" "$bin/squall-redis-proxy" --listen 0.0.0.0:0 --first old.json --bus "$bus_at" \
      --secret-file "$secret" "${parts[@]}" "${words[@]}"
    await is_said "serves at" "$run/open.${#words[@]}" || return
  done
  [ "$(grep -c 'whoever reaches this address' "$run/open.0")" -eq 1 ] && ! grep whoever "$run/open.2" && ! grep whoever "$run"/proxy.*
}

# A connection to the proxy at $port on which a user has logged in, into `fd`.
log_in() {
  local answer
  exec {fd}<> "/dev/tcp/127.0.0.1/$port" && asks "$fd" auth "$@" && [ "$answer" = +OK ] && return
  echo "$*: $answer"
  return 1
}

# Lets the proxy at $port read again, and waits until it says this.
read_again() {
  local log before
  log=$(grep -l "serves at 127.0.0.1:$port\$" "$run"/proxy.*)
  before=$(grep -c "$1" "$log")
  kill -HUP "${ids[$port]}" && await has_said_more "$before" "$1" "$log"
}

has_said_more() {
  [ "$(grep -c "$2" "$3")" -gt "$1" ]
}

# Whether this is answered to a command over a connection.
answers() {
  local wanted=$1 answer
  shift
  asks "$@"
  [[ $answer == "$wanted"* ]] || { echo "$*: $answer"; return 1; }
}

# The users are read again while clients are there. A client has the new rights at once. Closed are those that could not log in
# any more, and those that are amid what they may not do now. A file with a fault changes nothing.
test_users_are_read_again() {
  local limits fd app gone heard waits old kept queues
  deploy || return
  printf '%s\n' 'user app on >app-word +@all ~* &*' 'user gone on >gone-word +@all ~*' 'user two on >old-word >kept-word +@all ~*' > "$run/users.acl"
  limits=(--client-users "$run/users.acl")
  run_proxy 0 env || return
  log_in app app-word && app=$fd && log_in gone gone-word && gone=$fd && log_in two old-word && old=$fd || return
  log_in two kept-word && kept=$fd && log_in app app-word && heard=$fd && log_in app app-word && queues=$fd && log_in app app-word && waits=$fd || return
  printf '*3\r\n$5\r\nBLPOP\r\n$5\r\n1:0:q\r\n$1\r\n0\r\n' >&"$waits"
  await has_waiting "${servers[0]}" 1 || return
  answers '*3' "$heard" subscribe news && for _ in 1 2 3 4 5; do IFS= read -r -t 60 -u "$heard" _; done
  answers +OK "$queues" multi && answers +QUEUED "$queues" set 1:0 y && answers +OK "$app" set 1:0 x && answers +OK "$kept" set 1:1 x || return
  echo 'user app on resetkeys' > "$run/users.acl"
  read_again 'line 1: `resetkeys` is not known; all stays as it is' && answers +OK "$app" set 1:0 x || return
  printf '%s\n' 'user app on >app-word +@read ~1:*' 'user two on >kept-word >new-word +@all ~*' > "$run/users.acl"
  read_again "users, certificates and the addresses of 3 partitions were read again" || return
  for fd in "$gone" "$old" "$heard" "$queues" "$waits"; do is_closed "$fd" || { echo "connection $fd is open"; return 1; }; done
  answers -NOPERM "$app" set 1:0 z && answers '$1' "$app" get 1:0 && IFS= read -r -t 60 -u "$app" fd && answers -NOPERM "$app" get 2:0 || return
  answers +OK "$kept" set 1:1 z && log_in two new-word && ! log_in two old-word && ! log_in gone gone-word || return
  # What others did has stayed, and the wait has ended at its partition too.
  [ "$(redis-cli -p "${proxies[0]}" get 1:0)" = x ] && await has_waiting "${servers[0]}" 0 && says_no_password "${ids[$port]}"
}

# So is the password of all clients. A proxy does not begin to ask for one, or end.
test_password_is_read_again() {
  local limits fd old
  deploy || return
  echo old-word > "$run/password"
  printf '%s\n' "client-password-file = '$run/password'" > "$run/proxy.toml"
  limits=(--config "$run/proxy.toml")
  run_proxy 0 env && log_in old-word && old=$fd && answers +OK "$old" set 1:0 x || return
  echo new-word > "$run/password"
  read_again "users, certificates" && is_closed "$old" && ! log_in old-word && log_in new-word || return
  true > "$run/password"
  read_again "the first line is no password, or has blanks; all stays" || return
  true > "$run/proxy.toml"
  read_again "client-password-file begin and end with the program; all stays" && answers +OK "$fd" set 1:0 y || return
}
