# shellcheck shell=bash disable=SC2154,SC2034
# Tests of TLS, for tools/integrations, over what servers.sh starts.

# Makes a certificate and its key below $run: its name, who signs it (itself, if it is the same), and what it is good for.
certify() {
  # Python asks from 3.13 on that an authority says what its key is for, and OpenSSL makes one if nothing else is said.
  local name=$1 by=$2 names=$3 own=(-addext "keyUsage=critical,keyCertSign")
  [ "$name" = "$by" ] || own=(-addext "basicConstraints=critical,CA:false" -CA "$run/$by.pem" -CAkey "$run/$by.key")
  openssl req -x509 -newkey ec -pkeyopt ec_paramgen_curve:prime256v1 -nodes -days 2 -subj "/CN=$name" \
    -addext "$names" "${own[@]}" -keyout "$run/$name.key" -out "$run/$name.pem" 2> "$run/$name.said"
}

# The certificates of an authority, of servers and proxies of 127.0.0.1, of one that connects, and of a foreign authority.
# Then all that servers.sh starts talks by TLS.
use_tls() {
  run=$(mktemp -d "$work/tls.XXXX")
  certify ca ca basicConstraints=critical,CA:true && certify server ca subjectAltName=IP:127.0.0.1 \
    && certify own ca subjectAltName=DNS:own && certify foreign foreign basicConstraints=critical,CA:true || return
  certs=$run
  listen=(--tls-cert-file "$certs/server.pem" --tls-key-file "$certs/server.key" --tls-ca-cert-file "$certs/ca.pem"
    --port 0 --tls-port)
  secure=(--tls --cacert "$certs/ca.pem" --cert "$certs/own.pem" --key "$certs/own.key")
  mover_words=(--tls-partitions --tls-bus --tls-ca "$certs/ca.pem" --tls-own-cert "$certs/own.pem"
    --tls-own-key "$certs/own.key")
  limits=("${mover_words[@]}" --tls-cert "$certs/server.pem" --tls-key "$certs/server.key")
}

# Keys move while all that talk do so by TLS: clients, proxies, movers, a node, partitions and the bus.
test_tls() {
  local certs listen=() secure=() mover_words=() limits=() id
  use_tls && deploy || return
  start_node --bus "127.0.0.1:$bus" --board board --tls-bus \
    --tls-ca "$certs/ca.pem" --tls-own-cert "$certs/own.pem" --tls-own-key "$certs/own.key"
  start_load 30000 --pause 300 --tls --tls-ca "$certs/ca.pem"
  sleep 0.2
  move 2 old new && move 3 new old && move 4 old new || return
  end_load && has_moved && agrees 3 4 || return
  # An answer and a command of many records.
  head -c 3000000 /dev/zero | tr '\0' x > "$run/long"
  redis-cli "${secure[@]}" -p "${proxies[0]}" -x set 400:1:long < "$run/long" && redis-cli "${secure[@]}" \
    -p "${proxies[1]}" get 400:1:long | tr -d '\n' | cmp - "$run/long" || return
  # The node has heard all.
  await is_said "$(printf 'SQ')" "$run/board" && return
  cat "$run/node"
  return 1
}

# Nobody talks to a stranger.
test_tls_refusals() {
  local certs listen=() secure=() mover_words=() limits=() others
  use_tls && deploy || return
  # A client without TLS gets no answer, and one without a certificate is let in.
  ! redis-cli -p "${proxies[0]}" ping > "$run/plain" 2>&1 || return
  redis-cli --tls --cacert "$certs/ca.pem" -p "${proxies[0]}" ping | grep -q PONG || return
  ! redis-cli --tls --cacert "$certs/foreign.pem" -p "${proxies[0]}" ping || return
  # A mover that trusts another authority, and one that asks for another name.
  others=("${mover_words[@]}")
  mover_words=(--tls-partitions --tls-bus --tls-ca "$certs/foreign.pem")
  refused "certificate is refused: unable to get local issuer\|certificate is refused: self" 2 old new || return
  start_redis && mover_words=("${others[@]}" --part "9=localhost:$port") || return
  refused "certificate is refused: hostname mismatch" 2 old new || return
  # Partitions ask for certificates, as Redis does if nothing else is set.
  mover_words=(--tls-partitions --tls-bus --tls-ca "$certs/ca.pem")
  refused "[a-z0-9]* alert certificate required\|reset by peer\|has closed\|Broken pipe\|unexpected EOF" 2 old new --patience 2 || return
  # A proxy that trusts another authority says so, and asks for no key there.
  local patience=300
  limits=(--tls-partitions --tls-bus --tls-ca "$certs/foreign.pem")
  run_proxy 0 env || return
  redis-cli -p "$port" get 1:1 | grep TRYAGAIN && grep -h "partition 1: TLS: the certificate is refused" "$run"/proxy.* \
    || return
  # Clients that have to show a certificate.
  limits=("${others[@]}" --tls-cert "$certs/server.pem" --tls-key "$certs/server.key" --tls-client-ca "$certs/ca.pem")
  run_proxy 0 env || return
  redis-cli "${secure[@]}" -p "$port" set 1:1 x | grep OK && ! redis-cli --tls --cacert "$certs/ca.pem" -p "$port" get 1:1 || return
  mover_words=("${others[@]}")
  reads_again
}

# A proxy that goes on has new certificates and one more partition, and its words win over its file.
reads_again() {
  local at id own
  cp "$certs"/foreign.{key,pem} "$run" || return
  for at in server own; do certify "$at" foreign subjectAltName=IP:127.0.0.1 || return; done
  redis-cli "${secure[@]}" -p "${proxies[0]}" set 400:0 x && move 2 old new || return
  free_port
  at=$port
  printf '%s\n' "first = 'old.json'  # of course 1" "bus = \"$bus_at\"" "secret-file = '$secret'" "wait = 0_600" "log = 'text'" \
    "tls-cert = 'server.pem'" "tls-key = 'server.key'" "tls-own-cert = 'own.pem'" "tls-own-key = 'own.key'" "tls-ca = '$certs/ca.pem'" \
    "tls-bus = true" "tls-partitions = true" '[part]' "1 = '127.0.0.1:${servers[0]}'" "2 = '127.0.0.1:${servers[1]}'" > "$run/proxy.toml"
  launch "$run" again "$bin/squall-redis-proxy" --config proxy.toml --listen "127.0.0.1:$at" --log json --threads 2
  # Neither partitions nor the bus let it in.
  own=(redis-cli --tls --cacert "$run/foreign.pem" -p "$at")
  await says_again "serves at 127.0.0.1:$at" && "${own[@]}" get 400:0 | grep "^TRYAGAIN partition 1 can't be reached" || return
  echo "3 = '127.0.0.1:${servers[2]}'" >> "$run/proxy.toml"
  cp "$certs/server.pem" "$run/server.pem" && kill -HUP "$id" && await says_again "stays as it is" && "${own[@]}" ping | grep -x PONG || return
  cp "$certs"/{server,own}.{key,pem} "$run" && kill -HUP "$id" && await says_again "3 partitions were read again" || return
  await gets_again && ! "${own[@]}" ping && await hears_again || return
  sed -i '1i port = 1' "$run/proxy.toml"
  ! env -C "$run" "$bin/squall-redis-proxy" --config proxy.toml 2> "$run/refused" && grep 'proxy.toml: line 1: `port` is not known' "$run/refused"
}

gets_again() {
  redis-cli "${secure[@]}" -p "$at" get 400:0 | grep -x x
}

hears_again() {
  redis-cli "${secure[@]}" -p "$at" squall info | grep -q ' frames_taken [1-9]'
}

says_again() {
  is_said "^{.*$1" "$run/again"
}

# Starts a NATS server on a free port, into `port`, with a log of all that it hears in $log. The words are the server's.
run_secure_nats() {
  local id
  free_port
  log=$run/nats.$port
  launch "$run" "$log" nats-server -V -a 127.0.0.1 -p "$port" "$@"
  ids[$port]=$id
  await is_ready_or_ended "$log" "$id" && ! has_ended "$id" && return
  cat "$log"
  return 1
}

is_ready_or_ended() {
  is_said "Server is ready" "$1" || has_ended "$2"
}

# Keys move while proxies, movers and a program in Python hear each other by TLS over NATS. The server asks for certificates.
# One address begins with tls://, and another one with nats://. A third program has the option alone.
test_tls_over_nats() {
  works_by_tls_over tls://
}

# The same over JetStream. Nothing but the option says there that nothing may go in the clear.
test_tls_over_jetstream() {
  works_by_tls_over jetstream:// --tls-bus
}

works_by_tls_over() {
  local scheme=$1 own=("${@:2}") streams=() certs log port nats id follower words listen=() secure=() mover_words=() limits=() settle=10000
  command -v nats-server > /dev/null || { echo "no nats-server here"; return 1; }
  use_tls || return
  words=(--tls-ca "$certs/ca.pem" --tls-own-cert "$certs/own.pem" --tls-own-key "$certs/own.key")
  listen=(--port) secure=() mover_words=("${words[@]}" "${own[@]}") limits=("${words[@]}" "${own[@]}")
  [ ${#own[@]} -eq 0 ] || streams=(-js -sd "$run/streams")
  run_secure_nats --tlsverify --tlscacert "$certs/ca.pem" --tlscert "$certs/server.pem" --tlskey "$certs/server.key" "${streams[@]}" || return
  local at=127.0.0.1:$port said=$log
  nats=$scheme$at
  deploy || return
  launch "$run" follow env PYTHONPATH="$top/bindings/python" python3 "$top/integrations/transports/squall-bus" follow "tls://$at" \
    --secret-file "$secret" --first old.json --key 400:0 "${words[@]}"
  follower=$id
  start_node --bus "${nats/#tls:/nats:}" --tls-bus --board board "${words[@]}"
  start_load 20000 --pause 300
  sleep 0.2
  move 2 old new && move 3 new old --bus "${nats/#tls:/nats:}" && move 4 old new || return
  end_load && has_moved && agrees 3 4 || return
  # Nobody has spoken to the server in the clear.
  ! grep "TLS handshake error" "$said" || return
  await is_said "^key 400:0 partition 3 course 4" "$run/follow" && await is_said "$(printf 'SQ')" "$run/board" \
    && kill "$follower" && return
  cat "$run/follow" "$run/node"
  return 1
}

# A node with these words says this of its bus, and is ended.
says() {
  local said=$1 id
  shift
  rm -f "$run/node"
  launch "$run" node "$bin/squall-redis-node" --first "$top/examples/old.json" --secret-file "$secret" \
    --board board "$@"
  await is_said -- "$said" "$run/node" || { cat "$run/node"; return 1; }
  kill -KILL "$id"
  wait "$id" 2> /dev/null || true
}

# Nobody talks to a stranger over NATS, or in the clear to who should have TLS.
test_tls_over_nats_refusals() {
  local certs log port id own listen=() secure=() mover_words=() limits=()
  command -v nats-server > /dev/null || { echo "no nats-server here"; return 1; }
  use_tls && certify stranger foreign subjectAltName=DNS:stranger || return
  run_secure_nats --tls --tlscert "$certs/server.pem" --tlskey "$certs/server.key" || return
  # Another authority, the system's, and another name.
  says "certificate is refused: unable to get local issuer\|certificate is refused: self" --bus "nats://127.0.0.1:$port" \
    --tls-ca "$certs/foreign.pem" && says "certificate is refused: " --bus "tls://127.0.0.1:$port" \
    && says "certificate is refused: hostname mismatch" --bus "tls://localhost:$port" --tls-ca "$certs/ca.pem" || return
  # The server has heard no more than that.
  grep -q "TLS handshake error" "$log" && ! grep "CONNECT" "$log" || return
  # A server that asks for certificates: none, and one that another authority has signed.
  run_secure_nats --tlsverify --tlscacert "$certs/ca.pem" --tlscert "$certs/server.pem" --tlskey "$certs/server.key" || return
  says "asks for a certificate: --tls-own-cert is missing" --bus "nats://127.0.0.1:$port" --tls-ca "$certs/ca.pem" || return
  own=(--tls-own-cert "$certs/stranger.pem" --tls-own-key "$certs/stranger.key")
  says "TLS: [a-z0-9]* alert bad certificate$\|TLS: [a-z0-9]* alert unknown ca$\|reset by peer\|Broken pipe\|has closed" --bus "nats://127.0.0.1:$port" \
    --tls-ca "$certs/ca.pem" "${own[@]}" || return
  # One that has no TLS gets no word.
  run_secure_nats || return
  says "the server has no TLS" --bus "tls://127.0.0.1:$port" && says "the server has no TLS" --bus "nats://127.0.0.1:$port" \
    --tls-bus && ! grep "CONNECT" "$log"
}
