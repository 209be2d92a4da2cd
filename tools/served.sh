# Sourced by scripts that talk to a served socket.
# serve_on_free_port PROGRAM WORDS..: starts a server, sets server to its process and port to its port.
serve_on_free_port() {
  local program=$1 first
  shift
  served_output=$(mktemp)
  "$program" serve --listen 127.0.0.1:0 "$@" >"$served_output" &
  server=$!
  for _ in $(seq 100); do
    first=$(head -n 1 "$served_output")
    [ -n "$first" ] && break
    sleep 0.05
  done
  port=${first##*:}
  [ -n "$port" ]
}

# Ends the server, if it still runs.
end_server() {
  if [ -n "${server:-}" ]; then
    kill "$server" 2>/dev/null || true
    wait "$server" 2>/dev/null || true
    rm -f "$served_output"
  fi
}
