#!/usr/bin/env bash
# Starts a service on a free port, edits a deck over two connections, and shows the image and the saved file.
# Usage: examples/serve.sh [COMPASS], the program to run; it is crates/compass/out/compass where nothing is said.
set -euo pipefail

compass=${1:-$(dirname "$0")/../crates/compass/out/compass}
folder=$(mktemp -d)
trap 'kill "$service" 2> /dev/null || true; rm -r "$folder"' EXIT

# Starts the service: ports are tried until one is free, and the line that it writes tells that it listens.
start() {
  for port in $(shuf -i 20000-29999 -n 20); do
    "$compass" serve --root "$folder" --port "$port" --workers 2 --sessions 2 --once 2> "$folder/log" &
    service=$!
    for _ in $(seq 50); do
      if grep -q 'listening' "$folder/log"; then return; fi
      kill -0 "$service" 2> /dev/null || break
      sleep 0.1
    done
  done
  cat "$folder/log" >&2
  exit 1
}

# Sends a line over the connection $1, and shows it with the reply: its first line, and as many more as that tells.
ask() {
  local reply count
  printf '%s\n' "$2" >&"$1"
  IFS= read -r reply <&"$1"
  printf '%s> %s\n%s\n' "$1" "$2" "$reply"
  read -r _ _ count <<< "$reply"
  if [[ $reply == OK\ * ]]; then
    for ((line = 0; line < ${count:-0}; line++)); do
      IFS= read -r reply <&"$1"
      printf '%s\n' "$reply"
    done
  fi
}

start
cat "$folder/log"
exec 3<> "/dev/tcp/127.0.0.1/$port" 4<> "/dev/tcp/127.0.0.1/$port"

ask 3 'ADD M'
ask 3 'INS M 1 1           SB1    1'
ask 4 'INS M 1 1           BX6    X1'
ask 4 'INS M 2 2           BX6    X1'
ask 3 'CARDS M'
ask 3 'SAVE M'
ask 4 'WAIT 3'
ask 4 'IMAGE'
ask 3 'BYE'
ask 4 'BYE'
wait "$service"
echo 'M.DECK:'
cat "$folder/M.DECK"
