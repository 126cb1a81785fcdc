#!/usr/bin/env bash
# A session of modsh as a coprocess: it stays, and each line is answered as it comes. modsh is found on the path.
set -euo pipefail

coproc session { exec modsh; }

# Sends lines, and puts what they are answered into `replies`: a line for each command, and all lines of a listing. The
# line `end` is no command. Its reply marks the end: no other line is like it.
ask() {
  local reply
  replies=()
  printf '%s\n' "$@" end >&"${session[1]}"
  while IFS= read -r reply <&"${session[0]}"; do
    [ "$reply" != 'error SYNTAX end' ] || return 0
    replies+=("$reply")
  done
  echo 'the session has ended' >&2
  return 1
}

# Sends a command that has to succeed.
must() {
  ask "$1"
  [ "${replies[0]}" = ok ] || { echo "$1: ${replies[0]}" >&2; return 1; }
}

# The setup has no reply. A fault in it would end the session here.
ask %catalogue \
  'module snd' 'size 114688' 'exports snd_card_new' \
  'module snd_pcm' 'size 143360' 'needs snd_card_new' \
  %session

must 'modprobe snd_pcm'
must 'get 0 snd_pcm'
ask lsmod
printf '%s\n' "${replies[@]:1}"

for module in snd_pcm snd; do
  ask "query $module" "rmmod $module"
  echo "$module: in use: ${replies[0]}; rmmod: ${replies[1]}"
done

must 'put 0 snd_pcm'
must 'modprobe -r snd_pcm'
ask proc
echo "${#replies[@]} modules are left"

# The end of its input ends the session.
pid=${session_PID:?}
eval "exec ${session[1]}>&-"
wait "$pid"
