# Runs tests, one by one (run) or in parallel (plan, run_planned), and adds up their counts. Sourced by ./test, ./prove and
# .ci/run.

passed=0
failed=0
failures=

# Adds the numbers of the last line 'N passed, M failed' of a log, or one failure if there is none.
count() {
  local line
  line=$(grep -E '^[0-9]+ passed, [0-9]+ failed' "$1" | tail -n 1)
  if [ -n "$line" ]; then
    set -- $line
    passed=$((passed + $1))
    failed=$((failed + $3))
  else
    failed=$((failed + 1))
  fi
}

# Adds the result of a command, given by its log, its status, and its words. A failure that the log doesn't count is one.
add() {
  local log=$1 status=$2 failed_before=$failed
  shift 2
  count "$log"
  if [ "$status" -ne 0 ] && [ "$failed" -eq "$failed_before" ]; then
    failed=$((failed + 1))
  fi
  if [ "$failed" -ne "$failed_before" ]; then
    failures+="== $(shortened "$*")"$'\n'"$(tail -n 20 "$log")"$'\n'
  fi
}

# The first words of a long line.
shortened() {
  [ "${#1}" -le 200 ] && echo "$1" || echo "${1:0:200} .."
}

# Runs a command, shows what it prints, and adds its counts.
run() {
  local log status
  log=$(mktemp)
  "$@" 2>&1 | tee "$log"
  status=${PIPESTATUS[0]}
  add "$log" "$status" "$@"
  rm -f "$log"
  return "$status"
}

# Prints the last lines of each command that failed, and the sum as the last line. The status is 0 if something passed and
# nothing failed.
finish() {
  [ -z "$failures" ] || printf '\nwhat failed:\n%s' "$failures"
  [ -z "$own" ] || leave_files
  echo "$passed passed, $failed failed"
  [ "$failed" -eq 0 ] && [ "$passed" -gt 0 ]
  exit
}

# ---- Temporary files

# The folder of the script's own temporary files, if it has one.
own=

# Puts all temporary files into one folder, in which every user may create files, as in /tmp. A signal ends the running commands
# and removes the folder.
own_files() {
  local signal
  own=$(mktemp -d "${TMPDIR:-/tmp}/tests-XXXXXX") || exit 1
  mkdir "$own/files" "$own/logs"
  chmod 755 "$own"
  chmod 1777 "$own/files"
  export TMPDIR=$own/files
  for signal in INT TERM HUP PIPE; do
    trap "end_by $signal" "$signal"
  done
}

# Removes the folder, or prints where it is: a test that failed may have kept files there.
leave_files() {
  rm -rf "$own/logs"
  rmdir "$own/files" "$own" 2>/dev/null || echo "temporary files were left in $own/files"
}

# Ends the running commands, removes all temporary files, and ends by the signal that arrived.
end_by() {
  local tries
  trap '' INT TERM HUP PIPE
  exec 2>/dev/null
  # Python cleans up on this signal.
  signal_running -INT
  for ((tries = 0; tries < 50; tries++)); do
    signal_running -0 || break
    sleep 0.1
  done
  signal_running -KILL
  chmod -R u+rwx "$own"
  rm -rf "$own"
  trap - "$1"
  kill "-$1" "$$"
}

# ---- Commands in parallel

# The planned commands, each as shell words, in the order in which their output is shown; the indices of those that start first;
# and for each command that was started, by its index: its process group while it runs, when it began, how many seconds it took,
# and its status.
planned=()
first=()
running=()
began=()
took=()
ended=()
shown=0

# Plans a command, which runs in parallel with others (run_planned).
plan() {
  planned+=("$(printf '%q ' "$@")")
}

# Plans a command that takes long, so that it starts before the others.
plan_first() {
  first+=("${#planned[@]}")
  plan "$@"
}

# Runs the planned commands, as many at a time as there are processors. Shows the output of each as a whole, in the order of the
# plan, as soon as it and all before it have ended, and adds its counts. It needs own_files, and `top`, the repository.
run_planned() {
  local at most
  most=$(nproc)
  for at in "${first[@]}" "${!planned[@]}"; do
    [ -z "${began[at]-}" ] || continue
    [ "${#running[@]}" -lt "$most" ] || await_end
    begin "$at"
  done
  while [ "${#running[@]}" -gt 0 ]; do
    await_end
  done
}

# Starts a planned command as a process group, which a signal ends as a whole.
begin() {
  set -m
  {
    eval "${planned[$1]}"
    echo $? >"$own/logs/$1.status"
  } >"$own/logs/$1" 2>&1 </dev/null &
  set +m
  running[$1]=$!
  began[$1]=$SECONDS
  tell_running
}

# Waits until at least one of the running commands has ended, and shows what can be shown.
await_end() {
  local at waited many=${#running[@]}
  while [ "${#running[@]}" -eq "$many" ]; do
    wait -n
    waited=$?
    for at in "${!running[@]}"; do
      # A killed command leaves no status; 127 means that there is nothing left to wait for.
      if [ -s "$own/logs/$at.status" ] || [ "$waited" -eq 127 ] || ! kill -0 "${running[at]}" 2>/dev/null; then
        ended[at]=$(cat "$own/logs/$at.status" 2>/dev/null || echo 1)
        took[at]=$((SECONDS - began[at]))
        unset "running[at]"
      fi
    done
  done
  show_ended
  tell_running
}

# Shows the output of the commands that have ended and whose turn it is.
show_ended() {
  while [ -n "${ended[shown]-}" ]; do
    tell ''
    eval "set -- ${planned[shown]}"
    echo "== ${1#"$top/"} (${took[shown]} s)"
    cat "$own/logs/$shown"
    add "$own/logs/$shown" "${ended[shown]}" "$@"
    shown=$((shown + 1))
  done
}

# Shows which commands run.
tell_running() {
  local at names=
  for at in "${!running[@]}"; do
    eval "set -- ${planned[at]}"
    names+=" ${1##*/}"
  done
  [ -z "$names" ] || tell "$shown of ${#planned[@]} shown; now$names"
}

# Writes a line on a terminal, which replaces the one before.
tell() {
  [ ! -t 1 ] || [ "${TERM:-dumb}" = dumb ] || printf '\r\e[K%.79s' "$1"
}

# Sends a signal to all running commands; whether there is one.
signal_running() {
  local group is_there=1
  for group in "${running[@]}"; do
    ! kill "$1" -- "-$group" 2>/dev/null || is_there=0
  done
  return "$is_there"
}
