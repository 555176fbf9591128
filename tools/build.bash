# Builds the program: the crates that it stands on are proved, and standard error tells which are done and under way.
# It needs tools/program.bash.
log=$top/crates/cs_cli/out/conform.log

count_below() {
  local -A added=()
  local -a crates=()
  add_crate "$1"
  echo "${#crates[@]}"
}

# The crates as `rt all check` takes them up: those with fewer crates below them first.
in_turn() {
  local name
  for name in "${crates[@]}"; do
    echo "$(count_below "$name") $name"
  done | sort -s -n -k 1,1 | cut -d ' ' -f 2
}

waits() {
  local need
  for need in ${needs[$1]}; do
    [ -z "${needs[$need]+known}" ] || [ "${ended[$need]-}" ] || return 0
  done
  return 1
}

# So many crates as there are jobs are taken up, and each waits there for those that it stands on.
under_way() {
  local name taken=0
  for name in "${turns[@]}"; do
    [ -z "${ended[$name]-}" ] || continue
    [ "$taken" -lt "$jobs" ] || break
    taken=$((taken + 1))
    waits "$name" || printf ' %s' "$name"
  done
}

say_state() {
  local names
  names=$(under_way)
  echo "conform: ${#ended[@]} of ${#turns[@]} crates are done${names:+; under way:$names}" >&2
}

# `rt all check` prints a line `== NAME` for each crate that is done, and nothing where one begins.
say_progress() {
  local line
  local -A ended=()
  local -a turns
  mapfile -t turns < <(in_turn)
  say_state
  while IFS= read -r line; do
    printf '%s\n' "$line"
    case $line in
    '== summary') ;;
    '== '*)
      ended[${line#== }]=yes
      say_state
      ;;
    'rt: waiting for '*) echo "conform: $line" >&2 ;;
    esac
  done
}

# What was built, of what, and with what: lines as those of release/SOURCES.
keep_built() {
  printf '%s\n' "program $(digest_of "$built")" "sources $sources_digest" "kit $(rt version)" >"$top/$built_of"
}

prove() {
  local jobs
  jobs=$(nproc)
  echo "conform: building; the first time takes minutes, gigabytes of disk and each processor (log: $log)" >&2
  (cd "$top/crates/cs_cli" && rt all check --jobs "$jobs") 2>&1 | say_progress >"$log"
  echo "conform: compiling the program" >&2
  # It is run once without words, and has been built where it answers with its line of usage.
  (cd "$top/crates/cs_cli" && rt run) >"$log.run" 2>&1
  cat "$log.run" >>"$log"
  grep -qx 'conform: usage: word 0' "$log.run" && [ -x "$top/$built" ]
}

build() {
  local before=$sources_digest said
  if ! command -v rt >/dev/null; then
    echo "conform: the command rt isn't there: README.md names the kit that the program is built with" >&2
    return 70
  fi
  if ! said=$({ mkdir -p "${log%/*}" && : >"$log"; } 2>&1); then
    echo "conform: the folder ${log%/*} can't be written: ${said##*: }" >&2
    return 73
  fi
  if ! prove; then
    echo "conform: the build failed; its log is $log" >&2
    return 70
  fi
  rm -f "$log.run"
  look || return
  if [ "$sources_digest" != "$before" ]; then
    echo "conform: the sources were changed while they were built: run this again" >&2
    return 70
  fi
  keep_built
}

# Whether the program that was built is the released one, where it was built of the same sources with the same kit.
compare() {
  local ours theirs our_kit their_kit
  ours=$(told program "$built_of") theirs=$(told program "$released_of")
  our_kit=$(told kit "$built_of") their_kit=$(told kit "$released_of")
  if [ ! -e "$top/$released_of" ]; then
    echo "conform: $built isn't compared: there is no $released_of"
  elif [ "$(told sources "$built_of")" != "$(told sources "$released_of")" ]; then
    echo "conform: $built isn't compared: the sources aren't those of $released_of"
  elif [ "$ours" = "$theirs" ]; then
    echo "conform: $built is the released program, byte for byte: its SHA-256 is $ours"
  elif [ "$our_kit" != "$their_kit" ]; then
    echo "conform: $built isn't compared: it was built with $our_kit, and the released one with $their_kit"
  else
    echo "conform: $built isn't the released program: its SHA-256 is $ours, and $released_of has $theirs"
    return 70
  fi
}

build_anew() {
  local status
  look && build && compare
  status=$?
  rm -f "$top/$mark"
  return "$status"
}
