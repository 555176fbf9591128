# Chooses the program of the sources as they stand, for the script conform and for those of tests/. Names go from $top,
# and $chosen is the file that keeps the choice.
built=crates/cs_cli/out/cs_cli
built_of=crates/cs_cli/out/conform.built
released=release/conform-x86_64-linux
released_of=release/SOURCES
mark=crates/cs_cli/out/conform.mark.$$

# For each crate of crates.txt what it stands on; the program's crates, each behind those that it stands on.
declare -A needs=() added=()
declare -a crates=()

read_needs() {
  local crate after
  while IFS=: read -r crate after || [ "$crate" ]; do
    [ -z "${crate%%#*}" ] || needs[${crate%% *}]=${after%%#*}
  done <"$top/crates.txt"
}

add_crate() {
  local need
  [ "${needs[$1]+known}" ] && [ -z "${added[$1]-}" ] || return 0
  added[$1]=yes
  for need in ${needs[$1]}; do
    add_crate "$need"
  done
  crates+=("$1")
}

# What the program does and what it promises: no proofs, no tests and no edits. Names with a byte 0 behind each; words are
# as find has them.
sources() {
  local folder folders=() own=("${crates[@]/#/crates/}")
  for folder in "${own[@]/%//src}" "${own[@]/%//specs}"; do
    [ ! -d "$folder" ] || folders+=("$folder")
  done
  find "${folders[@]}" "$@" -print0
}

# What each crate of the program stands on, and the SHA-256 and the name of each file.
source_lines() {
  local name
  for name in "${crates[@]}"; do
    echo "$name:${needs[$name]}"
  done
  sources -type f | xargs -0 sha256sum
}

digest() {
  sha256sum | cut -d ' ' -f 1
}

digest_of() {
  [ ! -r "$top/$1" ] || digest <"$top/$1"
}

# Sets the SHA-256 of the sources as they stand, and leaves a mark that is as old as this look at them.
look() {
  if ! command -v sha256sum >/dev/null; then
    echo "conform: the command sha256sum isn't there" >&2
    return 70
  fi
  { mkdir -p "$top/${mark%/*}" && : >"$top/$mark"; } 2>/dev/null
  sources_digest=$(cd "$top" && source_lines | LC_ALL=C sort | digest)
}

# The value of a key in a file whose lines have a key and a value each, or nothing.
told() {
  local key value
  [ ! -r "$top/$2" ] || while read -r key value; do
    [ "$key" != "$1" ] || echo "$value"
  done <"$top/$2"
}

# Whether a program runs on this machine: without words it says that the first is missing.
answers() {
  said=$("$top/$1" 2>&1 </dev/null)
  [ "$said" = 'conform: usage: word 0' ]
}

# Whether the released program is what it says, or it is refused.
is_whole() {
  local found wanted
  found=$(digest_of "$released") wanted=$(told program "$released_of")
  [ "$found" != "$wanted" ] || return 0
  echo "conform: $released isn't the released program: its SHA-256 is $found, and $released_of has $wanted" >&2
  echo "conform: git checkout release brings it back; where the file is missing, the program is built here" >&2
  return 1
}

# Sets the program to the released one, or says why not; where that one is damaged, the status is 70.
find_released() {
  program=
  if [ ! -e "$top/$released" ]; then
    why="there is no $released"
  elif [ "$sources_digest" != "$(told sources "$released_of")" ]; then
    why="the sources aren't those of $released_of, which the commit has that git log -1 release names"
  elif [ "$(uname -sm)" != 'Linux x86_64' ]; then
    why="$released is for Linux on x86-64"
  elif ! is_whole; then
    return 70
  elif ! answers "$released"; then
    why="$released doesn't run on this machine: $said"
  else
    program=$released
  fi
}

is_built() {
  [ "$sources_digest" = "$(told sources "$built_of")" ] &&
    [ "$(digest_of "$built")" = "$(told program "$built_of")" ] &&
    answers "$built"
}

find_program() {
  find_released || return
  [ "$program" ] || ! is_built || program=$built
}

find_or_build() {
  find_program || return
  [ -z "$program" ] || return 0
  echo "conform: $why" >&2
  . "$top/tools/build.bash"
  build || return
  program=$built
}

# Keeps the choice, as old as the look by which it was made. Where that can't be written, the next run looks again.
keep_choice() {
  local new=$chosen.$$
  (
    cd "$top" &&
      printf '%s\0' "$program" conform crates.txt tools/program.bash "${crates[@]/#/crates/}" >"$new" &&
      { [ ! -d release ] || find release -print0 >>"$new"; } &&
      sources >>"$new" &&
      touch -r "$mark" "$new" &&
      mv -f "$new" "$chosen"
  ) 2>/dev/null
}

choose() {
  local status
  look && find_or_build
  status=$?
  [ "$status" -ne 0 ] || keep_choice
  rm -f "$top/$mark"
  return "$status"
}

say_release() {
  local number
  number=$(told release "$released_of")
  echo "conform, ${number:+release }${number:-no release}"
}

# The release, and which program runs.
say_version() {
  look || return
  rm -f "$top/$mark"
  find_program || return
  say_release
  [ ! -r "$top/$released_of" ] || sed -n '/^release /!p' "$top/$released_of"
  case $program in
  "$released") echo "runs $released" ;;
  "$built") echo "runs $built, which was built here: $why" ;;
  *) echo "builds the program at the next run: $why" ;;
  esac
}

read_needs
add_crate cs_cli
