# What a start does where the dates don't tell that .built/NAME is what the sources are. start.sh reads
# this, and ends here.
#
# The contents are compared, by sums. Where they are as they were, the program is served. Where they
# aren't, and what was built before is whole, that is served at once, and a build runs behind it; else,
# or with --wait, the build comes first. Each crate is proved and built by rt, those below first. The
# new program takes the old one's place once the crate's stored run (its files args, stdin, stdout and
# status) has gone through it.
#
# In .built/ stand for each program: NAME; NAME.made, what it was built of; NAME.log, what rt said;
# NAME.failed, the sum of the sources that rt refused.

# How many seconds rt may take for a crate.
limit=${START_SECONDS:-3600}
case $limit in *[!0-9]*) limit=3600 ;; esac
time=$built.time.$$

# ---- What the sources are.

# What a crate stands on, as crates.txt has it.
below() {
  sed -n "s/^$1\( [^:]*\)\{0,1\}://p" "${root}crates.txt"
}

# Adds a crate to $crates, after those of this repository on which it stands.
add_crate() {
  case " $seen " in *" $1 "*) return ;; esac
  seen="$seen $1"
  for each in $(below "$1"); do
    [ ! -d "${root}crates/$each" ] || add_crate "$each"
  done
  crates="${crates:+$crates }$1"
}

# Finds sources of the crates: find_sources TEST.., with what find is to do. The folders of proofs are
# left out where folders are asked for, since a proof that comes or goes leaves the program as it is.
find_sources() {
  for each in $crates; do
    for part in src specs proofs; do
      [ ! -d "crates/$each/$part" ] || set -- "crates/$each/$part" "$@"
    done
  done
  find "$@"
}

# A sum over the names and the contents of the sources, and over what their crates stand on.
sum_sources() {
  (
    cd "$root" || exit
    for each in $crates; do
      echo "$each: $(below "$each")"
    done
    find_sources -type f \( -name '*.rt' -o -name '*.antt' \) -exec cksum {} +
  ) 2>/dev/null | LC_ALL=C sort | cksum
}

# Sets $crates and $now, the sum of what they are, and notes the time before that.
look() {
  { true >"$time"; } 2>/dev/null
  crates=
  seen=
  add_crate "$program"
  now=$(sum_sources)
}

# Whether the program is there as it was built, whatever its sources are by now. Where its note is lost,
# its stored run tells.
is_whole() {
  is_there || return
  read_made
  if [ "$program_sum" ]; then
    [ "$program_sum" = "$(cksum <"$built")" ]
  else
    works "$built"
  fi
}

is_same() {
  is_whole && [ "$sum" = "$now" ]
}

# Whether rt has refused just these sources before, which is said.
was_refused() {
  [ -r "$built.failed" ] && read -r failed <"$built.failed" && [ "$failed" = "$now" ] || return
  say "rt has refused these sources; $built.log says why. To try again change one, or remove $built.failed"
}

# ---- One build at a time, of any program.

# Waits until no other start builds; with -n it fails at once instead. Without flock all may.
lock() {
  exec 9<"${root}start.sh"
  ! command -v flock >/dev/null || flock "$@" 9
}

unlock() {
  exec 9<&-
}

# Has the dates tell from now on that nothing changed. Beside a build they are left alone.
keep_dates() {
  if lock -n && is_same; then
    touch -r "$time" "$built" "$built.made" 2>/dev/null
  fi
  unlock
}

# ---- Building.

# Runs a command on the crate's stored run.
with_stored_run() {
  if [ -r "$crate/args" ]; then
    while read -r word || [ "$word" ]; do
      set -- "$@" "$word"
    done <"$crate/args"
  fi
  if [ -r "$crate/stdin" ]; then
    "$@" <"$crate/stdin"
  else
    "$@" </dev/null
  fi
}

stored_status() {
  status=0
  [ ! -r "$crate/status" ] || read -r status <"$crate/status"
  echo "${status:-0}"
}

# Whether the program answers the stored run as it should. The x keeps the last lines' ends.
works() {
  answer=$(with_stored_run timeout -k 1 20 "$1" 2>/dev/null; echo "x$?")
  wanted=$([ ! -r "$crate/stdout" ] || cat "$crate/stdout"; echo "x$(stored_status)")
  [ "$answer" = "$wanted" ]
}

# Says why nothing can be built here, if so.
find_obstacle() {
  if [ -e "${root}.built" ] && [ ! -d "${root}.built" ]; then
    say "a file stands at ${root}.built, where the folder of what is built belongs: move it away"
  elif [ -d "$built" ]; then
    say "a folder stands at $built, where the program belongs: move it away"
  elif ! why=$(mkdir -p "${root}.built" 2>&1) || ! why=$(cp "${root}crates.txt" "$time.try" 2>&1); then
    say "${root}.built cannot be written (${why##*: })"
  elif [ ! -w "$crate" ]; then
    say "$crate cannot be written, and rt builds there"
  elif ! command -v rt >/dev/null; then
    say 'rt is not on the path, and only rt builds'
  else
    rm -f "$time.try"
    return 1
  fi
  rm -f "$time.try" 2>/dev/null
}

# Runs rt in the crate's folder. What it says goes to the log.
run_rt() {
  (cd "${root}crates/$each" && exec timeout --foreground -k 10 "$limit" rt "$@" 2>>"$built.log")
}

# Says how rt ended with a crate. What it refused is noted, if rt ended so by itself: where it was
# stopped, or lacked memory, time or space, the same sources may pass another time.
tell_failure() {
  lack='killed|out of memory|allocate (more )?memory|MemoryError|No space left|Disk quota|Permission denied|Traceback'
  if [ "$1" -eq 124 ]; then
    say "rt had not ended with $each after $limit seconds, and was stopped; START_SECONDS sets another limit"
  elif [ "$each" = "$program" ] && grep -q '^rt: running ' "$built.log"; then
    say "$each was built, but ended with status $1 in its stored run"
  elif [ "$1" -gt 3 ]; then
    say "rt was stopped in $each, or could not run (status $1)"
  elif grep -E -q "$lack" "$built.log" || find_obstacle; then
    say "rt could not end its work on $each (status $1)"
  else
    say "rt refused $each (status $1)"
    [ "$now" != "$(sum_sources)" ] || echo "$now" >"$built.failed"
  fi
  if [ ! /dev/fd/2 -ef "$built.log" ]; then
    say "the last that rt said, of $built.log:"
    tail -n 15 "$built.log" >&2
  fi
}

# Proves and builds each crate, and says which is begun.
build_crates() {
  true >"$built.log"
  left=$(echo "$crates" | wc -w)
  for each in $crates; do
    left=$((left - 1))
    say "proving $each; crates that are left after it: $left"
    if [ "$each" = "$program" ]; then
      with_stored_run run_rt run -- >/dev/null
    else
      run_rt lib >>"$built.log"
    fi
    ended=$?
    wanted=0
    [ "$each" != "$program" ] || wanted=$(stored_status)
    if [ "$ended" -ne "$wanted" ]; then
      tell_failure "$ended"
      return 1
    fi
  done
}

# What is noted of a program as it is built. The last line tells that all of it was written.
note() {
  echo "kit='$(timeout -k 1 5 rt version 2>/dev/null | head -n 1 | tr -d "'")'"
  echo "program_sum='$(cksum <"$1")'"
  echo "sources='crates.txt"
  (cd "$root" && find_sources \( -name proofs -o ! -path '*/proofs/*' \) -type d -print -o -type f \( -name '*.rt' -o -name '*.antt' \) -print) | tr -d "'"
  echo "'"
  echo "sum='$now'"
}

# Puts the program that rt made in the old one's place, if it works. It gets the date that was noted.
install() {
  new=$built.new
  if ! why=$(cp "$crate/out/$program" "$new" 2>&1); then
    say "what was built cannot be put in .built: $why"
  elif ! works "$new"; then
    say 'what was built does not answer its stored run as it should'
  elif note "$new" >"$new.made" 2>/dev/null && touch -r "$time" "$new" "$new.made" && mv -f "$new" "$built" && mv -f "$new.made" "$built.made"; then
    rm -f "$built.failed"
    (set +f && rm -f "$built".time.*)
    return
  else
    say 'what was built cannot be noted in .built'
  fi
  rm -f "$new" "$new.made"
  return 1
}

# Sees to it that $built is what the sources are, if that can be. Where they change meanwhile, nobody
# knows which were built, so it is done again.
renew() {
  find_obstacle && return 1
  if ! lock -n; then
    say 'waiting for another build'
    lock
  fi
  for again in 1 2 3; do
    look
    if is_same; then
      touch -r "$time" "$built" "$built.made"
      return
    elif was_refused; then
      return 1
    elif build_crates; then
      [ "$now" != "$(sum_sources)" ] || { install; return; }
    else
      [ "$now" != "$(sum_sources)" ] || return 1
    fi
    say 'the sources have changed meanwhile'
  done
  return 1
}

# Starts a build that goes on when this start has ended, and however the program ends.
build_behind() {
  if ! lock -n; then
    say 'serving what was built before; a build is under way'
  else
    unlock
    say "the sources have changed: serving what was built before; a build runs behind it, and tells $built.log. --wait waits for it"
    away=
    ! command -v setsid >/dev/null || away=setsid
    (cd "$root" && $away sh "$root$name" --build </dev/null >/dev/null 2>>"$built.log" &)
  fi
  unlock
}

# ---- The start goes on.

trap 'rm -f "$time"' EXIT
look
if is_same; then
  keep_dates
elif is_whole && [ ! "$wait$only_build" ]; then
  if was_refused || find_obstacle; then
    say 'serving what was built before'
  else
    build_behind
  fi
elif renew; then
  unlock
else
  unlock
  [ ! "$only_build" ] || exit 69
  if is_whole || { is_there && works "$built"; }; then
    say 'serving what was built before'
  elif works "$crate/out/$program"; then
    say 'serving what rt built before'
    built=$crate/out/$program
  else
    say 'there is no program to start'
    exit 69
  fi
fi
rm -f "$time"
trap - EXIT
serve "$built" "$@"
