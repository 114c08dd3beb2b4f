# Starts a program of this repository over standard input and output. It is read by a script that is
# named as the program is, lsp_sample, lsp_hello, lsp_proxy or lsp_index, and that sets $name, and $root,
# the path of this folder with a slash at its end. The crate is the one of that name, or where there is one, that with
# _main after its name. lsp_docs is lsp_sample with the word docs, and takes no other.
#
# Before the program's arguments may stand, in any order and once each: --stdio, which is dropped;
# --wait, which waits for a build; --build, which only builds. --help and --version stand alone. Where
# the arguments are none of the program's forms, its usage goes to standard error, and the status is 2.
#
# What is served stands in .built/, where no build comes near it; build.sh says how it comes there.
# All that is said goes to standard error. The status is the program's, or 69 where there is none.
[ -e /dev/fd/2 ] || exec 2>/dev/null
case $root in
  /*) ;;
  *) root=$PWD/${root#./} ;;
esac

word=
if [ "$name" = lsp_docs ]; then
  name=lsp_sample
  word=docs
fi
program=$name
[ ! -d "${root}crates/${name}_main" ] || program=${name}_main
crate=${root}crates/$program
built=${root}.built/$name
set -f

# Whoever reads standard error may have gone, which ends the echo, and so it stands in a shell of its own.
say() {
  (echo "$name: $*" >&2)
}

# ---- The arguments.

# Whether a number is written in digits alone, and lies between the second and the third.
is_between() {
  case $1 in '' | *[!0-9]*) return 1 ;; esac
  number=${1#"${1%%[!0]*}"}
  number=${number:-0}
  is_at_most "$2" "$number" && is_at_most "$number" "$3"
}

# Whether a number is at most the second. They may be too large to be counted with.
is_at_most() {
  [ "${#1}" -lt "${#2}" ] || { [ "${#1}" -eq "${#2}" ] && [ ! "$1" \> "$2" ]; }
}

# Whether the arguments after the first are what the first asks for, part by part.
is_of_form() {
  parts=$1
  shift
  for part in $parts; do
    [ $# -gt 0 ] || return
    case $part in
      _) ;;
      *..*) is_between "$1" "${part%..*}" "${part#*..}" || return ;;
      *) [ "$1" = "$part" ] || return ;;
    esac
    shift
  done
  [ $# -eq 0 ]
}

# Whether the arguments are one of the forms in the crate's file of that name: one a line, an empty one
# for none, with LOW..HIGH for a number and _ for any argument. The program itself tells its forms only by its status, once it
# has ended; a row of .ci/start tries on it that the file says the same.
are_a_form() {
  [ -r "$crate/forms" ] || return 0
  while read -r form; do
    is_of_form "$form" "$@" && return
  done <"$crate/forms"
  return 1
}

tell_usage() {
  [ ! -r "$crate/usage" ] || cat "$crate/usage"
  echo 'Before these arguments --stdio is dropped, --wait waits for a build, and --build only builds;'
  echo '--help and --version stand alone.'
}

# One line: the project's version, and the kit's, or what the kit was when the program was built.
tell_version() {
  version=
  [ ! -r "${root}VERSION" ] || read -r version <"${root}VERSION"
  read_made
  now=$(timeout -k 1 5 rt version 2>/dev/null | head -n 1)
  echo "$name ${version:-unknown}, ${now:-${kit:-unknown}}"
}

# ---- What is built.

# Sets what was noted as the program was built: $kit, $program_sum, $sources and $sum.
read_made() {
  sources='' sum='' program_sum='' kit=''
  [ -r "$built.made" ] && command . "$built.made" 2>/dev/null
}

# Whether there is a file at $built that may be run. An empty one would run, and do nothing.
is_there() {
  [ -f "$built" ] && [ -s "$built" ] && [ -x "$built" ]
}

# Whether the dates alone tell that $built is what the sources are. $built and its note have one date,
# before which the sources were read; where that is ahead of the clock it tells nothing.
is_ready() {
  made=$built.made
  is_there && read_made && [ "$sources" ] || return
  if [ "$built" -nt "$made" ] || [ "$built" -ot "$made" ] || [ "$made" -nt /proc/self ]; then
    return 1
  fi
  for each in $sources; do
    [ "$made" -nt "$root$each" ] || return
  done
}

# Ends, or goes over to the program.
serve() {
  [ ! "$only_build" ] || exit 0
  exec "$@"
}

# ---- The start.

if [ ! -f "$crate/src/main.rt" ]; then
  say "no program of this repository has this name, by which the script finds it: start one under its own name, or by a link to it"
  exit 69
fi

stdio=
wait=
only_build=
while :; do
  case $1 in
    --stdio) [ ! "$stdio" ] && stdio=yes || break ;;
    --wait) [ ! "$wait" ] && wait=yes || break ;;
    --build) [ ! "$only_build" ] && only_build=yes || break ;;
    *) break ;;
  esac
  shift
done
case $#$1 in
  1-h | 1--help) tell_usage; exit 0 ;;
  1--version) tell_version; exit 0 ;;
esac
[ ! "$word" ] || set -- "$word" "$@"
if [ "$only_build" ] && [ $# -eq 0 ]; then
  :
elif ! are_a_form "$@"; then
  tell_usage >&2
  exit 2
fi

if is_ready; then
  serve "$built" "$@"
fi
. "${root}build.sh"
