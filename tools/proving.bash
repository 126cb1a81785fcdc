# What tools/install and tools/libgourzhiel share. They set tool to their name, top to the repository and room to a folder.

refuse() {
  echo "$tool: $*" >&2
  exit 1
}

# Reads the words of a tool. It sets from to where what is installed comes from: a proof, a build without one (unproved), an
# earlier run (built), or nothing, if it is to be removed. It sets wanted to PREFIX as it was given, and named to the words
# that follow.
read_words() {
  from=proof
  case "${1:-}" in
  --help | -h) usage; exit ;;
  --unproved | --built) from=${1#--}; shift ;;
  --uninstall) from=nothing; shift ;;
  esac
  case "${1:-}" in '' | -*) usage >&2; exit 2 ;; esac
  wanted=$1
  named=("${@:2}")
}

# Removes files below a folder, and the folders that are then empty, up to that one.
remove_below() {
  local prefix=$1 file
  shift
  [ -d "$prefix" ] || refuse "$prefix is not there"
  for file; do
    rm -f "$prefix/$file"
    (cd "$prefix" && rmdir -p --ignore-fail-on-non-empty "$(dirname "$file")" 2>/dev/null) || true
  done
  echo "removed below $prefix"
}

# Ends if PREFIX could not be made or written. It is asked first, since a proof takes long.
check_writable() {
  local place=$1 probe
  while [ ! -e "$place" ]; do place=$(dirname "$place"); done
  [ -d "$place" ] || refuse "$place: no folder"
  probe=$(mktemp "$place/.install-XXXXXX" 2>/dev/null) || refuse "$place: cannot be written"
  rm "$probe"
}

check_toolchain() {
  command -v rt >/dev/null || refuse "rt is not on the path: put the toolchain's folder bin there"
}

# Writes the names of these crates and of all below them, lowest first, as crates.txt has them.
with_those_below() {
  awk -F: -v wanted="$*" '
    BEGIN { count = split(wanted, names, " "); while (count) is_wanted[names[count--]] }
    /^[a-z]/ { split($1, head, " "); crates[++last] = head[1]; below[last] = $2 }
    END {
      for (at = last; at; at--)
        if (crates[at] in is_wanted) { count = split(below[at], names, " "); while (count) is_wanted[names[count--]] }
      for (at = 1; at <= last; at++) if (crates[at] in is_wanted) print crates[at]
    }' "$top/crates.txt"
}

# Proves a crate and builds it: a program stays in out/ once it has run, a library for those above it.
prove() {
  local crate=$1 status=0 words=(lib) arguments=()
  if [ -e "$top/crates/$crate/src/main.rt" ]; then words=(run) arguments=(-- --help); fi
  (cd "$top/crates/$crate" && rt "${words[@]}" ${RT_JOBS:+--jobs "$RT_JOBS"} "${arguments[@]}") >"$room/said" 2>&1 </dev/null || status=$?
  [ $status = 0 ] || refuse_unproved "$crate" $status
}

# Ends with what a status of rt or rattle says of a crate.
refuse_unproved() {
  local crate=$1 status=$2
  cat "$room/said" >&2
  # 1 is of what is not proved. From 129 on a signal has ended rt, or the prover below it.
  case $status in
  1) refuse "$crate is not proved, or does not build: nothing was installed" ;;
  129 | 1[3-9]? | 2??) refuse "the proof of $crate was killed, most likely for memory, which says nothing of $crate:" \
    "free some, or set RT_JOBS=1, and run this again; nothing was installed" ;;
  *) refuse "the prover stopped with status $status and gave no verdict on $crate: nothing was installed" ;;
  esac
}

# Proves these crates and all below them, with a line for each.
prove_with_those_below() {
  local crates crate number=0
  mapfile -t crates < <(with_those_below "$@")
  for crate in "${crates[@]}"; do
    number=$((number + 1))
    echo "crate $number of ${#crates[@]}: $crate" >&2
    prove "$crate"
    # (rt says nothing of a crate that was proved before)
    case " $* " in *" $crate "*) grep -oE '^logic=[a-z-]+' "$room/said" >&2 || true ;; esac
  done
}

# Builds a crate's static library over the libraries below it that the gate left in out/, and proves that crate alone. The
# compiler is called by itself, since rt would prove those below once more. Each crate uses std without a word of crates.txt.
build_over_gate() {
  local crate=$1 name status=0 words=()
  for name in $(with_those_below "$crate"); do
    [ "$name" != "$crate" ] || continue
    [ -e "$top/crates/$name/out/rlib/$name.rlib/format" ] || refuse "crates/$name/out has no library: leave out --built, and it is made"
    words+=(-L "dependency=$top/crates/$name/out/rlib")
  done
  for name in std $(awk -F: -v crate="$crate" '{ split($1, head, " ") } head[1] == crate { print $2 }' "$top/crates.txt"); do
    if [ -d "$top/crates/$name" ]; then
      words+=(--extern "$name=$top/crates/$name/out/rlib/$name.rlib")
    else
      words+=(--extern "$name=$kit/rlibs/$name.rlib")
    fi
  done
  mkdir -p "$top/crates/$crate/out"
  echo "crate $crate, over what the gate left" >&2
  (cd "$top/crates/$crate" && "$kit/bin/rattle" build --crate-name "$crate" --crate-type staticlib src/lib.rt "${words[@]}" \
    -L "dependency=$kit/rlibs" --antt-project "$kit/rattle/logic/antt-project.json" --logic-built "$kit/logic_built" \
    --backend llvm --toolchain "$kit/toolchain" -o "out/lib$crate.a") >"$room/said" 2>&1 </dev/null || status=$?
  [ $status = 0 ] || refuse_unproved "$crate" $status
  grep -oE '^logic=[a-z-]+' "$room/said" >&2 || true
}
