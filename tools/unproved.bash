# How tools/install --unproved builds programs, and tools/libgourzhiel --unproved the library. They read tools/proving.bash, and
# set room to a folder, and kit to the toolchain's.

# `rt try` builds a program without a proof, runs it and keeps nothing. So it gets a toolchain of links, in which clang
# compiles the program's module to run fast, leaves it in the folder, as it was too, and ends `rt try` there. Beside the
# build `rt try` has rattle look for names that a proof refuses, which takes as long: what is committed has none.
make_toolchain_that_keeps() {
  local folder=$1 tool
  mkdir -p "$folder/bin" "$folder/toolchain/bin"
  for tool in "$kit"/*; do
    case ${tool##*/} in bin | toolchain) ;; *) ln -s "$tool" "$folder" ;; esac
  done
  for tool in "$kit"/bin/*; do
    case ${tool##*/} in
    rt | rtlib.py) cp "$tool" "$folder/bin" ;;
    rattle) ;;
    *) ln -s "$tool" "$folder/bin" ;;
    esac
  done
  ln -s "$kit/toolchain/lib" "$folder/toolchain"
  for tool in "$kit"/toolchain/bin/*; do
    [ "${tool##*/}" = clang ] || ln -s "$tool" "$folder/toolchain/bin"
  done
  cat >"$folder/bin/rattle" <<SCRIPT
#!/bin/sh
case " \$* " in *" --start no function "*) exit ;; esac
exec "$kit/bin/rattle" "\$@"
SCRIPT
  cat >"$folder/toolchain/bin/clang" <<SCRIPT
#!/bin/sh
# What is built to find faults is built to be used. The rest is compiled as it is asked for.
kept=no
for word; do
  shift
  case \$word in
  -fsanitize=address) kept=yes word=-O2 ;;
  -O0) word=-O1 ;;
  esac
  set -- "\$@" "\$word"
done
"$kit/toolchain/bin/clang" "\$@" || exit
[ \$kept = no ] || { /bin/cp module.o module.bc "$folder"; exit 1; }
SCRIPT
  chmod +x "$folder/bin/rattle" "$folder/toolchain/bin/clang"
}

# Compiles the program in a crate's folder. Its module is then in the folder that a toolchain was made in. What rt says goes
# into a file.
compile_unproved() {
  local crate=$1 folder=$2 said=$3
  make_toolchain_that_keeps "$folder"
  (cd "$crate" && "$folder/bin/rt" try -- --help) >"$said" 2>&1 </dev/null || true
  [ -e "$folder/module.o" ]
}

# Copies the crates without what rt keeps in out/. In the copy a program's version says that nothing was proved.
copy_crates() {
  local copy=$1 crate part version
  mkdir "$copy"
  cp "$top/crates.txt" "$copy"
  [ ! -e "$top/HANDLES" ] || cp "$top/HANDLES" "$copy"
  for crate in "$top"/crates/*; do
    mkdir -p "$copy/crates/${crate##*/}"
    for part in src specs; do
      [ ! -d "$crate/$part" ] || cp -R "$crate/$part" "$copy/crates/${crate##*/}"
    done
  done
  version=$(sed 's/[.]/[.]/g' "$top/VERSION")
  find "$copy/crates" -name '*.rt' -exec sed -i -E "s/\"([a-z-]+ )?$version/& (not proved)/" {} +
}

# Says that a crate is at work, and how long it took since a second of the shell.
say_begun() { echo "$1: is built from $(with_those_below "$1" | wc -l) crates, unproved" >&2; }
say_built() { echo "$1: built in $((SECONDS - $2)) seconds" >&2; }

# Builds a program of the copy into a file. What rt says stays beside it.
build_program_unproved() {
  local program=$1 copy=$2 file=$3 folder=$room/$1.kit began=$SECONDS
  compile_unproved "$copy/crates/$program" "$folder" "$file.said" || return
  "$kit/bin/rattle-link" --target x86_64-unknown-linux-gnu --toolchain "$kit/toolchain" -o "$file" \
    "$folder/module.o" "$kit/c/libos_c.a" "$kit/c/liblibc_c.a" >>"$file.said" 2>&1 || return
  say_built "$program" $began
}

# Builds programs side by side, each into a file of its name in a folder, with a line as each begins and as it ends. It ends
# with the first that does not build, or does not say that it is not proved.
build_unproved() {
  local folder=$1 copy=$room/copy program failed=
  shift
  local -A running
  mkdir -p "$folder"
  copy_crates "$copy"
  for program; do
    say_begun "$program"
    build_program_unproved "$program" "$copy" "$folder/$program" &
    running[$program]=$!
  done
  for program; do
    wait "${running[$program]}" || failed=${failed:-$program}
  done
  [ -z "$failed" ] || { cat "$folder/$failed.said" >&2; refuse "$failed does not build: nothing was installed"; }
  for program; do
    case $("$folder/$program" --version 2>&1 </dev/null) in
    *'(not proved)'*) ;;
    *) refuse "$program does not say that it is not proved: nothing was installed" ;;
    esac
  done
}

# Makes the crate gourzhiel a program, in a copy of the crates.
make_library_a_program() {
  local copy=$1
  copy_crates "$copy"
  sed -i 's/^gourzhiel staticlib:/gourzhiel:/' "$copy/crates.txt"
  "$top/tools/unproved_library.py" program "$copy/crates/gourzhiel"
}

# Builds the crate gourzhiel into an archive. `rt try` builds programs, and in them what is called. So the crate gets a main
# that calls each function for C. In the module that is made of it they are then seen from outside, and main is not.
build_library_unproved() {
  local archive=$1 copy=$room/copy folder=$room/library.kit began=$SECONDS
  make_library_a_program "$copy"
  say_begun gourzhiel
  compile_unproved "$copy/crates/gourzhiel" "$folder" "$room/said" ||
    { cat "$room/said" >&2; refuse "gourzhiel does not build: nothing was installed"; }
  local clang=("$kit/toolchain/bin/clang" --target=x86_64-unknown-linux-gnu --no-default-config -x ir)
  "${clang[@]}" -S -emit-llvm -Xclang -disable-llvm-passes -o "$room/library.ll" "$folder/module.bc"
  "$top/tools/unproved_library.py" module "$room/library.ll"
  "${clang[@]}" -march=x86-64 -ffunction-sections -fdata-sections -O2 -fPIC -c -o "$room/library.o" "$room/library.ll"
  ar rcs "$archive" "$room/library.o"
  say_built gourzhiel $began
}
