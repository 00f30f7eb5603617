# Tests of rust/lexical_c/archive, by which rustc builds the archive, and which tests/run reads.
# shellcheck shell=sh disable=SC2154

# build_archive SOURCES: builds the archive of a checkout again, where nobody can write into the current folder.
build_archive() (cd /proc && "$1/rust/lexical_c/archive" ${TARGET:+--target "$TARGET"} --out "$work/again")

# Whether the sources in their own folder make the same bytes as their copy. With -g the archive also has what a
# debugger reads, which names the folder of the sources.
archives_the_same() {
  export RUSTFLAGS=-g
  build_archive "$copy" || stop 'the archive of the copy'
  mv "$work/again/liblexical_c.a" "$work/with_g.a" || stop 'its file'
  build_archive "$crate/../.." || stop 'the archive of the sources'
  cmp "$work/again/liblexical_c.a" "$work/with_g.a" || stop 'the same bytes'
  fails cmp -s "$work/with_g.a" "$library" || stop 'other bytes than without -g'
}

# Whether library.c passes with a library that ends the program at an invalid slice and at an overflow.
passes_checked() {
  export RUSTFLAGS='-C debug-assertions -C overflow-checks'
  build_archive "$copy" || stop 'the archive with checks'
  fails cmp -s "$work/again/liblexical_c.a" "$library" || stop 'other bytes than without checks'
  library=$work/again/liblexical_c.a
  runs_with "$CC" '-std=c99 -O1' "$crate/tests/library.c" || stop 'library.c'
}

# Whether archive refuses flags of rustc that it cannot build with, before a linker complains of what it has made. And
# if there is no rustc, it says that it needs one.
refuses_flags() {
  fails env RUSTC=none "$copy/rust/lexical_c/archive" --out "$work/none" 2> "$work/said" || stop 'no rustc is refused'
  grep 'it needs rustc 1.85' "$work/said" || stop 'what it needs'
  echo -Clinker-plugin-lto > "$work/flags"
  for RUSTFLAGS in -Clto=no '-g -C lto=off' '-C	lto=thin' -Copt-level=0 '-C opt_level=0' --codegen=panic=unwind \
    -Clinker-plugin-lto "@$work/flags"; do
    export RUSTFLAGS
    fails "$copy/rust/lexical_c/archive" --out "$work/none" 2> "$work/said" || stop "$RUSTFLAGS is refused"
    grep 'RUSTFLAGS must not have' "$work/said" || stop "why $RUSTFLAGS is refused: $(cat "$work/said")"
    [ ! -e "$work/none" ] || stop "nothing is made with $RUSTFLAGS"
  done
}

check_archive() {
  if [ "$builder" != rustc ]; then return; fi
  expect 'the sources in another folder make the same library' archives_the_same
  expect 'library.c with the checks of a debug build' passes_checked
  expect 'flags of rustc that do not work' refuses_flags
}
