# Tests of what make builds, links and checks, which tests/run reads.
# shellcheck shell=sh disable=SC2086,SC2154

# what_is_linked WORD..: calls make, and prints the shared library if it is linked.
what_is_linked() {
  touch "$work/now" && make_c "$@" && find "$work/build" -name '*.so.*' -type f -newer "$work/now"
}

# Whether make links the shared library after its archive or its flags have changed, and only then.
links_after_changes() {
  other="$work/other archive.a"
  : > "$work/nothing.c"
  $CC -c -o "$work/nothing.o" "$work/nothing.c" || stop 'an object file'
  cp "$library" "$other" || stop 'a copy of the archive'
  "${AR:-ar}" q "$other" "$work/nothing.o" || stop 'another archive'
  prints '' what_is_linked || stop 'it is not linked again without a change'
  what_is_linked ARCHIVE="$other" | grep so || stop 'it is linked with the other archive'
  prints '' what_is_linked ARCHIVE="$other" || stop 'it is not linked again with the same archive'
  what_is_linked LDFLAGS= | grep so || stop 'it is linked with other flags'
  what_is_linked | grep so || stop 'it is linked with the first archive and flags'
}

# Whether make compiles again after RUSTFLAGS have changed: it refuses flags although an archive is there.
compiles_after_changes() {
  fails make_c RUSTFLAGS=-Clto=no || stop 'flags that do not work'
  make_c || stop 'the first flags'
}

# Whether make takes TARGET from its own command line, and not from the environment.
takes_target() {
  env TARGET=none make -n -C "$copy/crates/lexical_c" | grep -x '.*/archive --out build *' || stop 'the environment'
  make -n -C "$copy/crates/lexical_c" TARGET=none | grep -x '.*/archive --out build/none --target none' ||
    stop 'the command line'
}

# Whether the dynamic linker resolves all names of the library first, and then makes their table read-only, neither its
# stack is executable nor its code changed, and its link took the flags.
is_hardened() {
  readelf -dlW "$folder/liblexical_c.so" > "$work/read" || stop 'readelf'
  grep GNU_RELRO "$work/read" || stop 'a read-only table'
  grep 'GNU_STACK.* RW ' "$work/read" || stop 'a stack that is not executable'
  grep 'FLAGS_1.*NOW GLOBAL NODELETE' "$work/read" || stop 'names resolved first, and the flags of the link'
  fails grep TEXTREL "$work/read" || stop 'code that is not changed'
}

# Whether LLVM's tools build both libraries in place of GNU binutils.
builds_with_llvm() {
  make -s -C "$copy/crates/lexical_c" BUILD="$work/llvm" AR=llvm-ar LDFLAGS=-fuse-ld=lld CC="$CC" check
}

check_make() {
  expect 'the TARGET of make' takes_target
  expect 'what make links' links_after_changes
  [ "$builder" = rt ] || expect 'what make compiles' compiles_after_changes
  expect 'the hardening of the shared library' is_hardened
  expect 'make check' prints 'the static and the shared library have passed' make_c check
  # A compiler for another machine looks for a linker of its own.
  [ "$builder" = rt ] || [ -n "$TARGET" ] || expect_with 'ld.lld llvm-ar' "LLVM's tools" builds_with_llvm
}
