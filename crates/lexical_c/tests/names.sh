# Tests of the names of the functions in the installed libraries and in the manual, which tests/run reads.
# shellcheck shell=sh disable=SC2086,SC2154

# names FLAGS FILE: prints the names that nm finds, without their addresses and kinds.
names() { nm $1 "$2" | sed -n 's/^[0-9a-f ]* [A-Zu] //p' | sed '/^LEXICAL_C_/d' | LC_ALL=C sort; }

# Prints what the archive uses of the C library, and not what 32 bits also need of the compiler.
imported_names() { names -u "$library" | grep -vx '_GLOBAL_OFFSET_TABLE_\|__u...di3' | tr '\n' ' '; }

# Whether man finds the page by the name of each function and each name at its top, and shows it in 80 columns without
# a warning.
shows_manual() {
  at_top=$(sed -n '/^lexical_write, /{ s/ \\-.*//; s/,//g; p; }' "$crate/package/lexical_write.3.in")
  [ -n "$at_top" ] || stop 'the names at the top'
  for name in $wanted $at_top; do man -M "$prefix/share/man" -w "$name" || stop "the page of $name"; done
  LC_ALL=C MANWIDTH=80 man -M "$prefix/share/man" --warnings "$name" > "$work/manual" 2> "$work/said" || stop 'man'
  grep SYNOPSIS "$work/manual" || stop 'the synopsis'
  fails grep '.\{81\}' "$work/manual" || stop 'lines of 80 columns'
  prints '' cat "$work/said" || stop 'no warning'
}

# Whether the program in the manual prints what stands above it there.
runs_example_of_manual() {
  sed -n '/^#include <lexical.h>$/,/^[.]EE$/{ /^[.]EE$/d; s/\\e/\\/g; p; }' "$crate/package/lexical_write.3.in" \
    > "$work/manual.c"
  prints 3,735,928,559 runs_with "$CC" -std=c99 "$work/manual.c" || stop 'what it prints without an argument'
  prints DE,ADB,EEF "$work/program" 16 || stop 'what it prints in radix 16'
  fails "$work/program" 37 || stop 'an error in radix 37'
}

check_names() {
  wanted=$($CC -E -P "$crate/include/lexical.h" | sed -n 's/.*_t \(lexical_[a-z0-9_]*\)(.*/\1/p' | LC_ALL=C sort)
  expect 'the names of the archive are those of the header' prints "$wanted" names '-g --defined-only' "$library"
  expect 'the names of the shared library are those of the header' prints "$wanted" \
    names '-D --defined-only --without-symbol-versions' "$folder/liblexical_c.so"
  expect 'what the archive uses' prints "$imported" imported_names
  expect_with man 'the manual' shows_manual
  expect 'the example of the manual' runs_example_of_manual
}
