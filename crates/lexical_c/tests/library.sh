# Tests of the texts and of the speed of the library, which tests/run reads.
# shellcheck shell=sh disable=SC2154

# Whether each cell of instructions.c, such as cell_u8_16_lowercase, takes at most as many instructions for a number as
# instruction_limits says. It prints the cells that take more, have no limit or are not counted. Callgrind writes a file
# for each cell, which names it and has the total. It takes only one option for a pattern, so the two patterns differ.
instructions_are_within_limits() {
  runs_with "$CC" '-std=c99 -O2 -DNUMBERS=1000' "$crate/tests/instructions.c" && cd "$work" || return
  valgrind -q --tool=callgrind --callgrind-out-file=counts --toggle-collect='cell*' --dump-after='cell_*' ./program
  awk -v builder="$builder" '
    $1 == "library" { split($0, columns) }
    $1 == builder { for (i = 3; i <= NF; i++) limits["cell_" $2 "_" columns[i]] = $i }
    sub("^desc: Trigger: --dump-after=", "") { cell = $0 }
    $1 == "totals:" { counts[cell] = $2 / 1000; limits[cell] += 0 }
    END {
      for (cell in limits)
        if (0 < counts[cell] && counts[cell] <= limits[cell]) right++
        else { wrong++; print cell ": " counts[cell] + 0 ", at most " limits[cell] }
      exit wrong || !right
    }' "$crate/tests/instruction_limits" counts.*
}

check_library() {
  expect 'library.c' runs_with "$CC" "-std=c99 -O1 -DBY_$builder" "$crate/tests/library.c"
  [ -n "$TARGET" ] || expect_with valgrind 'instructions.c' instructions_are_within_limits
}
