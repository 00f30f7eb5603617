# What the tests are written with, which tests/run reads. They write into its folder `work`, and compile with its flags
# `strict`, the header of `crate` and the archive `library`.
# shellcheck shell=sh disable=SC2086,SC2154

passed=0 failed=0

# expect WHAT COMMAND..: one test, which passes if the command succeeds. It runs in a subshell, so no test changes a
# variable of another.
expect() {
  if (shift; "$@") > "$work/log" 2>&1; then
    passed=$((passed + 1))
  else
    failed=$((failed + 1))
    echo "failed: $1"
    cat "$work/log"
  fi
}

# stop WHAT: ends a test as failed, and says at which step. A step is `COMMAND || stop WHAT`.
stop() { echo "failed at: $1"; exit 1; }

# expect_with TOOLS WHAT COMMAND..: `expect`, if the machine has these tools.
expect_with() {
  for tool in $1; do
    if ! has "$tool"; then echo "left out: $2, for want of $tool"; return; fi
  done
  shift
  expect "$@"
}

# prints TEXT COMMAND..: whether the command succeeds and prints this line, or these lines. It shows the difference:
# with `-` what is expected, and with `+` what is printed.
prints() {
  printf '%s\n' "$1" > "$work/expected"; shift
  "$@" > "$work/printed" || { cat "$work/printed"; return 1; }
  [ "$(cat "$work/expected")" = "$(cat "$work/printed")" ] || { diff -u "$work/expected" "$work/printed"; return 1; }
}

fails() { ! "$@"; }
has() { command -v "$1" > /dev/null 2>&1; }

# compiles COMPILER: whether a compiler can build an empty program that runs.
compiles() {
  echo 'int main(void) { return 0; }' > "$work/empty.c"
  $1 -o "$work/empty" "$work/empty.c" > /dev/null 2>&1 && "$work/empty" > /dev/null 2>&1
}

# runs_with COMPILER FLAGS SOURCE: compiles a program with the header and the archive, without a warning, and runs it.
runs_with() {
  rm -f "$work/program"
  $1 $2 $strict -I"$crate/include" -o "$work/program" "$3" -x none "$library" && "$work/program"
}
