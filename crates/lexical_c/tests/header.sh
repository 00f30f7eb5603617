# Tests of the header, which tests/run reads. They need a C compiler, and if there are C++ compilers and clang, they use
# these too.
# shellcheck shell=sh disable=SC2046,SC2086,SC2154

# with_each STANDARDS COMMAND: calls a command with each compiler and each of these standards that it knows, as
# gcc -std=c99. If they are there, clang and clang++ are compilers too, but not for a TARGET.
with_each() {
  for standard in $1; do
    case $standard in
      *++*) own=$CXX other='clang++' flags='-x c++' ;;
      *) own=$CC other=clang flags=-Wstrict-prototypes ;;
    esac
    if [ "$own" = "$other" ] || [ -n "$TARGET" ]; then other=''; fi
    for compiler in "$own" $other; do
      if compiles "$compiler $flags -std=$standard"; then
        "$2" "$compiler $flags -std=$standard"
      else
        echo "left out: $2 as $standard, for want of a $compiler that knows it"
      fi
    done
  done
}

# explains_macros COMPILER: whether each macro that the header leaves is one that it explains or says not to use.
explains_macros() {
  echo '#include "lexical.h"' > "$work/macros.c"
  names='(BUFFER_SIZE|VERSION|INVALID|PRIVATE)(_.*)?|H|(STANDARD_)?FORMAT|RADIX'
  $1 -I"$crate/include" -E -dM "$work/macros.c" | sed -n 's/^#define \(lexical[a-z_]*\).*/\1/Ip' > "$work/macros"
  [ -s "$work/macros" ] && fails grep -Evx "LEXICAL_($names)|lexical_(decimal|write|length)" "$work/macros"
}

# of_each_type NAME..: prints these calls of refused.c with each type, as WRITE_OF(u8).
of_each_type() {
  for type in u8 u16 u32 u64 size i8 i16 i32 i64; do printf "%s($type) " "$@"; done
}

# calls_of_kind KIND COMPILER: prints the calls of refused.c of this kind that the standard of a compiler has. A row of
# the table has the languages and the kinds of some calls. c is C99 and later. Each call is of the kind `any`. Of the
# kind `value` are those whose function is chosen by the type of the value. Others have a pointer to a `format`, the
# `size` of a buffer, or a `radix`. In C89 one type stands for all, because each checks a radix alike.
calls_of_kind() {
  case ${2##*=} in c89) language=c89 ;; c++*) language=c++ ;; *) language=c ;; esac
  while IFS='|' read -r languages kinds calls; do
    case " $languages:$kinds " in *" $language "*:*" $1 "*) echo "$calls" ;; esac
  done << END
c c++ | any value size              | DECIMAL
c c++ | any value size format radix | WRITE
c c++ | any value format radix      | LENGTH
c++   | any value size              | WRITE_OBJECT
c++   | any value                   | LENGTH_OBJECT
c89   | any format                  | CHECK_FORMAT $(of_each_type LENGTH_OF BUFFER_SIZE_OF)
c89   | any format size             | $(of_each_type WRITE_OF)
c89   | any size                    | PAD $(of_each_type DECIMAL_OF)
c89   | radix                       | WRITE_OF(u32) LENGTH_OF(u32)
END
}

# what_is_said COMPILER CALL FLAGS: prints what a compiler says of a call of refused.c. The call is not inlined, so an
# attribute is that of its function.
what_is_said() {
  LC_ALL=C $1 $strict -Wno-error -O1 -fno-inline -I"$crate/include" -DCALL="$2" $3 \
    -S -o /dev/null "$crate/tests/refused.c" 2>&1
}

# says_nothing COMPILER: whether a compiler compiles the sum of all calls, and says nothing.
says_nothing() { prints '' what_is_said "$1" "$(printf '%s + ' $(calls_of_kind any "$1")) 0" ''; }

# reports WORDS KIND COMPILER FLAGS: whether a compiler says these words of each call of this kind, which the flags make
# wrong.
reports() {
  wrong=$(calls_of_kind "$2" "$3")
  [ -n "$wrong" ] || stop "no call has a $2"
  for call in $wrong; do
    what_is_said "$3" "$call" "$4" > "$work/said"
    grep -e "$1" "$work/said" || { echo "$call with $4 is not reported:"; cat "$work/said"; return 1; }
  done
}

# check_refused COMPILER: what a compiler says of valid calls, which is nothing, and of values, formats and radices that
# it must refuse.
check_refused() {
  expect "valid calls by $1" says_nothing "$1"
  case ${1##*=} in
    c89) types='' ;;
    c++98) types='char bool wchar_t' ;;
    c++2?) types='char bool wchar_t char16_t char32_t char8_t' ;;
    c++*) types='char bool wchar_t char16_t char32_t' ;;
    *) types='char _Bool' ;;
  esac
  no_function='error: .*\(not compatible\|deleted\|incomplete\)'
  for type in $types; do
    expect "a $type is refused by $1" reports "$no_function" value "$1" "-DVALUE=($type)1"
  done
  # `true` is a bool in C23, but not for clang 14.
  case $1 in
    clang*) ;;
    *2x) expect "true is refused by $1" reports "$no_function" value "$1" '-include stdbool.h -DVALUE=true' ;;
  esac
  # C++98 has neither initializers as arguments nor a check of constants.
  case ${1##*=} in c++98) return ;; esac
  for radix in -1 0 1 37 74 266 4294967306LL; do
    expect "radix $radix is refused by $1" reports 'error: .*\(negative\|-1\)' radix "$1" "-DRADIX=$radix"
  done
  case ${1##*=} in
    c++*)
      for null in '{}' nullptr; do
        expect "$null as a format is refused by $1" reports 'error: .*\(ambiguous\|deleted\)' format "$1" \
          "-DFORMAT=$null"
      done ;;
  esac
}

# check_attributes COMPILER: by the attributes of the header, a compiler reports calls that break its conditions. Of an
# unused result of a function that only reads, g++ says that the statement has no effect. Only gcc sees lengths.
check_attributes() {
  expect "no format by $1" reports '[[]-Wnonnull\|is ambiguous' format "$1" -DFORMAT=NULL
  expect "an unused result by $1" reports '[[]-Wunused-result\|statement has no effect' any "$1" -DUNUSED
  case $1 in
    clang*) ;;
    *) expect "a length past the array by $1" reports '[[]-Wstringop-overflow' size "$1" -DSIZE=5 ;;
  esac
}

# check_standard COMPILER: header.c, the macros behind the header, and calls that it refuses.
check_standard() {
  for level in -O0 -O2; do
    [ "${1##*=}" = c89 ] || expect "header.c by $1 $level" runs_with "$1" $level "$crate/tests/header.c"
  done
  expect "the macros behind the header by $1" explains_macros "$1"
  check_refused "$1"
}

# Whether the examples at the top of the header are a program, in their order.
compiles_examples() {
  { printf '#include <lexical.h>\n#include <string.h>\nint main(void)\n{\n'
    sed -n '/^ [*][/]$/q; s/^ [*]     /    /p' "$crate/include/lexical.h"
    printf 'return count != 8 || strcmp(prefixed, "0x0000beef") || strcmp(text, "-42");\n}\n'; } > "$work/top.c"
  runs_with "$CC" -std=c99 "$work/top.c"
}

check_header() {
  expect 'the examples at the top of the header' compiles_examples
  if [ -n "$is_quick" ]; then with_each 'c99 c11 c++17 c++20' check_standard; return; fi
  with_each 'c89 c99 c11 c17 c2x c++98 c++11 c++14 c++17 c++20 c++2b' check_standard
  with_each 'c89 c++17' check_attributes
}
