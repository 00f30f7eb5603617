# Tests of programs that use the installed library, in each language and by each way to find it, which tests/run reads.
# shellcheck shell=sh disable=SC2046,SC2086,SC2154

# builds_examples FLAGS..: whether these flags build the examples in C and C++, and each prints the right lines.
builds_examples() {
  while IFS='|' read -r name standard lines <&4; do
    case $name in *.c) compiler=$CC ;; *) compiler=$CXX ;; esac
    $compiler -std=$standard $strict -o "$work/example" "$crate/examples/$name" "$@" || stop "$name compiles"
    prints "$(printf '%b' "$lines")" "$work/example" || stop "$name prints the right lines"
  done 4<<'END'
first.c|c11|1234567
formats.c|c11|BEEF\n1,234,567\n0x0000beef
line.c|c11|id=0xBEEF size=1,234,567 change=-42\nThe line has more than 20 bytes.\nThe format is invalid.
example17.cpp|c++17|1,234,567\n-4D2
example20.cpp|c++20|1,234,567
END
}

# hides COMPILER FLAGS..: whether a library that has the archive in it exports neither that nor the standard format.
hides() {
  "$@" -fPIC -shared -o "$work/library.so" || stop "a library by $*"
  names '-D --defined-only' "$work/library.so" > "$work/names" || stop 'its names'
  grep -x main "$work/names" || stop 'its main is exported'
  fails grep '^lexical_\|standard_format' "$work/names" || stop 'nothing of the archive is exported'
}

# Whether the flags of pkg-config link the examples, shared and static, also below another prefix.
links_with_pkg_config() {
  export PKG_CONFIG_PATH="$folder/pkgconfig"
  cflags=$(pkg-config --cflags lexical_c) static=$(pkg-config --variable=static lexical_c)
  summary=$(sed -n '/^Summary: /{s///p;q;}' "$crate/package/lexical_c.spec")
  grep -x "Description: $summary" "$folder/pkgconfig/lexical_c.pc" || stop 'the description'
  prints "$version" pkg-config --modversion lexical_c || stop 'the version'
  prints '-I/other/include -L/other/lib/here -llexical_c ' \
    pkg-config --define-variable=prefix=/other --cflags --libs lexical_c || stop 'the flags below another prefix'
  builds_examples $(pkg-config --cflags --libs lexical_c) -Wl,-rpath,"$folder"
  builds_examples $cflags $static
  hides $CC "$crate/examples/first.c" $cflags $static
  hides $CXX -std=c++17 "$crate/examples/example17.cpp" $cflags $static
}

# Whether CMake finds the package as tests/cmake/CMakeLists.txt says, and builds a program with each of its libraries,
# and a library that exports nothing of the archive in it.
builds_with_cmake() {
  built=$work/built_by_cmake installed=$folder/cmake/lexical_c later=$work/later
  fails grep -r -F "$prefix" "$installed" || stop 'no file names the prefix'
  mkdir "$later" || stop 'a folder for a later version'
  : > "$later/laterConfig.cmake"
  sed "s/(PACKAGE_VERSION $version)/(PACKAGE_VERSION 1.9)/" "$installed/lexical_cConfigVersion.cmake" \
    > "$later/laterConfigVersion.cmake" || stop 'a later version'
  lexical_c_DIR="$installed" later_DIR="$later" CC="$CC" cmake -S "$crate/tests/cmake" -B "$built" || stop 'cmake'
  cmake --build "$built" || stop 'the build'
  # A folder of libraries may be a link, as lib64 is to lib.
  linked=$work/linked
  mkdir -p "$linked/lib/here" && ln -s here "$linked/lib/there" || stop 'a link'
  make_c prefix="$linked" libdir="$linked/lib/there" install || stop 'make install into a link'
  for name in here there; do
    lexical_c_DIR="$linked/lib/$name/cmake/lexical_c" later_DIR="$later" CC="$CC" cmake -S "$crate/tests/cmake" \
      -B "$built $name" && cmake --build "$built $name" || stop "the build by the folder $name"
  done
  for program in shared static lexical_c; do prints 1234567 "$built/$program" || stop "the program $program"; done
  prints main names '-D --defined-only' "$built/libfirst.so" || stop 'the names of libfirst.so'
  readelf -d "$built/lexical_c" | grep "NEEDED.*\[liblexical_c.so.$major\]" || stop 'the soname in lexical_c'
}

runs_go() {
  export CGO_ENABLED=1 GO111MODULE=off GOFLAGS='' GOCACHE="$work/go" PKG_CONFIG_PATH="$folder/pkgconfig"
  prints "$(printf '%s\n' -4D2 -1234 'invalid format')" \
    env LD_LIBRARY_PATH="$folder" go run "$crate/examples/example.go"
}

check_use() {
  expect 'plain flags' builds_examples -I"$prefix/include" "$folder/liblexical_c.a"
  expect 'bench.cpp' $CXX -std=c++17 $strict -fsyntax-only -I"$crate/include" "$crate/bench.cpp"
  expect_with pkg-config 'pkg-config' links_with_pkg_config
  expect_with cmake 'CMake' builds_with_cmake
  if [ -n "$TARGET" ]; then return; fi
  expect_with python3 'the Python example' prints "$(printf '%s\n' -ZZ 'value 18446744073709551616')" \
    env LD_LIBRARY_PATH="$folder" python3 "$crate/examples/example.py"
  expect_with 'go pkg-config' 'the Go example' runs_go
}
