# Tests of make install and make uninstall, which tests/run reads. `installs` installs the library for the other parts:
# `version` of it below `prefix`, with the libraries in `folder`.
# shellcheck shell=sh disable=SC2086,SC2154

version=$(sed -n 's/^#define LEXICAL_VERSION_STRING "\(.*\)"$/\1/p' "$crate/include/lexical.h")
major=${version%%.*} prefix=$work/prefix folder=$work/prefix/lib/here

# Whether a staged installation has every file, and its mode whatever the umask is. It is then moved to its place.
installs() {
  (umask 077 && make_c DESTDIR="$work/a stage" prefix="$prefix" libdir="$folder" install) || stop 'make install'
  mkdir "$prefix" || stop 'a new prefix'
  mv "$work/a stage$prefix"/* "$prefix" || stop 'the move from the stage'
  fails grep -r 'a stage' "$prefix" || stop 'no file names the stage'
  cmp "$crate/include/lexical.h" "$prefix/include/lexical.h" || stop 'the header'
  cmp "$library" "$folder/liblexical_c.a" || stop 'the archive'
  prints "liblexical_c.so.$major" readlink "$folder/liblexical_c.so" || stop 'the link for linkers'
  prints "liblexical_c.so.$version" readlink "$folder/liblexical_c.so.$major" || stop 'the link of the soname'
  prints "$folder/liblexical_c.so.$version" find "$prefix" -type f -perm 755 || stop 'what is executable'
  prints '' find "$prefix" ! -type l ! -perm 755 ! '(' -type f -perm 644 ')' || stop 'the other modes'
}

# refuses WORDS WORD..: whether make says these words and fails, and installs nothing.
refuses() {
  words=$1; shift
  fails make_c DESTDIR="$work/none" install "$@" 2> "$work/said" || stop 'make fails'
  grep "$words" "$work/said" || stop "it says $words, and not $(cat "$work/said")"
  [ ! -e "$work/none" ] || stop 'it installs nothing'
}

# Whether a program with the library open keeps it while another is installed.
replaces_library() {
  so=$folder/liblexical_c.so.$version
  inode=$(ls -i "$so") || stop 'the installed library'
  exec 5< "$so" || stop 'the library is read'
  make_c prefix="$prefix" libdir="$folder" install || stop 'make install'
  [ "$(ls -i "$so")" != "$inode" ] || stop 'the library is another file'
  cmp "$work/build/liblexical_c.so.$version" - <&5 || stop 'the program keeps its bytes'
  prints '' find "$prefix" -name '.*' || stop 'no temporary file is left'
}

# Whether uninstall leaves what others have put into each folder, and nothing else.
uninstalls() {
  removed=$work/removed
  set -- prefix="$removed" libdir="$removed/lib/here"
  make_c "$@" install || stop 'make install'
  find "$removed" -type d -exec touch {}/lexical_other.3 \; || stop 'other files'
  others=$(find "$removed" -name lexical_other.3) || stop 'the paths of the other files'
  make_c "$@" uninstall || stop 'make uninstall'
  prints "$others" find "$removed" ! -type d || stop 'what is left'
}

# Whether the header and the manual can be outside prefix, where pkg-config finds the header, and are then uninstalled.
honours_folders() {
  other=$work/other
  set -- prefix="$work/split" includedir="$other/include" mandir="$other/man"
  make_c "$@" install || stop 'make install'
  prints '' find "$work/split" -name '*.h' -o -name '*.3' || stop 'neither is in prefix'
  ls "$other/man/man3/lexical_pad.3" || stop 'the manual'
  cflags=$(PKG_CONFIG_PATH="$work/split/lib/pkgconfig" pkg-config --cflags lexical_c) || stop 'the flags of pkg-config'
  $CC -fsyntax-only $cflags "$crate/examples/first.c" || stop 'an example with these flags'
  make_c "$@" uninstall || stop 'make uninstall'
  prints '' find "$work/split" "$other" ! -type d || stop 'what is left'
}

check_installation() {
  expect 'install before make' refuses 'run make first' BUILD="$work/nothing"
  expect 'a prefix with a space' refuses 'without spaces' prefix='/a b'
  expect 'a prefix that is not absolute' refuses 'without spaces' prefix=a/b
  expect 'an empty includedir' refuses 'not be empty' includedir=
  expect 'a libdir that is not below prefix' refuses 'below prefix' prefix=/usr libdir=/lib
  expect 'the library is replaced, not overwritten' replaces_library
  expect 'make uninstall' uninstalls
  expect_with pkg-config 'includedir and mandir' honours_folders
}
