# Tests of the packages for Debian and RPM, which tests/run reads.
# shellcheck shell=sh disable=SC2154

# makes_packages KIND: whether the packages of package/ have what a program needs, which is then linked with them. They
# have tested the library before. rustup has no compiler for the home of dh.
makes_packages() {
  unset TMPDIR
  PATH=$(rustc --print sysroot)/bin:$PATH root=$work/package/root
  rm -rf "$work/package"
  mkdir -p "$root" || stop 'an empty root'
  cp -a "$copy" "$work/package/sources" || stop 'a copy of the sources'
  cd "$work/package/sources" || stop 'the folder of the sources'
  "unpacks_$1"
  so=$(find "$root" -name liblexical_c.so)
  prints '' find "$root" -name manifest || stop 'no file of the build is in a package'
  ls "$root"/usr/share/man/man3/lexical_decimal_u32.3* || stop 'the manual'
  $CC -I"$root/usr/include" -o ../first crates/lexical_c/examples/first.c "$so" || stop 'a program with the library'
  prints 1234567 env LD_LIBRARY_PATH="${so%/*}" ../first || stop 'what that prints'
}

# Builds the packages for Debian in the current folder, unpacks them into `root`, and runs their own test.
unpacks_deb() {
  cp -R crates/lexical_c/package/debian . || stop 'the folder debian'
  dpkg-buildpackage -b -us -uc -d || stop 'dpkg-buildpackage'
  lintian --allow-root --fail-on error,warning --suppress-tags initial-upload-closes-no-bugs ../*.changes ||
    stop 'lintian'
  for file in ../liblexical-c1_*.deb ../liblexical-c-dev_*.deb; do dpkg-deb -x "$file" "$root" || stop "$file"; done
  ls "$root"/usr/share/doc/liblexical-c-dev/examples/first.c || stop 'the examples'
  mkdir ../autopkgtest || stop 'a folder for autopkgtest'
  AUTOPKGTEST_TMP=$PWD/../autopkgtest CMAKE_PREFIX_PATH="$root/usr" debian/tests/cmake || stop 'debian/tests/cmake'
}

# Builds the RPMs in the current folder, and unpacks them into `root`.
unpacks_rpm() {
  rpmbuild --build-in-place --nodeps -bb -D "_topdir $work/package/rpm" crates/lexical_c/package/lexical_c.spec ||
    stop 'rpmbuild'
  for file in ../rpm/RPMS/*/*.rpm; do rpm2archive - < "$file" | tar xzf - -C "$root" || stop "$file"; done
}

check_packages() {
  # They are built by rustc for this machine, which takes minutes.
  if [ "$builder" != rustc ] || [ -n "$is_quick" ] || [ -n "$TARGET" ]; then return; fi
  expect_with 'dh dpkg-buildpackage lintian cargo rustfmt cmake' 'the Debian packages' makes_packages deb
  expect_with rpmbuild 'the RPMs' makes_packages rpm
}
