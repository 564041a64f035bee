#!/bin/sh
# Installs the programs that tests run and that are not here, from Debian, as tests/programs.txt lists them. It names
# those that cannot be installed, and does not fail then: the tests that need them say that they are left out.
# usage: tests/programs.sh
set -u
cd "$(dirname "$0")" || exit 1
lacking() {
    grep -v '^#' programs.txt | while read -r program package; do
        command -v "$program" >/dev/null || [ -e "$program" ] || echo "$package"
    done | sort -u
}
# (Root's PATH lacks this folder here and there.)
PATH=$PATH:/usr/sbin
# Installs these packages. (A download that hangs is stopped.)
install() {
    DEBIAN_FRONTEND=noninteractive timeout 900 apt-get -qq -y -o Acquire::Retries=3 -o DPkg::Lock::Timeout=300 \
        -o Dpkg::Use-Pty=0 install --no-install-recommends "$@" >/dev/null
}
packages=$(lacking)
[ "$packages" ] || exit 0
if [ "$(id -u)" != 0 ] || ! command -v apt-get >/dev/null; then
    echo "cannot install what tests use: $(echo $packages) (it takes root, and apt-get)"
    exit 0
fi
echo "installing what tests use: $(echo $packages)"
# (One is of another processor.)
case $packages in *:arm64*) dpkg --add-architecture arm64 ;; esac
timeout 300 apt-get -qq update
# (One package that cannot be had takes none of the others with it.)
install $packages || for package in $packages; do
    install "$package"
done
packages=$(lacking)
[ -z "$packages" ] || echo "could not be installed: $(echo $packages)"
