#!/bin/sh
# Tries to install what the tests with 32-bit pointers and on emulated controllers need and is not there. Where it cannot, a line says so; the
# status is 0 all the same, and the tests leave out what they cannot run.
set -u
cd "$(dirname "$0")/../.." || exit
. tests/firmware/boards.sh
packages=
for target in i386 cortex-m3; do
    can_test $target || packages="$packages $(packages_of $target)"
done
[ -n "$packages" ] || exit 0
log=target/firmware/install.log
: > $log

# apt SECONDS WORD..
apt() {
    limit=$1
    shift
    DEBIAN_FRONTEND=noninteractive timeout "$limit" apt-get -q -y --no-install-recommends -o DPkg::Lock::Timeout=60 \
        -o Acquire::http::Timeout=15 -o Acquire::Retries=1 "$@" >> $log 2>&1 < /dev/null
}

# First of all, since it can be broken off at any time.
fetch() {
    apt 300 --download-only install $packages
}

if ! { { fetch || { apt 120 update && fetch; }; } && apt 600 install $packages; }; then
    echo "the packages for tests with 32-bit pointers could not be installed: $(tail -n 1 $log)"
fi
exit 0
