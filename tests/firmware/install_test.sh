#!/bin/sh
# Tests install.sh with stand-ins: a compiler for controllers that fails, and an apt-get that does or does not what it is asked for. It must end
# with status 0 all the same, and say in one line where packages could not be had.
set -eu
cd "$(dirname "$0")/../.."
folder=$(mktemp -d)
trap 'rm -rf "$folder"' EXIT
printf '#!/bin/sh\nexit 1\n' > "$folder/arm-none-eabi-gcc"

# try NAME STATUS WORDS LINES: apt-get ends with this status where its words have these, else with 0; so many lines must be said.
try() {
    printf '#!/bin/sh\necho "$@" >> %s\ncase "$*" in *"%s"*) echo E: refused; exit %s ;; esac\n' "$folder/asked" "$3" "$2" > "$folder/apt-get"
    chmod +x "$folder"/*
    status=0
    PATH=$folder:$PATH sh tests/firmware/install.sh > "$folder/said" || status=$?
    if [ $status -ne 0 ] || [ "$(wc -l < "$folder/said")" -ne "$4" ]; then
        echo "install: $1: status $status, $(cat "$folder/said")" >&2
        exit 1
    fi
}

try "all can be had" 0 install 0
grep -q -- '--no-install-recommends .* install .*qemu-system-arm' "$folder/asked"
try "nothing can be had" 100 "" 1
try "the lists are old, and there are no others" 100 update 0
try "nothing can be fetched" 100 download-only 1
try "nothing can be unpacked" 100 "Retries=1 install" 1
echo "install: status 0 whatever apt-get does, with a line where it fails"
