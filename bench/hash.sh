#!/usr/bin/env bash
# Times `metasync hash` of listings of small files and of one large file, beside `openssl dgst -sha256` of the files' bytes. The answer
# is that of bench/hash_reference.py, which is compared first. Prints medians of five runs in milliseconds, their ratio, and the
# growth from 2,000 to 20,000 files.
# usage: bench/hash.sh PROGRAM
set -euo pipefail
# shellcheck source=bench/timing.bash
source "$(dirname "$(realpath "$0")")/timing.bash"

# the bytes of all files of the listing, one after the other
bytes_of() {
  python3 -c 'import sys
for row in open(sys.argv[1]):
    word = row.split()[1]
    sys.stdout.buffer.write(b"" if word == "-" else bytes.fromhex(word))' "$1"
}

printf '%-14s %9s %10s %11s %7s\n' listing bytes "hash ms" "openssl ms" ratio
few=0
for kind in "small 2000" "small 20000" "empty 100000" "large 6291456" "large 8388000"; do
  # shellcheck disable=SC2086
  python3 "$here/make_listing.py" $kind >listing
  bytes_of listing >bytes
  python3 "$here/hash_reference.py" listing >told
  want 0 told "$program" hash listing
  hash=$(median 0 "$program" hash listing)
  openssl=$(median 0 openssl dgst -sha256 bytes)
  printf '%-14s %9s %10s %11s %7s\n' "$kind" "$(stat -c %s bytes)" "$hash" "$openssl" "$(ratio "$hash" "$openssl")"
  case $kind in
  "small 2000") few=$hash ;;
  "small 20000") printf 'from 2,000 to 20,000 files: %s times\n' "$(ratio "$hash" "$few")" ;;
  esac
done
