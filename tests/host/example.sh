#!/usr/bin/env bash
# Prints the example in the header's comment, from its first #include to the brace that closes main.
set -eu
cd "$(dirname "$0")/../.."
sed -n '/^ \*     #include/,/^ \*     }/ s/^ \* \{0,5\}//p' include/gps_chips.h
