#!/usr/bin/env bash
# Writes numbers as the words of a batch or card file, 32 bits, little-endian:
# words.sh NUMBER.. >FILE
for word in "$@"; do
    bytes=$(printf '\\x%02x\\x%02x\\x%02x\\x%02x' $((word & 255)) $((word >> 8 & 255)) $((word >> 16 & 255)) $((word >> 24)))
    # shellcheck disable=SC2059
    printf "$bytes"
done
