#!/usr/bin/env bash
# Writes the bytes that a text of hexadecimal digits stands for, two digits a byte. From `#` on a line is a comment.
set -eu
digits=$(sed 's/#.*//' "$@" | tr -d ' \t\n')
if [[ $digits == *[![:xdigit:]]* ]]; then
    others=${digits//[[:xdigit:]]/}
    echo "to-bytes.sh: no hexadecimal digit: ${others:0:1}" >&2
    exit 1
fi
if [ $((${#digits} % 2)) -ne 0 ]; then
    echo "to-bytes.sh: an odd number of digits" >&2
    exit 1
fi
printf '%b' "$(printf '%s' "$digits" | sed 's/../\\x&/g')"
