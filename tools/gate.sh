#!/usr/bin/env bash
# The gate: rt ci over every crate, at the top of the checkout. It fails where rt ci fails, and where an edit is bad, which
# rt ci lets pass. Its last line is rt ci's: 'N passed, M failed'.
set -u
said=$(mktemp)
trap 'rm -f "$said"' EXIT
rt ci 2>&1 | tee "$said"
status=${PIPESTATUS[0]}
if [ "$status" -eq 0 ] && grep -qE '^rt: ok.*, [1-9][0-9]* bad' "$said"; then
    echo 'an edit is bad: mend it' >&2
    exit 1
fi
exit "$status"
