#!/usr/bin/env bash
# cedar [OPTIONS] < script: answers a script. Where the sources are newer than the program, it is proved and built first. 'cedar --unproved'
# answers within a minute, by a build that isn't proved (tools/unproved).
top=$(dirname "${BASH_SOURCE[0]}")
for word; do
    [ "$word" != --unproved ] || exec "$top/tools/unproved" "$@"
done
exec "$top/tools/program" cedar "$@"
