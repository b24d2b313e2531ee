#!/usr/bin/env bash
# alone.bash TOP PARTS PROGRAMS KEYRETAIND: what tests/agent tries of one agent, by whoever runs this and in a folder of
# its own. TOP and PARTS have the scripts, PROGRAMS what was built.
# shellcheck disable=SC2034,SC2154,SC2317 # names come from the parts
set -u
# shellcheck source=/dev/null
source "$1/bench.bash"
begin alone
parts=$2 keyretaind=$4
# shellcheck source=/dev/null
source "$parts/containers.bash"
# shellcheck source=/dev/null
source "$parts/ends.bash"
cp -r "$3/." "$dir/"
try_containers plain
try_ends plain
conclude
