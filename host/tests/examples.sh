#!/bin/sh
# Runs the program on every example plan and compares its output with the report beside the plan.
#
#     examples.sh PROGRAM DIRECTORY..
set -eu
program=$1
shift
run=0
differ=0
for directory; do
    for plan in "$directory"/*.plan; do
        run=$((run + 1))
        if ! "$program" <"$plan" | cmp -- - "${plan%.plan}.report"; then
            echo "examples: $plan: the output is not its report"
            differ=$((differ + 1))
        fi
    done
done
echo "examples: $((run - differ)) of $run reports as expected"
test "$run" -gt 0 && test "$differ" -eq 0
