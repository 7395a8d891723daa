# How the checks that are bash run their parts. Each of them reads this file first: `. checks/steps.sh`.

# (a command in `$(..)` that fails ends it there too)
shopt -s inherit_errexit
top=$(cd "$(dirname "${BASH_SOURCE[0]}")/.." && pwd)

# The folder of what a check writes, which goes when it ends. Its status is 1 where a part has failed, else 77 where a tool is missing.
room=$(mktemp -d)
failed=0 lacking=0
trap 'status=$? && rm -rf "$room" && exit "$((status ? status : failed ? 1 : lacking ? 77 : 0))"' EXIT

# Whether a tool is there. A check may have a `has_TOOL` of its own.
has() { if declare -F "has_$1" >/dev/null; then "has_$1"; else command -v "$1" >/dev/null; fi; }

# Runs a part in a shell of its own, up to the first command that fails, also in a pipe. Says how it ended, with the end of what it printed where it failed;
# or that it was skipped, since a tool is missing. It is called plainly: bash goes on after a command that fails wherever the caller stands in a condition
# (`if`, `!`, `&&`, `||`). A part that is called so has failed.
run_step() { # its name, the tools that it needs, and the command
    local tool status
    for tool in $2; do
        has "$tool" || { lacking=$((lacking + 1)) && echo "check $1: skipped, no $tool"; return; }
    done
    (set -e; false; :)
    if [ $? -eq 0 ]; then failed=$((failed + 1)) && echo "check $1: failed, bash would go on after a command that fails"; return; fi
    (set -eo pipefail; "${@:3}") >"$room/log" 2>&1 </dev/null
    status=$?
    if [ "$status" -eq 0 ]; then echo "check $1: passed, $SECONDS s"; return; fi
    failed=$((failed + 1))
    tail -n 100 "$room/log"
    echo "check $1: failed, status $status"
}

# Says of a part how the command before it ended.
report() { # its name
    if [ $? -eq 0 ]; then echo "check $of, $1: passed"; else failed=$((failed + 1)) && echo "check $of, $1: failed"; fi
}

# Takes the kit off the path.
leave_kit() { PATH=$(tr : '\n' <<<"$PATH" | while read -r folder; do [ -x "$folder/rt" ] || echo "$folder"; done | paste -sd :); }
