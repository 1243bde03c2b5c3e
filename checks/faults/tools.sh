# shellcheck shell=bash
# What the checks of a failing system share: the command, films, and faulty. To be sourced; `root` is the repository, `me`
# the script's name. `tools` is what their Python takes.

. "$root/host/tools.sh"
cd "$root"
shown=yes
wants_packages=""

# Debian's Python, where another stands before it.
python=/usr/bin/python3
[ -x "$python" ] || python=python3

prepare() {
    check_machine
    check_tools "$python" "${CC:-cc}"
    is_built || build
    run_cargo "$root/host" build --quiet --release -p films
    mkdir -p "$root/target/faults"
    "${CC:-cc}" -std=c99 -Wall -Wextra -O2 checks/faults/faulty.c -o target/faults/faulty
    # shellcheck disable=SC2034
    tools=(--usm "$built/usm" --films "$built/films" --faulty "$root/target/faults/faulty")
}
