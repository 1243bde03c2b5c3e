# shellcheck shell=bash
# Puts files in their places below a folder, `there`: all of them or none. To be sourced; whoever does has `tidy` run at
# its end, whatever that is.
#
#     trap tidy EXIT
#     put MODE FILE PLACE     for each file
#     put_link TO PLACE       for each link
#     place
#
# SIGKILL alone can come between two names, and leaves hidden ones: a file of before has one that ends in its own.

targets=() folders=() is_begun="" is_done=""

# A hidden name beside a file: `new` for what will take its place, `old` for what has it.
hidden() {
    echo "${2%/*}/.usm-install-$$-$1-${2##*/}"
}

make_folder() {
    [ -n "$1" ] && [ ! -d "$1" ] || return 0
    make_folder "${1%/*}"
    folders=("$1" "${folders[@]}")
    mkdir "$1"
}

# Has a file ready beside its place.
put() {
    local mode=$1 target=$there/$3
    make_folder "${target%/*}"
    targets+=("$target")
    command install -m "$mode" "$2" "$(hidden new "$target")"
}

put_link() {
    local target=$there/$2
    make_folder "${target%/*}"
    targets+=("$target")
    ln -s "$1" "$(hidden new "$target")"
}

is_there() {
    [ -e "$1" ] || [ -L "$1" ]
}

# Gives all files their names, once all are ready. A file that is there keeps a second name until all are in place.
place() {
    local target
    for target in "${targets[@]}"; do
        is_there "$target" || continue
        # Where there are no links a copy is kept.
        ln "$target" "$(hidden old "$target")" 2>/dev/null || cp -pd "$target" "$(hidden old "$target")"
    done
    is_begun=yes
    for target in "${targets[@]}"; do
        mv -fT "$(hidden new "$target")" "$target"
    done
    is_done=yes
}

# Whatever ends the script before all files are in place, all is as it was.
tidy() {
    local target old
    # What ends here, ends tidy: a second signal would leave hidden names.
    trap '' HUP INT TERM
    set +e
    for target in "${targets[@]}"; do
        old=$(hidden old "$target")
        if [ -n "$is_begun" ] && [ -z "$is_done" ]; then
            if is_there "$old"; then mv -fT "$old" "$target"; elif ! is_there "$(hidden new "$target")"; then rm -f "$target"; fi
        fi
        rm -f "$old" "$(hidden new "$target")"
    done
    if [ -z "$is_done" ] && [ ${#folders[@]} -gt 0 ]; then
        rmdir --ignore-fail-on-non-empty "${folders[@]}"
    fi
}
