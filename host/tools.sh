# shellcheck shell=bash
# What the scripts around the host share. To be sourced; `root` is the repository, `me` the script's name.

. "$root/tools.sh"

made=$root/target/host
built=$made/release
packages=(librust-clap-dev librust-clap-complete-dev librust-csv-core-dev librust-csv-dev librust-encoding-rs-dev
    librust-indicatif-dev librust-nix-dev librust-rusqlite-dev librust-rustix-dev librust-serde-dev
    librust-serde-json-dev librust-sha2-dev librust-signal-hook-dev librust-walkdir-dev)

# Runs cargo in a folder. RUSTFLAGS is set empty: no machine's own settings count.
run_cargo() {
    local folder=$1 command=$2 offline
    shift 2
    mapfile -t offline < <(cargo_sources)
    (cd "$folder" && RUSTFLAGS='' USM_LIBRARIES=$root/target/staticlib CARGO_TARGET_DIR=$made cargo "$command" "${offline[@]}" "$@")
}

# Builds libraries and command. What is edited meanwhile is newer, and is built again.
build() {
    check_rust
    check_packages
    mkdir -p "$made"
    prove_libraries
    say "building the command: some 2 minutes, once"
    touch "$made/build-begun"
    run_cargo "$root/host" build --quiet --release -p usm-command
    touch --reference="$made/build-begun" "$made/is-built"
}

# Whether nothing that the command is made of has changed since it was built.
is_built() {
    [ -x "$built/usm" ] && [ -e "$made/is-built" ] && is_proved usm && is_proved player &&
        [ -z "$(find "${libraries[@]}" "$root/host" -type f -newer "$made/is-built" -print -quit)" ]
}

# A copy of host/beside under target/, with the original put into its oracle crate and the comparison's files.
make_beside() {
    local original=$1 copy=$made/beside
    check_original "$original"
    rm -rf "$copy"
    mkdir -p "$copy"
    cp -R "$root/host/beside/." "$copy"
    cp -R "$root/checks/compare/src" "$copy/comparison"
    make_oracle "$original" "$copy/oracle"
}
