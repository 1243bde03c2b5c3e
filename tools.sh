# shellcheck shell=bash
# What the project's scripts share: words, tools, packages, the proved libraries, and the original.
# To be sourced. `root` is the repository, `me` the script's name.

# The static libraries, and the Debian packages that a script needs.
libraries=("$root/target/staticlib/libplayer.a" "$root/target/staticlib/libusm.a")
packages=()

oldest_rust=1.88

# What is being done stands on standard error.
say() {
    echo "$me: $*" >&2
}

stop() {
    say "$*"
    exit 2
}

check_tools() {
    local tool
    for tool in "$@"; do
        command -v "$tool" >/dev/null || stop "$tool is not on the PATH"
    done
}

check_rust() {
    local found
    check_tools cargo rustc
    found=$(rustc --version | cut -d' ' -f2)
    [ "$(printf '%s\n' "$oldest_rust" "$found" | sort -V | head -n 1)" = "$oldest_rust" ] ||
        stop "rustc is $found, and $oldest_rust or later is needed"
}

check_machine() {
    [ "$(uname -m)" = x86_64 ] || stop "the static libraries link into x86-64 programs only"
}

is_debian() {
    command -v dpkg-query >/dev/null
}

is_installed() {
    [ "$(dpkg-query -W -f='${db:Status-Status}' "$1" 2>/dev/null)" = installed ]
}

# Installs what is missing of the packages, where --packages was given; else says how.
check_packages() {
    local package missing=()
    is_debian || return 0
    for package in "${packages[@]}"; do
        is_installed "$package" || missing+=("$package")
    done
    [ ${#missing[@]} -gt 0 ] || return 0
    [ -n "${wants_packages:-}" ] || stop "missing: ${missing[*]}
to install: apt-get update && apt-get install --no-install-recommends ${missing[*]}
or give --packages to $me, as root"
    say "installing ${missing[*]}"
    apt-get update >&2
    apt-get install --yes --no-install-recommends "${missing[@]}" >&2
}

# How cargo finds the crates: on Debian in its packages, offline. Elsewhere it fetches the same versions.
cargo_sources() {
    local sources
    is_debian || return 0
    sources=$(dpkg-query -L "${packages[0]}" | sed -n 's,/[^/]*/Cargo\.toml$,,p')
    printf '%s\n' --offline --config "source.crates-io.replace-with='packages'" --config "source.packages.directory='$sources'"
}

# All crates of some libraries: they themselves, those that they name in crates.txt, those that these name, and so on.
crates_of() {
    awk -v wanted="$*" '
        /^[a-z0-9_]+( staticlib)?:/ { name = $1; sub(":", "", name); $1 = ""; needs[name] = $0 }
        END {
            while (split(wanted, names, " ") > 0) {
                wanted = ""
                for (i in names)
                    if (names[i] in needs && !(names[i] in seen)) {
                        seen[names[i]] = 1
                        wanted = wanted " " needs[names[i]]
                    }
            }
            for (name in seen)
                print name
        }' "$root/crates.txt" | sort
}

# Whether a library is there, and nothing that it is proved from has changed since its proving began: the archive has
# the time of that moment. What else a crate's folder has, such as its README, does not count. libNAME.a is what the
# crate NAME_c exports.
is_proved() {
    local archive=$root/target/staticlib/lib$1.a crate folder from=("$root/crates.txt")
    [ -e "$archive" ] || return 1
    for crate in $(crates_of "${1}_c"); do
        for folder in "$root/crates/$crate"/{src,specs,proofs}; do
            [ ! -d "$folder" ] || from+=("$folder")
        done
    done
    [ -z "$(find "${from[@]}" -newer "$archive" -print -quit)" ]
}

# Proves both libraries. What is proved already is not proved again: of two runs at once the second waits for the first.
prove_libraries() {
    local made=$root/target/proving
    ! is_proved usm || ! is_proved player || return 0
    check_tools rt flock
    mkdir -p "$made"
    exec 9>"$made/lock"
    flock 9
    prove_missing
    exec 9>&-
}

# Proves what is missing of them, one after the other, and says how far it is.
prove_missing() {
    local name wanted=() line crate="" done=0 all
    for name in usm player; do
        is_proved "$name" || wanted+=("$name")
    done
    [ ${#wanted[@]} -gt 0 ] || return 0
    all=$(crates_of "${wanted[@]/%/_c}" | wc -l)
    mkdir -p "$root/target/staticlib"
    say "proving ${wanted[*]/#/lib} and the crates below, $all in all: some 10 minutes where none is proved, once"
    for name in "${wanted[@]}"; do
        line=""
        touch "$made/$name-begun"
        while IFS= read -r line; do
            echo "$line"
            case $line in
                'crate '*': '*) crate=${line#crate } ;;
                'logic=proved '*)
                    done=$((done + 1))
                    say "proved $done of $all: ${crate%%:*}"
                    ;;
            esac
        done < <(cd "$root/crates/${name}_c" && rt lib 2>&1 9>&- || echo "rt: failed") >"$made/$name.log"
        [ "$line" != "rt: failed" ] || {
            tail -n 20 "$made/$name.log" >&2
            stop "rt lib in crates/${name}_c failed; $made/$name.log has all it said"
        }
        cp "$root/crates/${name}_c/out/lib${name}_c.a" "$root/target/staticlib/lib$name.a"
        # What was edited meanwhile is newer, and is proved again.
        touch --reference="$made/$name-begun" "$root/target/staticlib/lib$name.a"
    done
}

# The version of the header, both libraries and the command.
version() {
    sed -n 's/^version = "\(.*\)"$/\1/p' "$root/host/Cargo.toml"
}

# What of the version a program is bound to that links the shared library: 0.1 of 0.1.0.
bound_version() {
    version | cut -d. -f1,2
}

# Both libraries as a shared one in a file: the functions of usm.h and nothing else, under a symbol of the version.
make_shared_library() {
    local library=$1 bound functions
    bound=$(bound_version)
    functions=$("$root/checks/abi" --functions)
    mkdir -p "$(dirname "$library")"
    printf 'USM_%s {\nglobal:\n%s\nlocal:\n    *;\n};\n' "$bound" "$(sed 's/.*/    &;/' <<<"$functions")" >"$library.map"
    "${CC:-cc}" -shared -o "$library" -Wl,-soname,"libusm.so.$bound" -Wl,--version-script="$library.map" -Wl,-z,defs \
        -Wl,--whole-archive "${libraries[@]}" -Wl,--no-whole-archive
}

# The three files of the original must be those of the commit that was carried over.
check_original() {
    local original=$1 sum file
    while read -r sum file; do
        [ -f "$original/$file" ] || stop "$original/$file is not there"
        [ "$(sha256sum <"$original/$file")" = "$sum  -" ] || stop "$original/$file is another version: its SHA-256 is not $sum"
    done <"$root/checks/compare/original.sha256"
}

# The original as a crate, in a folder: its three files, and after the text of two of them a module that reaches what is
# private there.
make_oracle() {
    local original=$1 oracle=$2 access=$root/checks/compare/oracle/access
    mkdir -p "$oracle"
    cp -R "$root/checks/compare/oracle/." "$oracle"
    mkdir -p "$oracle/src/usm"
    cp "$original/src/reader.rs" "$oracle/src/reader.rs"
    cat "$original/src/usm/extractor.rs" "$access/extractor.rs" >"$oracle/src/usm/extractor.rs"
    cat "$original/src/usm/builder.rs" "$access/builder.rs" >"$oracle/src/usm/builder.rs"
}

# Steps that are tried one after the other: how many, which failed, and what was left out.
tried=0
failed=()
left_out=()

# Runs a step in a shell of its own, so that any failure in it counts, and keeps what it writes in the folder `made`.
# Where `shown` is set, it is shown too. A line SKIPPED of it is something left out.
try() {
    local name=$1 log=$made/test-${1// /-}.log status=0 line
    shift
    tried=$((tried + 1))
    say "$name"
    set +e
    (set -euo pipefail; "$@") 2>&1 | keep "$log"
    status=${PIPESTATUS[0]}
    set -e
    while IFS= read -r line; do
        left_out+=("$line")
    done < <(sed -n 's/^SKIPPED: //p' "$log")
    [ "$status" -ne 0 ] || return 0
    [ -n "${shown:-}" ] || tail -n 60 "$log" >&2
    say "FAILED: $name; $log has all it said"
    failed+=("$name")
}

keep() {
    if [ -n "${shown:-}" ]; then
        tee "$1" >&2
    else
        cat >"$1"
    fi
}

# Says what was left out, and ends with the verdict as the last line.
give_verdict() {
    local line
    for line in "${left_out[@]}"; do
        say "left out: $line"
    done
    if [ ${#failed[@]} -gt 0 ]; then
        echo "$me: ${#failed[@]} of $tried failed: ${failed[*]}"
        exit 1
    fi
    echo "$me: $tried passed, 0 failed, ${#left_out[@]} left out"
}
