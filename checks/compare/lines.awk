# Of one file of the original: how many lines have code, how many of them are reached, and which are not; then the
# functions for which no code is built, since nothing calls them and they are generic.
#   awk -v file=oracle/src/reader.rs -f lines.awk WITH-CODE COSTS SOURCE
# WITH-CODE is objdump's decoded line table, COSTS what callgrind writes.

function ends_with(path, end) {
    return substr(path, length(path) - length(end) + 1) == end
}

FNR == 1 {
    input++
    last_part = file
    sub(/.*\//, "", last_part)
}

# The line table: a header with a path, of a file of the crate at hand its last part alone, then rows with a line each.
input == 1 && /:(\[\+\+\])?$/ {
    sub(/:(\[\+\+\])?$/, "")
    here = ends_with($0, file) || $0 == last_part
    next
}
input == 1 {
    if (here && $2 ~ /^[1-9][0-9]*$/)
        has_code[$2] = 1
    next
}

# The costs: paths have numbers, which stand for them later; lines are counted from the one before.
input == 2 && /^c?f[ile]=/ {
    match($0, /\([0-9]+\)/)
    number = substr($0, RSTART, RLENGTH)
    if (length($0) > RSTART + RLENGTH)
        path[number] = substr($0, RSTART + RLENGTH + 1)
    if ($0 !~ /^c/)
        here = ends_with(path[number], file)
    next
}
input == 2 && /^[0-9+*-]/ {
    if ($1 ~ /^[+-]/)
        line += $1
    else if ($1 != "*")
        line = $1
    if (here)
        is_reached[line] = 1
}

# The source: a function has code where a line does before the next one begins.
input == 3 && /^ *(pub )?fn / {
    name = $0
    sub(/^.*fn /, "", name)
    sub(/[^a-z0-9_].*/, "", name)
    functions[++function_count] = name
}
input == 3 && FNR in has_code {
    is_built[function_count] = 1
}
input == 3 {
    length_of_source = FNR
}

END {
    for (line in has_code) {
        # What stands after the source was appended to it.
        if (line + 0 > length_of_source)
            continue
        count++
        last = line + 0 > last ? line + 0 : last
        reached += line in is_reached
    }
    printf "%s: %d lines with code, %d reached; not reached:", file, count, reached
    for (line = 1; line <= last + 1; line++) {
        missing = line in has_code && !(line in is_reached)
        if (missing && !first)
            first = line
        # A range goes on over lines without code.
        if (first && line in has_code && !missing || line > last) {
            if (first)
                printf " %s", first == until ? first : first "-" until
            first = 0
        }
        if (missing)
            until = line
    }
    printf "\n%s: no code is built for:", file
    for (f = 1; f <= function_count; f++)
        if (!(f in is_built))
            printf " %s", functions[f]
    print ""
}
