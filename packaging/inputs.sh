# Read by `source`, at the top of the repository: which sources a program or a library is built of, and where a program stands that was
# built of them.

# Prints the lines of crates.txt for a crate and for the crates that it stands on, in order.
crates_of() {
    awk -F: -v program="$1" '
        !/^#/ { sub(/ .*/, "", $1); below[$1] = $2 }
        function visit(name,    parts, i, n) {
            if (!(name in below) || name in needed) return
            needed[name]
            n = split(below[name], parts, " ")
            for (i = 1; i <= n; i++) visit(parts[i])
        }
        END { visit(program); for (name in needed) print name ":" below[name] }' crates.txt | LC_ALL=C sort
}

# Lists the sources below folders, in the form that `find` is asked for.
sources_in() {
    local folders=$1
    shift
    # shellcheck disable=SC2086
    find $folders -name out -prune -o -type f \( -name '*.rt' -o -name '*.antt' -o -name crates.txt -o -path 'seccomp/*' -o -path 'include/*' \) "$@"
}

# What changes when a source is written, added, renamed or removed: names, sizes and times of change.
stamp_of() {
    sources_in "crates.txt $1" -printf '%p %s %C@ %i\n'
}

# Sets `inputs` to a hash of all that a program's crate is built of: the lines of crates.txt for it and the crates that it stands on, and
# the name and the contents of each of their sources; of filter_c, what the libraries are built of. The hash is kept beside what
# was built, with the sources' stamp, and is computed again when the stamp differs.
inputs_of() {
    local kept=crates/$1/out/inputs lines folders stamp
    if [ -r "$kept" ] && { read -r inputs && read -r folders; } <"$kept" && cmp -s "$kept.stamp" <(stamp_of "$folders" 2>/dev/null); then
        return
    fi
    lines=$(crates_of "$1")
    folders=$(sed 's|:.*||; s|^|crates/|' <<<"$lines" | tr '\n' ' ')
    [ "$1" != filter_c ] || folders="$folders seccomp include"
    stamp=$(stamp_of "$folders")
    inputs=$({ echo "$lines"; sources_in "$folders" -print0 | LC_ALL=C sort -z | xargs -0 sha256sum; } | sha256sum)
    inputs=${inputs%% *}
    # A source that changed just now may change once more within one tick of the clock: then the hash is not kept.
    if [ -z "$(sources_in "crates.txt $folders" -newerct '2 seconds ago' -print -quit)" ]; then
        mkdir -p "${kept%/*}" && printf '%s\n%s\n' "$inputs" "$folders" >"$kept" && echo "$stamp" >"$kept.stamp"
    fi 2>/dev/null || true
}

# Whether a program or a library was built of the sources at hand, of which `inputs` is the hash.
is_of_inputs() {
    local hash=
    [ -x "$1" ] && { read -r hash <"$1.inputs"; } 2>/dev/null && [ "$hash" = "$inputs" ]
}

# Whether nothing that was built in a folder out/ is committed.
commits_nothing_built() { [ -z "$(git ls-files 'crates/*/out/*' 2>/dev/null)" ]; }

# Sets `program` to the one in dist/, or else to the one that was built here, if it is of the sources at hand; else to nothing.
find_program() {
    inputs_of "$1"
    for program in "$PWD/dist/$1" "$PWD/crates/$1/out/$1"; do
        if is_of_inputs "$program"; then return; fi
    done
    program=
}
