# Read by tests/dist --wrong. Each copy of dist/ that is wrong has to be found: with the sums as they were, by these, and with sums that
# were written anew, by what is compared. What was built stands in for by what is in dist/, so that no kit and no compiler is needed.
room=$(mktemp -d)
trap 'rm -rf "$room"' EXIT
right=0 missed=0
cp -a dist "$room/built"
built=$room/built dist=$room/dist
readme=$(cat README.md)

# The hashes of the sources are those of the tree, each asked for once.
declare -A hash_of
for crate in $programs filter_c; do
    inputs_of "$crate"
    hash_of[$crate]=$inputs
done
inputs_of() { inputs=${hash_of[$1]}; }

# Counts a case.
count() {
    if [ "$1" = "$2" ]; then right=$((right + 1)); else echo "dist --wrong: $3: $1, and not $2"; missed=$((missed + 1)); fi
}

# A copy of dist/ that is right.
make_copy() {
    rm -rf "$dist" && mkdir "$dist"
    this_kit=$kit others=''
    write
}

# What the comparison comes to: `passed`, or `failed` if it has these words, or else what it printed.
outcome() {
    local printed
    if printed=$(judge 2>&1); then echo passed; elif [[ $printed == *"$1"* ]]; then echo failed; else echo "$printed"; fi
}

# Tries a change of the copy, a line of the shell, which has to be found in these words once the sums are written anew.
finds() {
    make_copy
    (cd "$dist" && eval "$2") || exit 1
    count "$(outcome 'these are not the sums')" failed "$2, without sums"
    sums >"$dist/SHA256SUMS"
    count "$(outcome "$1")" failed "$2"
}

# The same for what the sums alone show.
finds_by_sums() {
    make_copy
    (cd "$dist" && eval "$1") || exit 1
    count "$(outcome 'these are not the sums')" failed "$1"
}

# The status of `./ccell prove` in a small tree, whose program in out/ is said to be of its sources, beside another one in dist/.
status_of_prove() {
    local tree=$room/tree
    rm -rf "$tree" && mkdir -p "$tree/packaging" "$tree/dist" "$tree/crates/ccell/src" "$tree/crates/ccell/out" "$tree/bin"
    cp ccell "$tree" && cp packaging/inputs.sh "$tree/packaging"
    echo 'ccell:' >"$tree/crates.txt"
    echo 'fn main() {}' >"$tree/crates/ccell/src/main.rt"
    ln -s "$(type -P true)" "$tree/bin/rt"
    cp "$(type -P true)" "$tree/crates/ccell/out/ccell"
    cp "$1" "$tree/dist/ccell"
    (
        unset -f inputs_of
        source packaging/inputs.sh
        cd "$tree" && inputs_of ccell
        echo "$inputs" | tee dist/ccell.inputs >crates/ccell/out/ccell.inputs
        PATH=$tree/bin:$PATH ./ccell prove >/dev/null 2>&1
        echo $?
    )
}

make_copy
count "$(outcome '')" passed 'a right copy'
whole=$(judge | tail -n 1)

other='s/kit-[0-9a-z]* logic/kit-0 logic/'
finds 'dist/ccell: not what is built' 'printf "#!/bin/sh\necho yes\n" >ccell'
finds "'ccell version' has to name" "sed -i '$other' ccell"
finds 'dist/ask: not what is built' 'tr "\000" "\001" <ask >other && cat other >ask && rm other'
finds 'dist/libseccomp.so.2: not what is built' 'printf evil >>libseccomp.so.2'
finds 'dist/aarch64/libseccomp.so.2: not what is built' 'printf x >>aarch64/libseccomp.so.2'
finds 'dist/kit: built by' "sed -i '1$other' kit"
finds 'dist/kit: built by' ': >kit'
finds "dist/kit: edition '1'" "sed -i 's/^edition: .*/edition: 1/' kit"
finds 'dist/ask: built of other sources' 'echo 0 >ask.inputs'
finds 'dist/libseccomp.so.2: built of other sources' 'rm libseccomp.so.2.inputs'
finds 'dist: its files are not' 'printf "#!/bin/sh\necho yes\n" >aarch64/ccell'
finds 'dist: its files are not' 'echo more >more'
finds_by_sums 'rm SHA256SUMS'
finds_by_sums 'sed -i 1d SHA256SUMS'

# Whether a tree with a library of out/ among its commits is told from one without.
tells_committed() {
    local tree=$room/committed
    mkdir -p "$tree/crates/filter_c/out/x86-64" && echo evil >"$tree/crates/filter_c/out/x86-64/libccell.a"
    (
        cd "$tree" && git init -q && commits_nothing_built && git add -f crates && ! commits_nothing_built && echo told
    )
}
count "$(tells_committed)" told 'a library below out/ that is committed'

make_copy
printf x >>"$dist/libseccomp.so.2"
count "$( (write) >/dev/null 2>&1 && echo written || echo refused)" refused 'another library of the same edition'
sed -i 's/^edition: .*/edition: 1/' "$dist/kit"
count "$( (write) >/dev/null 2>&1 && echo written || echo refused)" written 'another library of a higher edition'

make_copy
this_kit='rattle-kit-0 logic 0'
count "$(outcome 'dist: this machine has the kit')" failed 'another kit on this machine'
others=yes
count "$(judge | tail -n 1)" "$((${whole%% *} - 1)) passed, 0 failed" 'another kit, asked for'
printf x >>"$dist/ask" && sums >"$dist/SHA256SUMS"
count "$(judge 2>&1 | tail -n 1)" "$((${whole%% *} - 2)) passed, 0 failed" 'another kit, asked for, and another program'
count "$(names_kit <(echo "$readme") && echo named)" named README.md
count "$(names_kit <(sed "$other" <<<"$readme") || echo other)" other 'README.md with another kit'
count "$(names_kit <(echo "$readme"; sed "$other" <<<"$readme") || echo other)" other 'README.md with two kits'
count "$(status_of_prove "$(type -P true)")" 0 './ccell prove with the program in dist/'
count "$(status_of_prove "$(type -P false)")" 1 './ccell prove with another program in dist/'

echo "$right passed, $missed failed"
[ "$missed" -eq 0 ]
