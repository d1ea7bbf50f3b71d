# Read by `source`: runs the program on words, and says more on standard error where its own lines help little. Behind a bare `ccell: usage`
# it always does. Behind a refusal it does where standard error is a terminal. The status, standard output and the program's own lines stay as
# they are. docs/PROGRAM.md shows what is said.

# Runs the program on words. It takes the place of this script, unless something is to be said behind it.
answer() {
    local program=$1 page status looks="" fault=""
    shift
    page=$("$program" manual "${1-}" 2>/dev/null) || page=
    [ -t 2 ] && looks=files
    case ${1-} in
    verdict | check | export | run) words_fit "$page" "$@" || looks=words ;;
    *) [ -n "$page" ] && are_text "$@" || looks=words ;;
    esac
    [[ -z $page || ${2-} != -h && ${2-} != --help ]] || looks=help
    [ -n "$looks" ] || exec "$program" "$@"
    "$program" "$@"
    status=$?
    case $status.$looks in
    2.help) echo "$page" >&2 ;;
    2.words) tell_of_words "$program" "$page" "$@" >&2 ;;
    2.files) tell_of_word "$program" "$page" "$@" >&2 ;;
    1.files | 4.files)
        tell_of_files "$page" "$@" >&2
        tell_of_number "$@" >&2
        ;;
    esac
    exit "$status"
}

# The usage of a command, as its page has it.
usage_of() { sed -n 's/^Usage: //p' <<<"$1"; }

tell_usage() { echo "usage: $(usage_of "$1") (ccell manual $2)"; }

# The words that may stand for a part of a command, one in each line; nothing if all may.
values_of() {
    part="<$2>" awk '
        BEGIN { part = ENVIRON["part"] }
        /^  [<[]/ { is_it = $1 == part || $1 == part "..." }
        is_it { text = text " " $0 }
        END {
            if (!match(text, /possible values: [^]]*/)) exit
            count = split(substr(text, RSTART + 17, RLENGTH - 17), values, /, */)
            for (i = 1; i <= count; i++) { gsub(/ /, "", values[i]); print values[i] }
        }
    ' <<<"$1"
}

# Whether words are a command by its page. Sets `fault` to what is wrong with the first word that is not.
words_fit() {
    local page=$1 name=$2 parts part values word
    shift 2
    read -ra parts < <(usage_of "$page" | sed "s/^ccell $name *//")
    for part in "${parts[@]}"; do
        part=${part//[<>]/}
        word=${1-}
        if [ $# = 0 ]; then
            fault="${part%...} is missing"
            return 1
        fi
        no_word "$word" && return 1
        values=$(values_of "$page" "${part%...}")
        if [ -n "$values" ] && ! grep -qxF -e "$word" <<<"$values"; then
            fault="$(shown "$word") is no ${part%...}: $(listed "$values")$(nearest_of "$word" "$values")"
            return 1
        fi
        shift
    done
    for word in "$@"; do
        no_word "$word" && return 1
        [[ $part == *... ]] || fault="$(shown "$word") is one argument too many"
        [ -z "$fault" ] || return 1
    done
}

# Whether a word fits no command. Sets `fault` to the reason.
no_word() {
    local LC_ALL=C
    if [[ $1 == -* ]]; then
        fault="$(shown "$1") begins with '-'; of a file write ./$(shown "$1")"
    else
        are_text "$1"
    fi
    [ -n "$fault" ]
}

# Whether words are UTF-8. Sets `fault` to the first that is not.
are_text() {
    local LC_ALL=C word
    for word in "$@"; do
        if [[ $word == *[!\ -~]* ]] && ! iconv -f utf-8 -t utf-8 <<<"$word" >/dev/null 2>&1; then
            fault="$(shown "$word") is no UTF-8"
            return 1
        fi
    done
}

# A word as it may be shown on a terminal.
shown() { LC_ALL=C tr -c ' -~' '?' <<<"$1" | head -c 80 | sed 's/?$//'; }

# Lines as one list: `a, b or c`.
listed() { paste -sd ',' <<<"$1" | sed 's/,/, /g; s/\(.*\), /\1 or /'; }

# The nearest of some words, behind a semicolon; nothing if none is near.
nearest_of() {
    local found
    found=$(nearest "$1" "$2")
    [ -z "$found" ] || echo "; the nearest is $found"
}

# The word of a list, one in each line, that is nearest to another: the fewest letters are left out, added, changed or swapped. A word that
# begins with the other is near, too.
nearest() {
    word=$1 awk '
        function least(a, b) { return a < b ? a : b }
        function distance(a, b,    i, j, row, cost) {
            for (i = 0; i <= length(a); i++) row[i, 0] = i
            for (j = 0; j <= length(b); j++) row[0, j] = j
            for (i = 1; i <= length(a); i++) for (j = 1; j <= length(b); j++) {
                cost = substr(a, i, 1) != substr(b, j, 1)
                row[i, j] = least(least(row[i - 1, j], row[i, j - 1]) + 1, row[i - 1, j - 1] + cost)
                if (i > 1 && j > 1 && substr(a, i, 1) == substr(b, j - 1, 1) && substr(a, i - 1, 1) == substr(b, j, 1))
                    row[i, j] = least(row[i, j], row[i - 2, j - 2] + 0.9)
            }
            return row[length(a), length(b)]
        }
        BEGIN { word = tolower(substr(ENVIRON["word"], 1, 40)); gsub(/_/, "-", word); best = least(2, int(length(word) / 2)) + 1 }
        { is = word != "" && index($0, word) == 1 ? 0.5 : distance(word, $0) }
        is < best { best = is; found = $0 }
        END { print found }
    ' <<<"$2"
}

# What is said behind a bare `ccell: usage`.
tell_of_words() {
    local program=$1 page=$2 commands
    shift 2
    commands=$("$program" manual | awk '{ print $1 }')
    case ${1-} in
    '' | -h | --help | -help | help | -\? | --usage)
        if [ $# = 2 ] && grep -qxF -e "$2" <<<"$commands"; then
            "$program" manual "$2"
        else
            echo 'ccell COMMAND ARGUMENT.., with one of these commands:'
            "$program" manual | sed 's/^/  /'
            echo 'ccell manual COMMAND says how one is used.'
        fi
        ;;
    -v | -V | --version | -version) "$program" version ;;
    *)
        if [ -n "$page" ]; then
            echo "ccell: $fault"
            tell_usage "$page" "$1"
            return
        fi
        commands=$(nearest "$1" "$commands")
        echo "ccell: $(shown "$1") is no command${commands:+; the nearest is $commands}"
        [ -z "$commands" ] || tell_usage "$("$program" manual "$commands")" "$commands"
        echo 'ccell manual tells the commands.'
        ;;
    esac
}

# What is said on a terminal of words that ask for nothing, where the program's own line names none of them, or not the nearest.
tell_of_word() {
    local program=$1 name=$3 machine=${4-} before="" values word
    values=$(values_of "$2" MACHINE)
    if [ -n "$values" ] && ! grep -qxF -e "$machine" <<<"$values"; then
        word=$(nearest "$machine" "$values")
        [ -z "$word" ] || echo "ccell: the nearest MACHINE is $word"
        return
    fi
    [ $# -ge 4 ] || return 0
    shift 4
    [ "$name.${1-}.$#" != learn.from.2 ] || echo "ccell: LOG is missing behind $(shown "$2")"
    for word in "$@"; do
        tell_of_value "$program" "$machine" "$name" "$before" "$word"
        before=$word
    done
}

# The same of one word behind another. The program itself tells of values that do not look like one.
tell_of_value() {
    local word near
    word=$(shown "$5")
    case $3.$4.$5 in
    adapt.kernel.*.*) [[ $5 =~ ^[0-9]+\.[0-9]+$ ]] || echo "ccell: $word is nothing behind kernel: two numbers as 6.12" ;;
    adapt.cap.CAP_*)
        capabilities | grep -qxF -e "$5" && return
        near=$(nearest "$5" "$(capabilities | tr 'A-Z_' 'a-z-')" | tr 'a-z-' 'A-Z_')
        echo "ccell: $word is no capability${near:+; the nearest is $near}"
        ;;
    learn.keep.*:*)
        near=$("$1" explain "$2" <(echo '{"defaultAction":"SCMP_ACT_ALLOW","syscalls":[]}') "${5%%:*}" 2>/dev/null | grep ' is no call of ')
        [ -z "$near" ] || echo "ccell: $near"
        ;;
    *.-) echo 'ccell: standard input is /dev/stdin' ;;
    *.-[0-9]*) [[ ! $5 =~ ^-[0-9]{1,18}$ ]] || printf 'ccell: as an argument of a call %s is 0x%x\n' "$word" "$5" ;;
    esac
}

# What is said on a terminal of a number where `explain` wants a call.
tell_of_number() {
    if [ "${1-}" = explain ] && [[ ${2-} == linux-* && ${4-} =~ ^[0-9]+$ ]]; then echo "ccell: the call of this number is $2:$4"; fi
}

# capabilities(7), one in each line.
capabilities() {
    printf 'CAP_%s\n' CHOWN DAC_OVERRIDE DAC_READ_SEARCH FOWNER FSETID KILL SETGID SETUID SETPCAP LINUX_IMMUTABLE NET_BIND_SERVICE NET_BROADCAST \
        NET_ADMIN NET_RAW IPC_LOCK IPC_OWNER SYS_MODULE SYS_RAWIO SYS_CHROOT SYS_PTRACE SYS_PACCT SYS_ADMIN SYS_BOOT SYS_NICE SYS_RESOURCE \
        SYS_TIME SYS_TTY_CONFIG MKNOD LEASE AUDIT_WRITE AUDIT_CONTROL SETFCAP MAC_OVERRIDE MAC_ADMIN SYSLOG WAKE_ALARM BLOCK_SUSPEND AUDIT_READ \
        PERFMON BPF CHECKPOINT_RESTORE
}

# What is said of files behind a refusal or a no: of each that looks like something else than its place wants.
tell_of_files() {
    local page=$1 name=$2 parts part file looks wanted found=
    read -ra parts < <(usage_of "$page" | cut -d ' ' -f 3-)
    shift 2
    for file in "$@"; do
        part=${parts[0]-}
        part=${part//[<>.[\]]/}
        case $part in
        PROFILE | OLD | NEW | CONFIG) wanted=JSON ;;
        FILTER | CERTIFICATE | RECORD) wanted=$part ;;
        *) wanted= ;;
        esac
        [[ ${parts[0]-} == *... ]] || parts=("${parts[@]:1}")
        if [ -z "$wanted" ] || ! [ -f "$file" ] || ! [ -r "$file" ]; then continue; fi
        looks=$(looks_like "$file" "$wanted")
        if [ -n "$looks" ]; then
            found=$looks
            echo "ccell: $(shown "$file") looks like $looks, where $part stands"
        fi
    done
    [ -z "$found" ] || tell_usage "$page" "$name"
}

# What a file looks like, by its first megabyte; nothing if it may be what is wanted.
looks_like() {
    local file=$1 wanted=$2 begins size
    begins=$(head -c 8 "$file" | od -An -tx1 | tr -d ' \n')
    size=$(stat -Lc %s "$file")
    case $wanted.$begins in
    *.1f8b*) echo 'a compressed file (gzip)' ;;
    *.7f454c46*) echo 'a program (ELF)' ;;
    CERTIFICATE.43435254*) ;;
    *.43435254*) echo 'a certificate' ;;
    JSON.??00????????????) [ $((size % 8)) != 0 ] || echo 'a filter' ;;
    JSON.*) text_like "$file" ;;
    CERTIFICATE.??00????????????) echo 'a filter' ;;
    RECORD.*) [ "$size" = 64 ] || echo "$(of_bytes "$size" "$begins"), and a record has 64 bytes" ;;
    *.7b* | *.5b*) echo 'JSON' ;;
    esac
}

# Bytes that are no record.
of_bytes() {
    case $(($1 % 8)).$2 in
    *.7b*) echo JSON ;;
    0.??00*) echo "a filter of $1 bytes" ;;
    *) echo "$1 bytes" ;;
    esac
}

# What a text looks like that is no JSON. What stands in strings does not count.
text_like() {
    head -c 1048576 "$1" | tr -d '\000' | LC_ALL=C awk '
        function say(text) { said = 1; print text; exit }
        NR == 1 && sub(/^\357\273\277/, "") { mark = 1 }
        { gsub(/"([^"\\]|\\.)*"/, "\"\"") }
        first == "" && /[^ \t\r]/ {
            first = substr($0, match($0, /[^ \t\r]/), 1)
            if (first == "<") say("HTML or XML, not JSON")
            if (first != "{" && first != "[") { if (/^---/ || /^[A-Za-z_][A-Za-z0-9_.-]*:/ || /^#/ || /^- /) say("YAML, not JSON") }
        }
        first != "{" && first != "[" { next }
        /[{,:[][ \t]*\047/ { say("JSON with single quotes in line " NR ", which JSON does not have") }
        { line = before $0; before = "" }
        line ~ /,[ \t\r]*[]}]/ { say("JSON with a comma in front of a closing bracket, at line " NR) }
        line ~ /(^|[^:])\/[\/*]/ { say("JSON with a comment in line " NR ", which JSON does not have") }
        line ~ /[:[,][ \t]*(True|False|None)/ { say("a literal of Python in line " NR ", not JSON") }
        line ~ /,[ \t\r]*$/ { before = "," }
        line ~ /^,?[ \t\r]*$/ && line ~ /^,/ { before = "," }
        END { if (!said && mark) print "JSON behind a byte order mark, which JSON does not begin with" }
    '
}
