# Read by the scripts at the top (`. tools/build.sh`), which set `root`, this checkout, and `me`, the name that speaks.
#
#     ready CRATE FILE    sees that target/FILE is built from what the checkout now holds, and builds it where it is not
#     is_fresh CRATE FILE whether it is
#     adopt CRATE FILE    takes the program that `rt ci` has just built and run in this checkout
#
# Beside target/FILE lies its stamp: a sum over the texts that it was built from and over the file itself, and the kit that proved them. So
# a text that changed, a file that was cut off and another kit are all seen. The file is renamed into its place, and the stamp last.
# shellcheck shell=sh disable=SC2154

say() {
    printf '%s\n' "$me: $*" >&2
}

# Ends with status 2: there is no answer.
fail() {
    say "$@"
    exit 2
}

# The lines of crates.txt for the crate $1 and for those of the repository that it stands on, each behind those that it names.
lines_of() {
    awk -v top="$1" '
        function add(name, words, i, n) {
            if (!(name in names) || name in seen) return
            seen[name] = 1
            n = split(names[name], words, " ")
            for (i = 1; i <= n; i++) add(words[i])
            print line[name]
        }
        { sub(/#.*/, "") }
        at = index($0, ":") { split(substr($0, 1, at - 1), head, " "); names[head[1]] = substr($0, at + 1); line[head[1]] = $0 }
        END { add(top) }' "$root/crates.txt" 2> /dev/null
}

# The names in such lines.
names_in() {
    printf '%s\n' "$1" | sed 's/[ :].*//'
}

# The sum for the lines $1 of crates.txt, the crates below the folder $2, and the file $3. Nothing, where one of these is not there.
sum_of() {
    [ -n "$1" ] && [ -r "$3" ] || return 0
    lines=$1 at=$2 file=$3
    set --
    for name in $(names_in "$lines"); do
        set -- "$@" "crates/$name/src" "crates/$name/specs" "crates/$name/proofs"
    done
    # (not every crate has all three)
    {
        printf '%s\n' "$lines"
        (cd -- "$at" && find "$@" -type f -exec b2sum {} + 2> /dev/null) | LC_ALL=C sort
        b2sum < "$file"
    } | b2sum
}

# The identity of the kit whose `rt` is on the path, as `rt version` says it, or nothing. The file is read where it is there: `rt` takes
# half a second.
kit_id() {
    rt=$(command -v rt) || return 0
    rt=$(readlink -f -- "$rt")
    at=${rt%/*/*}/KIT-ID
    if [ -r "$at" ]; then
        IFS= read -r id < "$at"
        printf '%s\n' "$id"
    else
        rt version 2> /dev/null
    fi
}

is_fresh() {
    [ -r "$root/target/$2" ] && [ -r "$root/target/$2.stamp" ] || return 1
    # (a library is not run)
    [ -x "$root/target/$2" ] || [ "${2%.a}" != "$2" ] || return 1
    { IFS= read -r was_sum && IFS= read -r was_kit; } < "$root/target/$2.stamp" || return 1
    now_kit=$(kit_id)
    # (without a kit, what one has proved still runs)
    [ -z "$now_kit" ] || [ "$now_kit" = "$was_kit" ] || return 1
    now_sum=$(sum_of "$(lines_of "$1")" "$root" "$root/target/$2")
    [ -n "$now_sum" ] && [ "$now_sum" = "$was_sum" ]
}

# Puts the file $1 at target/$2, and behind it the stamp of the sum $3 and the kit $4.
put() {
    new=$root/target/$2.new.$$
    if cp -- "$1" "$new" && mv -f -- "$new" "$root/target/$2" &&
        printf '%s\n%s\n' "$3" "$4" > "$new" && mv -f -- "$new" "$root/target/$2.stamp"; then
        return 0
    fi 2> /dev/null
    rm -f -- "$new"
    return 1
}

# Ends what `build` began, whatever ends it.
clean() {
    trap - EXIT HUP INT TERM
    if [ -n "${child-}" ]; then
        kill "$child" 2> /dev/null
        wait "$child" 2> /dev/null
        child=
    fi
    rm -rf -- "$room"
}

# Copies what the lines $1 of crates.txt name to the folder $2, as a repository of its own.
copy() {
    mkdir -p -- "$2/.git" && printf '%s\n' "$1" > "$2/crates.txt" || return 1
    [ ! -f "$root/HANDLES" ] || cp -- "$root/HANDLES" "$2/" || return 1
    for name in $(names_in "$1"); do
        mkdir -p -- "$2/crates/$name" || return 1
        # (not the edits: they say something of the contracts, and nothing of what is built)
        for part in src specs proofs data args stdin stdout status; do
            [ ! -e "$root/crates/$name/$part" ] || cp -R -- "$root/crates/$name/$part" "$2/crates/$name/" || return 1
        done
    done
}

# Runs a command in the copy, with a line for each crate that is done; all that it prints goes to the log.
follow() {
    mkfifo -- "$room/lines" || return 1
    (cd -- "$room/copy" && exec "$@") > "$room/lines" 2>&1 < /dev/null &
    child=$!
    done=0
    while IFS= read -r line; do
        printf '%s\n' "$line" >> "$room/log"
        case $line in
        'rt: '*' NOT PROVED'* | 'rt: FAILED: '*) say "${line#rt: }" ;;
        'rt: '*' its tests are proved') ;;
        'rt: '*' proved' | 'rt: '*' is kept: '*)
            done=$((done + 1))
            line=${line#rt: }
            case $line in
            *' is kept: '*) line="${line%% *} proved before" ;;
            esac
            say "$line ($done of $count)"
            ;;
        esac
    done < "$room/lines"
    rm -f -- "$room/lines"
    wait "$child"
    status=$?
    child=
    return "$status"
}

# Proves and builds the crate $1 to target/$2, in a copy of the crates that it stands on. `rt ci` takes there what it has passed before on
# this machine, and keeps what it proves: so the gate's proofs serve here, and these serve the gate. (`rt run` would prove all once more.)
# The copy lies outside the checkout, since the gate refuses a second repository within it.
build() {
    what=$2
    command -v rt > /dev/null ||
        fail "target/$what has to be built, and \`rt\`, of the Rattle kit, is not on the path: README.md says where the kit comes from"
    command -v b2sum > /dev/null || fail "target/$what has to be built, and b2sum, of GNU coreutils, is not on the path"
    lines=$(lines_of "$1")
    [ -n "$lines" ] || fail "target/$what cannot be built: $root/crates.txt names no crate $1"
    [ -d "$root/target" ] || mkdir -- "$root/target" 2> /dev/null
    [ -w "$root/target" ] ||
        fail "target/$what has to be built, and $root/target cannot be written: use a copy of the checkout that can be"
    room=$(mktemp -d "${TMPDIR:-/tmp}/hemvuda.XXXXXX" 2> /dev/null) ||
        fail "target/$what has to be built, and ${TMPDIR:-/tmp} cannot be written: set TMPDIR to a folder that can be"
    child=
    trap clean EXIT
    trap 'clean; exit 129' HUP
    trap 'clean; exit 130' INT
    trap 'clean; exit 143' TERM
    kit=$(kit_id)
    copy "$lines" "$room/copy" 2> /dev/null || 
        fail "target/$what has to be built, and ${TMPDIR:-/tmp} has no room for it: set TMPDIR to a folder that has"
    count=$(names_in "$lines" | wc -l)
    count=$((count))
    say "building target/$what: its $count crates are proved first; the first time that takes some ten minutes"
    if follow rt ci && { [ "${what%.a}" = "$what" ] || archive "$1"; }; then
        made=$room/copy/crates/$1/out/$1
        [ "${what%.a}" = "$what" ] || made=$room/copy/crates/$1/out/$what
        put "$made" "$what" "$(sum_of "$lines" "$room/copy" "$made")" "$kit" ||
            fail "target/$what is built, and cannot be written: is the disk full?"
        rm -f -- "$root/target/$what.log"
        clean
        say "built target/$what"
    else
        mv -f -- "$room/log" "$root/target/$what.log" 2> /dev/null
        fail "target/$what could not be built, and nothing was run: $root/target/$what.log has what the build printed"
    fi
}

# Builds the static library of the crate $1, in the copy, over the libraries that `rt ci` has just proved there. (`rt lib` would prove them
# all once more.)
archive() {
    kit_at=$(rt doc) || return 1
    kit_at=${kit_at%/*}
    set -- "$1" --crate-name "$1" src/lib.rt --crate-type staticlib -o "out/lib$1.a" --backend llvm --toolchain "$kit_at/toolchain"
    set -- "$@" --extern "std=$kit_at/rlibs/std.rlib" -L "dependency=$kit_at/rlibs"
    set -- "$@" --antt-project "$kit_at/rattle/logic/antt-project.json" --logic-built "$kit_at/logic_built" --links "$1="
    for name in $(names_in "$lines"); do
        [ "$name" != "$1" ] || continue
        set -- "$@" --extern "$name=../$name/out/rlib/$name.rlib" -L "dependency=../$name/out/rlib" --links "$name="
    done
    (name=$1 && shift && cd -- "$room/copy/crates/$name" && exec "$kit_at/bin/rattle" build "$@") >> "$room/log" 2>&1 < /dev/null &
    child=$!
    wait "$child"
    status=$?
    child=
    return "$status"
}

ready() {
    is_fresh "$1" "$2" && return 0
    build "$1" "$2"
    is_fresh "$1" "$2" || fail "target/$2 was built, and what it is built from has changed meanwhile: run this again"
}

adopt() {
    made=$root/crates/$1/out/$1
    mkdir -p -- "$root/target" && put "$made" "$2" "$(sum_of "$(lines_of "$1")" "$root" "$made")" "$(kit_id)"
}
