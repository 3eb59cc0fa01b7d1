# To be sourced: `archive NAME` makes target/staticlib/libNAME.a, of the crate NAME_c, in the repository at whose top it is
# called. It proves the crates that the archive rests on, as many at a time as the machine bears, and tells on standard error
# how far it is.

# How many checks run at a time. One that waits for the crates below it counts too, so as many as there are processors would
# leave some of them idle; each takes up to a gigabyte.
checks_at_a_time() {
    local most=$((5 * $(nproc))) gigabytes
    gigabytes=$(awk '$1 == "MemAvailable:" { print int($2 / 1048576) }' /proc/meminfo)
    most=$((most < 10 ? most : 10))
    most=$((most < gigabytes ? most : gigabytes))
    echo $((most > 1 ? most : 1))
}

# The crates of crates.txt that one rests on, the lowest first, and last the crate itself.
crates_up_to() {
    awk -v wanted="$1" '
        function visit(name, uses, n, i) {
            if (!(name in rests_on) || seen[name]++)
                return
            n = split(rests_on[name], uses, " ")
            for (i = 1; i <= n; i++)
                visit(uses[i])
            print name
        }
        { sub(/#.*/, "") }
        split($0, halves, ":") == 2 { split(halves[1], words, " "); rests_on[words[1]] = halves[2] }
        END { visit(wanted) }' crates.txt
}

minutes() { echo "$(($1 / 60)) min $(($1 % 60)) s"; }

# The crates that rt is done with, as it says so far, up to the first that is not proved. Of one that has not changed since it was
# proved it says nothing.
proved_in() {
    awk '
        function done() {
            failed = failed || (said && !proved)
            if (crate && crate != "summary" && !failed)
                print crate
        }
        /^== / { done(); crate = $2; said = proved = 0; next }
        /^rt: .*: begins with what / { next }
        /^logic=proved / { proved = 1 }
        crate { said = 1 }
        END { done() }' "$1"
}

# Tells how many crates are proved, which are being proved, and how long it took so far: where that changes, and every 20
# seconds. rt writes in the folder out/ of a crate that it begins. It runs beside the shell that started it, and ends with it.
tell_progress() {
    set +e # find and awk fail where nothing is begun yet
    local folder=$1 crate=$2 all=$3 begun proved now before='' told_at=0
    while sleep 1 && kill -0 $$ 2>/dev/null; do
        begun=$(find crates/*/out -maxdepth 2 -newer "$folder/begun" 2>/dev/null | cut -d / -f 2 | sort -u)
        proved=$(proved_in "$folder/said" 2>/dev/null | sort)
        now=$(comm -23 <(echo "$begun") <(echo "$proved") | paste -s -d ' ')
        [ ! -f "$folder/built" ] || now="$crate, and building its archive"
        if { [ -n "$now" ] && [ "$now" != "$before" ]; } || [ $((SECONDS - told_at)) -ge 20 ]; then
            printf '[%2d of %d proved, %s] proving %s\n' "$(wc -w <<<"$proved")" "$all" "$(minutes $SECONDS)" "$now" >&2
            before=$now told_at=$SECONDS
        fi
    done
}

# Runs a command; where it fails, shows what it said, but for what was proved.
quietly() {
    local said=$1
    shift
    "$@" >"$said" 2>&1 && return
    awk '
        /: (proved|ok)$/ || /^(library|statements|crate|checked|logic|rt: chose) / || /^logic=/ { next }
        /^== / { crate = $0; next }
        crate { print crate; crate = "" }
        { print }' "$said" >&2
    return 1
}

prove_and_build() (
    SECONDS=0
    folder=$(mktemp -d)
    touch "$folder/begun"
    mapfile -t crates < <(crates_up_to "${1}_c")
    jobs=${RT_JOBS:-$(checks_at_a_time)}
    echo "proving ${#crates[@]} crates for target/staticlib/lib$1.a, up to $jobs at a time" >&2
    tell_progress "$folder" "${1}_c" ${#crates[@]} &
    trap "kill $! 2>/dev/null || true; rm -rf '$folder'" EXIT
    # rt checks the crate in whose folder it is called and those that it rests on
    (cd "crates/${1}_c" && quietly "$folder/said" rt all check --jobs "$jobs") || exit 1
    (cd "crates/${1}_c" && quietly "$folder/built" rt lib) || exit 1
    mkdir -p target/staticlib
    cp "crates/${1}_c/out/lib${1}_c.a" "target/staticlib/lib$1.a" || exit 1
    echo "target/staticlib/lib$1.a is built of ${#crates[@]} proved crates, in $(minutes $SECONDS)" >&2
)

# The archive of a crate: proved and built where it is missing, or older than a file of the crates. What rt keeps in out/ is
# none of theirs.
archive() {
    local built=target/staticlib/lib$1.a
    if [ -f "$built" ] && [ -z "$(find crates.txt crates/*/* -name out -prune -o -newer "$built" -print -quit)" ]; then
        return
    fi
    if ! command -v rt >/dev/null; then
        echo "$0: $built is to be proved and built, and rt is not on the path. It is bin/rt of the Rattle kit (README.md," \
            "\"What it needs\" says which): unpack the kit, and run PATH=KIT/bin:\$PATH $0" >&2
        return 1
    fi
    if ! prove_and_build "$1"; then
        echo "$0: $built is not built. The kit here is $(rt version)" >&2
        return 1
    fi
}
