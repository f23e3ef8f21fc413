# What the scripts ccsl, ccsl-events and ccsl-show do, each for its program: it runs the proved program, and proves and builds it
# first where it is not built, or a source is newer. The script says which by these, reads this file and calls run_program "$@".
#     crate        the program's crate
#     file_keys    the words that name files, as "spec trace cert"
set -u
top=$(cd "$(dirname "${BASH_SOURCE[0]}")/.." && pwd)
command_name=$(basename "$0")
program="$top/crates/$crate/out/$crate"

say() { printf '%s: %s\n' "$command_name" "$1" >&2; }

# the program's crates, each behind those that it uses
crates() {
    awk -F: -v program="$crate" '
        function visit(name, parts, count, i) {
            if (name in seen || !(name in uses)) return
            seen[name] = 1
            count = split(uses[name], parts, " ")
            for (i = 1; i <= count; i++) visit(parts[i])
            print name
        }
        /^[a-z]/ { uses[$1] = $2 }
        END { visit(program) }' "$top/crates.txt"
}

# the files and folders that the program is made of
sources() {
    local name
    echo crates.txt
    for name in $(crates); do printf '%s\n' "crates/$name/src" "crates/$name/specs" "crates/$name/proofs"; done
}

sum_of_sources() {
    local paths
    mapfile -t paths < <(sources)
    (cd "$top" && find "${paths[@]}" -type f 2>/dev/null | sort | xargs sha256sum | sha256sum)
}

# whether the program is there, and no source has changed since
is_current() {
    local paths
    [ -x "$program" ] || return 1
    mapfile -t paths < <(sources)
    [ -n "$(cd "$top" && find "${paths[@]}" -newer "$program" -print -quit 2>/dev/null)" ] || return 0
    [ "$(cat "$program.sources" 2>/dev/null)" = "$(sum_of_sources)" ] && touch "$program"
}

# how many crates are proved side by side: one a processor, and one for each 4 GB of free memory
side_by_side() {
    local free count
    free=$(awk '/^MemAvailable:/ { print int($2 / 4000000) }' /proc/meminfo 2>/dev/null)
    count=$(nproc)
    [ "${free:-1}" -lt "$count" ] && count=${free:-1}
    [ "$count" -ge 1 ] && echo "$count" || echo 1
}

# whether a crate's library is built, and no source of it has changed since
is_kept() {
    local stamp="$top/crates/$1/out/rlib/stamp"
    [ -e "$stamp" ] && [ -z "$(find "$top/crates/$1/src" "$top/crates/$1/specs" "$top/crates/$1/proofs" -newer "$stamp" -print -quit 2>/dev/null)" ]
}

# the crates that are still to be proved: those that are not kept, and all that use one of them
crates_to_prove() {
    local name
    for name in $(crates); do is_kept "$name" || echo "$name"; done |
        awk -F: '
            FNR == NR { open[$1] = 1; next }
            /^[a-z]/ { uses[$1] = $2 }
            function is_open(name, parts, count, i) {
                if (name in known) return known[name]
                known[name] = (name in open)
                count = split(uses[name], parts, " ")
                for (i = 1; i <= count; i++) if ((parts[i] in uses) && is_open(parts[i])) known[name] = 1
                return known[name]
            }
            END { for (name in uses) if (is_open(name)) print name }' - "$top/crates.txt" |
        grep -Fxf <(crates)
}

# how many seconds the proofs of these crates, a name a line, take side by side, by packaging/proof-seconds: all of them shared out,
# but no less than the longest chain of crates each of which uses the one before. With the seconds that went by since crates of so
# much were to be proved, by the speed so far, where the first crates that wait for no other are taken to be half done.
seconds_of() {
    awk -F'[: ]+' -v lanes="$1" -v gone="${2-0}" -v begun="${3-0}" '
        FILENAME == "-" || FILENAME == "" { wanted[$1] = 1; next }
        FILENAME == ARGV[2] { if ($1 in wanted) { cost[$1] = $2; total += $2 }; next }
        /^[a-z]/ { names[$1] = $0; order[++count] = $1 }
        function waits(name, parts, n, i) {
            n = split(names[name], parts, "[: ]+")
            for (i = 2; i <= n; i++) if (parts[i] in wanted) return 1
        }
        function ends(name, parts, n, i, first) {
            if (name in end) return end[name]
            n = split(names[name], parts, "[: ]+")
            for (i = 2; i <= n; i++) if ((parts[i] in names) && ends(parts[i]) > first) first = ends(parts[i])
            return end[name] = first + cost[name]
        }
        END {
            for (i = 1; gone && i <= count && running < lanes; i++)
                if ((order[i] in wanted) && !waits(order[i])) { running++; half[order[i]] = cost[order[i]] / 2 }
            for (name in half) { cost[name] -= half[name]; done += half[name] }
            shared = (total - done) / lanes
            done += begun - total
            for (name in names) if (ends(name) > longest) longest = ends(name)
            pace = (gone && done > 0) ? gone * lanes / done : 1
            printf "%d\n", (shared > longest ? shared : longest) * pace
        }' - "$top/packaging/proof-seconds" "$top/crates.txt"
}

# the processor seconds of these crates, a name a line, by packaging/proof-seconds
processor_seconds_of() {
    awk 'FILENAME == "-" { wanted[$1] = 1; next } $1 in wanted { total += $2 } END { print total + 0 }' - "$top/packaging/proof-seconds"
}

# seconds in words
time_in_words() {
    if [ "$1" -lt 90 ]; then echo "a minute"; else echo "$((($1 + 30) / 60)) minutes"; fi
}

# says of each crate of rt's report that it is done, and how long the others will take by the speed so far
show_progress() {
    local lanes=$1 all begun left line done=0
    left=$(crates_to_prove)
    all=$(wc -l <<<"$left")
    begun=$(processor_seconds_of <<<"$left")
    SECONDS=0
    while IFS= read -r line; do
        case "$line" in
            "== summary") break ;;
            "== "*)
                grep -Fxq "${line#== }" <<<"$left" || continue
                done=$((done + 1))
                left=$(grep -Fxv "${line#== }" <<<"$left")
                say "$done of $all crates, $((SECONDS / 60)) minutes gone, about $(time_in_words "$(seconds_of "$lanes" "$SECONDS" "$begun" <<<"$left")") left: ${line#== }"
                ;;
        esac
    done
    cat >/dev/null
}

build() {
    local log status sum lanes left
    sum=$(sum_of_sources)
    log=$(mktemp)
    lanes=$(side_by_side)
    left=$(crates_to_prove)
    say "the program is proved before it is built: $(wc -l <<<"$left") of $(crates | wc -l) crates are to be proved, $lanes side by side."
    say "This takes about $(time_in_words "$(seconds_of "$lanes" <<<"$left")") where nothing else runs; what is done is kept if you stop it."
    say "To run at once without the proofs: ./$command_name --unproved WORDS.."
    # rt keeps a place for a crate that waits for others, so there are twice as many places as crates that are proved at once
    (cd "$top/crates/$crate" && "$top/packaging/prove" --jobs "$((2 * lanes))") 2>&1 </dev/null | tee "$log" | show_progress "$lanes"
    status=${PIPESTATUS[0]}
    if [ "$status" -eq 0 ]; then (cd "$top/crates/$crate" && rt run -- check) >"$log" 2>&1 </dev/null; fi
    if [ "$status" -ne 0 ] || [ ! -e "$program.stamp" ]; then
        say "the program was not proved and built; the last lines of rt:"
        tail -n 20 "$log" >&2
        rm -f "$log"
        exit 70
    fi
    touch "$program"
    echo "$sum" >"$program.sources"
    rm -f "$log"
}

# whether the word is one of file_keys with a file that is named from here
names_file_from_here() {
    local key
    for key in $file_keys; do
        case "$1" in
            "$key"=/*) return 1 ;;
            "$key"=?*) return 0 ;;
        esac
    done
    return 1
}

# rt try runs in the crate's folder, so the files are named from the root
unproved() {
    local words=() word
    say "NOT PROVED: rt try builds this run without the proofs, and anew each time"
    for word in "$@"; do
        if names_file_from_here "$word"; then word="${word%%=*}=$PWD/${word#*=}"; fi
        words+=("$word")
    done
    cd "$top/crates/$crate" && exec rt try -- ${words[@]+"${words[@]}"}
}

need_rt() {
    command -v rt >/dev/null && return
    say "there is no rt, the command of the Rattle kit, which has to $1"
    exit 70
}

run_program() {
    if [ "${1-}" = --unproved ]; then
        shift
        need_rt "run it"
        unproved "$@"
    fi
    if ! is_current; then
        need_rt "prove and build the program"
        build
    fi
    exec "$program" "$@"
}
