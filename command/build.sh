# shellcheck shell=bash disable=SC2154,SC2317
# What ./ps2card and ./install share: proving the library and compiling the command where they are missing or older
# than their sources. `home` is the repository. Everything said goes to standard error; what cannot be done is status 3.
library=$home/crates/ps2card/out/libps2card.a
command=$home/build/release/ps2card

say() { echo "ps2card: $*" >&2; }
fail() { say "$*"; exit 3; }
need() { command -v "$1" >/dev/null || fail "$1 is needed: $2"; }

# Whether something is missing, or older than one of its sources: the files that find gives for the other words.
stale() {
    local made=$1
    shift
    [ ! -e "$made" ] || [ -n "$(find "$@" -newer "$made" -print -quit)" ]
}
stale_library() {
    # What rt makes of the sources stands in the out/ of each crate.
    stale "$library" "$home/crates.txt" "$home/crates" -name out -prune -o \
        -type f \( -name '*.rt' -o -name '*.antt' -o -name crates.txt \)
}
stale_command() { stale "$command" "$library" "$home/Cargo.toml" "$home/Cargo.lock" "$home/command" -type f; }

# Runs its words in a process group of their own and waits. A signal to this script ends the whole group, so that no
# prover and no compiler goes on alone.
group=
in_group() {
    local status=0
    set -m
    "$@" </dev/null &
    group=$!
    set +m
    wait "$group" || status=$?
    group=
    return "$status"
}
end_group() {
    trap - INT TERM HUP
    if [ -n "$group" ]; then
        kill -TERM -- "-$group" 2>/dev/null || true
        wait "$group" 2>/dev/null || true
    fi
    kill -s "$1" $$
}
for signal in INT TERM HUP; do
    # shellcheck disable=SC2064
    trap "end_group $signal" "$signal"
done

writable() { mkdir -p "$1" 2>/dev/null && (: >"$1/.ps2card-$$") 2>/dev/null && rm -f "$1/.ps2card-$$"; }

# One build at a time; who waited finds it done.
hold() {
    local lock=$home/build/ps2card.lock
    writable "$home/build" || fail "cannot write to $home/build, where the command is compiled"
    { exec 9>"$lock"; } 2>/dev/null || fail "cannot write to $lock"
    flock -n 9 || { say "waiting for another build ..."; in_group flock 9; }
}

# The crates that a crate of crates.txt rests on, itself last; those of the kit have no folder here.
crates_below() {
    awk -v want="$1" '
        /^[a-z]/ { sub(/:/, ""); line[$1] = $0 }
        function visit(name,    words, n, k) {
            if (seen[name]++ || !(name in line)) return
            n = split(line[name], words, " ")
            for (k = 2; k <= n; k++) visit(words[k])
            print name
        }
        END { visit(want) }' "$home/crates.txt"
}

# What a crate takes, in seconds on two processors: measured, about one for each kilobyte of its functions' proofs.
seconds_of() { echo $(($(find "$home/crates/$1/proofs" -mindepth 2 -name '*.antt' -exec cat {} + 2>/dev/null | wc -c) / 1000 + 4)); }

# Reads what rt prints, all of it into a log, and says how far it is whenever rt is silent for a second: crates that are
# proved already pass without a word. rt names a crate as it begins it, in the order of crates_below.
tell_progress() {
    local log=$1 name total=0 done=0 told=-1 all=0 left line part='' began=$SECONDS past=0 proving=''
    local -A seconds place before
    for name in $(crates_below ps2card); do
        seconds[$name]=$(seconds_of "$name")
        place[$name]=$total
        before[$name]=$all
        all=$((all + ${seconds[$name]}))
        total=$((total + 1))
    done
    left=$all
    while :; do
        if IFS= read -r -t 1 line; then
            line=$part$line
            part=
            echo "$line" >>"$log"
            case $line in
            'rt: chose --jobs '*' for '*)
                name=${line##* }
                [ -n "${place[$name]-}" ] || continue
                [ -z "$proving" ] || past=$((past + ${seconds[$proving]}))
                proving=$name
                done=${place[$name]}
                left=$((all - ${before[$name]}))
                ;;
            esac
        elif [ $? -gt 128 ]; then
            part=$part$line
            [ "$done" -eq "$told" ] || how_far
            told=$done
        else
            return 0
        fi
    done
}
how_far() {
    # By the pace so far, beside a minute of the usual one, so that the first crates do not decide it.
    local rest=$((left * (past > 0 ? SECONDS - began + 60 : 60) / (past + 60))) minutes
    minutes=$(((rest + 59) / 60))
    say "proving the library: crate $((done + 1)) of $total, about $minutes minute$([ "$minutes" -eq 1 ] || echo s)"
}

prove() {
    set +m -o pipefail
    cd "$home/crates/ps2card" || return
    rt lib 2>&1 | tell_progress "$1"
}

# The library, by rt. Call it under the lock.
build_library() {
    stale_library || return 0
    need rt "the Rattle kit proves the library"
    writable "${library%/*}" || fail "cannot write to ${library%/*}, where the library is proved"
    local log=$home/build/library.log
    { : >"$log"; } 2>/dev/null || fail "cannot write to $log"
    if ! in_group prove "$log"; then
        grep -E ': not proved|: error|^rt: ' "$log" | grep -vE '^rt: (chose |rt |.*: begins with )' | tail -n 5 >&2 || true
        fail "the library is not proved; $log has what rt said"
    fi
    touch "$library"
}

# The command, by cargo. Call it under the lock.
build_command() {
    stale_command || return 0
    need cargo "it compiles the command"
    say "compiling the command ..."
    compile() { cd "$home" && env -u PS2CARD_LIB_DIR cargo build --quiet --release --offline --target-dir build -p ps2card >&2; }
    in_group compile || fail "the command was not compiled"
    touch "$command"
}
