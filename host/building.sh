# What ./drill, ./incident and host/library share; they source it. $root is the repository, $me the program's name in messages.
# Standard error gets one line that says how far a build is; details go to target/build.log, which a failure names.
log=$root/target/build.log
exports=$root/crates/embed_c # the static library's crate
proved=$exports/out/libembed_c.a # written by rt whenever the library is proved
library=$root/target/staticlib/libcendrulas.a # the same under the name that ships

# Seconds that each crate took from nothing, on four cores with much other work. The time left is scaled by how long this machine has taken so far.
declare -A usual=([cluster]=16 [columns]=26 [sha256]=39 [hmac]=18 [gf256]=17 [erasure]=76 [format]=13 [protocol]=25 [runs]=9 [wire]=55 [state]=21 \
    [decide]=52 [server]=66 [client]=118 [drill]=69 [planner]=27 [embed]=60 [embed_c]=42)
new_crate=30

say() {
    echo "$me: $*" >&2
}

# One line that is rewritten on a terminal; elsewhere a line each time.
line() {
    if [[ -t 2 ]]; then printf '\r\e[K%s: %s' "$me" "$*" >&2; else say "$*"; fi
}

line_ends() {
    [[ ! -t 2 ]] || printf '\r\e[K' >&2
}

# older FILE PLACE..: whether the file is missing or older than a source in these places. A changed text or wrong program makes nothing older, nor does
# what rt keeps in a crate's out/.
older() {
    local sources=(-name '*.rt' -o -name '*.antt' -o -name '*.rs' -o -name '*.toml' -o -name '*.lock' -o -name crates.txt)
    [[ ! -e $1 ]] || [[ -n $(find "${@:2}" -type d -name out -prune -o -type f \( "${sources[@]}" \) -newer "$1" -print -quit) ]]
}

# What a build needs, tested before minutes of proving: the tools, a C compiler that links, and a tree that can be written.
can_build() {
    local tool
    for tool in rt cargo cc; do
        command -v "$tool" > /dev/null || { say "$tool is needed to build, and isn't found"; return 1; }
    done
    { mkdir -p "$root/target" && : > "$log"; } 2> /dev/null || { say "target/ can't be written, and a build needs it: $root/target"; return 1; }
    if ! cc -x c - -o "$root/target/linked" > "$log" 2>&1 <<< 'int main(void) { return 0; }'; then
        say "cc can't make a program: target/build.log has what it said"
        return 1
    fi
    rm -f "$root/target/linked"
}

# The crates that a crate needs, by crates.txt, itself last.
needed() {
    awk -v last="$1" 'function visit(c,   i, n, w) {
             if (c in seen || !(c in needs)) return
             seen[c] = 1
             n = split(needs[c], w, " ")
             for (i = 1; i <= n; i++) visit(w[i])
             print c
         }
         { sub(/#.*/, "") }
         split($0, part, ":") == 2 { split(part[1], name, " "); needs[name[1]] = part[2] }
         END { visit(last) }' "$root/crates.txt"
}

# minutes SPENT DUE LEFT: the time left in words, where so many seconds were spent on crates that usually take DUE.
minutes() {
    local left=$(($3 * ($2 < 30 ? 1 : $1) / ($2 < 30 ? 1 : $2)))
    case $(((left + 30) / 60)) in
    0) echo "less than a minute left" ;;
    1) echo "about 1 minute left" ;;
    *) echo "about $(((left + 30) / 60)) minutes left" ;;
    esac
}

# Reads what rt says and tells which crate is at work. rt says of a crate how much it checked once the crate is done, and nothing of those that it
# has kept; where a crate is done, so are all that it needs.
progress() {
    local crates open total=0 done=0 spent=0 due=0 left=0 crate below text last now
    crates=$(needed embed_c)
    for crate in $crates; do
        total=$((total + 1)) left=$((left + ${usual[$crate]-$new_crate}))
    done
    open=" $(echo $crates) " last=$(date +%s)
    line "crate 1 of $total, $(minutes 0 0 $left)"
    while IFS= read -r text; do
        [[ $text =~ ^crate\ ([a-z0-9_]+):\ .*checked=([0-9]+)$ && $open == *" ${BASH_REMATCH[1]} "* ]] || continue
        crate=${BASH_REMATCH[1]} now=$(date +%s)
        if [[ ${BASH_REMATCH[2]} != 0 ]]; then
            spent=$((spent + now - last)) due=$((due + ${usual[$crate]-$new_crate}))
        fi
        last=$now
        for below in $(needed "$crate"); do
            [[ $open == *" $below "* ]] || continue
            open=${open/ $below / } done=$((done + 1)) left=$((left - ${usual[$below]-$new_crate}))
        done
        [[ $done == "$total" ]] || line "crate $((done + 1)) of $total, $(minutes $spent $due $left)"
    done
    line_ends
}

# Proves and builds the library. One that comes out the same stays as it is, so that nothing is linked anew.
build_library() {
    if ! (cd "$exports" && rt lib 2>&1 < /dev/null | tee "$log" | progress); then
        grep -E '^fn .*: (not proved|no proof)' "$log" | head -n 1 | cut -c 1-300 >&2 || true
        say "the library is not built: target/build.log has the details"
        return 1
    fi
    mkdir -p "$(dirname "$library")"
    cmp -s "$proved" "$library" || { cp "$proved" "$library.new" && mv "$library.new" "$library"; }
}

# The same where the library is missing or a proved source is newer.
current_library() {
    if [[ ! -e $library ]] || older "$proved" "$root"/{crates,crates.txt}; then
        build_library
    fi
}

# build_program PACKAGE WORD..: builds a package of the host's side.
build_program() {
    line "building the program"
    if ! (cd "$root" && unset RUSTFLAGS && cargo build --quiet -p "$@" >> "$log" 2>&1 < /dev/null); then
        line_ends
        say "the program is not built: target/build.log has the details"
        return 1
    fi
    line_ends
}
