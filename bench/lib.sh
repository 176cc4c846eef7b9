# What the benches share; a bench sources it. It gives the folders `top`, `bench` and `work`, of which the last is removed when
# the bench ends, and two functions, each of which prints the path of a program, proved and built first where it isn't:
#
#     repository_program           that of the repository
#     bench_program NAME CRATE ..  that of bench/NAME, which stands on these crates
set -eu -o pipefail
shopt -s inherit_errexit
top=$(cd "$(dirname "${BASH_SOURCE[0]}")/.." && pwd)
bench="$top/bench"
work=$(mktemp -d)
trap 'rm -rf "$work"' EXIT
export PYTHONPATH="$bench" PYTHONDONTWRITEBYTECODE=1

# These crates and those below them, lowest first, a line each.
crates_below() {
    awk -F: -v wanted="$*" '
        function take(names,   words, n, i) {
            n = split(names, words, " ")
            for (i = 1; i <= n; i++) {
                if (!(words[i] in below) || taken[words[i]]++) continue
                take(below[words[i]])
                print words[i]
            }
        }
        /^[a-z]/ { split($1, head, " "); below[head[1]] = $2 }
        END { take(wanted) }
    ' "$top/crates.txt"
}

repository_program() {
    mkdir "$work/empty"
    "$top/arti" "$work/empty" replay --start 0 < /dev/null >&2
    echo "$top/crates/arti_main/out/arti_main"
}

# The sources of a bench's program and of the crates below it, in a repository of their own. The gate takes no .rt and no .antt
# file outside a crate, so those of a bench are called .rt.in and .antt.in.
copy_sources() {
    local copy=$1 name=$2 crate part file
    shift 2
    for crate in $(crates_below "$@"); do
        mkdir -p "$copy/crates/$crate"
        for part in src specs proofs; do
            [ ! -d "$top/crates/$crate/$part" ] || cp -r "$top/crates/$crate/$part" "$copy/crates/$crate/$part"
        done
        grep -E "^$crate( [^:]*)?:" "$top/crates.txt" >> "$copy/crates.txt"
    done
    echo "arti_${name}_times: $*" >> "$copy/crates.txt"
    (cd "$bench/$name" && find . -name '*.in') | while read -r file; do
        mkdir -p "$copy/crates/arti_${name}_times/$(dirname "$file")"
        cp "$bench/$name/$file" "$copy/crates/arti_${name}_times/${file%.in}"
    done
}

# The program is kept in bench/out, with the sums of all that it was built of beside it.
bench_program() {
    local name=$1 crate="arti_$1_times" copy="$work/$1"
    local kept="$bench/out/$crate"
    shift
    copy_sources "$copy" "$name" "$@"
    (cd "$copy" && rt version && find . -type f -print0 | LC_ALL=C sort -z | xargs -0 cksum) > "$work/$name.sums"
    if [ ! -x "$kept" ] || ! cmp -s "$work/$name.sums" "$kept.built"; then
        echo "bench: $crate is proved and built, once" >&2
        mkdir -p "$bench/out"
        rm -f "$kept" "$kept.built"
        # It is run too. What it says then doesn't matter.
        (cd "$copy/crates/$crate" && timeout --foreground -k 10 10800 rt run) > "$kept.log" 2>&1 < /dev/null || true
        if ! cp "$copy/crates/$crate/out/$crate" "$kept"; then
            cat "$kept.log" >&2
            return 1
        fi
        cp "$work/$name.sums" "$kept.built"
    fi
    rm -rf "$copy"
    echo "$kept"
}
