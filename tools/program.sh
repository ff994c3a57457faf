# What ./gobpie, .ci/run and the tools share; read by them, with the repository's top in $root.
# A folder that holds the program holds three files: gobpie, the sum of its sources, and the kit's version.

# Says something on standard error, in the name of the script that runs.
tell() { printf '%s: %s\n' "${0##*/}" "$1" >&2; }

has_kit() { command -v rt >/dev/null; }

kit_version() { rt version 2>/dev/null; }

# The lines of crates.txt for the crates that the program is made of, each below those that use it.
lines_of_program() {
    awk '
        function take(name,    dep, count, i) {
            if (!(name in line) || name in taken) return
            taken[name] = 1
            count = split(uses[name], dep, " ")
            for (i = 1; i <= count; i++) take(dep[i])
            print line[name]
        }
        { sub(/#.*/, "") }
        NF { split($0, side, ":"); split(side[1], head, " "); line[head[1]] = $0; uses[head[1]] = side[2] }
        END { take("gobpie") }' "$root/crates.txt"
}

crates_of_program() { lines_of_program | awk '{ sub(/[ :].*/, ""); print }'; }

# One sum over these lines and the names and contents of all sources of these crates.
sum_of_sources() (
    cd "$root" || exit 1
    {
        lines_of_program
        crates_of_program | while read -r crate; do
            for part in src specs proofs; do
                [ ! -d "crates/$crate/$part" ] || printf '%s\0' "crates/$crate/$part"
            done
        done | xargs -0 -r sh -c 'exec find "$@" -type f -print0' find \
            | LC_ALL=C sort -z | xargs -0 -r sha256sum --
    } | sha256sum | cut -d' ' -f1
)

# Whether the folder holds the program of the sources with this sum, by the kit at hand if there is one.
is_fresh() {
    [ -x "$1/gobpie" ] && [ "$(cat "$1/sources" 2>/dev/null)" = "$2" ] || return 1
    ! has_kit || [ "$(cat "$1/kit" 2>/dev/null)" = "$(kit_version)" ]
}

# Writes a program without its table of symbols, by the kit's own LLVM, so that the bytes are the kit's alone.
strip_program() {
    local llvm
    llvm=$(dirname "$(dirname "$(readlink -f "$(command -v rt)")")")/toolchain/bin/clang
    (exec -a llvm-strip "$llvm" -o "$2" "$1")
}

# Puts a program that the kit has just built of the sources with this sum into the folder.
put_program() {
    local from=$1 folder=$2 sum=$3 new=$2/gobpie.$$
    mkdir -p "$folder" && strip_program "$from" "$new" && chmod 755 "$new" \
        && rm -f "$folder/sources" && mv -f "$new" "$folder/gobpie" \
        && kit_version >"$folder/kit" && printf '%s\n' "$sum" >"$folder/sources" && return
    rm -f "$new"
    return 1
}
