# Read by the verbs that compile a proved crate (`. tools/dev.d/proved.sh`), at the top of the repository.
kit=$(dirname "$(rt doc)")
# newer FILE: the files of crates that are newer than it
newer() { find crates crates.txt -name out -prune -o -type f -newer "$1" -print; }
# below CRATE: the libraries that it uses, a line each, and theirs; 'direct' stands before its own
below() {
    awk -v top="$1" '
        { sub(/#.*/, "") }
        /:/ { split($0, part, ":"); split(part[1], head, " "); uses[head[1]] = part[2] }
        function reach(crate, how,    name, count, k) {
            count = split(uses[crate], name, " ")
            for (k = 1; k <= count; k++) {
                if (how == "direct") print how, name[k]
                if (!(name[k] in seen)) {
                    seen[name[k]]
                    if (how != "direct") print how, name[k]
                    reach(name[k], "indirect")
                }
            }
        }
        END { reach(top, "direct") }' crates.txt
}
# proved CRATE ROOT WORD ..: the kit's `rattle` proves a crate of this root file, and builds it by these words. The libraries below it are taken as
# `rt ci`, `rt check` or `rt lib` left them in their folders out/, where no file of a crate is newer; else `rt check` proves what has changed
proved() (
    crate=$1 root=$2
    shift 2
    [ -d "crates/$crate" ] || { echo "there is no crate $crate" >&2 && exit 2; }
    set -- "$@" --extern "std=$kit/rlibs/std.rlib" -L "dependency=$kit/rlibs"
    is_old=
    list=$(mktemp)
    below "$crate" >"$list"
    while read -r how dep; do
        if [ ! -d "crates/$dep" ]; then
            [ "$how" = indirect ] || set -- "$@" --extern "$dep=$kit/rlibs/$dep.rlib"
            continue
        fi
        rlib=crates/$dep/out/rlib/$dep.rlib
        [ -d "$rlib" ] && [ -z "$(newer "$rlib")" ] || is_old=1
        [ "$how" = indirect ] || set -- "$@" --extern "$dep=../$dep/out/rlib/$dep.rlib"
        set -- "$@" -L "dependency=../$dep/out/rlib"
    done <"$list"
    rm "$list"
    cd "crates/$crate"
    [ -z "$is_old" ] || rt check || exit 1
    mkdir -p out
    exec "$kit/bin/rattle" build --crate-name "$crate" "$root" --antt-project "$kit/rattle/logic/antt-project.json" \
        --logic-built "$kit/logic_built" --incremental out/incremental --jobs "$(nproc)" --backend llvm "$@"
)
