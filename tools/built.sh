# For scripts that run a program of this repository: ./poolrun and bench/run begin with
#     here=THE TOP; source "$here/tools/built.sh"; want NAME
# `want` proves and builds the program of crate NAME, crate by crate, where it isn't built or a source of it is newer.
# It tells on standard error of each crate, ends with status 70 where there can be no program, and sets `program`.

stop() {
    echo "$name: $1" >&2
    exit 70
}

# puts into `crates` a crate behind all that it stands on
list() {
    local under
    [ -z "${is_listed[$1]}" ] || return 0
    is_listed[$1]=yes
    for under in ${uses[$1]}; do
        [ -z "${uses[$under]+here}" ] || list "$under"
    done
    crates+=("$1")
}

is_built() {
    local each part folders=()
    [ -x "$program" ] && [ -e "$built" ] || return 1
    for each in "${crates[@]}"; do
        for part in src specs proofs; do
            [ ! -d "$here/crates/$each/$part" ] || folders+=("$here/crates/$each/$part")
        done
    done
    [ -z "$(find "$here/crates.txt" "${folders[@]}" -newer "$built" -print -quit)" ]
}

# A build that is killed leaves only crates that are proved, and no mark; the crate at work is proved anew by the next.
end_build() {
    [ -z "$job" ] || kill "$job" 2>/dev/null
    rm -rf "$room"
}

# has rt work in a crate; a program that is built runs once, on its stored input
work() {
    local input=/dev/null
    [ "$1" != "$name" ] || [ ! -e "$crate/stdin" ] || input=$crate/stdin
    (cd "$here/crates/$1" && exec rt "$2") <"$input" >"$room/log" 2>&1 &
    job=$!
    if ! wait "$job"; then
        job=
        cat "$room/log" >&2
        stop "$1 wasn't proved and built, so there is no program; rt says why above"
    fi
    job=
}

# says how a crate fared, its seconds, and how many are left
tell() {
    local how="proved in $((SECONDS - $2)) seconds"
    [ "$here/crates/$1/out/rlib/stamp" -nt "$room/begun" ] || how="proved before"
    echo "$name: $1 $how, $3 left" >&2
}

build() {
    local each begun left=${#crates[@]}
    command -v rt >/dev/null || stop "the toolchain's command rt isn't on the path, so the program can't be built"
    room=$(mktemp -d) || stop "no folder for a log can be made"
    job=
    trap end_build EXIT
    trap 'exit 130' INT
    trap 'exit 143' TERM
    trap 'exit 129' HUP
    touch "$room/begun" && mkdir -p "$crate/out" && rm -f "$built" || stop "$crate/out can't be written"
    echo "$name: the program isn't built: $left crates are proved first, which takes about an hour where none is" >&2
    for each in "${crates[@]}"; do
        begun=$SECONDS left=$((left - 1))
        if [ "$each" = "$name" ]; then
            work "$each" run
        else
            work "$each" lib
            tell "$each" "$begun" "$left"
        fi
    done
    touch -r "$room/begun" "$built"
    echo "$name: $name proved and built in $((SECONDS - begun)) seconds, all of it in $SECONDS" >&2
    trap - EXIT INT TERM HUP
    end_build
}

want() {
    local line
    name=$1
    crate=$here/crates/$name
    program=$crate/out/$name
    # made once the program is built, with the time at which that build began
    built=$program.built
    # which crates of the repository each crate uses
    declare -gA uses=() is_listed=()
    crates=()
    while read -r line; do
        case $line in
        [a-z]*:*) uses[${line%%[: ]*}]=${line#*:} ;;
        esac
    done <"$here/crates.txt"
    list "$name"
    is_built || build
}
