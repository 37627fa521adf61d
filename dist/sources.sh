# What the program is made of. Read by ./cfix and dist/make, where `root` is the top of the repository.

crate=$root/crates/cfix_cli
program=$crate/out/cfix_cli

# The crates of the repository that the program stands on, lowest first, and its own last.
crates() {
    awk -F: '
        function walk(name,    below, count, at) {
            if (!(name in deps) || (name in seen)) return
            seen[name] = 1
            count = split(deps[name], below, " ")
            for (at = 1; at <= count; at++) walk(below[at])
            print name
        }
        !/^#/ && NF == 2 { deps[$1] = $2 }
        END { walk("cfix_cli") }' "$root/crates.txt"
}

# The folders of their sources, from the top of the repository, each with a byte 0 behind it.
folders() {
    local name folder
    for name in $(crates); do
        for folder in src specs proofs; do
            [[ -d $root/crates/$name/$folder ]] && printf '%s\0' "crates/$name/$folder"
        done
    done
}

# Whether a program that was built here is there, and no source is newer.
is_fresh() {
    [[ -x $program ]] && (
        cd "$root" && mapfile -d '' -t there < <(folders) &&
            [[ -z $(find crates.txt "${there[@]}" -newer "$program" -print -quit) ]]
    )
}

# The sum of the sources: of the lines of crates.txt that name those crates, and of their files.
sum_of_sources() (
    export LC_ALL=C
    cd "$root" || exit 1
    {
        for name in $(crates); do grep "^$name:" crates.txt; done
        folders | xargs -0 -I FOLDER find FOLDER -type f '(' -name '*.rt' -o -name '*.antt' ')' -print0 |
            sort -z | xargs -0 sha256sum
    } | sha256sum | cut -d ' ' -f 1
)
