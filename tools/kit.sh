# What a program or a library is made of, how the kit builds it, and whether there is room to build it. To be sourced by bash, by a script that
# has a function `stop`. Sets `kit_root`, the top of the repository, and `kit_id`, the kit's one line.

kit_root=$(dirname "$(dirname "$(readlink -f "${BASH_SOURCE[0]}")")")
# The kit is the one whose rt is on PATH. Without rt, or without the Python that it runs by, a program that is built still runs, as that of the kit that was kept.
kit_kept=$kit_root/target/kit
rt_missing='the command rt is not found: install the Rattle kit, and put its command rt on PATH.'
if ! kit_id=$(rt version 2>/dev/null) && ! { read -r kit_id <"$kit_kept"; } 2>/dev/null; then
    stop "$rt_missing"
fi

# The crates that a program or a library is made of, lowest first.
crates_of() { # CRATE
    awk -F: -v crate="$1" '
        function visit(name, cited, i, n) {
            if (name in seen || !(name in cites)) return
            seen[name]
            n = split(cites[name], cited, " ")
            for (i = 1; i <= n; i++) visit(cited[i])
        }
        /^[a-z]/ { split($1, words, " "); names[++count] = words[1]; cites[words[1]] = $2 }
        END {
            visit(crate)
            for (i = 1; i <= count; i++) if (names[i] in seen) print names[i]
        }' "$kit_root/crates.txt"
}

# The digest of the kit and of every file that rt builds a program from. It goes by what they hold, since a copy can have an old time.
digest_of() ( # PROGRAM
    cd "$kit_root" || exit 1
    mapfile -t folders < <(crates_of "$1" | sed 's,^,crates/,')
    {
        printf '%s\n' "$kit_id"
        find crates.txt "${folders[@]}" -name out -prune -o -type f \( -path crates.txt -o -path 'crates/*/src/*' -o -path 'crates/*/specs/*' -o -path 'crates/*/proofs/*' \) -print0 |
            LC_ALL=C sort -z | xargs -0 sha256sum
    } 2>/dev/null | sha256sum | cut -d ' ' -f 1
)

# Keeps a program that rt proved and built as the one of a digest. Another run sees each of the two files whole or not at all.
keep_program() { # PROGRAM DIGEST
    local kept=$kit_root/target/$1
    {
        mkdir -p "$kept" && printf '%s\n' "$kit_id" >"$kept/new" && mv "$kept/new" "$kit_kept" &&
            cp "$kit_root/crates/$1/out/$1" "$kept/new" && mv "$kept/new" "$kept/$2"
    } 2>/dev/null || stop "$kept/$2 could not be written."
}

# Proves and builds a static library, and puts it where its callers in C look for it: target/staticlib/libNAME.a.
build_archive() { # CRATE NAME LOG
    (cd "$kit_root/crates/$1" && rt lib) >"$3" 2>&1 </dev/null || {
        cat "$3" >&2
        stop "the library $1 is not built"
    }
    mkdir -p "$kit_root/target/staticlib"
    cp "$kit_root/crates/$1/out/lib$1.a" "$kit_root/target/staticlib/lib$2.a"
}

# Ends the script by its own `stop` where nothing can be built: in a folder of target/, or among the crates, where rt keeps what it proved.
ask_room() { # FOLDER
    { mkdir -p "$1" && [ -w "$1" ]; } 2>/dev/null || stop "$1 cannot be written, and something is to be built there."
    ask_megabytes "$1" 256
    ask_megabytes "$kit_root/crates" 3000
}

ask_megabytes() { # FOLDER COUNT
    local left
    read -r _ _ _ left _ < <(df -Pk "$1" | tail -n 1)
    [ "$((left / 1024))" -ge "$2" ] || stop "the disk of $1 has $((left / 1024)) MB left, and a build takes up to $2 MB."
}
