# Builds the library that C calls; sourced by `run`, `secrets` and `proxy`, which set `here`, `kit` and `scratch`. `proxy` sets the next two anew.

libraries="krb_crypto_block krb_crypto_message krb_der krb_enc_parts krb_crypto krb_pac sha1 sha2"
source=lib.rt.in

# The lines of a crates.txt (lowest first) for the libraries in `wanted`, and for what they depend on.
lines_of() {
    awk -v wanted="$wanted" '
        BEGIN { split(wanted, names, " "); for (i in names) needed[names[i]] }
        { sub(/#.*/, ""); line[NR] = $0 }
        END {
            for (n = NR; n > 0; n--) {
                count = split(line[n], words, /[: ]+/)
                if (words[1] in needed) for (i = 2; i <= count; i++) needed[words[i]]
                else line[n] = ""
            }
            for (n = 1; n <= NR; n++) if (line[n] != "") print line[n]
        }' "$1"
}

# Ends where a command failed, with what it printed.
fail() {
    cat "$scratch/log" >&2
    exit 1
}

# Proves those crates of a repository in "$2", but for what the kit kept, and builds "$2/library.a" over them. LIBRARY names one that is built.
build_library() {
    repository=$1 made=$2 has_tables=
    mkdir -p "$made/.git" "$made/crates"
    if [ -n "${LIBRARY:-}" ]; then
        cp "$LIBRARY" "$made/library.a"
        return
    fi
    wanted=$libraries
    if [ $source = lib.rt.in ] && [ -e "$repository/crates/krb_crypto/src/prepared.rt" ]; then
        wanted="$libraries krb_crypto_aes_tables" has_tables=1
    fi
    cp "$repository/HANDLES" "$made"
    lines_of "$repository/crates.txt" >"$made/crates.txt"
    set --
    for crate in $(sed 's/:.*//' "$made/crates.txt"); do
        mkdir "$made/crates/$crate"
        for part in src specs proofs; do
            if [ -e "$repository/crates/$crate/$part" ]; then
                cp -Rp "$repository/crates/$crate/$part" "$made/crates/$crate/"
            fi
        done
        set -- "$@" -L "dependency=$made/crates/$crate/out/rlib"
    done
    echo "bench: proving what is not proved yet of $repository" >&2
    (cd "$made" && rt ci) >"$scratch/log" 2>&1 || fail
    for crate in std $wanted; do
        if [ -d "$made/crates/$crate" ]; then
            set -- "$@" --extern "$crate=$made/crates/$crate/out/rlib/$crate.rlib"
        else
            set -- "$@" --extern "$crate=$kit/rlibs/$crate.rlib"
        fi
    done
    mkdir -p "$made/crates/bench/src"
    cp "$here/$source" "$made/crates/bench/src/lib.rt"
    if [ -n "$has_tables" ]; then
        cp "$here/prepared.rt.in" "$made/crates/bench/src/prepared.rt"
        echo "mod prepared;" >>"$made/crates/bench/src/lib.rt"
    fi
    echo "bench: building the library" >&2
    "$kit/bin/rattle" build --crate-name bench --crate-type staticlib --links bench= "$@" -L "dependency=$kit/rlibs" --jobs "$(nproc)" \
        --toolchain "$kit/toolchain" --antt-project "$kit/rattle/logic/antt-project.json" --logic-built "$kit/logic_built" \
        -o "$made/library.a" "$made/crates/bench/src/lib.rt" >"$scratch/log" 2>&1 || fail
}
