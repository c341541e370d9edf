# Other libraries beside this one; sourced by `run`, which sets `here`, `kit` and `scratch`. None may use AES or SHA instructions.

peers=""

# Whether a file is there; else says which package has it.
is_there() {
    [ -e "$1" ] || { echo "bench: $2 is left out: package $3 is missing" >&2 && return 1; }
}

# Builds a peer's program over "$scratch/1/library.a": its name, and what the compiler needs.
build_peer() {
    peer=$1
    shift
    cc -O2 -I"$scratch" -I"$here" -o "$scratch/$peer" "$here/peers/$peer.c" "$scratch/1/library.a" "$kit/c/liblibc_c.a" "$@"
}

# Says so where a library has AES or SHA instructions, which no variable of the environment hides.
look_at() {
    if command -v objdump >/dev/null && objdump -d "$1" | grep -qE '[[:space:]]v?(aesenc|aesdec|sha1rnds4|sha256rnds2)'; then
        echo "bench: $1 has AES or SHA instructions, which may have run" >&2
    fi
}

build_peers() {
    folder=/usr/lib/$(cc -print-multiarch)
    if is_there /usr/include/openssl/aes.h OpenSSL libssl-dev; then
        build_peer openssl "$folder/libcrypto.a" -ldl -lpthread
        peers="$peers vpaes tables"
    fi
    if is_there /usr/include/nettle/aes.h Nettle nettle-dev; then
        build_peer nettle -lnettle
        peers="$peers nettle"
        if NETTLE_FAT_VERBOSE=1 run_peer nettle 0 2>&1 >/dev/null | grep -qE 'features:.*(aesni|sha_ni)'; then
            echo "bench: Nettle uses AES or SHA instructions" >&2
        fi
    fi
    if is_there /usr/include/mit-krb5/krb5.h "MIT Kerberos" libkrb5-dev; then
        build_peer mit -I/usr/include/mit-krb5 -L"$folder/mit-krb5" -lkrb5 -lk5crypto
        peers="$peers mit"
        look_at "$folder/libk5crypto.so.3"
    fi
    if is_there /usr/include/heimdal/krb5.h Heimdal heimdal-multidev; then
        build_peer heimdal -I/usr/include/heimdal -L"$folder/heimdal" -lkrb5 -lhcrypto
        peers="$peers heimdal"
        look_at "$folder/libhcrypto.so.5"
    fi
}

# Runs a peer's program: with no AES instructions, no carry-less product, no SHA instructions; `tables` with no SSSE3 either.
run_peer() {
    case $1 in
        vpaes) OPENSSL_ia32cap="~0x200000200000000:~0x20000000" "$scratch/openssl" "$2" vpaes ;;
        tables) OPENSSL_ia32cap="~0x200020200000000:~0x20000000" "$scratch/openssl" "$2" tables ;;
        nettle) NETTLE_FAT_OVERRIDE=vendor:intel "$scratch/nettle" "$2" ;;
        *) KRB5_CONFIG=/dev/null "$scratch/$1" "$2" ;;
    esac
}

# In awk, what a peer is called in a table.
titles='function title_of(peer) {
    if (peer == "vpaes") return "OpenSSL, permutes"
    if (peer == "tables") return "OpenSSL, tables"
    return peer == "nettle" ? "Nettle" : peer == "mit" ? "MIT" : "Heimdal"
}'

# The times of the peers, each with this library's time divided by it, and this library's divided by the least of them; then the last alone, with who that is.
print_ratios() {
    set -- "$scratch/least.1"
    for peer in $peers; do
        least_of "$scratch/times.$peer" >"$scratch/least.$peer"
        set -- "$@" "$scratch/least.$peer"
    done
    awk -F '\t' -v peers="$peers" "$titles"'
        BEGIN {
            count = split(peers, peer, " ")
            printf "| Call | ns |"
            for (n = 1; n <= count; n++) printf " %s |", title_of(peer[n])
            print " to the best |"
            printf "|---|---:|"
            for (n = 1; n <= count; n++) printf "---:|"
            print "---:|"
        }
        FILENAME != file { file = FILENAME; column++ }
        column == 1 { order[++rows] = $1 }
        { time[$1, column] = $2; if (column > 1) is_compared[$1] = 1; if (!($1 in is_known)) is_known[$1] = column }
        END {
            for (row = 1; row <= rows; row++) {
                call = order[row]
                if (!(call in is_compared)) continue
                printf "| %s | %.0f |", call, time[call, 1]
                best = 0
                for (n = 1; n <= count; n++) {
                    theirs = time[call, n + 1]
                    if (theirs == "") { printf " |"; continue }
                    printf " %.0f (%.2f) |", theirs, time[call, 1] / theirs
                    if (best == 0 || theirs < best) best = theirs
                }
                printf " %.2f |\n", time[call, 1] / best
            }
        }' "$@"
    printf '\n| Call | this library / the best | the best |\n|---|---:|---|\n'
    awk -F '\t' -v peers="$peers" "$titles"'
        BEGIN { split(peers, peer, " ") }
        FILENAME != file { file = FILENAME; column++ }
        column == 1 { order[++rows] = $1; time[$1] = $2; next }
        !($1 in least) || $2 < least[$1] { least[$1] = $2; best[$1] = peer[column - 1] }
        END {
            for (row = 1; row <= rows; row++) {
                call = order[row]
                if (call in least) printf "| %s | %.2f | %s |\n", call, time[call] / least[call], title_of(best[call])
            }
        }' "$@"
}
