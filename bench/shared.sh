# What the parts of bench/run share. It is sourced, with `here` and `root` set.

fail() {
    echo "FAILED: $*" >&2
    exit 1
}

# --- The twin ---------------------------------------------------------------

target=$root/target/twin
twin=$target/release/twin
calls=$target/release/calls

# twin_cargo COMMAND ARGUMENT..: cargo on the twin, never from the network.
twin_cargo() {
    CARGO_TARGET_DIR=$target cargo "$1" --quiet --release --offline \
        --manifest-path "$here/twin/Cargo.toml" "${@:2}"
}

# build_twin: builds and tests it. A twin that fails its own tests is nothing to
# compare with.
build_twin() {
    twin_cargo build || fail "the twin can't be built"
    local tested
    tested=$(twin_cargo test 2>&1) || fail "the twin fails its own tests:"$'\n'"$tested"
}

# --- The compared files -----------------------------------------------------

kinds="valid valid-runs ticks damaged noise stops judged records rooms writer"
# Of each kind there is a small file, and files with seeds from 1 on; so many
# calls the small one has, and so many those of the short setting.
small_seed=1000 small_calls=500 short_calls=25000

tmp=$(mktemp -d) || fail "no temporary folder"
trap 'rm -rf "$tmp"' EXIT
trap 'exit 130' INT
trap 'exit 143' TERM
input=$tmp/input

# make KIND SEED COUNT: makes the input, and keeps how.
made=
make() {
    made="calls $1 $2 $3"
    "$calls" "$1" "$2" "$3" >"$input" || fail "no input of kind $1, seed $2"
}

# first_difference [NAME]: the first line in which the traces of the input differ:
# its number, what differs in it, and both lines. Nothing if they don't differ.
# Whoever asks has a function ours_trace, which writes one of the traces; its
# lines are told under the name, or as ours.
first_difference() {
    awk -v name="${1:-ours}" -v ours=<(ours_trace) -v twin=<("$twin" trace <"$input") '
        BEGIN {
            while (1) {
                more_ours = (getline a <ours) > 0
                more_twin = (getline b <twin) > 0
                if (!more_ours && !more_twin) exit
                line++
                if (!more_ours) a = "(no such line)"
                if (!more_twin) b = "(no such line)"
                if (a != b) break
            }
            split(a, x, " ")
            split(b, y, " ")
            split("number,length,bytes read,answer,state record", what, ",")
            for (i = 1; i <= 5 && x[i] == y[i]; i++) {}
            # A line that tells of no call is told whole.
            if (a !~ /^[0-9]/ || b !~ /^[0-9]/) i = 6
            place = ""
            if (i >= 4 && i <= 5) {
                for (j = 1; substr(x[i], j, 2) == substr(y[i], j, 2); j += 2) {}
                place = " at byte " (j - 1) / 2
            }
            print "call " line ": the " (i <= 5 ? what[i] : "line") " differs" place
            print name ": " a
            print "twin: " b
        }'
}
