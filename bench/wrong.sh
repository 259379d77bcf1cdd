# The wrong boards. It is sourced, after shared.sh.
#
# A wrong board is the twin with a mistake, written down as an edit of its source
# in bench/wrong/NAME.edit:
#
#   # What is wrong: the rule that it breaks
#   file: src/board.rs
#   old: an exact line of that file, which is there once
#   new: the line in its place
#
# After the colon comes one space, then the line with its own indentation. There
# may be more pairs of old and new, and more files. A comment `# same: WHY` says
# that no call can show the edit; then no file may differ.

wrong_source=$root/target/wrong/twin
wrong_target=$root/target/wrong/build
ours=$wrong_target/debug/twin

# The least there is to build: all the boards together are built more often than
# a board performs a file. As in the twin itself, a sum may wrap.
build_wrong() {
    CARGO_TARGET_DIR=$wrong_target CARGO_PROFILE_DEV_OPT_LEVEL=0 CARGO_PROFILE_DEV_DEBUG=0 \
        CARGO_PROFILE_DEV_DEBUG_ASSERTIONS=false CARGO_PROFILE_DEV_OVERFLOW_CHECKS=false \
        cargo build --quiet --offline --bin twin \
        --manifest-path "$wrong_source/Cargo.toml" 2>"$tmp/errors"
}

# A mistake may also be a loop that doesn't end.
perform_wrong() {
    timeout 60 "$ours" "$@" <"$input" 2>/dev/null
}

ours_trace() {
    perform_wrong trace
}

# --- Editing ----------------------------------------------------------------

# replace_line FILE OLD NEW: puts a line in the place of the one that is OLD.
replace_line() {
    OLD=$2 NEW=$3 awk '
        $0 == ENVIRON["OLD"] { $0 = ENVIRON["NEW"]; found++ }
        { print }
        END { exit found == 1 ? 0 : found ? 4 : 3 }
    ' "$1" >"$tmp/edited"
    case $? in
    0) cat "$tmp/edited" >"$1" ;;
    3) echo "the old line isn't in ${1#"$wrong_source/"}: $2" && return 1 ;;
    4) echo "the old line is more than once in ${1#"$wrong_source/"}: $2" && return 1 ;;
    *) echo "${1#"$wrong_source/"} can't be edited" && return 1 ;;
    esac
}

# apply EDIT: the twin's source with this edit. Says why if it doesn't apply.
apply() {
    rm -rf "$wrong_source" && mkdir -p "$wrong_source" &&
        cp -r "$here/twin/Cargo.toml" "$here/twin/Cargo.lock" "$here/twin/src" "$wrong_source" ||
        fail "the twin's source can't be copied"
    local line file= old= edits=0
    while IFS= read -r line; do
        case $line in
        '#'* | '') ;;
        'file: src/'*) file=$wrong_source/${line#file: } ;;
        'old: '*) old=${line#old: } ;;
        'new: '*)
            [ -f "$file" ] || { echo "no file to edit before: $line" && return 1; }
            [ -n "$old" ] || { echo "no old line before: $line" && return 1; }
            replace_line "$file" "$old" "${line#new: }" || return 1
            old=
            ((++edits))
            ;;
        *) echo "not of the form: $line" && return 1 ;;
        esac
    done <"$1"
    [ -z "$old" ] || { echo "an old line without a new one: $old" && return 1; }
    [ "$edits" -gt 0 ] || { echo "nothing is edited" && return 1; }
}

# --- Comparing --------------------------------------------------------------

# make_files: the files of the short setting, and what the twin writes of them.
# The small ones come first: they find most, and soon.
make_files() {
    files=()
    local kind
    for kind in $kinds; do make_file "$kind" $small_seed $small_calls; done
    for kind in $kinds; do make_file "$kind" 1 $short_calls; done
}

make_file() {
    make "$@"
    mv "$input" "$tmp/$1-$2"
    "$twin" <"$tmp/$1-$2" >"$tmp/$1-$2.twin" || fail "the twin failed on $made"
    files+=("$1-$2")
}

# difference STATUS: what differs first in the input, on one line.
difference() {
    first_difference | awk -v status="$1" '
        NR == 1 { what = $0 }
        NR == 2 { wrong = substr($0, 7) }
        NR == 3 { right = substr($0, 7) }
        END {
            if (wrong !~ /^[0-9]/) {
                sub(/:.*/, "", what)
                print what ": it ends there, with " status
                exit
            }
            split("number,length,bytes read,answer,state record", names, ",")
            for (i = 1; i < 5 && index(what, "the " names[i] " ") == 0; i++) {}
            split(wrong, x, " ")
            split(right, y, " ")
            if (i >= 4) {
                place = what
                sub(/.* /, "", place)
                x[i] = substr(x[i], 2 * place + 1, 2)
                y[i] = substr(y[i], 2 * place + 1, 2)
            }
            print what ": " x[i] ", not " y[i]
        }'
}

# find_difference: the first file of which the wrong board writes something else,
# and what differs in it; fails if there is none. A file that the wrong board
# doesn't perform to its end differs too.
find_difference() {
    local file status
    for file in "${files[@]}"; do
        input=$tmp/$file
        perform_wrong >"$tmp/wrong"
        status=$?
        if [ $status != 0 ] || ! cmp -s "$tmp/wrong" "$input.twin"; then
            found_by=${file%-*}
            found="$found_by, seed ${file##*-}, $(difference $status)"
            return 0
        fi
    done
    return 1
}

# try NAME: finds the wrong board, and says how; fails if it isn't found, or if
# one that is said to be no other board is.
try() {
    local edit=$here/wrong/$1.edit same why
    [ -f "$edit" ] || { echo "$1: NO EDIT of this name" && return 1; }
    why=$(apply "$edit") || { echo "$1: DOESN'T APPLY: $why" && return 1; }
    build_wrong || { echo "$1: DOESN'T BUILD:" && cat "$tmp/errors" && return 1; }
    same=$(sed -n 's/^# same: //p' "$edit")
    found_by= found=
    find_difference
    if [ -n "$same" ]; then
        [ -z "$found_by" ] || { echo "$1: IS ANOTHER BOARD: $found" && return 1; }
        echo "$1: is no other board: $same"
        found_by=same
    else
        [ -n "$found_by" ] || { echo "$1: NOT FOUND" && return 1; }
        echo "$1: $found"
    fi
}

# wrong_boards [NAME..]: tries all of them, or those named.
wrong_boards() {
    build_twin
    make_files
    local name failed=() kind
    [ $# -gt 0 ] || set -- $(cd "$here/wrong" && ls | sed -n 's/\.edit$//p')
    [ $# -gt 0 ] || fail "there are no wrong boards"
    declare -A found_count
    for name in "$@"; do
        if try "$name"; then
            found_count[$found_by]=$((${found_count[$found_by]:-0} + 1))
        else
            failed+=("$name")
        fi
    done
    echo
    for kind in $kinds; do
        echo "first found by $kind: ${found_count[$kind]:-0}"
    done
    echo "no other board: ${found_count[same]:-0}"
    echo "$# wrong boards, $(($# - ${#failed[@]})) as they should be"
    [ ${#failed[@]} = 0 ] || fail "${failed[*]}"
}
