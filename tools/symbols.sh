#!/bin/sh
# Holds what include/dnr.h says of the library's state and calls against the archive that tools/library.sh makes: the functions that it calls are just
# those of the header's sentence "no call but to ..", and it has no variable. Ends in 'N passed, M failed'.
set -u
cd "$(dirname "$0")/.." || exit 2
header=include/dnr.h
archive=${1:-target/staticlib/libdnr.a}
passed=0
failed=0

# same NAME WANTED GOT: one check that passes when both are the same.
same() {
    if [ "$2" = "$3" ]; then
        passed=$((passed + 1))
    else
        echo "symbols: $1: '$2' in $header, '$3' in $archive: FAILED"
        failed=$((failed + 1))
    fi
}

# The names of the sentence, which may go on in the next line of the comment, in the order of sort.
named() {
    tr '\n' ' ' <"$header" | sed 's/ \* */ /g' | sed -n 's/.*no call but to \([^.]*\)\..*/\1/p' | sed 's/,/ /g; s/ and / /g' | tr -s ' ' '\n' | sort | xargs
}

# of KINDS: the archive's symbols of these kinds (nm), without those that another of its members defines.
of() {
    nm -P "$archive" | awk -v kinds="$1" 'NF > 1 && $2 != "U" { defined[$1] = 1 }
        NF > 1 && index(kinds, $2) { found[$1] = 1 }
        END { for (name in found) if (kinds != "U" || !(name in defined)) print name }' | sort | xargs
}

if ! nm "$archive" >/dev/null; then
    echo "symbols: no $archive (tools/library.sh makes it): FAILED"
    echo "0 passed, 1 failed"
    exit 1
fi
calls=$(named)
[ -n "$calls" ] || calls="no sentence"
same "functions that are called" "$calls" "$(of U)"
same "variables" "" "$(of BbDdCSsGg)"
echo "$passed passed, $failed failed"
[ "$failed" -eq 0 ]
