# Files, links, pipes and devices, read and written; a part of tools/command.sh (tools/files.sh tries output files at length).

# ---- files

none='No such file or directory'
says "a file that is not there" 2 '' "dnr: $work/none: $none" "$dnr" show "$work/none"
says "a folder is no file" 2 '' "dnr: $work: Is a directory" "$dnr" read 2 "$work"
says "a file without a name" 2 '' "dnr: : $none" "$dnr" read 2 ''

# clear: no new file of an output is left (tools/files.sh tries output files at length).
clear() {
    test -z "$(find "$work" -name '.dnr.*')"
}

# saved NAME TARGET OPTION..: K1's octets are saved there, and nothing else is left; the option is -o TARGET where there is none.
saved() {
    what=$1
    target=$2
    shift 2
    [ $# -ne 0 ] || set -- -o "$target"
    says "$what" 0 '' '' "$dnr" write "$work/k1.rsv" "$@"
    step "$what: the octets" cmp "$work/octets" "$target"
    step "$what: nothing half-written" clear
}
rm "$work/new"
saved "a new file" "$work/new"
saved "-oFILE" "$work/new1" "-o$work/new1"
saved "--output FILE" "$work/new2" --output "$work/new2"
saved "--output=FILE" "$work/new3" "--output=$work/new3"
# A file whose name begins as an option does; a name may have the sign of --output=.
mkdir "$work/odd names"
cp "$work/octets" "$work/odd names/--json"
cp "$dnr" "$work/dnr"
chmod 755 "$work" "$work/dnr"
says "a file named --json" 0 "@$tests/k01-dhcp6.txt" '' env -C "$work/odd names" ../dnr read 2 -- --json
says "a file named --json, read as JSON" 0 "@$tests/k01-dhcp6.json" '' env -C "$work/odd names" ../dnr read 2 --json -- --json
saved "a name with =" "$work/odd names/a=b" "--output=$work/odd names/a=b"
says "a file named -o" 0 '' '' env -C "$work/odd names" ../dnr octets -o-o -- --json
step "a file named -o: the octets" cmp "$work/octets" "$work/odd names/-o"
for option in -o- --output=-; do
    says "octets $option" 0 "@$work/octets" '' "$dnr" octets "$work/octets" $option
done
echo longer than the octets that take its place, so that an end of it would be seen >"$work/new"
saved "a file that is there" "$work/new"
says "a folder that is not there" 2 '' "dnr: $work/none/new: $none" "$dnr" write "$work/k1.rsv" -o "$work/none/new"
says "a folder" 2 '' "dnr: $work: Is a directory" "$dnr" write "$work/k1.rsv" -o "$work"
step "a folder: nothing half-written" clear
echo old >"$work/new"
says "a refusal" 1 '' "dnr: /dev/null: refused, 40: $(words 40)" "$dnr" write /dev/null -o "$work/new"
step "a refusal leaves the file" test "$(cat "$work/new")" = old
(
    trap '' XFSZ
    ulimit -f 0
    "$dnr" write "$work/k1.rsv" -o "$work/new" 2>&1
    echo "status $?"
) | cat >"$work/out"
printf 'dnr: %s: File too large\nstatus 2\n' "$work/new" >"$work/wanted"
step "a disk that is full" cmp "$work/wanted" "$work/out"
step "a disk that is full leaves the file" test "$(cat "$work/new")" = old
step "a disk that is full: nothing half-written" clear
rm -f "$work"/.dnr.*

# ---- links

mkdir "$work/folder"
ln -s folder/linked "$work/link"
saved "a link that leads nowhere yet" "$work/link"
echo old >"$work/folder/linked"
ln -s "$work/link" "$work/folder/links"
saved "a link to a link" "$work/folder/links"
step "links stay links" test -L "$work/link" -a -L "$work/folder/links" -a ! -L "$work/folder/linked"

# A folder where nothing may be made, for a user who is not root.
chmod 555 "$work/folder"
user=
[ "$(id -u)" -ne 0 ] || user="setpriv --reuid=65534 --regid=65534 --clear-groups"
if $user true 2>/dev/null; then
    says "a folder that is read-only" 2 '' "dnr: $work/folder/new: Permission denied" \
        $user "$work/dnr" write "$work/k1.rsv" -o "$work/folder/new"
    chmod 000 "$work/octets"
    says "a file that may not be read" 2 '' "dnr: $work/octets: Permission denied" $user "$work/dnr" read 2 "$work/octets"
    chmod 644 "$work/octets"
fi
chmod 755 "$work/folder"

# pipes and devices, which are written to and stay
mkfifo "$work/pipe"
(sleep 1 && cat "$work/pipe") >"$work/piped" &
says "a pipe" 0 '' '' "$dnr" write "$work/k1.rsv" -o "$work/pipe"
wait
if [ -p "$work/pipe" ]; then
    step "a pipe: the octets" cmp "$work/octets" "$work/piped"
    says "/dev/null" 0 '' '' "$dnr" write "$work/k1.rsv" -o /dev/null
    step "/dev/null stays" test -c /dev/null
    says "/dev/full" 2 '' 'dnr: /dev/full: No space left on device' "$dnr" write "$work/k1.rsv" -o /dev/full
    step "/dev/full stays" test -c /dev/full
fi
: >"$work/out"
"$dnr" show "$work/k1.rsv" >/dev/full 2>"$work/err"
step "standard output that is full" gave 2 '' 'dnr: standard output: No space left on device' $?
"$dnr" write "$work/k1.rsv" -o - >&- 2>"$work/err"
step "standard output that is closed" gave 2 '' 'dnr: standard output: Bad file descriptor' $?
"$dnr" read 2 <&- 2>"$work/err"
step "standard input that is closed" gave 2 '' 'dnr: standard input: Bad file descriptor' $?
