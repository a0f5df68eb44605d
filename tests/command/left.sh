# Readings without all that was to be found: the file that would be replaced, and --strict; a part of tools/command.sh.

# ---- a sheet without records, and the file that it would replace

octets 52535600010200 >"$work/none.rsv"
none="dnr: standard input: $(nothing 2 0)"
discard=$(discards examples/k07-dhcp6.hex 1 4 21)
kept='left as it is: it has records, and the new sheet has none; --force replaces it'

# left NAME SAID WORDS: the file stays the sheet of K1.
left() {
    says "$1" 2 '' "dnr: $work/left: $kept
$2" "$dnr" read 2 $3
    step "$1: the file" cmp "$work/k1.rsv" "$work/left"
    step "$1: nothing half-written" clear
}

# replaced NAME SAID STATUS WORDS: the file becomes the sheet without records.
replaced() {
    says "$1" "$3" '' "$2" "$dnr" read 2 $4
    step "$1: the file" cmp "$work/none.rsv" "$work/left"
}

cp "$work/k1.rsv" "$work/left"
left "nothing found" "$none" "-o $work/left"
left "nothing found, -oFILE" "$none" "-o$work/left"
left "nothing found, --output=FILE" "$none" "--output=$work/left --strict"
left "all discarded" "$discard" "examples/k07-dhcp6.hex -o $work/left"
ln -s left "$work/leads"
says "nothing found, a link" 2 '' "dnr: $work/leads: $kept
$none" "$dnr" read 2 -o "$work/leads"
step "nothing found, a link: the file" cmp "$work/k1.rsv" "$work/left"
replaced "nothing found, --force" "$none" 0 "--force -o $work/left"
cp "$work/k1.rsv" "$work/left"
replaced "all discarded, --force --strict" "$discard" 3 "--strict examples/k07-dhcp6.hex -o $work/left --force"
replaced "a file without records" "$none" 0 "-o $work/left"
echo text >"$work/left"
replaced "a file that is no sheet" "$none" 0 "-o $work/left"
cp "$work/octets" "$work/left"
replaced "an area" "$none" 3 "--strict -o $work/left"
(cat "$work/k1.rsv" && echo) >"$work/left"
replaced "a sheet and an octet more" "$none" 0 "-o $work/left"
rm "$work/left"
replaced "no file" "$none" 0 "-o $work/left"
says "records" 0 '' '' "$dnr" read 2 examples/k01-dhcp6.hex -o "$work/left"
step "records take the place of none" cmp "$work/k1.rsv" "$work/left"
says "records for records" 0 '' '' "$dnr" read 2 examples/k12-dhcp6.hex -o "$work/left"
says "records for records: their names" 0 "$(sed '$d' "$tests/k12-dhcp6.txt")" '' "$dnr" show "$work/left"
says "nothing found, -o -" 0 "@$work/none.rsv" "$none" "$dnr" read 2 -o -
says "nothing found, a device" 0 '' "$none" "$dnr" read 2 -o /dev/null

# ---- --strict: 3 where nothing is found or something is discarded

# strict NAME STATUS OUT ERR WORDS
strict() {
    says "--strict, $1" "$2" "$3" "$4" "$dnr" read --strict $5
}
strict "all good" 0 "@$tests/k12-dhcp6.txt" '' "2 examples/k12-dhcp6.hex"
strict "JSON, all good" 0 "@$tests/k01-dhcp6.json" '' "2 --json examples/k01-dhcp6.hex"
strict "one of two discarded" 3 "@$tests/escaped-ike4.txt" "$(discards examples/escaped-ike4.hex 2 58 20)" \
    "4 examples/escaped-ike4.hex"
strict "one of one discarded" 3 "@$tests/k07-dhcp6.txt" "$discard" "2 examples/k07-dhcp6.hex"
strict "nothing found" 3 "@$tests/k06-dhcp6.txt" "dnr: examples/k06-dhcp6.hex: $(nothing 2 0)" "2 examples/k06-dhcp6.hex"
tells "--strict, JSON, nothing found" 3 "@$tests/k06-dhcp6.json" "dnr: examples/k06-dhcp6.hex: $(nothing 2 0)" \
    "$dnr" read --strict 2 --json examples/k06-dhcp6.hex
strict "refused" 1 '' "dnr: examples/cut-dhcp6.hex: refused, 3: $(words 3)" "2 examples/cut-dhcp6.hex"
strict "no octets" 2 '' "dnr: $work/odd: line 1: $known" "2 $work/odd"
strict "no such file" 2 '' "dnr: $work/nowhere: No such file or directory" "2 $work/nowhere"
"$dnr" read 2 --strict >/dev/full 2>"$work/err" </dev/null
status=$?
: >"$work/out"
step "--strict, a full standard output" gave 2 '' "dnr: standard output: No space left on device
$none" $status
