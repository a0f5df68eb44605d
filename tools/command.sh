#!/bin/sh
# Runs build/dnr, or the program that DNR names, as a user would: each command, each exit status, files, devices and wrong command lines. The
# expected texts in tests/command were written from docs/COMMAND.md and docs/RULES.md; tests/command/inputs.py has many more inputs, tools/show.py
# many more sheets. Ends in 'N passed, M failed'.
set -u
cd "$(dirname "$0")/.." || exit 2
work=$(mktemp -d) || exit 2
trap 'rm -rf "$work"' EXIT
dnr=${DNR:-build/dnr}
tests=tests/command
passed=0
failed=0
if [ ! -x "$dnr" ]; then
    echo "command: there is no program $dnr"
    echo "0 passed, 1 failed"
    exit 1
fi

# step NAME COMMAND..: one check that passes when the command does.
step() {
    name=$1
    shift
    if "$@"; then
        passed=$((passed + 1))
    else
        echo "command: $name: FAILED"
        failed=$((failed + 1))
    fi
}

# wanted TEXT FILE: nothing, the text as a line, or the contents of a file that is named after an @.
wanted() {
    case $1 in
        '') : ;;
        @*) cat "${1#@}" ;;
        *) printf '%s\n' "$1" ;;
    esac >"$work/$2"
}

# gave STATUS OUT ERR GOT: whether the last command ended so and wrote just that.
gave() {
    wanted "$2" wanted-out
    wanted "$3" wanted-err
    if [ "$4" -ne "$1" ]; then
        echo "exit status $4 instead of $1"
        cat "$work/err"
        return 1
    fi
    diff "$work/wanted-out" "$work/out" && diff "$work/wanted-err" "$work/err"
}

# says NAME STATUS OUT ERR COMMAND..: one check of what a command writes and how it ends; standard input is $work/in, emptied after it.
says() {
    name=$1
    status=$2
    out=$3
    err=$4
    shift 4
    "$@" <"$work/in" >"$work/out" 2>"$work/err"
    step "$name" gave "$status" "$out" "$err" $?
    : >"$work/in"
}

# octets HEX: the octets themselves.
octets() {
    printf %s "$1" | tr a-f A-F | basenc --base16 -d
}

# repeated N TEXT
repeated() {
    yes "$2" | head -n "$1" | tr -d '\n'
}

# words NUMBER
words() {
    sed -n "s/^$1 //p" "$tests/words.txt"
}

# nothing CARRIER N: what is said of N octets in which nothing is found, without the name of the input.
nothing() {
    case $1 in
        1) echo "no option 162 in $2 octets" ;;
        2 | 3) echo "no option 144 in $2 octets" ;;
        4) echo "no attribute 27 in $2 octets" ;;
        5) echo "no attribute 28 in $2 octets" ;;
    esac
}

. "$tests/said.sh"

# The name, the address and the parameters of the boundary pieces, and the sheet of K1 (RULES K1).
: >"$work/in"
N=04646f6831076578616d706c6503636f6d00
A=20010db8012203000000000000000001
P=0001000403646f74
R=00010000000001 # a record's priority, lifetime and mode
octets "52535600010201${R}12${N}01${A}0008${P}" >"$work/k1.rsv"

# ---- reading the examples

for hex in examples/*-*.hex; do
    piece=$(basename "$hex" .hex)
    carrier=${piece##*-}
    said=
    case $piece in
        cut-*) continue ;;
        k06-*) said="dnr: $hex: $(nothing 2 0)" ;;
        escaped-*) said=$(discards "$hex" 2 58 20) ;;
        k07-*) said=$(discards "$hex" 1 4 21) ;;
        k10-*) said=$(discards "$hex" 1 28 25) ;;
        k11-*) said=$(discards "$hex" 1 31 29) ;;
        several-*) said="dnr: $hex: block 1, octet 28: address 127.0.0.1 dropped: multicast or loopback" ;;
    esac
    says "read $piece" 0 "@$tests/$piece.txt" "$said" "$dnr" read "$carrier" "$hex"
    if [ -e "$tests/$piece.json" ]; then
        tells "read --json $piece" 0 "@$tests/$piece.json" "$said" "$dnr" read "$carrier" --json "$hex"
    fi
    rm -f "$work/sheet" "$work/again"
    says "read -o $piece" 0 '' "$said" "$dnr" read "$carrier" "$hex" -o "$work/sheet"
    says "write -o $piece" 0 '' '' "$dnr" write "$work/sheet" -o "$work/area"
    said=
    case $piece in
        k06-* | k07-* | k10-*) said="dnr: $work/area: $(nothing 2 0)" ;;
        k11-*) said="dnr: $work/area: $(nothing 3 0)" ;;
    esac
    says "read $piece again" 0 '' "$said" "$dnr" read --raw "$carrier" "$work/area" -o "$work/again"
    step "the sheet of $piece again" cmp "$work/sheet" "$work/again"
done
says "read cut" 1 '' "dnr: examples/cut-dhcp6.hex: refused, 3: $(words 3)" "$dnr" read dhcp6 examples/cut-dhcp6.hex

# What writing gives of these is the area itself.
for piece in k01-dhcp6 k02-dhcp4 k03-ra k04-ra k05-ike6 k08-dhcp4 k09-dhcp4; do
    (tr -d ' \n' <"examples/$piece.hex" && echo) | fold -w 32 | sed 's/../& /g; s/ $//' >"$work/hex"
    "$dnr" read "${piece##*-}" "examples/$piece.hex" -o - >"$work/in"
    says "write $piece" 0 "@$work/hex" '' "$dnr" write
done
"$dnr" read 2 examples/k01-dhcp6.hex -o "$work/sheet"
step "the sheet of K1" cmp "$work/k1.rsv" "$work/sheet"

# ---- forms of input (tools/forms.py tries them at length)

area=0090003000010012${N}0010${A}${P}
printed='00 90 00 30 00 01 00 12 04 64 6f 68 31 07 65 78
61 6d 70 6c 65 03 63 6f 6d 00 00 10 20 01 0d b8
01 22 03 00 00 00 00 00 00 00 00 01 00 01 00 04
03 64 6f 74'
# form NAME FLAGS: the input of $work/in is K1.
form() {
    says "$1" 0 "@$tests/k01-dhcp6.txt" '' "$dnr" read 2 $2
}
octets "$area" >"$work/in"
form "octets" ''
octets "$area" >"$work/in"
form "octets, --raw" --raw
octets "$area" >"$work/in"
form "octets as -" '- --raw'
printf %s "$area" >"$work/in"
form "digits only" ''
printf %s "$area" | tr a-f A-F >"$work/in"
form "capital digits, --hex" --hex
printf '%s\n' "$printed" | tr ' ' : >"$work/in"
form "colons" ''
printf '%s\n' "$printed" | sed 's/$/\r/; s/ /\t/' >"$work/in"
form "tabs and carriage returns" ''
printf ' \t%s \r\n' "$area" >"$work/in"
form "blanks around" ''
printf '%s\n' "$area" >"$work/in"
says "digits taken as octets" 1 '' "dnr: standard input: refused, 3: $(words 3)" "$dnr" read 2 --raw
known='not octets in a form I know; --raw takes the input as it is'
octets "$area" >"$work/in"
says "octets taken as digits" 2 '' "dnr: standard input: line 1: $known" "$dnr" read 2 --hex
printf '%s0' "$area" >"$work/odd"
says "an odd digit" 2 '' "dnr: $work/odd: line 1: $known" "$dnr" read --hex 2 "$work/odd"
says "an odd digit, without --hex" 2 '' "dnr: $work/odd: line 1: $known" "$dnr" read 2 "$work/odd"
printf '%s\n' "$area" | base64 >"$work/in"
says "base64, without --base64" 2 '' "dnr: standard input: line 1: $known" "$dnr" read 2
octets "$area" | base64 >"$work/in"
form "base64" --base64
none="dnr: standard input: $(nothing 2 0)"
says "nothing" 0 "@$tests/k06-dhcp6.txt" "$none" "$dnr" read 2
for flag in --hex --raw --base64; do
    says "nothing, $flag" 0 "@$tests/k06-dhcp6.txt" "$none" "$dnr" read 2 $flag -
done
printf ' \n' >"$work/in"
says "a blank line, --hex" 0 "@$tests/k06-dhcp6.txt" "$none" "$dnr" read 2 --hex
printf '\n' >"$work/in"
says "a line break as an octet" 1 '' "dnr: standard input: refused, 3: $(words 3)" "$dnr" read 2 --raw

# ---- octets

printf '%s\n' "$area" >"$work/in"
says "octets of digits" 0 "$printed" '' "$dnr" octets
octets "$area" >"$work/octets"
says "octets as they are" 0 "$printed" '' "$dnr" octets "$work/octets"
base64 "$work/octets" >"$work/in"
says "octets of base64" 0 "$printed" '' "$dnr" octets --base64 -
for dump in xxd hexdump-C od-Ax-tx1 tshark-x tcpdump-xx; do
    says "octets of $dump" 0 '' '' "$dnr" octets "tests/forms/text/$dump.area-dhcp6.txt" -o "$work/new"
    step "octets of $dump: a file" cmp "$work/octets" "$work/new"
done
says "octets -o -" 0 "@$work/octets" '' "$dnr" octets "$work/new" -o -
printf '00\n' >"$work/in"
says "octets of digits, --raw" 0 '30 30 0a' '' "$dnr" octets --raw
says "octets of nothing" 0 '' '' "$dnr" octets
says "octets of nothing, -o" 0 '' '' "$dnr" octets /dev/null -o "$work/new"
step "octets of nothing, -o: a file of no octets" test -e "$work/new" -a ! -s "$work/new"

# ---- sheets

says "show" 0 "@$tests/kinds.txt" '' "$dnr" show "$tests/kinds.hex"
tells "show --json" 0 "@$tests/kinds.json" '' "$dnr" show --json "$tests/kinds.hex"
cp "$work/k1.rsv" "$work/in"
says "show of standard input" 0 "$(sed '$d' "$tests/k01-dhcp6.txt")" '' "$dnr" show
cp "$work/k1.rsv" "$work/in"
says "show --json of standard input" 0 "$(sed 's/.*"sheet"://; s/}$//' "$tests/k01-dhcp6.json")" '' "$dnr" show --json
cp "$work/k1.rsv" "$work/in"
says "write prints" 0 "$printed" '' "$dnr" write
octets 52535600010500 >"$work/in"
says "write of no records" 0 '' '' "$dnr" write
cp "$work/k1.rsv" "$work/in"
says "write -o -" 0 "@$work/octets" '' "$dnr" write -o -

# address CARRIER NAME HEX TEXT: a sheet with this one address shows it so.
address() {
    octets "52535600010${1}01${R}0301610001${3}0000" >"$work/in"
    says "address $4" 0 "$2 (carrier $1), 1 record

a
    priority        1
    address         $4" '' "$dnr" show
}
address 1 DHCPv4 c0000201 192.0.2.1
address 1 DHCPv4 00000000 0.0.0.0
address 1 DHCPv4 ffffffff 255.255.255.255
address 1 DHCPv4 0a096463 10.9.100.99
# Examples of RFC 5952 §4 and §5, and the ends of each of its rules.
while read -r hex text; do
    address 2 DHCPv6 "$hex" "$text"
done <<'END'
20010db8000000000000000000000001 2001:db8::1
20010db8000000000000000000020001 2001:db8::2:1
20010db8000000010001000100010001 2001:db8:0:1:1:1:1:1
20010000000000010000000000000001 2001:0:0:1::1
20010db8000000000001000000000001 2001:db8::1:0:0:1
20010db800000000aaaa000000000001 2001:db8::aaaa:0:0:1
20010db800010002000300040005abcd 2001:db8:1:2:3:4:5:abcd
00000000000000000000000000000000 ::
00010000000000000000000000000000 1::
fe800000000000000000000000010002 fe80::1:2
00000001000000010000000100000100 0:1:0:1:0:1:0:100
00000000000100010001000100000000 ::1:1:1:1:0:0
00000000000000000000ffffc0000280 ::ffff:192.0.2.128
00000000000000000000ffff00000000 ::ffff:0.0.0.0
000000000000000000000000c0000280 ::c000:280
00000000000000000001ffffc0000280 ::1:ffff:c000:280
0064ff9b0000000000000000c0000221 64:ff9b::c000:221
END

# refused NUMBER HEX: the sheet is refused, by `write` and by `show`.
refused() {
    for command in write show; do
        octets "$2" >"$work/in"
        says "$command refuses by $1" 1 '' "dnr: standard input: refused, $1: $(words "$1")" "$dnr" $command
    done
}
refused 40 525356000102
refused 40 52535700010200
refused 41 52535600020200
refused 42 52535600010600
refused 4 52535600010211
refused 43 "52535600010201${R}12${N}01${A}0008${P}00"
refused 43 525356000102010001000000000203016100
refused 43 5253560001020200020000000000030161000001000000000003016100
refused 43 525356000102010001000000010003016100
refused 21 525356000102010000000000000003016100
refused 21 5253560001020200000000000000030161000001000000000003015f00
refused 23 "52535600010201${R}12${N}000000"
refused 23 525356000104010001000000000003016100
refused 24 "52535600010201${R}12${N}40$(repeated 64 "$A")0000"
refused 25 "52535600010201${R}12${N}01000000000000000000000000000000010000"
refused 26 "52535600010201${R}12${N}01${A}0004ffff0000"
refused 27 "52535600010201${R}12${N}01${A}000400040000"
refused 28 "52535600010201${R}12${N}01${A}000400010000"
refused 28 "52535600010201${R}12${N}01${A}000400020000"
refused 44 "52535600010301${R}12${N}3f$(repeated 63 "$A")0400ff0003fc$(repeated 1020 00)"

# discarded FAULT OCTET END HEX: the one block of a DHCPv6 area is discarded (tools/findings.py tries this at length).
discarded() {
    at=
    [ "$1" -ne 22 ] || at=" at octet $2 of its block"
    octets "$4" >"$work/in"
    says "a block discarded for $1" 0 "DHCPv6 (carrier 2), 0 records
found 1, discarded 1, fault $1$at" "$(discards 'standard input' 1 "$2" "$1")$3" "$dnr" read 2
}
discarded 20 7 '' 00900003000100
discarded 21 4 '' "0090001600000012$N"
discarded 22 9 '; an underscore' 0090000700010003015f00
discarded 23 26 '' "0090001800010012${N}0000"
discarded 24 1036 '' "0090041800010012${N}0400$(repeated 64 "$A")"
discarded 25 28 '' "0090002800010012${N}001000000000000000000000000000000001"
discarded 26 44 '; parameter key65535' "0090002c00010012${N}0010${A}ffff0000"
discarded 27 44 '; parameter key6' "0090002c00010012${N}0010${A}00060000"
discarded 28 44 '; parameter alpn' "0090002c00010012${N}0010${A}00010000"
discarded 28 44 '; parameter no-default-alpn' "0090002c00010012${N}0010${A}00020000"

repeated 17 "0090001600010012$N" >"$work/in"
says "seventeen records" 1 '' "dnr: standard input: refused, 4: $(words 4)" "$dnr" read 2
octets 9000 >"$work/in"
says "a length of 0" 1 '' "dnr: standard input: refused, 3: $(words 3)" "$dnr" read ra

# ---- command lines

tab=$(printf '\t')
while IFS=$tab read -r ends what line; do
    case $ends in
        prints)
            "$dnr" $line <"$work/in" >"$work/printed" 2>"$work/err"
            status=$?
            head -1 "$work/printed" >"$work/out"
            carrier=${what#*(carrier }
            step "dnr $line" gave 0 "$what" "dnr: /dev/null: $(nothing "${carrier%%)*}" 0)" $status
            ;;
        fails)
            file=${what%%: *}
            told=
            ! heard $line || told="{\"message\":\"$file: errno 2\",\"status\":2,\"errno\":2}"
            says "dnr $line" 2 "$told" "dnr: $what" "$dnr" $line
            ;;
        wrong)
            told=
            ! heard $line || told=$(objects "dnr: $what")
            says "dnr $line" 2 "$told" "dnr: $what
try dnr --help" "$dnr" $line
            ;;
        help) says "dnr $line" 0 "@$tests/help.txt" '' "$dnr" $line ;;
        version)
            told="dnr $(cat VERSION)"
            ! heard $line || told="{\"version\":\"$(cat VERSION)\"}"
            says "dnr $line" 0 "$told" '' "$dnr" $line
            ;;
        '' | '#'*) ;;
        *) step "tests/command/arguments.txt: $ends" false ;;
    esac
done <"$tests/arguments.txt"
says "no argument" 2 '' "@$tests/help.txt" "$dnr"
says "a long argument" 2 '' "dnr: an argument is too long
try dnr --help" "$dnr" show "$(repeated 4097 a)"
says "a long argument after -o" 2 '' "dnr: an argument is too long
try dnr --help" "$dnr" write "$work/k1.rsv" -o "$(repeated 4097 a)"
says "an argument of 4,096 octets after -o" 2 '' "dnr: $(repeated 4096 a): File name too long" "$dnr" write "$work/k1.rsv" -o "$(repeated 4096 a)"
says "a wrong command line" 2 '' "dnr: a second file: b
try dnr --help" "$dnr" write "$work/k1.rsv" b -o "$work/none"
step "a wrong command line makes no file" test ! -e "$work/none"
says "options first" 0 "@$tests/k01-dhcp6.json" '' "$dnr" read --json --hex dhcp6 examples/k01-dhcp6.hex

# ---- files, and readings without all that was to be found

. "$tests/places.sh"
. "$tests/files.sh"
. "$tests/left.sh"
. "$tests/json.sh"

# ---- many inputs, and many sheets

for script in tests/command/inputs.py "tools/show.py --compare"; do
    python3 $script "$dnr" >"$work/compared"
    cat "$work/compared"
    set -- $(tail -1 "$work/compared")
    passed=$((passed + ${1:-0}))
    failed=$((failed + ${3:-1}))
done
echo "$passed passed, $failed failed"
[ "$failed" -eq 0 ]
