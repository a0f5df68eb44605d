# --json on every way through the command: results, refusals, inputs that are no octets, files and names; a part of tools/command.sh. Wrong command
# lines stand in tests/command/arguments.txt, findings are tried by tools/findings.py.

# ---- results

hex=$(printf %s "$printed" | tr -d ' \n')
tells "write --json" 0 "{\"length\":52,\"octets\":\"$hex\"}" '' "$dnr" write "$work/k1.rsv" --json
tells "octets --json" 0 "{\"length\":52,\"octets\":\"$hex\"}" '' "$dnr" octets --json "$work/octets"
octets 52535600010500 >"$work/in"
tells "write --json, no records" 0 '{"length":0,"octets":""}' '' "$dnr" write --json
tells "octets --json, nothing" 0 '{"length":0,"octets":""}' '' "$dnr" octets --json
printf 'A2 0\n' >"$work/in"
tells "octets --json, --raw" 0 '{"length":5,"octets":"413220300a"}' '' "$dnr" octets --json --raw
head -c 40960 /dev/zero >"$work/zeros"
tells "octets --json, 40,960 octets" 0 "{\"length\":40960,\"octets\":\"$(repeated 40960 00)\"}" '' "$dnr" octets --json "$work/zeros"
for word in version --version -V; do
    tells "$word --json" 0 "{\"version\":\"$(cat VERSION)\"}" '' "$dnr" $word --json
done

# ---- results that go to a file

rm -f "$work/new"
tells "read -o --json" 0 '{"found":1,"discarded":0,"fault":0,"place":0,"saved":60}' '' "$dnr" read 2 examples/k01-dhcp6.hex -o "$work/new" --json
step "read -o --json: the sheet" cmp "$work/k1.rsv" "$work/new"
rm "$work/new"
tells "write -o --json" 0 '{"saved":52}' '' "$dnr" write --json "$work/k1.rsv" "--output=$work/new"
step "write -o --json: the octets" cmp "$work/octets" "$work/new"
printf '%s\n' "$printed" >"$work/in"
tells "octets -o --json" 0 '{"saved":52}' '' "$dnr" octets "-o$work/new" --json
step "octets -o --json: the octets" cmp "$work/octets" "$work/new"
tells "octets -o --json, nothing" 0 '{"saved":0}' '' "$dnr" octets --json -o "$work/new" /dev/null
step "octets -o --json, nothing: the file" test ! -s "$work/new"
tells "octets -o --json, a device" 0 '{"saved":52}' '' "$dnr" octets --json "$work/octets" -o /dev/null
"$dnr" read 1 examples/several-dhcp4.hex -o "$work/several.rsv" 2>"$work/err"
rm "$work/new"
tells "read -o --json, all discarded" 0 '{"found":1,"discarded":1,"fault":21,"place":0,"saved":7}' "$discard" \
    "$dnr" read 2 --json examples/k07-dhcp6.hex -o "$work/new"
step "read -o --json, all discarded: the sheet" cmp "$work/none.rsv" "$work/new"
tells "read -o --json, a dropped address" 0 "{\"found\":1,\"discarded\":0,\"fault\":0,\"place\":0,\"saved\":$(wc -c <"$work/several.rsv")}" \
    'dnr: examples/several-dhcp4.hex: block 1, octet 28: address 127.0.0.1 dropped: multicast or loopback' \
    "$dnr" read 1 --json examples/several-dhcp4.hex -o "$work/new"
step "read -o --json, a dropped address: the sheet" cmp "$work/several.rsv" "$work/new"

# fault 22 has a place, counted in the block: here in the joined data of two options
octets a20400060001a20403015f00 >"$work/in"
tells "read --json, a name that is wrong" 0 '{"found":1,"discarded":1,"fault":22,"place":6,"sheet":{"carrier":1,"carrierName":"DHCPv4","records":[]}}' \
    "$(discards 'standard input' 1 10 22); an underscore" "$dnr" read 1 --json
rm "$work/new"
octets 0090000700010003015f00 >"$work/in"
tells "read -o --json, a name that is wrong" 0 '{"found":1,"discarded":1,"fault":22,"place":9,"saved":7}' \
    "$(discards 'standard input' 1 9 22); an underscore" "$dnr" read 2 --json -o "$work/new"

# a file that is left as it is
cp "$work/k1.rsv" "$work/left"
tells "left as it is" 2 '' "dnr: $work/left: $kept
$none" "$dnr" read 2 -o "$work/left" --json
step "left as it is: the file" cmp "$work/k1.rsv" "$work/left"
tells "left as it is, all discarded, --strict" 2 '' "dnr: $work/left: $kept
$discard" "$dnr" read 2 --strict --json examples/k07-dhcp6.hex -o "$work/left"
tells "--force" 3 '{"found":0,"discarded":0,"fault":0,"place":0,"saved":7}' "$none" "$dnr" read 2 -o "$work/left" --json --force --strict
step "--force: the file" cmp "$work/none.rsv" "$work/left"

# ---- refusals

for piece in "read 2 examples/cut-dhcp6.hex" "write examples/cut-dhcp6.hex" "show examples/cut-dhcp6.hex"; do
    number=40
    [ "${piece%% *}" != read ] || number=3
    for more in '' "-o $work/refused"; do
        case $piece$more in
            show*-o*) continue ;;
        esac
        tells "$piece $more, refused" 1 '' "dnr: examples/cut-dhcp6.hex: refused, $number: $(words $number)" "$dnr" $piece $more --json
    done
done
step "a refusal makes no file" test ! -e "$work/refused"
repeated 17 "0090001600010012$N" >"$work/in"
tells "seventeen records" 1 '' "dnr: standard input: refused, 4: $(words 4)" "$dnr" read 2 --json --strict
tells "refused, and read as another" 1 '' "dnr: examples/k02-dhcp4.hex: refused, 3: $(words 3); read as dhcp4 a resolver is found" \
    "$dnr" read ra --json examples/k02-dhcp4.hex
for number in 41 42 43; do
    case $number in
        41) octets 52535600020200 ;;
        42) octets 52535600010600 ;;
        43) octets 5253560001020000 ;;
    esac >"$work/in"
    tells "write refuses by $number" 1 '' "dnr: standard input: refused, $number: $(words $number)" "$dnr" write --json
done
for command in write show; do
    octets 525356000102010001000000000003015f00 >"$work/in"
    says "$command --json, a name that is wrong" 1 \
        "{\"message\":\"standard input: octet 16: refused, 22: $(words 22); an underscore\",\"status\":1,\"number\":22,\"octet\":16}" \
        "dnr: standard input: octet 16: refused, 22: $(words 22); an underscore" "$dnr" $command --json
done
(cat "$work/zeros" && printf '\0') >"$work/longer"
head -c 655361 /dev/zero >"$work/longest"
for words in "read 2" write show octets; do
    tells "$words, 40,961 octets" 1 '' "dnr: $work/longer: refused, 2: $(words 2)" "$dnr" $words --json "$work/longer"
    tells "$words, 655,361 octets" 2 '' "dnr: $work/longest: longer than 655,360 octets" "$dnr" $words --json "$work/longest"
done

# ---- inputs that are no octets, and files

# fails NAME INPUT NUMBER TEXT COMMAND..: a call of the system fails with this number and text, and what else is said is in $also.
also=
fails() {
    name=$1
    { printf '{"message":"%s: errno %s","status":2,"errno":%s}\n' "$2" "$3" "$3" && objects "$also"; } >"$work/told"
    said="dnr: $2: $4${also:+
$also}"
    shift 4
    says "$name" 2 "@$work/told" "$said" "$@"
    step "$name: objects" is_json "$work/out"
}
for words in "read 2" write show octets; do
    printf 'a2 17\nnone\n' >"$work/in"
    tells "$words, no octets" 2 '' "dnr: standard input: line 2: $known" "$dnr" $words --json
    fails "$words, no such file" "$work/none" 2 'No such file or directory' "$dnr" $words --json "$work/none"
    fails "$words, a folder" "$work" 21 'Is a directory' "$dnr" $words "$work" --json
done
printf 'QUJ\n' >"$work/in"
tells "no base64" 2 '' 'dnr: standard input: line 1: not base64' "$dnr" octets --json --base64
octets "$(repeated 2039 00)" >"$work/in"
tells "a long value" 2 '' 'dnr: standard input: line 1: no option of this carrier holds a value so long' "$dnr" read 3 --json --value --raw
fails "-o, no such folder" "$work/none/new" 2 'No such file or directory' "$dnr" write --json "$work/k1.rsv" -o "$work/none/new"
fails "-o, a folder" "$work" 21 'Is a directory' "$dnr" octets --json "$work/octets" -o "$work"
fails "-o, a device that is full" /dev/full 28 'No space left on device' "$dnr" octets --json "$work/octets" -o /dev/full
also=$discard
fails "read -o, no such folder" "$work/none/new" 2 'No such file or directory' "$dnr" read 2 --json examples/k07-dhcp6.hex -o "$work/none/new"
: >"$work/out"
"$dnr" show --json "$work/k1.rsv" >/dev/full 2>"$work/err"
step "--json, standard output that is full" gave 2 '' 'dnr: standard output: No space left on device' $?
"$dnr" write --json "$work/k1.rsv" -o "$work/new" >/dev/full 2>"$work/err"
step "write -o --json, standard output that is full" gave 2 '' 'dnr: standard output: No space left on device' $?
"$dnr" octets --json <&- >"$work/out" 2>"$work/err"
step "--json, standard input that is closed" \
    gave 2 '{"message":"standard input: errno 9","status":2,"errno":9}' 'dnr: standard input: Bad file descriptor' $?

# ---- command lines with words that JSON escapes, and long ones

says "an unknown option, escaped" 2 '{"message":"unknown option: --\"\\\u0001\u007f","status":2}' \
    "dnr: unknown option: --\"\\$(printf '\001\177')
try dnr --help" "$dnr" show "--\"\\$(printf '\001\177')" --json
step "an unknown option, escaped: objects" is_json "$work/out"
long="dnr: an argument is too long
try dnr --help"
tells "a long argument" 2 '' "$long" "$dnr" show "$(repeated 4097 a)" --json
tells "a long argument after -o" 2 '' "$long" "$dnr" octets --json -o "$(repeated 4097 a)"
tells "a long -oFILE" 2 '' "$long" "$dnr" octets --json "-o$(repeated 4095 a)"

# ---- names: a quotation mark, a backslash, control characters, letters of UTF-8

odd=$(printf 'q"b\\c\t\033\177 \303\251')
told='q\"b\\c\u0009\u001b\u007f \u00c3\u00a9'
mkdir "$work/named"
cp "$work/octets" "$work/named/$odd"
# named NAME STATUS OUT ERR WORDS..: in the folder of odd names.
named() {
    name=$1
    printf '%s\n' "$3" >"$work/told"
    status=$2
    err=$4
    shift 4
    says "$name" "$status" "@$work/told" "$err" env -C "$work/named" ../dnr "$@"
    step "$name: objects" is_json "$work/out"
}
named "an odd name" 0 "$(cat "$tests/k01-dhcp6.json")" '' read 2 --json "$odd"
named "an odd name, nothing found" 0 '{"found":0,"discarded":0,"fault":0,"place":0,"sheet":{"carrier":4,"carrierName":"IKEv2 ENCDNS_IP4","records":[]}}
{"message":"'"$told"': no attribute 27 in 52 octets; read as dhcp6 a resolver is found"}' \
    "dnr: $odd: no attribute 27 in 52 octets; read as dhcp6 a resolver is found" read 4 --json "$odd"
named "an odd name, refused" 1 '{"message":"'"$told"': refused, 40: '"$(words 40)"'","status":1,"number":40}' "dnr: $odd: refused, 40: $(words 40)" \
    show --json "$odd"
named "an odd name, no such file" 2 '{"message":"'"$told"'1: errno 2","status":2,"errno":2}' "dnr: ${odd}1: No such file or directory" \
    write "${odd}1" --json
named "an odd name, a second file" 2 '{"message":"a second file: '"$told"'","status":2}' "dnr: a second file: $odd
try dnr --help" octets "$odd" "$odd" --json
named "an odd name as a target" 0 '{"saved":52}' '' octets --json "$odd" -o "${odd}2"
step "an odd name as a target: the octets" cmp "$work/octets" "$work/named/${odd}2"
says "a target named --json" 0 '' '' env -C "$work/named" ../dnr octets "$odd" -o --json
step "a target named --json: the octets" cmp "$work/octets" "$work/named/--json"
named "a target named --json, with --json" 0 '{"saved":52}' '' octets --json "$odd" -o --json
named "an odd name in a folder that is not there" 2 '{"message":"'"$told"'1/a: errno 2","status":2,"errno":2}' \
    "dnr: ${odd}1/a: No such file or directory" octets --json "$odd" -o "${odd}1/a"
cp "$work/k1.rsv" "$work/named/${odd}3"
named "an odd name, left as it is" 2 '{"message":"'"$told"'3: '"$kept"'","status":2}
{"message":"standard input: no option 144 in 0 octets"}' "dnr: ${odd}3: $kept
$none" read 2 --json -o "${odd}3"

# ---- names that are no UTF-8, under which the kit's library opens no file: told octet for octet, and with the system's word for it (EILSEQ)

octet=$(printf '%s\377' "$odd")
shown="$told"'\u00ff'
cp "$work/octets" "$work/named/$octet"
named "a name that is no UTF-8" 2 '{"message":"'"$shown"': errno 84","status":2,"errno":84}' \
    "dnr: $octet: Invalid or incomplete multibyte or wide character" read 2 --json "$octet"
named "a target that is no UTF-8" 2 '{"message":"'"$shown"'4: errno 84","status":2,"errno":84}' \
    "dnr: ${octet}4: Invalid or incomplete multibyte or wide character" octets --json "$odd" -o "${octet}4"
step "a target that is no UTF-8: there is none" [ ! -e "$work/named/${octet}4" ]
ln -s "${octet}5" "$work/named/link"
named "a link to a name that is no UTF-8" 2 '{"message":"link: errno 84","status":2,"errno":84}' \
    "dnr: link: Invalid or incomplete multibyte or wide character" octets --json "$odd" -o link
step "a link to a name that is no UTF-8: it stays" [ -L "$work/named/link" ]
named "a name that is no UTF-8, a second file" 2 '{"message":"a second file: '"$shown"'","status":2}' "dnr: a second file: $octet
try dnr --help" octets "$odd" "$octet" --json
