#!/bin/sh
# Makes octets/ and text/ anew from the tools themselves and says whether they are as kept; with --keep, puts what it made in their place.
# Needs xxd, hexdump, od, tcpdump, tshark, openssl, base64 (README.md lists the versions). The gate needs none of them: it reads the kept files.
# text/FORM.OCTETS.txt shows octets/OCTETS.bin, text/refused-*.txt shows none; table.txt has the answer for each.
set -eu
here=$(cd "$(dirname "$0")" && pwd)
work=$(mktemp -d)
trap 'rm -rf "$work"' EXIT
mkdir "$work/text"
python3 "$here/octets.py" "$work"
cd "$work/octets"
export TZ=UTC LC_ALL=C
unset GREP_COLORS

dumped="area-dhcp4 area-dhcp6 area-ra sheet one n15 n16 n17 n32 zeros zeroend repeat text pipe blank blanks brace all"
framed="area-dhcp4 area-dhcp6 area-ra one n15 n16 n17 n32 zeros zeroend repeat text pipe blank blanks brace all frame"
listed="sheet one n17 all"

# of OCTETS.. : FORM COMMAND..: the command's output on each of them, taken from standard input.
of() {
    names=$1
    form=$2
    shift 2
    for name in $names; do
        "$@" <"$name.bin" >"../text/$form.$name.txt" 2>"$work/said"
    done
}

# captured OCTETS.. : FORM COMMAND..: likewise for the captures, which the command names as its last word.
captured() {
    names=$1
    form=$2
    shift 2
    for name in $names; do
        "$@" "../captures/$name.pcap" >"../text/$form.$name.txt" 2>"$work/said"
    done
}

# ---- dumps
of "$dumped" xxd xxd
of "$dumped" xxd-g1 xxd -g1
of "n17 zeros text pipe blank blanks all" xxd-c8-g1 xxd -c 8 -g1
of "sheet text all" xxd-u xxd -u
of "zeros zeroend repeat area-dhcp4" xxd-a xxd -a
of "$dumped" hexdump-C hexdump -C
of "zeros zeroend repeat" hexdump-C-v hexdump -C -v
of "$dumped" od-Ax-tx1 od -Ax -tx1
of "$dumped" od-Ax-tx1z od -Ax -tx1z
of "zeros repeat text" od-Ax-tx1z-v-w8 od -Ax -tx1z -v -w8
captured "$framed" tcpdump-xx tcpdump -n -xx -r
captured "$framed" tcpdump-XX tcpdump -n -XX -r
captured "$dumped frame" tshark-x tshark -x -r
captured frame tcpdump-v-XX tcpdump -n -v -tttt -XX -r
# without the link's header
tcpdump -n -x -r ../captures/frame.pcap >../text/tcpdump-x.packet.txt 2>"$work/said"
tcpdump -n -X -r ../captures/frame.pcap >../text/tcpdump-X.packet.txt 2>"$work/said"

# ---- lists
of "area-ra $listed text" od-An-tx1 od -An -tx1
of "zeros zeroend $listed" od-An-v-tx1 od -An -v -tx1
of "zeros $listed" xxd-p xxd -p
of "all" xxd-p-c256 xxd -p -c 256
of "sheet all" xxd-p-u xxd -p -u
of "$listed" xxd-i-stdin xxd -i
for name in none zeros $listed; do
    xxd -i "$name.bin" >"../text/xxd-i.$name.txt"
done
xxd -i -u all.bin >../text/xxd-i-u.all.txt
of "$listed" hexdump-e-x hexdump -v -e '"\\""x" 1/1 "%02x"'
of "$listed" hexdump-e-0x hexdump -v -e '1/1 "0x%02x "'
of "$listed" hexdump-e-0x-comma hexdump -v -e '1/1 "0x%02X,"'
of "$listed" hexdump-e-colon hexdump -v -e '/1 "%02x" ":"'
of "$listed" hexdump-e-short hexdump -v -e '/1 "%x" ":"'
of "$listed" hexdump-e-dash hexdump -v -e '/1 "%02X" "-"'
# openssl writes 15 octets a line, a colon after each but the last: here an X25519 key, its two lines of heading taken off.
(printf '\060\052\060\005\006\003\053\145\156\003\041\000' && cat n32.bin) >"$work/key"
openssl pkey -pubin -inform DER -in "$work/key" -text -noout >"$work/openssl"
sed 1,2d "$work/openssl" >../text/openssl.n32.txt
of "zeros $listed none" base64 base64
of "zeros $listed" base64-w0 base64 -w0
of "zeros $listed" base64-openssl openssl base64

# ---- the same with line ends of Windows, without the blanks at line ends, without the text column
# from FORM OCTETS NEW SCRIPT: NEW.OCTETS is what sed makes of FORM.OCTETS.
from() {
    sed "$4" "../text/$1.$2.txt" >"../text/$3.$2.txt"
}
for form in xxd hexdump-C od-Ax-tx1 od-Ax-tx1z tcpdump-XX tshark-x xxd-p xxd-i; do
    from $form all $form-crlf 's/$/\r/'
done
for name in repeat zeros blanks; do
    for form in xxd hexdump-C od-Ax-tx1z tcpdump-XX tshark-x; do
        from $form $name $form-crlf 's/$/\r/'
    done
done
from base64 all base64-crlf 's/$/\r/'
from openssl n32 openssl-crlf 's/$/\r/'
for name in text blank blanks; do
    for form in xxd xxd-g1 xxd-c8-g1 tshark-x; do
        from $form $name $form-stripped 's/ *$//'
    done
done
for name in area-dhcp6 n15 n17 text all; do
    from xxd $name xxd-cut 's/^\(.\{49\}\).*/\1/'
    from xxd-g1 $name xxd-g1-cut 's/^\(.\{57\}\).*/\1/; s/ *$//'
    from tshark-x $name tshark-x-cut 's/^\(.\{53\}\).*/\1/'
    from xxd $name xxd-indented 's/^/    /'
    from tcpdump-XX $name tcpdump-headless 1d
done

# ---- the blanks of text columns and between octets that are not held
from xxd blank xxd-shift '1s/   1234/  1234/'
from xxd blank xxd-apart 's/  / \t   /'
from tshark-x blank tshark-x-shift '1s/    1234/  1234/'
from hexdump-C all hexdump-C-blank '4s/  / /2'
from hexdump-C all hexdump-C-apart 's/ 0\([0-9a-f]\) /  \t 0\1 /g'
from od-Ax-tx1z all od-Ax-tx1z-apart 's/ 0\([0-9a-f]\) /  \t 0\1 /g'
# Lines without a text column: those before the first that has one, and those that are blank in it.
from xxd n32 xxd-later '1s/  [^ ]*$//'
from tshark-x n32 tshark-x-later '1s/   [^ ]*$//'
from od-Ax-tx1z n32 od-Ax-tx1z-later '1s/  >.*//'
from tcpdump-XX n32 tcpdump-XX-later '2s/  [^ ]*$//'
from od-Ax-tx1z blanks od-Ax-tx1z-bare 's/  > *<$//'

# ---- refused: what other options write
# Words, whose octets may be swapped.
for name in n17 area-dhcp6; do
    of $name refused-od-An-x od -An -x
    of $name refused-od-An-tx4 od -An -tx4
    of $name refused-od-An-x-big od -An -x --endian=big
    of $name refused-hexdump-e-words hexdump -v -e '8/2 "%04x " "\n"'
done
of n32 refused-xxd-p-words sh -c 'xxd -p | sed "s/..../& /g"'
for name in area-dhcp6 one; do
    of $name refused-hexdump hexdump
    of $name refused-od od
    of $name refused-od-x od -x
    of $name refused-od-Ax-x od -Ax -x
    of $name refused-od-tx1 od -tx1
    of $name refused-xxd-b xxd -b
done
of "area-dhcp6 n32 text" refused-xxd-e xxd -e
of text refused-xxd-e-g2 xxd -e -g2
of n32 refused-xxd-g4 xxd -g4
of n32 refused-xxd-g0 xxd -g0
of n32 refused-xxd-d xxd -d
of n32 refused-xxd-o xxd -o 16
of all refused-xxd-E xxd -E
of "zeros zeroend" refused-od-An-tx1 od -An -tx1
of n17 refused-hexdump-e-eight hexdump -v -e '8/1 "%02x" " "'
of n17 refused-hexdump-e-twelve hexdump -v -e '12/1 "0x%02X," "\n"'
of n32 refused-od-c od -c
of n32 refused-od-Ad-tx1 od -Ad -tx1
of n32 refused-od-Ax-tx1-j od -Ax -tx1 -j 16
of n32 refused-hexdump-C-s hexdump -C -s 16
for option in x xx X XX; do
    captured two "refused-tcpdump-$option" tcpdump -n "-$option" -r
done
captured frame refused-tcpdump tcpdump -n -r
# tcpdump first writes a dump of its own of what it cannot dissect
captured sheet refused-tcpdump-own tcpdump -n -XX -r
captured two refused-tshark-x tshark -x -r
cp "$work/openssl" ../text/refused-openssl-heading.n32.txt
openssl asn1parse -inform DER -in "$work/key" -dump >../text/refused-asn1parse.n32.txt

# ---- refused: dumps that are spoilt
# spoilt FORM OCTETS HOW SCRIPT: which must change something
spoilt() {
    from "$1" "$2" "refused-$1-$3" "$4"
    if cmp -s "../text/$1.$2.txt" "../text/refused-$1-$3.$2.txt"; then
        echo "forms: refused-$1-$3.$2 is not spoilt"
        exit 1
    fi
}
for form in xxd hexdump-C od-Ax-tx1 od-Ax-tx1z tshark-x; do
    spoilt $form all missing 3d
    spoilt $form all twice 3p
    spoilt $form all offset '5s/40/41/'
    spoilt $form all first 1d
    spoilt $form all digit '6s/5/g/2'
    spoilt $form all short '6s/ 5[ab]*/ /'
    spoilt $form all swapped '2{h;d};3G'
    spoilt $form zeros longer '3s/ 00/ 00 00/'
done
spoilt tcpdump-XX all missing 4d
spoilt tcpdump-XX all twice 4p
spoilt tcpdump-XX all offset '6s/40/41/'
spoilt tcpdump-XX all first 2d
spoilt tcpdump-XX all digit '7s/5a/5g/'
for form in xxd xxd-g1 hexdump-C od-Ax-tx1z tshark-x; do
    spoilt $form all text '7s/bcd/bce/'
    spoilt $form all value '6s/50\( \{0,1\}51\)/51\1/'
    spoilt $form text column '1s/ef 01/ef 00/'
    spoilt $form text dot '3s/|\.\.|/|. |/'
    spoilt $form text cut '1s/23 4\(|*<*\)$/23 \1/'
done
spoilt tcpdump-XX all text '8s/bcd/bce/'
spoilt tcpdump-XX all value '7s/5051/5151/'
spoilt tcpdump-XX text blank '2s/ab\.cd/ab cd/'
for form in hexdump-C od-Ax-tx1 xxd-a; do
    spoilt $form zeros star-first '1s/.*/*/'
    spoilt $form zeros star-last '/^\*/q'
    spoilt $form zeros star-twice 's/^\*$/*\n*/'
    spoilt $form zeros star-part '/^\*/{n;s/0\(:\{0,1\}\) /8\1 /}'
    spoilt $form zeros star-none '/^\*/{N;s/\n[0-9a-f]*/\n00000030/}'
done
spoilt hexdump-C zeroend star-end 's/50$/48/'
spoilt od-Ax-tx1 zeroend star-end 's/50$/4f/'
spoilt hexdump-C all end '$s/100/101/'
spoilt od-Ax-tx1 all end '$s/100/0ff/'
spoilt hexdump-C all no-column '4s/  |.*//'
spoilt hexdump-C all open '4s/|$//'
spoilt od-Ax-tx1z all open '4s/<$//'
spoilt xxd all colon '4s/: / /'
spoilt tshark-x all headed '1s/^/Frame (256 bytes):\n/'
spoilt xxd-i all length '$s/256/255/'
spoilt xxd-i all octet '5s/0x24, //'
spoilt xxd-i all wide '5s/0x24, 0x25/0x2425/'
spoilt xxd-i all open '/^}/,$d'
spoilt xxd-i all second '$s/$/\nunsigned char more[] = { 0x00 };/'
spoilt xxd-p all odd '3s/.$//'
spoilt od-An-tx1 all odd '3s/.$//'
spoilt hexdump-e-x all odd 's/.$//'
spoilt openssl n32 double '2s/:/::/'
spoilt base64 all character '2s/./*/5'
spoilt base64 all short '$s/=//'
spoilt base64 all middle '2s/./=/5'
spoilt base64 all cut '4s/.$//'
# cut in the middle of a group, as a terminal's window cuts it
head -c 101 ../text/xxd.n32.txt >../text/refused-xxd-window.n32.txt
head -c 100 ../text/hexdump-C.n32.txt >../text/refused-hexdump-C-window.n32.txt
head -c 112 ../text/tcpdump-xx.frame.txt >../text/refused-tcpdump-xx-window.frame.txt
# cut after a whole octet, where lines before it have a text column
# octets FORM OCTETS LINE COLUMNS: the text up to LINE, of which COLUMNS characters are left
octets() {
    sed "$3{s/^\(.\{$4\}\).*/\1/;q}" "../text/$1.$2.txt" >"../text/refused-$1-octets.$2.txt"
}
octets xxd n32 2 29
octets xxd-g1 n32 2 21
octets tshark-x n32 2 20
octets od-Ax-tx1z n32 2 18
octets hexdump-C n32 2 30
octets hexdump-C blanks 3 18
# octets that are all shown as blanks need no column
mv ../text/refused-hexdump-C-octets.blanks.txt ../text/hexdump-C-octets.blanks.txt
octets tcpdump-XX n32 3 30
# the last of all the octets is there, its text is not
octets xxd all 16 49
octets tshark-x all 16 53
octets hexdump-C all 16 58
# an offset cut in two, or before its colon
head -c 72 ../text/xxd.n32.txt >../text/refused-xxd-offset-half.n32.txt
spoilt tcpdump-XX all colon '2s/: / /'
# an offset alone, which no dump of these ends in
head -c 76 ../text/xxd.n32.txt >../text/refused-xxd-offset-bare.n32.txt
head -c 77 ../text/xxd.n32.txt >../text/refused-xxd-offset-colon.n32.txt
head -c 78 ../text/xxd.n32.txt >../text/refused-xxd-offset-blank.n32.txt
spoilt tcpdump-xx n32 offset-bare '3s/:.*//'
spoilt tshark-x n32 offset-bare '2s/  .*//'
# A text column that shows a C array is not one.
for form in xxd hexdump-C od-Ax-tx1z tshark-x; do
    spoilt $form brace array-offset '2s/10/11/'
    spoilt $form brace array-first 1d
    spoilt $form brace array-column '1s/a\[1\]=/a[2]=/'
done
spoilt tcpdump-XX brace array-offset '3s/0010/0011/'
# Colours of a terminal, page ends, and other control octets, which make the input octets as they are.
for form in xxd hexdump-C od-Ax-tx1z tcpdump-XX tshark-x xxd-p xxd-i; do
    grep --color=always -e '^' -e bc "../text/$form.all.txt" >../text/refused-$form-colour.all.txt
    spoilt $form all page '4s/^/\f/'
    from $form all bell-$form '4s/$/\x07/'
done
# in what is passed over
from tcpdump-XX all colour-head '1s/length/\x1b[1m&/'
from tcpdump-XX all bell-head '1s/length/&\x07/'
from xxd-i all bell-name '1s/all/&\x07/'
spoilt xxd text escape '3s/\.\./\x1b./'
spoilt xxd-p all colour-end '$s/$/\x1b[0m/'
# Texts of other encodings: UTF-16 with its mark, as Windows writes it, and UTF-8 with one.
for form in xxd xxd-p; do
    (printf '\377\376' && iconv -f US-ASCII -t UTF-16LE "../text/$form.n17.txt") >../text/refused-$form-utf16le.n17.txt
    (printf '\376\377' && iconv -f US-ASCII -t UTF-16BE "../text/$form.n17.txt") >../text/refused-$form-utf16be.n17.txt
    (printf '\357\273\277' && cat "../text/$form.n17.txt") >../text/refused-$form-utf8-mark.n17.txt
done

python3 "$here/written.py" "$work"

# ---- as kept?
if [ "${1:-}" = --keep ]; then
    rm -rf "$here/octets" "$here/text"
    cp -r "$work/octets" "$work/text" "$here"
fi
kept=0
other=0
for file in "$work"/octets/* "$work"/text/* "$here"/octets/* "$here"/text/*; do
    name=$(basename "$(dirname "$file")")/$(basename "$file")
    if cmp -s "$work/$name" "$here/$name"; then
        kept=$((kept + 1))
    else
        echo "forms: $name is not as kept"
        other=$((other + 1))
    fi
done
echo "$((kept / 2)) as kept, $other not"
[ "$other" -eq 0 ]
