#!/bin/sh
# Runs host/capture/dnr-capture, with build/dnr or the program that DNR names, on tests/capture/kea-ra.pcap and on the captures of
# tests/capture/make.py. The expected texts were written from the making of the captures and, for kea-ra, from the values that tshark prints of
# each option; tests/capture/facts.py holds the JSON against what was put in. Installs tshark where it is missing and apt-get may. Ends in
# 'N passed, M failed'.
set -u
cd "$(dirname "$0")/.." || exit 2
work=$(mktemp -d) || exit 2
trap 'rm -rf "$work"' EXIT
dnr=$(realpath "${DNR:-build/dnr}")
script=host/capture/dnr-capture
tests=tests/capture
python=$(python3 -c 'import sys; print(sys.executable)') # itself, also where a script of this name looks for it on the path
passed=0
failed=0

# step NAME COMMAND..: one check that passes when the command does.
step() {
    name=$1
    shift
    if "$@"; then
        passed=$((passed + 1))
    else
        echo "capture: $name: FAILED"
        failed=$((failed + 1))
    fi
}

# Another apt-get may be at work: its lock is waited for.
install_tshark() {
    DEBIAN_FRONTEND=noninteractive
    export DEBIAN_FRONTEND
    apt-get -qq update && apt-get -qq -o DPkg::Lock::Timeout=300 install -y --no-install-recommends tshark
}

# run COMMAND..: its standard output, exit status and standard error as one text.
run() {
    "$@" >"$work/out" 2>"$work/err" </dev/null
    status=$?
    { cat "$work/out" && echo "status $status" && sed "s|$work|WORK|g" "$work/err"; } >"$work/got"
}

# says NAME TEXT COMMAND..: one check of all that a command says.
says() {
    name=$1
    printf '%s\n' "$2" >"$work/wanted"
    shift 2
    run "$@"
    step "$name" diff "$work/wanted" "$work/got"
}

# ends NAME STATUS COMMAND..: one check of the exit status alone.
ends() {
    name=$1
    wanted=$2
    shift 2
    run "$@"
    step "$name: exit status $status" test "$status" -eq "$wanted"
}

if ! command -v tshark >/dev/null; then
    echo "capture: tshark is missing, installing it"
    install_tshark >"$work/apt" 2>&1 </dev/null
    if ! command -v tshark >/dev/null; then
        tail -3 "$work/apt"
        echo "capture: tshark could not be installed, nothing was tried"
        echo "0 passed, 1 failed"
        exit 1
    fi
fi

# ---- captures

step "the captures are made" "$python" -B $tests/make.py "$work"
for capture in $tests/kea-ra.pcap "$work"/*.pcap "$work"/*.pcapng; do
    base=$(basename "${capture%.*}")
    run $script --dnr "$dnr" "$capture"
    step "$base" diff "$tests/$base.txt" "$work/got"
    run $script --json --dnr "$dnr" "$capture"
    sed -n '/^status/,$p' "$work/got" >"$work/json-end"
    sed -n '/^status/,$p' "$tests/$base.txt" >"$work/text-end"
    step "$base: the end with --json" diff "$work/text-end" "$work/json-end"
    if [ -e "$work/$base.facts" ]; then
        step "$base: the facts" "$python" -B $tests/facts.py "$dnr" "$work/$base.facts" "$work/out"
    fi
done
gzip -c "$work/handshake.pcap" >"$work/packed"
run $script --dnr "$dnr" "$work/packed"
step "a compressed capture" diff $tests/handshake.txt "$work/got"
WIRESHARK_CONFIG_DIR=$work/settings
export WIRESHARK_CONFIG_DIR
mkdir "$work/settings" && echo dhcpv6 >"$work/settings/disabled_protos" && echo "ip.defragment: FALSE" >"$work/settings/preferences"
for base in handshake fragments; do
    run $script --dnr "$dnr" "$work/$base.pcap"
    step "$base with other settings of tshark" diff "$tests/$base.txt" "$work/got"
done
unset WIRESHARK_CONFIG_DIR

# Resolvers are printed as dnr prints them, four columns to the right and without the empty lines. One capture has all pieces.
"$dnr" write tests/command/kinds.hex -o - | "$python" -c 'import sys; print(sys.stdin.buffer.read().hex())' >"$work/kinds-ra.hex"
for hex in examples/k*-dhcp4.hex examples/k*-dhcp6.hex examples/k*-ra.hex examples/several-dhcp4.hex "$work/kinds-ra.hex"; do
    piece=$(basename "$hex" .hex)
    "$python" examples/capture.py "${piece##*-}" "$hex" "$work/piece"
    tail -c +25 "$work/piece" >>"$work/frames"
    "$dnr" read "${piece##*-}" "$hex" 2>/dev/null | sed -e 1d -e '/^$/d' -e '$d' -e 's/^/    /'
done >"$work/wanted"
head -c 24 "$work/piece" | cat - "$work/frames" >"$work/pieces"
$script --dnr "$dnr" "$work/pieces" 2>/dev/null |
    sed -e '/^frame/d' -e '/^$/d' -e '/^    [0-9]* of [0-9]* blocks discarded/d' -e '/^    block [0-9]*,/d' >"$work/out"
step "resolvers as dnr prints them" diff "$work/wanted" "$work/out"

# ---- exit status

for capture in handshake:0 nothing:3 discarded:3 truncated:3 malformed:1 cut:2; do
    ends "--strict, ${capture%:*}" "${capture#*:}" $script --strict --dnr "$dnr" "$work/${capture%:*}.pcap"
done
ends "--help" 0 $script --help
ends "-h" 0 $script -h
step "-h is help" grep -q "Exit status" "$work/out"
ends "no file" 2 $script
ends "an unknown option" 2 $script --xml "$work/vlan.pcap"
ends "an option cut short" 2 $script --js "$work/vlan.pcap"
ends "two files" 2 $script "$work/vlan.pcap" "$work/raw.pcap"
says "a file that is not there" "status 2
dnr-capture: tshark: The file \"WORK/none\" doesn't exist." $script --dnr "$dnr" "$work/none"
says "a folder" "status 2
dnr-capture: tshark: \"WORK\" is a directory (folder), not a file." $script --dnr "$dnr" "$work"
cp $script "$work/text"
says "no capture" "status 2
dnr-capture: tshark: The file \"WORK/text\" isn't a capture file in a format TShark understands." $script --dnr "$dnr" "$work/text"
ends "no room for the output" 2 sh -c '"$@" >/dev/full' sh $script --dnr "$dnr" "$work/vlan.pcap"

# ---- the other programs

says "no tshark" "status 2
dnr-capture: tshark is not on the path (Debian: apt-get install tshark)" env PATH="$work" "$python" $script --dnr "$dnr" "$work/vlan.pcap"
says "no dnr where --dnr says" "status 2
dnr-capture: WORK/none: no such program" $script --dnr "$work/none" "$work/vlan.pcap"
mkdir "$work/bin" "$work/other"
cp $script "$work/bin/dnr-capture"
ln -s "$(command -v tshark)" "$work/other/tshark"
says "no dnr" "status 2
dnr-capture: dnr is neither beside this script nor on the path; --dnr PATH names it" \
    env PATH="$work/other" "$python" "$work/bin/dnr-capture" "$work/vlan.pcap"
cp "$dnr" "$work/other/dnr"
run env PATH="$work/other" "$python" "$work/bin/dnr-capture" "$work/vlan.pcap"
step "dnr on the path" diff $tests/vlan.txt "$work/got"
printf '#!/bin/sh\necho "dnr: another" >&2\nexit 2\n' >"$work/other/dnr"
cp "$dnr" "$work/bin/dnr"
run env PATH="$work/other" "$python" "$work/bin/dnr-capture" "$work/vlan.pcap"
step "dnr beside the script" diff $tests/vlan.txt "$work/got"
says "dnr fails" "status 2
dnr-capture: WORK/other/dnr read ra --raw --json ended with status 2: dnr: another" $script --dnr "$work/other/dnr" "$work/vlan.pcap"
printf '#!/bin/sh\necho "{"\n' >"$work/other/dnr"
ends "dnr prints no JSON" 2 $script --dnr "$work/other/dnr" "$work/vlan.pcap"
printf '#!/bin/sh\necho "{\\"message\\":\\"standard input: refused, 9: no such day\\",\\"status\\":1,\\"number\\":9}"\nexit 1\n' >"$work/other/dnr"
run $script --dnr "$work/other/dnr" "$work/vlan.pcap"
step "a refusal as JSON" grep -q "^frame 3 .* Ack: refused, 9: no such day$" "$work/got"
step "a refusal as JSON: exit status" test "$status" -eq 1
printf '#!/bin/sh\necho "dnr: standard input: refused, 9: no such day" >&2\nexit 1\n' >"$work/other/dnr"
ends "a refusal that is not told as JSON" 2 $script --dnr "$work/other/dnr" "$work/vlan.pcap"

echo "$passed passed, $failed failed"
[ "$failed" -eq 0 ]
