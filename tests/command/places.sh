# Where a name is wrong, in a block that is discarded and in a sheet that is refused; a part of tools/command.sh.

# ---- sheets

# refused_at OCTET REASON HEX: the sheet is refused by 22, and said is where its name is wrong and why.
refused_at() {
    for command in write show; do
        said="dnr: standard input: octet $1: refused, 22: $(words 22); $2"
        octets "$3" >"$work/in"
        says "$command refuses a name, $2" 1 '' "$said" "$dnr" $command
        octets "$3" >"$work/in"
        tells "$command --json refuses a name, $2" 1 '' "$said" "$dnr" $command --json
    done
}
# the name of the first record begins at octet 15, after 7 of the sheet's head and 8 of its own, in every carrier
refused_at 15 'it is empty' 525356000102010001000000000000
refused_at 16 'an underscore' 525356000102010001000000000003015f00
refused_at 16 'an underscore' "52535600010201${R}03015f00000000"
refused_at 17 'it has no end: the name stops before its last octet 0' 5253560001020100010000000000020161
refused_at 17 'a hyphen at the beginning or end of a label' 52535600010101000100000000000402612d00
refused_at 18 'an octet that is no letter, digit or hyphen' "52535600010501${R}050361622e0001${A}0000"
# of the second after 11 octets of the first, and after 18 in full form
refused_at 28 'a label of more than 63 octets' 525356000103020001000000000003016100000200000e1000050161406100
refused_at 28 'a hyphen at the beginning or end of a label' 525356000102020001000000000003016100000200000000000402612d00
refused_at 35 'a compression pointer' "52535600010402${R}0301610001c0000201000000020000000001040161c00c01c00002010000"

# ---- blocks

# the place of a wrong name is counted in its block, and the first fault is told: of a second block, of joined data, after another fault
octets "${area}0090000700010003015f00" >"$work/in"
says "a wrong name in the second block" 0 "$(sed '$d' "$tests/k01-dhcp6.txt")
found 2, discarded 1, fault 22 at octet 9 of its block" "$(discards 'standard input' 2 61 22); an underscore" "$dnr" read 2
octets a20400060001a20403015f00 >"$work/in"
says "a wrong name in joined data" 0 "DHCPv4 (carrier 1), 0 records
found 1, discarded 1, fault 22 at octet 6 of its block" "$(discards 'standard input' 1 10 22); an underscore" "$dnr" read 1
octets "0090001600000012${N}0090000700010003015f00" >"$work/in"
says "a wrong name after another fault" 0 "DHCPv6 (carrier 2), 0 records
found 2, discarded 2, fault 21" "dnr: standard input: 2 of 2 blocks discarded
dnr: standard input: block 1, octet 4: discarded, 21: $(words 21)
dnr: standard input: block 2, octet 35: discarded, 22: $(words 22); an underscore" "$dnr" read 2
