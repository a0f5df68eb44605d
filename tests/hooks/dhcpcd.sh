# shellcheck shell=sh source=tests/hooks/common.sh disable=SC2034,SC2154  # tools/hooks.sh sets repository
# The checks of dhcpcd; tools/hooks.sh runs them.
client=dhcpcd
. "$repository/tests/hooks/common.sh"

cat >/etc/dhcpcd.enter-hook <<HOOK
. $tests/record
record_event "\$reason"
HOOK
cp "$repository/examples/hooks/dhcpcd-hook" /usr/lib/dhcpcd/dhcpcd-hooks/70-dnr
cat "$repository/examples/hooks/dhcpcd.conf" >>/etc/dhcpcd.conf

run() {
    env -i PATH="$path" dhcpcd --noarp "$@" c0 >>/run/client.log 2>&1
}

# renew SECONDS [DIGITS]: the server has this option now, and the client asks again.
renew() {
    dhcpd4 "$@"
    run --rebind
}

# advertise KIND SOURCE NAME: router advertisements from this address with the options of NAME.hex, or of what /run/KIND.hex has later.
advertise() {
    cp "$tests/$3.hex" "/run/$1.hex"
    nsenter --net=/run/netns/server python3 "$tests/advertise.py" s0 "$2" 0x80 50 "/run/$1.hex" >"/run/server$1.log" 2>&1 &
    eval "server$1=$!"
}

link_up
kea4 "$(value long-dhcp4)"
several6
ip -n server -6 address add fe80::1/64 dev s0
ip -n server -6 address add fe80::2/64 dev s0
advertise first fe80::1 three-ra
run --nobackground &
step 'router advertisement: three options 144' within 200 shows $sheetra three-ra
step 'option 162 of 510 octets' within 200 shows $sheet4 long-dhcp4
step 'two options 144' within 200 shows $sheet6 two-dhcp6
advertise second fe80::2 second-ra
step 'router advertisement: the options of two routers' within 200 shows $sheetra both-ra
: >/run/first.hex
: >/run/second.hex
step 'router advertisement without the option: no sheet' within 200 gone $sheetra
cp "$tests/three-ra.hex" /run/first.hex
step 'router advertisement with the option again' within 200 shows $sheetra three-ra
run --release
step 'release: no sheet of DHCPv4' within 200 gone $sheet4
step 'release: no sheet of DHCPv6' within 200 gone $sheet6
step 'release: no sheet of router advertisements' within 200 gone $sheetra
dhcpd4 20 "$(value short-dhcp4)"
dhcpd6 "$(value one-dhcp6)"
run --nobackground &
step 'option 162' within 200 shows $sheet4 short-dhcp4
step 'one option 144' within 200 shows $sheet6 one-dhcp6
renew 20 "$(value joined-dhcp4)"
step 'renewal: another value' within 200 shows $sheet4 joined-dhcp4
renew 20 $bad
step 'renewal: a value that is discarded was handed over' within 200 recorded 1 "^new_dnr=$bad"
sleep 2
step 'renewal: the sheet before it is kept' shows $sheet4 joined-dhcp4
renew 20
step 'renewal without the option: no sheet' within 200 gone $sheet4
renew 20 "$(value short-dhcp4)"
step 'renewal with the option again' within 200 shows $sheet4 short-dhcp4
ip -n server link set s0 down
step 'no carrier: no sheet' within 200 gone $sheet4
ip -n server link set s0 up
step 'a carrier again' within 200 shows $sheet4 short-dhcp4
stop 4
step 'the lease runs out: no sheet' within 300 gone $sheet4
run --exit
close_counts
