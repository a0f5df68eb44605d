# shellcheck shell=sh source=tests/hooks/common.sh disable=SC2034,SC2154  # tools/hooks.sh sets repository
# The checks of dhclient; tools/hooks.sh runs them.
client=dhclient
. "$repository/tests/hooks/common.sh"

cat >/etc/dhcp/dhclient-enter-hooks.d/aa-record <<HOOK
. $tests/record
record_event "\$reason"
HOOK
cp "$repository/examples/hooks/dhclient-exit-hook" /etc/dhcp/dhclient-exit-hooks.d/dnr
cat "$repository/examples/hooks/dhclient.conf" >>/etc/dhcp/dhclient.conf

# dhclient FAMILY OPTION..: with its files in /run.
run() {
    env -i PATH="$path" dhclient "$@" -v -lf "/run/dhclient$1.leases" -pf "/run/dhclient$1.pid" c0 >>/run/client.log 2>&1
}

link_up
kea4 "$(value long-dhcp4)"
run -4 -d &
step 'option 162 of 510 octets' within 200 shows $sheet4 long-dhcp4
run -4 -r
step 'release: no sheet' within 200 gone $sheet4
dhcpd4 10 "$(value short-dhcp4)"
run -4 -d &
step 'option 162' within 200 shows $sheet4 short-dhcp4
dhcpd4 10 "$(value joined-dhcp4)"
step 'renewal: another value' within 200 shows $sheet4 joined-dhcp4
dhcpd4 10 $bad
step 'renewal: a value that is discarded was handed over' within 200 recorded 1 '^new_dnr=0:15:0:0:'
sleep 2
step 'renewal: the sheet before it is kept' shows $sheet4 joined-dhcp4
dhcpd4 10
step 'renewal without the option: no sheet' within 200 gone $sheet4
dhcpd4 10 "$(value short-dhcp4)"
step 'renewal with the option again' within 200 shows $sheet4 short-dhcp4
stop 4
step 'the lease runs out: no sheet' within 200 gone $sheet4
run -4 -x
dhcpd6 "$(value one-dhcp6)"
run -6 -d &
step 'option 144' within 200 shows $sheet6 one-dhcp6
run -6 -r
step 'release: no sheet' within 200 gone $sheet6
several6
run -6 -d &
step 'limit: the first of two options 144 alone' within 200 shows $sheet6 one-dhcp6
run -6 -x
step 'stop: no sheet' within 200 gone $sheet6
close_counts
