# shellcheck shell=sh source=tests/hooks/common.sh disable=SC2034,SC2154  # tools/hooks.sh sets repository
# The checks of udhcpc; tools/hooks.sh runs them.
client=udhcpc
. "$repository/tests/hooks/common.sh"

# Notes the environment, then runs the hook as it is installed.
cat >/run/recorded.script <<SCRIPT
#!/bin/sh
. $tests/record
record_event "\$1"
exec /etc/udhcpc/dnr.script "\$@"
SCRIPT
chmod +x /run/recorded.script
cp "$repository/examples/hooks/udhcpc.script" /etc/udhcpc/dnr.script

start() {
    env -i PATH="$path" busybox udhcpc -f -t 3 -T 1 -A 2 -i c0 -O 162 -s /run/recorded.script >>/run/client.log 2>&1 &
    process=$!
}

# renew SECONDS [DIGITS]: the server has this option now, and the client asks again.
renew() {
    dhcpd4 "$@"
    kill -USR1 "$process"
}

link_up
dhcpd4 600 "$(value short-dhcp4)"
start
step 'option 162' within 200 shows $sheet4 short-dhcp4
renew 600 "$(value joined-dhcp4)"
step 'renewal: another value, above 255 octets' within 200 shows $sheet4 joined-dhcp4
renew 600 $bad
step 'renewal: a value that is discarded was handed over' within 200 recorded 1 "$bad"
sleep 2
step 'renewal: the sheet before it is kept' shows $sheet4 joined-dhcp4
renew 600
step 'renewal without the option: no sheet' within 200 gone $sheet4
renew 16 "$(value short-dhcp4)"
step 'renewal with the option again' within 200 shows $sheet4 short-dhcp4
stop 4
step 'the lease runs out: no sheet' within 250 gone $sheet4
dhcpd4 600 "$(value short-dhcp4)"
step 'a lease again' within 200 shows $sheet4 short-dhcp4
kill -USR2 "$process"
step 'release: no sheet' within 200 gone $sheet4
dhcpd4 600 "$(value long-dhcp4)"
count=$(seen '^== bound')
kill -USR1 "$process"
step 'limit: a lease, where the option does not fit into 576 octets' within 200 recorded $((count + 1)) '^== bound'
sleep 2
step 'limit: no sheet, ISC dhcpd leaves the option out' gone $sheet4
kill "$process"
kea4 "$(value long-dhcp4)"
count=$(seen '^== leasefail')
start
step 'limit: no lease from Kea, which sends it all the same' within 200 recorded $((count + 1)) '^== leasefail'
kill "$process"
close_counts
