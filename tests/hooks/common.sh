# shellcheck shell=sh disable=SC2034,SC2154  # some names are used and some are set by the files that read this one
# What the checks of the three clients share; read by tests/hooks/CLIENT.sh. The client's end of the link is c0, in the namespace of this shell; the
# server's is s0, in the namespace `server`. /run is this shell's own. Waiting is counted in tenths of a second.
tests=$repository/tests/hooks
record=/run/record.env
sheet4=/run/dnr/c0.dhcp4
sheet6=/run/dnr/c0.dhcp6
sheetra=/run/dnr/c0.ra
# An instance of priority 0, which is discarded (RULES R21).
bad=001500001204646f6831076578616d706c6503636f6d00
path=$PATH
passed=0
failed=0

# step NAME COMMAND..: one check that passes when the command does.
step() {
    name=$1
    shift
    if "$@"; then
        echo "$client: $name: ok"
        passed=$((passed + 1))
    else
        echo "$client: $name: FAILED"
        failed=$((failed + 1))
        echo "--- last messages of client and server, and the sheets"
        tail -n 12 /run/client.log /run/server*.log 2>/dev/null
        ls -l /run/dnr 2>/dev/null
        echo "---"
    fi
}

# within TENTHS COMMAND..: whether the command passes within this time.
within() {
    tenths=$1
    shift
    until "$@" >/dev/null 2>&1; do
        [ "$tenths" -gt 0 ] || return 1
        tenths=$((tenths - 1))
        sleep 0.1
    done
}

# shows SHEET NAME: whether the sheet is the one of NAME.json.
shows() {
    /usr/local/bin/dnr show --json "$1" >/run/shown.json 2>&1 && cmp -s /run/shown.json "$tests/$2.json"
}

# gone SHEET: whether there is no such file.
gone() {
    [ ! -e "$1" ]
}

# recorded COUNT TEXT: whether at least so many lines of the hook's environments have the text.
recorded() {
    [ "$(grep -c -e "$2" "$record")" -ge "$1" ]
}

# seen TEXT: how many lines of the hook's environments have the text.
seen() {
    grep -c -e "$1" "$record" 2>/dev/null
}

# value NAME: the digits of the only line of NAME.hex.
value() {
    cat "$tests/$1.hex"
}

colons() {
    printf '%s' "$1" | sed 's/../&:/g; s/:$//'
}

link_up() {
    for space in default all; do
        echo 0 >/proc/sys/net/ipv6/conf/$space/accept_dad
    done
    ip link set lo up
    ip netns add server
    nsenter --net=/run/netns/server sh -c 'echo 0 >/proc/sys/net/ipv6/conf/default/accept_dad; ip link set lo up'
    ip link add c0 type veth peer name s0 netns server
    ip -n server address add 192.0.2.1/24 dev s0
    ip -n server -6 address add 2001:db8:9::1/64 dev s0
    ip -n server link set s0 up
    ip link set c0 up
    within 50 sh -c 'ip -n server -br link show s0 | grep -q " UP "'
}

# serve KIND PORT FILE COMMAND..: starts a server; done once its port (four digits, hexadecimal) is open in /proc/PID/net/FILE.
serve() {
    kind=$1
    port=$2
    table=$3
    shift 3
    nsenter --net=/run/netns/server "$@" >"/run/server$kind.log" 2>&1 &
    eval "server$kind=$!"
    within 60 grep -q ":$port " "/proc/$!/net/$table" || echo "$client: the server does not listen: $*"
}

# stop KIND: ends the server of this kind.
stop() {
    eval "pid=\${server$1-}"
    [ -n "$pid" ] || return 0
    kill "$pid" 2>/dev/null
    wait "$pid" 2>/dev/null
    eval "server$1="
}

# dhcpd4 SECONDS [DIGITS]: ISC dhcpd with leases of this time and, where given, an option 162 of this value, in place of the one before.
dhcpd4() {
    stop 4
    option=
    [ -z "${2-}" ] || option="option dnr $(colons "$2");"
    cat >/run/dhcpd4.conf <<CONF
option dnr code 162 = string;
authoritative;
ddns-update-style none;
ping-check false;
dhcp-cache-threshold 0;
default-lease-time $1;
min-lease-time $1;
max-lease-time $1;
subnet 192.0.2.0 netmask 255.255.255.0 { range 192.0.2.100 192.0.2.150; option routers 192.0.2.1; $option }
CONF
    touch /run/dhcpd4.leases
    serve 4 0043 udp dhcpd -4 -f -cf /run/dhcpd4.conf -lf /run/dhcpd4.leases -pf /run/dhcpd4.pid s0
}

# kea4 DIGITS: Kea with an option 162 of this value.
kea4() {
    stop 4
    cat >/run/kea4.conf <<CONF
{ "Dhcp4": { "interfaces-config": { "interfaces": [ "s0" ] }, "valid-lifetime": 600,
  "lease-database": { "type": "memfile", "persist": false },
  "option-def": [ { "name": "dnr", "code": 162, "type": "binary", "space": "dhcp4" } ],
  "subnet4": [ { "id": 1, "subnet": "192.0.2.0/24", "pools": [ { "pool": "192.0.2.100 - 192.0.2.150" } ],
    "option-data": [ { "code": 162, "csv-format": false, "data": "$1" } ] } ],
  "loggers": [ { "name": "kea-dhcp4", "severity": "WARN", "output_options": [ { "output": "stdout" } ] } ] } }
CONF
    serve 4 0043 udp env KEA_LOCKFILE_DIR=/run KEA_PIDFILE_DIR=/run kea-dhcp4 -c /run/kea4.conf
}

# dhcpd6 DIGITS: ISC dhcpd with an option 144 of this value.
dhcpd6() {
    stop 6
    cat >/run/dhcpd6.conf <<CONF
option dhcp6.dnr code 144 = string;
ddns-update-style none;
subnet6 2001:db8:9::/64 { range6 2001:db8:9::100 2001:db8:9::150; option dhcp6.dnr $(colons "$1"); }
CONF
    touch /run/dhcpd6.leases
    serve 6 0223 udp6 dhcpd -6 -f -cf /run/dhcpd6.conf -lf /run/dhcpd6.leases -pf /run/dhcpd6.pid s0
}

# several6: the server of two options 144.
several6() {
    stop 6
    serve 6 0223 udp6 python3 "$tests/server6.py" s0 100 "$tests/two-dhcp6.hex"
}

close_counts() {
    stop 4
    stop 6
    stop first
    stop second
    echo "$passed passed, $failed failed"
}
