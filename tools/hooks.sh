#!/bin/sh
# Tries the hooks of examples/hooks on Debian 12, as root: a server and a client in network namespaces, for udhcpc, dhcpcd and dhclient at once, and holds
# the sheet that each hook leaves against what the server was given (tests/hooks/*.json). Ends in 'N passed, M failed'. About a minute; no part of the gate.
#   sh tools/hooks.sh          build/dnr, or the program that DNR names
#   sh tools/hooks.sh FOLDER   also leaves there what each client handed to its hooks
# The machine is left as it is: packages that are missing are installed into an overlay in memory, and files, mounts, links and processes are in namespaces
# of their own that end with this script. / with /usr and /var must be one file system.
set -u
cd "$(dirname "$0")/.." || exit 2
clients='udhcpc dhcpcd dhclient'
packages='busybox udhcpc dhcpcd-base isc-dhcp-client isc-dhcp-server kea-dhcp4-server iproute2 python3'
limit=170

fail() {
    echo "hooks: $1"
    echo "0 passed, 1 failed"
    exit 1
}

# Installs what is missing, in the overlay; no service may start there.
install_missing() {
    missing=
    for package in $packages; do
        dpkg-query -W -f '${db:Status-Status}' "$package" 2>/dev/null | grep -qx installed || missing="$missing $package"
    done
    [ -n "$missing" ] || return 0
    echo "hooks: installing for this run:$missing"
    printf '#!/bin/sh\nexit 101\n' >/usr/sbin/policy-rc.d
    chmod 755 /usr/sbin/policy-rc.d
    # shellcheck disable=SC2086  # a list of names
    { apt-get -q update && DEBIAN_FRONTEND=noninteractive apt-get -q install -y --no-install-recommends $missing; } >/run/hooks/apt.log 2>&1 && return 0
    tail -n 20 /run/hooks/apt.log
    return 1
}

# machine REPOSITORY: in a mount namespace of its own; a copy of the file system whose changes stay in memory, then the rest of this script in it.
machine() {
    memory=/run
    mount -t tmpfs tmpfs $memory || fail 'no memory file system'
    mkdir $memory/up $memory/work $memory/root
    mount -t overlay overlay -o "lowerdir=/,upperdir=$memory/up,workdir=$memory/work" $memory/root || fail 'no overlay'
    for folder in proc sys dev; do
        mount --rbind /$folder $memory/root/$folder || fail "no $folder"
    done
    mount -t tmpfs tmpfs $memory/root/run
    mkdir -p $memory/root/run/hooks/repository $memory/root/run/hooks/bin
    mount --bind "$1" $memory/root/run/hooks/repository || fail 'no repository'
    cp "$work/dnr" $memory/root/run/hooks/bin/dnr
    mkdir -p $memory/root/usr/local/bin
    mount --bind $memory/root/run/hooks/bin $memory/root/usr/local/bin
    hostname gateway
    chroot $memory/root sh /run/hooks/repository/tools/hooks.sh --clients
    status=$?
    for client in $clients; do
        cp "$memory/root/run/hooks/$client.log" "$memory/root/run/hooks/$client.env" "$work" 2>/dev/null
    done
    return $status
}

# Each client at once, in a network of its own.
run_clients() {
    install_missing || fail 'the packages cannot be installed'
    running=
    for client in $clients; do
        unshare --net --mount sh tools/hooks.sh --client "$client" >"/run/hooks/$client.log" 2>&1 &
        running="$running $!"
    done
    # shellcheck disable=SC2086  # a list of numbers
    wait $running
}

# one_client NAME: with /run and the clients' leases of its own.
one_client() {
    kept=/tmp/hooks.$1
    mkdir "$kept"
    mount --rbind /run/hooks "$kept" || fail 'no place to report to'
    mount -t tmpfs tmpfs /run
    mkdir -p /run/netns /run/dhcpcd /var/lib/dhcp /var/lib/dhcpcd
    mount -t tmpfs tmpfs /var/lib/dhcp
    mount -t tmpfs tmpfs /var/lib/dhcpcd
    repository=$kept/repository
    PATH=/usr/local/sbin:/usr/local/bin:/usr/sbin:/usr/bin:/sbin:/bin
    cd / || exit 2
    # shellcheck source=/dev/null
    . "$repository/tests/hooks/$1.sh"
    cp /run/record.env "$kept/$1.env"
}

# Adds up what the clients report; one that has closed on no count has failed.
add_up() {
    passed=0
    failed=0
    for client in $clients; do
        cat "$work/$client.log" 2>/dev/null
        line=$(tail -n 1 "$work/$client.log" 2>/dev/null | grep -Ex '[0-9]+ passed, [0-9]+ failed') || {
            echo "hooks: $client did not come to its end"
            line='0 passed, 1 failed'
        }
        passed=$((passed + ${line%% *}))
        line=${line#*, }
        failed=$((failed + ${line%% *}))
    done
    echo "hooks: all clients"
    echo "$passed passed, $failed failed"
    [ "$failed" -eq 0 ]
}

case ${1-} in
    --machine)
        work=$3
        machine "$2"
        exit
        ;;
    --clients)
        run_clients
        exit
        ;;
    --client)
        one_client "$2"
        exit
        ;;
esac

[ "$(id -u)" -eq 0 ] || fail 'only root can make the namespaces'
work=$(mktemp -d) || exit 2
trap 'rm -rf "$work"' EXIT
cp "${DNR:-build/dnr}" "$work/dnr" || fail 'no program: sh tools/build.sh'
"$work/dnr" read dhcp4 --value <tests/hooks/short-dhcp4.hex >"$work/out" 2>&1 || fail "the program does not read a value: $(head -n 1 "$work/out")"
# With unshare everything in its namespaces ends.
timeout -k 5 $limit unshare --mount --uts --ipc --pid --fork --kill-child --mount-proc sh tools/hooks.sh --machine "$PWD" "$work" &
running=$!
trap 'kill "$running"; wait "$running"; exit 1' INT TERM HUP
wait "$running"
if [ -n "${1-}" ]; then
    mkdir -p "$1" && cp "$work"/*.env "$1"
fi
add_up
