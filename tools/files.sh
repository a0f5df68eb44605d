#!/bin/sh
# Tries what docs/COMMAND.md says of an output file (-o), with build/dnr or the program that DNR names: permissions, owner and group, stale and parallel
# files, long names, folders and disks that take nothing, links, pipes and devices, and calls of the system that fail. Ends in 'N passed, M failed'.
# What the machine does not let it try (root, mount, strace) is said, and counts as neither.
set -u
cd "$(dirname "$0")/.." || exit 2
work=$(mktemp -d) || exit 2
mounted=
clean() {
    [ -z "$mounted" ] || umount "$mounted"
    chmod -R u+rwx "$work"
    rm -rf "$work"
}
trap clean EXIT
umask 022
chmod 755 "$work"
cp "${DNR:-build/dnr}" "$work/dnr" || exit 2
dnr=$work/dnr
passed=0
failed=0
skipped=0

# step NAME COMMAND..: one check that passes when the command does.
step() {
    name=$1
    shift
    if "$@"; then
        passed=$((passed + 1))
    else
        echo "files: $name: FAILED"
        failed=$((failed + 1))
    fi
}

skip() {
    echo "files: not tried: $1"
    skipped=$((skipped + 1))
}

# Two sheets of different lengths, and what is saved when they are written.
"$dnr" read 2 examples/k01-dhcp6.hex -o "$work/one.rsv" || exit 2
"$dnr" read 1 examples/k02-dhcp4.hex -o "$work/two.rsv" || exit 2
"$dnr" write "$work/one.rsv" -o "$work/one" || exit 2
"$dnr" write "$work/two.rsv" -o "$work/two" || exit 2

# save TARGET [COMMAND..]: saves the first sheet's octets there, by way of a command; standard error is kept.
save() {
    to=$1
    shift
    "$@" "$dnr" write "$work/one.rsv" -o "$to" 2>"$work/err"
}

# saved TARGET [COMMAND..]: that is done, nothing is said, and nothing else is left in the folder.
saved() {
    save "$@" && cmp "$work/one" "$1" && [ ! -s "$work/err" ] && alone "$1"
}

# alone TARGET: no new file is left in its folder, but those that stood there before.
alone() {
    left=$(find "$(dirname "$1")" -maxdepth 1 -name '.dnr.??????' ! -name '.dnr.stale?' 2>/dev/null)
    [ -z "$left" ] || {
        echo "left: $left"
        return 1
    }
}

# unsaved MESSAGE TARGET [COMMAND..]: it ends in 2 with this message, and file and folder are as they were.
unsaved() {
    message=$1
    shift
    cp -p "$1" "$work/before" 2>/dev/null || rm -f "$work/before"
    save "$@"
    status=$?
    printf 'dnr: %s: %s\n' "$1" "$message" >"$work/wanted"
    [ "$status" -eq 2 ] && diff "$work/wanted" "$work/err" && alone "$1" && same_as_before "$1"
}

same_as_before() {
    if [ -e "$work/before" ]; then
        cmp "$work/before" "$1" && [ "$(stat -c '%a %u %g' "$work/before")" = "$(stat -c '%a %u %g' "$1")" ]
    else
        [ ! -e "$1" ]
    fi
}

# is WANTED FORMAT FILE: what stat says of a file.
is() {
    got=$(stat -c "$2" "$3")
    [ "$got" = "$1" ] || {
        echo "$3: $got instead of $1"
        return 1
    }
}

# old TARGET [MODE]: a file that is longer than what takes its place.
old() {
    rm -f "$1"
    head -c 5000 /dev/zero | tr '\0' x >"$1"
    chmod "${2:-644}" "$1"
}

# ---- permissions

for mode in 600 640 644 755 666 604 700; do
    for mask in 022 077 000; do
        old "$work/kept" $mode
        umask $mask
        step "a file of mode $mode under umask $mask" saved "$work/kept"
        umask 022
        step "a file of mode $mode under umask $mask stays so" is $mode %a "$work/kept"
    done
done
for pair in 022:644 077:600 002:664 000:666 027:640; do
    rm -f "$work/new"
    umask "${pair%:*}"
    step "a new file under umask ${pair%:*}" saved "$work/new"
    umask 022
    step "a new file under umask ${pair%:*} is of mode ${pair#*:}" is "${pair#*:}" %a "$work/new"
done
old "$work/kept" 4755
step "a file with a bit above its permissions" saved "$work/kept"
step "that bit is dropped" is 755 %a "$work/kept"
old "$work/kept"
ln "$work/kept" "$work/second"
step "a file with a second name" saved "$work/kept"
step "the second name keeps the old file" is '5000 1' '%s %h' "$work/second"

# ---- stale and parallel files

mkdir "$work/stale"
for name in .dnr.stale1 .dnr.stale2 target.part; do
    echo stale >"$work/stale/$name"
done
step "stale files, a new file" saved "$work/stale/target"
old "$work/stale/target" 600
step "stale files, a file that is there" saved "$work/stale/target"
step "stale files stay" [ "$(cat "$work/stale/.dnr.stale1" "$work/stale/.dnr.stale2" "$work/stale/target.part" | sort -u)" = stale ]

# whole TARGET: it is one of the two results.
whole() {
    cmp -s "$work/one" "$1" || cmp -s "$work/two" "$1"
}

# race TARGET: two runs at once on one target; both succeed, and the result is that of one of them.
race() {
    "$dnr" write "$work/one.rsv" -o "$1" &
    first=$!
    "$dnr" write "$work/two.rsv" -o "$1"
    second=$?
    wait $first && [ $second -eq 0 ] && whole "$1" && alone "$1"
}
mkdir "$work/race"
round=0
while [ $round -lt 20 ]; do
    rm -f "$work/race/new"
    step "two runs at once on a new file, round $round" race "$work/race/new"
    step "two runs at once on a file that is there, round $round" race "$work/race/new"
    round=$((round + 1))
done

# ---- names

long=$(head -c 250 /dev/zero | tr '\0' n)
mkdir "$work/long"
step "a name of 250 characters" saved "$work/long/$long"
step "a name of 250 characters that is there" saved "$work/long/$long"
step "a name of 255 characters" saved "$work/long/${long}abcde"
step "a name of 256 characters" unsaved 'File name too long' "$work/long/${long}abcdef"
here() {
    (cd "$work/long" && "$dnr" write ../one.rsv -o "$1") && cmp "$work/one" "$work/long/$1" && alone "$work/long/$1"
}
step "a name without a folder" here plain
step "a name in this folder" here ./plain
# deep LENGTH: a folder whose path has this many characters with the slash at its end.
deep() {
    path=$work/
    while [ $(($1 - ${#path})) -gt 250 ]; do
        path=$path$(head -c 200 /dev/zero | tr '\0' d)/
    done
    path=$path$(head -c $(($1 - ${#path} - 1)) /dev/zero | tr '\0' e)/
    mkdir -p "$path" && printf %s "$path"
}
step "a path that leaves room for the new file's name" saved "$(deep 4084)t"
step "a path that leaves no room" unsaved 'File name too long' "$(deep 4085)t"
echo old >"$(deep 4085)t"
step "a path that leaves no room, a file that is there" unsaved 'cannot make a file beside it: File name too long' "$(deep 4085)t"
step "a folder that is not there" unsaved 'No such file or directory' "$work/none/new"
step "a folder" [ "$("$dnr" write "$work/one.rsv" -o "$work/long" 2>&1)" = "dnr: $work/long: Is a directory" ]

# ---- links

mkdir "$work/links" "$work/links/far"
old "$work/links/far/file" 640
ln -s far/file "$work/links/near"
ln -s ../near "$work/links/far/back"
step "a link" saved "$work/links/near"
step "a link to a link" saved "$work/links/far/back"
step "links stay, and the file keeps its mode" is '640 regular file' '%a %F' "$work/links/far/file"
step "the first link stays" [ -L "$work/links/near" ]
step "the second link stays" [ -L "$work/links/far/back" ]
step "nothing is left beside the file" alone "$work/links/far/file"
ln -s far/later "$work/links/dangling"
step "a link that leads nowhere yet" saved "$work/links/dangling"
step "it stays a link" [ -L "$work/links/dangling" ]
step "its file is made" is '644 regular file' '%a %F' "$work/links/far/later"
ln -s round "$work/links/round"
step "a link to itself" [ "$("$dnr" write "$work/one.rsv" -o "$work/links/round" 2>&1)" = "dnr: $work/links/round: Too many levels of symbolic links" ]

# ---- pipes and devices

mkfifo "$work/pipe"
cat "$work/pipe" >"$work/piped" &
reader=$!
step "a pipe" save "$work/pipe"
wait $reader
step "a pipe: the octets" cmp "$work/one" "$work/piped"
step "a pipe stays" [ -p "$work/pipe" ]
step "/dev/null" save /dev/null
step "/dev/null stays" [ -c /dev/null ]
save /dev/full
step "/dev/full" [ $? -eq 2 -a "$(cat "$work/err")" = 'dnr: /dev/full: No space left on device' ]
step "/dev/full stays" [ -c /dev/full ]
"$dnr" write "$work/one.rsv" -o /dev/stdout | cat >"$work/out"
step "/dev/stdout, a pipe" cmp "$work/one" "$work/out"

# ---- other users

as_user= # stands before a command, which then runs as another user
if [ "$(id -u)" -ne 0 ]; then
    skip "owners and groups (not root)"
elif setpriv --reuid=65534 --regid=65534 --clear-groups "$dnr" --version >/dev/null 2>&1; then
    as_user="setpriv --reuid=65534 --regid=65534 --clear-groups"
else
    skip "owners and groups (setpriv)"
fi
if [ -n "$as_user" ]; then
    mkdir "$work/users" "$work/shut"
    chmod 777 "$work/users"
    old "$work/users/theirs" 640
    chown 65534:65534 "$work/users/theirs"
    step "root replaces a user's file" saved "$work/users/theirs"
    step "it stays the user's" is '640 65534 65534' '%a %u %g' "$work/users/theirs"
    step "a user replaces his own file" saved "$work/users/theirs" $as_user
    step "it stays so" is '640 65534 65534' '%a %u %g' "$work/users/theirs"
    # what a user may write to by a group of his: the group stays, the owner cannot
    old "$work/users/group" 660
    chown 0:4242 "$work/users/group"
    step "a user replaces his group's file" saved "$work/users/group" setpriv --reuid=65534 --regid=65534 --groups=4242
    step "it stays the group's" is '660 65534 4242' '%a %u %g' "$work/users/group"
    # what all may write to: neither stays, and what either the old group or others lacked, nobody has
    for pair in 666:666 646:644 606:600 626:622 777:777; do
        old "$work/users/all" "${pair%:*}"
        chown 0:4242 "$work/users/all"
        step "a user replaces root's file of mode ${pair%:*}" saved "$work/users/all" $as_user
        step "it is his, and of mode ${pair#*:}" is "${pair#*:} 65534 65534" '%a %u %g' "$work/users/all"
    done
    old "$work/users/root" 444
    step "a file that may not be written to" unsaved 'Permission denied' "$work/users/root" $as_user
    old "$work/shut/there" 666
    chmod 555 "$work/shut"
    step "a folder that takes no file, a file that is there" unsaved 'cannot make a file beside it: Permission denied' "$work/shut/there" $as_user
    step "a folder that takes no file, a new file" unsaved 'Permission denied' "$work/shut/new" $as_user
    mkdir "$work/unread"
    chmod 733 "$work/unread"
    step "a folder that may not be read" save "$work/unread/new" $as_user
    step "a folder that may not be read: the octets" cmp "$work/one" "$work/unread/new"
fi

# ---- a full disk

mkdir "$work/disk"
if [ "$(id -u)" -eq 0 ] && mount -t tmpfs -o size=8k tmpfs "$work/disk" 2>/dev/null; then
    mounted=$work/disk
    echo short >"$work/disk/old"
    head -c 100000 /dev/zero >"$work/disk/rest" 2>/dev/null
    step "a full disk, a file that is there" unsaved 'No space left on device' "$work/disk/old"
    step "a full disk, a new file" unsaved 'No space left on device' "$work/disk/new"
    umount "$work/disk"
    mounted=
else
    skip "a full disk (mount)"
fi

# ---- calls that fail, by strace

# under WORDS..: strace before a command, with these words; the calls that are asked for go to $work/trace.
under() {
    echo "strace -q -o $work/trace $*"
}

# traced TARGET: the calls by which a file is saved, in their order.
traced() {
    save "$1" $(under -e trace=rename,renameat,renameat2,fsync,fchown,fchmod,write)
    sed -n 's/^renameat2*(/rename(/; s/(.*//p' "$work/trace" | tr '\n' ' '
}

# failing MESSAGE TARGET CALL ERROR WHEN: the call fails at its WHENth time.
failing() {
    unsaved "$1" "$2" $(under -e trace=all -e "inject=$3:error=$4:when=$5")
}

# narrowed CALLS MODE: the owner cannot be kept, nor, at two calls, the group; and then the mode is this one.
narrowed() {
    old "$work/calls/file" 754
    saved "$work/calls/file" $(under -e trace=all -e "inject=fchown:error=EPERM:when=1..$1") && is "$2" %a "$work/calls/file"
}
if strace -q -o "$work/trace" true 2>/dev/null; then
    mkdir "$work/calls"
    file=$work/calls/file
    step "a new file: on its device, then named, then the folder" [ "$(traced "$file")" = 'write fsync rename fsync ' ]
    step "a file that is there: what is kept of it comes first" [ "$(traced "$file")" = 'fchown fchmod write fsync rename fsync ' ]
    save "$file" $(under -e trace=close)
    closed=$(($(grep -c '^close' "$work/trace") - 1)) # the last one is the folder's
    for target in "$file" "$work/calls/new"; do
        step "fsync fails, $(basename "$target")" failing 'Input/output error' "$target" fsync EIO 1
        step "write fails, $(basename "$target")" failing 'No space left on device' "$target" write ENOSPC 1
        step "rename fails, $(basename "$target")" failing 'Operation not permitted' "$target" rename,renameat,renameat2 EPERM 1
    done
    step "fchmod fails" failing 'Operation not permitted' "$file" fchmod EPERM 1
    step "close fails" failing 'Input/output error' "$file" close EIO $closed
    step "what is said is of the first call that failed" \
        unsaved 'Input/output error' "$file" $(under -e trace=all -e inject=fsync:error=EIO:when=1 -e inject=close:error=EINTR:when=$closed)
    step "the folder's fsync fails" saved "$file" $(under -e trace=all -e inject=fsync:error=EIO:when=2)
    step "the owner cannot be kept" narrowed 1 754
    step "owner and group cannot be kept" narrowed 2 744
else
    skip "calls that fail (strace)"
fi

echo "files: $skipped parts not tried"
echo "$passed passed, $failed failed"
[ "$failed" -eq 0 ]
