# Messages of the command, and how --json tells them; a part of tools/command.sh.

# is_json FILE: each line is one JSON object.
is_json() {
    python3 -c 'import json, sys; sys.exit(not all(isinstance(json.loads(line), dict) for line in open(sys.argv[1], encoding="ascii")))' "$1"
}

# objects MESSAGES: the messages of standard error as --json tells them; those of a failing call of the system are not made here.
objects() {
    printf '%s\n' "$1" | sed -e '/^$/d' -e 's/["\\]/\\&/g' -e 's/^dnr: //' -e '/^try dnr --help$/d' -e 't done' -e ':done' \
        -e 's/^.*: octet \([0-9]*\): refused, \([0-9]*\): .*$/{"message":"&","status":1,"number":\2,"octet":\1}/; t' \
        -e 's/^.*: refused, \([0-9]*\): .*$/{"message":"&","status":1,"number":\1}/; t' \
        -e 's/^.*: block \([0-9]*\), octet \([0-9]*\): discarded, \([0-9]*\): .*$/{"message":"&","number":\3,"block":\1,"octet":\2}/; t' \
        -e 's/^.*: block \([0-9]*\), octet \([0-9]*\): address .* dropped: .*$/{"message":"&","block":\1,"octet":\2}/; t' \
        -e 's/^.*: \(no option [0-9]\|no attribute [0-9]\|[0-9]* of [0-9]* blocks discarded\).*$/{"message":"&"}/; t' \
        -e 's/^.*$/{"message":"&","status":2}/'
}

# discards NAME OF OCTET NUMBER: what is said where the last of so many blocks is discarded.
discards() {
    printf 'dnr: %s\n' "$1: 1 of $2 blocks discarded" "$1: block $2, octet $3: discarded, $4: $(words "$4")"
}

# tells NAME STATUS RESULT ERR COMMAND..: as says, with --json: the result, and each message as an object.
tells() {
    name=$1
    status=$2
    objects "$4" >"$work/objects"
    wanted "$3" result
    cat "$work/result" "$work/objects" >"$work/told"
    err=$4
    shift 4
    says "$name" "$status" "@$work/told" "$err" "$@"
    step "$name: objects" is_json "$work/out"
}

# heard WORDS..: whether --json stands among them, but after -- and as a name after -o.
heard() {
    before=
    for word in "$@"; do
        case $before$word in
            -o* | --output?*) before= ;;
            --) return 1 ;;
            --json) return 0 ;;
        esac
        case $word in -o | --output) before=$word ;; esac
    done
    return 1
}
