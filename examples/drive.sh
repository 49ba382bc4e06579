#!/bin/sh
room=$(mktemp -d) || exit
trap 'rm -r "$room"' EXIT
mkfifo "$room/lines" "$room/replies"
propbench <"$room/lines" >"$room/replies" &
exec 3>"$room/lines" 4<"$room/replies"

# sends a line that is answered by one, and sets $reply to that
send() {
    printf '%s\n' "$1" >&3
    IFS= read -r reply <&4
}

for line in 'cell x span' 'cell y span' 'cell z span' 'attach sum x y z'; do
    send "$line"
    [ "$reply" = ok ] || echo "$line: $reply"
done
send 'tell morning x 3..5'
send 'tell evening y 10'
send 'why z'
echo "$reply"
send 'ask w'
echo "$reply"
exec 3>&-
wait $!
echo "status $?"
