#!/bin/sh
# Builds the firmware's library, its test in C with sanitizers, and the example, and runs both: sh tests/player.sh
set -e
cd "$(dirname "$0")/.."
(cd crates/player && rt lib >/dev/null)
out=crates/player/out
flags="-std=c11 -Wall -Wextra -Werror -Iinclude"
cc $flags -g -O1 -fsanitize=address,undefined -fno-sanitize-recover=all -o "$out/test" tests/player.c "$out/libplayer.a"
"$out/test"
cc $flags -O2 -o "$out/example" examples/player.c "$out/libplayer.a"
"$out/example" | diff - examples/player.stdout
