#!/usr/bin/env bash
# Runs the program on files, with what it must write and what it must refuse. Usage: tests/program.sh PROGRAM
set -uo pipefail
root=$(cd "$(dirname "$0")/.." && pwd)
program=$(realpath "$1")
scratch=$(mktemp -d)
trap 'rm -rf "$scratch"' EXIT
cd "$scratch"
failures=0
cases=0

fail() {
    echo "FAILED: $*"
    failures=$((failures + 1))
}

# done_with OUTPUT WORDS..: status 0, this output, nothing on standard error
done_with() {
    local want=$1
    shift
    cases=$((cases + 1))
    "$program" "$@" >out 2>err || fail "$*: status $?"
    [ "$(cat out)" = "$want" ] || fail "$*: wrote $(cat out)"
    [ ! -s err ] || fail "$*: on standard error: $(cat err)"
}

# refused_with LINE WORDS..: status 1, this one line on standard error, no output, and no file changed
refused_with() {
    local want=$1
    shift
    cases=$((cases + 1))
    rm -f out err before
    find . -type f ! -name out ! -name err ! -name before -exec sha256sum {} + | sort >before
    "$program" "$@" >out 2>err
    [ $? -eq 1 ] || fail "$*: status is not 1"
    [ "$(cat err)" = "$want" ] || fail "$*: on standard error: $(cat err)"
    [ "$(wc -l <err)" -eq 1 ] || fail "$*: not one line"
    [ ! -s out ] || fail "$*: wrote $(cat out)"
    find . -type f ! -name out ! -name err ! -name before -exec sha256sum {} + | sort | cmp -s - before || fail "$*: a file changed"
}

# poke FILE OFFSET BYTE (in octal)
poke() {
    printf "\\$3" | dd of="$1" bs=1 seek="$2" conv=notrunc status=none
}

open='0.0.0.0/0 allow 0-65535'

# the whole way
done_with 'a.img: 4 open rules' format a.img 4
[ "$(stat -c %s a.img)" -eq 512 ] || fail 'size of an image of 4 slots'
done_with 'a.img: slot 3 is 192.0.2.0/24 block 0-65535' set a.img 3 192.0.2.0/24 block 0-65535
done_with "0 $open
1 $open
2 $open
3 192.0.2.0/24 block 0-65535" show a.img
done_with 'a.img: 4 slots, no damage' check a.img
done_with 'b.img: 33 open rules' format b.img 33
[ "$(stat -c %s b.img)" -eq 1024 ] || fail 'size of an image of 33 slots'
done_with 'b.img: slot 32 is 10.0.0.0/8 allow 80-80' set b.img 32 10.0.0.0/8 allow 80-80
done_with 'b.img: 33 slots, no damage' check b.img
done_with 'one.img: 1 open rules' format one.img 1
done_with 'one.img: slot 0 is 192.0.2.0/24 block 0-65535' set one.img 0 192.0.2.0/24 block 0-65535
[ "$(od -An -tx1 -N2 one.img | tr -d ' ')" = 25fd ] || fail 'the check of the worked block'
[ -z "$(find . -name '*.new')" ] || fail 'a new file was left behind'

# the images are those of the reference implementation
PYTHONPATH="$root/reference" python3 -B - <<'PY' || fail 'an image differs from the reference'
import rulebook
def image(count, puts):
    memory = bytearray(512 * ((count + 31) // 32))
    rulebook.format_blocks(memory, count)
    store = rulebook.BlockStore(memory, count)
    for slot, text in puts:
        store.put(slot, rulebook.read_rule(text))
    return bytes(memory)
assert open("a.img", "rb").read() == image(4, [(3, b"192.0.2.0/24 block 0-65535")])
assert open("b.img", "rb").read() == image(33, [(32, b"10.0.0.0/8 allow 80-80")])
assert open("one.img", "rb").read() == image(1, [(0, b"192.0.2.0/24 block 0-65535")])
PY

# wrong words on the command line
refused_with 'rulebook: no such command, or not its words; see rulebook help' task now
refused_with 'rulebook: no such command, or not its words; see rulebook help' show
refused_with 'rulebook: no such command, or not its words; see rulebook help' show a.img b.img
refused_with 'rulebook: no such command, or not its words; see rulebook help' help me
refused_with 'rulebook: no such command, or not its words; see rulebook help' set a.img 3 192.0.2.0/24 block
refused_with 'rulebook: SLOTS is a decimal number; see rulebook help' format c.img four
refused_with 'rulebook: SLOTS is a decimal number; see rulebook help' format c.img 04
refused_with 'rulebook: SLOT is a decimal number; see rulebook help' set a.img -1 192.0.2.0/24 block 0-65535
refused_with 'rulebook: SLOT is a decimal number; see rulebook help' set a.img 4294967296 192.0.2.0/24 block 0-65535

# counts, slots and rules
size='the count is not 1 to 64, or the memory is not of its size'
refused_with "rulebook: refused 1 2 0: $size" format c.img 0
refused_with "rulebook: refused 1 2 0: $size" format c.img 65
refused_with "rulebook: refused 1 2 0: $size" format c.img 4294967295
refused_with 'rulebook: refused 3 2 4: the store has no such slot' set a.img 4 192.0.2.0/24 block 0-65535
refused_with 'rulebook: refused 3 2 4294967295: the store has no such slot' set a.img 4294967295 192.0.2.0/24 block 0-65535
unreadable='a field is unreadable, missing or too many'
refused_with "rulebook: refused 21 4 0: $unreadable" set a.img 0 192.0.2.256/24 block 0-65535
refused_with "rulebook: refused 21 4 13: $unreadable" set a.img 0 192.0.2.0/24 Block 0-65535
refused_with "rulebook: refused 21 4 19: $unreadable" set a.img 0 192.0.2.0/24 block 0-65536
refused_with "rulebook: refused 21 4 27: $unreadable" set a.img 0 192.0.2.0/24 block '0-65535 '
refused_with 'rulebook: refused 20 4 0: the parts make no rule' set a.img 0 192.0.2.1/24 block 0-65535
refused_with 'rulebook: refused 20 4 0: the parts make no rule' set a.img 0 0.0.0.0/33 block 0-65535
refused_with 'rulebook: refused 20 4 0: the parts make no rule' set a.img 0 0.0.0.0/0 block 2-1

# files
refused_with 'rulebook: cannot read gone.img: No such file or directory (os error 2)' show gone.img
refused_with 'rulebook: cannot read gone.img: No such file or directory (os error 2)' set gone.img 0 192.0.2.0/24 block 0-65535
mkdir folder
refused_with 'rulebook: cannot read folder: Is a directory (os error 21)' check folder
refused_with 'rulebook: cannot write nowhere/c.img: No such file or directory (os error 2)' format nowhere/c.img 4
: >empty.img
refused_with "rulebook: refused 1 2 0: $size" show empty.img
head -c 511 a.img >short.img
refused_with "rulebook: refused 1 2 0: $size" check short.img
cat a.img a.img a.img >long.img
refused_with "rulebook: refused 1 2 0: $size" check long.img

# damaged images
cp a.img bad.img
poke bad.img 100 001
refused_with 'rulebook: refused 17 1 0: the check of a block differs' show bad.img
refused_with 'rulebook: refused 17 1 0: the check of a block differs' check bad.img
refused_with 'rulebook: refused 17 1 0: the check of a block differs' set bad.img 0 192.0.2.0/24 block 0-65535
cp a.img bad.img
poke bad.img 3 000
refused_with 'rulebook: refused 18 1 0: bytes 2 to 15 of a block are not as laid out' check bad.img
poke bad.img 3 041
refused_with 'rulebook: refused 18 1 0: bytes 2 to 15 of a block are not as laid out' check bad.img
cp b.img bad.img
poke bad.img 515 000
refused_with 'rulebook: refused 18 1 1: bytes 2 to 15 of a block are not as laid out' check bad.img
cp b.img bad.img
poke bad.img 600 001
refused_with 'rulebook: refused 17 1 1: the check of a block differs' check bad.img
done_with 'bad.img: 2 open rules' format bad.img 2
done_with 'bad.img: 2 slots, no damage' check bad.img

# the task in memory
done_with "$(cat "$root/tests/task.stdout")" task

# scripts that are done
printf 'b 0\nf 0 3\nr 0 3\nw 0 3 10.0.0.0/8 block 0-9\np 0 7\nc 0\n' >script
done_with '1 0
2 0 0.0.0.0/0 allow 0-65535
3 0 0.0.0.0/0 allow 0-65535
4 0
5 0 0
6 0 1' --slots 4 --stamps ticket script
done_with 'p.img: 4 open rules' format p.img 4
done_with '1 0
2 0 0.0.0.0/0 allow 0-65535
3 0 0.0.0.0/0 allow 0-65535
4 0
5 0 0
6 0 1' --image p.img --stamps ticket script
done_with "0 $open
1 $open
2 $open
3 10.0.0.0/8 block 0-9" show p.img
refused_with "rulebook: refused 1 2 0: $size" --slots 0 script
refused_with "rulebook: refused 1 2 0: $size" --slots 65 script
refused_with "rulebook: refused 1 2 0: $size" --slots 4294967295 script
refused_with 'rulebook: SLOTS is a decimal number; see rulebook help' --slots four script
refused_with 'rulebook: cannot read gone.img: No such file or directory (os error 2)' --image gone.img script
refused_with 'rulebook: the stamps are clock or ticket; see rulebook help' --stamps sundial script
refused_with 'rulebook: no such command, or not its words; see rulebook help' --stamps ticket script script
refused_with 'rulebook: cannot read gone.txt: No such file or directory (os error 2)' gone.txt
cp a.img bad.img
poke bad.img 100 001
refused_with 'rulebook: refused 17 1 0: the check of a block differs' --image bad.img script

# the story of the tills that moved, with the answers of the reference
done_with "$(cat "$root/examples/tills.answers")" "$root/examples/tills.script"

# lines that are only read
printf 'w 0 3 192.0.2.0/24 block 0-65535\np 0 7.1\nz\n' >script
done_with '1 0
2 0
3 21 4 0' lint script
printf 'p 0 7\nb 0\r\n\nt 4294967296' >script
done_with '1 0
2 21 4 2
3 21 4 0
4 21 4 2' lint --stamps ticket script
: >script
done_with '' lint script
refused_with 'rulebook: cannot read gone.txt: No such file or directory (os error 2)' lint gone.txt
refused_with 'rulebook: the stamps are clock or ticket; see rulebook help' lint --stamps sundial
refused_with 'rulebook: no such command, or not its words; see rulebook help' lint --stamps ticket script script

if [ "$failures" -gt 0 ]; then
    echo "tests/program.sh: $failures failures in $cases cases"
    exit 1
fi
echo "tests/program.sh: $cases cases"
