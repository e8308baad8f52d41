#!/bin/sh
# Runs alter on the programs of this folder, and compares what it writes and its status with what is expected.
here=$(cd "$(dirname "$0")" && pwd) || exit 1
folder=$(mktemp -d) || exit 1
trap 'rm -rf "$folder"' EXIT
cp "$here"/*.c "$here"/n.txt "$folder" && cd "$folder" || exit 1
failed=0

# builds it, where that is to be done
"$here/../alter" check p1.c >/dev/null || exit $?

# answers STATUS OUT ERR WORD..: what alter writes and ends with for these words
answers() {
    status=$1
    printf '%b' "$2" >out.wanted
    printf '%b' "$3" >err.wanted
    shift 3
    "$here/../alter" "$@" >out.given 2>err.given
    given=$?
    if [ "$given" = "$status" ] && cmp -s out.given out.wanted && cmp -s err.given err.wanted; then
        echo "ok: $*"
    else
        echo "FAILED: $*: status $given"
        cat out.given err.given
        failed=1
    fi
}

# under OLD NEW FILE: a copy NEW-FILE of the program, with another word in its annotation
under() {
    sed "/^#pragma/s/$1/$2/" "$3" >"$2-$3"
}

# Ten real programs, in rounds and plain: the output of gcc, where int means a whole number of 64 bits.
for expected in "$here"/expected/*.plain; do
    program=$(basename "$expected" .plain).c
    answers 0 'ok\n' '' check "$program"
    answers 0 "$(cat "$expected")\n" '' run "$program"
    answers 0 "$(cat "$expected")\n" '' plain "$program"
done

answers 0 'ok\n' '' check p1.c
answers 0 '5\n' '' run p1.c
answers 0 '-9223372036854775808 0 1 -1\n' '' run p2.c
answers 0 '7\n' '' run p3.c
answers 0 'loop 0 execution 0 line 4 trips 0 chunks 0\nend done\nloops 1 rounds 0 attempts 0 aborted 0 span 5\n' '' \
    trace p3.c
answers 0 '1 2\n' '' run p4.c --lanes 2 --chunk 1
answers 0 'loop 0 execution 0 line 5 trips 2 chunks 2\nround 0: 0 commit, 1 fail\nround 1: 1 commit\nend done\nloops 1 rounds 2 attempts 3 aborted 1 span 13\n' '' \
    trace p4.c --lanes 2 --chunk 1
under RAW WAW p4.c
answers 0 '1 1\n' '' run WAW-p4.c --lanes 2 --chunk 1
answers 0 '1 2\n' '' plain WAW-p4.c
answers 0 '0 2 1 ' '' run p5.c --lanes 3 --chunk 1
under OutOfOrder InOrder p5.c
answers 0 '0 1 2 ' '' run InOrder-p5.c --lanes 3 --chunk 1
answers 0 'loop 0 execution 0 line 5 trips 3 chunks 1\nround 0: 0 commit\nend done\nloops 1 rounds 1 attempts 1 aborted 0 span 21\n' '' \
    trace p5.c --chunk 100 --lanes 64
answers 0 '10\n' '' run p6.c --lanes 2 --chunk 1
under RAW WAW p6.c
answers 3 '' 'alter: WAW-p6.c:6: trap: divide by zero\n' run WAW-p6.c --lanes 2 --chunk 1
answers 0 'ok\n' '' run p7.c --lanes 2 --chunk 1 --iter-steps 100
under RAW NONE p7.c
answers 3 '' 'alter: NONE-p7.c:6: trap: step budget spent\n' run NONE-p7.c --lanes 2 --chunk 1 --iter-steps 100
answers 0 'ok\n' '' run p8.c --chunk 2 --iter-steps 64
answers 3 '' 'alter: p8.c:4: trap: step budget spent\n' run p8.c --chunk 2 --iter-steps 63
answers 0 '17\n' '' run p9.c n.txt --lanes 4 --chunk 1
answers 4 '' 'alter: cannot read none.txt\n' run p9.c none.txt
answers 0 '5 4 3 2 1 0 ' '' run p10.c --lanes 4 --chunk 1
answers 0 '5 4 3 2 1 0 ' '' plain p10.c
answers 3 '' 'alter: p11.c:6: trap: word of the other kind\n' run p11.c
answers 3 'go ' 'alter: p12.c:5: trap: too many trips\n' run p12.c
answers 3 '0 1 2 3 ' 'alter: p13.c:7: trap: out of bounds\n' run p13.c --lanes 4 --chunk 1
answers 1 '' 'alter: p14.c:3: loop is left\n' check p14.c
answers 1 '' 'alter: p14.c:3: loop is left\n' run p14.c
answers 0 'step 0 cost 10000 used 1000\nstep 1 cost 0 used 1000\n' '' run p15.c
answers 0 '0 1 0 0 0 0 1 0 0 0 0 0 0 0 1 0 32709\nloops 1 rounds 1 attempts 1 aborted 0 span 69\n' '' demo 1 3
answers 3 '4\n' 'alter: f1.c:8: trap: freed already\n' run f1.c
answers 0 '1\n' '' run f2.c --lanes 2 --chunk 1
answers 0 '1\n' '' plain f2.c
under RAW WAW f2.c
answers 0 '1\n' '' run WAW-f2.c --lanes 2 --chunk 1
under RAW NONE f2.c
answers 0 '1\n' '' run NONE-f2.c --lanes 2 --chunk 1
answers 3 '' 'alter: f3.c:3: trap: not an allocated object\n' run f3.c
sed 's/free(&q\[1\]);/free(q); q[0] = 1;/' f3.c >used.c
answers 3 '' 'alter: used.c:3: trap: missing object\n' run used.c
for line in 1 2 4; do
    answers 0 '1 1\n' '' run l.c --lanes 4 --chunk 1 --line $line
done
answers 2 '' 'alter: bad value for --line: 3\n' run l.c --line 3
exit $failed
