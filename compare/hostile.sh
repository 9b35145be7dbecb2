#!/usr/bin/env bash
# The report program under hostile use: input and output that are closed, cut, slow, huge or full, little memory and stack, signals.
#   hostile.sh            runs every case on crates/report/out/report (or the program that REPORT names)
#   hostile.sh --wrong    runs every case on programs that are wrong, and asks that each case be failed by one of them
# A case has what must stand on both outputs and the exit status, and limits of time and memory. One line a case, then a count.
# Needs cc, perl, script and GNU time.
set -u
export LC_ALL=C
here=$(cd "$(dirname "$0")" && pwd)
top=$(cd "$here/.." && pwd)
REPORT=$(readlink -f "${REPORT:-$top/crates/report/out/report}")
export REPORT
[ -x "$REPORT" ] || { echo "no program at $REPORT: rt run in crates/report" >&2; exit 2; }
tmp=$(mktemp -d)
trap 'rm -rf "$tmp"' EXIT
cd "$tmp" || exit 2
cc -O2 "$here/fuzz/model.c" "$here/fuzz/scope.c" -lm -o model || exit 2

if [ "${1:-}" = --wrong ]; then
    printf '#!/bin/sh\nprintf "refused\\t1\\n"\n' > refuses # reads nothing
    printf '#!/bin/sh\nexec cat > /dev/null\n' > silent
    # reads all of its input into memory and refuses
    printf '#!/usr/bin/perl\nlocal $/; $_ = <STDIN>; print "refused\\t1\\n"; exit 0\n' > slurps
    # right but for its status
    printf '#!/bin/sh\n%s\nexit 3\n' "$REPORT" > status
    chmod +x refuses silent slurps status
    for wrong in /bin/cat /bin/true /bin/false ./refuses ./silent ./slurps ./status; do
        LIMIT=6 REPORT=$wrong "$here/hostile.sh" > "wrong-$(basename $wrong)" 2> /dev/null
        echo "$(basename $wrong): $(tail -1 "wrong-$(basename $wrong)")"
    done
    grep -ah '^FAILED ' wrong-* | sed 's/^FAILED *//; s/:.*//' | sort | uniq -c > failures
    grep -ahE '^(ok|FAILED) ' wrong-* | sed 's/^[a-zA-Z]* *//; s/:.*//' | sort -u > names
    never=0
    while read -r name; do
        count=$(awk -v n="$name" '{ c = $1; sub(/^ *[0-9]+ /, ""); if ($0 == n) print c }' failures)
        printf '%s: failed by %s of 7 wrong programs\n' "$name" "${count:-0}"
        [ -n "$count" ] || never=$((never + 1))
    done < names
    echo "$(wc -l < names) cases, $never that no wrong program fails"
    [ "$never" -eq 0 ]
    exit
fi

ok=0 failed=0
# The command that runs the program, with its time and peak memory in ./time; STATUS has its status, 128 and the signal if a signal ended it.
# A wrong program may read and write without end: it gets LIMIT seconds and 100 MB of output.
printf '#!/bin/sh\nulimit -f 200000\nexec sh -c "$1"\n' > limited
chmod +x limited
run="timeout -s KILL ${LIMIT:-300} /usr/bin/time -q -o $tmp/time -f %e:%M $tmp/limited"

# Runs a command that leaves both outputs in ./out and ./err, and compares.
t() { # NAME SECONDS STATUS OUT ERR COMMAND
    local name=$1 seconds=$2 status=$3 want_out=$4 want_err=$5 wrong=
    rm -f out err time
    : > out
    : > err
    eval "$6"
    local got=$?
    [ "$got" = "$status" ] || wrong="$wrong status $got, not $status;"
    printf "$want_out" | cmp -s - out || wrong="$wrong standard output: $(head -c 60 out | tr '\n\t' '|>' | tr -c '[:print:]' '?');"
    printf "$want_err" | cmp -s - err || wrong="$wrong standard error: $(head -c 60 err | tr '\n\t' '|>' | tr -c '[:print:]' '?');"
    local spent=0 memory=0
    if [ -s time ]; then IFS=: read -r spent memory < <(tail -1 time); fi
    [ "$(echo "${spent:-0} $seconds" | awk '{ print ($1 <= $2) }')" = 1 ] || wrong="$wrong took $spent s;"
    [ "${memory:-0}" -le 16000 ] || wrong="$wrong $memory KB;"
    if [ -z "$wrong" ]; then
        ok=$((ok + 1))
        echo "ok     $name: status $got, $(wc -c < out) and $(wc -c < err) bytes out, $spent s, $memory KB"
    else
        failed=$((failed + 1))
        echo "FAILED $name:$wrong"
    fi
}

text=$top/crates/report/stdin
answer=$(sed 's/$/\\n/' "$top/crates/report/stdout" | tr -d '\n')
one='refused\t1\n'
no_input='report: standard input cannot be read\n'
no_output='report: standard output cannot be written\n'

# the texts of vectors_report, each behind its length, and their reports
mkdir texts
perl -e 'binmode STDIN; local $/; $_ = <STDIN>; for ($i = 0; length >= 4; $i++) { $n = unpack "V"; open $f, ">", "texts/$i.in"; print $f substr($_, 4, $n); close $f; $_ = substr $_, 4 + $n }' \
    < "$top/crates/vectors_report/stdin"
perl -e 'local $/; $_ = <STDIN>; while (s/^# (\d+)\n((?:[^#].*\n)*)//) { open $f, ">", "texts/$1.out"; print $f $2; close $f }' < "$top/crates/vectors_report/stdout"
longest=$(find texts -name '*.in' -size -10502c -size +10500c | head -1)
[ "$(wc -c < "$longest")" = 10501 ] || { echo "no text of 10,501 bytes among those of vectors_report" >&2; exit 2; }
longest_answer=$(sed 's/$/\\n/' "${longest%.in}.out" | tr -d '\n')

# words WORDS LANES ITERATIONS SCHEDULE: a text with the most edges, whose words never meet their checks
words() {
    perl -e 'srand 1; ($words, $lanes, $iterations, $schedule) = @ARGV;
        print "N\t1122\n"; for (1 .. 2) { print "R", map({ "\t" . int rand 374 } 1 .. 4), "\n" }
        print "P\t$lanes\t$iterations\t0\t$schedule\t4294967295\t0\t374\n";
        for (1 .. $words) { print "W\t", int(rand 7) - 3; $p = 0; print "\t", $p += 1 + int rand 16, "\t", int(rand 31) - 15 for 1 .. 64; print "\n" }' "$@"
}
answer_of() { ./model < "$1" | sed 's/$/\\n/' | tr -d '\n'; }
words 16 4 3 7 > full.txt
full_answer=$(answer_of full.txt)

# ---- input ----
t "the example" 5 0 "$answer" '' '$run "exec \"\$REPORT\" <$text >out 2>err"'
t "arguments and no environment" 5 0 "$answer" '' '$run "exec env -i \"\$REPORT\" a -b --help <$text >out 2>err"'
t "input closed" 5 0 '' "$no_input" '$run "exec \"\$REPORT\" <&- >out 2>err"'
t "no input" 5 0 "$one" '' '$run "exec \"\$REPORT\" </dev/null >out 2>err"'
t "an empty line" 5 0 "$one" '' 'echo | $run "exec \"\$REPORT\" >out 2>err"'
t "a directory as input" 5 0 '' "$no_input" '$run "exec \"\$REPORT\" </ >out 2>err"'
t "input open for writing only" 5 0 '' "$no_input" '$run "exec \"\$REPORT\" 0>/dev/null >out 2>err"'
t "a socket that is not connected as input" 5 0 '' "$no_input" '$run "exec perl -e \"use Socket; socket S, AF_UNIX, SOCK_STREAM, 0; open STDIN, q(<&), S; exec q($REPORT)\" >out 2>err"'
t "zeros without end" 5 0 "$one" '' '$run "exec \"\$REPORT\" </dev/zero >out 2>err"'
t "random bytes without end" 5 0 "$one" '' '$run "exec \"\$REPORT\" </dev/urandom >out 2>err"'
t "a pipe that has nothing, not blocking" 5 0 '' "$no_input" '$run "exec perl -e \"use Fcntl; pipe R, W; fcntl R, F_SETFL, O_NONBLOCK; fcntl W, F_SETFD, 0; open STDIN, q(<&), R; exec q($REPORT)\" >out 2>err"'
t "a pipe with the text, not blocking, writer still there" 5 0 '' "$no_input" '$run "exec perl -e \"use Fcntl; pipe R, W; open F, q($text); syswrite W, join q(), <F>; fcntl R, F_SETFL, O_NONBLOCK; fcntl W, F_SETFD, 0; open STDIN, q(<&), R; exec q($REPORT)\" >out 2>err"'
t "1 GB of tabs" 20 0 "$one" '' 'head -c 1G /dev/zero | tr "\0" "\t" 2>/dev/null | $run "exec \"\$REPORT\" >out 2>err"'
t "1 GB of W lines" 20 0 "$one" '' 'yes "$(printf "W\t1")" 2>/dev/null | head -c 1G 2>/dev/null | $run "exec \"\$REPORT\" >out 2>err"'
t "a valid beginning and 1 GB of junk" 20 0 "$one" '' '(head -3 $text; head -c 1G /dev/urandom) 2>/dev/null | $run "exec \"\$REPORT\" >out 2>err"'
t "a valid text and 1 GB of W lines" 20 0 "$one" '' '(cat $text; yes "$(printf "W\t1")" | head -c 1G) 2>/dev/null | $run "exec \"\$REPORT\" >out 2>err"'
t "the longest text and 1 GB of zeros" 20 0 "$one" '' '(cat $longest; head -c 1G /dev/zero) 2>/dev/null | $run "exec \"\$REPORT\" >out 2>err"'
cp $text file
truncate -s 1G file
t "a file of 1 GB, a valid text and zeros" 20 0 "$one" '' '$run "exec \"\$REPORT\" <file >out 2>err"'
rm file
t "10,501 bytes of the form" 5 0 "$longest_answer" '' '$run "exec \"\$REPORT\" <$longest >out 2>err"'
t "10,501 bytes of the form, from a pipe of single bytes" 20 0 "$longest_answer" '' 'perl -e "\$| = 1; local \$/; \$_ = <STDIN>; syswrite STDOUT, \$_ for split //" <$longest | $run "exec \"\$REPORT\" >out 2>err"'
t "10,502 bytes, one newline more" 5 0 "$one" '' '(cat $longest; echo) | $run "exec \"\$REPORT\" >out 2>err"'
t "10,502 bytes, cut where a line ends" 5 0 "$one" '' '(cat $longest; printf "W\t1\n") | head -c 10502 | $run "exec \"\$REPORT\" >out 2>err"'
t "a byte every 5 ms" 20 0 "$answer" '' 'perl -e "\$| = 1; local \$/; \$_ = <STDIN>; for (split //) { syswrite STDOUT, \$_; select undef, undef, undef, 0.005 }" <$text | $run "exec \"\$REPORT\" >out 2>err"'
t "a writer that pauses in a number" 20 0 "$answer" '' '(head -c 4 $text; sleep 1; tail -c +5 $text) | $run "exec \"\$REPORT\" >out 2>err"'
t "a terminal" 10 0 "$answer" '' '$run "exec script -qec \"\$REPORT >out 2>err\" /dev/null <$text >/dev/null"'
t "a writer that is killed in a line" 20 0 "$one" '' '(sh -c "head -c 30 $text; kill -9 \$\$") 2>/dev/null | $run "exec \"\$REPORT\" >out 2>err"'

# every beginning of the example: of the form where it ends with the line P or W
cut_short() {
    local size i wrong=0 forms=0
    size=$(wc -c < "$text")
    for ((i = 0; i <= size; i++)); do
        head -c "$i" "$text" | "$REPORT" > cut 2>> cut_err
        [ $? = 0 ] || wrong=$((wrong + 1))
        case $i in
        29) printf 'finished\t0\n' ;;
        33) printf 'finished\t0\n0\tmet\t0\t0\t0\t0\n' ;;
        "$size") printf "$answer" ;;
        *) printf "$one" ;;
        esac | cmp -s - cut || wrong=$((wrong + 1))
        head -c 4 cut | grep -q fini && forms=$((forms + 1))
    done
    echo "$((size + 1)) beginnings, $forms with a run, $wrong wrong" > out
    cat cut_err >> err
}
t "the example cut after every byte" 60 0 '43 beginnings, 3 with a run, 0 wrong\n' '' 'cut_short'

# ---- output ----
t "output closed" 5 0 '' "$no_output" '$run "exec \"\$REPORT\" <$text >&- 2>err"'
t "output open for reading only" 5 0 '' "$no_output" '$run "exec \"\$REPORT\" <$text 1</dev/null 2>err"'
t "a full device" 5 0 '' "$no_output" '$run "exec \"\$REPORT\" <$text >/dev/full 2>err"'
t "a reader that has gone" 5 0 '' "$no_output" '$run "exec perl -e \"pipe R, W; close R; open STDOUT, q(>&), W; exec q($REPORT)\" <$text 2>err"'
t "a reader that ends at once (true)" 5 0 '' "$no_output" '{ sleep 1; $run "exec \"\$REPORT\" <$text 2>err"; echo $? >gone; } | true; (exit $(cat gone))'
t "a reader of nothing (head -c 0)" 5 0 '' "$no_output" '{ sleep 1; $run "exec \"\$REPORT\" <$text 2>err"; echo $? >gone; } | head -c 0; (exit $(cat gone))'
t "a reader that has gone, SIGPIPE ignored" 5 0 '' "$no_output" '$run "exec perl -e \"pipe R, W; close R; \\\$SIG{PIPE} = q(IGNORE); open STDOUT, q(>&), W; exec q($REPORT)\" <$text 2>err"'
t "a reader that starts late, its pipe full" 20 0 "$answer" '' '{ head -c 65536 /dev/zero; $run "exec \"\$REPORT\" <$text 2>err"; } | { sleep 1; tail -c +65537 >out; }'
t "a full pipe, not blocking" 5 0 '' "$no_output" '$run "exec perl -e \"use Fcntl; pipe R, W; fcntl W, F_SETFL, O_NONBLOCK; 1 while syswrite W, q(x) x 4096; fcntl R, F_SETFD, 0; open STDOUT, q(>&), W; exec q($REPORT)\" <$text 2>err"'
t "file size limit 0" 5 153 '' '' '$run "ulimit -f 0; exec \"\$REPORT\" <$text >out 2>/dev/null"'
t "file size limit 0, SIGXFSZ ignored" 5 0 '' "$no_output" '(trap "" XFSZ; $run "ulimit -f 0; exec \"\$REPORT\" <$text 2>&1 >out" | cat >err; exit ${PIPESTATUS[0]})'
# room for 10 bytes: the first write is short and the second fails
head -c 502 /dev/zero > almost
t "room for 10 bytes, SIGXFSZ ignored" 5 0 'finished\t0' "$no_output" '(trap "" XFSZ; $run "ulimit -f 1; exec \"\$REPORT\" <$text 2>&1 >>almost" | cat >err; s=${PIPESTATUS[0]}; tail -c +503 almost >out; exit $s)'

# ---- standard error too ----
t "input and standard error closed" 5 0 '' '' '$run "exec \"\$REPORT\" <&- >out 2>&-"'
t "output and standard error closed" 5 0 '' '' '$run "exec \"\$REPORT\" <$text >&- 2>&-"'
t "all three closed" 5 0 '' '' '$run "exec \"\$REPORT\" <&- >&- 2>&-"'
t "output and standard error full" 5 0 '' '' '$run "exec \"\$REPORT\" <$text >/dev/full 2>/dev/full"'
t "standard error closed, nothing wrong" 5 0 "$answer" '' '$run "exec \"\$REPORT\" <$text >out 2>&-"'

# ---- signals ----
# The program waits for input; a signal comes; then the rest of the text.
signalled() { # SIGNAL..
    rm -f fifo
    mkfifo fifo
    "$REPORT" < fifo > out 2> err &
    local pid=$!
    exec 9> fifo
    head -c 20 "$text" >&9
    for s in "$@"; do
        sleep 0.1
        kill -s "$s" $pid
    done
    sleep 0.1
    tail -c +21 "$text" >&9 2> /dev/null
    exec 9>&-
    wait $pid
}
t "stopped and continued while it reads" 5 0 "$answer" '' 'signalled STOP CONT STOP CONT STOP CONT 2>/dev/null'
t "window change and urgent data while it reads" 5 0 "$answer" '' 'signalled WINCH URG CHLD CONT 2>/dev/null'
t "terminated while it reads" 5 143 '' '' 'trap "" PIPE; signalled TERM 2>/dev/null; s=$?; trap - PIPE; (exit $s)'

# ---- memory and stack ----
t "4 MB of address space" 5 0 "$answer" '' '$run "ulimit -v 4096; exec \"\$REPORT\" <$text >out 2>err"'
t "384 KB of stack" 5 0 "$full_answer" '' '$run "ulimit -s 384; exec \"\$REPORT\" <full.txt >out 2>err"'
t "192 KB of stack, too little" 5 139 '' '' '$run "ulimit -c 0; ulimit -s 192; exec \"\$REPORT\" <full.txt >out 2>err"'
t "no more than 5 descriptors" 5 0 "$answer" '' '$run "exec <$text >out 2>err; ulimit -n 5; exec \"\$REPORT\""'

# ---- much at once ----
many() {
    for i in $(seq 200); do "$REPORT" < "$text" > "many$i" 2>&1 & done
    wait
    for i in $(seq 200); do cmp "many$i" "$top/crates/report/stdout"; done > out 2>&1
}
t "200 at a time" 60 0 '' '' many

stored() {
    local i wrong=0 count=0
    for i in texts/*.in; do
        "$REPORT" < "$i" > got 2>> err || wrong=$((wrong + 1))
        cmp -s got "${i%.in}.out" || wrong=$((wrong + 1))
        count=$((count + 1))
    done
    echo "$count texts, $wrong wrong" > out
}
t "the texts of vectors_report" 60 0 '314 texts, 0 wrong\n' '' stored

# as many iterations as the form allows
words 2 1 65535 S > long.txt
t "two words of 65,535 iterations" 60 0 "$(answer_of long.txt)" '' '$run "exec \"\$REPORT\" <long.txt >out 2>err"'
t "16 words, layered" 10 0 "$full_answer" '' '$run "exec \"\$REPORT\" <full.txt >out 2>err"'

echo "$((ok + failed)) cases, $failed failed"
[ "$failed" -eq 0 ]
