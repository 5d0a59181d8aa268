#!/bin/sh
# Runs the programs themselves, and compares their status and what they write with docs/command-line.md: one call for
# each status but NoMemory, words that are not UTF-8, and surroundings that fail: disks that are full, streams that are
# closed, readers that are gone, signals, FIFOs, and names that two outputs or an input and an output have. No proof says
# that a program hands on its words, ends with the number of the status that the call answers, and writes to the real
# files and streams.
#
#     checks/program.sh                   runs the programs that the gate built
#     checks/program.sh ZSIM PROFILER     runs these
#
# Status 0 says that each call answered as it should.

top=$(cd "$(dirname "$0")/.." && pwd) || exit 1
program=$(realpath "${1:-$top/crates/zsim_main/out/zsim_main}") && [ -x "$program" ] &&
    profiler=$(realpath "${2:-$top/crates/zprof_main/out/zprof_main}") && [ -x "$profiler" ] || {
    echo "program: nothing was run: there is no program"
    exit 1
}
work=$(mktemp -d) || exit 1
# A call that is to wait for another, and does not, leaves this script waiting: so it ends after a while.
(
    seconds=0
    while [ "$seconds" -lt 300 ]; do sleep 1 </dev/null >/dev/null 2>&1 && seconds=$((seconds + 1)); done
    echo 'program: it had not ended after 300 seconds'
    kill "$$"
) &
guard=$!
trap 'kill "$guard"; rm -rf "$work"' EXIT
trap 'exit 1' TERM
cd "$work" || exit 1
failed=0 calls=0

# gives STATUS REPORT LINE WORD..: called with these words, the program ends with the status, standard output gains the
# report, and standard error the line. What goes to another file than `out` is not looked at.
to=out name=zsim
gives() {
    wanted=$1
    printf '%s' "${2:+$2
}" >wanted_out
    printf '%s' "${3:+$3
}" >wanted_err
    shift 3
    : >out
    "$program" "$@" >"$to" 2>err
    ended=$?
    calls=$((calls + 1))
    [ "$ended" = "$wanted" ] && cmp -s err wanted_err && { [ "$to" != out ] || cmp -s out wanted_out; } && return
    failed=1
    echo "program: $name $*: status $ended where $wanted is right, or another text:"
    cat err out
}

# is STATUS WHAT: the call that has just ended, with this status in `ended`, should have ended so.
is() {
    calls=$((calls + 1))
    [ "$ended" = "$1" ] && return
    failed=1
    echo "program: $2: status $ended where $1 is right"
}

# holds FILE WHAT OTHER: two files hold the same.
holds() {
    cmp -s "$1" "$3" && return
    failed=1
    echo "program: $2: $1 does not hold what $3 does"
}

usage='zsim: usage: zsim run MACHINE EXE [--workers N] [--record NAME] [--events NAME] [--brief]'
usage="$usage or zsim replay MACHINE EXE --schedule NAME [--brief] or zsim check MACHINE EVENTS"

# The example that exits with seven has three instructions, of a cycle each and none of them an access.
report='zsim report 1
cores 1
intervals 1
instructions 3
cycles 3
accesses 0
events 0'
cp "$top/examples/seven.elf" seven || exit 1

# With intervals of one cycle two of them are not enough.
few='zsim report 1
cores 1
intervals 2
instructions 2
cycles 2
accesses 0
events 0'
sed 's/^interval = .*/interval = 1/; s/^intervals = .*/intervals = 2/' \
    "$top/examples/machines/microcontroller.toml" >two

# A name that is not UTF-8, of a file that is there. Passed on, it would be run; with its byte replaced it would not be
# found; left out, it would leave the words of a run behind.
no_text=$(printf 'seven\377')
cp seven "$no_text" || exit 1

# What a check says of the events of `seven`, of which there are none; and a file of one event, a look-up of 10 cycles
# that is to take 11.
yes='zsim check 1
intervals 1
events 0
yes'
{
    printf 'ZSEV\1\0\0\0\2\0\0\0\1\0\0\0\1\0\0\0'
    printf '\0\0\0\0\0\1\0\0\0\0\0\0\0\0\0\0\2\0\0\0\0\0\0\0'
    head -c 24 /dev/zero
    printf '\2\0\0\0\0\0\0\0\15\0\0\0\0\0\0\0'
} >late

# 256 cores that take lines from each other over a mesh make five million events, of which a file has no room for more
# than four.
sed 's/^cores = .*/cores = 256/; s/^interval = .*/interval = 1000/; s/^stack = .*/stack = 4160/' \
    "$top/examples/machines/tiles.toml" >wide

echo 'cores =' >text
head -c 16 /dev/zero >zeros_16
head -c 64 /dev/zero >zeros_64
head -c 1048577 /dev/zero >long

gives 0 "$report" '' run plain seven --brief
gives 2 '' "$usage"
gives 2 '' "$usage" nothing
gives 2 '' "$usage" run plain
gives 2 '' "$usage" run plain "$no_text" --brief
gives 2 '' "$usage" run plain seven --brief "$no_text"
gives 2 '' "$usage" run plain seven --brief --record "$no_text"
gives 3 "$few" 'zsim: stopped at the limit' run two seven --brief
gives 4 '' 'zsim: cannot read' run plain missing
gives 4 '' 'zsim: cannot read' run missing seven
gives 4 '' 'zsim: cannot read' replay plain seven --schedule missing
gives 4 '' 'zsim: cannot read' check plain missing
gives 5 "$report" 'zsim: cannot write' run plain seven --brief --record missing/schedule
gives 5 "$report" 'zsim: cannot write' run plain seven --brief --events missing/events
gives 6 '' 'zsim: machine 1' run text seven
gives 7 '' 'zsim: elf 1' run plain text
gives 7 '' 'zsim: elf 2' run plain zeros_64
gives 9 '' 'zsim: schedule 2' replay plain seven --schedule zeros_16
gives 10 '' 'zsim: too long: machine' run long seven
gives 10 '' 'zsim: too long: events' run wide gen:1999 --brief --events many
[ -e many ] && failed=1 && echo "program: a file of too many events was written"
gives 0 "$report" '' run plain seven --brief --events events
gives 0 "$yes" '' check plain events
gives 11 '' 'zsim: events 2' check plain zeros_16
gives 12 '' 'zsim: not the weave: finish 0 0' check plain late

# The events of a load, whole and with another finish of the first one.
cp "$top/examples/load.elf" load || exit 1
"$program" run plain load --events events --record schedule >load_report
gives 0 "$(printf 'zsim check 1\nintervals 1\nevents 3\nyes')" '' check plain events
gives 11 '' 'zsim: events 2' check plain zeros_16
cp events wrong
printf '\377' | dd of=wrong bs=1 seek=76 conv=notrunc 2>dd
gives 12 '' 'zsim: not the weave: finish 0 0' check plain wrong
gives 0 "$(cat load_report)" '' replay plain load --schedule schedule

# What seven records: no access in one interval, and no event of a bank or a controller.
printf 'ZSCH\001\000\000\000\001\000\000\000\001\000\000\000\000\000\000\000' >seven_schedule
printf 'ZSEV\001\000\000\000\002\000\000\000\001\000\000\000\000\000\000\000' >seven_events

# The name of an output may be that of an input, which is read before: what was there is gone.
cp seven own
gives 0 "$report" '' run plain own --brief --record own
holds own 'the executable as --record' seven_schedule
cp "$top/examples/machines/microcontroller.toml" own
gives 0 "$report" '' run own seven --brief --events own
holds own 'the machine as --events' seven_events
gives 2 '' "$usage" run plain seven --record one --events one

# Links may have two names for one file: the events are written behind the schedule.
: >one && ln -s one two_names
gives 0 "$report" '' run plain seven --brief --record one --events two_names
holds one 'one file under two names' seven_events

# A file that is a folder.
gives 4 '' 'zsim: cannot read' run plain .
gives 5 "$report" 'zsim: cannot write' run plain seven --brief --record .

# Streams that are closed.
"$program" run plain seven --record closed >&- 2>err
ended=$?
is 5 'a closed standard output'
echo 'zsim: cannot write' >wanted_err
holds err 'a closed standard output' wanted_err
[ ! -e closed ] || { failed=1; echo 'program: a closed standard output: a schedule was written'; }
"$program" run plain missing >out 2>&-
ended=$?
is 4 'a closed standard error'
"$program" run plain seven --brief <&- >out 2>err
ended=$?
is 0 'a closed standard input'
printf '%s\n' "$report" >wanted_out
holds out 'a closed standard input' wanted_out

# FIFOs: an executable and a schedule that come and go through one, and a report whose reader is gone before it comes.
mkfifo pipe || exit 1
cat seven >pipe &
gives 0 "$report" '' run plain pipe --brief
cat pipe >came &
reader=$!
gives 0 "$report" '' run plain seven --brief --record pipe
wait "$reader"
holds came 'a schedule through a FIFO' seven_schedule
: <pipe &
reader=$!
exec 3>pipe
wait "$reader"
"$program" run plain seven --record gone >&3 2>err
ended=$?
exec 3>&-
is 5 'a reader that is gone'
[ ! -e gone ] || { failed=1; echo 'program: a reader that is gone: a schedule was written'; }

# A signal ends a call that waits for its executable, which is where the FIFO has two ends: nothing was written. (Under
# nohup HUP ends nothing.)
signals='TERM/143 KILL/137'
sh -c 'kill -s HUP "$$"' 2>said || signals="$signals HUP/129"
for signal in $signals; do
    "$program" run plain pipe --record signalled >out 2>err &
    exec 3>pipe
    kill -s "${signal%/*}" "$!"
    wait "$!" 2>said
    ended=$?
    exec 3>&-
    is "${signal#*/}" "the signal ${signal%/*}"
    [ ! -s out ] && [ ! -s err ] && [ ! -e signalled ] || { failed=1; echo "program: $signal: something was written"; }
done

# A file that may not grow: the signal ends the call, and where it is ignored, the write fails. The report is on a pipe.
{ (ulimit -f 0 && exec "$program" run plain load --record small) | cat >out; } 2>said
holds out 'a limit of the size' load_report
(trap '' XFSZ && ulimit -f 0 && "$program" run plain load --record small || echo "status $?") 2>said | tail -n 1 >out
echo 'status 5' >wanted_out
holds out 'a limit of the size where its signal is ignored' wanted_out

# Two runs at a time on one name. They write the same bytes.
"$program" run plain load --record both >out &
other=$!
"$program" run plain load --record both >out_2
ended=$?
is 0 'two runs on one name'
wait "$other"
holds both 'two runs on one name' schedule

# A standard output that takes nothing.
if [ -c /dev/full ]; then
    to=/dev/full
    gives 5 '' 'zsim: cannot write' run plain seven
    to=out
    gives 5 "$report" 'zsim: cannot write' run plain seven --brief --record /dev/full --events events_2
    [ ! -e events_2 ] || { failed=1; echo 'program: a full disk: the events were written'; }
    gives 5 "$report" 'zsim: cannot write' run plain seven --brief --record schedule_2 --events /dev/full
    holds schedule_2 'a full disk for the events' seven_schedule
    "$program" run plain missing >out 2>/dev/full
    ended=$?
    is 4 'a standard error that takes nothing'
fi

# The profiler, whose report of a run by one worker is that of the simulator.
program=$profiler name=zprof
usage='zprof: usage: zprof MACHINE EXE [--schedule NAME] --out FOLDER [--separate-cores] [--every N] [--brief]'
mkdir profile part || exit 1
gives 0 "$report" '' plain seven --brief --out profile
printf 'interval,intervals,instructions,loads,stores,atomics,fetches,hits,upgrades,l2hits,misses,events,waited' >series
printf ',bank0,controller0\n0,1,3,0,0,0,0,0,0,0,0,0,0,0,0\n' >>series
holds profile/series.csv 'the series of a profile' series
grep -q '^totals: 3 0 0 0 0 0 0 0 0 0 0$' profile/callgrind.out || { failed=1; echo 'program: zprof: other totals'; }
gives 0 "$(cat load_report)" '' plain load --schedule schedule --out profile --every 2 --separate-cores
gives 2 '' "$usage"
gives 2 '' "$usage" plain seven
gives 2 '' "$usage" plain "$no_text" --out profile
gives 2 '' "$usage" run plain seven --out profile
gives 3 "$few" 'zprof: stopped at the limit' two seven --brief --out profile
gives 4 '' 'zprof: cannot read' plain missing --out profile
gives 5 "$report" 'zprof: cannot write' plain seven --brief --out missing
gives 6 '' 'zprof: machine 1' text seven --out profile
gives 7 '' 'zprof: elf 1' plain text --out profile
gives 9 '' 'zprof: schedule 2' plain seven --schedule zeros_16 --out profile
gives 10 '' 'zprof: too long: machine' long seven --out profile

# A file of the folder that cannot be written: those before it are whole, and those behind it are not there.
mkdir part/series.csv
gives 5 "$report" 'zprof: cannot write' plain seven --brief --out part
[ -s part/callgrind.out ] && [ -s part/lines.csv ] && [ ! -e part/halts.txt ] || {
    failed=1
    echo 'program: zprof: other files are there where one could not be written'
}
rm profile/*
"$program" plain seven --out profile >&- 2>err
ended=$?
is 5 'a closed standard output of the profiler'
[ -z "$(ls profile)" ] || { failed=1; echo 'program: a closed standard output: a profile was written'; }

[ "$failed" = 0 ] && echo "program: $calls calls answered as they should"
exit "$failed"
