#!/bin/sh
# The nightly job of one dock: takes last night's record further to a time, with its rivers, looks at the gates, keeps
# total depth beside every run, and sends the new record on only where it is newer.
#
#   nightly.sh FOLDER TIME         TIME in UTC, as 2026-11-17T06:00:00
#
# FOLDER has last.rec, the record of last night; options, the words that every run of this dock has (the length of a
# step, the gates, how often they are looked at), as `--step-ms 500 --every 120 --gate lock 31 10`; and rivers.txt, if
# there are rivers. The job leaves there the new last.rec, the one before it as before.rec, gates.csv and run.txt of the
# run, and a line for each run in totals.log; of a run that is stopped, its gates as stopped.csv. FORECAST is the tool,
# `forecast` where it is not set.
#
# It may be killed at any moment and started again: last.rec is the old one or the new one, and the new one has the
# same bytes, whatever was done before. Exit status: that of the tool; 1 where the new record is not newer; 2 where
# something of the job itself is missing or could not be written.
set -euf
if [ $# -ne 2 ]; then
    echo "usage: nightly.sh FOLDER TIME" >&2
    exit 2
fi
forecast=${FORECAST:-forecast}
case $forecast in /*) ;; */*) forecast=$PWD/$forecast ;; esac
command -v "$forecast" >/dev/null || {
    echo "nightly.sh: there is no $forecast" >&2
    exit 2
}
cd "$1"
# What a run leaves has a name of this job's own until all is done: one that was killed may still be writing its own.
next=next.$$
trap 'rm -f "$next.rec" "$next.csv" "$next.txt" "$next.old"' EXIT
options=$(cat options) || exit 2
set -- last.rec "$next.rec" --until "$2" --csv "$next.csv"
# one that is there and cannot be read is told by the tool
if [ -e rivers.txt ] || [ -L rivers.txt ]; then set -- "$@" --rivers rivers.txt; fi

# The words of the file, each by itself.
# shellcheck disable=SC2086
"$forecast" run "$@" $options >"$next.txt" || {
    status=$?
    cat "$next.txt" >&2
    # the gates up to a stop, to see what led to it
    [ ! -f "$next.csv" ] || mv "$next.csv" stopped.csv
    exit "$status"
}

# The record is sent on only where it is newer: the core compares to the millisecond.
compared=$("$forecast" compare "$next.rec" last.rec)
case $compared in
'first newer') ;;
same)
    echo 'nothing to do: last.rec is of this time' >&2
    exit 0
    ;;
*)
    echo "not sent: $compared" >&2
    exit 1
    ;;
esac

# One line for a run, also where the job is killed after it and started again.
line=$(awk '/^total depth before/ { before = $4 } /^entered/ { entered = $2 } /^total depth after/ { after = $4 }
    /^time/ { time = $5 " " $6 } END { print time, before, "+", entered, "=", after }' "$next.txt")
{
    { grep -qsxF "$line" totals.log || echo "$line" >>totals.log; } &&
        mv "$next.csv" gates.csv && mv "$next.txt" run.txt && cp last.rec "$next.old" && mv "$next.old" before.rec &&
        # From here on the job is done.
        mv "$next.rec" last.rec
} || exit 2
