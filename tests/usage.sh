#!/usr/bin/env bash
# No words, wrong words, empty words, words that are no text, and words of commands to come: the usage line and
# status 2. The toolchain tells nothing of a program's words, so no proof says which ones it got.
. tests/lib/cases.sh

usage='usage: tapc check | print | compile | world | node | replay | make | soak'
text=examples/ping/ping.tap
schedule=examples/ping/ping.sch

says 2 "$usage"
for command in check print; do
    says 2 "$usage" $command
    says 2 "$usage" $command ''
    says 2 "$usage" $command $text $schedule
    says 2 "$usage" ${command^} $text
    says 2 "$usage" "$command " $text
    says 2 "$usage" $command $'\xff'
    says 2 "$usage" "$command $text"
done
says 2 "$usage" world
says 2 "$usage" world $text
says 2 "$usage" world $text ''
says 2 "$usage" world '' $schedule
says 2 "$usage" World $text $schedule
says 2 "$usage" world $text $'\xff'
for word in '' a a.x x=1 a.x= a.x=01 a.x=-0 a.x=+1 'a.x=1 ' a.x=9223372036854775808 $schedule; do
    says 2 "$usage" world $text $schedule "$word"
    says 2 "$usage" world $text $schedule a.x=1 "$word"
done
for word in seed seed= seed=-1 seed=01 seed=+1 'seed=1 ' Seed=1 seed=1=1 seed=18446744073709551616; do
    says 2 "$usage" world $text $schedule "$word"
done
for seed in 0 1 18446744073709551615; do
    writes 0 examples/ping/ping.out world $text $schedule seed=$seed
    says 2 "$usage" world $text $schedule seed=$seed seed=$seed
    says 2 "$usage" world $text $schedule seed=$seed a.x seed=2
    says 2 "$usage" check $text seed=$seed
done
for word in '' a a.x x=1 a.x= a.x=01 seed=1 $schedule; do
    says 2 "$usage" replay $text $schedule "$word"
    says 2 "$usage" soak $text 1 0 0 "$word"
done
for number in '' -1 +1 01 1.0 0x1 '1 ' 1000001; do
    for command in make soak; do
        says 2 "$usage" $command $text 1 "$number" 0
        says 2 "$usage" $command $text 1 0 "$number"
        [ "$number" = 1000001 ] || says 2 "$usage" $command $text "$number" 0 0
    done
done
for command in make soak; do
    says 2 "$usage" $command $text
    says 2 "$usage" $command $text 1
    says 2 "$usage" $command $text 1 0
    says 2 "$usage" $command '' 1 0 0
    says 2 "$usage" $command $text 18446744073709551616 0 0
    says 2 "$usage" ${command^} $text 1 0 0
done
says 2 "$usage" make $text 1 0 0 a.x=1
says 2 "$usage" replay
says 2 "$usage" replay $text
says 2 "$usage" replay $text ''
says 2 "$usage" replay '' $schedule
says 2 "$usage" Replay $text $schedule
for word in '' -h --help --version help compile node; do
    says 2 "$usage" "$word"
    says 2 "$usage" "$word" $text
    says 2 "$usage" "$word" $text $schedule
done
finish
