# Wrong command lines: nothing of the input is read. program.sh reads this file.
printf '%b' "$sample" > base

# Plans, and commands that are none.
wrong
wrong frob
wrong -u plan
wrong plan -ud web
wrong plan -u -D web
wrong plan -dD web
wrong plan -uDd
wrong plan -d -d web
wrong plan -b
wrong plan web -b
wrong plan -b base -b base
wrong plan -b nowhere -ud
wrong plan -b nowhere -x
wrong plan -t 5
wrong dry web
wrong plan --up web
wrong plan -u -u web
wrong plan -uu
wrong plan -u=web
wrong plan -uweb
prints_help -h
prints_help --help
prints_help help
prints_help help plan
prints_help plan -h
prints_help plan --help
says '^Usage: undorc plan \[OPTIONS\] \[NAME\]\.\.\.$'
says '^  -u  '
says '^  -b <FILE>  '
wrong plan -ud
says '^undorc: -u, -d and -D exclude each other$'
wrong plan "$strange"
says '^undorc: a word of the command line is not UTF-8$'

# Queries.
wrong db
wrong db -d
wrong db -b base
wrong db frob
wrong db frob web
wrong db Type web
wrong db kind web
wrong db limit web
wrong db list
wrong db list frob
wrong db list all all
wrong db check x
wrong db dot web
wrong db dot -W
wrong db dot -l
wrong db list all -k 0
says '^undorc: -k of db wants -l$'
wrong db -b base -k 0 dot
wrong db -k x check
says '^undorc: -k of db wants -l$'
wrong db -l base -k x list all
says '^undorc: -k of db wants a number from 0 to 4294967295$'
wrong db -l base -k -1 list all
wrong db -l base -k 4294967296 dot
wrong db -l base -k '' check
wrong db -l base -k
wrong db -l base -k 0 -k 0 check
wrong db -l base -l base check
UNDORC_LIVE=base wrong db -b base -k 0 check
wrong db type
wrong db type web web
wrong db timeout
wrong db flags
wrong db flags root net
wrong db contents
wrong db contents site site
wrong db pipeline
wrong db pipeline web log
wrong db script
wrong db script net root
wrong db -b nowhere type
wrong db -b nowhere list frob
wrong db -b base -b base check
wrong db -d -d check
wrong db -x check
wrong db type -x
wrong db --down type web
wrong db -u dependencies web
wrong -d db check
wrong db "$strange"
wrong db frob
says '^undorc: db has no such query, or it takes other words; `undorc db --help` lists the queries$'
prints_help db --help
says '^Usage: undorc db '

# Scripts.
wrong replay x
wrong replay -u
wrong replay -b
wrong replay -b base -b base
wrong replay --events

# Sessions.
wrong session -x
for list in '' up down up: down: :net net up,net UP:net Up:net up=net up-net none: None ' none' 'none ' ' up:net' \
    ',' 'none,' ',none' none,none none,up:net up:net,none 'up:net,' ',up:net' up:net,,up:db up:net,up up:net,up: up:net,db; do
    wrong session -x "$list"
done
for workers in '' 0 65 x -1 4. 4.0 ' 4' '4 ' 4x 0x4 256 260 65536 4294967297 18446744073709551617; do
    wrong session -x none -w "$workers"
done
wrong session -x none -w
wrong session -x none -w 4 -w 4
wrong session -x none -x none
wrong session -xnone -x up:net
wrong session -x none -b
wrong session -x none -b base -b base
wrong session -x none live
wrong session live -x none
wrong session -x none -- live
wrong session -r
wrong session -c
wrong session -r true -r true
wrong session -c true -c true
wrong session -v -v
wrong session -v none
wrong session -P -P
wrong session -P none
wrong session -x none -q
wrong session -x up -r true -c true -v
wrong session -x none -l
wrong session -x none -l live -l live
for bound in '' 0 1 2 x -3 3. ' 3' '3 ' 3x 0x3 4294967296 18446744073709551619; do
    wrong session -x none -n "$bound"
done
says '^undorc: -n wants a number from 3 to 4294967295$'
wrong session -x none -n
wrong session -x none -n 4 -n 4
wrong session -x none --live live
wrong session -x none --bound 4
wrong session -x none -u
wrong session -x none -t 5
wrong session -x none -d
wrong session --failing none
wrong session -x none --workers 4
wrong session -b nowhere -x up
wrong session -b nowhere -x none -w 0
wrong -x none session
wrong Session -x none
prints_help session -h
prints_help session -x none --help
prints_help help session
prints_help session --help
says '^Usage: undorc session '
says '^  -b <FILE>  '
says '^  -w <N>  '
says '^  -r <TEXT>  '
says '^  -c <TEXT>  '
says '^  -v  '
says '^  -P  '
says '^  -l <FILE>  '
says '^  -n <N>  '
says '^  -x <LIST>  '
wrong session -x "$strange"
says '^undorc: a word of the command line is not UTF-8$'
wrong session -x "up:$strange"
wrong session -x none "$strange"

# The path by which the program is started is none of its words.
ln -s "$program" "$strange"
known=$program
program=./$strange
expect 0 'raise db log net web\n' '' "${sample}root\n" plan -u web
prints_help plan --help
says '^Usage: undorc plan '
program=$known
