# Pictures: the stored one of the sample, the environment, and what graphviz shows. program.sh reads this file.
mkdir pictures
cd pictures
printf '%b' "$sample" > base

# drawn WHAT: the files `out` and `out.wanted` are the same
drawn() {
    : > err
    : > err.wanted
    judge "$1" 0
}

: > in
cp "$samples/sample.dot" out.wanted
runs db -b base dot
drawn 'the picture of the sample is docs/samples/sample.dot'

# The environment's session is none of a database's picture.
printf '%b' 'undorc-live 2\nservices db log net root web\nbound 8\nnow log\nend\n' > live
UNDORC_LIVE=live
export UNDORC_LIVE
runs db -b base dot
unset UNDORC_LIVE
drawn 'UNDORC_LIVE changes no picture'

# A name for each byte that may stand in one, and what a backslash makes of letters in graphviz.
awk 'BEGIN {
    for (byte = 33; byte < 127; byte++) if (byte != 47) names[++count] = sprintf("x%cy", byte)
    more = split("\\N \\G \\\\ \" \\\" a\\ &lt; &amp; &#65; <b> a:e node", odd, " ")
    for (i = 1; i <= more; i++) names[++count] = odd[i]
    for (i = 1; i <= count; i++) print names[i]
}' | LC_ALL=C sort > names
{
    echo 'undorc-db 1'
    echo "services $(wc -l < names | tr -d ' ')"
    while IFS= read -r name; do
        printf 'service %s longrun plain 0 0\nneeds\nproducer -\n' "$name"
    done < names
    printf 'bundles 0\nend\n'
} > odd
if command -v dot > /dev/null; then
    echo 0 > status
    cp names out.wanted
    { "$program" db -b odd dot | dot -Tsvg || echo $? > status; } 2> err |
        sed -n 's,.*<text [^>]*>\(.*\)</text>.*,\1,p' |
        sed -e "s/&lt;/</g; s/&gt;/>/g; s/&quot;/\"/g; s/&#39;/'/g; s/&#45;/-/g; s/&amp;/\\&/g" |
        LC_ALL=C sort > out
    : > err.wanted
    judge 'graphviz shows each name as it is' 0
else
    skip 'no picture is drawn, since dot is missing (the package graphviz)'
fi

# contrib/chart: the stored picture of a log; which transitions are dark, as NAMES; and a bar for each transition.
UNDORC_PROGRAM=$program
export UNDORC_PROGRAM
chart=$top/contrib/chart
cp "$samples/chart.svg" out.wanted
echo 0 > status
"$chart" -b base < "$samples/chart.log" > out 2> err || echo $? > status
drawn 'the chart of a log is docs/samples/chart.svg'
# darks WHAT NAMES OPTION..: the dark bars of the log `log`
darks() {
    what=$1
    echo "$2" > out.wanted
    shift 2
    echo 0 > status
    { "$chart" "$@" < log || echo $? > status; } 2> err |
        sed -n '/#1f5a99/s/.*<title>[a-z]* \([^:]*\):.*/\1/p' | LC_ALL=C sort | tr '\n' ' ' | sed 's/ $//' > out
    echo >> out
    drawn "$what"
}
sed -n '/ up \(root\|log\|net\|db\): /p' "$samples/chart.log" > log
darks 'the chain that took longest, on the way up' 'db net root' -b base
darks 'no chain without a database' ''
UNDORC_DB=base
export UNDORC_DB
darks 'the database of the environment' 'db net root'
unset UNDORC_DB
# On the way down a service waits for those that need it. An end without a start is a moment.
printf 'undorc:    %s s  down %s\n' '0.000' 'web: started' '1.000' 'web: ok' '1.000' 'log: started' '1.001' 'db: started' \
    '1.500' 'log: ok' '1.900' 'db: ok' '2.000' 'net: ok' > log
darks 'the chain that took longest, on the way down' 'db net web' -b base
: > in
"$program" change -v -b base -x none site < in > out 2> log
echo 5 > out.wanted
"$chart" -b base < log | grep -c '<rect' > out
echo 0 > status
drawn 'a bar for each transition of a change'
wants '' 'chart: no line of a transition was read\n'
echo 0 > status
"$chart" < in > out 2> err || echo $? > status
judge 'a chart of nothing' 1
# Names in which graphviz needs other letters.
mkdir -p tree/'a&b' tree/'c"d'
for name in 'a&b' 'c"d'; do
    echo oneshot > "tree/$name/type"
    echo true > "tree/$name/up"
done
echo 'a&b' > tree/'c"d'/dependencies
"$program" compile tree > named
printf 'undorc:    %s s  up %s\n' 0.000 'a&b: started' 1.000 'a&b: ok' 1.000 'c"d: started' 1.500 'c"d: ok' > log
darks 'names in which graphviz needs other letters' 'a&amp;b c"d' -b named
unset UNDORC_PROGRAM
cd ..
rm -r pictures
