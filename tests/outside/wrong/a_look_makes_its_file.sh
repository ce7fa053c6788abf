# `live` and `journal` make the file of -l where there is none.
# topic: oneshots
# fails: a look made looked
case $1 in
    live | journal)
        last=
        for word; do
            [ "$last" != -l ] || [ -e "$word" ] || : > "$word.made"
            last=$word
        done
        ;;
esac
status=0
"$RIGHT" "$@" || status=$?
find . -maxdepth 1 -name '*.made' | while read -r made; do mv "$made" "${made%.made}"; done
exit "$status"
