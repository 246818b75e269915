# Names that the papers cite, between backticks: `FILE: name, name`, `docs/..: words`, `FILE`, or a name alone. FILE is
# below crates/, unless it begins with another folder of the project.

# what a text cites, one to a line, each name with its file; other texts between backticks are no names
cited() {
    local text file name names
    grep -oE '`[^`]+`' | tr -d '`' | sort -u | while IFS= read -r text; do
        file=${text%%: *}
        if ! [[ $file =~ ^[^\ ]*/[^\ ]+$|^README.md$|^crates.txt$ ]]; then
            [[ $text =~ ^[A-Za-z][A-Za-z0-9_-]*$ ]] && echo "$text"
        elif [ "$file" = "$text" ] || [[ $file == docs/* ]]; then
            echo "$text"
        else
            IFS=, read -ra names <<< "${text#*: }"
            for name in "${names[@]}"; do echo "$file: ${name# }"; done
        fi
    done
}

# whether a file defines a name: a definition with its type, a record's field or a case; a function, constant or type of
# the code; in crates.txt a crate. In other files (edits, tests, papers) the name stands there as a word.
defines() { # FILE NAME
    case $1 in
        *.antt | *.rt | *.rs | *.c | *crates.txt) ;;
        *)
            grep -qwF -- "$2" "$1"
            return
            ;;
    esac
    awk -v name="$2" '
        function first_word(text) { sub(/[^A-Za-z0-9_].*/, "", text); return text }
        FILENAME ~ /[.]antt$/ {
            sub(/^ */, "")
            while (sub(/^(pub|abbrev|unfoldable) +/, "")) {}
            type = sub(/^(record|data) +/, "")
            if ($1 == name && (type || $2 == ":" || $3 == ":" && $2 ~ /^[{]/)) found = 1
        }
        FILENAME ~ /[.]r[ts]$/ {
            sub(/^ */, "")
            sub(/^pub([(][a-z]+[)])? +/, "")
            if (sub(/^(const|enum|fn|mod|static|struct|type) +/, "") || /^[a-z0-9_]+: .*,$/ || /^[A-Z][A-Za-z0-9]*([(].*[)])?,$/)
                if (first_word($0) == name) found = 1
        }
        FILENAME ~ /[.]c$/ && /^[a-z].*[(].*{$/ { sub(/[(].*/, ""); sub(/.*[ *]/, ""); if ($0 == name) found = 1 }
        FILENAME ~ /crates[.]txt$/ && $1 == name ":" { found = 1 }
        END { exit !found }' "$1"
}

# whether what is cited is there; a name alone is a crate, or defined somewhere in the crates
stands() {
    local file=${1%%: *} name=${1#*: } each
    case $file in
        .ci/* | bench/* | docs/* | samples/* | second/* | tests/* | tools/* | README.md | crates.txt) ;;
        */*) file=crates/$file ;;
        *)
            defines crates.txt "$1" && return
            while IFS= read -r each; do
                defines "$each" "$1" && return
            done < <(grep -rlwF --exclude-dir=out --include='*.rt' --include='*.antt' -- "$1" crates)
            return 1
            ;;
    esac
    [ -e "$file" ] || return
    [ "$name" = "$1" ] || defines "$file" "$name"
}
