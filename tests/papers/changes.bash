# docs/changes/: a page for each request that has landed.

# docs/changes/README.md lists them in the order in which they landed. Each has a page, and there is no other file; each
# has its sentences in docs/SENTENCES.md; and a request that is named outside these pages has landed.
mapfile -t landed < <(sed -nE 's/^\| \[(C-[0-9]+)\]\(\1\.md\) \|.*/\1/p' docs/changes/README.md)
[ "${#landed[@]}" -gt 0 ] && [ "${#landed[@]}" = "$(sed -n '/^|---/,/^$/p' docs/changes/README.md | grep -c '^| ')" ]
told $? "docs/changes/README.md has other rows than '| [C-NN](C-NN.md) | .. |'"
[ "$(printf '%s.md\n' "${landed[@]}" README | sort)" = "$(ls docs/changes | sort)" ]
told $? "docs/changes/README.md lists ${landed[*]}, and docs/changes/ has $(ls docs/changes | tr '\n' ' ')"
[ "$(printf '%s\n' "${landed[@]}" | sort)" = "$(sed -nE 's/^\| \*\*(C-[0-9]+)\. .*/\1/p' docs/SENTENCES.md | sort)" ]
told $? "docs/SENTENCES.md goes through other requests than ${landed[*]}"
while read -r request; do
    [[ " ${landed[*]} " == *" $request "* ]]
    told $? "$request is named, and docs/changes/ has no page for it"
done < <(grep -rhowE --exclude-dir=out 'C-[0-9]+' README.md docs/*.md .ci bench crates crates.txt samples second/README.md second/src tests tools | sort -u)

parts='Expected Moved Stayed Gone Edits Times Decided'
part() { awk -v head="## $2" '/^## / { on = $0 == head; next } on' "docs/changes/$1.md"; } # REQUEST PART

# the request's words: on its page, behind '> ', and in docs/SENTENCES.md, stretch by stretch
quoted() { sed -n 's/^> //p' "docs/changes/$1.md" | tr '\n' ' '; }
gone_through() {
    awk -v head="| **$1. " '
        index($0, head) == 1 { on = 1; sub(/^[^.]*[.] /, ""); sub(/[*][*] [|].*/, ""); print; next }
        on && !/^[|] "/ { exit }
        on { sub(/^[|] "/, ""); sub(/" [|].*/, ""); print }' docs/SENTENCES.md | tr '\n' ' '
}

# the crates in which something moved, as the times name them
moved_crates() { part "$1" Moved | cited | sed -nE '/^second\//d; s,^([a-z][a-z0-9_]*)/(src|specs|proofs)/.*,`\1`,p' | sort -u; }

# A page is whole: it has its parts, each with something in it. What moved (new names too) and what stayed are told of
# definitions, promises, proofs and code; it brings edits; and it has the times of each crate in which something moved and
# of the whole gate, before and after, '-' where there was no such crate.
whole_page() { # REQUEST
    local page=docs/changes/$1.md name kind
    head -n 1 "$page" | grep -qE "^# $1: ."
    told $? "$page does not begin with '# $1: '"
    [ -n "$(quoted "$1")" ] && [ "$(quoted "$1")" = "$(gone_through "$1")" ]
    told $? "$page and docs/SENTENCES.md have not the same words of the request:
    $(quoted "$1")
    $(gone_through "$1")"
    [ "$(sed -n 's/^## //p' "$page" | tr '\n' ' ')" = "$parts " ]
    told $? "$page has not the parts $parts"
    for name in $parts; do
        part "$1" "$name" | grep -q .
        told $? "$page says nothing under $name"
    done
    for name in Moved Stayed; do
        for kind in Definitions Promises Proofs Code; do
            part "$1" $name | grep -q "^- $kind: ."
            told $? "$page does not say under $name what becomes of $kind"
        done
    done
    [ "$(part "$1" Gone | grep .)" = 'Nothing.' ] || ! part "$1" Gone | grep . | grep -qvE '^- `[^`]+`'
    told $? "$page has a line under Gone that is neither 'Nothing.' nor '- \`NAME\` ..'"
    part "$1" Edits | cited | grep -qE '/must-fail/.+[.]edit$'
    told $? "$page brings no edit"
    for name in 'the whole gate' $(moved_crates "$1"); do
        part "$1" Times | grep -qE "^\| $name \| ([0-9][^|]*|-) \| ([0-9][^|]*|-) \|$"
        told $? "$page does not say how long $name took before and after"
    done
}
for request in "${landed[@]}"; do whole_page "$request"; done

# an edit is brought by one request
while read -r edit; do
    told 1 "$edit is under Edits of more than one page"
done < <(for request in "${landed[@]}"; do part "$request" Edits | cited | grep -E '/must-fail/'; done | sort | uniq -d)

# What a page names is there, or it is gone: by a line under Gone, there or in a later page, that begins with it, or with
# its file, a folder above that, or its crate in crates.txt. What is under Gone is not there, unless a later page brings it
# back. So the newest page is read first.
# Before all pages comes what docs/changes/README.md has under Since: crates that were cut, and what is gone.
since() { sed -n '/^## Since/,$p' docs/changes/README.md; }
mapfile -t gone < <(since | grep -oE '^- `[^`]*/[^`]+`' | cited) # and of the pages read so far
for name in "${gone[@]}"; do
    ! stands "$name"
    told $? "docs/changes/README.md says that $name is gone, and it is there"
done
while read -r line; do
    while read -r name; do
        stands "crates.txt: $name"
        told $? "docs/changes/README.md says that a crate was cut, and there is no $name"
    done < <(cited <<< "$line")
done < <(since | grep -E '^- `[a-z_]+`:')
# whether what is cited stands in a crate that was cut from its own
stands_apart() { # NAME
    local other
    [[ $1 == */* ]] || return
    while read -r other; do
        stands "$other/${1#*/}" && return
    done < <(since | sed -n "s/^- \`${1%%/*}\`: //p" | grep -oE '`[a-z_]+`' | tr -d '`')
    return 1
}
later=()
among() { printf '%s\n' "${@:2}" | grep -qxF -- "$1"; }
is_gone() { # NAME
    local place=${1%%: *}
    among "$1" "${gone[@]}" && return
    [[ $place == */* ]] || { printf '%s\n' "${gone[@]}" | grep -qE -- ": $1\$"; return; }
    while [[ $place == */* ]]; do
        among "$place" "${gone[@]}" && return
        place=${place%/*}
    done
    among "crates.txt: $place" "${gone[@]}"
}
is_back() { among "$1" "${later[@]}" || among "${1%%: *}" "${later[@]}" || printf '%s\n' "${later[@]}" | grep -qF -- "$1: "; }
for ((i = ${#landed[@]} - 1; i >= 0; i--)); do
    page=docs/changes/${landed[i]}.md
    mapfile -t left < <(part "${landed[i]}" Gone | grep -oE '^- `[^`]+`' | cited)
    mapfile -t named < <(grep -v '^> ' "$page" | cited | grep -vxF -f <(printf '%s\n' "${left[@]:-/}"))
    gone+=("${left[@]}")
    for name in "${named[@]}"; do
        stands "$name" || stands_apart "$name" || is_gone "$name"
        told $? "$page names $name, which is not there, and no page says that it is gone"
    done
    for name in "${left[@]}"; do
        [[ $name != crates/* ]] && { ! stands "$name" || is_back "$name"; }
        told $? "$page says that $name is gone, and it is there (or it begins with crates/, which names leave out)"
    done
    later+=("${named[@]}")
done
