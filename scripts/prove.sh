#!/bin/bash
# Proves crates and all that they rest on, and says so crate by crate; a program is built too, as crates/NAME/out/NAME. rt prints some
# twenty lines for each crate; of one that is proved one is enough, and of one that is not, what rt says of it.
#   scripts/prove.sh CRATE...
set -uo pipefail
shopt -s lastpipe # what `follow` notes is said behind it
cd "$(dirname "$0")/.." || exit

# The crates to prove. The kit's own libraries have no line in crates.txt, so they do not count.
reached=$(awk -v wanted="$*" '
    function reach(name, on, n, i) {
        if (!(name in rests) || seen[name]++) return
        print name
        n = split(rests[name], on, " ")
        for (i = 1; i <= n; i++) reach(on[i])
    }
    { sub(/#.*/, "") }
    split($0, part, ":") == 2 { split(part[1], word, " "); rests[word[1]] = part[2] }
    END {
        n = split(wanted, name, " ")
        for (i = 1; i <= n; i++) {
            if (!(name[i] in rests)) { print "FAILED: crates.txt has no crate " name[i] >"/dev/stderr"; exit 1 }
            reach(name[i])
        }
    }' crates.txt) || exit
declare -A left=()
for crate in $reached; do left[$crate]=1; done
total=${#left[@]}
echo "$total crates to prove: $* and what $([ $# -eq 1 ] && echo it rests || echo they rest) on"

crate='' ran='' held=()

# What rt said since the last crate, but for the lines that say that all is well.
show_held() {
    [ "${#held[@]}" -eq 0 ] || printf '%s\n' "${held[@]}" |
        grep -v -E '^(checked |((fn|struct|enum) .*: proved$)|(library|logic|statements|crate|axioms|linked) |only=)'
    held=()
}

# The last line of a crate says whether it is proved, and one before it which crate it is.
take() { # LINE
    case $1 in
    'crate '*': modules loaded='*)
        crate=${1#crate }
        crate=${crate%%:*}
        ;;
    'logic=proved '*)
        held=()
        unset "left[$crate]"
        echo "[$((total - ${#left[@]})) of $total] $crate proved"
        ;;
    'rt: running '*) ran=1 ;;
    'rt: chose '* | 'rt: '*': begins with what a check kept in '* | 'rt: nothing has changed since the last proved build'*) ;;
    'rt: '*)
        show_held
        echo "$1"
        ;;
    # What a program says is nothing of its proof.
    *) [ -n "$ran" ] || held+=("$1") ;;
    esac
}

still_to_do() {
    case ${#left[@]} in
    0 | 1 | 2 | 3) echo "left: ${!left[*]}" ;;
    *) echo "left: ${#left[@]} crates" ;;
    esac
}

# A crate can take minutes: then it is said now and then that rt is at work. A read that waited in vain may have part of a line.
follow() {
    local line='' part got quiet=$SECONDS
    while true; do
        IFS= read -r -t 30 part
        got=$?
        line+=$part
        if [ "$got" -eq 0 ]; then
            take "$line"
            line='' quiet=$SECONDS
        elif [ "$got" -gt 128 ]; then
            echo "  at work for $((SECONDS - quiet)) s; $(still_to_do)"
        else
            break
        fi
    done
    [ -z "$line" ] || take "$line"
    show_held
}

# rt builds a program where it runs it. The run has nothing to read, and is not what is asked for here: so how it ends does not count.
failed=''
for name; do
    if [ -e "crates/$name/src/main.rt" ]; then
        ran=''
        (cd "crates/$name" && rt run 2>&1 >/dev/null </dev/null) | follow
        [ -n "$ran" ] || failed="$failed $name"
    else
        (cd "crates/$name" && rt check 2>&1) | follow
        [ "${PIPESTATUS[0]}" -eq 0 ] || failed="$failed $name"
    fi
done
took="$((SECONDS / 60)) min $((SECONDS % 60)) s"
if [ -n "$failed" ]; then
    echo "FAILED:$failed ($took)"
    exit 1
fi
# What is proved already rt does not tell of.
echo "$total crates proved in $took$([ "${#left[@]}" -eq 0 ] || echo ", ${#left[@]} of them unchanged")"
