# What the gate and the tools share, sourced from the repository's root: what crates.txt lists, and the check of one crate
# folder in the words of `rt`, which itself tells no CPU time.

listed_crates() { sed -e 's/#.*//' -e '/:/!d' -e 's/:.*//' crates.txt | awk '{ print $1 }'; }

uses_of() { # NAME
    sed -e 's/#.*//' crates.txt | awk -F : -v name="$1" '{ split($1, words, " ") } words[1] == name { print $2 }'
}

# Whole and from nothing, over the libraries that the crates below left in their out/.
rattle_check() { # NAME FOLDER [WORDS..]
    local name=$1 file=$2/src/lib.rt guide kit words used below
    shift 2
    [ -f "$file" ] || file=${file%lib.rt}main.rt
    guide=$(rt doc) # it stands at the top of the toolchain
    kit=${guide%/*}
    words=(--crate-name "$name" "$file" --extern "std=$kit/rlibs/std.rlib" --links "$name=")
    for used in $(uses_of "$name"); do
        if [ -d "crates/$used" ]; then
            words+=(--extern "$used=$PWD/crates/$used/out/rlib/$used.rlib")
        else
            words+=(--extern "$used=$kit/rlibs/$used.rlib")
        fi
    done
    for below in crates/*/out/rlib; do words+=(-L "dependency=$PWD/$below"); done
    "$kit/bin/rattle" check "${words[@]}" -L "dependency=$kit/rlibs" \
        --antt-project "$kit/rattle/logic/antt-project.json" --logic-built "$kit/logic_built" "$@"
}
