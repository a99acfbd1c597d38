#!/bin/sh
# Tests that the grammars for editors have just the words of the forms in docs/LANGUAGE.md, and those of templates.
here=$(readlink -f -- "$0") || exit 1
here=${here%/tests/*}
# shellcheck source=/dev/null
. "$here/tests/shared"

# The words of two or more letters in what is read, each once.
words() {
    grep -o '[a-z][a-z]*' | grep '..' | LC_ALL=C sort -u | tr '\n' ' '
}

# The forms in the reference, whose places have names in capitals.
# shellcheck disable=SC2016  # the quotes are those of Markdown
forms() {
    sed -n '/^| place | forms |$/,/^$/p' "$here/docs/LANGUAGE.md" | grep -o '`[^`]*`'
    echo 'def include'
}

wanted=$(forms | words)
of_code=$(sed -n '/"name": "\(keyword\|storage\|entity\|support\)/s/.*"match": //p' "$here/editors/vscode/sqre.tmLanguage.json" | sed 's/\\\\[bs]//g' | words)
of_vim=$(sed -n 's/^syntax match sqre\(File\|Column\|Query\|Rate\|Predicate\|Operator\) //p' "$here/editors/vim/syntax/sqre.vim" | sed 's/\\ze\|\\_s//g' | words)
has 'the words of the forms' 'abs add alt and any apply atom between' "$wanted"
same 'the words of editors/vscode' "$wanted" "$of_code"
same 'the words of editors/vim' "$wanted" "$of_vim"
tell
