#!/bin/sh
# Writes the syntax files of vim and emacs from tools/forms, into this folder or into the one that is named.
# Usage: tools/editors/make.sh [FOLDER]
here=$(cd "$(dirname "$(readlink -f "$0")")" && pwd) || exit 1
to=${1:-$here}
mkdir -p "$to/vim/syntax" "$to/vim/ftdetect" "$to/emacs" || exit 1
make() { LC_ALL=C awk -v editor="$1" -v kind="$2" -f "$here/../lib/syntax.awk" "$here/../forms" >"$to/$3"; }
make vim config vim/syntax/devconf.vim &&
    make vim machine vim/syntax/devconfmachine.vim &&
    make vim script vim/syntax/devconfscript.vim &&
    make vim plan vim/syntax/devconfplan.vim &&
    make emacs '' emacs/devconf-mode.el || exit 1
cat >"$to/vim/ftdetect/devconf.vim" <<'END'
" Files of devconf by their names. Any other file is one of these with a line `# vim: ft=devconf` in it.
au BufRead,BufNewFile files.*,std.*,GENERIC,GENERIC.*,*/conf/files,*/conf/std setfiletype devconf
au BufRead,BufNewFile *.machine,*/machines/* setfiletype devconfmachine
au BufRead,BufNewFile *.script setfiletype devconfscript
au BufRead,BufNewFile *.plan setfiletype devconfplan
END
