" Syntax of devconf: plan files. Made from tools/forms by tools/editors/make.sh.
if exists("b:current_syntax")
  finish
endif
syn match devconfNumber /\v(^|[ \t=,{\[])@<=-?(0[xX]\x+|\d+)>/
syn match devconfStatement /\v^\s*(add|group|remove|scan)([ \t#]|$)@=/
syn match devconfComment /#.*/ contains=@Spell
hi def link devconfNumber Number
hi def link devconfStatement Statement
hi def link devconfComment Comment
setlocal commentstring=#\ %s
let b:current_syntax = "devconfplan"
