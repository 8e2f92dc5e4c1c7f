" Syntax of devconf: machine files. Made from tools/forms by tools/editors/make.sh.
if exists("b:current_syntax")
  finish
endif
syn match devconfNumber /\v(^|[ \t=,{\[])@<=-?(0[xX]\x+|\d+)>/
syn match devconfWord /\v(^|[ \t,}])@<=(absent|bad|defer|direct|failsuspend|final|indirect|interrupts|late|nodetach|nopower|norescan|root)([ \t,#]|$)@=/
syn match devconfStatement /\v^\s*(driver|match|spot|style)([ \t#]|$)@=/
syn match devconfComment /#.*/ contains=@Spell
hi def link devconfNumber Number
hi def link devconfWord Keyword
hi def link devconfStatement Statement
hi def link devconfComment Comment
setlocal commentstring=#\ %s
let b:current_syntax = "devconfmachine"
