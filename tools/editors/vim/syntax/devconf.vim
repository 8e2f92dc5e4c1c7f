" Syntax of devconf: configurations. Made from tools/forms by tools/editors/make.sh.
if exists("b:current_syntax")
  finish
endif
syn match devconfNumber /\v(^|[ \t=,{\[])@<=-?(0[xX]\x+|\d+)>/
syn region devconfString start=/"/ end=/"/ oneline
syn match devconfUnit /\v<\h[A-Za-z0-9_-]*%(\d|[*?])%([ \t,#]|$)@=/
syn match devconfWord /\v(^|[ \t,}])@<=(at|compile-with|device|file-system|flags|makeoptions|needs-count|needs-flag|on|options|pseudo-device|root|with)([ \t,#]|$)@=/
syn match devconfStatement /\v^(attach|cinclude|config|defflag|deffs|define|defparam|defpseudo|devclass|device|device-major|elifdef|elifndef|else|endif|file|file-system|ident|ifdef|ifndef|include|machine|makeoptions|maxpartitions|maxusers|no|obsolete|options|prefix|pseudo-device|version)([ \t#]|$)@=/
syn match devconfComment /#.*/ contains=@Spell
hi def link devconfNumber Number
hi def link devconfString String
hi def link devconfUnit Identifier
hi def link devconfWord Keyword
hi def link devconfStatement Statement
hi def link devconfComment Comment
setlocal commentstring=#\ %s
let b:current_syntax = "devconf"
