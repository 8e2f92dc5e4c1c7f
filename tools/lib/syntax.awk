# Makes the syntax files of editors from tools/forms: `awk -v editor=vim -v kind=config -f tools/lib/syntax.awk tools/forms`, with kind
# config, machine, script or plan; for emacs one file has all four. tools/editors/make.sh writes them all.

/^(config|machine|script|plan): / { take_form() }

END {
    if (editor == "vim") put_vim()
    else put_emacs()
}

# The first words of statements, and the other words that stand for themselves.
function take_form(   text, n, count, word, part, k, this) {
    this = $1
    sub(/:$/, "", this)
    text = $0
    sub(/^[a-z]*: /, "", text)
    sub(/\t.*/, "", text)
    gsub(/[][(),]/, " ", text)
    count = split(text, word, " ")
    for (n = 1; n <= count; n++) {
        if (word[n] ~ /^[A-Z]/ || word[n] !~ /[a-z]/) continue
        if (n == 1) add(this, "first", word[n])
        else for (k = split(word[n], part, "|"); k; k--) add(this, "other", part[k])
    }
    if (text ~ /PARENT/) add(this, "other", "root")
}

function add(this, place, word) {
    if ((this, place, word) in known) return
    known[this, place, word] = 1
    words[this, place] = words[this, place] " " word
}

# The words as a list, sorted, with this between them.
function listed(this, place, mark,   list, n, i, k, kept, text) {
    n = split(words[this, place], list, " ")
    for (i = 2; i <= n; i++) {
        kept = list[i]
        for (k = i - 1; k >= 1 && list[k] "" > kept ""; k--) list[k + 1] = list[k]
        list[k + 1] = kept
    }
    for (i = 1; i <= n; i++) text = text (i == 1 ? "" : mark) list[i]
    return text
}

function put_vim(   name) {
    name = kind == "config" ? "devconf" : "devconf" kind
    print "\" Syntax of devconf: " (kind == "config" ? "configurations" : kind " files") ". Made from tools/forms by tools/editors/make.sh."
    print "if exists(\"b:current_syntax\")"
    print "  finish"
    print "endif"
    print "syn match devconfNumber /\\v(^|[ \\t=,{\\[])@<=-?(0[xX]\\x+|\\d+)>/"
    if (kind == "config") {
        print "syn region devconfString start=/\"/ end=/\"/ oneline"
        print "syn match devconfUnit /\\v<\\h[A-Za-z0-9_-]*%(\\d|[*?])%([ \\t,#]|$)@=/"
    }
    if (words[kind, "other"] != "") print "syn match devconfWord /\\v(^|[ \\t,}])@<=(" listed(kind, "other", "|") ")([ \\t,#]|$)@=/"
    print "syn match devconfStatement /\\v^" (kind == "config" ? "" : "\\s*") "(" listed(kind, "first", "|") ")([ \\t#]|$)@=/"
    print "syn match devconfComment /#.*/ contains=@Spell"
    print "hi def link devconfNumber Number"
    if (kind == "config") {
        print "hi def link devconfString String"
        print "hi def link devconfUnit Identifier"
    }
    if (words[kind, "other"] != "") print "hi def link devconfWord Keyword"
    print "hi def link devconfStatement Statement"
    print "hi def link devconfComment Comment"
    print "setlocal commentstring=#\\ %s"
    print "let b:current_syntax = \"" name "\""
}

function put_emacs(   n, kinds, name, title) {
    print ";;; devconf-mode.el --- Syntax of devconf: configurations, machine files, scripts, plans  -*- lexical-binding: t -*-"
    print ";; Made from tools/forms by tools/editors/make.sh."
    print "(defvar devconf-mode-syntax-table"
    print "  (let ((table (make-syntax-table)))"
    print "    (modify-syntax-entry ?# \"<\" table)"
    print "    (modify-syntax-entry ?\\n \">\" table)"
    print "    (modify-syntax-entry ?_ \"w\" table)"
    print "    (modify-syntax-entry ?- \"w\" table)"
    print "    (modify-syntax-entry ?\\\\ \".\" table)"
    print "    table)"
    print "  \"Comments begin with #, and a string ends at the next quote.\")"
    split("config machine script plan", kinds, " ")
    for (n = 1; n <= 4; n++) {
        name = kinds[n] == "config" ? "devconf" : "devconf-" kinds[n]
        title = kinds[n] == "config" ? "configurations" : kinds[n] == "machine" ? "machine files" : kinds[n] "s"
        print ""
        print ";;;###autoload"
        print "(define-derived-mode " name "-mode prog-mode \"" (n == 1 ? "Devconf" : "Devconf " kinds[n]) "\""
        print "  \"The mode for " title " of devconf.\""
        print "  :syntax-table devconf-mode-syntax-table"
        print "  (setq-local comment-start \"# \")"
        print "  (setq-local font-lock-defaults"
        print "    '(((\"^" (n == 1 ? "" : "[ \\t]*") "\\\\(" listed(kinds[n], "first", "\\\\|") "\\\\)\\\\_>\" . font-lock-keyword-face)"
        if (words[kinds[n], "other"] != "") print "       (\"\\\\_<\\\\(" listed(kinds[n], "other", "\\\\|") "\\\\)\\\\_>\" . font-lock-builtin-face)"
        if (n == 1) print "       (\"\\\\_<[A-Za-z_][A-Za-z0-9_-]*\\\\([0-9]+\\\\|[*?]\\\\)\" . font-lock-variable-name-face)"
        print "       (\"\\\\_<-?\\\\(0[xX][0-9a-fA-F]+\\\\|[0-9]+\\\\)\\\\_>\" . font-lock-constant-face)))))"
    }
    print ""
    print ";;;###autoload"
    print "(progn"
    print "  (add-to-list 'auto-mode-alist '(\"/\\\\(files\\\\|std\\\\)\\\\.[^/]+\\\\'\" . devconf-mode))"
    print "  (add-to-list 'auto-mode-alist '(\"/\\\\(GENERIC[^/]*\\\\|conf/files\\\\|conf/std\\\\)\\\\'\" . devconf-mode))"
    print "  (add-to-list 'auto-mode-alist '(\"\\\\.machine\\\\'\" . devconf-machine-mode))"
    print "  (add-to-list 'auto-mode-alist '(\"\\\\.script\\\\'\" . devconf-script-mode))"
    print "  (add-to-list 'auto-mode-alist '(\"\\\\.plan\\\\'\" . devconf-plan-mode)))"
    print "(provide 'devconf-mode)"
    print ";;; devconf-mode.el ends here"
}
