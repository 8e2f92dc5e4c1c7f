;;; devconf-mode.el --- Syntax of devconf: configurations, machine files, scripts, plans  -*- lexical-binding: t -*-
;; Made from tools/forms by tools/editors/make.sh.
(defvar devconf-mode-syntax-table
  (let ((table (make-syntax-table)))
    (modify-syntax-entry ?# "<" table)
    (modify-syntax-entry ?\n ">" table)
    (modify-syntax-entry ?_ "w" table)
    (modify-syntax-entry ?- "w" table)
    (modify-syntax-entry ?\\ "." table)
    table)
  "Comments begin with #, and a string ends at the next quote.")

;;;###autoload
(define-derived-mode devconf-mode prog-mode "Devconf"
  "The mode for configurations of devconf."
  :syntax-table devconf-mode-syntax-table
  (setq-local comment-start "# ")
  (setq-local font-lock-defaults
    '((("^\\(attach\\|cinclude\\|config\\|defflag\\|deffs\\|define\\|defparam\\|defpseudo\\|devclass\\|device\\|device-major\\|elifdef\\|elifndef\\|else\\|endif\\|file\\|file-system\\|ident\\|ifdef\\|ifndef\\|include\\|machine\\|makeoptions\\|maxpartitions\\|maxusers\\|no\\|obsolete\\|options\\|prefix\\|pseudo-device\\|version\\)\\_>" . font-lock-keyword-face)
       ("\\_<\\(at\\|compile-with\\|device\\|file-system\\|flags\\|makeoptions\\|needs-count\\|needs-flag\\|on\\|options\\|pseudo-device\\|root\\|with\\)\\_>" . font-lock-builtin-face)
       ("\\_<[A-Za-z_][A-Za-z0-9_-]*\\([0-9]+\\|[*?]\\)" . font-lock-variable-name-face)
       ("\\_<-?\\(0[xX][0-9a-fA-F]+\\|[0-9]+\\)\\_>" . font-lock-constant-face)))))

;;;###autoload
(define-derived-mode devconf-machine-mode prog-mode "Devconf machine"
  "The mode for machine files of devconf."
  :syntax-table devconf-mode-syntax-table
  (setq-local comment-start "# ")
  (setq-local font-lock-defaults
    '((("^[ \t]*\\(driver\\|match\\|spot\\|style\\)\\_>" . font-lock-keyword-face)
       ("\\_<\\(absent\\|bad\\|defer\\|direct\\|failsuspend\\|final\\|indirect\\|interrupts\\|late\\|nodetach\\|nopower\\|norescan\\|root\\)\\_>" . font-lock-builtin-face)
       ("\\_<-?\\(0[xX][0-9a-fA-F]+\\|[0-9]+\\)\\_>" . font-lock-constant-face)))))

;;;###autoload
(define-derived-mode devconf-script-mode prog-mode "Devconf script"
  "The mode for scripts of devconf."
  :syntax-table devconf-mode-syntax-table
  (setq-local comment-start "# ")
  (setq-local font-lock-defaults
    '((("^[ \t]*\\(close\\|detach\\|io\\|list\\|open\\|plug\\|rescan\\|resume\\|resumetree\\|suspend\\|tree\\|unplug\\)\\_>" . font-lock-keyword-face)
       ("\\_<\\(-x\\)\\_>" . font-lock-builtin-face)
       ("\\_<-?\\(0[xX][0-9a-fA-F]+\\|[0-9]+\\)\\_>" . font-lock-constant-face)))))

;;;###autoload
(define-derived-mode devconf-plan-mode prog-mode "Devconf plan"
  "The mode for plans of devconf."
  :syntax-table devconf-mode-syntax-table
  (setq-local comment-start "# ")
  (setq-local font-lock-defaults
    '((("^[ \t]*\\(add\\|group\\|remove\\|scan\\)\\_>" . font-lock-keyword-face)
       ("\\_<-?\\(0[xX][0-9a-fA-F]+\\|[0-9]+\\)\\_>" . font-lock-constant-face)))))

;;;###autoload
(progn
  (add-to-list 'auto-mode-alist '("/\\(files\\|std\\)\\.[^/]+\\'" . devconf-mode))
  (add-to-list 'auto-mode-alist '("/\\(GENERIC[^/]*\\|conf/files\\|conf/std\\)\\'" . devconf-mode))
  (add-to-list 'auto-mode-alist '("\\.machine\\'" . devconf-machine-mode))
  (add-to-list 'auto-mode-alist '("\\.script\\'" . devconf-script-mode))
  (add-to-list 'auto-mode-alist '("\\.plan\\'" . devconf-plan-mode)))
(provide 'devconf-mode)
;;; devconf-mode.el ends here
