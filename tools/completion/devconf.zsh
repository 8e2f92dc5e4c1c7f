#compdef devconf drvrun drvall devwhy devconf-explain devconf-check devconf-lint devconf-summary devconf-draw devconf-compare devconf-machine devconf-trim devconf-fleet devconf-json devconf-page
# Completion of the words of devconf and its tools for zsh, which reads it behind compinit:
# `. tools/completion/devconf.zsh`; installed, it stands as _devconf in a folder of $fpath. What may stand where is said in
# tools/forms.
: ${_devconf_tools:=${${(%):-%x}:A:h:h}}

_devconf() {
    local -a given next
    given=("${${words[1]:t}#devconf-}" "${(@)words[2,CURRENT-1]}")
    next=(${(f)"$(WORDS=${(F)given} awk -f $_devconf_tools/lib/next_words.awk $_devconf_tools/forms)"})
    compadd -- ${next:#FILE}
    (( ${next[(I)FILE]} == 0 )) || _files
}

if [[ $funcstack[1] = _devconf ]]; then
    _devconf "$@"
else
    compdef _devconf devconf drvrun drvall devwhy explain check lint summary draw compare machine trim fleet devconf-explain devconf-check devconf-lint devconf-summary devconf-draw \
        devconf-compare devconf-machine devconf-trim devconf-fleet devconf-json devconf-page
fi
