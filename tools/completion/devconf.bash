# Completion of the words of devconf and its tools for bash, which reads it: `. tools/completion/devconf.bash`. What may
# stand where is said in tools/forms.
_devconf_tools=$(cd "$(dirname "$(readlink -f "${BASH_SOURCE[0]}")")/.." && pwd)

_devconf() {
    local program=${1##*/} next
    next=$(WORDS=$(printf '%s\n' "${program#devconf-}" "${COMP_WORDS[@]:1:COMP_CWORD-1}") \
        awk -f "$_devconf_tools/lib/next_words.awk" "$_devconf_tools/forms")
    COMPREPLY=()
    case $'\n'$next$'\n' in
    *$'\nFILE\n'*) ;;                          # no reply: bash completes files
    *) compopt +o default 2>/dev/null ;;
    esac
    next=${next//FILE/}
    [ -z "$next" ] || COMPREPLY=($(compgen -W "$next" -- "${COMP_WORDS[COMP_CWORD]}"))
}

# Installed, the tools have names of their own, and other programs have these.
for _devconf_name in $(sed -n 's/^\([a-z][a-z]*\) .*/\1/p' "$_devconf_tools/forms" | sort -u); do
    case $_devconf_name in
    devconf | drvrun | drvall | devwhy) complete -o default -F _devconf "$_devconf_name" ;;
    *)
        complete -o default -F _devconf "devconf-$_devconf_name"
        [ ! -e "$_devconf_tools/../crates.txt" ] || complete -o default -F _devconf "$_devconf_name"
        ;;
    esac
done
unset _devconf_name
