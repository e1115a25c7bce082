"""How bash completes the words of the bridge's command line, made of the parsers that read them."""
import shlex

SCRIPT = """\
# Completes the words of bridge.py, and names of nodes from the file of names. Bash reads it by
#   source <(bridge.py --completion)
_bridge_py_nodes() {{
    local at file=${{XDG_CONFIG_HOME:-$HOME/.config}}/daplive/nodes
    for ((at = 1; at < COMP_CWORD - 1; at++)); do
        if [ "${{COMP_WORDS[at]}}" = --nodes ]; then file=${{COMP_WORDS[at + 1]}}; fi
    done
    [ -r "$file" ] && sed 's/#.*//' "$file" | awk -v end="$1" '{{ for (at = 2; at <= NF; at++) print toupper($at) end }}'
}}

_bridge_py() {{
    local word=${{COMP_WORDS[COMP_CWORD]}} before=${{COMP_WORDS[COMP_CWORD - 1]}} role=${{COMP_WORDS[1]}} options=
    COMPREPLY=()
    if [ "$COMP_CWORD" -eq 1 ]; then
        COMPREPLY=($(compgen -W {roles} -- "$word"))
        return
    fi
    case $before in
        {nodes}) COMPREPLY=($(compgen -W "$(_bridge_py_nodes '')" -- "${{word^^}}")); return ;;
        {files}) COMPREPLY=($(compgen -f -- "$word")); return ;;
        {folders}) COMPREPLY=($(compgen -d -- "$word")); return ;;
{choices}
        {values}) return ;;
    esac
    case $role in
{options}
    esac
    case $word in
        -*) COMPREPLY=($(compgen -W "$options" -- "$word")) ;;
        *) case $role in {named})
            COMPREPLY=($(compgen -W "$(_bridge_py_nodes ::)" -- "${{word^^}}"))
            if [ ${{#COMPREPLY[@]}} -gt 0 ]; then compopt -o nospace 2>/dev/null; fi ;;
        esac ;;
    esac
}}
complete -o default -F _bridge_py bridge.py
"""
NODE, FILE, FOLDER = "NODE", ("FILE", "PROGRAM"), "DIR"


def script(parser, roles, named):
    """The script of these parsers; `named` are the roles that name a file as NODE::NAME."""
    actions = {name: action for role in roles.values() for action in role.actions for name in action.option_strings}
    taking = {name: action for name, action in actions.items() if action.nargs != 0}
    chosen = {name: action.choices for name, action in taking.items() if action.choices}

    def names(is_so):
        return "|".join(sorted(name for name, action in taking.items() if name not in chosen and is_so(action)))

    return SCRIPT.format(
        roles=shlex.quote(" ".join([*roles, *parser.names])), named="|".join(named),
        nodes=names(lambda action: action.metavar == NODE), files=names(lambda action: action.metavar in FILE),
        folders=names(lambda action: action.metavar == FOLDER),
        values=names(lambda action: action.metavar not in (NODE, FOLDER, *FILE)),
        choices="\n".join(f"        {name}) COMPREPLY=($(compgen -W {shlex.quote(' '.join(words))} -- \"$word\")); return ;;"
                          for name, words in sorted(chosen.items())),
        options="\n".join(f"        {name}) options={shlex.quote(' '.join(role.names))} ;;" for name, role in roles.items()))
