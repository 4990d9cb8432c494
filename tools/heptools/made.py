"""The files that are made of the data: the man page, completions for three shells, and what editors need."""
import json
import textwrap

from . import forms

# the kinds of keywords, for colours
TYPES = ('bool', 'int')
VALUES = ('true', 'false')
OPERATORS = ('fby', 'pre', 'last', 'when', 'whenot', 'merge', 'not', 'or', 'xor', 'on', 'inlined')
TOOLS = {
    'hept-explain': 'explains a diagnostic, or runs hept and explains what it says',
    'hept-wave': 'draws a run of a node as text, as SVG, or as a value change dump',
    'hept-try': 'tries inputs of a node until an output is false or its contract is broken',
    'hept-why': 'says why the contract of a node is lost, or what the variables of its certificate stand for',
}
TOOL_OPTIONS = {
    'hept-explain': ['--all', '--help'],
    'hept-wave': ['--contract', '--svg', '--vcd', '--lines', '--width', '--ascii', '--help'],
    'hept-try': ['--false', '--all', '--instants', '--runs', '--seed', '--help'],
    'hept-why': ['--all', '--trace', '--help'],
}


def files(data):
    """The text of each file, by its name in tools/."""
    return {
        'hept.1': manual(data),
        'completions/hept.bash': bash(data),
        'completions/_hept': zsh(data),
        'completions/hept.fish': fish(data),
        'editors/vscode/package.json': as_json(vscode_package()),
        'editors/vscode/language-configuration.json': as_json(vscode_language()),
        'editors/vscode/syntaxes/hept.tmLanguage.json': as_json(grammar(data)),
        'editors/vim/syntax/hept.vim': vim_syntax(data),
        'editors/vim/ftdetect/hept.vim': 'autocmd BufNewFile,BufRead *.ept set filetype=hept\n',
        'editors/vim/ftplugin/hept.vim': VIM_PLUGIN,
        'editors/vim/compiler/hept.vim': VIM_COMPILER,
    }


def as_json(value):
    return json.dumps(value, indent=2) + '\n'


# ------------------------------------------------------------ the man page

TRACES = '''A line of standard input is one instant: a word for each input of the node, in the order in which it declares them, with blanks between. A word is
`true` or `false`, digits with an optional minus, or a constructor. The answer is a line with the values of the outputs. A node without inputs takes empty lines.'''
EXAMPLE = '''node f(x : bool) returns (y : bool)
let y = false fby x tel'''


def roff(text):
    """Text as the man page has it; what stands between backquotes is bold."""
    parts = text.replace('\\', '\\e').replace('-', '\\-').split('`')
    joined = ''.join(f'\\fB{it}\\fR' if at % 2 else it for at, it in enumerate(parts))
    return '\n'.join('\\&' + line if line[:1] in ".'" else line for line in joined.split('\n'))


def paragraph(text, width=96):
    return '\n'.join(textwrap.wrap(roff(text), width, break_on_hyphens=False, break_long_words=False))


def manual(data):
    """The page hept(1)."""
    lines = ['.\\" made by tools/make-files', '.TH HEPT 1 "" "hept" "User Commands"', '.SH NAME',
             'hept \\- compiler and runner of Heptagon with BZR contracts', '.SH SYNOPSIS']
    for command in data.commands:
        lines += [f'.B hept {command["name"]}', roff(command['words']), '.br']
    lines += ['.SH DESCRIPTION', paragraph('hept reads programs of Heptagon, the synchronous dataflow language with automata, and decides their BZR contracts. Each '
                                           'call does one of the commands. Options may stand anywhere behind the command.'), '.SH COMMANDS']
    for command in data.commands:
        lines += ['.TP', f'\\fB{command["name"]}\\fR {roff(command["words"])}', paragraph(command['does'] + '.')]
    lines += ['.SH TRACES', paragraph(TRACES.replace('\n', ' ')), '.SH DIAGNOSTICS',
              paragraph('What is refused is named by one line on standard error. PLACE is a line and a column, from 1. `hept-explain` says more of each.')]
    for entry in data.entries:
        title = entry.data['title'].replace('{', '').replace('}', '')
        lines += ['.TP', f'\\fB{roff(entry.data["form"])}\\fR', paragraph(f'{title}.')]
    lines += ['.SH "EXIT STATUS"']
    for number, status in data.statuses.items():
        lines += ['.TP', f'\\fB{number}\\fR', paragraph(f'{status["title"]}. {status["cause"]}')]
    lines += ['.SH EXAMPLE', '.nf', roff('cat >f.ept <<END'), roff(EXAMPLE), 'END', roff("printf 'true\\nfalse\\n' | hept run f.ept f"), '.fi', '.SH TOOLS']
    for name, does in TOOLS.items():
        lines += ['.TP', f'\\fB{roff(name)}\\fR', paragraph(f'{does}; `{name} --help` says how.')]
    return '\n'.join(lines) + '\n'


# ------------------------------------------------------------ completions

NODES = r"sed -n 's/.*\(^\|[^A-Za-z0-9_]\)\(node\|machine\)[ \t][ \t]*\([a-z][A-Za-z0-9_$]*\).*/\3/p'"


def codes(data):
    """The codes of the diagnostics, each once."""
    return list(dict.fromkeys(it.code.rstrip(':') for it in data.entries))


def bash(data):
    names = ' '.join(it['name'] for it in data.commands)
    options = '\n'.join(f'        {name}) options="{" ".join(them)}" ;;' for name, them in forms.OPTIONS.items())
    tools = '\n'.join(f'        {name}) options="{" ".join(them)}" ;;' for name, them in TOOL_OPTIONS.items())
    return f'''# Completion of hept and its tools for bash; made by tools/make-files.

# the nodes of a file
_hept_nodes() {{
    [ -f "$1" ] && {NODES} -- "$1" 2>/dev/null
}}

# files whose names end so, and folders
_hept_files() {{
    local cur=$1 ending
    compgen -d -- "$cur"
    shift
    for ending; do
        compgen -f -X "!*.$ending" -- "$cur"
    done
}}

_hept_words() {{
    local cur=$1 command=$2 at=$3 file=$4 options=
    case $command in
{options}
    esac
    if [[ $cur == -* ]]; then
        COMPREPLY=($(compgen -W "$options" -- "$cur"))
    elif [[ $command == sweep ]]; then
        COMPREPLY=()
    elif [[ $at == 1 ]]; then
        if [[ $command == exec ]]; then
            COMPREPLY=($(_hept_files "$cur" obc))
        else
            COMPREPLY=($(_hept_files "$cur" ept))
        fi
    elif [[ $at == 2 && $command != compile && $command != past ]]; then
        COMPREPLY=($(compgen -W "$(_hept_nodes "$file")" -- "$cur"))
    else
        COMPREPLY=($(compgen -f -- "$cur"))
    fi
}}

_hept() {{
    local cur=${{COMP_WORDS[COMP_CWORD]}} word at=0 file= i
    COMPREPLY=()
    compopt -o filenames 2>/dev/null
    if [[ $COMP_CWORD == 1 ]]; then
        COMPREPLY=($(compgen -W "{names}" -- "$cur"))
        return
    fi
    for ((i = 2; i < COMP_CWORD; i++)); do
        word=${{COMP_WORDS[i]}}
        [[ $word == -* ]] && continue
        at=$((at + 1))
        [[ $at == 1 ]] && file=$word
    done
    _hept_words "$cur" "${{COMP_WORDS[1]}}" $((at + 1)) "$file"
}}

_hept_tool() {{
    local cur=${{COMP_WORDS[COMP_CWORD]}} options=
    COMPREPLY=()
    compopt -o filenames 2>/dev/null
    case ${{1##*/}} in
{tools}
    esac
    if [[ ${{1##*/}} == hept-explain ]]; then
        if [[ $COMP_CWORD == 1 ]]; then
            COMPREPLY=($(compgen -W "{names} {" ".join(codes(data))} $options" -- "$cur") $(_hept_files "$cur" ept obc))
        else
            _hept
        fi
    elif [[ $cur == -* ]]; then
        COMPREPLY=($(compgen -W "$options" -- "$cur"))
    elif [[ $COMP_CWORD == 1 ]]; then
        COMPREPLY=($(_hept_files "$cur" ept obc))
    else
        COMPREPLY=($(compgen -W "$(_hept_nodes "${{COMP_WORDS[1]}}")" -- "$cur"))
    fi
}}

complete -F _hept hept
complete -F _hept_tool {" ".join(TOOLS)}
'''


def described(command):
    """A command and what it does, short."""
    return command['name'], command['does'].split(',')[0].split(';')[0].split(':')[0].replace('`', '').replace("'", '')


def zsh(data):
    commands = '\n'.join("        '{}:{}'".format(*described(it)) for it in data.commands)
    options = '\n'.join(f"        ({name}) options=({' '.join(them)}) ;;" for name, them in forms.OPTIONS.items())
    tools = '\n'.join(f"        ({name}) options=({' '.join(them)}) ;;" for name, them in TOOL_OPTIONS.items())
    return f'''#compdef hept {" ".join(TOOLS)}
# Completion of hept and its tools for zsh; made by tools/make-files.

_hept_nodes() {{
    local -a nodes
    [[ -f $1 ]] && nodes=(${{(f)"$({NODES} -- $1 2>/dev/null)"}})
    compadd -a nodes
}}

_hept_command() {{
    local command=$words[2] file= word
    local -a options given
    case $command in
{options}
    esac
    for word in ${{words[3,CURRENT-1]}}; do
        [[ $word == -* ]] || given+=($word)
    done
    file=$given[1]
    if [[ $words[CURRENT] == -* ]]; then
        compadd -a options
    elif [[ $command == sweep ]]; then
        return
    elif (( $#given == 0 )); then
        if [[ $command == exec ]]; then _files -g '*.obc'; else _files -g '*.ept'; fi
    elif (( $#given == 1 )) && [[ $command != compile && $command != past ]]; then
        _hept_nodes $file
    else
        _files
    fi
}}

_hept() {{
    local -a commands options
    commands=(
{commands}
    )
    case $service in
{tools}
    esac
    if [[ $service == hept || $service == hept-explain ]]; then
        if (( CURRENT > 2 )); then
            _hept_command
            return
        fi
        _describe command commands
        [[ $service == hept-explain ]] && compadd -a options && compadd {" ".join(codes(data))} && _files -g '*.(ept|obc)'
        return
    fi
    if [[ $words[CURRENT] == -* ]]; then
        compadd -a options
    elif (( CURRENT == 2 )); then
        _files -g '*.(ept|obc)'
    else
        _hept_nodes $words[2]
    fi
}}

_hept "$@"
'''


def fish(data):
    names = ' '.join(it['name'] for it in data.commands)
    lines = ['# Completion of hept and its tools for fish; made by tools/make-files.', '', 'function __hept_nodes', '    set -l words (commandline -opc)',
             '    for word in $words[2..-1]', f'        test -f "$word"; and {NODES} -- "$word" 2>/dev/null', '    end', 'end', '',
             'function __hept_given', '    set -l words (commandline -opc)', '    set -l found 0', '    for word in $words[3..-1]',
             '        string match -q -- "-*" $word; or set found (math $found + 1)', '    end', '    echo $found', 'end', '', 'complete -c hept -f']
    for name, does in map(described, data.commands):
        lines.append(f"complete -c hept -n 'not __fish_seen_subcommand_from {names}' -a {name} -d '{does}'")
    for command in data.commands:
        name, ending = command['name'], command['files']
        if ending:
            lines.append(f"complete -c hept -n '__fish_seen_subcommand_from {name}; and test (__hept_given) = 0' -k -a '(__fish_complete_suffix .{ending})'")
        if 'NODE' in command['words']:
            lines.append(f"complete -c hept -n '__fish_seen_subcommand_from {name}; and test (__hept_given) = 1' -a '(__hept_nodes)'")
        if 'CERT' in command['words'] or 'OUT' in command['words']:
            lines.append(f"complete -c hept -n '__fish_seen_subcommand_from {name}; and test (__hept_given) = {2 if 'CERT' in command['words'] else 1}' -F")
        for option in forms.OPTIONS.get(name, []):
            lines.append(f"complete -c hept -n '__fish_seen_subcommand_from {name}' -l {option[2:]}")
    for tool, does in TOOLS.items():
        lines.append(f'# {tool} {does}')
        lines += [f'complete -c {tool} -l {option[2:]}' for option in TOOL_OPTIONS[tool]]
        if tool != 'hept-explain':
            lines.append(f"complete -c {tool} -n 'test (count (commandline -opc)) -gt 1' -f -a '(__hept_nodes)'")
    lines.append(f"complete -c hept-explain -n 'test (count (commandline -opc)) = 1' -a '{names} {' '.join(codes(data))}'")
    return '\n'.join(lines) + '\n'


# ------------------------------------------------------------ VS Code

def kinds(data):
    """The keywords by kind: types, values, operators and all others."""
    other = [it for it in data.keywords if it not in TYPES + VALUES + OPERATORS]
    return other, [it for it in data.keywords if it in OPERATORS], list(TYPES), list(VALUES)


def vscode_package():
    matcher = {'name': 'hept', 'owner': 'hept', 'fileLocation': ['autoDetect', '${workspaceFolder}'],
               'pattern': [{'regexp': r'^error\[([A-Z]\d+)\]: (.*)$', 'code': 1, 'message': 2},
                           {'regexp': r'^\s*--> (.+):(\d+):(\d+)$', 'file': 1, 'line': 2, 'column': 3}]}
    return {
        'name': 'hept', 'displayName': 'Heptagon (hept)', 'description': 'Heptagon programs: colours, and a problem matcher for `hept-explain check FILE`',
        'version': '1.0.0', 'publisher': 'hept', 'engines': {'vscode': '^1.60.0'}, 'categories': ['Programming Languages'],
        'contributes': {
            'languages': [{'id': 'hept', 'aliases': ['Heptagon', 'hept'], 'extensions': ['.ept'], 'configuration': './language-configuration.json'}],
            'grammars': [{'language': 'hept', 'scopeName': 'source.hept', 'path': './syntaxes/hept.tmLanguage.json'}],
            'problemMatchers': [matcher],
        },
    }


def vscode_language():
    pairs = [['(', ')'], ['(*', '*)']]
    return {'comments': {'blockComment': ['(*', '*)']}, 'brackets': [['(', ')']], 'autoClosingPairs': pairs, 'surroundingPairs': [['(', ')']],
            'indentationRules': {'increaseIndentPattern': r'^\s*(let|automaton|switch|reset|state .* do|\| .* do|contract|var)\b(?!.*\b(tel|end)\b)',
                                 'decreaseIndentPattern': r'^\s*(tel|end)\b'}}


def grammar(data):
    other, operators, types, values = kinds(data)
    word = lambda them: '\\b(' + '|'.join(sorted(them)) + ')\\b'
    comment = {'name': 'comment.block.hept', 'begin': r'\(\*', 'end': r'\*\)', 'patterns': [{'include': '#comment'}]}
    patterns = [
        {'include': '#comment'},
        {'match': r'\b(node|type)\s+([a-z]\w*)', 'captures': {'1': {'name': 'keyword.control.hept'}, '2': {'name': 'entity.name.function.hept'}}},
        {'match': r'\b(state)\s+([A-Z]\w*)', 'captures': {'1': {'name': 'keyword.control.hept'}, '2': {'name': 'entity.name.section.hept'}}},
        {'match': word(other), 'name': 'keyword.control.hept'},
        {'match': word(operators), 'name': 'keyword.operator.word.hept'},
        {'match': word(types), 'name': 'storage.type.hept'},
        {'match': word(values), 'name': 'constant.language.hept'},
        {'match': r'\b[A-Z]\w*\b', 'name': 'constant.other.hept'},
        {'match': r'\b\d+\b', 'name': 'constant.numeric.hept'},
        {'match': r'\b([a-z]\w*)(?=\s*\()', 'name': 'entity.name.function.hept'},
        {'match': r'<=|>=|<>|->|=>|&&|\|\||[=<>+\-*/%&|]', 'name': 'keyword.operator.hept'},
    ]
    return {'name': 'Heptagon', 'scopeName': 'source.hept', 'fileTypes': ['ept'], 'patterns': patterns, 'repository': {'comment': comment}}


# ------------------------------------------------------------ vim

VIM_PLUGIN = '''" Programs of hept; made by tools/make-files.
if exists('b:did_ftplugin')
  finish
endif
let b:did_ftplugin = 1
setlocal commentstring=(*%s*) comments=s:(*,m:*,e:*) shiftwidth=2 expandtab
compiler hept
'''
VIM_COMPILER = r'''" :make checks the program; made by tools/make-files.
if exists('current_compiler')
  finish
endif
let current_compiler = 'hept'
CompilerSet makeprg=hept-explain\ check\ %:S
CompilerSet errorformat=%Eerror[%*[A-Z0-9]]:\ %m,%Z%*[\ ]-->\ %f:%l:%c,%-G%.%#
'''


def vim_syntax(data):
    other, operators, types, values = kinds(data)
    return f'''" Programs of hept; made by tools/make-files.
if exists('b:current_syntax')
  finish
endif
syntax keyword heptKeyword {" ".join(sorted(other))}
syntax keyword heptOperator {" ".join(sorted(operators))}
syntax keyword heptType {" ".join(sorted(types))}
syntax keyword heptValue {" ".join(sorted(values))}
syntax match heptConstructor /\\<[A-Z]\\w*\\>/
syntax match heptNumber /\\<\\d\\+\\>/
syntax match heptNode /\\(\\<node\\s\\+\\)\\@<=[a-z]\\w*/
syntax region heptComment start=/(\\*/ end=/\\*)/ contains=heptComment
highlight default link heptKeyword Statement
highlight default link heptOperator Operator
highlight default link heptType Type
highlight default link heptValue Boolean
highlight default link heptConstructor Constant
highlight default link heptNumber Number
highlight default link heptNode Function
highlight default link heptComment Comment
let b:current_syntax = 'hept'
'''
