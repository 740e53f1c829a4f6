"""What the help texts of the program say, and completions for bash, zsh and fish made of it.

Nothing here names a command or an option of squall: they are those that its help lists.
"""
import re
import subprocess
from dataclasses import dataclass

ENTRY = re.compile(r"^  ( *\S.*?)(?:  +(\S.*))?$")
OPTION = re.compile(r"^ *(?:(-\w), )?(--[\w-]+)(?: <(\w+)>)?$")
ARGUMENT = re.compile(r"^[<\[](\w+)[>\]](\.\.\.)?$")


@dataclass(frozen=True)
class Option:
    short: str
    long: str
    value: str
    about: str

    @property
    def is_file(self):
        return bool(self.value) and names_a_file(self.about)

    @property
    def names(self):
        return [it for it in (self.short, self.long) if it]

    @property
    def is_alone(self):
        """Whether nothing else goes with it."""
        return self.long in ("--help", "--version")


@dataclass(frozen=True)
class Argument:
    name: str
    about: str
    repeats: bool
    is_file: bool


def names_a_file(about):
    return re.search(r"\bfiles?\b", about, re.IGNORECASE) is not None


@dataclass(frozen=True)
class Help:
    """The help of a command, or of the program: what it does, its usage, the entries of its lists, and the paragraphs
    behind them."""

    name: str
    about: str
    usage: str
    commands: dict
    arguments: list
    options: list
    paragraphs: list

    @property
    def forms(self):
        """Of a command whose words begin with one of a closed set: that word, and the arguments after it."""
        if len(self.arguments) != 1 or self.arguments[0].is_file or not self.arguments[0].repeats:
            return {}
        lists = [it for it in self.paragraphs if not it[0].startswith("Example") and it[0].endswith(":")]
        entries = [ENTRY.match(line) for lines in lists for line in lines[1:]]
        return dict(form_of(it[1], it[2] or "") for it in entries if it and it[1][0].islower())


def form_of(words, about):
    """The first word of a form, and the arguments after it, of which those that are files are called so."""
    first, *names = words.split()
    return first, [Argument(it, about, False, re.search(rf"\bfile {it}\b", about) is not None) for it in names]


def read(text, name=""):
    """The help that is written so."""
    head, *blocks = re.split(r"\n\n(?=\S)", text.rstrip())
    lists = {"Commands": [], "Arguments": [], "Options": []}
    usage, paragraphs = "", []
    for block in blocks:
        first, *lines = block.splitlines()
        if first.startswith("Usage: "):
            usage = first.removeprefix("Usage: ")
        elif first.rstrip(":") in lists:
            lists[first.rstrip(":")] = entries_of(lines)
        else:
            paragraphs.append([first, *lines])
    options = [Option(*(it or "" for it in OPTION.match(form).groups()), about) for form, about in lists["Options"]]
    arguments = []
    for form, about in lists["Arguments"]:
        argument, dots = ARGUMENT.match(form).groups()
        arguments.append(Argument(argument, about, bool(dots), names_a_file(about)))
    return Help(name, head.splitlines()[-1], usage, dict(lists["Commands"]), arguments, options, paragraphs)


def entries_of(lines):
    """The entries of a list. A line that is indented by more than eight blanks goes on with the entry above."""
    found = []
    for line in lines:
        if line.startswith(" " * 9):
            form, about = found.pop()
            found.append((form, f"{about} {line.strip()}".strip()))
        else:
            form, about = ENTRY.match(line).groups()
            found.append((form.strip(), about or ""))
    return found


def helps(program):
    """The help of the program, and then that of each command."""
    run = lambda *words: subprocess.run([program, *words], check=True, stdout=subprocess.PIPE, text=True).stdout
    top = read(run("--help"))
    return [top, *(read(run(name, "--help"), name) for name in top.commands if name != "help")]


def positions(command):
    """The words before which arguments are looked for, and these arguments: those of each form, and then all others."""
    first = Argument("WORD", "", False, False)
    yield from ((f"{command.name} {word}", [first, *arguments]) for word, arguments in command.forms.items())
    yield command.name, command.arguments[:1] if command.forms else command.arguments


# ---- bash


BASH = """\
# Completions of squall for bash, made of the help of squall.
_squall() {{
  local cur=${{COMP_WORDS[COMP_CWORD]}} words=() kinds=() options='' closed='' rest='' word value='' at kind
  for ((at = 1; at < COMP_CWORD; at++)); do
    word=${{COMP_WORDS[at]}}
    case $word in
      {valued}) value=$word ;;
      =) ;;
      -?*) value='' ;;
      *)
        [ -n "$value" ] || words+=("$word")
        value=''
        ;;
    esac
  done
  if [ "$cur" = = ]; then cur=''; fi
  case "${{words[0]-}} ${{words[1]-}}" in
    ' '*) options='{options}' closed='{commands}' kinds=(closed) ;;
    'help '*) closed='{commands}' kinds=(closed) ;;
{cases}
  esac
  at=$((${{#words[@]}} - 1))
  if [ $at -lt 0 ]; then at=0; fi
  kind=${{kinds[at]-$rest}}
  COMPREPLY=()
  if [ -n "$value" ]; then
    case $value in
      {files}) kind=file ;;
      *) return ;;
    esac
  elif [[ $cur == -* ]]; then
    mapfile -t COMPREPLY < <(compgen -W "$options" -- "$cur")
    return
  fi
  case $kind in
    closed) mapfile -t COMPREPLY < <(compgen -W "$closed" -- "$cur") ;;
    file)
      compopt -o filenames 2> /dev/null
      mapfile -t COMPREPLY < <(compgen -f -- "$cur")
      ;;
  esac
}}
complete -F _squall squall
"""


def bash(top, commands):
    """Completions for bash, in which a value of an option is the word behind it or behind a sign of equality."""
    cases = []
    for command in commands:
        options = names_of(command.options)
        for words, arguments in positions(command):
            kinds = ["file" if it.is_file else "none" for it in arguments]
            if command.forms:
                kinds[0] = "closed"
            rest = kinds[-1] if arguments and arguments[-1].repeats and not command.forms else ""
            pattern = f"'{words}')" if " " in words else f"'{words} '*)"
            cases.append(f"    {pattern} options='{options}' closed='{' '.join(command.forms)}' "
                         f"kinds=({' '.join(kinds)}) rest='{rest}' ;;")
    every = [it for command in commands for it in command.options]
    return BASH.format(
        valued=names_of((it for it in every if it.value), " | "),
        files=names_of((it for it in every if it.is_file), " | "),
        options=names_of(top.options), commands=" ".join([*top.commands, "help"]), cases="\n".join(cases),
    )


def names_of(options, between=" "):
    """The names of options, each once, or an empty word in quotes if there is none."""
    return between.join({name: None for it in options for name in it.names}) or "''"


# ---- zsh


def quoted(text):
    return "'" + text.replace("'", "'\\''") + "'"


def zsh_escaped(text):
    return re.sub(r"([\[\]:\\])", r"\\\1", text)


def zsh_options(options):
    for it in options:
        value = f":{it.value}:{'_files' if it.is_file else ' '}" if it.value else ""
        about = quoted(f"[{zsh_escaped(it.about)}]{value}")
        names = [f"{name}=" if value and name.startswith("--") else name for name in it.names]
        before = "'(- *)'" if it.is_alone else "'*'" if value else ""
        yield before + (f"{{{','.join(names)}}}" if len(names) > 1 else names[0]) + about


def zsh_arguments(command, arguments):
    for at, it in enumerate(arguments, 1):
        where = "*" if it.repeats and not command.forms else str(at)
        does = f"({' '.join(command.forms)})" if command.forms and at == 1 else "_files" if it.is_file else " "
        yield quoted(f"{where}:{zsh_escaped(it.about or it.name)}:{does}")


def zsh(top, commands):
    """Completions for zsh."""
    lines = ["#compdef squall", "# Completions of squall for zsh, made of the help of squall.", "_squall() {"]
    lines += ["  local state line curcontext=$curcontext", "  local -a commands=("]
    lines += [f"    {quoted(f'{name}:{zsh_escaped(about)}')}" for name, about in top.commands.items()]
    lines += ["    'help:Print help'", "  )", "  _arguments -C \\"]
    lines += [f"    {it} \\" for it in zsh_options(top.options)]
    lines += ["    '1: :->command' '*:: :->words'", "  case $state in"]
    lines += ["    command) _describe command commands ;;", "    words)", '      case "$words[1] $words[2]" in']
    lines += ["        'help '*) _describe command commands ;;"]
    for command in commands:
        for words, arguments in positions(command):
            lines.append(f"        {quoted(words) if ' ' in words else quoted(words + ' ') + '*'})")
            lines += ["          _arguments \\", *(f"            {it} \\" for it in zsh_options(command.options))]
            lines += [f"            {it} \\" for it in zsh_arguments(command, arguments)]
            lines += ["            && return", "          ;;"]
    return "\n".join([*lines, "      esac", "      ;;", "  esac", "}", '_squall "$@"']) + "\n"


# ---- fish


FISH = """\
# Completions of squall for fish, made of the help of squall.

# The words so far, without options and their values.
function __squall_words
    set -l value no
    for it in (commandline -opc)[2..-1]
        if test $value = yes
            set value no
        else if contains -- $it {valued}
            set value yes
        else if test "$it" = - || not string match -q -- '-*' $it
            echo $it
        end
    end
end

# Whether the words so far begin with the words that are given last, and as many as the first and the second number say,
# or more than the first if the second is -, follow the command.
function __squall_at
    set -l words (__squall_words)
    set -l count (math (count $words) - 1)
    test $count -ge $argv[1] || return 1
    test $argv[2] = - || test $count -le $argv[2] || return 1
    for at in (seq 3 (count $argv))
        test "$words[$(math $at - 2)]" = $argv[$at] || return 1
    end
end

complete -c squall -f
"""


def fish(top, commands):
    """Completions for fish."""
    lines = [FISH.format(valued=names_of(it for command in commands for it in command.options if it.value))]
    said = lambda condition, rest: lines.append(f"complete -c squall -n {fish_quoted(condition)} {rest}")
    none = "not count (__squall_words) > /dev/null"
    for name, about in {**top.commands, "help": "Print help"}.items():
        said(none, f"-a {name} -d {fish_quoted(about)}")
    said("__squall_at 0 0 help", f"-a {fish_quoted(' '.join([*top.commands, 'help']))}")
    for it in top.options:
        said(none, fish_option(it))
    for command in commands:
        for it in command.options:
            said(f"__squall_at 0 - {command.name}", fish_option(it))
        if command.forms:
            said(f"__squall_at 0 0 {command.name}", f"-a {fish_quoted(' '.join(command.forms))}")
        for words, arguments in positions(command):
            for at, it in enumerate(arguments):
                if it.is_file:
                    said(f"__squall_at {at} {'-' if it.repeats else at} {words}", f"-F -d {fish_quoted(it.about)}")
    return "\n".join(lines) + "\n"


def fish_quoted(text):
    return "'" + text.replace("\\", "\\\\").replace("'", "\\'") + "'"


def fish_option(option):
    short = f"-s {option.short[1:]} " if option.short else ""
    value = " -r -F" if option.is_file else " -x" if option.value else ""
    return f"{short}-l {option.long[2:]}{value} -d {fish_quoted(option.about)}"
