"""What is made of words.toml: how the program is used, the synopsis of its page, and the completions of three shells."""
import tomllib
from pathlib import Path

HERE = Path(__file__).resolve().parent
# What a shell shows of what an option or an operand is, where that isn't the word itself.
LABELS = {'N': 'lines', 'M': 'lines', 'RE': 'pattern', 'STRING': 'prompt', 'CERT': 'certificate'}
# How the names of files end that are offered first.
SUFFIXES = {'FILE': '', 'SCRIPT': '.ed', 'CERT': '.cert'}
OF_HELP = 'show the words'


class Option:
    """A word that begins with a hyphen, as one command takes it."""

    def __init__(self, name, command, entry):
        self.name, self.names = name, [name] + ([entry['long']] if 'long' in entry else [])
        self.takes, self.values = entry.get('takes'), entry.get('values', [])
        self.repeats = command in entry.get('repeats', [])
        self.says = entry.get('in', {}).get(command, entry['says'])


class Command:
    """A subcommand: its options in the order of the usage, and its operands, each with whether it may be left out."""

    def __init__(self, entry, options):
        self.name, self.says, self.takes_script = entry['name'], entry['says'], entry['takes_script']
        self.options = [Option(name, self.name, options[name]) for name in entry['options']]
        self.operands = [(word.strip('[]'), word.startswith('[')) for word in entry['operands']]

    def usage(self):
        """How it is used, in one line."""
        options = [f'[{option.name} {option.takes}]' if option.takes else f'[{option.name}]' for option in self.options]
        operands = [f'[{word}]' if optional else word for word, optional in self.operands]
        return ' '.join(['edv', self.name, *options, *operands, *(['<SCRIPT'] if self.takes_script else [])])


def commands():
    with open(HERE / 'words.toml', 'rb') as file:
        table = tomllib.load(file)
    return [Command(entry, table['option']) for entry in table['command']]


def label(word):
    return LABELS.get(word, word.lower())


def argument(word):
    """A word that stands for what is given, as the page names it."""
    return 'certificate' if word == 'CERT' else word.lower()


def synopsis(command):
    """The lines of a command in the synopsis of a page in mdoc."""
    lines = ['.Nm', f'.Cm {command.name}']
    for option in command.options:
        lines.append(f'.Op Fl {option.name[1:]}' + (f' Ar {argument(option.takes)}' if option.takes else ''))
    return lines + [f'.Op Ar {argument(word)}' if optional else f'.Ar {argument(word)}' for word, optional in command.operands]


def bash(table):
    options = {name: option for command in table for option in command.options for name in option.names}
    taking = {word: [name for name, option in options.items() if option.takes == word] for word in {o.takes for o in options.values()} - {None}}
    after = [(taking[word], f'_edv_files "$word" {suffix}'.rstrip()) for word, suffix in SUFFIXES.items() if word in taking]
    after += [([name], f'mapfile -t COMPREPLY < <(compgen -W "{" ".join(option.values)}" -- "$word")')
              for name, option in options.items() if option.values]
    after.append(([name for name, option in options.items() if option.takes and option.takes not in SUFFIXES and not option.values], ':'))
    words = [f'  {command.name}) words="{" ".join(name for option in command.options for name in option.names)}{" " * bool(command.options)}--help" ;;'
             for command in table]
    operands = [f'  {command.name}{number}) _edv_files "$word" {SUFFIXES[word]}'.rstrip() + ' ;;'
                for command in table for number, (word, _) in enumerate(command.operands)]
    return filled('edv.bash.in', {
        'jobs': ' '.join(command.name for command in table),
        'taking': ' | '.join(name for name, option in options.items() if option.takes),
        'after': '\n'.join(f'  {" | ".join(names)})\n    {done}\n    return\n    ;;' for names, done in after),
        'words': '\n'.join(words),
        'operands': '\n'.join(operands),
    })


def zsh_files(word):
    return f':{label(word)}:_files' + (f' -g "*{SUFFIXES[word]}(-.)"' if SUFFIXES[word] else '')


def zsh_option(option):
    takes = ''
    if option.takes in SUFFIXES:
        takes = zsh_files(option.takes)
    elif option.takes:
        takes = f':{label(option.takes)}:' + (f'({" ".join(option.values)})' if option.values else '')
    others = {name: [other for other in option.names if other != name] for name in option.names}
    return [f"'{'*' * option.repeats}{'(' + ' '.join(others[name]) + ')' if others[name] else ''}{name}[{option.says}]{takes}'"
            for name in option.names]


def zsh(table):
    jobs = [f'{command.name}\\:"{command.says}"' for command in table]
    lines = []
    for command in table:
        words = [word for option in command.options for word in zsh_option(option)] + [f"'--help[{OF_HELP}]'"]
        words += [f"'{number}{zsh_files(word)}'" for number, (word, _) in enumerate(command.operands, 1)]
        lines.append(f'  {command.name}) _arguments {" ".join(words)} ;;')
    return filled('_edv.in', {
        'jobs': ' '.join([*jobs, f'help\\:"{OF_HELP} of one"']),
        'words': '\n'.join(lines),
        'names': ' '.join(command.name for command in table),
    })


def fish_option(command, option):
    names = ''.join(f' -l {name[2:]}' if name.startswith('--') else f' -s {name[1:]}' for name in option.names)
    takes = ''
    if option.takes in SUFFIXES:
        takes = f" -r -k -a '(__fish_complete_suffix {SUFFIXES[option.takes]})'" if SUFFIXES[option.takes] else ' -r -F'
    elif option.takes:
        takes = ' -x' + (f" -a '{' '.join(option.values)}'" if option.values else '')
    return f"complete -c edv -n '__edv_job {command}'{names}{takes} -d '{option.says}'"


def fish(table):
    lines = []
    for command in table:
        lines.append(f"complete -c edv -n __edv_no_job -a {command.name} -d '{command.says}'")
    for command in table:
        lines += [fish_option(command.name, option) for option in command.options]
        suffix = SUFFIXES[command.operands[0][0]]
        lines.append(f"complete -c edv -n '__edv_job {command.name}'" + (f" -k -a '(__fish_complete_suffix {suffix})'" if suffix else ' -F'))
    names = ' '.join(command.name for command in table)
    return filled('edv.fish.in', {'words': '\n'.join(lines), 'names': names, 'of_help': OF_HELP})


def filled(file, parts):
    """The text of a template, with each part in place of its name."""
    text = (HERE / 'completions' / file).read_text(encoding='utf-8')
    for name, part in parts.items():
        text = text.replace(f'@{name}@', part)
    return text


def completions():
    """Each file of completions, by its path under packaging/, and what it has to hold."""
    table = commands()
    return {'completions/edv.bash': bash(table), 'completions/_edv': zsh(table), 'completions/edv.fish': fish(table)}
