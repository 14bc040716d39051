//! The table as scripts that complete command lines.

use crate::cli::table::{Command, Kind, Opt};

pub const SHELLS: &[&str] = &["bash", "zsh", "fish"];

const MADE: &str = "Made by `make manual` from the table of commands.";

/// The commands of the table.
type Commands<'a> = &'a [&'a Command];

/// The script for a shell of [`SHELLS`].
pub fn script(shell: &str, commands: Commands) -> String {
    match shell {
        "zsh" => zsh(commands),
        "fish" => fish(commands),
        _ => bash(commands),
    }
}

fn names(commands: Commands) -> Vec<&'static str> {
    commands.iter().map(|command| command.name).collect()
}

/// The words that a value may be, and whether a file may stand there.
fn choices(kind: Kind, commands: Commands) -> (Vec<&'static str>, bool) {
    match kind {
        Kind::Number | Kind::Text => (vec![], false),
        Kind::Disk => (vec!["P", "Q"], false),
        Kind::File | Kind::Folder => (vec![], true),
        Kind::Command => (names(commands), false),
        Kind::Word(words) => (words.to_vec(), false),
        Kind::WordOrFile(words) => (words.to_vec(), true),
    }
}

/// Text between single quotes.
fn quoted(text: &str) -> String {
    format!("'{}'", text.replace('\'', r"'\''"))
}

/// The branch of a `case` that sets what may stand there.
fn branch(pattern: &str, words: &[&str], files: bool) -> String {
    let (words, files) = (quoted(&words.join(" ")), if files { "yes" } else { "''" });
    format!("            {pattern}) words={words} files={files} ;;\n")
}

fn bash_of(command: &Command, commands: Commands) -> String {
    let mut text = format!("        {})\n            case $before in\n", command.name);
    for (option, _) in command.options() {
        if let Some((_, kind)) = option.value {
            let (words, files) = choices(kind, commands);
            text += &branch(option.name, &words, files);
        }
    }
    let options = command.options().map(|(option, _)| option.name);
    let operands = command.operands().map(|(operand, _)| choices(operand.kind, commands));
    let (mut words, mut files): (Vec<&str>, bool) = (options.chain(["--help"]).collect(), false);
    for (more, file) in operands {
        words.extend(more);
        files |= file;
    }
    text + &branch("*", &words, files) + "            esac ;;\n"
}

fn bash(commands: Commands) -> String {
    let cases: String = commands.iter().map(|command| bash_of(command, commands)).collect();
    let first = quoted(&[&names(commands)[..], &["--help", "--version"]].concat().join(" "));
    format!(
        r#"# Completion of cuzhaveli for bash. {MADE}
_cuzhaveli() {{
    local word=${{COMP_WORDS[COMP_CWORD]}} before=${{COMP_WORDS[COMP_CWORD - 1]}} words='' files=''
    if [ "$COMP_CWORD" -eq 1 ]; then
        words={first}
    else
        case ${{COMP_WORDS[1]}} in
{cases}        esac
    fi
    mapfile -t COMPREPLY < <(compgen -W "$words" -- "$word")
    if [ -n "$files" ] && [ "${{word#-}}" = "$word" ]; then
        mapfile -t -O "${{#COMPREPLY[@]}}" COMPREPLY < <(compgen -f -- "$word")
    fi
}}
complete -o filenames -F _cuzhaveli cuzhaveli
"#
    )
}

/// What zsh does for a value.
fn zsh_action(kind: Kind, commands: Commands) -> String {
    match choices(kind, commands) {
        (words, false) if words.is_empty() => " ".into(),
        (words, false) => format!("({})", words.join(" ")),
        _ if kind == Kind::Folder => "_files -/".into(),
        (words, true) if !words.is_empty() => {
            format!("{{_alternative \"plans:plan:({})\" files:file:_files}}", words.join(" "))
        }
        _ => "_files".into(),
    }
}

fn zsh_option(option: &Opt, many: bool, commands: Commands) -> String {
    let about = option.about.replace(['[', ']'], "").replace(':', r"\:");
    let star = if many { "*" } else { "" };
    let (name, long) = (option.name, option.name.starts_with("--"));
    let spec = match option.value {
        None => format!("{star}{name}[{about}]"),
        Some((value, kind)) => {
            let sign = if long { "=" } else { "+" };
            format!("{star}{name}{sign}[{about}]:{value}:{}", zsh_action(kind, commands))
        }
    };
    format!(" \\\n            {}", quoted(&spec))
}

fn zsh_of(command: &Command, commands: Commands) -> String {
    let options = command.options().map(|(option, many)| zsh_option(option, many, commands));
    let operands = command.operands().map(|(operand, many)| {
        let spec = format!(
            "{}:{}:{}",
            if many { "*" } else { "" },
            operand.name,
            zsh_action(operand.kind, commands)
        );
        format!(" \\\n            {}", quoted(&spec))
    });
    let words: String = options.chain(operands).collect();
    format!("    {})\n        _arguments -s '--help[what it does]'{words} ;;\n", command.name)
}

fn zsh(commands: Commands) -> String {
    let described = |one: &&Command| quoted(&format!("{}:{}", one.name, one.brief));
    let names: Vec<String> = commands.iter().map(described).collect();
    let cases: String = commands.iter().map(|command| zsh_of(command, commands)).collect();
    format!(
        r#"#compdef cuzhaveli
# Completion of cuzhaveli for zsh. {MADE}
_cuzhaveli() {{
    local -a commands=(
        {}
    )
    if (( CURRENT == 2 )); then
        _describe command commands
        return
    fi
    shift words
    (( CURRENT-- ))
    case $words[1] in
{cases}    esac
}}
_cuzhaveli "$@"
"#,
        names.join("\n        ")
    )
}

fn fish_option(option: &Opt, commands: Commands) -> String {
    let name = match option.name.strip_prefix("--") {
        Some(long) => format!("-l {long}"),
        None => format!("-s {}", &option.name[1..]),
    };
    let value = match option.value.map(|(_, kind)| choices(kind, commands)) {
        None => String::new(),
        Some((words, true)) if words.is_empty() => " -r -F".into(),
        Some((words, true)) => format!(" -r -F -a {}", quoted(&words.join(" "))),
        Some((words, false)) => format!(" -x -a {}", quoted(&words.join(" "))),
    };
    format!("{name}{value} -d {}", quoted(option.about))
}

fn fish_of(command: &Command, commands: Commands) -> String {
    let start = format!(
        "complete -c cuzhaveli -n {}",
        quoted(&format!("__fish_seen_subcommand_from {}", command.name))
    );
    let options =
        command.options().map(|(option, _)| format!("{start} {}\n", fish_option(option, commands)));
    let operands = command.operands().map(|(operand, _)| match choices(operand.kind, commands) {
        (_, true) => format!("{start} -F\n"),
        (words, false) => format!("{start} -a {}\n", quoted(&words.join(" "))),
    });
    options.chain(operands).collect()
}

fn fish(commands: Commands) -> String {
    let mut text =
        format!("# Completion of cuzhaveli for fish. {MADE}\ncomplete -c cuzhaveli -f\n");
    text += "complete -c cuzhaveli -l help -d 'what it does'\n";
    for command in commands {
        let (name, brief) = (command.name, quoted(command.brief));
        text += &format!("complete -c cuzhaveli -n __fish_use_subcommand -a {name} -d {brief}\n");
    }
    text + &commands.iter().map(|command| fish_of(command, commands)).collect::<String>()
}
