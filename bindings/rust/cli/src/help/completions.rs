//! Completions for bash and zsh: the commands, their options, and what stands behind an option.

use labrador::section_one::PARAMETERS;
use labrador::Slice;

use super::{Command, Opt, COMMANDS, EXPLAIN, LOAD};

/// The kinds that `--as` takes.
fn kinds() -> String {
    Slice::ALL.map(Slice::name).join(" ")
}

/// The options of all commands that do so, each once.
fn options(which: impl Fn(&Opt) -> bool) -> String {
    let all = COMMANDS.iter().flat_map(|command| command.options);
    let mut names: Vec<&str> = all.filter(|option| which(option)).map(|option| option.name).collect();
    names.sort_unstable();
    names.dedup();
    names.join(" | ")
}

fn parameters() -> String {
    PARAMETERS.map(|p| format!("{}=", p.name)).join(" ")
}

/// The options of a command, and what it takes beside them.
fn bash_case(command: &Command) -> String {
    let options: Vec<&str> = command.options.iter().map(|option| option.name).collect();
    let rest = match command.name {
        name if name == LOAD.name => format!("words='{}'", parameters()),
        name if name == EXPLAIN.name => "words=''".to_string(),
        _ => "words=FILES".to_string(),
    };
    format!("    {}) options='{}' {rest} ;;\n", command.name, options.join(" "))
}

pub fn bash() -> String {
    let names: Vec<&str> = COMMANDS.iter().map(|command| command.name).collect();
    let (names, name) = (names.join(" "), super::program());
    let function = name.replace('-', "_");
    let cases: String = COMMANDS.into_iter().map(bash_case).collect();
    let files = options(Opt::takes_file);
    let kinds_of = options(|option| option.value == "KIND");
    let others = options(|option| !matches!(option.value, "" | "KIND") && !option.takes_file());
    let kinds = kinds();
    format!(
        r#"# Completions of {name} for bash, which prints them: {name} help --bash
_{function}() {{
    local word=${{COMP_WORDS[COMP_CWORD]}} before=${{COMP_WORDS[COMP_CWORD - 1]}} options='' words=''
    COMPREPLY=()
    # bash parts --option=value at the sign
    if [ "$word" = '=' ]; then
        word=''
    elif [ "$before" = '=' ]; then
        before=${{COMP_WORDS[COMP_CWORD - 2]}}
    fi
    case ${{COMP_WORDS[1]}} in
{cases}    help) options='--man --bash --zsh' words='{names}' ;;
    esac
    if [ "$COMP_CWORD" -eq 1 ]; then before='' options='--help --version' words='{names} help'; fi
    case $before in
    {files}) words=FILES ;;
    {kinds_of}) words='{kinds}' ;;
    {others}) return ;;
    *) if [[ $word == -* ]]; then words=$options; fi ;;
    esac
    if [ "$words" = FILES ]; then
        compopt -o filenames 2>/dev/null
        mapfile -t COMPREPLY < <(compgen -f -- "$word")
        return
    fi
    if [[ $words == *= ]]; then compopt -o nospace 2>/dev/null; fi
    mapfile -t COMPREPLY < <(compgen -W "$words" -- "$word")
}}
complete -F _{function} {name}
"#
    )
}

/// Text within single quotes and, in zsh's specifications, within brackets.
fn quoted(text: &str) -> String {
    text.replace('\'', "'\\''").replace('[', "\\[").replace(']', "\\]").replace(':', "\\:")
}

fn zsh_option(option: &Opt) -> String {
    let value = match option.value {
        "" => String::new(),
        "KIND" => format!(":KIND:({})", kinds()),
        value if option.takes_file() => format!(":{value}:_files"),
        value => format!(":{value}: "),
    };
    let behind = if option.value.is_empty() { "" } else { "=" };
    format!(" \\\n            '{}{behind}[{}]{value}'", option.name, quoted(option.about))
}

fn zsh_case(command: &Command) -> String {
    let options: String = command.options.iter().map(zsh_option).collect();
    let rest = match command.name {
        name if name == LOAD.name => format!("*:parameter:compadd -S \"\" {}", parameters()),
        name if name == EXPLAIN.name => ":number: ".to_string(),
        _ => "*:file:_files".to_string(),
    };
    format!("    {})\n        _arguments{options} \\\n            '{rest}'\n        ;;\n", command.name)
}

pub fn zsh() -> String {
    let name = super::program();
    let function = name.replace('-', "_");
    let line = |command: &Command| format!("        '{}:{}'\n", command.name, quoted(command.brief()));
    let lines: String = COMMANDS.into_iter().map(line).collect();
    let cases: String = COMMANDS.into_iter().map(zsh_case).collect();
    format!(
        r#"#compdef {name}
# Completions of {name} for zsh, which prints them: {name} help --zsh
_{function}() {{
    local -a commands
    commands=(
{lines}        'help:Says what the commands are for, or how one is called'
    )
    if (( CURRENT == 2 )); then
        local -a options
        options=('--help:print what the commands are for' '--version:print the version')
        if [[ $PREFIX == -* ]]; then _describe -o option options; else _describe command commands; fi
        return
    fi
    local command=$words[2]
    shift words
    (( CURRENT-- ))
    case $command in
{cases}    help)
        _arguments \
            '(- 1)--man[print the man page]' \
            '(- 1)--bash[print the completions for bash]' \
            '(- 1)--zsh[print these]' \
            '(-)1:command:{{_describe command commands}}'
        ;;
    esac
}}
_{function} "$@"
"#
    )
}
