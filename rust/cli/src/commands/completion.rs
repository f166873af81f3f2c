//! `completion`: prints what bash needs to complete commands, options and file names. It is made of the list of commands, so that it
//! names just what is there.

use super::{ALL, Command, print, words};
use crate::args::Given;
use crate::status::Outcome;

pub const COMMAND: Command = Command {
    name: "completion",
    usage: "",
    summary: "print bash's completion: source <(zarfolin completion)",
    options: &[],
    run,
};

fn run(given: &Given) -> Outcome {
    let [] = words(given)?;
    let names: Vec<_> = ALL.iter().map(|command| command.name).collect();
    let cases: Vec<_> =
        ALL.iter().map(|command| format!("    {}) options='{}' ;;", command.name, options(command))).collect();
    let script = SCRIPT.replace("@COMMANDS@", &names.join(" ")).replace("@CASES@", &cases.join("\n"));
    print(script.trim_end())
}

fn options(command: &Command) -> String {
    let all = command.options.iter().map(|option| option.long).chain(["--help"]);
    all.collect::<Vec<_>>().join(" ")
}

const SCRIPT: &str = r#"# bash completion for zarfolin
_zarfolin() {
    local word=${COMP_WORDS[COMP_CWORD]} before=${COMP_WORDS[COMP_CWORD-1]} options=
    if [ "$COMP_CWORD" -eq 1 ]; then
        mapfile -t COMPREPLY < <(compgen -W '@COMMANDS@ --help --version' -- "$word")
        return
    fi
    case ${COMP_WORDS[1]} in
@CASES@
    esac
    case $before in
    --format) mapfile -t COMPREPLY < <(compgen -W 'text tsv jsonl' -- "$word") && return ;;
    esac
    case $word in
    -*) mapfile -t COMPREPLY < <(compgen -W "$options" -- "$word") ;;
    *) mapfile -t COMPREPLY < <(compgen -f -- "$word") ;;
    esac
}
complete -o filenames -F _zarfolin zarfolin
"#;
