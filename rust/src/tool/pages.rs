//! What other programs show of the commands: completions for bash, and a manual page. Both are made from the table of commands.

use super::arguments::Arguments;
use super::help::{COMMANDS, FOOT};
use super::{done, Answer};

pub fn completions(a: &Arguments) -> Answer {
    a.exactly([])?;
    let names: Vec<&str> = COMMANDS.iter().map(|command| command.name).collect();
    let mut cases = String::new();
    for command in &COMMANDS {
        let options: Vec<&str> = command.values.iter().chain(command.flags).copied().chain(["--help"]).collect();
        cases.push_str(&format!("        {}) options=\"{}\" ;;\n", command.name, options.join(" ")));
    }
    done(format!(
        "\
# Completions of silkendoz for bash.
_silkendoz() {{
    local word=${{COMP_WORDS[COMP_CWORD]}} options=
    if [ \"$COMP_CWORD\" = 1 ] || [ \"${{COMP_WORDS[1]}}\" = help ]; then
        COMPREPLY=($(compgen -W \"{}\" -- \"$word\"))
        return
    fi
    case ${{COMP_WORDS[1]}} in
{cases}    esac
    case $word in
        -*) COMPREPLY=($(compgen -W \"$options\" -- \"$word\")) ;;
        *) COMPREPLY=() ;;
    esac
}}
complete -o default -F _silkendoz silkendoz
",
        names.join(" ")
    ))
}

pub fn manual(a: &Arguments) -> Answer {
    a.exactly([])?;
    let version = env!("CARGO_PKG_VERSION");
    let mut page = format!(".TH SILKENDOZ 1 \"\" \"silkendoz {version}\"\n.SH NAME\nsilkendoz \\- the nearest stored trace, exactly\n.SH SYNOPSIS\n");
    for command in &COMMANDS {
        let usage = if command.usage.is_empty() { String::new() } else { roff(command.usage) + "\n" };
        page.push_str(&format!(".B silkendoz {}\n{usage}.br\n", command.name));
    }
    page.push_str(".SH COMMANDS\n");
    for command in &COMMANDS {
        page.push_str(&format!(".SS {} \\- {}\n.nf\n{}\n.fi\n", command.name, roff(command.about), roff(command.text.trim_end())));
    }
    page.push_str(&format!(".SH FURTHER\n.nf\n{}\n.fi\n", roff(FOOT.trim_end())));
    done(page)
}

/// A text that stands for itself: no line begins a request, no letter is an escape.
fn roff(text: &str) -> String {
    let escaped = text.replace('\\', "\\e").replace('-', "\\-").replace('`', "\\(ga");
    let line = |line: &str| if line.starts_with(['.', '\'']) { format!("\\&{line}") } else { line.to_string() };
    escaped.lines().map(line).collect::<Vec<_>>().join("\n")
}
