//! `usm completions`: what a shell needs to complete arguments. `install` puts it in place.

use std::io::Write;

use clap::{Args, CommandFactory};
use clap_complete::{Shell, generate};

use crate::Arguments;
use crate::output::{Error, Status, write_all};

/// Write completions for a shell
#[derive(Args)]
pub struct Completions {
    shell: Shell,
}

impl Completions {
    pub fn run(self) -> Status {
        let mut script = Vec::new();
        generate(self.shell, &mut Arguments::command(), "usm", &mut script);
        if self.shell == Shell::Bash {
            script = with_files(&String::from_utf8_lossy(&script)).into_bytes();
        }
        write_all(|output| output.write_all(&script).map_err(Error::Output))
    }
}

/// The script for bash as it should be. clap_complete 4.0 offers placeholders such as `<FILE>...` in the place of files,
/// and commands that are hidden.
fn with_files(script: &str) -> String {
    let mut made = String::new();
    let mut takes_files = false;
    for line in script.lines() {
        if let Some(words) = line.trim_start().strip_prefix("opts=\"").and_then(|words| words.strip_suffix('"')) {
            let is_placeholder = |word: &str| word.starts_with(['<', '[']);
            takes_files = words.split(' ').any(is_placeholder);
            let kept: Vec<&str> =
                words.split(' ').filter(|word| !is_placeholder(word) && *word != "completions").collect();
            made.push_str(&format!("            opts=\"{}\"\n", kept.join(" ")));
        } else if takes_files && line.contains("|| ${COMP_CWORD} -eq 2 ]]") {
            made.push_str("            if [[ ${cur} == -* ]] ; then\n");
        } else if takes_files && line == "            COMPREPLY=( $(compgen -W \"${opts}\" -- \"${cur}\") )" {
            made.push_str("            compopt -o filenames 2>/dev/null\n");
            made.push_str("            mapfile -t COMPREPLY < <(compgen -f -- \"${cur}\")\n");
        } else {
            made.push_str(line);
            made.push('\n');
        }
    }
    made
}
