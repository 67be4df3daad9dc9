//! Help texts and the shell's completion, kept as files of `help`.

const TEXTS: [(&str, &str); 10] = [
    ("settings", include_str!("../help/settings.txt")),
    ("train", include_str!("../help/train.txt")),
    ("change", include_str!("../help/change.txt")),
    ("inspect", include_str!("../help/inspect.txt")),
    ("report", include_str!("../help/report.txt")),
    ("panel", include_str!("../help/panel.txt")),
    ("trace", include_str!("../help/trace.txt")),
    ("demo", include_str!("../help/demo.txt")),
    ("stand-in", include_str!("../help/stand-in.txt")),
    ("completion", include_str!("../help/completion.txt")),
];
pub const ALL: &str = include_str!("../help/knellstone.txt");
pub const BASH: &str = include_str!("../help/completion.bash");

pub fn of(command: &str) -> Option<&'static str> {
    TEXTS.iter().find(|(name, _)| *name == command).map(|(_, text)| *text)
}

#[cfg(test)]
mod tests {
    use super::*;

    /// Each command's options are in its help and in the completion, and each command is in the list of all.
    #[test]
    fn nothing_is_left_out() {
        let options = [
            ("settings", vec!["--record"]),
            ("train", crate::train::OPTIONS.map(|o| o.0).to_vec()),
            ("inspect", crate::inspect::OPTIONS.map(|o| o.0).to_vec()),
            ("report", crate::report::OPTIONS.map(|o| o.0).to_vec()),
            ("trace", crate::trace::OPTIONS.map(|o| o.0).to_vec()),
        ];
        for (command, options) in options {
            let completed = BASH.lines().find(|line| line.trim().starts_with(&format!("{command}) options="))).unwrap();
            for option in options {
                assert!(of(command).unwrap().contains(option), "{command} {option}");
                assert!(completed.contains(option), "{command} {option}");
            }
        }
        for (command, text) in TEXTS {
            assert!(ALL.contains(&format!("knellstone {command}")), "{command}");
            assert!(BASH.contains(command), "{command}");
            assert!(text.starts_with(&format!("knellstone {command}")), "{command}");
            assert!(text.lines().all(|line| line.len() <= 140), "{command}");
        }
    }
}
