//! The help texts.

/// The text of a subcommand.
pub fn of(command: &str) -> Option<&'static str> {
    Some(match command {
        "asm" => ASM,
        "dis" => DIS,
        "check" => CHECK,
        "run" => RUN,
        "why" => WHY,
        "makers" => MAKERS,
        "state" => STATE,
        "timeline" => TIMELINE,
        _ => return None,
    })
}

pub const TOOL: &str = include_str!("help/tool.txt");
const ASM: &str = include_str!("help/asm.txt");
const DIS: &str = include_str!("help/dis.txt");
const CHECK: &str = include_str!("help/check.txt");
const RUN: &str = include_str!("help/run.txt");
const WHY: &str = include_str!("help/why.txt");
const MAKERS: &str = include_str!("help/makers.txt");
const STATE: &str = include_str!("help/state.txt");
const TIMELINE: &str = include_str!("help/timeline.txt");

#[cfg(test)]
mod tests {
    use super::*;
    use crate::asm::assemble;

    #[test]
    fn the_examples_can_be_assembled() {
        let examples: Vec<&str> = ASM.split("\n\n").filter(|part| part.starts_with("    ")).collect();
        let [raw, readable, _statements] = examples[..] else {
            panic!("{examples:?}");
        };
        assert_eq!(assemble(raw).unwrap().len(), 16);
        let text: String = readable.lines().map(|line| format!("{}\n", &line[4..])).collect();
        assert!(assemble(&text).is_ok(), "{text}");
    }
}
