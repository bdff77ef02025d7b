//! Lists of procedures, as they are given with the command.

use super::Procedures;
use crate::nearest::hint;
use crate::words::quoted;

/// The procedures of a list of numbers and names, separated by commas. The recipe has so many procedures and these
/// names of theirs, none where it has no text. What is wrong with a list is told in a sentence.
pub fn procedures(list: &str, count: usize, names: &[String]) -> Result<Procedures, String> {
    if list.trim().is_empty() {
        return Err("the list is empty, and a maker has at least one procedure".to_string());
    }
    list.split(',').map(|item| number(item.trim(), count, names)).collect()
}

fn number(item: &str, count: usize, names: &[String]) -> Result<usize, String> {
    let shown = quoted(item);
    if item.is_empty() {
        return Err("between two commas, or beside one, a procedure is missing".to_string());
    }
    if item.bytes().all(|byte| byte.is_ascii_digit()) {
        let number = item.parse().ok().filter(|number| *number < count);
        let last = count.saturating_sub(1);
        return number.ok_or_else(|| format!("there is no procedure {shown}: the last one is {last}"));
    }
    names.iter().position(|name| name == item).ok_or_else(|| match names {
        [] => format!("{shown} is no number, and without a text in the readable notation procedures have no names"),
        names => format!("there is no procedure {shown}{}", hint(item, names.iter().map(|name| &**name), "")),
    })
}

#[cfg(test)]
mod tests {
    use super::*;

    fn told(list: &str, names: &[&str]) -> Result<Vec<usize>, String> {
        let names: Vec<String> = names.iter().map(|name| name.to_string()).collect();
        procedures(list, 4, &names).map(|found| found.into_iter().collect())
    }

    #[test]
    fn numbers_and_names_are_read() {
        let names = ["main", "pump", "drain", "roll"];
        for (list, due) in [
            ("1", &[1][..]),
            ("3,0,2", &[0, 2, 3]),
            ("1,01,1", &[1]),
            ("pump", &[1]),
            ("roll,pump,main", &[0, 1, 3]),
            (" drain , 1 ", &[1, 2]),
            ("pump,1,2", &[1, 2]),
        ] {
            assert_eq!(told(list, &names), Ok(due.to_vec()), "{list}");
        }
        assert_eq!(told("2,1", &[]), Ok(vec![1, 2]));
    }

    #[test]
    fn wrong_items_are_told() {
        let names = ["main", "pump", "drain", "roll"];
        let missing = "between two commas, or beside one, a procedure is missing";
        let empty = "the list is empty, and a maker has at least one procedure";
        let no_text = "\"pump\" is no number, and without a text in the readable notation procedures have no names";
        for (list, names, due) in [
            ("", &names[..], empty),
            ("  ", &names, empty),
            (",", &names, missing),
            ("1,,2", &names, missing),
            ("1,", &names, missing),
            ("4", &names, "there is no procedure \"4\": the last one is 3"),
            ("1,99999999999999999999999", &[], "there is no procedure \"99999999999999999999999\": the last one is 3"),
            ("pmp", &names, "there is no procedure \"pmp\"; did you mean \"pump\"?"),
            ("roll,Drain", &names, "there is no procedure \"Drain\"; did you mean \"drain\"?"),
            ("press", &names, "there is no procedure \"press\""),
            ("-1", &names, "there is no procedure \"-1\""),
            ("+1", &names, "there is no procedure \"+1\""),
            ("1 2", &names, "there is no procedure \"1 2\""),
            ("pump", &[], no_text),
        ] {
            assert_eq!(told(list, names), Err(due.to_string()), "{list}");
        }
    }
}
