//! Makes a script that shows something as small as it can be.

/// The smallest script found by leaving out lines, then parts of lines, for which
/// `shows` still says yes. It must say yes for the script itself.
pub fn shrink(script: &str, mut shows: impl FnMut(&str) -> bool) -> String {
    let mut lines: Vec<String> = script.lines().map(String::from).collect();
    loop {
        let before = lines.clone();
        lines = without_lines(lines, &mut shows);
        lines = with_shorter_lines(lines, &mut shows);
        if lines == before {
            return join(&lines);
        }
    }
}

fn join(lines: &[String]) -> String {
    lines.iter().map(|line| format!("{line}\n")).collect()
}

/// Leaves out runs of lines, long ones first.
fn without_lines(mut lines: Vec<String>, shows: &mut impl FnMut(&str) -> bool) -> Vec<String> {
    let mut run = lines.len() / 2;
    while run > 0 {
        let mut start = 0;
        while start < lines.len() {
            let mut fewer = lines.clone();
            fewer.drain(start..(start + run).min(lines.len()));
            if shows(&join(&fewer)) {
                lines = fewer;
            } else {
                start += run;
            }
        }
        run /= 2;
    }
    lines
}

fn with_shorter_lines(mut lines: Vec<String>, shows: &mut impl FnMut(&str) -> bool) -> Vec<String> {
    for place in 0..lines.len() {
        while let Some(shorter) = shorter_forms(&lines[place]).into_iter().find(|line| {
            let mut changed = lines.clone();
            changed[place].clone_from(line);
            shows(&join(&changed))
        }) {
            lines[place] = shorter;
        }
    }
    lines
}

/// A line with one word left out, one item of a list left out, or one number made
/// smaller.
fn shorter_forms(line: &str) -> Vec<String> {
    let words: Vec<&str> = line.split(' ').collect();
    let mut forms = Vec::new();
    for (place, word) in words.iter().enumerate() {
        let mut without = words.clone();
        without.remove(place);
        forms.push(without.join(" "));
        for smaller in smaller_words(word) {
            let mut changed = words.clone();
            changed[place] = &smaller;
            forms.push(changed.join(" "));
        }
    }
    forms
}

fn smaller_words(word: &str) -> Vec<String> {
    let mut smaller = Vec::new();
    let (head, list) = match word.rfind(['=', ':']) {
        Some(place) => word.split_at(place + 1),
        None => ("", word),
    };
    let items: Vec<&str> = list.split(',').collect();
    if items.len() > 1 {
        for place in 0..items.len() {
            let mut fewer = items.clone();
            fewer.remove(place);
            smaller.push(format!("{head}{}", fewer.join(",")));
        }
    }
    for (place, item) in items.iter().enumerate() {
        let Ok(number) = item.parse::<u64>() else {
            continue;
        };
        for less in [0, 1, number / 2, number.saturating_sub(1)] {
            if less < number {
                let mut changed: Vec<String> = items.iter().map(|i| i.to_string()).collect();
                changed[place] = less.to_string();
                smaller.push(format!("{head}{}", changed.join(",")));
            }
        }
    }
    smaller
}

#[cfg(test)]
mod tests {
    use super::*;

    #[test]
    fn leaves_only_what_shows() {
        let script = "a 5,6\nb 100\nc\nd 7,9,11\n";
        let small = shrink(script, |script| {
            script.contains('b') && script.contains("9")
        });
        assert_eq!(small, "b\n9\n");
    }
}
