//! Texts that `disassemble` wrote, with other units.

/// The same text where each template declares what is given for it, in their order, or nothing.
pub fn declaring(text: &str, mut units: impl FnMut() -> Option<usize>) -> String {
    let Some((before, rest)) = text.split_once("\nletrec\n") else { return text.to_string() };
    let (templates, after) = rest.split_once("\nin\n").expect("a main clause");
    let line = |line: &str| match line.strip_prefix("  T").and_then(|head| head.strip_suffix(" =")) {
        Some(head) => {
            let head = head.split(" sized ").next().unwrap_or(head);
            let sized = units().map(|units| format!(" sized {units}")).unwrap_or_default();
            format!("  T{head}{sized} =")
        }
        None => line.to_string(),
    };
    let templates: Vec<String> = templates.lines().map(line).collect();
    format!("{before}\nletrec\n{}\nin\n{after}", templates.join("\n"))
}
