//! A page with the picture and the story.

use super::svg::escaped;

const STYLE: &str = "\
:root { color-scheme: light dark; }
body { margin: 24px auto; max-width: 1008px; padding: 0 24px; background: #ffffff; color: #1b1f24; }
figure { margin: 0; overflow-x: auto; }
pre { font: 13px/1.5 ui-monospace, 'DejaVu Sans Mono', Menlo, Consolas, monospace; white-space: pre-wrap; }
@media (prefers-color-scheme: dark) { body { background: #14171c; color: #e8eaed; } }
";

pub fn page(title: &str, picture: &str, story: &str) -> String {
    let (title, story) = (escaped(title), escaped(story));
    format!(
        "<!doctype html>\n<html lang=\"en\">\n<head>\n<meta charset=\"utf-8\">\n\
         <meta name=\"viewport\" content=\"width=device-width, initial-scale=1\">\n\
         <title>{title}</title>\n<style>\n{STYLE}</style>\n</head>\n<body>\n<figure>\n{picture}</figure>\n\
         <pre>\n{story}</pre>\n</body>\n</html>\n"
    )
}
