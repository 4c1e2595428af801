//! Pieces of a page.

use super::style::STYLE;

/// A whole page.
pub fn document(title: &str, body: &str) -> String {
    let title = escape(title);
    format!(
        "<!DOCTYPE html>\n<html lang=\"en\">\n<head>\n<meta charset=\"utf-8\">\n\
         <meta name=\"viewport\" content=\"width=device-width, initial-scale=1\">\n\
         <title>{title}</title>\n<style>\n{STYLE}</style>\n</head>\n<body>\n<main>\n{body}</main>\n</body>\n</html>\n"
    )
}

/// Text as it stands in a page.
pub fn escape(text: &str) -> String {
    let mut out = String::with_capacity(text.len());
    for c in text.chars() {
        match c {
            '&' => out.push_str("&amp;"),
            '<' => out.push_str("&lt;"),
            '>' => out.push_str("&gt;"),
            '"' => out.push_str("&quot;"),
            '\'' => out.push_str("&#39;"),
            c if c.is_control() => out.push('\u{fffd}'),
            c => out.push(c),
        }
    }
    out
}

/// A part of the page under its heading. `id` is a plain name.
pub fn section(id: &str, heading: &str, body: &str) -> String {
    let heading = escape(heading);
    format!("<section aria-labelledby=\"{id}\">\n<h2 id=\"{id}\">{heading}</h2>\n{body}</section>\n")
}

/// A part that begins a sheet of its own in print.
pub fn part(body: &str) -> String {
    format!("<div class=\"part\">\n{body}</div>\n")
}

/// Two pieces beside each other where there is room.
pub fn pair(left: &str, right: &str) -> String {
    format!("<div class=\"pair\">\n<div>\n{left}</div>\n<div>\n{right}</div>\n</div>\n")
}

/// A table with its caption and the heads of its columns; the first cell of a row is its head. Cells are HTML.
pub fn table(class: &str, caption: &str, heads: &[&str], rows: &[Row]) -> String {
    let caption = escape(caption);
    let heads: String = heads.iter().map(|h| format!("<th scope=\"col\">{}</th>", escape(h))).collect();
    let rows: String = rows.iter().map(Row::html).collect();
    format!(
        "<table class=\"{class}\">\n<caption>{caption}</caption>\n<thead><tr>{heads}</tr></thead>\n\
         <tbody>\n{rows}</tbody>\n</table>\n"
    )
}

/// A row of a table.
pub struct Row {
    pub class: &'static str,
    /// HTML, the row's head first.
    pub cells: Vec<String>,
}

impl Row {
    fn html(&self) -> String {
        let mut cells = self.cells.iter();
        let head = cells.next().map(|c| format!("<th scope=\"row\">{c}</th>")).unwrap_or_default();
        let rest: String = cells.map(|c| format!("<td>{c}</td>")).collect();
        format!("<tr class=\"{}\">{head}{rest}</tr>\n", self.class)
    }
}

#[cfg(test)]
mod tests {
    use super::escape;

    #[test]
    fn markup_is_escaped() {
        assert_eq!(escape("<script>\"&'\u{7}"), "&lt;script&gt;&quot;&amp;&#39;\u{fffd}");
    }
}
