//! A drawing as SVG. What is opened is closed, and every text is escaped, so that it is well formed by the way it is made.

pub struct Svg {
    text: String,
}

/// An attribute's name and value.
pub type Attribute<'a> = (&'a str, String);

impl Svg {
    /// An empty drawing with a title, for those who cannot see it too, and a style.
    pub fn new(width: f64, height: f64, title: &str, style: &str) -> Svg {
        let mut svg = Svg { text: String::from("<?xml version=\"1.0\" encoding=\"UTF-8\"?>\n") };
        let size = format!("width=\"{width}\" height=\"{height}\" viewBox=\"0 0 {width} {height}\"");
        svg.text.push_str(&format!("<svg xmlns=\"http://www.w3.org/2000/svg\" role=\"img\" {size}>\n"));
        svg.text.push_str(&format!("<title>{}</title>\n<style>\n{style}</style>\n", escaped(title)));
        svg.element("rect", &[("class", "paper".to_string()), ("width", width.to_string()), ("height", height.to_string())]);
        svg
    }

    /// An empty drawing to stand in a page, as wide as there is room; the page has the style.
    pub fn inside(width: f64, height: f64, title: &str) -> Svg {
        let mut svg = Svg { text: String::new() };
        svg.text.push_str(&format!("<svg xmlns=\"http://www.w3.org/2000/svg\" role=\"img\" viewBox=\"0 0 {width} {height}\">\n"));
        svg.text.push_str(&format!("<title>{}</title>\n", escaped(title)));
        svg
    }

    pub fn element(&mut self, tag: &str, attributes: &[Attribute<'_>]) {
        self.text.push_str(&format!("<{tag}{}/>\n", written(attributes)));
    }

    pub fn line(&mut self, class: &str, from: (f64, f64), to: (f64, f64)) {
        let ends = [("x1", from.0), ("y1", from.1), ("x2", to.0), ("y2", to.1)].map(|(name, at)| (name, place(at)));
        self.element("line", &[&[("class", class.to_string())], &ends[..]].concat());
    }

    /// A line through points; a mark on each if they are few.
    pub fn curve(&mut self, class: &str, points: &[(f64, f64)]) {
        let through: Vec<String> = points.iter().map(|&(x, y)| format!("{},{}", place(x), place(y))).collect();
        self.element("polyline", &[("class", class.to_string()), ("points", through.join(" "))]);
        if points.len() <= 32 {
            for &(x, y) in points {
                let at = [("cx", place(x)), ("cy", place(y)), ("r", "2.5".to_string())];
                self.element("circle", &[&[("class", class.to_string())], &at[..]].concat());
            }
        }
    }

    /// What these points go around.
    pub fn area(&mut self, class: &str, points: &[(f64, f64)]) {
        let around: Vec<String> = points.iter().map(|&(x, y)| format!("{},{}", place(x), place(y))).collect();
        self.element("polygon", &[("class", class.to_string()), ("points", around.join(" "))]);
    }

    pub fn label(&mut self, class: &str, at: (f64, f64), text: &str) {
        let attributes = [("class", class.to_string()), ("x", place(at.0)), ("y", place(at.1))];
        self.text.push_str(&format!("<text{}>{}</text>\n", written(&attributes), escaped(text)));
    }

    pub fn finish(mut self) -> String {
        self.text.push_str("</svg>\n");
        self.text
    }
}

fn place(at: f64) -> String {
    format!("{at:.1}")
}

fn written(attributes: &[Attribute<'_>]) -> String {
    attributes.iter().map(|(name, value)| format!(" {name}=\"{}\"", escaped(value))).collect()
}

/// Text as XML takes it, and HTML.
pub fn escaped(text: &str) -> String {
    let mut safe = String::new();
    for c in text.chars() {
        match c {
            '&' => safe.push_str("&amp;"),
            '<' => safe.push_str("&lt;"),
            '>' => safe.push_str("&gt;"),
            '"' => safe.push_str("&quot;"),
            // no part of any XML
            '\u{fffe}' | '\u{ffff}' => {}
            c if c.is_control() => safe.push(' '),
            c => safe.push(c),
        }
    }
    safe
}

#[cfg(test)]
mod tests {
    use super::*;

    #[test]
    fn texts_are_escaped() {
        assert_eq!(escaped("a < b & \"c\"\u{7}\u{ffff}>"), "a &lt; b &amp; &quot;c&quot; &gt;");
    }
}
